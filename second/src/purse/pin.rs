//! The PIN block.

use super::Block;

/// 01: "nibble 2, length 4–12, digits, F to 16 nibbles".
pub fn is_block(block: &Block) -> bool {
    let nibbles: Vec<u8> = block
        .iter()
        .flat_map(|byte| [byte >> 4, byte & 0xF])
        .collect();
    let [2, length @ 4..=12, places @ ..] = nibbles.as_slice() else {
        return false;
    };
    let (digits, fill) = places.split_at(usize::from(*length));
    digits.iter().all(|digit| *digit <= 9) && fill.iter().all(|nibble| *nibble == 0xF)
}
