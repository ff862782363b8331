//! DES and two-key triple DES of FIPS 46-3, on words: a block and a key are a u64, a half of a
//! block is a u32. Bit 1 of the standard is the highest bit of its word.

mod tables;

use std::cell::Cell;

use tables::{E, IP, IP_INVERSE, P, PC1, PC2, S, SHIFTS};

thread_local! {
    static BLOCKS: Cell<u64> = const { Cell::new(0) };
}

/// How many DES blocks this thread has enciphered or deciphered.
pub fn blocks() -> u64 {
    BLOCKS.get()
}

/// DES under one key: the round keys, 48 bits each.
pub struct Des {
    round_keys: [u64; 16],
}

impl Des {
    pub fn new(key: u64) -> Des {
        let chosen = permute(key, 64, PC1.as_flattened());
        let mut c = (chosen >> 28) as u32;
        let mut d = chosen as u32 & HALF_KEY;
        let round_keys = SHIFTS.map(|shift| {
            c = rotate_28(c, shift);
            d = rotate_28(d, shift);
            permute(u64::from(c) << 28 | u64::from(d), 56, PC2.as_flattened())
        });
        Des { round_keys }
    }

    pub fn encipher(&self, block: u64) -> u64 {
        cipher(block, self.round_keys.iter())
    }

    /// The same rounds with the keys in reverse order.
    pub fn decipher(&self, block: u64) -> u64 {
        cipher(block, self.round_keys.iter().rev())
    }
}

/// Two-key triple DES: encipher under K1, decipher under K2, encipher under K1.
pub struct TripleDes {
    first: Des,
    second: Des,
}

impl TripleDes {
    /// The key is K1, then K2.
    pub fn new(key: &[u8; 16]) -> TripleDes {
        let both = u128::from_be_bytes(*key);
        TripleDes {
            first: Des::new((both >> 64) as u64),
            second: Des::new(both as u64),
        }
    }

    pub fn encipher(&self, block: u64) -> u64 {
        let inner = self.second.decipher(self.first.encipher(block));
        self.first.encipher(inner)
    }

    pub fn decipher(&self, block: u64) -> u64 {
        let inner = self.second.encipher(self.first.decipher(block));
        self.first.decipher(inner)
    }
}

/// The 28 bits of C or D.
const HALF_KEY: u32 = 0x0FFF_FFFF;

fn rotate_28(half: u32, shift: u32) -> u32 {
    (half << shift | half >> (28 - shift)) & HALF_KEY
}

/// The bits of a word of `width` bits that the table lists, in its order.
fn permute(word: u64, width: u32, table: &[u8]) -> u64 {
    table.iter().fold(0, |result, &bit| {
        result << 1 | word >> (width - u32::from(bit)) & 1
    })
}

/// IP, the sixteen rounds, the two halves exchanged, and the inverse of IP.
fn cipher<'a>(block: u64, round_keys: impl Iterator<Item = &'a u64>) -> u64 {
    BLOCKS.set(BLOCKS.get() + 1);
    let permuted = permute(block, 64, IP.as_flattened());
    let mut left = (permuted >> 32) as u32;
    let mut right = permuted as u32;
    for &round_key in round_keys {
        (left, right) = (right, left ^ f(right, round_key));
    }
    let preoutput = u64::from(right) << 32 | u64::from(left);
    permute(preoutput, 64, IP_INVERSE.as_flattened())
}

/// The cipher function f(R, K).
fn f(right: u32, round_key: u64) -> u32 {
    let mixed = permute(u64::from(right), 32, E.as_flattened()) ^ round_key;
    let mut selected = 0;
    for (i, selection) in S.iter().enumerate() {
        let six = (mixed >> (42 - 6 * i) & 0x3F) as usize;
        let row = six >> 4 & 2 | six & 1;
        let column = six >> 1 & 0xF;
        selected = selected << 4 | u64::from(selection[row][column]);
    }
    permute(selected, 32, P.as_flattened()) as u32
}
