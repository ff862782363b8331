//! Tests of the cipher, one a line: `KIND KEY START TEXT`, four fields separated by single spaces,
//! each line ended by LF (the last may lack it).
//!
//! - DE, DD: one DES block enciphered, deciphered; ME, MD: 10,000 times, each result the next text.
//! - TE, TD: two-key triple DES in ECB; CE, CD: in CBC from START; SG: signature from START.
//!
//! KEY has 16 hex digits for DE, DD, ME and MD, 32 for the others. START has 16 for CE, CD and SG
//! and is `-` for the others. TEXT has 16 for DE, DD, ME and MD, any even number for the others,
//! `-` if it is empty. The answer is a line of upper-case hex, `-` if it is empty, or what is
//! malformed.

pub mod answers;
pub mod malformed;
pub mod random;
pub mod stored;

use crate::hex;

/// Most bytes of a line, its LF not counted.
pub const MAX_LINE: usize = 4096;

/// The field for an absent start value and an empty text.
const NONE: &str = "-";

fn line(kind: &str, key: &str, start: &str, text: &str) -> String {
    format!("{kind} {key} {start} {text}")
}

/// A text or an answer in hex, `-` if it is empty.
fn hex_field(bytes: &[u8]) -> String {
    if bytes.is_empty() {
        NONE.to_string()
    } else {
        hex::encode(bytes)
    }
}
