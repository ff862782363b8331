//! The purse of document 01 on an abstract card: the card and the session are plain values, and a
//! command gives a response, the next card and the next session.

pub mod apdu;
pub mod card;
pub mod channel;
mod commands;
pub mod datum;
pub mod instruction;
mod order;
pub mod pin;
pub mod refusal;
pub mod session;

pub use card::Card;
pub use order::{respond, Outcome, Verdict};
pub use refusal::Refusal;
pub use session::Session;

/// Bytes of a challenge, a cryptogram and a signature.
pub type Block = [u8; 8];

/// A triple-DES key.
pub type Key = [u8; 16];

/// The number of two bytes, highest first.
pub fn word(bytes: [u8; 2]) -> u16 {
    u16::from_be_bytes(bytes)
}
