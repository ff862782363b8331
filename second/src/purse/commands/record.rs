//! READ RECORD 00 B2.

use crate::purse::order::{Answer, Turn};
use crate::purse::Refusal;

/// Record 1 is the newest.
pub fn read(turn: &mut Turn, number: u8) -> Answer {
    let record = turn.card.log.get(number).ok_or(Refusal::NoRecord)?;
    Ok(record.bytes())
}
