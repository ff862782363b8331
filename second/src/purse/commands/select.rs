//! SELECT 00 A4 04 00.

use super::refuse;
use crate::purse::order::{Answer, Turn};
use crate::purse::Refusal;

/// Reaching the AID, right or not, ends all of the session but the PIN flag.
pub fn select(turn: &mut Turn, aid: &[u8]) -> Answer {
    turn.session.channel = None;
    turn.session.selected = aid == turn.card.purse.aid;
    refuse(!turn.session.selected, Refusal::OtherAid)?;
    let status = turn.card.administrative_status(turn.session.validated);
    Ok([
        turn.card.purse.identifier.as_slice(),
        &[status],
        &turn.card.operational_status(),
    ]
    .concat())
}
