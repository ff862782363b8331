//! PUT KEY 84 D8 00.

use super::{field, needs_access};
use crate::purse::apdu::Apdu;
use crate::purse::card::{KeySet, Set};
use crate::purse::channel;
use crate::purse::order::{Answer, Turn};
use crate::purse::session::Access;
use crate::purse::Refusal;

/// Three keys under the DEK of before; the channel and its session keys stay.
pub fn put(turn: &mut Turn, apdu: &Apdu) -> Answer {
    let set = Set::of(apdu.p2).ok_or(Refusal::Parameters)?;
    needs_access(turn, Access::Admin)?;
    let plain = channel::decipher::<48>(&turn.session.dek(&turn.card), field(apdu.data)?);
    let keys = KeySet::read(&plain).ok_or(Refusal::Length)?;
    turn.card.put_keys(set, keys);
    Ok(Vec::new())
}
