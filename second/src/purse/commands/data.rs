//! GET DATA 80 CA 02 and PUT DATA 84 DA 02.

use super::{needs_access, needs_personalization, refuse};
use crate::purse::apdu::Apdu;
use crate::purse::card::Card;
use crate::purse::datum::{Datum, Tag};
use crate::purse::order::{Answer, Turn};
use crate::purse::session::Access;
use crate::purse::Refusal;

/// Answer: length, value.
pub fn get(turn: &mut Turn, tag: u8) -> Answer {
    let tag = Tag::of(tag).ok_or(Refusal::Parameters)?;
    let value = turn.card.value(tag, turn.session.validated);
    Ok([&[value.len() as u8], value.as_slice()].concat())
}

pub fn put(turn: &mut Turn, apdu: &Apdu) -> Answer {
    let tag = Tag::of(apdu.p2).ok_or(Refusal::Parameters)?;
    needs_personalization(turn)?;
    refuse(!is_changeable(&turn.card, tag), Refusal::Feature)?;
    needs_access(turn, Access::Admin)?;
    let dek = turn.session.dek(&turn.card);
    let datum = Datum::read(apdu.p2, apdu.data, &dek).ok_or(Refusal::Data)?;
    refuse(is_passed(&turn.card, &datum), Refusal::Data)?;
    datum.put(&mut turn.card);
    Ok(Vec::new())
}

/// No state variable, not the identifier, the currency only with balance 0.
fn is_changeable(card: &Card, tag: Tag) -> bool {
    match tag {
        Tag::Identifier | Tag::Number | Tag::Balance | Tag::Tries | Tag::Status => false,
        Tag::Currency => card.purse.balance == 0,
        Tag::MostBalance | Tag::MostDebit | Tag::MostNumber | Tag::Bank | Tag::Agent => true,
    }
}

/// Is the balance above the new maximum, or the number above it?
fn is_passed(card: &Card, datum: &Datum) -> bool {
    match *datum {
        Datum::MostBalance(most) => card.purse.balance > most,
        Datum::MostNumber(most) => card.number > most,
        _ => false,
    }
}
