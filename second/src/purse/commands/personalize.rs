//! STORE DATA 84 E2 80 00: personalization.

use super::{needs_access, refuse};
use crate::purse::datum::{Datum, Tag};
use crate::purse::order::{Answer, Turn};
use crate::purse::session::Access;
use crate::purse::Refusal;

/// A tag and its value.
type Tlv<'a> = (u8, &'a [u8]);

pub fn store(turn: &mut Turn, data: &[u8]) -> Answer {
    let purse = &turn.card.purse;
    refuse(purse.personalized, Refusal::Personalized)?;
    let lacks_set = purse.debit.is_none() || purse.credit.is_none();
    refuse(lacks_set, Refusal::NoKeySets)?;
    needs_access(turn, Access::Admin)?;
    let tlvs = split(data).ok_or(Refusal::Structure)?;
    refuse(!is_complete(&tlvs), Refusal::Data)?;
    let dek = turn.session.dek(&turn.card);
    let read = |&(tag, value): &Tlv| Datum::read(tag, value, &dek);
    let data: Option<Vec<Datum>> = tlvs.iter().map(read).collect();
    for datum in data.ok_or(Refusal::Data)? {
        datum.put(&mut turn.card);
    }
    turn.card.purse.personalized = true;
    Ok(Vec::new())
}

/// The TLVs; none if one goes past the end, also by lacking its length byte.
fn split(mut data: &[u8]) -> Option<Vec<Tlv<'_>>> {
    let mut tlvs = Vec::new();
    while let [tag, rest @ ..] = data {
        let (length, rest) = rest.split_first()?;
        let (value, behind) = rest.split_at_checked(usize::from(*length))?;
        tlvs.push((*tag, value));
        data = behind;
    }
    Some(tlvs)
}

/// No tag outside 01 to 07, none repeated, 01 to 05 present.
fn is_complete(tlvs: &[Tlv]) -> bool {
    let mut tags: Vec<u8> = tlvs.iter().map(|&(tag, _)| tag).collect();
    tags.sort_unstable();
    let known = tags
        .iter()
        .all(|tag| (Tag::Identifier as u8..=Tag::Agent as u8).contains(tag));
    let once = tags.windows(2).all(|pair| pair[0] != pair[1]);
    let present = (Tag::Identifier as u8..=Tag::MostNumber as u8).all(|tag| tags.contains(&tag));
    known && once && present
}
