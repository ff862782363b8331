//! INITIALIZE UPDATE 80 50 and EXTERNAL AUTHENTICATE 84 82: they open a channel.

use super::{field, refuse};
use crate::purse::apdu::Apdu;
use crate::purse::card::Set;
use crate::purse::channel::{Challenges, SessionKeys};
use crate::purse::order::{Answer, Turn};
use crate::purse::session::{Channel, Level, Pending};
use crate::purse::{Block, Refusal};

/// The protocol's number in INITIALIZE UPDATE's answer.
const SCP01: u8 = 0x01;

/// Answer: ten zeros, set, 01, card challenge, card cryptogram.
pub fn initialize(turn: &mut Turn, apdu: &Apdu) -> Answer {
    let set = Set::of(apdu.p1).ok_or(Refusal::Parameters)?;
    let challenges = Challenges {
        host: field(apdu.data)?,
        card: *turn.random,
    };
    let keys = turn.card.keys(set).ok_or(Refusal::NoKeySet)?;
    let cryptogram = SessionKeys::derive(keys, &challenges).card_cryptogram(&challenges);
    turn.session.pending = Some(Pending::Update { set, challenges });
    Ok([
        [0; 10].as_slice(),
        &[set as u8, SCP01],
        turn.random,
        &cryptogram,
    ]
    .concat())
}

/// Step 6 is replaced: 6985, 6300, 6982; the last two close any channel.
pub fn authenticate(turn: &mut Turn, apdu: &Apdu) -> Answer {
    let level = Level::of(apdu.p1).ok_or(Refusal::Parameters)?;
    let (cryptogram, mac) = apdu.data.split_at(8);
    let Some(Pending::Update { set, challenges }) = turn.pending.take() else {
        return Err(Refusal::Sequence);
    };
    turn.session.channel = None;
    let keys = turn.card.keys(set).cloned().unwrap_or_default();
    let keys = SessionKeys::derive(&keys, &challenges);
    let right = keys.host_cryptogram(&challenges);
    refuse(cryptogram != right, Refusal::Cryptogram)?;
    let zero: Block = [0; 8];
    let right = keys.command_mac(&zero, &apdu.header(), cryptogram);
    refuse(mac != right, Refusal::Mac)?;
    turn.session.channel = Some(Channel {
        set,
        level,
        keys,
        command: right,
        response: zero,
    });
    Ok(Vec::new())
}
