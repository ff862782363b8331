//! PIN CHANGE/UNBLOCK 84 24 00 00 and VERIFY PIN 94 20 00 00.

use super::{field, needs_access, needs_personalization, refuse};
use crate::purse::order::{Answer, Turn};
use crate::purse::session::Access;
use crate::purse::{channel, pin, Refusal};

/// A PIN under DEK, or no data to unblock. Both fill the tries and clear the flag.
pub fn change(turn: &mut Turn, data: &[u8]) -> Answer {
    let unblock = data.is_empty();
    refuse(unblock && turn.card.pin.is_none(), Refusal::Feature)?;
    needs_access(turn, Access::Admin)?;
    if !unblock {
        let block = channel::decipher(&turn.session.dek(&turn.card), field(data)?);
        refuse(!pin::is_block(&block), Refusal::Data)?;
        turn.card.pin = Some(block);
    }
    turn.card.tries = turn.card.most_tries;
    turn.session.validated = false;
    Ok(Vec::new())
}

/// 8 bytes under the ENC session key. A wrong or ill-formed PIN costs a try and clears the flag.
pub fn verify(turn: &mut Turn, data: &[u8]) -> Answer {
    needs_personalization(turn)?;
    let pin = turn.card.pin.ok_or(Refusal::Feature)?;
    needs_access(turn, Access::Credit)?;
    refuse(turn.card.tries == 0, Refusal::Blocked)?;
    let channel = turn.session.channel.as_ref().ok_or(Refusal::Access)?;
    let block = channel.keys.decipher_pin(field(data)?);
    turn.session.validated = block == pin;
    if block != pin {
        turn.card.tries -= 1;
        return Err(Refusal::WrongPin);
    }
    turn.card.tries = turn.card.most_tries;
    Ok(Vec::new())
}
