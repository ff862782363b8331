//! INITIALIZE TRANSACTION 94 44 and COMPLETE TRANSACTION 94 46 00 00.

use super::{field, needs_access, needs_personalization, needs_response_level, refuse};
use crate::purse::apdu::Apdu;
use crate::purse::card::{Card, Record};
use crate::purse::channel;
use crate::purse::order::{Answer, Turn};
use crate::purse::session::{Kind, Pending};
use crate::purse::{word, Refusal};

/// Answer: identifier, bank information if P1 02, R-MAC.
pub fn initialize(turn: &mut Turn, apdu: &Apdu) -> Answer {
    let kind = Kind::of(apdu.p1).ok_or(Refusal::Parameters)?;
    let (currency, amount) = apdu.data.split_at(2);
    let amount = word(field(amount)?);
    needs_personalization(turn)?;
    let lacks_bank = turn.card.purse.bank.is_none() || turn.card.pin.is_none();
    refuse(kind == Kind::Bank && lacks_bank, Refusal::Feature)?;
    needs_access(turn, kind.access())?;
    let lacks_flag = kind == Kind::Bank && !turn.session.validated;
    refuse(lacks_flag, Refusal::Flag)?;
    needs_response_level(turn)?;
    refuse(turn.card.number >= turn.card.most_number, Refusal::Number)?;
    refuse(currency != turn.card.purse.currency, Refusal::Currency)?;
    refuse(amount == 0 || amount >= 0x8000, Refusal::Amount)?;
    judge_amount(&turn.card, kind, amount)?;
    turn.session.pending = Some(Pending::Transaction { kind, amount });
    let mut answer = turn.card.purse.identifier.to_vec();
    if let (Kind::Bank, Some(bank)) = (kind, turn.card.purse.bank) {
        answer.extend(channel::encipher_bank(&turn.session.dek(&turn.card), bank));
    }
    Ok(with_mac(turn, answer))
}

fn judge_amount(card: &Card, kind: Kind, amount: u16) -> Result<(), Refusal> {
    let purse = &card.purse;
    if kind == Kind::Debit {
        let most = purse.most_debit.min(purse.balance);
        refuse(amount > most, Refusal::Debit)
    } else {
        let room = purse.most_balance - purse.balance;
        refuse(amount > room, Refusal::Credit)
    }
}

/// Answer, all new: identifier, number, operational status, R-MAC.
pub fn complete(turn: &mut Turn, data: &[u8]) -> Answer {
    needs_personalization(turn)?;
    let Some(Pending::Transaction { kind, amount }) = turn.pending.take() else {
        return Err(Refusal::Sequence);
    };
    needs_response_level(turn)?;
    let amount = match kind {
        Kind::Debit => -i32::from(amount),
        Kind::Cash | Kind::Bank => i32::from(amount),
    };
    let most = i32::from(turn.card.purse.most_balance);
    let balance = i32::from(turn.card.purse.balance) + amount;
    let passes = !(0..=most).contains(&balance) || turn.card.number >= turn.card.most_number;
    refuse(passes, Refusal::Limit)?;
    let record = Record {
        number: turn.card.number + 1,
        currency: turn.card.purse.currency,
        amount: amount as i16,
        balance: balance as u16,
        context: field(data)?,
        set: turn.session.set(),
    };
    book(&mut turn.card, record);
    let card = &turn.card;
    let answer = [
        card.purse.identifier.as_slice(),
        &card.number.to_be_bytes(),
        &card.operational_status(),
    ]
    .concat();
    Ok(with_mac(turn, answer))
}

/// Moves balance, number and log together.
fn book(card: &mut Card, record: Record) {
    card.purse.balance = record.balance;
    card.number = record.number;
    card.log.push(record);
}

/// The answer and its R-MAC, which moves the chain on.
fn with_mac(turn: &mut Turn, mut answer: Vec<u8>) -> Vec<u8> {
    if let Some(channel) = &mut turn.session.channel {
        let (start, command) = (&channel.response, &channel.command);
        channel.response = channel.keys.response_mac(start, command, &answer);
        answer.extend(channel.response);
    }
    answer
}
