//! The commands' own rules: steps 7 to 11 of 01's order and what each command does. The data no
//! longer holds the C-MAC.

mod authenticate;
mod data;
mod key;
mod personalize;
mod pin;
mod record;
mod select;
mod transaction;

use super::apdu::Apdu;
use super::instruction::Instruction;
use super::order::{Answer, Turn};
use super::session::{Access, Level};
use super::Refusal;

pub fn perform(turn: &mut Turn, instruction: Instruction, apdu: &Apdu) -> Answer {
    match instruction {
        Instruction::Select => select::select(turn, apdu.data),
        Instruction::InitializeUpdate => authenticate::initialize(turn, apdu),
        Instruction::ExternalAuthenticate => authenticate::authenticate(turn, apdu),
        Instruction::PutKey => key::put(turn, apdu),
        Instruction::PinChange => pin::change(turn, apdu.data),
        Instruction::StoreData => personalize::store(turn, apdu.data),
        Instruction::VerifyPin => pin::verify(turn, apdu.data),
        Instruction::InitializeTransaction => transaction::initialize(turn, apdu),
        Instruction::CompleteTransaction => transaction::complete(turn, apdu.data),
        Instruction::GetData => data::get(turn, apdu.p2),
        Instruction::PutData => data::put(turn, apdu),
        Instruction::ReadRecord => record::read(turn, apdu.p1),
    }
}

/// A rule: refuses where its condition holds.
fn refuse(condition: bool, refusal: Refusal) -> Result<(), Refusal> {
    if condition {
        Err(refusal)
    } else {
        Ok(())
    }
}

/// Step 7's first half.
fn needs_personalization(turn: &Turn) -> Result<(), Refusal> {
    refuse(!turn.card.purse.personalized, Refusal::Unpersonalized)
}

/// Step 9's first half.
fn needs_access(turn: &Turn, access: Access) -> Result<(), Refusal> {
    refuse(turn.session.access() < access, Refusal::Access)
}

/// Step 9's second half: level 11.
fn needs_response_level(turn: &Turn) -> Result<(), Refusal> {
    refuse(!turn.session.has_level(Level::Both), Refusal::Level)
}

/// A field whose length an earlier step has judged.
fn field<const N: usize>(bytes: &[u8]) -> Result<[u8; N], Refusal> {
    bytes.try_into().map_err(|_| Refusal::Length)
}
