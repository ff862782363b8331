//! The card of the stored files, and what its terminals often do.

use crate::bench::run::Reply;
use crate::bench::scenario::{self, Scenario};
use crate::purse::card::{KeySet, Set};
use crate::purse::channel::{encipher, encipher_bank};
use crate::purse::instruction::Instruction;
use crate::purse::session::{Kind, Level};
use crate::terminal::{pin_block, read_record, tlv, wrap_keys};

pub const AID: [u8; 7] = [0xA0, 0x00, 0x00, 0x01, 0x51, 0x50, 0x01];
pub const LOG: u8 = 10;
pub const TRIES: u8 = 5;
pub const IDENTIFIER: [u8; 4] = [0x00, 0x01, 0x02, 0x03];
pub const CURRENCY: [u8; 2] = [0x09, 0x78];
pub const BANK: [u8; 16] = *b"BANK-0123456789-";
pub const AGENT: [u8; 6] = [0xA0, 0x00, 0x00, 0x00, 0x09, 0x01];
pub const PIN: &str = "1234";

/// A key set whose bytes count up from `first`.
pub fn keys(first: u8) -> KeySet {
    let key = |offset: u8| std::array::from_fn(|place| first + offset + place as u8);
    KeySet {
        enc: key(0),
        mac: key(16),
        dek: key(32),
    }
}

pub fn admin_keys() -> KeySet {
    keys(0x40)
}

pub fn installation() -> Vec<u8> {
    scenario::installation(&AID, LOG, TRIES, &admin_keys())
}

/// A fresh card with its purse selected.
pub fn fresh(scenario: &mut Scenario) {
    scenario.install(&installation());
    scenario.select();
}

/// The TLVs of 01 to 05 with these maxima, in the order of their tags.
pub fn parameters(balance: u16, debit: u16, number: u16) -> Vec<Vec<u8>> {
    vec![
        tlv(0x01, &IDENTIFIER),
        tlv(0x02, &CURRENCY),
        tlv(0x03, &balance.to_be_bytes()),
        tlv(0x04, &debit.to_be_bytes()),
        tlv(0x05, &number.to_be_bytes()),
    ]
}

/// Bank information and agent as STORE DATA carries them.
pub fn options(scenario: &Scenario) -> Vec<Vec<u8>> {
    let bank = encipher_bank(&dek(scenario), BANK);
    vec![tlv(0x06, &bank), tlv(0x07, &AGENT)]
}

pub fn dek(scenario: &Scenario) -> [u8; 16] {
    scenario.bench.session.dek(&scenario.card())
}

pub fn put_key(scenario: &mut Scenario, set: Set, keys: &KeySet) -> Reply {
    let data = wrap_keys(&dek(scenario), keys);
    scenario.signed(Instruction::PutKey, 0x00, set as u8, &data)
}

pub fn change_pin(scenario: &mut Scenario, digits: &str) -> Reply {
    let data = encipher(&dek(scenario), pin_block(digits));
    scenario.signed(Instruction::PinChange, 0x00, 0x00, &data)
}

pub fn unblock(scenario: &mut Scenario) -> Reply {
    scenario.signed(Instruction::PinChange, 0x00, 0x00, &[])
}

pub fn store_data(scenario: &mut Scenario, tlvs: &[Vec<u8>]) -> Reply {
    scenario.signed(Instruction::StoreData, 0x80, 0x00, &tlvs.concat())
}

pub fn put_data(scenario: &mut Scenario, tag: u8, value: &[u8]) -> Reply {
    scenario.signed(Instruction::PutData, 0x02, tag, value)
}

pub fn verify(scenario: &mut Scenario, digits: &str) -> Reply {
    let command = scenario.end().verify_pin(pin_block(digits));
    scenario.send(&command)
}

pub fn begin(scenario: &mut Scenario, kind: Kind, amount: u16) -> Reply {
    let currency = scenario.card().purse.currency;
    let data = [currency, amount.to_be_bytes()].concat();
    scenario.signed(Instruction::InitializeTransaction, kind as u8, 0x00, &data)
}

pub fn complete(scenario: &mut Scenario) -> Reply {
    let context: [u8; 16] = std::array::from_fn(|place| 0xC0 + place as u8);
    scenario.signed(Instruction::CompleteTransaction, 0x00, 0x00, &context)
}

pub fn transaction(scenario: &mut Scenario, kind: Kind, amount: u16) -> Reply {
    begin(scenario, kind, amount);
    complete(scenario)
}

/// Reads every record.
pub fn read_log(scenario: &mut Scenario) {
    for number in 1..=LOG {
        scenario.send(&read_record(number));
    }
}

/// A fresh card, personalized with these maxima.
pub fn personalized(scenario: &mut Scenario, balance: u16, debit: u16, number: u16) {
    fresh(scenario);
    scenario.open(Set::Admin, Level::Command);
    personalize(scenario, balance, debit, number);
}

/// In an administration channel: defines sets 1 and 2 and the PIN, and personalizes the card with
/// all options.
pub fn personalize(scenario: &mut Scenario, balance: u16, debit: u16, number: u16) {
    put_key(scenario, Set::Debit, &keys(0x80));
    put_key(scenario, Set::Credit, &keys(0xC0));
    change_pin(scenario, PIN);
    let tlvs = [parameters(balance, debit, number), options(scenario)].concat();
    store_data(scenario, &tlvs);
}

/// Personalized without options; the administration channel is open.
pub fn personalized_without_pin(scenario: &mut Scenario) {
    fresh(scenario);
    scenario.open(Set::Admin, Level::Both);
    put_key(scenario, Set::Debit, &keys(0x80));
    put_key(scenario, Set::Credit, &keys(0xC0));
    store_data(scenario, &parameters(1_000, 500, 10));
}
