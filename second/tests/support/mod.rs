//! What several test files share.

#![allow(dead_code)]

pub mod simulated;

use second::bench::run::Bench;
use second::bench::scenario::Scenario;
use second::hex;
use second::purse::card::{Card, KeySet, Record, Set};
use second::purse::Session;

/// The lines of document 01's worked example.
pub const EXAMPLE: &str = "\
I 0
S 0
C 0 0000000000000000000000000000009000
C 0 0200009000
";

pub fn bytes(digits: &str) -> Vec<u8> {
    hex::decode(digits.replace(' ', "").as_bytes()).expect("hex digits")
}

pub fn hex(bytes: &[u8]) -> String {
    hex::encode(bytes)
}

/// A key set of 48 bytes that count up from `first`.
pub fn keys(first: u8) -> Vec<u8> {
    (first..first + 48).collect()
}

/// AID A0000001515001, log of 10, 5 tries, keys 40 to 6F.
pub fn installation() -> Vec<u8> {
    [bytes("07 A0000001515001 0A 05"), keys(0x40)].concat()
}

/// The fresh card of that data.
pub fn fresh_card() -> Card {
    Card::install(&installation()).expect("data in range")
}

/// A scenario on this card, with the purse selected.
pub fn selected(card: Card) -> Scenario {
    let mut scenario = Scenario::new(1);
    scenario.bench = Bench {
        card: Some(card),
        session: Session::default(),
    };
    scenario.select();
    scenario
}

/// The line of a command.
pub fn line(scenario: &mut Scenario, command: &[u8]) -> String {
    scenario.send(command).line.to_string()
}

/// The status word of a command.
pub fn word(scenario: &mut Scenario, command: &[u8]) -> u16 {
    scenario.send(command).line.word().expect("a response")
}

/// That card personalized: balance 350 of 1,000, debits up to 500, number 9 of 10, all options.
pub fn personalized() -> Card {
    let mut card = fresh_card();
    card.purse.personalized = true;
    card.purse.identifier = [0, 1, 2, 3];
    card.purse.currency = [0x09, 0x78];
    card.purse.most_balance = 1_000;
    card.purse.most_debit = 500;
    card.purse.bank = Some(*b"BANK-0123456789-");
    card.purse.agent = Some(bytes("A00000000901"));
    card.purse.balance = 350;
    card.purse.debit = KeySet::read(&keys(0x80));
    card.purse.credit = KeySet::read(&keys(0xC0));
    card.pin = Some([0x24, 0x12, 0x34, 0xFF, 0xFF, 0xFF, 0xFF, 0xFF]);
    card.most_number = 10;
    card.number = 9;
    card.log.push(Record {
        number: 9,
        currency: [0x09, 0x78],
        amount: 350,
        balance: 350,
        context: [0xC9; 16],
        set: Some(Set::Credit),
    });
    card
}
