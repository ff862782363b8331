//! A card's life: fresh, personalized, in use, with the refusals of steps 7 to 11.

use super::steps::send;
use crate::bench::scenario::Scenario;
use crate::bench::stored::fixture::*;
use crate::purse::card::Set;
use crate::purse::datum::Tag;
use crate::purse::instruction::Instruction::*;
use crate::purse::session::{Kind, Level};
use crate::terminal::{get_data, read_record, tlv};

/// What a fresh card says.
pub fn fresh_card(scenario: &mut Scenario) {
    fresh(scenario);
    for tag in 0..=0x18 {
        scenario.send(&get_data(tag));
    }
    for number in 0..=LOG + 1 {
        scenario.send(&read_record(number));
    }
    for set in Set::ALL {
        scenario.initialize_update(set, Level::Both);
    }
    scenario.open(Set::Admin, Level::Both);
    unblock(scenario);
    put_data(scenario, 0x03, &[0x00, 0x01]);
    begin(scenario, Kind::Debit, 1);
    complete(scenario);
    verify(scenario, PIN);
    store_data(scenario, &parameters(1_000, 500, 10));
    put_key(scenario, Set::Credit, &keys(0xC0));
    store_data(scenario, &parameters(1_000, 500, 10));
}

/// EXTERNAL AUTHENTICATE's own order, and what ends an INITIALIZE UPDATE.
pub fn channels(scenario: &mut Scenario) {
    fresh(scenario);
    send(scenario, ExternalAuthenticate, 0x01, 0x00, 16);
    for place in [5, 12, 13, 20] {
        scenario.open(Set::Admin, Level::Both);
        let (_, mut end) = scenario.initialize_update(Set::Admin, Level::Both);
        let mut command = end.external_authenticate();
        command[place] ^= 0x01;
        scenario.send(&command);
        unblock(scenario);
    }
    let between: [fn(&mut Scenario); 4] = [
        |scenario| drop(scenario.send(&[])),
        |scenario| drop(scenario.send(&get_data(0x15))),
        |scenario| drop(scenario.install(&[])),
        |scenario| drop(scenario.start()),
    ];
    for step in between {
        scenario.open(Set::Admin, Level::Both);
        let (_, mut end) = scenario.initialize_update(Set::Admin, Level::Command);
        step(scenario);
        let command = end.external_authenticate();
        let reply = scenario.send(&command);
        scenario.joined(end, &reply);
        unblock(scenario);
    }
}

/// STORE DATA: each kind of wrong data, the right data, and a second time.
pub fn personalization(scenario: &mut Scenario) {
    fresh(scenario);
    scenario.open(Set::Admin, Level::Command);
    put_key(scenario, Set::Debit, &keys(0x80));
    store_data(scenario, &parameters(1_000, 500, 10));
    put_key(scenario, Set::Credit, &keys(0xC0));
    for set in [Set::Debit, Set::Credit] {
        scenario.open(set, Level::Command);
        store_data(scenario, &parameters(1_000, 500, 10));
    }
    scenario.open(Set::Admin, Level::Command);
    let good = parameters(0x7FFF, 0x7FFF, 0xFFFF);
    for wrong in wrong_tlvs(&good) {
        store_data(scenario, &wrong);
    }
    let backward: Vec<Vec<u8>> = good.iter().rev().cloned().collect();
    let optional = vec![tlv(0x06, &[]), tlv(0x07, &[])];
    store_data(scenario, &[optional, backward].concat());
    store_data(scenario, &good);
    for tag in Tag::ALL {
        scenario.send(&get_data(tag as u8));
    }
}

/// TLVs past the end, then each rule of 6A80.
fn wrong_tlvs(good: &[Vec<u8>]) -> Vec<Vec<Vec<u8>>> {
    let with = |more: &[u8]| [good, &[more.to_vec()]].concat();
    let replaced = |place: usize, other: Vec<u8>| {
        let mut tlvs = good.to_vec();
        tlvs[place] = other;
        tlvs
    };
    let mut wrong = vec![
        with(&[0x06]),
        with(&[0x06, 0x10, 0x00]),
        with(&[0x99, 0x01]),
        vec![vec![0x01, 0xFF]],
        Vec::new(),
        with(&tlv(0x00, &[])),
        with(&tlv(0x08, &[])),
        with(&tlv(0x14, &[0, 0])),
        with(&tlv(0x01, &IDENTIFIER)),
        [good, &[tlv(0x06, &[]), tlv(0x06, &[])]].concat(),
        with(&tlv(0x06, &[0; 15])),
        with(&tlv(0x06, &[0; 17])),
        with(&tlv(0x07, &[0; 4])),
        with(&tlv(0x07, &[0; 17])),
        replaced(2, tlv(0x03, &[0x80, 0x00])),
        replaced(3, tlv(0x04, &[0xFF, 0xFF])),
        replaced(4, tlv(0x05, &[0x01])),
    ];
    for place in 0..good.len() {
        let (before, after) = (&good[..place], &good[place + 1..]);
        wrong.push([before, after].concat());
        wrong.push(replaced(place, tlv(place as u8 + 1, &[])));
    }
    wrong
}

/// Each command under each set and level, the PIN flag cleared and set.
pub fn access(scenario: &mut Scenario) {
    personalized(scenario, 1_000, 500, 100);
    for set in Set::ALL {
        for level in [Level::Command, Level::Both] {
            scenario.open(set, level);
            put_key(scenario, Set::Debit, &keys(0x80));
            change_pin(scenario, PIN);
            unblock(scenario);
            store_data(scenario, &parameters(1, 1, 1));
            put_data(scenario, 0x04, &[0x01, 0xF4]);
            for kind in [Kind::Cash, Kind::Bank, Kind::Debit] {
                transaction(scenario, kind, 5);
            }
            verify(scenario, PIN);
            transaction(scenario, Kind::Bank, 5);
        }
    }
}

/// INITIALIZE TRANSACTION's data in order, P1 to P9 among them, and COMPLETE TRANSACTION alone.
pub fn transactions(scenario: &mut Scenario) {
    personalized_without_pin(scenario);
    transaction(scenario, Kind::Bank, 1);
    change_pin(scenario, PIN);
    transaction(scenario, Kind::Bank, 1);
    personalized(scenario, 0x7FFF, 500, 100);
    scenario.open(Set::Credit, Level::Both);
    complete(scenario);
    transaction(scenario, Kind::Cash, 30_000);
    complete(scenario);
    for amount in [0x0000, 0x8000, 0xFFFF, 2_768, 2_767, 1] {
        transaction(scenario, Kind::Cash, amount);
    }
    let data = [0x08, 0x40, 0x00, 0x01];
    scenario.signed(InitializeTransaction, 0x01, 0x00, &data);
    complete(scenario);
    scenario.open(Set::Debit, Level::Both);
    for amount in [0x0000, 0x8000, 0xFFFF, 501, 500, 0x7FFF] {
        transaction(scenario, Kind::Debit, amount);
    }
    begin(scenario, Kind::Debit, 7);
    scenario.send(&get_data(0x15));
    complete(scenario);
    begin(scenario, Kind::Debit, 7);
    scenario.install(&[]);
    complete(scenario);
    small_balance(scenario);
}

/// Balance 350 and maximum debit 500: 351 is refused, 350 logs FE A2.
fn small_balance(scenario: &mut Scenario) {
    personalized(scenario, 1_000, 500, 100);
    scenario.open(Set::Admin, Level::Both);
    transaction(scenario, Kind::Cash, 350);
    transaction(scenario, Kind::Debit, 351);
    transaction(scenario, Kind::Debit, 350);
    scenario.send(&read_record(1));
    scenario.send(&read_record(2));
}

/// PUT DATA on every tag, with balance 0 and above.
pub fn put_data_rules(scenario: &mut Scenario) {
    personalized(scenario, 1_000, 500, 100);
    scenario.open(Set::Admin, Level::Both);
    for balance in [0, 400] {
        if balance > 0 {
            transaction(scenario, Kind::Cash, balance);
        }
        for tag in Tag::ALL {
            for length in [0, 1, 2, 4, 5, 16, 17] {
                put_data(scenario, tag as u8, &vec![0x07; length]);
                scenario.send(&get_data(tag as u8));
            }
        }
        for value in [399_u16, 400, 0x8000, 0x7FFF] {
            put_data(scenario, 0x03, &value.to_be_bytes());
            put_data(scenario, 0x04, &value.to_be_bytes());
        }
        for value in [0_u16, 1, 0xFFFF] {
            put_data(scenario, 0x05, &value.to_be_bytes());
        }
        put_data(scenario, 0x02, &CURRENCY);
    }
}

/// The C-MAC chain: a refusal before step 6 leaves it, one behind it moves it, a replay closes the
/// channel. PUT KEY on set 3 changes the DEK at once.
pub fn chains(scenario: &mut Scenario) {
    personalized(scenario, 1_000, 500, 100);
    scenario.open(Set::Admin, Level::Both);
    put_data(scenario, 0x08, &[]);
    put_data(scenario, 0x03, &[]);
    put_data(scenario, 0x03, &[0x03, 0xE8]);
    let mut end = scenario.end();
    let command = end.sign(PutData, 0x02, 0x04, &[0x01, 0xF4]);
    scenario.send_signed(&command, end.clone());
    scenario.send(&command);
    unblock(scenario);
    scenario.open(Set::Admin, Level::Both);
    put_key(scenario, Set::Admin, &keys(0x20));
    change_pin(scenario, "55555");
    put_key(scenario, Set::Debit, &keys(0x60));
    scenario.open(Set::Admin, Level::Both);
    verify(scenario, "55555");
    transaction(scenario, Kind::Bank, 9);
    scenario.select();
    scenario.open(Set::Debit, Level::Both);
    transaction(scenario, Kind::Debit, 9);
    begin(scenario, Kind::Debit, 1);
    verify(scenario, PIN);
}

/// The log past its size, and the number up to its maximum.
pub fn log_and_numbers(scenario: &mut Scenario) {
    personalized(scenario, 1_000, 500, 13);
    scenario.open(Set::Admin, Level::Both);
    for amount in 1..=14 {
        transaction(scenario, Kind::Cash, amount);
    }
    read_log(scenario);
    scenario.send(&get_data(0x14));
    put_data(scenario, 0x05, &[0x00, 0x0C]);
    put_data(scenario, 0x05, &[0x00, 0x0E]);
    transaction(scenario, Kind::Debit, 30);
    transaction(scenario, Kind::Debit, 1);
    scenario.select();
}
