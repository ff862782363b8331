//! Every kind of call that stores, with every limit from 0 up, and start-ups and probes behind it.
//! Whatever a cut leaves, the next turn means the same.

use super::fixture::*;
use crate::bench::scenario::{self, Scenario};
use crate::purse::card::Set;
use crate::purse::channel::encipher_bank;
use crate::purse::session::{Kind, Level};
use crate::terminal::{self, get_data, read_record};

/// The greatest limit tried.
pub const MOST: u16 = 260;

/// One part for each kind of call.
pub fn file() -> Vec<u8> {
    let parts: [fn(&mut Scenario); 12] = [
        installations,
        put_keys,
        put_admin_keys,
        pin_changes,
        unblocks,
        store_datas,
        right_pins,
        wrong_pins,
        debits,
        credits,
        put_datas,
        put_banks,
    ];
    let mut scenario = Scenario::new(7);
    for part in parts {
        part(&mut scenario);
    }
    scenario.file
}

/// A cut start-up, one that finishes, and SELECT.
fn start_over(scenario: &mut Scenario) {
    scenario.limit = 0;
    scenario.start();
    scenario.start();
    scenario.select();
}

fn get_all(scenario: &mut Scenario, tags: &[u8]) {
    for &tag in tags {
        scenario.send(&get_data(tag));
    }
}

fn prepared(scenario: &mut Scenario) {
    personalized(scenario, 20_000, 500, 0xFFFF);
    scenario.open(Set::Credit, Level::Both);
    transaction(scenario, Kind::Cash, 10_000);
}

/// A new session with a channel of the set.
fn joined(scenario: &mut Scenario, set: Set) {
    scenario.select();
    scenario.open(set, Level::Both);
}

/// Another card over the card, whose AID tells which is there.
fn installations(scenario: &mut Scenario) {
    let other = [0x0A; 9];
    let data = scenario::installation(&other, 50, 15, &keys(0x10));
    for limit in 0..=MOST {
        scenario.install(&installation());
        scenario.limit = limit;
        scenario.install(&data);
        start_over(scenario);
        scenario.send(&terminal::select(&AID));
        get_all(scenario, &[0x16]);
    }
}

/// Set 1, whose card cryptogram tells which keys are there.
fn put_keys(scenario: &mut Scenario) {
    fresh(scenario);
    for limit in 0..=MOST {
        joined(scenario, Set::Admin);
        scenario.limit = limit;
        put_key(scenario, Set::Debit, &keys(limit as u8 & 0x7F));
        start_over(scenario);
        scenario.initialize_update(Set::Debit, Level::Both);
    }
}

fn put_admin_keys(scenario: &mut Scenario) {
    for limit in 0..=MOST {
        fresh(scenario);
        scenario.open(Set::Admin, Level::Command);
        scenario.limit = limit;
        put_key(scenario, Set::Admin, &keys(0x90));
        start_over(scenario);
        scenario.initialize_update(Set::Admin, Level::Both);
    }
}

/// A PIN of the limit's digits, which VERIFY PIN then tries.
fn pin_changes(scenario: &mut Scenario) {
    prepared(scenario);
    for limit in 0..=MOST {
        let digits = format!("{limit:05}");
        joined(scenario, Set::Admin);
        unblock(scenario);
        scenario.limit = limit;
        change_pin(scenario, &digits);
        start_over(scenario);
        get_all(scenario, &[0x16, 0x17]);
        scenario.open(Set::Credit, Level::Both);
        verify(scenario, &digits);
    }
}

fn unblocks(scenario: &mut Scenario) {
    prepared(scenario);
    for limit in 0..=MOST {
        joined(scenario, Set::Admin);
        verify(scenario, "0000");
        scenario.limit = limit;
        unblock(scenario);
        start_over(scenario);
        get_all(scenario, &[0x16]);
    }
}

fn store_datas(scenario: &mut Scenario) {
    for limit in 0..=MOST {
        fresh(scenario);
        scenario.open(Set::Admin, Level::Command);
        put_key(scenario, Set::Debit, &keys(0x80));
        put_key(scenario, Set::Credit, &keys(0xC0));
        let tlvs = [parameters(1_000, 500, 100), options(scenario)].concat();
        scenario.limit = limit;
        store_data(scenario, &tlvs);
        start_over(scenario);
        get_all(scenario, &[0x01, 0x05, 0x06, 0x07, 0x17]);
    }
}

/// One wrong PIN, so that a right one changes the tries; then the cut one.
fn pins(scenario: &mut Scenario, digits: &str) {
    prepared(scenario);
    for limit in 0..=MOST {
        joined(scenario, Set::Admin);
        unblock(scenario);
        verify(scenario, "0000");
        scenario.limit = limit;
        verify(scenario, digits);
        start_over(scenario);
        get_all(scenario, &[0x16, 0x17]);
    }
}

fn right_pins(scenario: &mut Scenario) {
    pins(scenario, PIN);
}

fn wrong_pins(scenario: &mut Scenario) {
    pins(scenario, "9999");
}

/// The sets take turns, so that the records of a log differ in them.
fn transactions(scenario: &mut Scenario, sets: &[Set], kind: Kind) {
    prepared(scenario);
    for (limit, &set) in (0..=MOST).zip(sets.iter().cycle()) {
        joined(scenario, set);
        begin(scenario, kind, 3);
        scenario.limit = limit;
        complete(scenario);
        start_over(scenario);
        get_all(scenario, &[0x14, 0x15]);
        scenario.send(&read_record(1));
        scenario.send(&read_record(LOG));
    }
}

fn debits(scenario: &mut Scenario) {
    transactions(scenario, &Set::ALL, Kind::Debit);
}

fn credits(scenario: &mut Scenario) {
    transactions(scenario, &[Set::Credit, Set::Admin], Kind::Cash);
}

fn put_datas(scenario: &mut Scenario) {
    prepared(scenario);
    for limit in 0..=MOST {
        joined(scenario, Set::Admin);
        scenario.limit = limit;
        put_data(scenario, 0x03, &(20_001 + limit).to_be_bytes());
        start_over(scenario);
        get_all(scenario, &[0x03]);
    }
}

fn put_banks(scenario: &mut Scenario) {
    prepared(scenario);
    for limit in 0..=MOST {
        joined(scenario, Set::Admin);
        let bank = [limit as u8; 16];
        let value = encipher_bank(&dek(scenario), bank);
        scenario.limit = limit;
        put_data(scenario, 0x06, &value);
        start_over(scenario);
        get_all(scenario, &[0x06, 0x17]);
    }
}
