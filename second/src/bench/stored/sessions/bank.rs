//! Bank credits: 02's request 1, each key set with and without the PIN flag.

use crate::bench::scenario::Scenario;
use crate::bench::stored::fixture::*;
use crate::purse::card::Set;
use crate::purse::session::{Kind, Level};

/// The flag not set, set in the channel, set in an earlier one, and lost.
pub fn credits(scenario: &mut Scenario) {
    personalized(scenario, 1_000, 500, 100);
    for set in Set::ALL {
        without_flag(scenario, set);
        with_flag(scenario, set);
        flag_of_an_earlier_channel(scenario, set);
        flag_lost(scenario, set);
    }
    feature_before_the_flag(scenario);
}

/// No flag: P1 02 is refused, cash credits and debits are not.
fn without_flag(scenario: &mut Scenario, set: Set) {
    clear_flag(scenario);
    for level in [Level::Command, Level::Both] {
        scenario.open(set, level);
        for kind in [Kind::Bank, Kind::Cash, Kind::Debit] {
            transaction(scenario, kind, 3);
        }
    }
}

fn with_flag(scenario: &mut Scenario, set: Set) {
    for level in [Level::Command, Level::Both] {
        scenario.open(set, level);
        verify(scenario, PIN);
        transaction(scenario, Kind::Bank, 3);
    }
}

fn flag_of_an_earlier_channel(scenario: &mut Scenario, set: Set) {
    scenario.open(Set::Credit, Level::Command);
    verify(scenario, PIN);
    scenario.open(set, Level::Both);
    transaction(scenario, Kind::Bank, 3);
    scenario.select();
    scenario.open(set, Level::Both);
    transaction(scenario, Kind::Bank, 3);
}

/// By a wrong PIN, by PIN CHANGE, by UNBLOCK and by a start-up.
fn flag_lost(scenario: &mut Scenario, set: Set) {
    let losses: [fn(&mut Scenario); 4] = [
        |scenario| drop(verify(scenario, "4321")),
        |scenario| drop(change_pin(scenario, PIN)),
        |scenario| drop(unblock(scenario)),
        |scenario| {
            scenario.start();
            scenario.select();
        },
    ];
    for lose in losses {
        scenario.open(Set::Admin, Level::Command);
        verify(scenario, PIN);
        lose(scenario);
        scenario.open(set, Level::Both);
        transaction(scenario, Kind::Bank, 3);
    }
}

/// 6A81 comes first: no bank information and no flag.
fn feature_before_the_flag(scenario: &mut Scenario) {
    clear_flag(scenario);
    put_data(scenario, 0x06, &[]);
    scenario.open(Set::Credit, Level::Both);
    transaction(scenario, Kind::Bank, 3);
}

fn clear_flag(scenario: &mut Scenario) {
    scenario.open(Set::Admin, Level::Command);
    unblock(scenario);
}
