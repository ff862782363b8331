//! The log and the key set in each of its records: 02's request 4.

use super::steps::send;
use crate::bench::scenario::Scenario;
use crate::bench::stored::fixture::*;
use crate::purse::card::Set;
use crate::purse::instruction::Instruction::InitializeUpdate;
use crate::purse::session::{Kind, Level};
use crate::terminal::{get_data, read_record};

/// Each kind of transaction under each set, and the newest record behind it. Credits under set 1
/// are refused.
pub fn key_sets(scenario: &mut Scenario) {
    personalized(scenario, 1_000, 500, 100);
    for kind in [Kind::Cash, Kind::Bank, Kind::Debit] {
        for set in Set::ALL {
            scenario.open(set, Level::Both);
            if kind == Kind::Bank {
                verify(scenario, PIN);
            }
            recorded(scenario, kind);
        }
    }
}

/// A log that goes round: its records keep their sets when those of other sets come in.
pub fn full_log(scenario: &mut Scenario) {
    loaded(scenario);
    let size = u16::from(LOG);
    for (amount, set) in (1..=size + 3).zip(Set::ALL.into_iter().cycle()) {
        scenario.open(set, Level::Both);
        transaction(scenario, Kind::Debit, amount);
        if amount >= size {
            read_log(scenario);
        }
    }
}

/// INITIALIZE UPDATE for another set inside the channel, which stays open: the record has the
/// channel's set.
pub fn updates_inside(scenario: &mut Scenario) {
    let steps: [fn(&mut Scenario, Set); 4] = [
        |scenario, other| drop(scenario.initialize_update(other, Level::Both)),
        |scenario, other| send(scenario, InitializeUpdate, other as u8, 0x00, 7),
        |scenario, _| send(scenario, InitializeUpdate, 0x04, 0x00, 8),
        authenticate_late,
    ];
    undefined_set_inside(scenario);
    loaded(scenario);
    for set in Set::ALL {
        for other in Set::ALL.into_iter().filter(|&other| other != set) {
            for step in steps {
                scenario.open(set, Level::Both);
                step(scenario, other);
                recorded(scenario, Kind::Debit);
            }
        }
    }
}

/// EXTERNAL AUTHENTICATE not directly behind its INITIALIZE UPDATE: 6985.
fn authenticate_late(scenario: &mut Scenario, set: Set) {
    let (_, mut end) = scenario.initialize_update(set, Level::Both);
    scenario.send(&get_data(0x15));
    let command = end.external_authenticate();
    scenario.send(&command);
}

/// 6A88 in a channel that then personalizes the card and makes a credit.
fn undefined_set_inside(scenario: &mut Scenario) {
    fresh(scenario);
    scenario.open(Set::Admin, Level::Both);
    scenario.initialize_update(Set::Debit, Level::Both);
    personalize(scenario, 1_000, 500, 100);
    recorded(scenario, Kind::Cash);
}

/// A transaction of 3, and the newest record.
fn recorded(scenario: &mut Scenario, kind: Kind) {
    transaction(scenario, kind, 3);
    scenario.send(&read_record(1));
}

/// A personalized card with 500 from a cash credit.
fn loaded(scenario: &mut Scenario) {
    personalized(scenario, 1_000, 500, 100);
    scenario.open(Set::Credit, Level::Both);
    transaction(scenario, Kind::Cash, 500);
}
