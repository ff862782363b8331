//! Images of a card's memory: a card in use, whose image a purse keeps, a session that reads all
//! of it, and one on an image that reads as no card.

use super::fixture::*;
use crate::bench::scenario::Scenario;
use crate::purse::card::Set;
use crate::purse::session::{Kind, Level};
use crate::terminal::{get_data, read_record, select};

/// Makes the card.
pub fn making() -> Vec<u8> {
    made().file
}

/// Reads the card that `making` leaves, and uses it.
pub fn reading() -> Vec<u8> {
    let mut scenario = made();
    scenario.file.clear();
    read_all(&mut scenario);
    scenario.open(Set::Credit, Level::Both);
    verify(&mut scenario, PIN);
    transaction(&mut scenario, Kind::Bank, 40);
    scenario.send(&read_record(1));
    scenario.file
}

/// Finds no card, also behind an installation that is refused; installs one, reads it and uses it.
pub fn no_card() -> Vec<u8> {
    let mut scenario = Scenario::new(0xD2);
    read_all(&mut scenario);
    scenario.install(&[]);
    read_all(&mut scenario);
    scenario.install(&installation());
    read_all(&mut scenario);
    scenario.open(Set::Admin, Level::Both);
    personalize(&mut scenario, 5_000, 500, 100);
    transaction(&mut scenario, Kind::Cash, 40);
    read_log(&mut scenario);
    scenario.file
}

/// Start-up, SELECT, and all that a card says without a channel.
fn read_all(scenario: &mut Scenario) {
    scenario.start();
    scenario.send(&select(&AID));
    for tag in (0x01..=0x07).chain(0x14..=0x17) {
        scenario.send(&get_data(tag));
    }
    read_log(scenario);
    for set in Set::ALL {
        scenario.initialize_update(set, Level::Both);
    }
}

/// A personalized card with a log that has gone round, whose newest record is of another set, and
/// one try spent.
fn made() -> Scenario {
    let mut scenario = Scenario::new(0xD1);
    personalized(&mut scenario, 5_000, 500, 100);
    scenario.open(Set::Credit, Level::Both);
    for amount in 1..=u16::from(LOG) + 3 {
        transaction(&mut scenario, Kind::Cash, 100 + amount);
    }
    verify(&mut scenario, "0000");
    scenario.open(Set::Debit, Level::Both);
    transaction(&mut scenario, Kind::Debit, 350);
    scenario
}
