//! A whole life of a card, in short: installed, personalized, loaded with 1,000, and a purchase of
//! 350, whose log amount reads FE A2.

use super::fixture::{personalized, transaction};
use crate::bench::scenario::Scenario;
use crate::purse::card::Set;
use crate::purse::session::{Kind, Level};
use crate::terminal::{get_data, read_record};

pub fn file() -> Vec<u8> {
    let mut scenario = Scenario::new(350);
    personalized(&mut scenario, 5_000, 500, 100);
    scenario.open(Set::Credit, Level::Both);
    transaction(&mut scenario, Kind::Cash, 1_000);
    scenario.start();
    scenario.select();
    scenario.open(Set::Debit, Level::Both);
    transaction(&mut scenario, Kind::Debit, 350);
    scenario.send(&get_data(0x15));
    scenario.send(&read_record(1));
    scenario.send(&read_record(2));
    scenario.file
}
