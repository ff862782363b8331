//! A long file: a card in use, and 6,000 READ RECORD commands in a row. Its lines are more than a
//! bench can hold in a buffer.

use super::fixture::{personalized, transaction, LOG};
use crate::bench::scenario::Scenario;
use crate::purse::card::Set;
use crate::purse::session::{Kind, Level};
use crate::terminal::read_record;

/// READ RECORD commands.
pub const READS: u16 = 6_000;

pub fn file() -> Vec<u8> {
    let mut scenario = Scenario::new(6_000);
    personalized(&mut scenario, 5_000, 500, 100);
    scenario.open(Set::Credit, Level::Both);
    for amount in 1..=u16::from(LOG) - 1 {
        transaction(&mut scenario, Kind::Cash, amount);
    }
    for read in 0..READS {
        scenario.send(&read_record((read % u16::from(LOG)) as u8 + 1));
    }
    scenario.file
}
