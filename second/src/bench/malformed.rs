//! One bench file with a malformed record behind some good ones, or a boundary case that is fine.

use super::file::{record, MOST_DATA};
use super::scenario::{installation, Scenario};
use crate::purse::card::KeySet;
use crate::random::Random;
use crate::terminal;

/// Good records, one record made by the seed, and perhaps a good record that must not be read.
pub fn file(seed: u64) -> Vec<u8> {
    let mut scenario = Scenario::new(seed);
    for _ in 0..scenario.random.below(4) {
        good_record(&mut scenario);
    }
    let odd = odd_record(&mut scenario.random);
    scenario.file.extend(odd.bytes);
    if odd.whole && scenario.random.below(2) == 0 {
        scenario.start();
    }
    scenario.file
}

fn good_record(scenario: &mut Scenario) {
    match scenario.random.below(3) {
        0 => {
            let keys = scenario.random.bytes(48);
            let keys = KeySet::read(&keys).unwrap_or_default();
            scenario.install(&installation(&[1, 2, 3, 4, 5], 10, 3, &keys));
        }
        1 => drop(scenario.start()),
        _ => drop(scenario.send(&terminal::get_data(0x15))),
    }
}

/// A record, and whether other records may follow it: behind one that is cut short they would
/// become its data.
struct Odd {
    bytes: Vec<u8>,
    whole: bool,
}

fn odd_record(random: &mut Random) -> Odd {
    let limit = [0xFF; 2];
    let bytes = match random.below(10) {
        0 => wrong_mark(random),
        1 => record(wrong_kind(random), &[&limit, &random.bytes(8)]),
        2 => return cut_short(random),
        3 => record(1 + random.below(3) as u8, &[&limit[..random.below(2)]]),
        4 => record(0x03, &[&limit, &random.bytes(8)[..random.below(8)]]),
        5 => record(0x02, &[&limit, &vec![0; 1 + random.below(20)]]),
        6 => too_long(random),
        7 => longest(random),
        8 => record(0x03, &[&limit, &random.bytes(8)]),
        _ => record(0x01, &[&limit]),
    };
    Odd { bytes, whole: true }
}

fn wrong_mark(random: &mut Random) -> Vec<u8> {
    let mut bytes = record(0x02, &[&[0xFF, 0xFF]]);
    match random.below(4) {
        0 => bytes[0] = random.byte() & 0x7F,
        1 => bytes[1] = random.byte() & 0x3F,
        2 => bytes.swap(0, 1),
        _ => drop(bytes.remove(0)),
    }
    bytes
}

fn wrong_kind(random: &mut Random) -> u8 {
    [0x00, 0x04, 0x05, 0x81, 0xFF][random.below(5)]
}

/// A good record without its last bytes, down to the first byte of the mark.
fn cut_short(random: &mut Random) -> Odd {
    let mut bytes = match random.below(3) {
        0 => record(0x01, &[&[0xFF; 2], &random.bytes(56)]),
        1 => record(0x02, &[&[0xFF; 2]]),
        _ => record(0x03, &[&[0xFF; 2], &random.bytes(12)]),
    };
    let kept = 1 + random.below(bytes.len() - 1);
    bytes.truncate(kept);
    Odd {
        bytes,
        whole: false,
    }
}

/// Data over 512 bytes.
fn too_long(random: &mut Random) -> Vec<u8> {
    let length = MOST_DATA + [1, 2, 1000][random.below(3)];
    let kind = [0x01, 0x03][random.below(2)];
    let rest = random.bytes(length - 2);
    record(kind, &[&[0xFF; 2], &rest])
}

/// Data of 512 bytes: an installation too long, or a command of 502 bytes.
fn longest(random: &mut Random) -> Vec<u8> {
    let kind = [0x01, 0x03][random.below(2)];
    let rest = random.bytes(MOST_DATA - 2);
    record(kind, &[&[0xFF; 2], &rest])
}
