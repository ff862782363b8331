//! The log and the key set in each of its records: 02's request 4.

mod support;

use second::bench::file::{BenchFile, Call};
use second::bench::line::Line;
use second::bench::random;
use second::bench::run::lines;
use second::bench::scenario::Scenario;
use second::bench::stored::fixture::{transaction, verify, PIN};
use second::bench::stored::{fixture, sessions};
use second::purse::card::Set;
use second::purse::session::{Kind, Level};
use second::terminal::{get_data, read_record};
use support::{bytes, hex, line, personalized, selected};

/// A transaction of 3 on the card with balance 350 and number 9: its kind, its channel's set, and
/// record 1 behind it.
#[rustfmt::skip]
const RECORDS: [(Kind, Set, &str); 7] = [
    (Kind::Debit, Set::Debit, "000A 0978 FFFD 015B C0C1C2C3C4C5C6C7C8C9CACBCCCDCECF 01"),
    (Kind::Debit, Set::Credit, "000A 0978 FFFD 015B C0C1C2C3C4C5C6C7C8C9CACBCCCDCECF 02"),
    (Kind::Debit, Set::Admin, "000A 0978 FFFD 015B C0C1C2C3C4C5C6C7C8C9CACBCCCDCECF 03"),
    (Kind::Cash, Set::Credit, "000A 0978 0003 0161 C0C1C2C3C4C5C6C7C8C9CACBCCCDCECF 02"),
    (Kind::Cash, Set::Admin, "000A 0978 0003 0161 C0C1C2C3C4C5C6C7C8C9CACBCCCDCECF 03"),
    (Kind::Bank, Set::Credit, "000A 0978 0003 0161 C0C1C2C3C4C5C6C7C8C9CACBCCCDCECF 02"),
    (Kind::Bank, Set::Admin, "000A 0978 0003 0161 C0C1C2C3C4C5C6C7C8C9CACBCCCDCECF 03"),
];

/// The debits among them: one for each set, in order.
fn debits() -> &'static [(Kind, Set, &'static str)] {
    &RECORDS[..3]
}

/// What that card's log has at first.
const OLDER: &str = "0009 0978 015E 015E C9C9C9C9C9C9C9C9C9C9C9C9C9C9C9C9 02";

const VOID: &str = "00000000000000000000000000000000000000000000000000";

/// READ RECORD's line for a record.
fn answer(record: &str) -> String {
    format!("C 0 {}9000", record.replace(' ', ""))
}

/// That card with a channel of the set.
fn at_work(set: Set) -> Scenario {
    let mut scenario = selected(personalized());
    scenario.open(set, Level::Both);
    scenario
}

#[test]
fn each_kind_under_each_set() {
    for (kind, set, record) in RECORDS {
        let mut scenario = at_work(set);
        if kind == Kind::Bank {
            verify(&mut scenario, PIN);
        }
        transaction(&mut scenario, kind, 3);
        let mut read = |number| line(&mut scenario, &read_record(number));
        assert_eq!(read(1), answer(record), "{kind:?}, {set:?}");
        assert_eq!(read(2), answer(OLDER), "{kind:?}, {set:?}");
        for number in 3..=10 {
            assert_eq!(read(number), answer(VOID), "{kind:?}, {set:?}");
        }
    }
}

/// Credits under set 1 are refused, and make no record.
#[test]
fn no_record_of_a_refused_credit() {
    for kind in [Kind::Cash, Kind::Bank] {
        let mut scenario = at_work(Set::Credit);
        verify(&mut scenario, PIN);
        scenario.open(Set::Debit, Level::Both);
        let reply = transaction(&mut scenario, kind, 3);
        assert_eq!(reply.line.word(), Some(0x6985), "{kind:?}");
        assert_eq!(line(&mut scenario, &read_record(1)), answer(OLDER));
    }
}

/// A debit behind a step inside each channel: the record has the channel's set.
fn check_inside(step: impl Fn(&mut Scenario)) {
    for &(_, set, record) in debits() {
        let mut scenario = at_work(set);
        step(&mut scenario);
        transaction(&mut scenario, Kind::Debit, 3);
        assert_eq!(
            line(&mut scenario, &read_record(1)),
            answer(record),
            "{set:?}"
        );
    }
}

#[test]
fn update_inside_the_channel() {
    for other in Set::ALL {
        check_inside(|scenario| {
            let (reply, _) = scenario.initialize_update(other, Level::Both);
            assert_eq!(reply.line.word(), Some(0x9000), "{other:?}");
        });
    }
}

#[test]
fn refused_update_inside_the_channel() {
    for (command, word) in [
        ("80500400 08 0102030405060708", "C 0 6A86"),
        ("80500100 07 01020304050607", "C 0 6700"),
        ("80500200 07 01020304050607", "C 0 6700"),
        ("80500300 07 01020304050607", "C 0 6700"),
    ] {
        check_inside(|scenario| assert_eq!(line(scenario, &bytes(command)), word));
    }
}

/// EXTERNAL AUTHENTICATE not directly behind INITIALIZE UPDATE opens nothing.
#[test]
fn late_authentication_inside_the_channel() {
    for other in Set::ALL {
        check_inside(|scenario| {
            let (_, mut end) = scenario.initialize_update(other, Level::Both);
            scenario.send(&get_data(0x15));
            let command = end.external_authenticate();
            assert_eq!(line(scenario, &command), "C 0 6985", "{other:?}");
        });
    }
}

/// INITIALIZE UPDATE for a set that this card lacks.
#[test]
fn undefined_set_inside_the_channel() {
    for &(_, set, record) in &debits()[1..] {
        let mut card = personalized();
        card.purse.debit = None;
        let mut scenario = selected(card);
        scenario.open(set, Level::Both);
        let (reply, _) = scenario.initialize_update(Set::Debit, Level::Both);
        assert_eq!(reply.line.word(), Some(0x6A88), "{set:?}");
        transaction(&mut scenario, Kind::Debit, 3);
        assert_eq!(line(&mut scenario, &read_record(1)), answer(record));
    }
}

/// A channel opened inside another one: the record has its set.
#[test]
fn channel_over_a_channel() {
    for first in Set::ALL {
        for &(_, set, record) in debits() {
            let mut scenario = at_work(first);
            scenario.open(set, Level::Both);
            transaction(&mut scenario, Kind::Debit, 3);
            assert_eq!(line(&mut scenario, &read_record(1)), answer(record));
        }
    }
}

/// Number, new balance and set of the log of 10 after a credit of 100 and 13 debits of 1, whose
/// sets take turns.
const WRAPPED: [&str; 10] = [
    "000E 0057 01",
    "000D 0058 03",
    "000C 0059 02",
    "000B 005A 01",
    "000A 005B 03",
    "0009 005C 02",
    "0008 005D 01",
    "0007 005E 03",
    "0006 005F 02",
    "0005 0060 01",
];

#[test]
fn older_records_keep_their_sets() {
    let mut scenario = Scenario::new(4);
    fixture::personalized(&mut scenario, 1_000, 500, 20);
    scenario.open(Set::Admin, Level::Both);
    transaction(&mut scenario, Kind::Cash, 100);
    for set in Set::ALL.into_iter().cycle().take(13) {
        scenario.open(set, Level::Both);
        transaction(&mut scenario, Kind::Debit, 1);
    }
    for (number, parts) in (1..).zip(WRAPPED) {
        let [transaction, balance, set] = [&parts[..4], &parts[5..9], &parts[10..]];
        let record = format!("{transaction}0978FFFF{balance}C0C1C2C3C4C5C6C7C8C9CACBCCCDCECF{set}");
        assert_eq!(line(&mut scenario, &read_record(number)), answer(&record));
    }
}

/// A completed transaction as commands and status words tell it.
#[derive(Clone, Copy, Default)]
struct Made {
    /// INITIALIZE TRANSACTION's P1.
    kind: u8,
    /// P1 of the INITIALIZE UPDATE behind which EXTERNAL AUTHENTICATE opened the channel.
    set: u8,
    /// Did an INITIALIZE UPDATE for another set come inside the channel?
    updated: bool,
}

/// Follows the log by what is sent and printed alone.
#[derive(Default)]
struct Watch {
    /// P1 of the last INITIALIZE UPDATE.
    asked: u8,
    next: Made,
    /// The newest first.
    log: Vec<Made>,
    /// What READ RECORD has shown.
    read: Vec<Made>,
}

impl Watch {
    /// The records that a file reads.
    fn reads(file: &[u8]) -> Vec<Made> {
        let file = BenchFile::read(file);
        let mut watch = Watch::default();
        for (call, line) in file.calls.iter().zip(lines(&file, |_| ())) {
            match (call, &line) {
                (Call::Install { .. }, Line::Install(0)) => watch.log.clear(),
                (Call::Command { command, .. }, Line::Response(response))
                    if line.word() == Some(0x9000) =>
                {
                    watch.see(command, response)
                }
                _ => (),
            }
        }
        watch.read
    }

    fn see(&mut self, command: &[u8], response: &[u8]) {
        let (instruction, p1) = (command[1], command[2]);
        match instruction {
            0x50 => {
                self.asked = p1;
                self.next.updated |= p1 != self.next.set;
            }
            0x82 => {
                self.next = Made {
                    set: self.asked,
                    ..Made::default()
                }
            }
            0x44 => self.next.kind = p1,
            0x46 => self.log.insert(0, self.next),
            0xB2 => self.see_record(p1, response),
            _ => (),
        }
    }

    fn see_record(&mut self, number: u8, response: &[u8]) {
        assert_eq!(response.len(), 25 + 2);
        match self.log.get(usize::from(number) - 1) {
            Some(&made) => {
                assert_eq!(response[24], made.set, "{}", hex(response));
                self.read.push(made);
            }
            None => assert_eq!(hex(&response[..25]), VOID),
        }
    }
}

/// INITIALIZE TRANSACTION's P1 and the set, where 01 and 02 allow both.
const PAIRS: [(u8, u8); 7] = [(0, 1), (0, 2), (0, 3), (1, 2), (1, 3), (2, 2), (2, 3)];

/// Every pair is read at least so often, and no other is. So are, under each set, records of
/// channels with an INITIALIZE UPDATE for another set inside.
fn check_reads(reads: &[Made], pair: usize, updated: usize) {
    for of in PAIRS {
        let is_of = |made: &&Made| (made.kind, made.set) == of;
        let count = reads.iter().filter(is_of).count();
        assert!(count >= pair, "{of:?}: {count}");
    }
    for set in 1..=3 {
        let is_updated = |made: &&Made| made.set == set && made.updated;
        let count = reads.iter().filter(is_updated).count();
        assert!(count >= updated, "set {set}: {count}");
    }
    let is_listed = |made: &Made| PAIRS.contains(&(made.kind, made.set));
    assert!(reads.iter().all(is_listed));
}

#[test]
fn stored_sessions_read_every_pair() {
    check_reads(&Watch::reads(&sessions::file()), 1, 4);
}

#[test]
fn random_sessions_read_every_pair() {
    let reads = |cuts| -> Vec<Made> {
        let file = |seed| random::file(seed, 10_000, cuts);
        (1..=6).flat_map(|seed| Watch::reads(&file(seed))).collect()
    };
    check_reads(&reads(false), 20, 20);
    check_reads(&reads(true), 10, 10);
}
