//! The checker accepts what 01 allows and rejects the rest, at the first wrong line.

mod support;

use second::bench::check::{check, Rejection};
use second::bench::file::BenchFile;
use second::bench::random;
use second::bench::run;
use second::bench::scenario::Scenario;
use second::bench::stored::{cuts, fixture::*};
use second::purse::card::Set;
use second::purse::session::{Kind, Level};
use second::random::Random;
use second::terminal::{get_data, read_record};
use support::simulated::{print, Style};

/// A file and the lines of a run without cuts.
struct Run {
    file: BenchFile,
    lines: Vec<String>,
}

impl Run {
    fn new(scenario: Scenario) -> Run {
        let file = BenchFile::read(&scenario.file);
        let lines = run::lines(&file, |_| ());
        let lines = lines.iter().map(ToString::to_string).collect();
        Run { file, lines }
    }

    /// The verdict on these lines with the last ones replaced.
    fn ending(&self, last: &[&str]) -> Result<(), usize> {
        let kept = &self.lines[..self.lines.len() - last.len()];
        let mut text = kept.join("\n");
        for line in last {
            text += "\n";
            text += line;
        }
        text += "\n";
        check(&self.file, &text)
            .map(|_| ())
            .map_err(|rejection| self.lines.len() + 1 - rejection.line)
    }
}

/// A selected personalized card with maxima 1,000, 500 and 100, and a channel of the set.
fn at_work(set: Set) -> Scenario {
    let mut scenario = Scenario::new(5);
    personalized(&mut scenario, 1_000, 500, 100);
    scenario.open(set, Level::Both);
    scenario
}

/// COMPLETE of a credit of 10 with a limit, then a start-up and SELECT.
fn completed(limit: u16) -> Run {
    let mut scenario = at_work(Set::Credit);
    begin(&mut scenario, Kind::Cash, 10);
    scenario.limit = limit;
    complete(&mut scenario);
    scenario.start();
    scenario.select();
    Run::new(scenario)
}

const BEFORE: &str = "C 0 000102037000640978000000 0003E89000";
const AFTER: &str = "C 0 00010203700063 0978000A000A03DE9000";
const HALF: [&str; 3] = [
    "C 0 00010203700063 09780000000003E89000",
    "C 0 00010203700064 0978000A000A03DE9000",
    "C 0 00010203700063 0978000A000003DE9000",
];

fn tight(line: &str) -> String {
    let (head, digits) = line.split_at(4);
    format!("{head}{}", digits.replace(' ', ""))
}

#[test]
fn cut_complete() {
    let run = completed(20);
    assert_eq!(run.ending(&["C 7", "S 0", &tight(BEFORE)]), Ok(()));
    assert_eq!(run.ending(&["C 7", "S 0", &tight(AFTER)]), Ok(()));
    assert_eq!(run.ending(&["S 0", &tight(AFTER)]), Ok(()));
    assert_eq!(
        run.ending(&["S 0", &tight(BEFORE)]),
        Err(1),
        "a lost transaction"
    );
    for half in HALF {
        assert_eq!(run.ending(&["C 7", "S 0", &tight(half)]), Err(1), "{half}");
    }
}

/// The record of a cut COMPLETE is void, or has the channel's set.
#[test]
fn key_set_of_a_cut_record() {
    let mut scenario = at_work(Set::Credit);
    begin(&mut scenario, Kind::Cash, 10);
    scenario.limit = 20;
    complete(&mut scenario);
    scenario.start();
    scenario.select();
    scenario.send(&read_record(1));
    let run = Run::new(scenario);
    let void = format!("C 0 {}9000", "00".repeat(25));
    assert_eq!(run.ending(&["C 7", "S 0", &tight(BEFORE), &void]), Ok(()));
    for (set, verdict) in [
        ("02", Ok(())),
        ("00", Err(1)),
        ("01", Err(1)),
        ("03", Err(1)),
    ] {
        let record = format!("C 0 00010978000A000AC0C1C2C3C4C5C6C7C8C9CACBCCCDCECF{set}9000");
        let lines = ["C 7", "S 0", &tight(AFTER), &record];
        assert_eq!(run.ending(&lines), verdict, "set {set}");
        assert_eq!(run.ending(&lines[1..]), verdict, "set {set}, not cut");
    }
}

#[test]
fn limits_that_decide() {
    let at_zero = completed(0);
    assert_eq!(at_zero.ending(&["C 7", "S 0", &tight(BEFORE)]), Ok(()));
    assert_eq!(at_zero.ending(&["C 7", "S 0", &tight(AFTER)]), Err(1));
    assert_eq!(at_zero.ending(&[]), Err(3), "a change at limit 0");
    let at_one = completed(1);
    assert_eq!(at_one.ending(&["C 7", "S 0", &tight(AFTER)]), Ok(()));
    let unlimited = completed(0xFFFF);
    assert_eq!(unlimited.ending(&[]), Ok(()));
    assert_eq!(unlimited.ending(&["C 7", "S 0", &tight(BEFORE)]), Err(3));
    let below = completed(0xFFFE);
    assert_eq!(below.ending(&["C 7", "S 0", &tight(BEFORE)]), Ok(()));
}

/// A cut COMPLETE, SELECT at once, a start-up with a small limit, another, SELECT.
fn started() -> Run {
    let mut scenario = at_work(Set::Credit);
    begin(&mut scenario, Kind::Cash, 10);
    scenario.limit = 20;
    complete(&mut scenario);
    scenario.select();
    scenario.limit = 3;
    scenario.start();
    scenario.start();
    scenario.select();
    Run::new(scenario)
}

#[test]
fn start_ups_that_may_be_due() {
    let run = started();
    let (before, after) = (tight(BEFORE), tight(AFTER));
    for last in [&before, &after] {
        assert_eq!(run.ending(&["C 7", "C 5", "S 7", "S 0", last]), Ok(()));
        assert_eq!(run.ending(&["C 7", "C 5", "S 0", "S 0", last]), Ok(()));
        assert_eq!(run.ending(&["C 7", last, "S 0", "S 0", last]), Ok(()));
    }
}

#[test]
fn start_ups_that_are_not_due() {
    let run = started();
    let (before, after) = (tight(BEFORE), tight(AFTER));
    assert_eq!(run.ending(&["C 7", &before, "S 7", "S 0", &before]), Err(3));
    assert_eq!(
        run.ending(&["C 7", "C 5", "S 7", "S 7", &before]),
        Err(2),
        "no limit"
    );
    assert_eq!(run.ending(&["C 7", &before, "S 0", "S 0", &after]), Err(1));
    assert_eq!(
        run.ending(&["C 5", "S 7", "S 0", &before]),
        Err(4),
        "not without a cut"
    );
}

/// A cut at limit 0 makes no start-up due.
#[test]
fn untouched_memory_awaits_nothing() {
    let mut scenario = at_work(Set::Credit);
    begin(&mut scenario, Kind::Cash, 10);
    scenario.limit = 0;
    complete(&mut scenario);
    scenario.select();
    let run = Run::new(scenario);
    assert_eq!(run.ending(&["C 7", "C 5"]), Err(1));
    assert_eq!(run.ending(&["C 7", &tight(BEFORE)]), Ok(()));
}

/// VERIFY PIN with a limit after one wrong PIN, then a start-up, SELECT and GET DATA 16.
fn verified(digits: &str, limit: u16) -> Run {
    let mut scenario = at_work(Set::Credit);
    verify(&mut scenario, "0000");
    scenario.limit = limit;
    verify(&mut scenario, digits);
    scenario.start();
    scenario.select();
    scenario.send(&get_data(0x16));
    Run::new(scenario)
}

#[test]
fn cut_verify_pin() {
    let tries = |left: u8| format!("C 0 01{left:02X}9000");
    let before = tight(BEFORE);
    let right = verified("1234", 50);
    let cut = |run: &Run, left| run.ending(&["C 7", "S 0", &before, &tries(left)]);
    assert_eq!([5, 4, 3].map(|left| cut(&right, left)), [Ok(()); 3]);
    assert_eq!(cut(&right, 2), Err(1), "a lost try");
    let wrong = verified("9999", 50);
    assert_eq!([4, 3].map(|left| cut(&wrong, left)), [Ok(()); 2]);
    assert_eq!(cut(&wrong, 5), Err(1), "a try too many");
    assert_eq!(cut(&wrong, 2), Err(1), "a lost try");
    let at_zero = verified("1234", 0);
    assert_eq!(cut(&at_zero, 4), Ok(()));
    assert_eq!(cut(&at_zero, 3), Err(1), "limit 0 leaves memory untouched");
    assert_eq!(
        wrong.ending(&["C 0 6300", "S 0", &before, &tries(3)]),
        Ok(())
    );
    assert_eq!(
        wrong.ending(&["C 0 6300", "S 0", &before, &tries(4)]),
        Err(1)
    );
    let free = verified("9999", 0);
    assert_eq!(
        free.ending(&["C 0 6300", "S 0", &before, &tries(4)]),
        Err(4),
        "a free try"
    );
}

/// A call in a scenario.
type Action = fn(&mut Scenario);

/// Runs that make no store can't be cut.
#[test]
fn answer_7_without_a_store() {
    let steps: [(&str, Action); 8] = [
        ("C 7", |scenario| drop(scenario.select())),
        ("C 7", |scenario| {
            drop(scenario.initialize_update(Set::Credit, Level::Both))
        }),
        ("C 7", |scenario| drop(begin(scenario, Kind::Cash, 1))),
        ("C 7", |scenario| drop(complete(scenario))),
        ("C 7", |scenario| drop(scenario.send(&get_data(0x15)))),
        ("C 7", |scenario| drop(scenario.send(&[]))),
        ("S 7", |scenario| drop(scenario.start())),
        ("I 7", |scenario| drop(scenario.install(&[]))),
    ];
    for (place, (cut, step)) in steps.into_iter().enumerate() {
        let mut scenario = at_work(Set::Credit);
        scenario.limit = 0;
        step(&mut scenario);
        let run = Run::new(scenario);
        assert_eq!(run.ending(&[]), Ok(()), "step {place}");
        assert_eq!(run.ending(&[cut]), Err(1), "step {place}");
    }
}

/// A re-installation with a limit, then start-up and SELECT of the old AID.
#[test]
fn cut_installation() {
    let mut scenario = at_work(Set::Credit);
    scenario.limit = 9;
    scenario.install(&support::installation());
    scenario.start();
    scenario.select();
    let run = Run::new(scenario);
    let fresh = format!("C 0 {}9000", "00".repeat(15));
    for last in [&tight(BEFORE), &fresh] {
        assert_eq!(run.ending(&["I 7", "S 0", last]), Ok(()), "{last}");
    }
    assert_eq!(run.ending(&["I 7", "S 2", "C 2"]), Ok(()));
    assert_eq!(run.ending(&["I 7", "S 2", &fresh]), Err(1));
    assert_eq!(run.ending(&["I 7", "S 0", "C 2"]), Err(1));
    assert_eq!(run.ending(&["I 0", "S 0", &tight(BEFORE)]), Err(1));
    assert_eq!(run.ending(&["I 0", "S 2", "C 2"]), Err(2));
}

fn example() -> (BenchFile, String) {
    let file = BenchFile::read(&second::bench::stored::example());
    let text = "I 0\nS 0\nC 0 0000000000000000000000000000009000\nC 0 0200009000\n";
    (file, text.to_string())
}

fn rejected_at(file: &BenchFile, text: &str) -> Option<usize> {
    check(file, text).err().map(|Rejection { line, .. }| line)
}

#[test]
fn wrong_shapes_of_the_output() {
    let (file, good) = example();
    assert_eq!(rejected_at(&file, &good), None);
    assert_eq!(rejected_at(&file, &good.replace("S 0", "S 2")), Some(2));
    assert_eq!(rejected_at(&file, &good.replace("S 0", "I 0")), Some(2));
    assert_eq!(
        rejected_at(&file, &good.replace("0200009000", "0200009001")),
        Some(4)
    );
    assert_eq!(
        rejected_at(&file, &good.replace("0200009000", "0200019000")),
        Some(4)
    );
    assert_eq!(
        rejected_at(&file, &good.replace("S 0\n", "S 0 \n")),
        Some(2)
    );
    assert_eq!(rejected_at(&file, &good.replace('\n', "\r\n")), Some(1));
    assert_eq!(rejected_at(&file, good.trim_end()), Some(4));
    assert_eq!(rejected_at(&file, &format!("{good}X\n")), Some(5));
    assert_eq!(rejected_at(&file, &format!("{good}\n")), Some(5));
    assert_eq!(rejected_at(&file, "I 0\nS 0\n"), Some(3));
    assert_eq!(rejected_at(&file, ""), Some(1));
    let malformed = BenchFile {
        malformed: true,
        ..file
    };
    assert_eq!(rejected_at(&malformed, &good), Some(5));
    assert_eq!(rejected_at(&malformed, &format!("{good}X\n")), None);
    assert_eq!(rejected_at(&malformed, &format!("{good}X\nX\n")), Some(6));
}

#[test]
fn reasons_name_what_is_allowed() {
    let (file, good) = example();
    let rejection = check(&file, &good.replace("S 0", "S 7")).expect_err("nothing is due");
    assert_eq!(rejection.to_string(), "line 2: `S 7`, but 01 allows `S 0`");
}

#[test]
fn cards_that_can_be_cut_are_accepted() {
    let mut cut = 0;
    for seed in 0..6 {
        let file = BenchFile::read(&random::file(seed, 1_500, true));
        for style in [Style::Shadow, Style::Journal] {
            let verdict = check(&file, &print(&file, style));
            let summary = verdict.unwrap_or_else(|wrong| panic!("seed {seed}: {wrong}"));
            cut += summary.cut;
        }
    }
    assert!(cut > 300, "{cut} cuts");
}

#[test]
fn stored_cuts_are_accepted() {
    let file = BenchFile::read(&cuts::file());
    for style in [Style::Shadow, Style::Journal] {
        let summary = check(&file, &print(&file, style)).unwrap_or_else(|wrong| panic!("{wrong}"));
        assert!(summary.cut > 12 * 50, "{summary}");
    }
}

/// One changed digit in a response is found at its line.
#[test]
fn changed_responses_are_rejected() {
    let file = BenchFile::read(&random::file(9, 1_500, true));
    let text = print(&file, Style::Shadow);
    let lines: Vec<&str> = text.lines().collect();
    let mut random = Random::new(4);
    let mut tried = 0;
    while tried < 60 {
        let place = random.below(lines.len());
        if !lines[place].starts_with("C 0 ") {
            continue;
        }
        let mut changed: Vec<String> = lines.iter().map(ToString::to_string).collect();
        let digit = changed[place].pop().expect("a digit");
        changed[place].push(if digit == '1' { '2' } else { '1' });
        let rejection = check(&file, &(changed.join("\n") + "\n")).expect_err("a wrong word");
        assert_eq!(rejection.line, place + 1);
        tried += 1;
    }
}
