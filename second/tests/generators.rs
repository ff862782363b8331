//! What the random and the stored bench files reach.

mod support;

use std::collections::BTreeSet;

use second::bench::coverage::{Coverage, REACHABLE};
use second::bench::file::{BenchFile, Call, NO_LIMIT};
use second::bench::line::Line;
use second::bench::run::{lines, Bench};
use second::bench::stored::{cuts, image, purchase, records, sessions};
use second::bench::{malformed, random};
use second::purse::{Refusal, Verdict};

fn coverage(files: &[Vec<u8>]) -> Coverage {
    let mut coverage = Coverage::default();
    for file in files {
        coverage.add(&BenchFile::read(file));
    }
    coverage
}

/// The table's words are written by hand; the refusals' own must be the same.
#[test]
fn table_of_reachable_rules() {
    let verdicts: BTreeSet<Verdict> = REACHABLE.iter().map(|entry| entry.verdict()).collect();
    assert_eq!(verdicts.len(), REACHABLE.len(), "an entry twice");
    for entry in REACHABLE {
        let word = entry.refusal.map_or(0x9000, Refusal::word);
        assert_eq!(word, entry.word, "{} {}", entry.name(), entry.comment);
    }
    let pairs: BTreeSet<(&str, u16)> = REACHABLE
        .iter()
        .map(|entry| (entry.name(), entry.word))
        .collect();
    assert_eq!((REACHABLE.len(), pairs.len()), (PLACES, PAIRS));
}

/// Rules by command as 01 lists them, with those of 02, what is no command first, and the status
/// words among them.
const PLACES: usize = 3 + 3 + 5 + 7 + 7 + 9 + 11 + 9 + 16 + 8 + 4 + 10 + 5;
const PAIRS: usize = 3 + 3 + 5 + 6 + 5 + 7 + 7 + 8 + 11 + 5 + 4 + 7 + 5;

#[test]
fn random_files_reach_every_rule() {
    let files: Vec<Vec<u8>> = (1..=4)
        .map(|seed| random::file(seed, 6_000, false))
        .collect();
    let coverage = coverage(&files);
    assert_eq!(coverage.missing().len(), 0, "{}", coverage.report());
    assert_eq!(coverage.unlisted(), []);
}

#[test]
fn stored_sessions_reach_every_rule() {
    let coverage = coverage(&[sessions::file()]);
    assert_eq!(coverage.missing().len(), 0, "{}", coverage.report());
    assert_eq!(coverage.unlisted(), []);
}

#[test]
fn coverage_says_what_is_missing() {
    let coverage = coverage(&[purchase::file()]);
    let missing = coverage.missing().len();
    assert!(missing > 60, "{missing} missing");
    let report = coverage.report();
    assert!(report.contains(" MISSING  READ RECORD             6A83  P1 not 1 to log size"));
    assert!(report.contains("       2  READ RECORD             9000  the record"));
}

/// Every call of a file with the bench before and after it.
fn replay(file: &[u8], mut see: impl FnMut(&Bench, &Bench, Option<Verdict>)) {
    let mut bench = Bench::default();
    for call in &BenchFile::read(file).calls {
        let before = bench.clone();
        let reply = bench.call(call);
        see(&before, &bench, reply.verdict);
    }
}

/// Demand 1: a refusal changes nothing, except that a wrong PIN costs one try. Also no change
/// comes from a run that makes no store, and the numbers stay within their maxima.
#[test]
fn refusals_change_nothing() {
    replay(
        &random::file(11, 20_000, false),
        |before, after, verdict| {
            let Some(verdict) = verdict else {
                return;
            };
            let (before, after) = (before.card.as_ref(), after.card.as_ref());
            let (before, after) = (before.expect("a card"), after.expect("a card"));
            assert!(before == after || verdict.may_store(), "{verdict:?}");
            match verdict.refusal {
                Some(Refusal::WrongPin) => assert_eq!(after.tries, before.tries - 1),
                Some(_) => assert_eq!(after, before),
                None => (),
            }
            assert!(after.purse.balance <= after.purse.most_balance);
            assert!(after.number <= after.most_number);
            assert!(after.tries <= after.most_tries);
            assert!(after.log.records.len() <= usize::from(after.log.size));
        },
    );
}

/// Demand 3 without cuts: the balance is completed credits less completed debits.
#[test]
fn balance_is_the_sum_of_the_log() {
    let mut sum = 0;
    let mut completed = 0;
    replay(
        &random::file(12, 20_000, false),
        |before, after, verdict| {
            let (Some(old), Some(new)) = (&before.card, &after.card) else {
                sum = 0;
                return;
            };
            if verdict.is_none() && new.number == 0 {
                sum = 0;
            } else if new.number > old.number {
                let record = new.log.get(1).expect("record 1");
                sum += i32::from(record.amount);
                completed += 1;
                assert_eq!(record.number, old.number + 1);
            }
            assert_eq!(sum, i32::from(new.purse.balance));
        },
    );
    assert!(completed > 300, "{completed} transactions");
}

#[test]
fn long_logs_wrap_around() {
    let mut most = 0;
    for seed in 0..8 {
        replay(&random::file(seed, 4_000, false), |_, after, _| {
            let full = after.card.as_ref().filter(|card| {
                usize::from(card.log.size) == card.log.records.len()
                    && card.number > u16::from(card.log.size)
            });
            most = most.max(full.map_or(0, |card| card.log.size));
        });
    }
    assert_eq!(most, 50);
}

#[test]
fn limits_of_random_files() {
    let limits = |cuts| -> Vec<u16> {
        let file = BenchFile::read(&random::file(3, 3_000, cuts));
        assert!(!file.malformed);
        file.calls.iter().map(Call::limit).collect()
    };
    assert!(limits(false).iter().all(|&limit| limit == NO_LIMIT));
    let small: Vec<u16> = limits(true)
        .into_iter()
        .filter(|&limit| limit != NO_LIMIT)
        .collect();
    assert!(small.len() > 100, "{} limits", small.len());
    assert!(small.iter().all(|&limit| limit < 300));
    assert!(small.contains(&0));
}

#[test]
fn commands_are_as_many_as_asked() {
    for commands in [0, 1, 500] {
        let file = BenchFile::read(&random::file(6, commands, false));
        let is_command = |call: &&Call| matches!(call, Call::Command { .. });
        let count = file.calls.iter().filter(is_command).count() as u64;
        assert!(
            (commands..commands + 150).contains(&count),
            "{count} of {commands}"
        );
    }
}

#[test]
fn the_seed_decides() {
    assert_eq!(random::file(1, 300, true), random::file(1, 300, true));
    assert_ne!(random::file(1, 300, false), random::file(2, 300, false));
    assert_eq!(malformed::file(1), malformed::file(1));
    assert_eq!(sessions::file(), sessions::file());
}

/// Most malformed files end with X; some are at the edge and fine.
#[test]
fn malformed_files() {
    let files: Vec<BenchFile> = (0..500)
        .map(|seed| BenchFile::read(&malformed::file(seed)))
        .collect();
    let bad = files.iter().filter(|file| file.malformed).count();
    assert!((250..450).contains(&bad), "{bad} of 500");
    for file in &files {
        let last = lines(file, |_| ()).last() == Some(&Line::Malformed);
        assert_eq!(last, file.malformed);
    }
    assert!(files
        .iter()
        .any(|file| file.malformed && file.calls.is_empty()));
}

/// Each of the twelve parts tries every limit up to the greatest.
#[test]
fn stored_cuts_try_every_limit() {
    let file = BenchFile::read(&cuts::file());
    assert!(!file.malformed);
    for limit in 1..=cuts::MOST {
        let count = file
            .calls
            .iter()
            .filter(|call| call.limit() == limit)
            .count();
        assert_eq!(count, 12, "limit {limit}");
    }
    let mut stores = 0;
    lines(&file, |reply| {
        stores += usize::from(reply.verdict.is_some_and(Verdict::may_store));
    });
    assert!(
        stores > 12 * usize::from(cuts::MOST),
        "{stores} runs that store"
    );
}

/// Thousands of reads, each answered with a record: more lines than 64 KiB, and than 64 KiB of
/// input make.
#[test]
fn stored_records_fill_buffers() {
    let file = BenchFile::read(&records::file());
    let lines = lines(&file, |_| ());
    let reads: Vec<String> = lines.iter().map(ToString::to_string).collect();
    let reads = &reads[reads.len() - usize::from(records::READS)..];
    assert!(reads.iter().all(|line| line.len() == 4 + 2 * (25 + 2)));
    assert!(reads.iter().all(|line| line.ends_with("9000")));
    let commands = usize::from(records::READS) * 19;
    assert!(commands > 65_536 && reads.concat().len() > 2 * commands);
}

/// The lines of a file, each a text.
fn texts(file: &[u8]) -> Vec<String> {
    let lines = lines(&BenchFile::read(file), |_| ());
    lines.iter().map(ToString::to_string).collect()
}

/// 01's purchase: the log's newest amount reads FE A2.
#[test]
fn purchase_logs_a_debit() {
    let texts = texts(&purchase::file());
    let newest = &texts[texts.len() - 2];
    assert!(newest.starts_with("C 0 00020978FEA2028A"), "{newest}");
}

/// The card of the image: a log of 10 with one debit under set 1 behind credits under set 2.
#[test]
fn image_of_a_card() {
    let made = image::making();
    let texts = texts(&[made.clone(), image::reading()].concat());
    let read = &texts[BenchFile::read(&made).calls.len()..];
    assert_eq!(read[0], "S 0");
    let sets: Vec<&str> = read
        .iter()
        .filter(|line| line.len() == 4 + 2 * (25 + 2))
        .map(|line| &line[4 + 2 * 24..][..2])
        .collect();
    let log = [["01"].as_slice(), &["02"; 9]].concat();
    assert_eq!(sets, [log.as_slice(), &["02"]].concat());
}

/// Nothing is found before the installation; behind it the card is fresh.
#[test]
fn image_of_no_card() {
    let texts = texts(&image::no_card());
    let installed = texts.iter().position(|line| line == "I 0");
    let (before, behind) = texts.split_at(installed.expect("an installation"));
    let count = |text: &str| before.iter().filter(|line| *line == text).count();
    assert_eq!((count("S 2"), count("I 6")), (2, 1));
    assert_eq!(count("C 2"), before.len() - 3);
    let fresh = ["S 0", "C 0 0000000000000000000000000000009000"];
    assert_eq!(behind[1..3], fresh);
    let void = format!("C 0 {}9000", "00".repeat(25));
    assert_eq!(behind.iter().filter(|line| **line == void).count(), 10 + 9);
}
