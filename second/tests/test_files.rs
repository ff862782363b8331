//! What the stored and the random test files hold.

use std::collections::BTreeMap;

use second::cipher_tests::answers::answer;
use second::cipher_tests::{random, stored};
use second::random::Random;

fn random_lines(seed: u64, blocks: u64, signatures: u64) -> Vec<Vec<u8>> {
    let mut output = Vec::new();
    random::write(seed, blocks, signatures, &mut output).expect("memory can be written");
    assert!(output.is_empty() || output.ends_with(b"\n"));
    let lines = output.split(|&byte| byte == b'\n');
    let mut lines: Vec<Vec<u8>> = lines.map(<[u8]>::to_vec).collect();
    lines.pop();
    lines
}

/// How many lines get each kind of answer: a good line's kind, or what is malformed.
fn tally<'a>(lines: impl Iterator<Item = &'a [u8]>) -> BTreeMap<String, usize> {
    let mut counts = BTreeMap::new();
    for line in lines {
        let answer = answer(line);
        let kind = String::from_utf8_lossy(&line[..line.len().min(2)]).into_owned();
        let name = if answer.starts_with("malformed") {
            answer
        } else {
            kind
        };
        *counts.entry(name).or_insert(0) += 1;
    }
    counts
}

/// Whole blocks of a good line's text.
fn blocks(line: &[u8]) -> usize {
    let text = line.rsplit(|&byte| byte == b' ').next().unwrap_or(&[]);
    text.len() / 16
}

fn is_good(line: &[u8]) -> bool {
    !answer(line).starts_with("malformed")
}

/// 235 known blocks and one good line at the end; 26 lengths of text; 65 of signatures.
#[test]
fn stored_file() {
    let file = stored::file();
    assert!(file.ends_with("\nDE 0123456789ABCDEF - 4E6F772069732074"));
    let counts = tally(file.split('\n').map(str::as_bytes));
    let good = ["DE", "DD", "ME", "MD", "SG"].map(|kind| counts[kind]);
    assert_eq!(good, [235 + 2, 235 + 1, 3, 3, 65 + 1]);
    let texts = ["TE", "TD", "CE", "CD"].map(|kind| counts[kind]);
    assert_eq!(
        texts,
        [235 + 2 + 26 + 2, 235 + 2 + 26 + 1, 2 + 26 + 1, 2 + 26]
    );
    for part in ["line", "fields", "kind", "key", "start", "text"] {
        assert!(counts[&format!("malformed: {part}")] >= 3, "{part}");
    }
}

#[test]
fn stored_file_has_every_length_of_signature() {
    let file = stored::file();
    let signed = |length: usize| {
        let text_field = if length == 0 { 1 } else { 2 * length };
        let of_length = |line: &&str| line.len() == 53 + text_field;
        let mut lines = file.lines().filter(|line| line.starts_with("SG "));
        lines.any(|line| of_length(&line) && is_good(line.as_bytes()))
    };
    assert!((0..=64).all(signed));
}

#[test]
fn stored_file_has_lines_at_the_greatest_length() {
    let file = stored::file();
    let answers_at = |length: usize| -> Vec<bool> {
        let lines = file.split('\n').filter(|line| line.len() == length);
        lines.map(|line| is_good(line.as_bytes())).collect()
    };
    assert_eq!(answers_at(4096), [true, true, false, false]);
    assert_eq!(answers_at(4097), [false, false]);
}

#[test]
fn random_lines_are_as_many_as_asked() {
    let lines = random_lines(7, 3000, 200);
    let good = lines.iter().filter(|line| is_good(line));
    let (signatures, others): (Vec<_>, Vec<_>) = good.partition(|line| line.starts_with(b"SG"));
    assert_eq!(signatures.len(), 200);
    let count: usize = others.iter().map(|line| blocks(line)).sum();
    assert!((3000..3041).contains(&count), "{count} blocks");
    let counts = tally(lines.iter().map(Vec::as_slice));
    for kind in ["DE", "DD", "TE", "TD", "CE", "CD"] {
        assert!(counts[kind] > 10, "{kind}");
    }
}

#[test]
fn one_random_line_in_a_hundred_is_malformed() {
    let lines = random_lines(8, 0, 6_000);
    let malformed = lines.iter().filter(|line| !is_good(line)).count();
    assert_eq!(lines.len() - malformed, 6_000);
    assert!((30..120).contains(&malformed), "{malformed} lines");
    let counts = tally(lines.iter().map(Vec::as_slice));
    for part in ["line", "fields", "kind", "key", "start", "text"] {
        assert!(counts.contains_key(&format!("malformed: {part}")), "{part}");
    }
}

#[test]
fn the_seed_decides() {
    assert_eq!(random_lines(1, 100, 10), random_lines(1, 100, 10));
    assert_ne!(random_lines(1, 100, 10), random_lines(2, 100, 10));
    assert!(random_lines(1, 0, 0).is_empty());
}

/// The first numbers of splitmix64 for the seed 1234567, as other implementations give them.
#[test]
fn splitmix64() {
    let mut random = Random::new(1234567);
    assert_eq!(random.word(), 6457827717110365317);
    assert_eq!(random.word(), 3203168211198807973);
}
