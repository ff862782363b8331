//! The stored test file: published known answers in both directions, chained tests, signatures,
//! texts of odd lengths, and malformed lines. It is the same at every run.

use super::malformed::{longest, too_long, MALFORMED};
use super::{hex_field, line, MAX_LINE, NONE};
use crate::hex;
use crate::known::{self, Known, KnownText};
use crate::random::Random;

/// Seed of the keys and texts that no standard gives.
const SEED: u64 = 0x5EC0;

/// The whole file; its last line has no LF.
pub fn file() -> String {
    [
        known_blocks(),
        known_texts(),
        chains(),
        signatures(),
        odd_lengths(),
        accepted(),
        malformed(),
    ]
    .concat()
    .join("\n")
}

/// Each known block for DES, and for triple DES with its key repeated.
fn known_blocks() -> Vec<String> {
    let lines = |test: Known| {
        let [key, plain, cipher] = [test.key, test.plain, test.cipher].map(word);
        let twice = key.repeat(2);
        [
            line("DE", &key, NONE, &plain),
            line("DD", &key, NONE, &cipher),
            line("TE", &twice, NONE, &plain),
            line("TD", &twice, NONE, &cipher),
        ]
    };
    known::blocks().into_iter().flat_map(lines).collect()
}

fn known_texts() -> Vec<String> {
    let texts = known::FIPS_81.iter().chain(&known::TWO_KEYS);
    texts.flat_map(both_directions).collect()
}

fn both_directions(test: &KnownText) -> [String; 2] {
    let (start, encipher, decipher) = match test.start {
        Some(start) => (start, "CE", "CD"),
        None => (NONE, "TE", "TD"),
    };
    [
        line(encipher, test.key, start, test.plain),
        line(decipher, test.key, start, test.cipher),
    ]
}

/// The 10,000-fold tests; each MD gets what the ME before it gives.
fn chains() -> Vec<String> {
    let lines = |test: &Known| {
        let [key, plain, cipher] = [test.key, test.plain, test.cipher].map(word);
        [
            line("ME", &key, NONE, &plain),
            line("MD", &key, NONE, &cipher),
        ]
    };
    known::CHAINS.iter().flat_map(lines).collect()
}

/// Signatures of texts of every length from 0 to 64.
fn signatures() -> Vec<String> {
    let mut random = Random::new(SEED);
    (0..=64)
        .map(|length| {
            let key = hex::encode(&random.bytes(16));
            let start = hex::encode(&random.bytes(8));
            line("SG", &key, &start, &hex_field(&random.bytes(length)))
        })
        .collect()
}

/// ECB and CBC over texts of every length from 0 to 25.
fn odd_lengths() -> Vec<String> {
    let mut random = Random::new(SEED + 1);
    (0..=25)
        .flat_map(|length| {
            let key = hex::encode(&random.bytes(16));
            let start = hex::encode(&random.bytes(8));
            let text = hex_field(&random.bytes(length));
            [
                line("TE", &key, NONE, &text),
                line("TD", &key, NONE, &text),
                line("CE", &key, &start, &text),
                line("CD", &key, &start, &text),
            ]
        })
        .collect()
}

/// Good lines near the edge: hex in lower and in mixed case, and the greatest length.
fn accepted() -> Vec<String> {
    let digits = MAX_LINE - "TE 0123456789ABCDEF23456789ABCDEF01 - ".len();
    let text = hex::encode(&Random::new(SEED + 2).bytes(digits / 2));
    let longest =
        ["TE", "TD"].map(|kind| line(kind, "0123456789ABCDEF23456789ABCDEF01", NONE, &text));
    let cases = [
        "DE 0123456789abcdef - 4e6f772069732074",
        "DD 0123456789aBcDeF - 3Fa40e8A984d4815",
        "TE 0123456789abcdef23456789ABCDEF01 - 6bc1bee22e409f96E93D7E117393172A",
        "CE 0123456789ABCDEF23456789abcdef01 f69f2445df4f9b17 6bc1bee22e409f96",
        "SG 0123456789abcdef23456789abcdef01 F69f2445dF4f9B17 6bc1bee22e409f96e9",
    ];
    [cases.map(String::from).to_vec(), longest.to_vec()].concat()
}

/// Every malformed line, and a good one at the end, which has no LF.
fn malformed() -> Vec<String> {
    let mut lines = too_long();
    lines.extend(longest());
    for list in MALFORMED {
        lines.extend(list.lines.iter().map(|line| line.to_string()));
    }
    lines.push("DE 0123456789ABCDEF - 4E6F772069732074".to_string());
    lines
}

fn word(value: u64) -> String {
    hex::encode(&value.to_be_bytes())
}
