//! A command's bytes: step 1's lengths, then every CLA, INS, P1, P2 and length of data.

mod support;

use second::purse::apdu::Apdu;
use second::purse::card::Set;
use second::purse::instruction::Instruction;
use second::purse::session::Level;
use second::purse::{respond, Refusal, Session};
use second::terminal::{command, pin_block, select, tlv};
use support::{bytes, fresh_card, hex, line, personalized, selected, word};

#[test]
fn lengths_of_a_command() {
    let good = [
        ("80CA0215", 0),
        ("80CA021500", 0),
        ("80CA0215FF", 0),
        ("80CA02150111", 1),
        ("80CA0215011122", 1),
    ];
    for (digits, length) in good {
        let data = bytes(digits);
        assert_eq!(
            Apdu::read(&data).map(|apdu| apdu.data.len()),
            Ok(length),
            "{digits}"
        );
    }
    for digits in [
        "",
        "80",
        "80CA",
        "80CA02",
        "80CA02150000",
        "80CA02150211",
        "80CA021501112233",
    ] {
        assert_eq!(
            Apdu::read(&bytes(digits)),
            Err(Refusal::Malformed),
            "{digits}"
        );
    }
    for (length, fits) in [(259, false), (260, true), (261, true), (262, false)] {
        let mut long = vec![0xFF; length];
        long[..5].copy_from_slice(&[0x00, 0xA4, 0x04, 0x00, 0xFF]);
        assert_eq!(Apdu::read(&long).is_ok(), fits, "{length} bytes");
    }
}

#[test]
fn every_class_and_instruction() {
    let known = [
        (0x00, 0xA4),
        (0x00, 0xB2),
        (0x80, 0x50),
        (0x80, 0xCA),
        (0x84, 0x82),
        (0x84, 0xD8),
        (0x84, 0x24),
        (0x84, 0xE2),
        (0x84, 0xDA),
        (0x94, 0x20),
        (0x94, 0x44),
        (0x94, 0x46),
    ];
    let (card, session) = (fresh_card(), Session::default());
    for class in 0..=0xFF_u8 {
        for code in 0..=0xFF_u8 {
            let outcome = respond(&card, &session, &[class, code, 0xFF, 0xFF], &[0; 8]);
            let expected = match (class, code) {
                (0x00, 0xA4) => 0x6A86,
                pair if known.contains(&pair) => 0x6985,
                (0x00 | 0x80 | 0x84 | 0x94, _) => 0x6D00,
                _ => 0x6E00,
            };
            assert_eq!(outcome.verdict.word(), expected, "{class:02X} {code:02X}");
        }
    }
}

/// CLA, INS, right P1 and P2, and the numbers of data bytes that step 5 takes.
type Shape = (u8, u8, fn(u8, u8) -> bool, fn(usize) -> bool);

fn is_tag(tag: u8) -> bool {
    matches!(tag, 0x01..=0x07 | 0x14..=0x17)
}

/// All but SELECT, which takes any length.
const SHAPES: [Shape; 11] = [
    (
        0x80,
        0x50,
        |p1, p2| matches!(p1, 1..=3) && p2 == 0,
        |length| length == 8,
    ),
    (
        0x84,
        0x82,
        |p1, p2| (p1 == 0x01 || p1 == 0x11) && p2 == 0,
        |length| length == 16,
    ),
    (
        0x84,
        0xD8,
        |p1, p2| p1 == 0 && matches!(p2, 1..=3),
        |length| length == 56,
    ),
    (
        0x84,
        0x24,
        |p1, p2| p1 == 0 && p2 == 0,
        |length| length == 8 || length == 16,
    ),
    (
        0x84,
        0xE2,
        |p1, p2| p1 == 0x80 && p2 == 0,
        |length| length >= 8,
    ),
    (
        0x94,
        0x20,
        |p1, p2| p1 == 0 && p2 == 0,
        |length| length == 8,
    ),
    (
        0x94,
        0x44,
        |p1, p2| matches!(p1, 0..=2) && p2 == 0,
        |length| length == 12,
    ),
    (
        0x94,
        0x46,
        |p1, p2| p1 == 0 && p2 == 0,
        |length| length == 24,
    ),
    (
        0x80,
        0xCA,
        |p1, p2| p1 == 2 && is_tag(p2),
        |length| length == 0,
    ),
    (
        0x84,
        0xDA,
        |p1, p2| p1 == 2 && is_tag(p2),
        |length| length >= 8,
    ),
    (0x00, 0xB2, |_, p2| p2 == 4, |length| length == 0),
];

/// Every P1 and P2 with one byte of data, a wrong length for all of these commands.
#[test]
fn every_p1_and_p2() {
    let session = selected(personalized()).bench.session;
    let card = personalized();
    for (class, code, takes, _) in SHAPES {
        for p1 in 0..=0xFF_u8 {
            for p2 in 0..=0xFF_u8 {
                let outcome = respond(&card, &session, &[class, code, p1, p2, 1, 0], &[0; 8]);
                let expected = match (code, takes(p1, p2)) {
                    (_, false) => 0x6A86,
                    (0xB2, true) if !(1..=10).contains(&p1) => 0x6A83,
                    (_, true) => 0x6700,
                };
                let word = outcome.verdict.word();
                assert_eq!(word, expected, "{class:02X} {code:02X} {p1:02X} {p2:02X}");
            }
        }
    }
}

/// Every length of data at P1 and P2 that are right.
#[test]
fn every_length() {
    let session = selected(personalized()).bench.session;
    let card = personalized();
    for (class, code, takes_parameters, takes) in SHAPES {
        let pairs = (0..=0xFF_u8).flat_map(|p1| (0..=0xFF_u8).map(move |p2| (p1, p2)));
        let mut right =
            pairs.filter(|&(p1, p2)| takes_parameters(p1, p2) && (code, p1) != (0xB2, 0));
        let (p1, p2) = right.next().expect("a right pair");
        for length in 0..=255 {
            let mut command = vec![class, code, p1, p2];
            if length > 0 {
                command.push(length as u8);
                command.extend(vec![0; length]);
            }
            let word = respond(&card, &session, &command, &[0; 8]).verdict.word();
            assert_eq!(
                word != 0x6700,
                takes(length),
                "{class:02X} {code:02X}, {length} bytes"
            );
        }
    }
}

/// Le changes nothing, also behind signed data.
#[test]
fn le_is_ignored() {
    let mut scenario = selected(personalized());
    scenario.open(Set::Admin, Level::Both);
    let mut end = scenario.end();
    let mut signed = end.sign(Instruction::PinChange, 0, 0, &[]);
    signed.push(0x42);
    assert_eq!(word(&mut scenario, &signed), 0x9000);
    assert_eq!(
        line(&mut scenario, &[0x80, 0xCA, 0x02, 0x15, 0x99]),
        "C 0 02015E9000"
    );
}

#[test]
fn terminal_builds_commands() {
    assert_eq!(
        hex(&command(Instruction::GetData, 2, 0x15, &[])),
        "80CA0215"
    );
    assert_eq!(hex(&select(&[1, 2, 3, 4, 5])), "00A40400050102030405");
    assert_eq!(hex(&tlv(0x03, &[0x03, 0xE8])), "030203E8");
    assert_eq!(hex(&pin_block("1234")), "241234FFFFFFFFFF");
    assert_eq!(hex(&pin_block("123456789012")), "2C123456789012FF");
}
