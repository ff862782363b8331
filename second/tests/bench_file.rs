//! Bench files: 01's worked example, what is malformed, and what only looks so.

mod support;

use second::bench::file::{BenchFile, Call};
use second::bench::line::Line;
use second::bench::run::{self, Limited};
use second::bench::stored;
use support::{bytes, hex, installation, EXAMPLE};

/// The lines of a file, one text.
fn print(file: &[u8]) -> String {
    let lines = run::run(&BenchFile::read(file)).expect("limits FFFF");
    lines.iter().map(|line| format!("{line}\n")).collect()
}

fn record(kind: u8, data: &[u8]) -> Vec<u8> {
    let head = format!("B5C3{kind:02X}{:04X}", data.len());
    [bytes(&head), data.to_vec()].concat()
}

fn install() -> Vec<u8> {
    record(1, &[bytes("FFFF"), installation()].concat())
}

fn start() -> Vec<u8> {
    record(2, &bytes("FFFF"))
}

fn command(digits: &str) -> Vec<u8> {
    record(3, &[bytes("FFFF 0000000000000000"), bytes(digits)].concat())
}

#[test]
fn worked_example() {
    let file = [
        install(),
        start(),
        command("00A40400 07 A0000001515001"),
        command("80CA0215"),
    ]
    .concat();
    assert_eq!(print(&file), EXAMPLE);
}

#[test]
fn stored_example() {
    assert_eq!(print(&stored::example()), EXAMPLE);
}

#[test]
fn no_card_at_first() {
    assert_eq!(print(&[]), "");
    assert_eq!(print(&start()), "S 2\n");
    assert_eq!(print(&command("80CA0215")), "C 2\n");
    assert_eq!(print(&command("")), "C 2\n");
    let file = [
        install(),
        command(""),
        record(1, &bytes("FFFF")),
        command("80CA0215"),
    ]
    .concat();
    assert_eq!(print(&file), "I 0\nC 0 6700\nI 6\nC 0 6985\n");
}

#[test]
fn records_are_written_as_they_are_read() {
    let file = [install(), start(), command("80CA0215")].concat();
    let calls = BenchFile::read(&file).calls;
    let written: Vec<u8> = calls.iter().flat_map(Call::bytes).collect();
    assert_eq!(hex(&written), hex(&file));
    assert_eq!(calls.len(), 3);
}

/// Each prints X behind a good record, and nothing after it.
#[test]
fn malformed_records() {
    let long = |kind, length: usize| record(kind, &[bytes("FFFF"), vec![0; length - 2]].concat());
    let mut cases = vec![
        bytes("B4C3020002FFFF"),
        bytes("B5C2020002FFFF"),
        bytes("C3B5020002FFFF"),
        bytes("00B5C3020002FFFF"),
        record(0, &bytes("FFFF")),
        record(4, &bytes("FFFF")),
        record(0xFF, &bytes("FFFF")),
        record(1, &[]),
        record(1, &[0xFF]),
        record(2, &[]),
        record(2, &[0xFF]),
        record(2, &bytes("FFFF00")),
        record(3, &[]),
        record(3, &[0xFF]),
        record(3, &bytes("FFFF")),
        record(3, &bytes("FFFF 00000000000000")),
        long(1, 513),
        long(3, 513),
        long(3, 65_535),
        bytes("B5C3030201"),
    ];
    for record in [install(), start(), command("80CA0215")] {
        cases.extend((1..record.len()).map(|length| record[..length].to_vec()));
    }
    for case in cases {
        let file = [install(), case.clone()].concat();
        assert_eq!(print(&file), "I 0\nX\n", "{}", hex(&case));
    }
}

#[test]
fn reading_ends_at_the_malformed_record() {
    let file = [start(), record(7, &[]), start(), install()].concat();
    assert_eq!(print(&file), "S 2\nX\n");
}

#[test]
fn records_at_the_edge() {
    let longest = record(3, &[bytes("FFFF"), vec![0; 510]].concat());
    let file = [install(), longest].concat();
    assert_eq!(print(&file), "I 0\nC 0 6700\n");
    let longest = record(1, &[bytes("FFFF"), vec![0; 510]].concat());
    assert_eq!(print(&longest), "I 6\n");
    let empty = record(3, &bytes("FFFF 0102030405060708"));
    assert_eq!(print(&[install(), empty].concat()), "I 0\nC 0 6700\n");
}

#[test]
fn limits_other_than_ffff_are_refused() {
    let file = [install(), record(2, &bytes("FFFE"))].concat();
    let limited = run::run(&BenchFile::read(&file));
    assert_eq!(
        limited,
        Err(Limited {
            record: 2,
            limit: 0xFFFE
        })
    );
}

#[test]
fn lines_as_text() {
    let lines = [
        (Line::Install(6), "I 6"),
        (Line::Start(0), "S 0"),
        (Line::Command(2), "C 2"),
        (Line::Response(vec![0x0A, 0x90, 0x00]), "C 0 0A9000"),
        (Line::Malformed, "X"),
    ];
    for (line, text) in lines {
        assert_eq!(line.to_string(), text);
    }
}
