//! Answers to test lines, good and malformed, against published answers.

use second::cipher_tests::answers::{answer, answer_all};
use second::cipher_tests::malformed::{longest, too_long, MALFORMED};
use second::known;

fn answers(input: &[u8]) -> String {
    let mut output = Vec::new();
    answer_all(input, &mut output).expect("memory can be read and written");
    String::from_utf8(output).expect("answers are ASCII")
}

fn check(line: &str, expected: &str) {
    assert_eq!(answer(line.as_bytes()), expected, "line {line:?}");
}

#[test]
fn known_blocks() {
    for test in known::blocks() {
        let key = format!("{:016X}", test.key);
        let plain = format!("{:016X}", test.plain);
        let cipher = format!("{:016x}", test.cipher);
        check(&format!("DE {key} - {plain}"), &cipher.to_uppercase());
        check(&format!("DD {key} - {cipher}"), &plain);
        check(&format!("TE {key}{key} - {plain}"), &cipher.to_uppercase());
        check(&format!("TD {key}{key} - {cipher}"), &plain);
    }
}

#[test]
fn known_texts() {
    for test in known::FIPS_81.iter().chain(&known::TWO_KEYS) {
        let (mode, start) = test.start.map_or(("T", "-"), |start| ("C", start));
        let (plain, cipher) = (test.plain, test.cipher);
        let line = |direction, text| format!("{mode}{direction} {} {start} {text}", test.key);
        check(&line("E", plain), cipher);
        check(&line("D", cipher), plain);
    }
}

#[test]
fn chains() {
    for test in known::CHAINS {
        let key = format!("{:016X}", test.key);
        let plain = format!("{:016X}", test.plain);
        let cipher = format!("{:016X}", test.cipher);
        check(&format!("ME {key} - {plain}"), &cipher);
        check(&format!("MD {key} - {cipher}"), &plain);
    }
}

#[test]
fn empty_and_odd_texts() {
    let key = "0123456789ABCDEF23456789ABCDEF01";
    for mode in ["TE", "TD"] {
        check(&format!("{mode} {key} - -"), "-");
        check(&format!("{mode} {key} - abCDef"), "ABCDEF");
    }
    for mode in ["CE", "CD"] {
        check(&format!("{mode} {key} F69F2445DF4F9B17 -"), "-");
        check(&format!("{mode} {key} F69F2445DF4F9B17 0a"), "0A");
    }
    check(&format!("SG {key} F69F2445DF4F9B17 -"), "D9AABDCDE439B292");
    check(
        &format!("CE {key} F69F2445DF4F9B17 6BC1BEE22E409F96FEDCba"),
        "7401CE1EAB6D003CFEDCBA",
    );
}

#[test]
fn malformed_lines() {
    for list in MALFORMED {
        for line in list.lines {
            check(line, list.answer);
        }
    }
}

#[test]
fn greatest_length() {
    for line in too_long() {
        check(&line, "malformed: line");
    }
    let [no_space, odd_text] = [&longest()[0], &longest()[1]];
    assert_eq!((no_space.len(), odd_text.len()), (4096, 4096));
    check(no_space, "malformed: fields");
    check(odd_text, "malformed: text");
    let shortest_too_long = too_long().iter().map(String::len).min();
    assert_eq!(shortest_too_long, Some(4097));
}

/// A good line of 4,096 bytes: one published block many times, then five bytes.
#[test]
fn longest_good_line() {
    let head = "TE 01010101010101010101010101010101 - ";
    let text = "8000000000000000".repeat(253) + "0102030405";
    let line = format!("{head}{text}");
    assert_eq!(line.len(), 4096);
    let expected = "95F8A5E5DD31D900".repeat(253) + "0102030405";
    check(&line, &expected);
}

#[test]
fn bytes_that_are_no_ascii() {
    check_bytes(b"DE 0123456789ABCDEF - 4E6F77206973207\xFF", "text");
    check_bytes(b"DE 0123456789ABCD\xC3\x89 - 4E6F772069732074", "key");
    check_bytes(b"DE\0 0123456789ABCDEF - 4E6F772069732074", "kind");
    check_bytes(b"DE 0123456789ABCDEF -\0 4E6F772069732074", "start");
    check_bytes(b"\0", "fields");
}

fn check_bytes(line: &[u8], part: &str) {
    assert_eq!(answer(line), format!("malformed: {part}"));
}

#[test]
fn ends_of_lines() {
    let line = "DE 0123456789ABCDEF - 4E6F772069732074";
    let good = "3FA40E8A984D4815\n";
    assert_eq!(answers(b""), "");
    assert_eq!(answers(b"\n"), "malformed: fields\n");
    assert_eq!(answers(line.as_bytes()), good);
    assert_eq!(answers(format!("{line}\n").as_bytes()), good);
    assert_eq!(
        answers(format!("{line}\n\n{line}").as_bytes()),
        format!("{good}malformed: fields\n{good}")
    );
    assert_eq!(
        answers(format!("{line}\r\n{line}\n").as_bytes()),
        format!("malformed: text\n{good}")
    );
}
