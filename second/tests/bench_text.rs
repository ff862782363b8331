//! Bench files written by hand, and transcripts of what a bench printed.

mod support;

use second::bench::file::BenchFile;
use second::bench::run::lines;
use second::bench::stored::{purchase, sessions};
use second::bench::text::assemble;
use second::bench::transcript::transcript;
use support::{hex, keys};

fn text() -> String {
    format!(
        "# a fresh card\ninstall FFFF keys={} tries=3 AID=A000000151 log=10\n\nstart 00ff # due\n\
         command FFFF 0102030405060708 00A40400 05 A000000151\ncommand 0000 0000000000000000\n",
        hex(&keys(0x40))
    )
}

#[test]
fn written_by_hand() {
    let keys = hex(&keys(0x40));
    let expected = format!(
        "B5C301003AFFFF05A0000001510A03{keys}\
         B5C302000200FF\
         B5C3030014FFFF010203040506070800A4040005A000000151\
         B5C303000A00000000000000000000"
    );
    let file = assemble(&text()).expect("a good text");
    assert_eq!(hex(&file), expected);
}

#[test]
fn wrong_lines_are_named() {
    let cases = [
        ("stop FFFF", "no such call: stop"),
        ("start", "start takes a limit alone"),
        ("start FFFF 00", "start takes a limit alone"),
        ("start FF", "the limit is not of four hex digits: FF"),
        (
            "start FFFG",
            "the limit is no even number of hex digits: FFFG",
        ),
        ("command FFFF", "arguments are missing"),
        ("command FFFF 00", "the random bytes are not 8: 00"),
        (
            "command FFFF 0000000000000000 0",
            "the command is no even number",
        ),
        ("install", "arguments are missing"),
        ("install FFFF", "AID= is missing"),
        ("install FFFF AID=00 log=1 tries=3", "keys= is missing"),
        ("install FFFF AID=00 AID=00", "AID= is there twice"),
        (
            "install FFFF AID=00 log=256",
            "log is not a number from 0 to 255: 256",
        ),
        ("install FFFF PIN=1", "no such field: PIN=1"),
    ];
    for (line, reason) in cases {
        let wrong = assemble(&format!("start FFFF\n\n{line}\n")).expect_err(line);
        assert_eq!(wrong.line, 3, "{line}");
        assert!(wrong.reason.contains(reason), "{line}: {}", wrong.reason);
    }
    let long = format!("command FFFF 0000000000000000 {}", "00".repeat(503));
    assert_eq!(
        assemble(&long).map_err(|wrong| wrong.reason),
        Err("over 512 bytes of data".to_string())
    );
}

/// What a run without cuts prints.
fn printed(file: &BenchFile) -> String {
    let lines = lines(file, |_| ());
    lines.iter().map(|line| format!("{line}\n")).collect()
}

/// A file and what a run without cuts prints for it.
fn explained(file: &[u8]) -> String {
    let file = BenchFile::read(file);
    transcript(&file, &printed(&file))
}

#[test]
fn transcript_of_a_purchase() {
    let text = explained(&purchase::file());
    for part in [
        "COMPLETE TRANSACTION, 94 46 00 00, 24 bytes of data\n",
        "     amount: FE A2 = -350\n     new balance: 028A = 650\n",
        "     administrative status: 70 = personalized, bank information and PIN, agent\n",
        "     03 maximum balance: 1388 = 5000\n",
        "     remaining transactions: 0063 = 99\n",
        "   S 0\n     the session is over\n",
        "     key set 3, administration\n",
        "     ten zeros: 00000000000000000000\n     key set 3, administration\n",
        "CECF\n     by key set 1, debit\n21. READ RECORD",
        "CECF\n     by key set 2, credit\n",
    ] {
        assert!(text.contains(part), "{part}");
    }
    assert!(!text.contains("WRONG") && !text.contains("refused"));
}

/// A set that no purse has is named by its number, and a record with another set is wrong.
#[test]
fn transcript_of_other_key_sets() {
    let random = "command FFFF 0000000000000000";
    let text = format!("{random} 8050C800 08 0102030405060708\n{random} 84D80000 38");
    let zeros = "00".repeat(56);
    let file = assemble(&format!("{text} {zeros}\n")).expect("a good text");
    let text = explained(&file);
    for part in ["     key set 200, unknown\n", "     key set 0, unknown\n"] {
        assert!(text.contains(part), "{text}");
    }
    let file = BenchFile::read(&purchase::file());
    for set in ["00", "02", "04", "FF"] {
        let printed = printed(&file).replace("CECF019000", &format!("CECF{set}9000"));
        let wrong = format!("CECF{set}9000\n     WRONG: 01 allows `C 0 00020978FEA2028A");
        let text = transcript(&file, &printed);
        assert!(text.contains(&wrong), "{text}");
    }
}

#[test]
fn transcript_names_the_rule() {
    let text = explained(&sessions::file());
    for part in [
        "   C 0 6D00\n     refused, 6D00: step 2: unknown INS, or an INS not of that CLA\n",
        "   C 0 9413\n     refused, 9413: step 11: debit above maximum debit or balance\n",
        "   C 0 6982\n     refused, 6982: step 9: security level\n",
        "   C 0 6982\n     refused, 6982: step 9: bank credit without the PIN flag\n",
        "   I 6\n     refused: a number out of range, too short or too long",
        "   S 2\n     memory reads as no card\n",
        "     void\n",
    ] {
        assert!(text.contains(part), "{part}");
    }
    assert!(!text.contains("WRONG"));
}

#[test]
fn transcript_of_wrong_lines() {
    let file = assemble(&text()).expect("a good text");
    let file = BenchFile::read(&file);
    let text = transcript(&file, "I 0\nS 7\nC 2\n");
    assert!(text.contains("2. start-up, at most 255 stores\n   S 7\n     WRONG: 01 allows `S 0`"));
    assert!(text.contains("   C 2\n     not judged\n"));
    assert!(text.contains("   (no line)\n     not judged\n"));
    let text = transcript(&file, "I 7\n");
    assert!(text.contains("   I 7\n     WRONG"), "{text}");
    let cut = BenchFile::read(&[0xB5, 0xC3]);
    assert_eq!(
        transcript(&cut, "X\n"),
        "X: the next record is malformed; the bench ends\n"
    );
}
