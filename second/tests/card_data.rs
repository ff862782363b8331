//! What the card keeps: installation data, STORE DATA and PUT DATA by value, GET DATA, the log.

mod support;

use second::bench::scenario::Scenario;
use second::bench::stored::fixture;
use second::bench::stored::fixture::{keys, put_data, store_data, transaction};
use second::purse::card::Set;
use second::purse::session::{Kind, Level};
use second::purse::Card;
use second::terminal::{get_data, read_record};
use support::{bytes, fresh_card, line, personalized, selected};

#[test]
fn installation_data() {
    let good = support::installation();
    assert!(Card::install(&good).is_some());
    for (place, value, fits) in [
        (8, 0, false),
        (8, 1, true),
        (8, 50, true),
        (8, 51, false),
        (9, 2, false),
        (9, 3, true),
        (9, 15, true),
        (9, 16, false),
        (0, 6, false),
        (0, 8, false),
    ] {
        let mut data = good.clone();
        data[place] = value;
        assert_eq!(
            Card::install(&data).is_some(),
            fits,
            "byte {place} is {value}"
        );
    }
    for (length, fits) in [(4, false), (5, true), (16, true), (17, false)] {
        let data = [
            vec![length as u8],
            vec![1; length],
            vec![10, 3],
            support::keys(0),
        ]
        .concat();
        assert_eq!(Card::install(&data).is_some(), fits, "AID of {length}");
    }
    for length in 0..good.len() {
        assert!(Card::install(&good[..length]).is_none(), "{length} bytes");
    }
    assert!(Card::install(&[good, vec![0]].concat()).is_none());
}

#[test]
fn fresh_card_reads_as_zeros_with_full_tries() {
    let mut scenario = selected(fresh_card());
    let expected = [
        (0x01, "C 0 04000000009000"),
        (0x02, "C 0 0200009000"),
        (0x03, "C 0 0200009000"),
        (0x04, "C 0 0200009000"),
        (0x05, "C 0 0200009000"),
        (0x06, "C 0 009000"),
        (0x07, "C 0 009000"),
        (0x14, "C 0 0200009000"),
        (0x15, "C 0 0200009000"),
        (0x16, "C 0 01059000"),
        (0x17, "C 0 01009000"),
        (0x00, "C 0 6A86"),
        (0x08, "C 0 6A86"),
        (0x13, "C 0 6A86"),
        (0x18, "C 0 6A86"),
    ];
    for (tag, answer) in expected {
        assert_eq!(line(&mut scenario, &get_data(tag)), answer, "tag {tag:02X}");
    }
    let void = format!("C 0 {}9000", "00".repeat(25));
    assert_eq!(line(&mut scenario, &read_record(1)), void);
    assert_eq!(line(&mut scenario, &read_record(10)), void);
    assert_eq!(line(&mut scenario, &read_record(11)), "C 0 6A83");
}

#[test]
fn personalized_card_reads_by_tag() {
    let mut scenario = selected(personalized());
    let expected = [
        (0x01, "C 0 04000102039000"),
        (0x02, "C 0 0209789000"),
        (0x03, "C 0 0203E89000"),
        (0x04, "C 0 0201F49000"),
        (0x05, "C 0 02000A9000"),
        (0x06, "C 0 1042414E4B2D303132333435363738392D9000"),
        (0x07, "C 0 06A000000009019000"),
        (0x14, "C 0 0200099000"),
        (0x15, "C 0 02015E9000"),
        (0x16, "C 0 01059000"),
        (0x17, "C 0 01709000"),
    ];
    for (tag, answer) in expected {
        assert_eq!(line(&mut scenario, &get_data(tag)), answer, "tag {tag:02X}");
    }
}

#[test]
fn administrative_status_bits() {
    let mut card = personalized();
    assert_eq!(card.administrative_status(true), 0xF0);
    card.pin = None;
    assert_eq!(card.administrative_status(false), 0x50);
    card.purse.agent = None;
    assert_eq!(card.administrative_status(true), 0x90);
    assert_eq!(fresh_card().administrative_status(false), 0x00);
}

/// TLVs of STORE DATA that are right.
const GOOD: &str = "010400010203 02020978 030203E8 040201F4 0502000A";

/// TLVs of STORE DATA on a card with both sets: its word, what stands before GOOD and behind it.
const AROUND: [(u16, &str, &str); 19] = [
    (0x9000, "", ""),
    (0x9000, "0600 0700", ""),
    (0x9000, "", "07050000000000"),
    (
        0x9000,
        "061011111111111111111111111111111111",
        "071022222222222222222222222222222222",
    ),
    (0x6A85, "", "06"),
    (0x6A85, "", "0610"),
    (0x6A85, "", "0700 0601"),
    (0x6A85, "99FF", ""),
    (0x6A85, "0800", "06"),
    (0x6A80, "", "0600 0600"),
    (0x6A80, "", "0800"),
    (0x6A80, "0000", ""),
    (0x6A80, "", "14020000"),
    (0x6A80, "", "0502000A"),
    (0x6A80, "", "060F111111111111111111111111111111"),
    (0x6A80, "", "06111111111111111111111111111111111111"),
    (0x6A80, "", "070400000000"),
    (0x6A80, "", "07112222222222222222222222222222222222"),
    (0x6A80, "", "FF00"),
];

/// The same with whole TLVs of their own.
const WHOLE: [(u16, &str); 13] = [
    (0x9000, "0502FFFF 04027FFF 03020000 02020000 0104FFFFFFFF"),
    (0x6A80, ""),
    (0x6A85, "01"),
    (0x6A80, "010400010203 02020978 03028000 040201F4 0502000A"),
    (0x6A80, "010400010203 02020978 030203E8 04028000 0502000A"),
    (0x6A80, "010400010203 02020978 030203E8 040201F4 05010A"),
    (0x6A80, "010400010203 020109 030203E8 040201F4 0502000A"),
    (0x6A80, "0103000102 02020978 030203E8 040201F4 0502000A"),
    (0x6A80, "010400010203 030203E8 040201F4 0502000A"),
    (0x6A80, "010400010203 02020978 040201F4 0502000A"),
    (0x6A80, "010400010203 02020978 030203E8 0502000A"),
    (0x6A80, "010400010203 02020978 030203E8 040201F4"),
    (0x6A80, "02020978 030203E8 040201F4 0502000A"),
];

fn check_store_data(word: u16, tlvs: &str) {
    let mut card = fresh_card();
    card.purse.debit = Some(keys(0x80));
    card.purse.credit = Some(keys(0xC0));
    let mut scenario = selected(card.clone());
    scenario.open(Set::Admin, Level::Command);
    let reply = store_data(&mut scenario, &[bytes(tlvs)]);
    assert_eq!(reply.line.word(), Some(word), "{tlvs}");
    let personalized = scenario.card().purse.personalized;
    assert_eq!(personalized, word == 0x9000, "{tlvs}");
    assert_eq!(scenario.card() != card, word == 0x9000, "{tlvs}");
}

#[test]
fn personalization_data() {
    for (word, before, behind) in AROUND {
        check_store_data(word, &format!("{before} {GOOD} {behind}"));
    }
    for (word, tlvs) in WHOLE {
        check_store_data(word, tlvs);
    }
}

/// PUT DATA on the card with balance 350 and number 9: tag, value, word.
const PUT: [(u8, &str, u16); 26] = [
    (0x02, "0840", 0x6A81),
    (0x03, "015E", 0x9000),
    (0x03, "015D", 0x6A80),
    (0x03, "7FFF", 0x9000),
    (0x03, "8000", 0x6A80),
    (0x03, "", 0x6A80),
    (0x03, "0003E8", 0x6A80),
    (0x04, "0000", 0x9000),
    (0x04, "7FFF", 0x9000),
    (0x04, "8000", 0x6A80),
    (0x04, "01", 0x6A80),
    (0x05, "0009", 0x9000),
    (0x05, "0008", 0x6A80),
    (0x05, "FFFF", 0x9000),
    (0x05, "09", 0x6A80),
    (0x06, "", 0x9000),
    (0x06, "00", 0x6A80),
    (0x07, "", 0x9000),
    (0x07, "00000000", 0x6A80),
    (0x07, "0000000000", 0x9000),
    (0x07, "0000000000000000000000000000000000", 0x6A80),
    (0x01, "00000000", 0x6A81),
    (0x14, "0000", 0x6A81),
    (0x15, "0000", 0x6A81),
    (0x16, "03", 0x6A81),
    (0x17, "00", 0x6A81),
];

#[test]
fn put_data_values() {
    for (tag, value, word) in PUT {
        let mut scenario = selected(personalized());
        scenario.open(Set::Admin, Level::Command);
        let reply = put_data(&mut scenario, tag, &bytes(value));
        assert_eq!(
            reply.line.word(),
            Some(word),
            "tag {tag:02X}, value {value}"
        );
        let expected = match (word, value.len()) {
            (0x9000, 0) => "C 0 009000".to_string(),
            (0x9000, digits) => format!("C 0 {:02X}{value}9000", digits / 2),
            _ => on_table(tag),
        };
        let kept = line(&mut scenario, &get_data(tag));
        assert_eq!(kept, expected, "tag {tag:02X}, value {value}");
    }
}

/// The currency may change while the balance is 0; unsetting what is unset is fine.
#[test]
fn put_data_on_an_empty_purse() {
    let mut card = personalized();
    card.purse.balance = 0;
    let mut scenario = selected(card);
    scenario.open(Set::Admin, Level::Command);
    let mut put = |tag, value: &[u8]| put_data(&mut scenario, tag, value).line.word();
    assert_eq!(put(0x02, &[0x08, 0x40]), Some(0x9000));
    assert_eq!(put(0x02, &[0x08]), Some(0x6A80));
    assert_eq!(put(0x06, &[]), Some(0x9000));
    assert_eq!(put(0x06, &[]), Some(0x9000));
    assert_eq!(put(0x03, &[0x00, 0x00]), Some(0x9000));
}

/// What the unchanged card says of a tag.
fn on_table(tag: u8) -> String {
    let mut scenario = selected(personalized());
    line(&mut scenario, &get_data(tag))
}

/// The log of 10 after 13 transactions: 13 to 4, each with its own numbers.
#[test]
fn log_wraps_around() {
    let mut scenario = Scenario::new(3);
    fixture::personalized(&mut scenario, 1_000, 500, 20);
    scenario.open(Set::Admin, Level::Both);
    for amount in 1..=13 {
        transaction(&mut scenario, Kind::Cash, amount);
    }
    for place in 1..=10_u16 {
        let number = 14 - place;
        let balance = number * (number + 1) / 2;
        let context = "C0C1C2C3C4C5C6C7C8C9CACBCCCDCECF";
        let expected = format!("C 0 {number:04X}0978{number:04X}{balance:04X}{context}039000");
        assert_eq!(line(&mut scenario, &read_record(place as u8)), expected);
    }
}
