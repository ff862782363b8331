//! P1 to P12 of 01, each as INITIALIZE and COMPLETE TRANSACTION on a card with these numbers.

mod support;

use second::bench::scenario::Scenario;
use second::bench::stored::fixture::{begin, complete, keys};
use second::purse::card::Set;
use second::purse::session::{Kind, Level};
use second::purse::Card;
use support::{hex, personalized, selected};

/// A sum: the card's numbers, a transaction, and what comes of it.
struct Sum {
    name: &'static str,
    balance: u16,
    most_balance: u16,
    most_debit: u16,
    number: u16,
    most_number: u16,
    kind: Kind,
    amount: u16,
    /// INITIALIZE TRANSACTION's word; with 9000 the new balance and the logged amount.
    result: Result<(u16, &'static str), u16>,
}

const BASE: Sum = Sum {
    name: "",
    balance: 350,
    most_balance: 32_767,
    most_debit: 500,
    number: 0,
    most_number: 10,
    kind: Kind::Debit,
    amount: 0,
    result: Err(0),
};

const SUMS: [Sum; 11] = [
    Sum {
        name: "P1",
        balance: 30_000,
        kind: Kind::Cash,
        amount: 2_767,
        result: Ok((32_767, "0ACF")),
        ..BASE
    },
    Sum {
        name: "P2",
        balance: 30_000,
        kind: Kind::Cash,
        amount: 2_768,
        result: Err(0x9414),
        ..BASE
    },
    Sum {
        name: "P3",
        amount: 0x0000,
        result: Err(0x9412),
        ..BASE
    },
    Sum {
        name: "P4",
        amount: 0x8000,
        result: Err(0x9412),
        ..BASE
    },
    Sum {
        name: "P5",
        amount: 0xFFFF,
        result: Err(0x9412),
        ..BASE
    },
    Sum {
        name: "P6",
        amount: 350,
        result: Ok((0, "FEA2")),
        ..BASE
    },
    Sum {
        name: "P7",
        amount: 351,
        result: Err(0x9413),
        ..BASE
    },
    Sum {
        name: "P8",
        balance: 1_000,
        amount: 501,
        result: Err(0x9413),
        ..BASE
    },
    Sum {
        name: "P9",
        balance: 1_000,
        amount: 500,
        result: Ok((500, "FE0C")),
        ..BASE
    },
    Sum {
        name: "P10",
        number: 9,
        amount: 1,
        result: Ok((349, "FFFF")),
        ..BASE
    },
    Sum {
        name: "P11",
        number: 10,
        amount: 1,
        result: Err(0x9410),
        ..BASE
    },
];

/// A scenario on this card, with the purse selected and a channel of the set open.
fn at_work(card: Card, set: Set) -> Scenario {
    let mut scenario = selected(card);
    scenario.open(set, Level::Both);
    scenario
}

fn card(sum: &Sum) -> Card {
    let mut card = personalized();
    card.purse.balance = sum.balance;
    card.purse.most_balance = sum.most_balance;
    card.purse.most_debit = sum.most_debit;
    card.number = sum.number;
    card.most_number = sum.most_number;
    card
}

fn check(sum: &Sum, kind: Kind) {
    let before = card(sum);
    let mut scenario = at_work(before.clone(), Set::Credit);
    let begun = begin(&mut scenario, kind, sum.amount).line.word();
    let completed = complete(&mut scenario).line.word();
    let after = scenario.card();
    let name = sum.name;
    match sum.result {
        Err(word) => {
            assert_eq!((begun, completed), (Some(word), Some(0x6985)), "{name}");
            assert_eq!(after, before, "{name}");
        }
        Ok((balance, logged)) => {
            assert_eq!((begun, completed), (Some(0x9000), Some(0x9000)), "{name}");
            assert_eq!(after.purse.balance, balance, "{name}");
            assert_eq!(after.number, sum.number + 1, "{name}");
            let record = after.log.get(1).expect("record 1");
            assert_eq!(hex(&record.bytes()[4..6]), logged, "{name}");
            assert_eq!(
                (record.number, record.balance),
                (after.number, balance),
                "{name}"
            );
        }
    }
}

#[test]
fn p1_to_p11() {
    for sum in &SUMS {
        check(sum, sum.kind);
    }
}

/// Amounts not above 0 are refused for credits too.
#[test]
fn p3_to_p5_as_credits() {
    for sum in &SUMS[2..5] {
        check(sum, Kind::Cash);
    }
}

/// Balance 350, maxima 1,000 and 500, number 9 of 10: 0001, currency, 015E 015E 028A.
#[test]
fn p12() {
    let status = personalized().operational_status();
    assert_eq!(hex(&status), "00010978015E015E028A");
    let mut scenario = at_work(personalized(), Set::Debit);
    let reply = scenario.select();
    assert_eq!(
        reply.line.to_string(),
        "C 0 000102037000010978015E015E028A9000"
    );
}

/// The last of 65,535 numbers, and the balance's own ends.
#[test]
fn greatest_numbers() {
    let mut card = personalized();
    card.most_number = 0xFFFF;
    card.number = 0xFFFE;
    card.purse.most_balance = 0x7FFF;
    card.purse.most_debit = 0x7FFF;
    card.purse.balance = 0;
    let mut scenario = at_work(card, Set::Admin);
    begin(&mut scenario, Kind::Cash, 0x7FFF);
    let completed = complete(&mut scenario).line.to_string();
    assert!(
        completed.starts_with("C 0 00010203FFFF000009787FFF7FFF0000"),
        "{completed}"
    );
    let refused = begin(&mut scenario, Kind::Debit, 0x7FFF);
    assert_eq!(refused.line.word(), Some(0x9410));
}

#[test]
fn fixture_keys_count_up() {
    assert_eq!(keys(0x80).bytes(), support::keys(0x80));
}
