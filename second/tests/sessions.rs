//! What the session keeps and what ends it: selection, PIN flag, channel, chains, what is pending.

mod support;

use second::bench::stored::fixture::{begin, complete, keys, put_key, verify};
use second::purse::card::Set;
use second::purse::instruction::Instruction;
use second::purse::session::{Kind, Level, Pending};
use second::purse::{respond, Card, Session};
use second::terminal::{get_data, select};
use support::{bytes, fresh_card, personalized, selected, word};

/// A SELECT that reaches its AID closes the channel; only the right AID selects.
#[test]
fn select_ends_all_but_the_pin_flag() {
    for aid in ["A00000015150", "", "A000000151500100", "A0000001515002"] {
        let mut scenario = selected(personalized());
        scenario.open(Set::Credit, Level::Both);
        verify(&mut scenario, "1234");
        assert_eq!(word(&mut scenario, &select(&bytes(aid))), 0x6A82);
        assert_eq!(word(&mut scenario, &get_data(0x15)), 0x6985);
        assert_eq!(scenario.bench.session.channel, None);
        let again = scenario.select().line.to_string();
        assert_eq!(again, "C 0 00010203F000010978015E015E028A9000", "AID {aid}");
    }
}

#[test]
fn refused_select_keeps_selection_and_channel() {
    let mut scenario = selected(personalized());
    scenario.open(Set::Admin, Level::Both);
    let before = scenario.bench.session.clone();
    for digits in [
        "00A40000",
        "00A40401",
        "00A4040000FF",
        "00A40400020102030405",
    ] {
        scenario.send(&bytes(digits));
        assert_eq!(scenario.bench.session, before, "{digits}");
    }
}

/// Only the command directly behind may end what is pending, whatever came between.
#[test]
fn pending_commands() {
    let between: [&[u8]; 4] = [
        &[],
        &[0x80, 0xCA, 0x02, 0x15],
        &[0xFF, 0, 0, 0],
        &[0x00, 0xA4, 0, 0],
    ];
    for command in between {
        let mut scenario = selected(personalized());
        scenario.open(Set::Debit, Level::Both);
        begin(&mut scenario, Kind::Debit, 1);
        scenario.send(command);
        assert_eq!(
            complete(&mut scenario).line.word(),
            Some(0x6985),
            "{command:?}"
        );
        let (_, mut end) = scenario.initialize_update(Set::Admin, Level::Both);
        scenario.send(command);
        let word = scenario.send(&end.external_authenticate()).line.word();
        assert_eq!(word, Some(0x6985), "{command:?}");
        assert!(
            scenario.bench.session.channel.is_some(),
            "the old channel stays"
        );
    }
}

/// Calls that do not answer 0 end nothing.
#[test]
fn pending_over_a_refused_installation() {
    let mut scenario = selected(personalized());
    let (_, mut end) = scenario.initialize_update(Set::Credit, Level::Both);
    assert_eq!(scenario.install(&[]).line.to_string(), "I 6");
    let command = end.external_authenticate();
    let reply = scenario.send(&command);
    scenario.joined(end, &reply);
    assert_eq!(reply.line.word(), Some(0x9000));
    begin(&mut scenario, Kind::Cash, 1);
    scenario.install(&[0; 60]);
    assert_eq!(complete(&mut scenario).line.word(), Some(0x9000));
}

#[test]
fn start_up_and_installation_end_the_session() {
    let mut scenario = selected(personalized());
    scenario.open(Set::Credit, Level::Both);
    verify(&mut scenario, "1234");
    assert_eq!(scenario.start().line.to_string(), "S 0");
    assert_eq!(scenario.bench.session, Session::default());
    scenario.select();
    assert_eq!(
        scenario.install(&support::installation()).line.to_string(),
        "I 0"
    );
    assert_eq!(scenario.bench.session, Session::default());
    assert_eq!(scenario.card(), fresh_card());
}

/// A refusal behind a right C-MAC moves the C-MAC chain and no R-MAC chain.
#[test]
fn chains_after_a_refusal() {
    let mut scenario = selected(personalized());
    scenario.open(Set::Debit, Level::Both);
    let before = scenario.bench.session.channel.clone().expect("a channel");
    begin(&mut scenario, Kind::Debit, 0);
    let after = scenario.bench.session.channel.clone().expect("a channel");
    assert_ne!(after.command, before.command);
    assert_eq!(after.response, [0; 8]);
    let reply = begin(&mut scenario, Kind::Debit, 1);
    assert_eq!(reply.line.word(), Some(0x9000));
}

/// A C-MAC that was right once closes the channel when it comes again.
#[test]
fn replay() {
    let mut scenario = selected(personalized());
    scenario.open(Set::Admin, Level::Both);
    let mut end = scenario.end();
    let signed = end.sign(Instruction::PinChange, 0, 0, &[]);
    assert_eq!(word(&mut scenario, &signed), 0x9000);
    assert_eq!(word(&mut scenario, &signed), 0x6982);
    assert_eq!(scenario.bench.session.channel, None);
}

/// A session of another card: COMPLETE tests the limits again, but not the maximum debit.
#[test]
fn complete_on_another_card() {
    let mut scenario = selected(personalized());
    scenario.open(Set::Debit, Level::Both);
    begin(&mut scenario, Kind::Debit, 350);
    let signed = scenario
        .end()
        .sign(Instruction::CompleteTransaction, 0, 0, &[0; 16]);
    let session = scenario.bench.session.clone();
    let on_card = |change: fn(&mut Card)| {
        let mut card = personalized();
        change(&mut card);
        respond(&card, &session, &signed, &[0; 8]).verdict.word()
    };
    assert_eq!(on_card(|card| card.purse.most_debit = 0), 0x9000);
    assert_eq!(on_card(|card| card.purse.balance = 349), 0x6985);
    assert_eq!(on_card(|card| card.most_number = 9), 0x6985);
    assert_eq!(on_card(|card| card.purse.personalized = false), 0x6985);
    let credit = Session {
        pending: Some(Pending::Transaction {
            kind: Kind::Cash,
            amount: 650,
        }),
        ..session.clone()
    };
    let fits = respond(&personalized(), &credit, &signed, &[0; 8]);
    assert_eq!(fits.verdict.word(), 0x9000);
    let mut smaller = personalized();
    smaller.purse.most_balance = 999;
    let past = respond(&smaller, &credit, &signed, &[0; 8]);
    assert_eq!(past.verdict.word(), 0x6985);
}

/// Bank credit: sets 2 and 3 need the PIN flag, from whatever channel; set 1 has no access.
#[test]
fn bank_credit_access() {
    for (set, validated, word) in [
        (Set::Debit, false, 0x6982),
        (Set::Debit, true, 0x6982),
        (Set::Credit, false, 0x6982),
        (Set::Credit, true, 0x9000),
        (Set::Admin, false, 0x6982),
        (Set::Admin, true, 0x9000),
    ] {
        let mut scenario = selected(personalized());
        if validated {
            scenario.open(Set::Credit, Level::Command);
            verify(&mut scenario, "1234");
        }
        scenario.open(set, Level::Both);
        let reply = begin(&mut scenario, Kind::Bank, 1);
        assert_eq!(reply.line.word(), Some(word), "{set:?}, flag {validated}");
    }
}

/// A wrong PIN takes the flag, and the bank credit with it; COMPLETE doesn't ask for the flag again.
#[test]
fn bank_credit_and_the_flag() {
    let mut scenario = selected(personalized());
    scenario.open(Set::Admin, Level::Both);
    for (digits, word) in [("1234", 0x9000), ("4321", 0x6982), ("1234", 0x9000)] {
        verify(&mut scenario, digits);
        let reply = begin(&mut scenario, Kind::Bank, 1);
        assert_eq!(reply.line.word(), Some(word), "{digits}");
    }
    scenario.bench.session.validated = false;
    assert_eq!(complete(&mut scenario).line.word(), Some(0x9000));
    assert_eq!(scenario.card().purse.balance, 351);
}

/// Without bank information or PIN only the bank credit is missing.
#[test]
fn transactions_without_a_bank() {
    let lacks: [fn(&mut Card); 2] = [|card| card.purse.bank = None, |card| card.pin = None];
    for lack in lacks {
        let mut card = personalized();
        lack(&mut card);
        let mut scenario = selected(card);
        scenario.open(Set::Admin, Level::Both);
        for (kind, word) in [
            (Kind::Debit, 0x9000),
            (Kind::Cash, 0x9000),
            (Kind::Bank, 0x6A81),
        ] {
            let reply = begin(&mut scenario, kind, 1);
            assert_eq!(reply.line.word(), Some(word), "{kind:?}");
        }
    }
}

/// Sets 1 and 2 open channels before personalization, once they are defined.
#[test]
fn channels_before_personalization() {
    let mut scenario = selected(fresh_card());
    let (refused, _) = scenario.initialize_update(Set::Debit, Level::Both);
    assert_eq!(refused.line.word(), Some(0x6A88));
    scenario.open(Set::Admin, Level::Command);
    put_key(&mut scenario, Set::Debit, &keys(0x80));
    assert_eq!(
        scenario.open(Set::Debit, Level::Both).line.word(),
        Some(0x9000)
    );
}
