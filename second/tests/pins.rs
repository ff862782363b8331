//! PIN blocks, VERIFY PIN and PIN CHANGE/UNBLOCK.

mod support;

use second::bench::run::Reply;
use second::bench::scenario::Scenario;
use second::bench::stored::fixture::{change_pin, dek, unblock, verify};
use second::purse::card::Set;
use second::purse::channel::encipher;
use second::purse::instruction::Instruction;
use second::purse::pin::is_block;
use second::purse::session::Level;
use second::terminal::get_data;
use support::{bytes, hex, installation, line, personalized, selected};

/// A command to the purse of a scenario.
type Step = fn(&mut Scenario) -> Reply;

#[test]
fn pin_blocks() {
    for good in ["241234FFFFFFFFFF", "2C123456789012FF", "2500000FFFFFFFFF"] {
        assert!(
            is_block(&bytes(good).try_into().expect("8 bytes")),
            "{good}"
        );
    }
    for bad in [
        "141234FFFFFFFFFF",
        "341234FFFFFFFFFF",
        "23123FFFFFFFFFFF",
        "2D1234567890123F",
        "2512345678901234",
        "24123AFFFFFFFFFF",
        "2412345FFFFFFFFF",
        "241234FFFFFFFFF0",
        "251234FFFFFFFFFF",
        "2C1234567890120F",
        "0000000000000000",
        "FFFFFFFFFFFFFFFF",
    ] {
        assert!(!is_block(&bytes(bad).try_into().expect("8 bytes")), "{bad}");
    }
}

/// Five wrong PINs block; the flag falls with the first; unblock fills the tries.
#[test]
fn pin_tries() {
    let mut scenario = selected(personalized());
    scenario.open(Set::Credit, Level::Command);
    let mut try_pin = |digits: &str| {
        let word = verify(&mut scenario, digits).line.word();
        let status = scenario.send(&get_data(0x17)).line.to_string();
        (word, scenario.card().tries, status)
    };
    let (set, cleared) = ("C 0 01F09000".to_string(), "C 0 01709000".to_string());
    assert_eq!(try_pin("1234"), (Some(0x9000), 5, set.clone()));
    assert_eq!(try_pin("1235"), (Some(0x6300), 4, cleared.clone()));
    assert_eq!(try_pin("12345"), (Some(0x6300), 3, cleared.clone()));
    assert_eq!(try_pin("1234"), (Some(0x9000), 5, set.clone()));
    for left in [4, 3, 2, 1, 0] {
        assert_eq!(try_pin("0000"), (Some(0x6300), left, cleared.clone()));
    }
    assert_eq!(try_pin("1234"), (Some(0x6983), 0, cleared.clone()));
    scenario.open(Set::Admin, Level::Command);
    assert_eq!(unblock(&mut scenario).line.word(), Some(0x9000));
    assert_eq!(scenario.card().tries, 5);
    verify(&mut scenario, "1234");
    assert!(scenario.bench.session.validated);
    unblock(&mut scenario);
    assert!(!scenario.bench.session.validated);
}

/// Tag 16 on a fresh card of each number of tries, and behind each command that moves the tries.
#[test]
fn tries_left() {
    for most in 3..=15_u8 {
        let mut data = installation();
        data[9] = most;
        let mut scenario = Scenario::new(1);
        scenario.install(&data);
        scenario.select();
        let tries = |scenario: &mut Scenario| line(scenario, &get_data(0x16));
        let left = |number: u8| format!("C 0 01{number:02X}9000");
        assert_eq!(tries(&mut scenario), left(most), "fresh");
        let mut card = personalized();
        (card.most_tries, card.tries) = (most, most);
        let mut scenario = selected(card);
        scenario.open(Set::Admin, Level::Command);
        let steps: [(&str, Step); 3] = [
            ("right PIN", |scenario| verify(scenario, "1234")),
            ("PIN CHANGE", |scenario| change_pin(scenario, "1234")),
            ("UNBLOCK", unblock),
        ];
        for (name, step) in steps {
            for wrong in 1..most {
                verify(&mut scenario, "0000");
                assert_eq!(tries(&mut scenario), left(most - wrong), "wrong PIN");
            }
            assert_eq!(step(&mut scenario).line.word(), Some(0x9000), "{name}");
            assert_eq!(tries(&mut scenario), left(most), "{name}");
        }
    }
}

#[test]
fn change_of_pin() {
    let mut scenario = selected(personalized());
    scenario.open(Set::Admin, Level::Command);
    verify(&mut scenario, "0000");
    verify(&mut scenario, "1234");
    change_pin(&mut scenario, "123456789012");
    assert_eq!(
        scenario.card().pin.map(|pin| hex(&pin)),
        Some("2C123456789012FF".to_string())
    );
    assert_eq!(
        (scenario.card().tries, scenario.bench.session.validated),
        (5, false)
    );
    let data = encipher(&dek(&scenario), [0x24; 8]);
    let refused = scenario.signed(Instruction::PinChange, 0, 0, &data);
    assert_eq!(refused.line.word(), Some(0x6A80));
}
