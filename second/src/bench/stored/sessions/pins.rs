//! The PIN: changed, verified, blocked and unblocked; the tries left.

use crate::bench::run::Reply;
use crate::bench::scenario::Scenario;
use crate::bench::stored::fixture::*;
use crate::purse::card::Set;
use crate::purse::channel::encipher;
use crate::purse::instruction::Instruction::PinChange;
use crate::purse::session::Level;
use crate::terminal::get_data;

/// PIN CHANGE/UNBLOCK and VERIFY PIN in their order.
pub fn pins(scenario: &mut Scenario) {
    personalized_without_pin(scenario);
    unblock(scenario);
    verify(scenario, PIN);
    wrong_blocks(scenario);
    for digits in ["123456789012", "0000", PIN] {
        change_pin(scenario, digits);
        scenario.send(&get_data(0x17));
    }
    scenario.open(Set::Debit, Level::Both);
    verify(scenario, PIN);
    scenario.select();
    verify(scenario, PIN);
    wrong_pins(scenario);
    scenario.open(Set::Admin, Level::Command);
    unblock(scenario);
    verify(scenario, PIN);
    scenario.send(&get_data(0x17));
    unblock(scenario);
    scenario.send(&get_data(0x17));
}

/// The tries left, read on a fresh card and behind each command that moves them.
pub fn tries(scenario: &mut Scenario) {
    let tries_left = get_data(0x16);
    fresh(scenario);
    scenario.send(&tries_left);
    personalized(scenario, 1_000, 500, 10);
    scenario.send(&tries_left);
    let steps: [fn(&mut Scenario) -> Reply; 3] = [
        |scenario| verify(scenario, PIN),
        |scenario| change_pin(scenario, PIN),
        unblock,
    ];
    for step in steps {
        for digits in ["4321", "0000"] {
            verify(scenario, digits);
            scenario.send(&tries_left);
        }
        step(scenario);
        scenario.send(&tries_left);
    }
}

/// Blocks that are none: each breaks one rule.
fn wrong_blocks(scenario: &mut Scenario) {
    for block in [
        0x1412_34FF_FFFF_FFFF_u64,
        0x2312_3FFF_FFFF_FFFF,
        0x2D12_3456_7890_123F,
        0x241A_34FF_FFFF_FFFF,
        0x2412_34FF_FFFF_FFF0,
        0x2512_34FF_FFFF_FFFF,
    ] {
        let data = encipher(&dek(scenario), block.to_be_bytes());
        scenario.signed(PinChange, 0x00, 0x00, &data);
    }
}

/// Wrong and right PINs in new channels, then wrong ones until none is taken.
fn wrong_pins(scenario: &mut Scenario) {
    scenario.open(Set::Credit, Level::Command);
    for digits in ["4321", PIN, "4321", "12345", PIN] {
        verify(scenario, digits);
        scenario.send(&get_data(0x16));
        scenario.select();
        scenario.open(Set::Credit, Level::Command);
    }
    let ill = scenario.end().verify_pin([0; 8]);
    scenario.send(&ill);
    for _ in 0..TRIES {
        verify(scenario, "4321");
        scenario.send(&get_data(0x16));
    }
    verify(scenario, PIN);
    scenario.send(&get_data(0x16));
}
