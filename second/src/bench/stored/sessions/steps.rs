//! Calls on no card, and the refusals of steps 1 to 6.

use crate::bench::scenario::Scenario;
use crate::bench::stored::fixture::*;
use crate::purse::card::Set;
use crate::purse::instruction::Instruction::{self, *};
use crate::purse::session::Level;
use crate::terminal::{self, get_data};

/// Right P1 and P2, and a right number of data bytes, a C-MAC included.
fn shape(instruction: Instruction) -> (u8, u8, usize) {
    match instruction {
        Select => (0x04, 0x00, 7),
        InitializeUpdate => (0x03, 0x00, 8),
        ExternalAuthenticate => (0x01, 0x00, 16),
        PutKey => (0x00, 0x01, 56),
        PinChange => (0x00, 0x00, 16),
        StoreData => (0x80, 0x00, 60),
        VerifyPin => (0x00, 0x00, 8),
        InitializeTransaction => (0x00, 0x00, 12),
        CompleteTransaction => (0x00, 0x00, 24),
        GetData => (0x02, 0x15, 0),
        PutData => (0x02, 0x03, 10),
        ReadRecord => (0x01, 0x04, 0),
    }
}

/// A command of so many data bytes, not signed.
pub fn send(scenario: &mut Scenario, instruction: Instruction, p1: u8, p2: u8, length: usize) {
    let data = vec![0x11; length];
    scenario.send(&terminal::command(instruction, p1, p2, &data));
}

/// Calls on no card, and installation data out of range, too short or too long.
pub fn no_card(scenario: &mut Scenario) {
    scenario.start();
    scenario.send(&get_data(0x15));
    scenario.send(&[]);
    let good = installation();
    let aid = AID.len();
    for (place, value) in [
        (0, 4),
        (0, 17),
        (aid + 1, 0),
        (aid + 1, 51),
        (aid + 2, 2),
        (aid + 2, 16),
    ] {
        let mut data = good.clone();
        data[place] = value;
        scenario.install(&data);
    }
    for length in [0, 1, 5, good.len() - 1] {
        scenario.install(&good[..length]);
    }
    scenario.install(&[good.as_slice(), &[0]].concat());
    scenario.start();
    scenario.install(&good);
    scenario.start();
}

/// Step 1, unselected and selected.
pub fn malformed_commands(scenario: &mut Scenario) {
    for selected in [false, true] {
        if selected {
            scenario.select();
        }
        let header = [0x80, 0xCA, 0x02, 0x15];
        for length in 0..4 {
            scenario.send(&header[..length]);
        }
        scenario.send(&header);
        scenario.send(&[&header[..], &[0x00]].concat());
        for (lc, length) in [(0, 1), (0, 2), (2, 1), (2, 4), (255, 254), (255, 257)] {
            scenario.send(&[&header[..], &[lc], &vec![0x11; length]].concat());
        }
        for length in [255, 256] {
            scenario.send(&[&header[..], &[0xFF], &vec![0x11; length]].concat());
        }
        scenario.send(&vec![0x00; 502]);
    }
    scenario.start();
}

/// Step 2: every class, and every instruction under every class of 01.
pub fn classes_and_instructions(scenario: &mut Scenario) {
    for class in 0..=0xFF {
        scenario.send(&[class, 0xA4, 0x00, 0x00]);
    }
    for class in [0x00, 0x80, 0x84, 0x94] {
        for instruction in Instruction::ALL {
            scenario.send(&[class, instruction.code().1, 0xFF, 0xFF]);
        }
        for code in [0x00, 0x45, 0xFF] {
            scenario.send(&[class, code, 0x00, 0x00]);
        }
    }
}

/// Step 3: before P1, P2 and Lc.
pub fn unselected(scenario: &mut Scenario) {
    for instruction in Instruction::ALL {
        let (p1, p2, length) = shape(instruction);
        if instruction != Select {
            send(scenario, instruction, p1, p2, length);
            send(scenario, instruction, 0xFF, 0xFF, 1);
        }
    }
}

/// Steps 4 and 5, and SELECT's refusals, which keep the selection or end it.
pub fn parameters_and_lengths(scenario: &mut Scenario) {
    fresh(scenario);
    for instruction in Instruction::ALL {
        let (p1, p2, length) = shape(instruction);
        for (p1, p2) in [(p1 ^ 0x08, p2), (p1, p2 ^ 0x08), (0xFF, 0xFF)] {
            if instruction != Select || (p1, p2) != (0x04, 0x00) {
                send(scenario, instruction, p1, p2, length);
                send(scenario, instruction, p1, p2, length + 1);
            }
        }
        if instruction != Select {
            for length in [0, 1, 7, 8, 9, 12, 16, 24, 25, 56, 57, 255] {
                send(scenario, instruction, p1, p2, length);
            }
        }
    }
    send(scenario, ReadRecord, 0x00, 0x05, 1);
    send(scenario, ReadRecord, 0x00, 0x04, 1);
    send(scenario, ReadRecord, LOG + 1, 0x04, 0);
    for aid in [&AID[..6], &[], &[&AID[..], &[0]].concat(), &[0x5A; 255]] {
        scenario.select();
        scenario.send(&terminal::select(aid));
        scenario.send(&get_data(0x15));
    }
    scenario.send(&[0x00, 0xA4, 0x04, 0x00, 0x00]);
}

/// Step 6: no channel, and a wrong C-MAC, which closes the channel.
pub fn no_channel(scenario: &mut Scenario) {
    fresh(scenario);
    for instruction in Instruction::ALL {
        let (p1, p2, length) = shape(instruction);
        if instruction.is_signed() {
            send(scenario, instruction, p1, p2, length);
            scenario.open(Set::Admin, Level::Both);
            send(scenario, instruction, p1, p2, length);
            scenario.signed(instruction, p1, p2, &vec![0x11; length - 8]);
        }
    }
}
