//! The player: what it does next, and how it errs when it sends a command.

use super::cuts::Signed;
use crate::bench::run::Reply;
use crate::bench::scenario::Scenario;
use crate::purse::instruction::Instruction;
use crate::purse::Card;
use crate::terminal;

pub struct Player {
    pub scenario: Scenario,
    pub cuts: bool,
}

impl Player {
    pub fn new(seed: u64, cuts: bool) -> Player {
        Player {
            scenario: Scenario::new(seed),
            cuts,
        }
    }

    /// One meaningful thing, by what the model's card and session allow.
    pub fn act(&mut self) {
        let Some(card) = &self.scenario.bench.card else {
            return self.without_card();
        };
        let personalized = card.purse.personalized;
        if self.one_in(if self.cuts { 100 } else { 150 }) {
            return self.install();
        }
        if self.one_in(60) {
            return self.start();
        }
        if !self.scenario.bench.session.selected && !self.one_in(4) {
            return self.select();
        }
        if !personalized && self.one_in(2) {
            return self.personalize();
        }
        if personalized && self.one_in(70) {
            return self.spree();
        }
        self.any_act();
    }

    fn without_card(&mut self) {
        match self.below(8) {
            0 => self.start(),
            1 => self.noise(),
            _ => self.install(),
        }
    }

    /// Something that stores, if it is not refused.
    fn storing_act(&mut self) {
        match self.below(12) {
            0 => self.put_key(),
            1 => self.change_pin(),
            2 => self.put_data(),
            3 | 4 => self.verify_pin(),
            _ => self.transaction(),
        }
    }

    fn any_act(&mut self) {
        if self.cuts && !self.one_in(3) {
            return self.storing_act();
        }
        match self.below(32) {
            0 => self.select(),
            1 => self.select_wrongly(),
            2 => self.open_any(),
            3 => self.open_wrongly(),
            4 | 5 => self.put_key(),
            6 | 7 => self.change_pin(),
            8 => self.store_data(),
            9..=11 => self.verify_pin(),
            12 => self.block_pin(),
            13..=20 => self.transaction(),
            21 => self.complete_alone(),
            22 | 23 => self.get_data(),
            24..=26 => self.put_data(),
            27 | 28 => self.read_record(),
            29 => self.read_some(),
            _ => self.noise(),
        }
    }

    pub fn card(&self) -> Card {
        self.scenario.card()
    }

    pub fn below(&mut self, bound: usize) -> usize {
        self.scenario.random.below(bound)
    }

    pub fn one_in(&mut self, bound: usize) -> bool {
        self.below(bound) == 0
    }

    pub fn byte(&mut self) -> u8 {
        self.scenario.random.byte()
    }

    pub fn bytes(&mut self, length: usize) -> Vec<u8> {
        self.scenario.random.bytes(length)
    }

    pub fn pick<T: Clone>(&mut self, list: &[T]) -> T {
        list[self.below(list.len())].clone()
    }

    /// Sends a command that carries no C-MAC, now and then with Le or with an error.
    pub fn plain(&mut self, instruction: Instruction, p1: u8, p2: u8, data: &[u8]) -> Reply {
        let (mut p1, mut p2, mut data) = (p1, p2, data.to_vec());
        match self.below(40) {
            0 => p1 = self.byte(),
            1 => p2 = self.byte(),
            2 => data = self.other_length(&data),
            3 => self.deselect(),
            _ => (),
        }
        let command = terminal::command(instruction, p1, p2, &data);
        let command = self.maybe_le(command);
        self.send(&command)
    }

    /// Sends a signed command, now and then with an error at one of the steps 1 to 6.
    pub fn signed(&mut self, instruction: Instruction, p1: u8, p2: u8, data: &[u8]) -> Reply {
        let mut end = self.scenario.end();
        let command = match self.below(50) {
            0 => end.sign(instruction, self.byte(), p2, data),
            1 => end.sign(instruction, p1, self.byte(), data),
            2 => {
                let other = self.other_length(data);
                end.sign(instruction, p1, p2, &other)
            }
            3 => return self.unsigned(instruction, p1, p2),
            4 => {
                let mut command = end.sign(instruction, p1, p2, data);
                self.spoil_data(&mut command);
                command
            }
            5 => {
                end.sign(instruction, p1, p2, data);
                end.sign(instruction, p1, p2, data)
            }
            6 => {
                self.deselect();
                end.sign(instruction, p1, p2, data)
            }
            _ => {
                return self.rightly_signed(Signed {
                    instruction,
                    p1,
                    p2,
                    data,
                })
            }
        };
        let command = self.maybe_le(command);
        self.scenario.send_signed(&command, end)
    }

    /// A signed command with under 8 bytes of data, or none.
    fn unsigned(&mut self, instruction: Instruction, p1: u8, p2: u8) -> Reply {
        let length = self.below(8);
        let data = self.bytes(length);
        self.scenario
            .send(&terminal::command(instruction, p1, p2, &data))
    }

    pub fn maybe_le(&mut self, mut command: Vec<u8>) -> Vec<u8> {
        if self.one_in(6) {
            let le = self.byte();
            command.push(le);
        }
        command
    }

    /// Some bytes fewer or more; at most 247.
    fn other_length(&mut self, data: &[u8]) -> Vec<u8> {
        let length = match self.below(3) {
            0 => self.below(data.len() + 1),
            1 => data.len() + 1,
            _ => data.len() + self.below(60),
        };
        let mut other = data.to_vec();
        other.resize(length.min(247), 0x5A);
        other
    }

    /// Changes one bit of the data or of the C-MAC.
    fn spoil_data(&mut self, command: &mut [u8]) {
        let place = 5 + self.below(command.len() - 5);
        let bit = self.below(8);
        command[place] ^= 1 << bit;
    }
}
