//! Commands that are none: bytes of all lengths, wrong Lc, wrong class or instruction.

use super::player::Player;
use crate::purse::instruction::Instruction;
use crate::terminal;

/// Most bytes of a command in a bench file.
const MOST: usize = 502;

impl Player {
    pub fn noise(&mut self) {
        let command = match self.below(7) {
            0 => self.short(),
            1 => self.any_bytes(),
            2 => self.wrong_class(),
            3 => self.wrong_instruction(),
            4 => self.wrong_length(),
            5 => self.zero_length(),
            _ => self.any_header(),
        };
        self.scenario.send(&command);
    }

    /// Under 4 bytes.
    fn short(&mut self) -> Vec<u8> {
        let length = self.below(4);
        self.bytes(length)
    }

    fn any_bytes(&mut self) -> Vec<u8> {
        let length = match self.below(4) {
            0 => 255 + self.below(10),
            1 => self.below(MOST + 1),
            _ => self.below(24),
        };
        let mut command = self.bytes(length);
        if length > 1 {
            (command[0], command[1]) = self.pick(&Instruction::ALL).code();
        }
        command
    }

    /// A well-formed command with a class that is unknown or another's.
    fn wrong_class(&mut self) -> Vec<u8> {
        let mut command = self.well_formed();
        let any = self.byte();
        command[0] = self.pick(&[
            0x00, 0x01, 0x04, 0x80, 0x81, 0x84, 0x90, 0x94, 0x95, 0xFF, any,
        ]);
        command
    }

    fn wrong_instruction(&mut self) -> Vec<u8> {
        let mut command = self.well_formed();
        let any = self.byte();
        command[1] = self.pick(&[
            0xA4, 0xB2, 0x50, 0xCA, 0x82, 0xD8, 0x20, 0x44, 0x00, 0xFF, any,
        ]);
        command
    }

    /// Lc that the length denies.
    fn wrong_length(&mut self) -> Vec<u8> {
        let mut command = self.well_formed();
        match self.below(4) {
            0 => command.truncate(self.below(command.len())),
            1 => command.extend([0, 0]),
            2 => command[4] = self.byte(),
            _ => command[4] = command[4].wrapping_sub(1 + self.scenario.random.below(2) as u8),
        }
        command
    }

    /// Lc 00 with bytes behind it.
    fn zero_length(&mut self) -> Vec<u8> {
        let mut command = self.well_formed();
        command[4] = 0;
        command.truncate(6 + self.below(3));
        command
    }

    /// A right class and instruction with any P1, P2 and data.
    fn any_header(&mut self) -> Vec<u8> {
        let instruction = self.pick(&Instruction::ALL);
        let (p1, p2) = (self.byte(), self.byte());
        let length = self.pick(&[0, 0, 8, 16, 24, 56, 255]);
        let data = self.bytes(length);
        terminal::command(instruction, p1, p2, &data)
    }

    /// At least 9 bytes.
    fn well_formed(&mut self) -> Vec<u8> {
        let instruction = self.pick(&Instruction::ALL);
        let length = 4 + self.below(60);
        let data = self.bytes(length);
        terminal::command(instruction, 0x00, 0x00, &data)
    }
}
