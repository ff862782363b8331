//! Random values: AIDs, keys, PINs, parameters, amounts.

use super::player::Player;
use crate::bench::scenario::installation;
use crate::purse::card::{KeySet, Set};
use crate::purse::session::Kind;
use crate::purse::Block;
use crate::terminal;

impl Player {
    pub fn aid(&mut self) -> Vec<u8> {
        let length = 5 + self.below(12);
        self.bytes(length)
    }

    pub fn key_set(&mut self) -> KeySet {
        let bytes = self.bytes(48);
        KeySet::read(&bytes).unwrap_or_default()
    }

    pub fn set(&mut self) -> Set {
        self.pick(&Set::ALL)
    }

    /// Installation data in range. Small logs fill soon.
    pub fn good_installation(&mut self) -> Vec<u8> {
        let aid = self.aid();
        let any = 1 + self.below(50) as u8;
        let size = self.pick(&[1, 2, 3, 5, 50, any]);
        let any = 3 + self.below(13) as u8;
        let tries = self.pick(&[3, 3, 15, any]);
        let keys = self.key_set();
        installation(&aid, size, tries, &keys)
    }

    /// Good data with a number out of range, or too short or too long.
    pub fn bad_installation(&mut self) -> Vec<u8> {
        let mut data = self.good_installation();
        let aid = usize::from(data[0]);
        match self.below(6) {
            0 => data[0] = self.pick(&[0, 4, 17, 255]),
            1 => data[1 + aid] = self.pick(&[0, 51, 255]),
            2 => data[2 + aid] = self.pick(&[0, 2, 16, 255]),
            3 => data.truncate(self.below(data.len())),
            4 => data.push(self.byte()),
            _ => {
                let length = self.below(300);
                data.extend(self.bytes(1 + length));
            }
        }
        data
    }

    /// A PIN block of 4 to 12 digits.
    pub fn good_pin(&mut self) -> Block {
        let length = 4 + self.below(9);
        let digits: String = (0..length)
            .map(|_| char::from(b'0' + self.below(10) as u8))
            .collect();
        terminal::pin_block(&digits)
    }

    /// A block that breaks one rule, or any bytes.
    pub fn bad_pin(&mut self) -> Block {
        let mut block = self.good_pin();
        let length = block[0] & 0xF;
        match self.below(6) {
            0 => block[0] = self.pick(&[0x10, 0x30, 0x00, 0xF0]) | length,
            1 => block[0] = 0x20 | self.pick(&[0, 3, 13, 14, 15]),
            2 => block[1] = self.pick(&[0xA0, 0x0A, 0xF0, 0x0F]),
            3 => block[7] = self.pick(&[0xF0, 0x0F, 0xFE, 0x00]),
            4 => block[0] = 0x20 | if length == 12 { 4 } else { length + 1 },
            _ => block = self.scenario.block(),
        }
        block
    }

    /// A maximum balance or debit.
    pub fn maximum(&mut self) -> u16 {
        let any = self.below(0x8000) as u16;
        self.pick(&[0, 1, 500, 1000, 0x7FFF, 0x7FFF, any])
    }

    /// Small maxima are reached soon.
    pub fn most_number(&mut self) -> u16 {
        let any = self.below(0x10000) as u16;
        self.pick(&[0, 1, 4, 10, 0xFFFF, 0xFFFF, any])
    }

    /// An amount: half of them allowed, the others at and past each limit.
    pub fn amount(&mut self, kind: Kind) -> u16 {
        let purse = self.card().purse;
        let most = match kind {
            Kind::Debit => purse.balance.min(purse.most_debit),
            Kind::Cash | Kind::Bank => purse.most_balance - purse.balance,
        };
        if most > 0 && self.one_in(2) {
            return 1 + self.below(usize::from(most)) as u16;
        }
        let any = self.scenario.random.word() as u16;
        self.pick(&[
            most,
            most + 1,
            purse.most_debit,
            purse.most_debit + 1,
            purse.balance,
            purse.balance + 1,
            0,
            1,
            0x7FFF,
            0x8000,
            0xFFFF,
            any,
        ])
    }
}
