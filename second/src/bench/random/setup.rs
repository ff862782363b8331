//! Installation, start-up and SELECT.

use super::player::Player;
use crate::purse::instruction::Instruction;
use crate::terminal;

impl Player {
    pub fn install(&mut self) {
        if self.one_in(5) {
            let data = self.bad_installation();
            self.scenario.limit = self.any_limit();
            self.scenario.install(&data);
            return;
        }
        let data = self.good_installation();
        self.install_or_cut(&data);
    }

    pub fn start(&mut self) {
        self.scenario.start();
    }

    pub fn select(&mut self) {
        let aid = self.card().purse.aid;
        self.plain(Instruction::Select, 0x04, 0x00, &aid);
    }

    /// Another AID: none, a prefix, an extension, one byte changed, or any.
    pub fn select_wrongly(&mut self) {
        let mut aid = self.card().purse.aid;
        match self.below(5) {
            0 => aid.clear(),
            1 => aid.truncate(self.below(aid.len())),
            2 => aid.push(self.byte()),
            3 => {
                let place = self.below(aid.len());
                aid[place] ^= 1;
            }
            _ => {
                let length = self.below(247);
                aid = self.bytes(length);
            }
        }
        self.plain(Instruction::Select, 0x04, 0x00, &aid);
    }

    /// A SELECT of no AID.
    pub fn deselect(&mut self) {
        self.scenario.send(&terminal::select(&[]));
    }
}
