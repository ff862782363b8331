//! Channels: opening them rightly and wrongly.

use super::player::Player;
use crate::bench::run::Reply;
use crate::purse::card::Set;
use crate::purse::instruction::Instruction;
use crate::purse::session::Level;
use crate::terminal::Terminal;

impl Player {
    /// Usually level 11.
    fn level(&mut self) -> Level {
        self.pick(&[Level::Both, Level::Both, Level::Both, Level::Command])
    }

    pub fn open_any(&mut self) {
        let set = self.set();
        let level = self.level();
        self.scenario.open(set, level);
    }

    /// Usually there is a channel of one of these sets afterwards.
    pub fn ensure(&mut self, sets: &[Set]) {
        if self.one_in(12) {
            return;
        }
        let open = self.scenario.terminal.as_ref();
        if open.is_some_and(|end| sets.contains(&end.set)) && !self.one_in(20) {
            return;
        }
        if !self.scenario.bench.session.selected {
            self.scenario.select();
        }
        let set = self.pick(sets);
        let level = self.level();
        self.scenario.open(set, level);
    }

    /// As `ensure`, and usually its level is 11.
    pub fn ensure_both(&mut self, sets: &[Set]) {
        self.ensure(sets);
        let open = self.scenario.terminal.as_ref();
        let low = open.is_some_and(|end| end.level == Level::Command);
        if low && !self.one_in(6) {
            let set = self.pick(sets);
            self.scenario.open(set, Level::Both);
        }
    }

    /// A channel opened with one error.
    pub fn open_wrongly(&mut self) {
        let (set, level) = (self.set(), self.level());
        let host = self.bytes(8);
        if self.one_in(4) {
            self.plain(Instruction::InitializeUpdate, set as u8, 0x00, &host);
            return;
        }
        let (_, mut end) = self.scenario.initialize_update(set, level);
        if self.one_in(5) {
            self.between();
        }
        let reply = self.authenticate_wrongly(&mut end);
        self.scenario.joined(end, &reply);
    }

    fn authenticate_wrongly(&mut self, end: &mut Terminal) -> Reply {
        let mut command = end.external_authenticate();
        match self.below(8) {
            0 => command[2] = self.byte(),
            1 => command[3] = self.byte(),
            2 => {
                command[4] -= 1;
                command.pop();
            }
            3 | 4 => command[5 + self.below(8)] ^= 1,
            5 | 6 => command[13 + self.below(8)] ^= 0x80,
            _ => (),
        }
        let reply = self.scenario.send(&command);
        if self.one_in(6) {
            return self.scenario.send(&command);
        }
        reply
    }

    /// Something that ends what is pending.
    pub fn between(&mut self) {
        match self.below(5) {
            0 => self.get_data(),
            1 => self.read_record(),
            2 => self.noise(),
            3 => {
                let data = self.bad_installation();
                self.scenario.install(&data);
            }
            _ => self.select(),
        }
    }
}
