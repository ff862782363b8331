//! Cuts: small limits for calls that store, and what follows them. The player can't know whether a
//! run was cut, so it probes the card, and goes on in a way that means something in either case.

use super::player::Player;
use crate::bench::file::{Call, NO_LIMIT};
use crate::bench::run::{Bench, Reply};
use crate::purse::card::Set;
use crate::purse::datum::Tag;
use crate::purse::instruction::Instruction;
use crate::purse::session::{Level, Session};
use crate::purse::Verdict;
use crate::terminal;

/// What the terminal is to sign.
pub struct Signed<'a> {
    pub instruction: Instruction,
    pub p1: u8,
    pub p2: u8,
    pub data: &'a [u8],
}

/// A command's limit, and whether it may cut a run that stores.
struct Plan {
    limit: u16,
    may_cut: bool,
}

impl Player {
    /// Without cuts always FFFF, with cuts anything: for calls that make no store.
    pub fn any_limit(&mut self) -> u16 {
        if self.cuts && self.one_in(2) {
            self.small_limit()
        } else {
            NO_LIMIT
        }
    }

    fn small_limit(&mut self) -> u16 {
        let most = self.pick(&[1, 3, 40, 100, 300, 300]);
        self.below(most) as u16
    }

    /// Sends a command that is not signed.
    pub fn send(&mut self, command: &[u8]) -> Reply {
        let plan = self.plan(command);
        let before = self.scenario.bench.clone();
        self.scenario.limit = plan.limit;
        let reply = self.scenario.send(command);
        if plan.may_cut {
            self.settle(before, plan.limit);
        }
        reply
    }

    /// Sends a rightly signed command.
    pub fn rightly_signed(&mut self, signed: Signed) -> Reply {
        let mut end = self.scenario.end();
        let command = end.sign(signed.instruction, signed.p1, signed.p2, signed.data);
        let command = self.maybe_le(command);
        let plan = self.plan(&command);
        let before = self.scenario.bench.clone();
        self.scenario.limit = plan.limit;
        let reply = self.scenario.send_signed(&command, end);
        if plan.may_cut {
            self.settle(before.clone(), plan.limit);
            if signed.instruction != Instruction::CompleteTransaction && !self.one_in(4) {
                self.repeat(before, signed);
            }
        }
        reply
    }

    /// With cuts, half of the commands that store get a small limit, and some that don't.
    fn plan(&mut self, command: &[u8]) -> Plan {
        let stores = self.cuts && self.stores(command);
        let limited = self.cuts && self.one_in(if stores { 2 } else { 6 });
        Plan {
            limit: if limited {
                self.small_limit()
            } else {
                NO_LIMIT
            },
            may_cut: stores && limited,
        }
    }

    /// Does the model's card store in this command?
    fn stores(&self, command: &[u8]) -> bool {
        let call = Call::Command {
            limit: NO_LIMIT,
            random: [0; 8],
            command: command.to_vec(),
        };
        let verdict = self.scenario.bench.clone().call(&call).verdict;
        verdict.is_some_and(Verdict::may_store)
    }

    /// Guesses whether the run was cut, starts up as a rule, and probes.
    fn settle(&mut self, before: Bench, limit: u16) {
        let finished = limit > 0 && self.one_in(2);
        if !finished {
            self.scenario.bench = before;
            self.forget();
        }
        if !self.one_in(5) {
            self.start_ups();
        }
        self.probe();
    }

    /// The session of after a cut.
    fn forget(&mut self) {
        self.scenario.bench.session = Session::default();
        self.scenario.terminal = None;
    }

    /// Start-ups, of which some may be cut.
    fn start_ups(&mut self) {
        for _ in 0..self.below(3) {
            self.scenario.limit = self.any_limit();
            self.scenario.start();
        }
        self.scenario.start();
    }

    fn probe(&mut self) {
        self.scenario.select();
        for tag in [Tag::Number, Tag::Balance, Tag::Tries, Tag::Status] {
            if !self.one_in(4) {
                self.scenario.send(&terminal::get_data(tag as u8));
            }
        }
        self.scenario.send(&terminal::read_record(1));
        if self.one_in(3) {
            let size = self.card().log.size;
            self.scenario.send(&terminal::read_record(size));
            let set = self.set();
            self.scenario.initialize_update(set, Level::Both);
        }
        if self.one_in(3) {
            let tag = self.pick(&Tag::ALL);
            self.scenario.send(&terminal::get_data(tag as u8));
        }
    }

    /// The same command once more, as if it had been cut without effect. Whichever held, the
    /// model's card holds afterwards; a start-up makes the sessions equal too.
    fn repeat(&mut self, before: Bench, signed: Signed) {
        self.scenario.bench = before;
        self.forget();
        self.scenario.select();
        self.scenario.open(Set::Admin, Level::Command);
        let (p1, p2) = (signed.p1, signed.p2);
        self.scenario
            .signed(signed.instruction, p1, p2, signed.data);
        self.scenario.start();
        self.scenario.select();
    }

    /// With cuts, half of the installations get a small limit. Behind one, the old and the new
    /// card are tried, and as a rule the installation is made once more.
    pub fn install_or_cut(&mut self, data: &[u8]) {
        if !self.cuts || self.one_in(2) {
            self.scenario.install(data);
            return;
        }
        let before = self.scenario.bench.clone();
        self.scenario.limit = self.small_limit();
        self.scenario.install(data);
        let old = before.card.as_ref().map(|card| card.purse.aid.clone());
        if !self.one_in(4) {
            self.start_ups();
        }
        if let Some(aid) = old {
            self.scenario.send(&terminal::select(&aid));
            self.scenario.send(&terminal::get_data(Tag::Balance as u8));
        }
        self.probe();
        if self.one_in(8) {
            self.scenario.bench = before;
            self.forget();
        } else {
            self.scenario.install(data);
        }
    }
}
