//! What the purse is for: PINs, transactions, and reading what the card keeps.

use super::player::Player;
use crate::bench::scenario::is_done;
use crate::purse::card::Set;
use crate::purse::datum::Tag;
use crate::purse::instruction::Instruction;
use crate::purse::session::{Kind, Level};
use crate::purse::Block;
use crate::terminal::read_record;

impl Player {
    pub fn verify_pin(&mut self) {
        self.ensure(&[
            Set::Credit,
            Set::Credit,
            Set::Credit,
            Set::Admin,
            Set::Debit,
        ]);
        let right = self.card().pin;
        let block = match (self.below(4), right) {
            (0, _) => self.bad_pin(),
            (1, _) | (_, None) => self.good_pin(),
            (_, Some(pin)) => pin,
        };
        self.verify(block);
    }

    fn verify(&mut self, block: Block) {
        let command = self.scenario.end().verify_pin(block);
        self.plain(Instruction::VerifyPin, 0x00, 0x00, &command[5..]);
    }

    /// Wrong PINs until no try is left, and one more PIN.
    pub fn block_pin(&mut self) {
        self.ensure(&[Set::Credit, Set::Admin]);
        for _ in 0..=self.card().tries {
            let block = self.bad_pin();
            self.verify(block);
        }
        if let (Some(pin), true) = (self.card().pin, self.one_in(2)) {
            self.verify(pin);
        }
    }

    /// Usually the PIN flag is set afterwards, if the card has a PIN.
    fn maybe_validate(&mut self) {
        let card = self.card();
        let Some(pin) = card.pin else {
            return;
        };
        if self.scenario.bench.session.validated || self.one_in(4) {
            return;
        }
        if card.tries == 0 {
            self.ensure(&[Set::Admin]);
            self.unblock();
        }
        self.ensure(&[Set::Credit, Set::Admin]);
        self.verify(pin);
    }

    /// INITIALIZE TRANSACTION, and usually COMPLETE TRANSACTION behind it.
    pub fn transaction(&mut self) {
        let kind = self.pick(&[Kind::Debit, Kind::Debit, Kind::Cash, Kind::Cash, Kind::Bank]);
        let sets: &[Set] = match kind {
            Kind::Debit => &[Set::Debit, Set::Debit, Set::Credit, Set::Admin],
            Kind::Cash => &[Set::Credit, Set::Credit, Set::Admin, Set::Debit],
            Kind::Bank => &[Set::Credit, Set::Credit, Set::Admin, Set::Admin, Set::Debit],
        };
        if kind == Kind::Bank {
            self.maybe_validate();
        }
        self.ensure_both(sets);
        self.maybe_update();
        let mut currency = self.card().purse.currency;
        if self.one_in(12) {
            currency[self.below(2)] ^= 1;
        }
        let amount = self.amount(kind);
        let data = [currency, amount.to_be_bytes()].concat();
        let reply = self.signed(Instruction::InitializeTransaction, kind as u8, 0x00, &data);
        if is_done(&reply) || self.one_in(10) {
            self.finish_transaction();
        }
    }

    /// Many right transactions in a row, so that a long log fills with records of all sets. One
    /// that can't begin ends them, and so does a channel that is lost.
    pub fn spree(&mut self) {
        if !self.scenario.bench.session.selected {
            self.scenario.select();
        }
        for _ in 0..self.below(70) {
            let (kind, most) = self.right_transaction();
            self.ensure_access(kind);
            self.maybe_update();
            let amount = 1 + self.below(usize::from(most.clamp(1, 400))) as u16;
            let data = [self.card().purse.currency, amount.to_be_bytes()].concat();
            let begin = Instruction::InitializeTransaction;
            if !is_done(&self.scenario.signed(begin, kind as u8, 0x00, &data)) {
                break;
            }
            self.complete();
            if self.scenario.terminal.is_none() {
                break;
            }
        }
        if self.one_in(2) {
            self.read_log();
        }
    }

    /// A debit or a credit, and the most that it may move.
    fn right_transaction(&mut self) -> (Kind, u16) {
        let purse = self.card().purse;
        let debit = purse.balance.min(purse.most_debit);
        let credit = purse.most_balance - purse.balance;
        let bank = purse.bank.is_some() && self.scenario.bench.session.validated;
        if debit > 0 && (credit == 0 || self.one_in(2)) {
            (Kind::Debit, debit)
        } else if bank && self.one_in(2) {
            (Kind::Bank, credit)
        } else {
            (Kind::Cash, credit)
        }
    }

    /// A channel of level 11 whose set may make such a transaction; now and then a new one.
    fn ensure_access(&mut self, kind: Kind) {
        let sets: &[Set] = match kind {
            Kind::Debit => &[Set::Debit, Set::Debit, Set::Credit, Set::Admin],
            Kind::Cash | Kind::Bank => &[Set::Credit, Set::Admin],
        };
        let open = self.scenario.terminal.as_ref();
        let fits = open.is_some_and(|end| end.level == Level::Both && sets.contains(&end.set));
        if !fits || self.one_in(4) {
            let set = self.pick(sets);
            self.scenario.open(set, Level::Both);
        }
    }

    /// Now and then INITIALIZE UPDATE for any set, which leaves the channel open.
    fn maybe_update(&mut self) {
        if self.one_in(8) {
            let set = self.set();
            self.scenario.initialize_update(set, Level::Both);
        }
    }

    fn finish_transaction(&mut self) {
        match self.below(24) {
            0 => self.between(),
            1 => return,
            _ => (),
        }
        self.complete();
        if self.one_in(10) {
            self.complete();
        }
    }

    /// COMPLETE TRANSACTION, and at times the newest record behind it.
    fn complete(&mut self) {
        let context = self.bytes(16);
        self.signed(Instruction::CompleteTransaction, 0x00, 0x00, &context);
        if self.one_in(3) {
            self.scenario.send(&read_record(1));
        }
    }

    pub fn complete_alone(&mut self) {
        self.ensure(&Set::ALL);
        self.complete();
    }

    pub fn get_data(&mut self) {
        let any = self.byte();
        let tag = match self.below(8) {
            0 => self.pick(&[0x00, 0x08, 0x13, 0x18, 0x80, any]),
            _ => self.pick(&Tag::ALL) as u8,
        };
        let data = self.no_data();
        self.plain(Instruction::GetData, 0x02, tag, &data);
    }

    pub fn read_record(&mut self) {
        let size = self.card().log.size;
        let any = self.byte();
        let number = self.pick(&[0, 1, 1, 2, 3, size, size, size + 1, 255, any]);
        let data = self.no_data();
        self.plain(Instruction::ReadRecord, number, 0x04, &data);
    }

    /// Usually nothing.
    fn no_data(&mut self) -> Vec<u8> {
        if self.one_in(12) {
            let length = 1 + self.below(20);
            return self.bytes(length);
        }
        Vec::new()
    }

    /// One record of the log, or all.
    pub fn read_some(&mut self) {
        if self.one_in(4) {
            self.read_log();
        } else {
            self.read_record();
        }
    }

    /// Every record of the log.
    fn read_log(&mut self) {
        for number in 1..=self.card().log.size {
            self.scenario.send(&read_record(number));
        }
    }
}
