//! What the card keeps, as plain data: installation data, parameters, key sets, PIN, state and log.

use super::datum::Tag;
use super::{word, Block, Key};

/// S-ENC, S-MAC, DEK.
#[derive(Clone, Debug, Default, PartialEq, Eq)]
pub struct KeySet {
    pub enc: Key,
    pub mac: Key,
    pub dek: Key,
}

/// The number of a key set.
#[derive(Clone, Copy, Debug, PartialEq, Eq, PartialOrd, Ord)]
pub enum Set {
    Debit = 1,
    Credit = 2,
    Admin = 3,
}

/// One entry of the log; a void one is all zero.
#[derive(Clone, Debug, Default, PartialEq, Eq)]
pub struct Record {
    pub number: u16,
    pub currency: [u8; 2],
    pub amount: i16,
    pub balance: u16,
    pub context: [u8; 16],
    /// The set that opened the channel; none only in a void record.
    pub set: Option<Set>,
}

/// The records made so far, the newest first, at most `size`.
#[derive(Clone, Debug, PartialEq, Eq)]
pub struct Log {
    pub size: u8,
    pub records: Vec<Record>,
}

/// What belongs to one purse.
#[derive(Clone, Debug, Default, PartialEq, Eq)]
pub struct Purse {
    pub aid: Vec<u8>,
    pub personalized: bool,
    pub identifier: [u8; 4],
    pub currency: [u8; 2],
    pub most_balance: u16,
    pub most_debit: u16,
    pub bank: Option<[u8; 16]>,
    pub agent: Option<Vec<u8>>,
    pub balance: u16,
    pub debit: Option<KeySet>,
    pub credit: Option<KeySet>,
}

#[derive(Clone, Debug, PartialEq, Eq)]
pub struct Card {
    pub purse: Purse,
    pub admin: KeySet,
    pub most_tries: u8,
    pub tries: u8,
    /// The block of the PIN.
    pub pin: Option<Block>,
    pub most_number: u16,
    pub number: u16,
    pub log: Log,
}

impl Card {
    /// The fresh card of installation data: AID length, AID, log size, tries, keys. None is
    /// answer 6.
    pub fn install(data: &[u8]) -> Option<Card> {
        let (&length, rest) = data.split_first()?;
        if !(5..=16).contains(&length) {
            return None;
        }
        let (aid, rest) = rest.split_at_checked(usize::from(length))?;
        let &[size, tries, ref keys @ ..] = rest else {
            return None;
        };
        if !(1..=50).contains(&size) || !(3..=15).contains(&tries) {
            return None;
        }
        Some(Card::fresh(aid, size, tries, KeySet::read(keys)?))
    }

    fn fresh(aid: &[u8], size: u8, tries: u8, admin: KeySet) -> Card {
        let purse = Purse {
            aid: aid.to_vec(),
            ..Purse::default()
        };
        let records = Vec::new();
        Card {
            purse,
            admin,
            most_tries: tries,
            tries,
            pin: None,
            most_number: 0,
            number: 0,
            log: Log { size, records },
        }
    }

    pub fn keys(&self, set: Set) -> Option<&KeySet> {
        match set {
            Set::Debit => self.purse.debit.as_ref(),
            Set::Credit => self.purse.credit.as_ref(),
            Set::Admin => Some(&self.admin),
        }
    }

    pub fn put_keys(&mut self, set: Set, keys: KeySet) {
        match set {
            Set::Debit => self.purse.debit = Some(keys),
            Set::Credit => self.purse.credit = Some(keys),
            Set::Admin => self.admin = keys,
        }
    }

    /// 10 personalized, 20 bank information and PIN both defined, 40 agent defined, 80 PIN
    /// validated.
    pub fn administrative_status(&self, validated: bool) -> u8 {
        let bank = self.purse.bank.is_some() && self.pin.is_some();
        let bit = |set: bool, bit: u8| if set { bit } else { 0 };
        bit(self.purse.personalized, 0x10)
            | bit(bank, 0x20)
            | bit(self.purse.agent.is_some(), 0x40)
            | bit(validated, 0x80)
    }

    /// Remaining transactions, currency, balance, allowed debit, allowed credit.
    pub fn operational_status(&self) -> [u8; 10] {
        let purse = &self.purse;
        let remaining = self.most_number - self.number;
        let debit = purse.balance.min(purse.most_debit);
        let credit = purse.most_balance - purse.balance;
        let words = [
            remaining,
            word(purse.currency),
            purse.balance,
            debit,
            credit,
        ];
        let mut status = [0; 10];
        for (place, number) in status.chunks_exact_mut(2).zip(words) {
            place.copy_from_slice(&number.to_be_bytes());
        }
        status
    }

    /// The value that GET DATA gives; undefined is empty for 06 and 07, zeros for the others.
    pub fn value(&self, tag: Tag, validated: bool) -> Vec<u8> {
        let purse = &self.purse;
        match tag {
            Tag::Identifier => purse.identifier.to_vec(),
            Tag::Currency => purse.currency.to_vec(),
            Tag::MostBalance => purse.most_balance.to_be_bytes().to_vec(),
            Tag::MostDebit => purse.most_debit.to_be_bytes().to_vec(),
            Tag::MostNumber => self.most_number.to_be_bytes().to_vec(),
            Tag::Bank => purse.bank.map_or(Vec::new(), |bank| bank.to_vec()),
            Tag::Agent => purse.agent.clone().unwrap_or_default(),
            Tag::Number => self.number.to_be_bytes().to_vec(),
            Tag::Balance => purse.balance.to_be_bytes().to_vec(),
            Tag::Tries => vec![self.tries],
            Tag::Status => vec![self.administrative_status(validated)],
        }
    }
}

impl KeySet {
    /// 48 bytes: S-ENC, S-MAC, DEK.
    pub fn read(bytes: &[u8]) -> Option<KeySet> {
        let key = |place: usize| bytes[place..place + 16].try_into().ok();
        if bytes.len() != 48 {
            return None;
        }
        Some(KeySet {
            enc: key(0)?,
            mac: key(16)?,
            dek: key(32)?,
        })
    }

    pub fn bytes(&self) -> Vec<u8> {
        [self.enc, self.mac, self.dek].concat()
    }
}

impl Set {
    pub const ALL: [Set; 3] = [Set::Debit, Set::Credit, Set::Admin];

    pub fn of(number: u8) -> Option<Set> {
        Set::ALL.into_iter().find(|&set| set as u8 == number)
    }

    /// 01's name of the set.
    pub fn name(self) -> &'static str {
        match self {
            Set::Debit => "debit",
            Set::Credit => "credit",
            Set::Admin => "administration",
        }
    }
}

impl Log {
    /// The newest record takes its place before the others; the oldest gives way.
    pub fn push(&mut self, record: Record) {
        self.records.insert(0, record);
        self.records.truncate(usize::from(self.size));
    }

    /// Record 1 is the newest. None if there is no such place; void places are zero.
    pub fn get(&self, number: u8) -> Option<Record> {
        if !(1..=self.size).contains(&number) {
            return None;
        }
        let record = self.records.get(usize::from(number) - 1);
        Some(record.cloned().unwrap_or_default())
    }
}

impl Record {
    /// 25 bytes.
    pub fn bytes(&self) -> Vec<u8> {
        [
            self.number.to_be_bytes().as_slice(),
            &self.currency,
            &self.amount.to_be_bytes(),
            &self.balance.to_be_bytes(),
            &self.context,
            &[self.set.map_or(0, |set| set as u8)],
        ]
        .concat()
    }
}
