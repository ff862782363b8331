//! The data that have a tag, and the values that STORE DATA and PUT DATA give them.

use super::card::Card;
use super::{channel, word, Key};

#[derive(Clone, Copy, Debug, PartialEq, Eq, PartialOrd, Ord)]
pub enum Tag {
    Identifier = 0x01,
    Currency = 0x02,
    MostBalance = 0x03,
    MostDebit = 0x04,
    MostNumber = 0x05,
    Bank = 0x06,
    Agent = 0x07,
    Number = 0x14,
    Balance = 0x15,
    Tries = 0x16,
    Status = 0x17,
}

impl Tag {
    pub const ALL: [Tag; 11] = [
        Tag::Identifier,
        Tag::Currency,
        Tag::MostBalance,
        Tag::MostDebit,
        Tag::MostNumber,
        Tag::Bank,
        Tag::Agent,
        Tag::Number,
        Tag::Balance,
        Tag::Tries,
        Tag::Status,
    ];

    pub fn of(number: u8) -> Option<Tag> {
        Tag::ALL.into_iter().find(|&tag| tag as u8 == number)
    }

    /// 01's name of the datum.
    pub fn name(self) -> &'static str {
        match self {
            Tag::Identifier => "purse identifier",
            Tag::Currency => "currency",
            Tag::MostBalance => "maximum balance",
            Tag::MostDebit => "maximum debit",
            Tag::MostNumber => "maximum transaction number",
            Tag::Bank => "bank information",
            Tag::Agent => "purchase agent AID",
            Tag::Number => "transaction number",
            Tag::Balance => "balance",
            Tag::Tries => "PIN tries left",
            Tag::Status => "administrative status",
        }
    }
}

/// A value of tags 01 to 07.
#[derive(Clone, Debug, PartialEq, Eq)]
pub enum Datum {
    Identifier([u8; 4]),
    Currency([u8; 2]),
    MostBalance(u16),
    MostDebit(u16),
    MostNumber(u16),
    Bank(Option<[u8; 16]>),
    Agent(Option<Vec<u8>>),
}

impl Datum {
    /// None for a tag outside 01 to 07, a wrong length or a number out of range. Bank information
    /// is deciphered.
    pub fn read(tag: u8, value: &[u8], dek: &Key) -> Option<Datum> {
        match Tag::of(tag)? {
            Tag::Identifier => value.try_into().ok().map(Datum::Identifier),
            Tag::Currency => value.try_into().ok().map(Datum::Currency),
            Tag::MostBalance => amount(value).map(Datum::MostBalance),
            Tag::MostDebit => amount(value).map(Datum::MostDebit),
            Tag::MostNumber => value.try_into().ok().map(word).map(Datum::MostNumber),
            Tag::Bank => bank(value, dek).map(Datum::Bank),
            Tag::Agent => agent(value).map(Datum::Agent),
            Tag::Number | Tag::Balance | Tag::Tries | Tag::Status => None,
        }
    }

    pub fn put(self, card: &mut Card) {
        match self {
            Datum::Identifier(identifier) => card.purse.identifier = identifier,
            Datum::Currency(currency) => card.purse.currency = currency,
            Datum::MostBalance(most) => card.purse.most_balance = most,
            Datum::MostDebit(most) => card.purse.most_debit = most,
            Datum::MostNumber(most) => card.most_number = most,
            Datum::Bank(bank) => card.purse.bank = bank,
            Datum::Agent(agent) => card.purse.agent = agent,
        }
    }
}

/// 0 to 32,767.
fn amount(value: &[u8]) -> Option<u16> {
    let number = word(value.try_into().ok()?);
    (number <= 32_767).then_some(number)
}

/// 16 bytes, or none for undefined.
fn bank(value: &[u8], dek: &Key) -> Option<Option<[u8; 16]>> {
    if value.is_empty() {
        return Some(None);
    }
    let enciphered: [u8; 16] = value.try_into().ok()?;
    Some(Some(channel::decipher_bank(dek, enciphered)))
}

/// 5 to 16 bytes, or none for undefined.
fn agent(value: &[u8]) -> Option<Option<Vec<u8>>> {
    match value.len() {
        0 => Some(None),
        5..=16 => Some(Some(value.to_vec())),
        _ => None,
    }
}
