//! The session: a value that each finished call hands back.

use super::card::{Card, Set};
use super::channel::{Challenges, SessionKeys};
use super::{Block, Key};

/// The default is the unselected session.
#[derive(Clone, Debug, Default, PartialEq, Eq)]
pub struct Session {
    pub selected: bool,
    /// The PIN flag.
    pub validated: bool,
    pub channel: Option<Channel>,
    pub pending: Option<Pending>,
}

#[derive(Clone, Debug, PartialEq, Eq)]
pub struct Channel {
    /// The set that opened it.
    pub set: Set,
    pub level: Level,
    pub keys: SessionKeys,
    /// The last accepted C-MAC.
    pub command: Block,
    /// The last R-MAC.
    pub response: Block,
}

/// The security level: EXTERNAL AUTHENTICATE's P1.
#[derive(Clone, Copy, Debug, PartialEq, Eq)]
pub enum Level {
    Command = 0x01,
    Both = 0x11,
}

/// What the next command alone may end.
#[derive(Clone, Debug, PartialEq, Eq)]
pub enum Pending {
    Update { set: Set, challenges: Challenges },
    Transaction { kind: Kind, amount: u16 },
}

/// INITIALIZE TRANSACTION's P1.
#[derive(Clone, Copy, Debug, PartialEq, Eq)]
pub enum Kind {
    Debit = 0x00,
    Cash = 0x01,
    Bank = 0x02,
}

/// Each level includes those before it.
#[derive(Clone, Copy, Debug, PartialEq, Eq, PartialOrd, Ord)]
pub enum Access {
    Public,
    Debit,
    Credit,
    Admin,
}

impl Session {
    /// The set that opened the channel.
    pub fn set(&self) -> Option<Set> {
        self.channel.as_ref().map(|channel| channel.set)
    }

    pub fn access(&self) -> Access {
        match self.set() {
            None => Access::Public,
            Some(Set::Debit) => Access::Debit,
            Some(Set::Credit) => Access::Credit,
            Some(Set::Admin) => Access::Admin,
        }
    }

    pub fn has_level(&self, level: Level) -> bool {
        self.channel
            .as_ref()
            .is_some_and(|channel| channel.level == level)
    }

    /// The DEK as stored now of the set that opened the channel; zeros where there is none.
    pub fn dek(&self, card: &Card) -> Key {
        let keys = self.set().and_then(|set| card.keys(set));
        keys.map_or([0; 16], |keys| keys.dek)
    }
}

impl Level {
    pub fn of(p1: u8) -> Option<Level> {
        [Level::Command, Level::Both]
            .into_iter()
            .find(|&level| level as u8 == p1)
    }
}

impl Kind {
    pub fn of(p1: u8) -> Option<Kind> {
        [Kind::Debit, Kind::Cash, Kind::Bank]
            .into_iter()
            .find(|&kind| kind as u8 == p1)
    }

    pub fn access(self) -> Access {
        match self {
            Kind::Debit => Access::Debit,
            Kind::Cash | Kind::Bank => Access::Credit,
        }
    }
}
