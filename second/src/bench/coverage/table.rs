//! Every verdict that a bench file can reach, by command in 01's order. Out of reach are COMPLETE
//! TRANSACTION's level and limit: no call that answers 0 can come between it and its beginning.

use crate::purse::instruction::Instruction::{self, *};
use crate::purse::refusal::Refusal;
use crate::purse::Verdict;

/// A command, its status word, and the rule of 01 behind it.
pub struct Entry {
    /// None for what is no command.
    pub instruction: Option<Instruction>,
    pub word: u16,
    /// None for 9000.
    pub refusal: Option<Refusal>,
    pub comment: &'static str,
}

impl Entry {
    pub fn verdict(&self) -> Verdict {
        Verdict {
            instruction: self.instruction,
            refusal: self.refusal,
        }
    }

    pub fn name(&self) -> &'static str {
        self.instruction.map_or("(no command)", Instruction::name)
    }
}

const fn done(instruction: Instruction, comment: &'static str) -> Entry {
    Entry {
        instruction: Some(instruction),
        word: 0x9000,
        refusal: None,
        comment,
    }
}

const fn no(instruction: Instruction, word: u16, refusal: Refusal, comment: &'static str) -> Entry {
    Entry {
        instruction: Some(instruction),
        word,
        refusal: Some(refusal),
        comment,
    }
}

const fn none(word: u16, refusal: Refusal, comment: &'static str) -> Entry {
    Entry {
        instruction: None,
        word,
        refusal: Some(refusal),
        comment,
    }
}

#[rustfmt::skip]
pub const REACHABLE: &[Entry] = &[
    none(0x6700, Refusal::Malformed, "under 4 bytes, Lc 00, or a length that Lc denies"),
    none(0x6E00, Refusal::Class, "CLA other than 00, 80, 84, 94"),
    none(0x6D00, Refusal::Instruction, "unknown INS, or an INS of another CLA"),

    no(Select, 0x6A86, Refusal::Parameters, "P1 not 04 or P2 not 00"),
    no(Select, 0x6A82, Refusal::OtherAid, "another AID, or none"),
    done(Select, "identifier, administrative and operational status"),

    no(InitializeUpdate, 0x6985, Refusal::NotSelected, "not selected"),
    no(InitializeUpdate, 0x6A86, Refusal::Parameters, "P1 not 1 to 3 or P2 not 00"),
    no(InitializeUpdate, 0x6700, Refusal::Length, "host challenge not of 8 bytes"),
    no(InitializeUpdate, 0x6A88, Refusal::NoKeySet, "set 1 or 2 before its PUT KEY"),
    done(InitializeUpdate, "card challenge and card cryptogram"),

    no(ExternalAuthenticate, 0x6985, Refusal::NotSelected, "not selected"),
    no(ExternalAuthenticate, 0x6A86, Refusal::Parameters, "P1 not 01 or 11, or P2 not 00"),
    no(ExternalAuthenticate, 0x6700, Refusal::Length, "Lc not 16"),
    no(ExternalAuthenticate, 0x6985, Refusal::Sequence, "not directly after INITIALIZE UPDATE"),
    no(ExternalAuthenticate, 0x6300, Refusal::Cryptogram, "cryptogram wrong"),
    no(ExternalAuthenticate, 0x6982, Refusal::Mac, "C-MAC wrong"),
    done(ExternalAuthenticate, "the channel opens"),

    no(PutKey, 0x6985, Refusal::NotSelected, "not selected"),
    no(PutKey, 0x6A86, Refusal::Parameters, "P1 not 00 or P2 not 1 to 3"),
    no(PutKey, 0x6700, Refusal::Length, "Lc not 56"),
    no(PutKey, 0x6982, Refusal::NoChannel, "no channel"),
    no(PutKey, 0x6982, Refusal::Mac, "wrong C-MAC"),
    no(PutKey, 0x6982, Refusal::Access, "channel of set 1 or 2"),
    done(PutKey, "the set is stored"),

    no(PinChange, 0x6985, Refusal::NotSelected, "not selected"),
    no(PinChange, 0x6A86, Refusal::Parameters, "P1 or P2 not 00"),
    no(PinChange, 0x6700, Refusal::Length, "Lc neither 8 nor 16"),
    no(PinChange, 0x6982, Refusal::NoChannel, "no channel"),
    no(PinChange, 0x6982, Refusal::Mac, "wrong C-MAC"),
    no(PinChange, 0x6A81, Refusal::Feature, "unblock with no PIN"),
    no(PinChange, 0x6982, Refusal::Access, "channel of set 1 or 2"),
    no(PinChange, 0x6A80, Refusal::Data, "no PIN block"),
    done(PinChange, "tries full, PIN changed if there is one"),

    no(StoreData, 0x6985, Refusal::NotSelected, "not selected"),
    no(StoreData, 0x6A86, Refusal::Parameters, "P1 not 80 or P2 not 00"),
    no(StoreData, 0x6700, Refusal::Length, "Lc under 8"),
    no(StoreData, 0x6982, Refusal::NoChannel, "no channel"),
    no(StoreData, 0x6982, Refusal::Mac, "wrong C-MAC"),
    no(StoreData, 0x6985, Refusal::Personalized, "a second time"),
    no(StoreData, 0x6985, Refusal::NoKeySets, "set 1 or 2 undefined"),
    no(StoreData, 0x6982, Refusal::Access, "channel of set 1 or 2"),
    no(StoreData, 0x6A85, Refusal::Structure, "a TLV past the end"),
    no(StoreData, 0x6A80, Refusal::Data, "tags, lengths or ranges"),
    done(StoreData, "the purse is personalized"),

    no(VerifyPin, 0x6985, Refusal::NotSelected, "not selected"),
    no(VerifyPin, 0x6A86, Refusal::Parameters, "P1 or P2 not 00"),
    no(VerifyPin, 0x6700, Refusal::Length, "Lc not 8"),
    no(VerifyPin, 0x6985, Refusal::Unpersonalized, "not personalized"),
    no(VerifyPin, 0x6A81, Refusal::Feature, "no PIN"),
    no(VerifyPin, 0x6982, Refusal::Access, "no channel, or one of set 1"),
    no(VerifyPin, 0x6983, Refusal::Blocked, "no tries left"),
    no(VerifyPin, 0x6300, Refusal::WrongPin, "wrong or ill-formed PIN"),
    done(VerifyPin, "tries full, flag set"),

    no(InitializeTransaction, 0x6985, Refusal::NotSelected, "not selected"),
    no(InitializeTransaction, 0x6A86, Refusal::Parameters, "P1 not 00 to 02 or P2 not 00"),
    no(InitializeTransaction, 0x6700, Refusal::Length, "Lc not 12"),
    no(InitializeTransaction, 0x6982, Refusal::NoChannel, "no channel"),
    no(InitializeTransaction, 0x6982, Refusal::Mac, "wrong C-MAC"),
    no(InitializeTransaction, 0x6985, Refusal::Unpersonalized, "not personalized"),
    no(InitializeTransaction, 0x6A81, Refusal::Feature, "P1 02 without bank information or PIN"),
    no(InitializeTransaction, 0x6982, Refusal::Access, "a credit in a channel of set 1"),
    no(InitializeTransaction, 0x6982, Refusal::Flag, "P1 02 without the PIN flag"),
    no(InitializeTransaction, 0x6982, Refusal::Level, "channel of level 01"),
    no(InitializeTransaction, 0x9410, Refusal::Number, "the number is at its maximum"),
    no(InitializeTransaction, 0x9411, Refusal::Currency, "another currency"),
    no(InitializeTransaction, 0x9412, Refusal::Amount, "amount not above 0"),
    no(InitializeTransaction, 0x9413, Refusal::Debit, "debit above maximum debit or balance"),
    no(InitializeTransaction, 0x9414, Refusal::Credit, "credit past maximum balance"),
    done(InitializeTransaction, "identifier, bank information if P1 02, R-MAC"),

    no(CompleteTransaction, 0x6985, Refusal::NotSelected, "not selected"),
    no(CompleteTransaction, 0x6A86, Refusal::Parameters, "P1 or P2 not 00"),
    no(CompleteTransaction, 0x6700, Refusal::Length, "Lc not 24"),
    no(CompleteTransaction, 0x6982, Refusal::NoChannel, "no channel"),
    no(CompleteTransaction, 0x6982, Refusal::Mac, "wrong C-MAC"),
    no(CompleteTransaction, 0x6985, Refusal::Unpersonalized, "not personalized"),
    no(CompleteTransaction, 0x6985, Refusal::Sequence, "not directly after INITIALIZE TRANSACTION"),
    done(CompleteTransaction, "identifier, number, operational status, R-MAC"),

    no(GetData, 0x6985, Refusal::NotSelected, "not selected"),
    no(GetData, 0x6A86, Refusal::Parameters, "P1 not 02, or an unknown tag"),
    no(GetData, 0x6700, Refusal::Length, "data present"),
    done(GetData, "length, value"),

    no(PutData, 0x6985, Refusal::NotSelected, "not selected"),
    no(PutData, 0x6A86, Refusal::Parameters, "P1 not 02, or an unknown tag"),
    no(PutData, 0x6700, Refusal::Length, "Lc under 8"),
    no(PutData, 0x6982, Refusal::NoChannel, "no channel"),
    no(PutData, 0x6982, Refusal::Mac, "wrong C-MAC"),
    no(PutData, 0x6985, Refusal::Unpersonalized, "not personalized"),
    no(PutData, 0x6A81, Refusal::Feature, "state variable, identifier, or currency with balance above 0"),
    no(PutData, 0x6982, Refusal::Access, "channel of set 1 or 2"),
    no(PutData, 0x6A80, Refusal::Data, "length or range, balance or number above the new maximum"),
    done(PutData, "the datum is stored"),

    no(ReadRecord, 0x6985, Refusal::NotSelected, "not selected"),
    no(ReadRecord, 0x6A86, Refusal::Parameters, "P2 not 04"),
    no(ReadRecord, 0x6A83, Refusal::NoRecord, "P1 not 1 to log size"),
    no(ReadRecord, 0x6700, Refusal::Length, "data present"),
    done(ReadRecord, "the record"),
];
