//! The twelve commands: step 2 of 01's order, and what steps 4 to 6 ask of each.

use super::apdu::Apdu;
use super::datum::Tag;
use super::Refusal;

#[derive(Clone, Copy, Debug, PartialEq, Eq, PartialOrd, Ord, Hash)]
pub enum Instruction {
    Select,
    InitializeUpdate,
    ExternalAuthenticate,
    PutKey,
    PinChange,
    StoreData,
    VerifyPin,
    InitializeTransaction,
    CompleteTransaction,
    GetData,
    PutData,
    ReadRecord,
}

/// Bytes of a C-MAC.
pub const MAC: usize = 8;

impl Instruction {
    pub const ALL: [Instruction; 12] = [
        Instruction::Select,
        Instruction::InitializeUpdate,
        Instruction::ExternalAuthenticate,
        Instruction::PutKey,
        Instruction::PinChange,
        Instruction::StoreData,
        Instruction::VerifyPin,
        Instruction::InitializeTransaction,
        Instruction::CompleteTransaction,
        Instruction::GetData,
        Instruction::PutData,
        Instruction::ReadRecord,
    ];

    /// 01: "Unknown CLA 6E00; unknown INS, or an INS not of that CLA, 6D00."
    pub fn of(apdu: &Apdu) -> Result<Instruction, Refusal> {
        if !matches!(apdu.class, 0x00 | 0x80 | 0x84 | 0x94) {
            return Err(Refusal::Class);
        }
        let code = (apdu.class, apdu.instruction);
        let mut all = Instruction::ALL.into_iter();
        all.find(|instruction| instruction.code() == code)
            .ok_or(Refusal::Instruction)
    }

    /// CLA and INS.
    pub fn code(self) -> (u8, u8) {
        match self {
            Instruction::Select => (0x00, 0xA4),
            Instruction::InitializeUpdate => (0x80, 0x50),
            Instruction::ExternalAuthenticate => (0x84, 0x82),
            Instruction::PutKey => (0x84, 0xD8),
            Instruction::PinChange => (0x84, 0x24),
            Instruction::StoreData => (0x84, 0xE2),
            Instruction::VerifyPin => (0x94, 0x20),
            Instruction::InitializeTransaction => (0x94, 0x44),
            Instruction::CompleteTransaction => (0x94, 0x46),
            Instruction::GetData => (0x80, 0xCA),
            Instruction::PutData => (0x84, 0xDA),
            Instruction::ReadRecord => (0x00, 0xB2),
        }
    }

    pub fn name(self) -> &'static str {
        match self {
            Instruction::Select => "SELECT",
            Instruction::InitializeUpdate => "INITIALIZE UPDATE",
            Instruction::ExternalAuthenticate => "EXTERNAL AUTHENTICATE",
            Instruction::PutKey => "PUT KEY",
            Instruction::PinChange => "PIN CHANGE/UNBLOCK",
            Instruction::StoreData => "STORE DATA",
            Instruction::VerifyPin => "VERIFY PIN",
            Instruction::InitializeTransaction => "INITIALIZE TRANSACTION",
            Instruction::CompleteTransaction => "COMPLETE TRANSACTION",
            Instruction::GetData => "GET DATA",
            Instruction::PutData => "PUT DATA",
            Instruction::ReadRecord => "READ RECORD",
        }
    }

    /// Step 4, READ RECORD's P1 apart.
    pub fn takes_parameters(self, p1: u8, p2: u8) -> bool {
        match self {
            Instruction::Select => (p1, p2) == (0x04, 0x00),
            Instruction::InitializeUpdate => (1..=3).contains(&p1) && p2 == 0x00,
            Instruction::ExternalAuthenticate => matches!(p1, 0x01 | 0x11) && p2 == 0x00,
            Instruction::PutKey => p1 == 0x00 && (1..=3).contains(&p2),
            Instruction::StoreData => (p1, p2) == (0x80, 0x00),
            Instruction::InitializeTransaction => p1 <= 0x02 && p2 == 0x00,
            Instruction::PinChange | Instruction::VerifyPin | Instruction::CompleteTransaction => {
                (p1, p2) == (0x00, 0x00)
            }
            Instruction::GetData | Instruction::PutData => p1 == 0x02 && Tag::of(p2).is_some(),
            Instruction::ReadRecord => p2 == 0x04,
        }
    }

    /// Step 5: the number of data bytes, a C-MAC included.
    pub fn takes_length(self, length: usize) -> bool {
        match self {
            Instruction::Select => true,
            Instruction::InitializeUpdate | Instruction::VerifyPin => length == 8,
            Instruction::ExternalAuthenticate => length == 8 + MAC,
            Instruction::PutKey => length == 48 + MAC,
            Instruction::PinChange => length == MAC || length == 8 + MAC,
            Instruction::StoreData | Instruction::PutData => length >= MAC,
            Instruction::InitializeTransaction => length == 4 + MAC,
            Instruction::CompleteTransaction => length == 16 + MAC,
            Instruction::GetData | Instruction::ReadRecord => length == 0,
        }
    }

    /// Does step 6 apply?
    pub fn is_signed(self) -> bool {
        matches!(
            self,
            Instruction::PutKey
                | Instruction::PinChange
                | Instruction::StoreData
                | Instruction::InitializeTransaction
                | Instruction::CompleteTransaction
                | Instruction::PutData
        )
    }
}
