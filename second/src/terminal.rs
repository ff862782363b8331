//! The terminal side: it builds commands, opens channels, signs what it sends and checks the
//! signatures it gets.

use crate::purse::card::{KeySet, Set};
use crate::purse::channel::{self, Challenges, SessionKeys};
use crate::purse::instruction::{Instruction, MAC};
use crate::purse::session::Level;
use crate::purse::{Block, Key};

/// A command without Le. Without data it has four bytes.
pub fn command(instruction: Instruction, p1: u8, p2: u8, data: &[u8]) -> Vec<u8> {
    let (class, code) = instruction.code();
    let mut command = vec![class, code, p1, p2];
    if !data.is_empty() {
        command.push(data.len() as u8);
        command.extend(data);
    }
    command
}

pub fn select(aid: &[u8]) -> Vec<u8> {
    command(Instruction::Select, 0x04, 0x00, aid)
}

pub fn get_data(tag: u8) -> Vec<u8> {
    command(Instruction::GetData, 0x02, tag, &[])
}

pub fn read_record(number: u8) -> Vec<u8> {
    command(Instruction::ReadRecord, number, 0x04, &[])
}

pub fn initialize_update(set: Set, host: &Block) -> Vec<u8> {
    command(Instruction::InitializeUpdate, set as u8, 0x00, host)
}

/// The terminal's end of a channel.
#[derive(Clone, Debug, PartialEq, Eq)]
pub struct Terminal {
    pub set: Set,
    pub level: Level,
    keys: SessionKeys,
    challenges: Challenges,
    /// The last C-MAC sent.
    command: Block,
    /// The last R-MAC got.
    response: Block,
}

impl Terminal {
    pub fn new(keys: &KeySet, set: Set, level: Level, challenges: Challenges) -> Terminal {
        Terminal {
            set,
            level,
            keys: SessionKeys::derive(keys, &challenges),
            challenges,
            command: [0; 8],
            response: [0; 8],
        }
    }

    /// The card cryptogram that INITIALIZE UPDATE must answer.
    pub fn card_cryptogram(&self) -> Block {
        self.keys.card_cryptogram(&self.challenges)
    }

    /// EXTERNAL AUTHENTICATE, the first signed command of the channel.
    pub fn external_authenticate(&mut self) -> Vec<u8> {
        let cryptogram = self.keys.host_cryptogram(&self.challenges);
        let level = self.level as u8;
        self.sign(Instruction::ExternalAuthenticate, level, 0x00, &cryptogram)
    }

    /// A signed command; its C-MAC moves the terminal's chain. The data has at most 247 bytes.
    pub fn sign(&mut self, instruction: Instruction, p1: u8, p2: u8, data: &[u8]) -> Vec<u8> {
        let (class, code) = instruction.code();
        let header = [class, code, p1, p2, (data.len() + MAC) as u8];
        self.command = self.keys.command_mac(&self.command, &header, data);
        [header.as_slice(), data, &self.command].concat()
    }

    /// Is this response of the last signed command rightly signed? A right R-MAC moves the
    /// terminal's chain.
    pub fn accept(&mut self, response: &[u8]) -> bool {
        let Some((data, [mac @ .., 0x90, 0x00])) = response.split_last_chunk::<10>() else {
            return false;
        };
        let right = self.keys.response_mac(&self.response, &self.command, data);
        self.response = right;
        *mac == right
    }

    pub fn verify_pin(&self, block: Block) -> Vec<u8> {
        let enciphered = self.keys.encipher_pin(block);
        command(Instruction::VerifyPin, 0x00, 0x00, &enciphered)
    }
}

/// The three keys as PUT KEY carries them.
pub fn wrap_keys(dek: &Key, keys: &KeySet) -> Vec<u8> {
    [keys.enc, keys.mac, keys.dek]
        .map(|key| channel::encipher(dek, key))
        .concat()
}

/// The block of a PIN of 4 to 12 digits.
pub fn pin_block(digits: &str) -> Block {
    let text = format!("2{:X}{digits:F<14}", digits.len());
    let value = u64::from_str_radix(&text, 16).expect("a PIN of 4 to 12 digits");
    value.to_be_bytes()
}

/// One TLV of STORE DATA.
pub fn tlv(tag: u8, value: &[u8]) -> Vec<u8> {
    [&[tag, value.len() as u8], value].concat()
}
