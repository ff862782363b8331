//! The secure channel of SCP01: session keys, cryptograms, signatures, and what travels enciphered
//! under the DEK.

use super::card::KeySet;
use super::{Block, Key};
use crate::des::TripleDes;
use crate::modes;

const ZERO: Block = [0; 8];

/// The ENC and MAC keys of a session.
#[derive(Clone, Debug, PartialEq, Eq)]
pub struct SessionKeys {
    pub enc: Key,
    pub mac: Key,
}

/// The two challenges of a session.
#[derive(Clone, Debug, PartialEq, Eq)]
pub struct Challenges {
    pub host: Block,
    pub card: Block,
}

impl SessionKeys {
    /// 01: "S-ENC and S-MAC encrypt, by triple DES in ECB, card challenge bytes 5–8, host
    /// challenge 1–4, card 1–4, host 5–8."
    pub fn derive(keys: &KeySet, challenges: &Challenges) -> SessionKeys {
        let (host, card) = (&challenges.host, &challenges.card);
        let parts = [&card[4..], &host[..4], &card[..4], &host[4..]].concat();
        let derived = |key: &Key| {
            let mut text = [0; 16];
            text.copy_from_slice(&parts);
            modes::ecb_encipher(&TripleDes::new(key), &mut text);
            text
        };
        SessionKeys {
            enc: derived(&keys.enc),
            mac: derived(&keys.mac),
        }
    }

    /// Host challenge, then card challenge.
    pub fn card_cryptogram(&self, challenges: &Challenges) -> Block {
        let text = [challenges.host, challenges.card].concat();
        sign(&self.enc, &ZERO, &text)
    }

    /// Card challenge, then host challenge.
    pub fn host_cryptogram(&self, challenges: &Challenges) -> Block {
        let text = [challenges.card, challenges.host].concat();
        sign(&self.enc, &ZERO, &text)
    }

    /// Over the five header bytes (Lc counting the MAC) and the data before it.
    pub fn command_mac(&self, start: &Block, header: &[u8; 5], data: &[u8]) -> Block {
        let text = [header.as_slice(), data].concat();
        sign(&self.mac, start, &text)
    }

    /// Over this command's C-MAC, the response data, 90 00.
    pub fn response_mac(&self, start: &Block, command: &Block, data: &[u8]) -> Block {
        let text = [command.as_slice(), data, &[0x90, 0x00]].concat();
        sign(&self.mac, start, &text)
    }

    /// VERIFY PIN's block.
    pub fn decipher_pin(&self, block: Block) -> Block {
        decipher(&self.enc, block)
    }

    pub fn encipher_pin(&self, block: Block) -> Block {
        encipher(&self.enc, block)
    }
}

fn sign(key: &Key, start: &Block, text: &[u8]) -> Block {
    modes::signature(&TripleDes::new(key), start, text)
}

/// ECB, as keys and PINs travel.
pub fn decipher<const N: usize>(key: &Key, mut text: [u8; N]) -> [u8; N] {
    modes::ecb_decipher(&TripleDes::new(key), &mut text);
    text
}

pub fn encipher<const N: usize>(key: &Key, mut text: [u8; N]) -> [u8; N] {
    modes::ecb_encipher(&TripleDes::new(key), &mut text);
    text
}

/// CBC with zero start, as bank information travels.
pub fn decipher_bank(dek: &Key, mut text: [u8; 16]) -> [u8; 16] {
    modes::cbc_decipher(&TripleDes::new(dek), &ZERO, &mut text);
    text
}

pub fn encipher_bank(dek: &Key, mut text: [u8; 16]) -> [u8; 16] {
    modes::cbc_encipher(&TripleDes::new(dek), &ZERO, &mut text);
    text
}
