//! Triple DES over byte strings: ECB, CBC, the padding and the signature. ECB and CBC work in
//! place on the whole blocks; bytes after the last whole block stay as they are.

use crate::des::TripleDes;

/// Bytes of a block.
pub const BLOCK: usize = 8;

pub fn ecb_encipher(cipher: &TripleDes, text: &mut [u8]) {
    for block in text.chunks_exact_mut(BLOCK) {
        store(block, cipher.encipher(load(block)));
    }
}

pub fn ecb_decipher(cipher: &TripleDes, text: &mut [u8]) {
    for block in text.chunks_exact_mut(BLOCK) {
        store(block, cipher.decipher(load(block)));
    }
}

pub fn cbc_encipher(cipher: &TripleDes, start: &[u8; BLOCK], text: &mut [u8]) {
    let mut chain = load(start);
    for block in text.chunks_exact_mut(BLOCK) {
        chain = cipher.encipher(load(block) ^ chain);
        store(block, chain);
    }
}

pub fn cbc_decipher(cipher: &TripleDes, start: &[u8; BLOCK], text: &mut [u8]) {
    let mut chain = load(start);
    for block in text.chunks_exact_mut(BLOCK) {
        let enciphered = load(block);
        store(block, cipher.decipher(enciphered) ^ chain);
        chain = enciphered;
    }
}

/// The text, 80, then zeros to a multiple of 8. At least the 80 is always added.
pub fn pad(text: &[u8]) -> Vec<u8> {
    let mut padded = text.to_vec();
    padded.push(0x80);
    padded.resize(padded.len().next_multiple_of(BLOCK), 0);
    padded
}

/// The last block of triple-DES CBC over the padded text.
pub fn signature(cipher: &TripleDes, start: &[u8; BLOCK], text: &[u8]) -> [u8; BLOCK] {
    let chain = pad(text)
        .chunks_exact(BLOCK)
        .fold(load(start), |chain, block| {
            cipher.encipher(load(block) ^ chain)
        });
    chain.to_be_bytes()
}

/// The number that a block's bytes are, highest first.
fn load(block: &[u8]) -> u64 {
    block
        .iter()
        .fold(0, |word, &byte| word << 8 | u64::from(byte))
}

fn store(block: &mut [u8], word: u64) {
    block.copy_from_slice(&word.to_be_bytes());
}
