//! DES and triple DES of single blocks against published answers, and laws of the cipher.

use second::des::{blocks, Des, TripleDes};
use second::known::{self, Known};
use second::random::Random;

/// The triple-DES key K1, K2.
fn triple(first: u64, second: u64) -> TripleDes {
    let key = u128::from(first) << 64 | u128::from(second);
    TripleDes::new(&key.to_be_bytes())
}

fn check(test: &Known) {
    let des = Des::new(test.key);
    assert_eq!(des.encipher(test.plain), test.cipher);
    assert_eq!(des.decipher(test.cipher), test.plain);
    let triple = triple(test.key, test.key);
    assert_eq!(triple.encipher(test.plain), test.cipher);
    assert_eq!(triple.decipher(test.cipher), test.plain);
}

#[test]
fn tables_are_whole() {
    assert_eq!(known::variable_plaintext().len(), 64);
    assert_eq!(known::inverse_permutation().len(), 64);
    assert_eq!(known::variable_key().len(), 56);
    assert_eq!(known::permutation_operation().len(), 32);
    assert_eq!(known::SUBSTITUTION_TABLE.len(), 19);
    assert_eq!(known::blocks().len(), 235);
}

#[test]
fn variable_keys_are_the_published_ones() {
    let keys: Vec<u64> = known::variable_key().iter().map(|test| test.key).collect();
    assert_eq!(keys[0], 0x8001010101010101);
    assert_eq!(keys[6], 0x0201010101010101);
    assert_eq!(keys[7], 0x0180010101010101);
    assert_eq!(keys[55], 0x0101010101010102);
}

#[test]
fn published_blocks() {
    known::blocks().iter().for_each(check);
}

#[test]
fn rivest_chain() {
    let (first, last) = known::RIVEST_CHAIN;
    let reached = (0..16).fold(first, |value, step| {
        let des = Des::new(value);
        if step % 2 == 0 {
            des.encipher(value)
        } else {
            des.decipher(value)
        }
    });
    assert_eq!(reached, last);
}

#[test]
fn many_fold_chains() {
    for test in known::CHAINS {
        let des = Des::new(test.key);
        let there = (0..known::MANY).fold(test.plain, |block, _| des.encipher(block));
        assert_eq!(there, test.cipher);
        let back = (0..known::MANY).fold(test.cipher, |block, _| des.decipher(block));
        assert_eq!(back, test.plain);
    }
}

#[test]
fn decipher_undoes_encipher() {
    let mut random = Random::new(1);
    for _ in 0..200 {
        let (key, other, block) = (random.word(), random.word(), random.word());
        let des = Des::new(key);
        assert_eq!(des.decipher(des.encipher(block)), block);
        assert_eq!(des.encipher(des.decipher(block)), block);
        let triple = triple(key, other);
        assert_eq!(triple.decipher(triple.encipher(block)), block);
        assert_eq!(triple.encipher(triple.decipher(block)), block);
    }
}

#[test]
fn parity_bits_are_ignored() {
    for test in known::SUBSTITUTION_TABLE {
        for bit in (0..64).step_by(8) {
            let des = Des::new(test.key ^ 1 << bit);
            assert_eq!(des.encipher(test.plain), test.cipher);
            assert_eq!(des.decipher(test.cipher), test.plain);
        }
    }
}

#[test]
fn every_other_key_bit_matters() {
    for test in known::SUBSTITUTION_TABLE {
        for bit in (0..64).filter(|bit| bit % 8 != 0) {
            let des = Des::new(test.key ^ 1 << bit);
            assert_ne!(des.encipher(test.plain), test.cipher);
        }
    }
}

/// The complement of a block under the complement of a key gives the complement.
#[test]
fn complements() {
    for test in known::blocks() {
        let des = Des::new(!test.key);
        assert_eq!(des.encipher(!test.plain), !test.cipher);
    }
}

/// The four weak keys decipher as they encipher.
#[test]
fn weak_keys() {
    let keys = [
        0x0101010101010101,
        0xFEFEFEFEFEFEFEFE,
        0x1F1F1F1F0E0E0E0E,
        0xE0E0E0E0F1F1F1F1,
    ];
    for key in keys {
        let des = Des::new(key);
        let block = 0x0123456789ABCDEF;
        assert_eq!(des.encipher(des.encipher(block)), block);
    }
}

/// A triple-DES block is three DES blocks.
#[test]
fn blocks_are_counted() {
    let before = blocks();
    let cipher = TripleDes::new(&[0x5A; 16]);
    assert_eq!(blocks() - before, 0);
    cipher.decipher(cipher.encipher(0));
    assert_eq!(blocks() - before, 6);
}
