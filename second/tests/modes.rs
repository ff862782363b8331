//! ECB, CBC, padding and signature against published answers, and laws of the modes.

use second::des::TripleDes;
use second::hex;
use second::known::{self, KnownText};
use second::modes::{
    cbc_decipher, cbc_encipher, ecb_decipher, ecb_encipher, pad, signature, BLOCK,
};
use second::random::Random;

fn bytes(digits: &str) -> Vec<u8> {
    hex::decode(digits.as_bytes()).expect("hex digits")
}

fn block(digits: &str) -> [u8; BLOCK] {
    bytes(digits).try_into().expect("8 bytes")
}

fn cipher(key: &str) -> TripleDes {
    TripleDes::new(&bytes(key).try_into().expect("16 bytes"))
}

/// Both directions of the test's mode, with `tail` behind the text.
fn check(test: &KnownText, tail: &[u8]) {
    let cipher = cipher(test.key);
    let plain = [&bytes(test.plain), tail].concat();
    let enciphered = [&bytes(test.cipher), tail].concat();
    let mut text = plain.clone();
    match test.start {
        Some(start) => cbc_encipher(&cipher, &block(start), &mut text),
        None => ecb_encipher(&cipher, &mut text),
    }
    assert_eq!(text, enciphered);
    match test.start {
        Some(start) => cbc_decipher(&cipher, &block(start), &mut text),
        None => ecb_decipher(&cipher, &mut text),
    }
    assert_eq!(text, plain);
}

#[test]
fn published_texts() {
    for test in known::FIPS_81.iter().chain(&known::TWO_KEYS) {
        check(test, &[]);
    }
}

#[test]
fn bytes_after_the_last_whole_block_stay() {
    let tail = [0x01, 0x80, 0xFF, 0x00, 0x55, 0xAA, 0x10];
    for test in known::FIPS_81.iter().chain(&known::TWO_KEYS) {
        for length in 1..=tail.len() {
            check(test, &tail[..length]);
        }
    }
}

#[test]
fn texts_under_a_block_stay() {
    let cipher = cipher("0123456789ABCDEF23456789ABCDEF01");
    for length in 0..BLOCK {
        let plain = vec![0x5A; length];
        let mut text = plain.clone();
        ecb_encipher(&cipher, &mut text);
        ecb_decipher(&cipher, &mut text);
        cbc_encipher(&cipher, &[1; BLOCK], &mut text);
        cbc_decipher(&cipher, &[2; BLOCK], &mut text);
        assert_eq!(text, plain);
    }
}

#[test]
fn decipher_undoes_encipher() {
    let mut random = Random::new(2);
    for length in 0..100 {
        let key = hex::encode(&random.bytes(16));
        let start = block(&hex::encode(&random.bytes(BLOCK)));
        let plain = random.bytes(length);
        let mut text = plain.clone();
        ecb_encipher(&cipher(&key), &mut text);
        cbc_encipher(&cipher(&key), &start, &mut text);
        cbc_decipher(&cipher(&key), &start, &mut text);
        ecb_decipher(&cipher(&key), &mut text);
        assert_eq!(text, plain);
    }
}

#[test]
fn padding_written_out() {
    assert_eq!(pad(&[]), bytes("8000000000000000"));
    assert_eq!(pad(&bytes("01")), bytes("0180000000000000"));
    assert_eq!(pad(&bytes("010203040506")), bytes("0102030405068000"));
    assert_eq!(pad(&bytes("01020304050607")), bytes("0102030405060780"));
    assert_eq!(
        pad(&bytes("0102030405060708")),
        bytes("01020304050607088000000000000000")
    );
    assert_eq!(
        pad(&bytes("010203040506070880")),
        bytes("01020304050607088080000000000000")
    );
}

#[test]
fn padding_adds_one_to_eight_bytes() {
    for length in 0..=64 {
        let text = vec![0xFF; length];
        let padded = pad(&text);
        assert_eq!(padded.len(), (length / BLOCK + 1) * BLOCK);
        assert_eq!(padded[..length], text);
        assert_eq!(padded[length], 0x80);
        assert!(padded[length + 1..].iter().all(|&byte| byte == 0));
    }
}

/// From the start that is a published block with its first bit changed, the empty text's padding
/// makes that block, and the signature is its published result.
#[test]
fn signatures_of_the_empty_text() {
    for test in known::blocks() {
        let key = format!("{:016X}", test.key).repeat(2);
        let start = (test.plain ^ 1 << 63).to_be_bytes();
        let expected = test.cipher.to_be_bytes();
        assert_eq!(signature(&cipher(&key), &start, &[]), expected);
    }
}

/// Two blocks, chained by published answers: the first gives 95F8A5E5DD31D900, which the text
/// and the padding's 80 turn into the block 0000000000000080.
#[test]
fn signature_of_two_published_blocks() {
    let zero_key = cipher("01010101010101010101010101010101");
    let text = bytes("800000000000000095F8A5E5DD31D9");
    let expected = block("2FBC291A570DB5C4");
    assert_eq!(signature(&zero_key, &[0; BLOCK], &text), expected);
}

/// Signatures computed with OpenSSL.
#[test]
fn signatures_under_two_keys() {
    let cipher = cipher("0123456789ABCDEF23456789ABCDEF01");
    let text = b"Now is the time for all good men";
    let answers = [
        (0, "D9AABDCDE439B292"),
        (1, "052BE663DEC46637"),
        (7, "064E0AEB66EAADC8"),
        (8, "E271872879E7087C"),
        (15, "77848AF8EBCBD2A1"),
        (16, "3C016C0D60860FD7"),
        (20, "6D196001489BBFCE"),
        (24, "822E96ECACA72318"),
        (32, "3AB1FCA6C39998D7"),
    ];
    for (length, expected) in answers {
        let signed = signature(&cipher, &block("F69F2445DF4F9B17"), &text[..length]);
        assert_eq!(hex::encode(&signed), expected, "length {length}");
    }
}
