//! Random test lines from a seed: blocks, texts and signatures, and about one malformed line in a
//! hundred.

use std::io::{self, Write};

use super::{hex_field, MAX_LINE, NONE};
use crate::hex;
use crate::modes::BLOCK;
use crate::random::Random;

/// Most whole blocks of a text.
const MOST_BLOCKS: usize = 40;

/// Most bytes of a signed text.
const MOST_SIGNED: usize = 300;

/// The four fields of a test line.
type Fields = [Vec<u8>; 4];

/// Writes tests of at least so many blocks and exactly so many signatures; malformed lines don't
/// count.
pub fn write(seed: u64, blocks: u64, signatures: u64, output: &mut impl Write) -> io::Result<()> {
    let mut random = Random::new(seed);
    let (mut blocks_left, mut signatures_left) = (blocks, signatures);
    while blocks_left > 0 || signatures_left > 0 {
        let signs = blocks_left == 0 || signatures_left > 0 && random.below(7) == 0;
        let fields = if signs {
            signatures_left -= 1;
            signature_test(&mut random)
        } else {
            let (fields, count) = block_test(&mut random);
            blocks_left = blocks_left.saturating_sub(count);
            fields
        };
        write_line(output, &fields.join(&b' '))?;
        if random.below(100) == 0 {
            write_line(output, &malform(&mut random, fields))?;
        }
    }
    Ok(())
}

fn write_line(output: &mut impl Write, line: &[u8]) -> io::Result<()> {
    output.write_all(line)?;
    output.write_all(b"\n")
}

fn signature_test(random: &mut Random) -> Fields {
    let length = random.below(MOST_SIGNED + 1);
    test(random, "SG", 16, true, length)
}

/// A test of a kind other than SG, and the number of its whole blocks.
fn block_test(random: &mut Random) -> (Fields, u64) {
    let kind = random.below(6);
    if kind < 2 {
        return (test(random, ["DE", "DD"][kind], 8, false, BLOCK), 1);
    }
    let count = random.below(MOST_BLOCKS + 1);
    let length = count * BLOCK + random.below(BLOCK);
    let name = ["TE", "TD", "CE", "CD"][kind - 2];
    let fields = test(random, name, 16, kind >= 4, length);
    (fields, count as u64)
}

/// One line in four has digits of mixed case.
fn test(random: &mut Random, kind: &str, key: usize, has_start: bool, text: usize) -> Fields {
    let key = hex::encode(&random.bytes(key));
    let start = if has_start {
        hex::encode(&random.bytes(BLOCK))
    } else {
        NONE.to_string()
    };
    let text = hex_field(&random.bytes(text));
    let mut fields = [kind, &key, &start, &text].map(|field| field.as_bytes().to_vec());
    if random.below(4) == 0 {
        for field in &mut fields[1..] {
            mix_case(random, field);
        }
    }
    fields
}

fn mix_case(random: &mut Random, digits: &mut [u8]) {
    for digit in digits {
        if random.below(2) == 0 {
            digit.make_ascii_lowercase();
        }
    }
}

/// A good line made malformed in one of many ways.
fn malform(random: &mut Random, mut fields: Fields) -> Vec<u8> {
    match random.below(10) {
        0 => return lengthen(random, fields.join(&b' ')),
        1 => return fields[..random.below(4)].join(&b' '),
        2 => insert_space(random, &mut fields),
        3 => spoil_kind(random, &mut fields[0]),
        4 => spoil(random, &mut fields[1]),
        5 => shorten(random, &mut fields[1]),
        6 => exchange_start(&mut fields[2]),
        7 => spoil(random, &mut fields[2]),
        8 => spoil(random, &mut fields[3]),
        _ => shorten(random, &mut fields[3]),
    }
    fields.join(&b' ')
}

/// Digits behind the text until the line is too long by 1 to 100 bytes.
fn lengthen(random: &mut Random, mut line: Vec<u8>) -> Vec<u8> {
    line.resize(MAX_LINE + 1 + random.below(100), b'0');
    line
}

fn insert_space(random: &mut Random, fields: &mut Fields) {
    let field = &mut fields[random.below(4)];
    let place = random.below(field.len() + 1);
    field.insert(place, b' ');
}

/// A kind that there is not: a letter changed to lower case, or one too many.
fn spoil_kind(random: &mut Random, kind: &mut Vec<u8>) {
    match random.below(3) {
        2 => kind.push(b'E'),
        place => kind[place].make_ascii_lowercase(),
    }
}

/// One character changed to a byte that no field has.
fn spoil(random: &mut Random, field: &mut [u8]) {
    let place = random.below(field.len());
    field[place] = loop {
        let byte = random.byte();
        if !byte.is_ascii_hexdigit() && byte != b'-' && byte != b'\n' {
            break byte;
        }
    };
}

fn shorten(random: &mut Random, field: &mut Vec<u8>) {
    field.remove(random.below(field.len()));
}

/// A start where there must be none, or none where there must be one.
fn exchange_start(start: &mut Vec<u8>) {
    *start = if start == NONE.as_bytes() {
        b"0000000000000000".to_vec()
    } else {
        NONE.as_bytes().to_vec()
    };
}
