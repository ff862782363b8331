//! The answer to a test line: a result, or the first thing that is malformed in the order line,
//! fields, kind, key, start, text.

use std::io::{self, BufRead, Write};

use super::{hex_field, MAX_LINE, NONE};
use crate::des::{Des, TripleDes};
use crate::hex;
use crate::known::MANY;
use crate::modes::{self, BLOCK};

/// A result, or what is malformed.
type Answer = Result<Vec<u8>, &'static str>;

/// The fields behind the kind.
struct Fields<'a> {
    key: &'a [u8],
    start: &'a [u8],
    text: &'a [u8],
}

/// Answers every line of the input.
pub fn answer_all(mut input: impl BufRead, output: &mut impl Write) -> io::Result<()> {
    let mut line = Vec::new();
    while input.read_until(b'\n', &mut line)? > 0 {
        let content = line.strip_suffix(b"\n").unwrap_or(&line);
        writeln!(output, "{}", answer(content))?;
        line.clear();
    }
    Ok(())
}

/// The answer to a line without its LF.
pub fn answer(line: &[u8]) -> String {
    match result(line) {
        Ok(bytes) => hex_field(&bytes),
        Err(part) => format!("malformed: {part}"),
    }
}

fn result(line: &[u8]) -> Answer {
    if line.len() > MAX_LINE {
        return Err("line");
    }
    let parts: Vec<&[u8]> = line.split(|&byte| byte == b' ').collect();
    let &[kind, key, start, text] = parts.as_slice() else {
        return Err("fields");
    };
    let fields = Fields { key, start, text };
    match kind {
        b"DE" => des(fields, Des::encipher, 1),
        b"DD" => des(fields, Des::decipher, 1),
        b"ME" => des(fields, Des::encipher, MANY),
        b"MD" => des(fields, Des::decipher, MANY),
        b"TE" => ecb(fields, modes::ecb_encipher),
        b"TD" => ecb(fields, modes::ecb_decipher),
        b"CE" => cbc(fields, modes::cbc_encipher),
        b"CD" => cbc(fields, modes::cbc_decipher),
        b"SG" => signature(fields),
        _ => Err("kind"),
    }
}

fn des(fields: Fields, step: fn(&Des, u64) -> u64, times: u32) -> Answer {
    let key = digits(fields.key).ok_or("key")?;
    no_start(fields.start)?;
    let text = digits(fields.text).ok_or("text")?;
    let des = Des::new(u64::from_be_bytes(key));
    let block = (0..times).fold(u64::from_be_bytes(text), |block, _| step(&des, block));
    Ok(block.to_be_bytes().to_vec())
}

fn ecb(fields: Fields, mode: fn(&TripleDes, &mut [u8])) -> Answer {
    let key = digits(fields.key).ok_or("key")?;
    no_start(fields.start)?;
    let mut text = text(fields.text)?;
    mode(&TripleDes::new(&key), &mut text);
    Ok(text)
}

fn cbc(fields: Fields, mode: fn(&TripleDes, &[u8; BLOCK], &mut [u8])) -> Answer {
    let key = digits(fields.key).ok_or("key")?;
    let start = digits(fields.start).ok_or("start")?;
    let mut text = text(fields.text)?;
    mode(&TripleDes::new(&key), &start, &mut text);
    Ok(text)
}

fn signature(fields: Fields) -> Answer {
    let key = digits(fields.key).ok_or("key")?;
    let start = digits(fields.start).ok_or("start")?;
    let text = text(fields.text)?;
    Ok(modes::signature(&TripleDes::new(&key), &start, &text).to_vec())
}

/// A field of exactly `N` bytes in hex.
fn digits<const N: usize>(field: &[u8]) -> Option<[u8; N]> {
    hex::decode(field)?.try_into().ok()
}

fn no_start(field: &[u8]) -> Result<(), &'static str> {
    if field == NONE.as_bytes() {
        Ok(())
    } else {
        Err("start")
    }
}

/// A text of any length; only `-` says the empty one.
fn text(field: &[u8]) -> Answer {
    if field == NONE.as_bytes() {
        return Ok(Vec::new());
    }
    match hex::decode(field) {
        Some(bytes) if !bytes.is_empty() => Ok(bytes),
        _ => Err("text"),
    }
}
