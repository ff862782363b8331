//! A bench file written by hand. Each line is one call; `#` begins a comment.
//!
//! ```text
//! install FFFF AID=A000000151 log=10 tries=3 keys=000102…
//! start FFFF
//! command FFFF 0102030405060708 00A40400 05 A000000151
//! ```
//!
//! The limit comes first, in four hex digits, then a command's random bytes. AID, keys, random
//! bytes and command are hex, which spaces may part in a command; log and tries are decimal. Values
//! may be out of range for the purse, but each fills a byte at most.

use std::fmt;

use super::file::{Call, MOST_DATA};
use crate::hex;

/// What is wrong with a line; lines count from 1.
#[derive(Clone, Debug, PartialEq, Eq)]
pub struct Wrong {
    pub line: usize,
    pub reason: String,
}

/// The bench file of a text.
pub fn assemble(text: &str) -> Result<Vec<u8>, Wrong> {
    let mut file = Vec::new();
    for (place, line) in text.lines().enumerate() {
        let code = line.split('#').next().unwrap_or_default();
        let words: Vec<&str> = code.split_whitespace().collect();
        if words.is_empty() {
            continue;
        }
        let call = call(&words).map_err(|reason| Wrong {
            line: place + 1,
            reason,
        })?;
        file.extend(call.bytes());
    }
    Ok(file)
}

fn call(words: &[&str]) -> Result<Call, String> {
    let call = match words {
        ["install", limit, fields @ ..] => Call::Install {
            limit: number_16(limit)?,
            data: installation(fields)?,
        },
        ["start", limit] => Call::Start {
            limit: number_16(limit)?,
        },
        ["command", limit, random, parts @ ..] => Call::Command {
            limit: number_16(limit)?,
            random: block(random)?,
            command: bytes("the command", &parts.concat())?,
        },
        ["start", ..] => return Err("start takes a limit alone".to_string()),
        ["install" | "command", ..] => return Err("arguments are missing".to_string()),
        [other, ..] => return Err(format!("no such call: {other}")),
        [] => return Err("a call is missing".to_string()),
    };
    if call.bytes().len() > MOST_DATA + 5 {
        return Err(format!("over {MOST_DATA} bytes of data"));
    }
    Ok(call)
}

fn bytes(name: &str, digits: &str) -> Result<Vec<u8>, String> {
    let wrong = || format!("{name} is no even number of hex digits: {digits}");
    hex::decode(digits.as_bytes()).ok_or_else(wrong)
}

fn number_16(digits: &str) -> Result<u16, String> {
    let bytes = bytes("the limit", digits)?;
    let number = bytes.try_into().map(u16::from_be_bytes);
    number.map_err(|_| format!("the limit is not of four hex digits: {digits}"))
}

fn block(digits: &str) -> Result<[u8; 8], String> {
    let bytes = bytes("the random bytes", digits)?;
    let block = bytes.try_into();
    block.map_err(|_| format!("the random bytes are not 8: {digits}"))
}

/// AID length, AID, log size, tries, keys, from named fields in any order.
fn installation(fields: &[&str]) -> Result<Vec<u8>, String> {
    let names = ["AID", "log", "tries", "keys"];
    for field in fields {
        let name = field.split('=').next().unwrap_or_default();
        if !names.contains(&name) {
            return Err(format!("no such field: {field}"));
        }
    }
    let aid = bytes("AID", find(fields, "AID")?)?;
    let length = u8::try_from(aid.len()).map_err(|_| "AID is over 255 bytes".to_string())?;
    let log = number_8("log", find(fields, "log")?)?;
    let tries = number_8("tries", find(fields, "tries")?)?;
    let keys = bytes("keys", find(fields, "keys")?)?;
    Ok([&[length], aid.as_slice(), &[log, tries], &keys].concat())
}

/// The value of the one field of that name.
fn find<'a>(fields: &[&'a str], name: &str) -> Result<&'a str, String> {
    let value = |field: &&'a str| field.strip_prefix(name)?.strip_prefix('=');
    let mut values = fields.iter().filter_map(value);
    match (values.next(), values.next()) {
        (Some(value), None) => Ok(value),
        (None, _) => Err(format!("{name}= is missing")),
        (Some(_), Some(_)) => Err(format!("{name}= is there twice")),
    }
}

fn number_8(name: &str, digits: &str) -> Result<u8, String> {
    let number = digits.parse();
    number.map_err(|_| format!("{name} is not a number from 0 to 255: {digits}"))
}

impl fmt::Display for Wrong {
    fn fmt(&self, output: &mut fmt::Formatter) -> fmt::Result {
        write!(output, "line {}: {}", self.line, self.reason)
    }
}
