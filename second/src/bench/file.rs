//! The bench file: records of the mark B5 C3, a kind, a two-byte length, data.

use crate::purse::{word, Block};

pub const MARK: [u8; 2] = [0xB5, 0xC3];

/// Most bytes of a record's data.
pub const MOST_DATA: usize = 512;

/// The limit that no run reaches.
pub const NO_LIMIT: u16 = 0xFFFF;

/// What a record asks for.
#[derive(Clone, Debug, PartialEq, Eq)]
pub enum Call {
    /// Kind 01.
    Install { limit: u16, data: Vec<u8> },
    /// Kind 02.
    Start { limit: u16 },
    /// Kind 03.
    Command {
        limit: u16,
        random: Block,
        command: Vec<u8>,
    },
}

/// A wrong mark or kind, a record cut short, a missing limit or random byte, data after 02's
/// limit, or data over 512 bytes.
#[derive(Clone, Copy, Debug, PartialEq, Eq)]
pub struct Malformed;

/// A file as far as it can be read.
#[derive(Clone, Debug, PartialEq, Eq)]
pub struct BenchFile {
    pub calls: Vec<Call>,
    /// Does a malformed record follow the calls?
    pub malformed: bool,
}

impl BenchFile {
    pub fn read(mut bytes: &[u8]) -> BenchFile {
        let mut calls = Vec::new();
        while !bytes.is_empty() {
            let Ok((call, rest)) = split_call(bytes) else {
                break;
            };
            calls.push(call);
            bytes = rest;
        }
        BenchFile {
            calls,
            malformed: !bytes.is_empty(),
        }
    }
}

/// The first record and the bytes behind it.
fn split_call(bytes: &[u8]) -> Result<(Call, &[u8]), Malformed> {
    let [mark @ .., kind, high, low] = *bytes.first_chunk::<5>().ok_or(Malformed)?;
    let length = usize::from(word([high, low]));
    if mark != MARK || length > MOST_DATA {
        return Err(Malformed);
    }
    let (data, rest) = bytes[5..].split_at_checked(length).ok_or(Malformed)?;
    Ok((Call::read(kind, data)?, rest))
}

impl Call {
    fn read(kind: u8, data: &[u8]) -> Result<Call, Malformed> {
        let (limit, rest) = data.split_first_chunk::<2>().ok_or(Malformed)?;
        let limit = word(*limit);
        match (kind, rest) {
            (0x01, _) => Ok(Call::Install {
                limit,
                data: rest.to_vec(),
            }),
            (0x02, []) => Ok(Call::Start { limit }),
            (0x03, _) => {
                let (random, command) = rest.split_first_chunk::<8>().ok_or(Malformed)?;
                Ok(Call::Command {
                    limit,
                    random: *random,
                    command: command.to_vec(),
                })
            }
            _ => Err(Malformed),
        }
    }

    pub fn limit(&self) -> u16 {
        match *self {
            Call::Install { limit, .. } | Call::Start { limit } | Call::Command { limit, .. } => {
                limit
            }
        }
    }

    /// The whole record.
    pub fn bytes(&self) -> Vec<u8> {
        let limit = self.limit().to_be_bytes();
        match self {
            Call::Install { data, .. } => record(0x01, &[&limit, data]),
            Call::Start { .. } => record(0x02, &[&limit]),
            Call::Command {
                random, command, ..
            } => record(0x03, &[&limit, random, command]),
        }
    }
}

/// A record of any kind and data; the length is of two bytes.
pub fn record(kind: u8, parts: &[&[u8]]) -> Vec<u8> {
    let data = parts.concat();
    let length = (data.len() as u16).to_be_bytes();
    [&MARK, [kind].as_slice(), &length, &data].concat()
}
