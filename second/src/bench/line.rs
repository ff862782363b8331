//! The lines that the bench prints.

use std::fmt;

use super::file::Call;
use crate::hex;

/// A line: I, S or C, the answer, and after C 0 the response; or X.
#[derive(Clone, Debug, PartialEq, Eq)]
pub enum Line {
    Install(u8),
    Start(u8),
    Response(Vec<u8>),
    /// A command with an answer other than 0.
    Command(u8),
    Malformed,
}

impl Line {
    /// The line of an answer other than a response.
    pub fn answer(call: &Call, answer: u8) -> Line {
        match call {
            Call::Install { .. } => Line::Install(answer),
            Call::Start { .. } => Line::Start(answer),
            Call::Command { .. } => Line::Command(answer),
        }
    }

    /// The status word of a response.
    pub fn word(&self) -> Option<u16> {
        match self {
            Line::Response(response) => response.last_chunk().map(|word| u16::from_be_bytes(*word)),
            _ => None,
        }
    }
}

impl fmt::Display for Line {
    fn fmt(&self, output: &mut fmt::Formatter) -> fmt::Result {
        match self {
            Line::Install(answer) => write!(output, "I {answer}"),
            Line::Start(answer) => write!(output, "S {answer}"),
            Line::Response(response) => write!(output, "C 0 {}", hex::encode(response)),
            Line::Command(answer) => write!(output, "C {answer}"),
            Line::Malformed => write!(output, "X"),
        }
    }
}
