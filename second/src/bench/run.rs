//! The bench program where no limit is reached: each run finishes.

use super::file::{BenchFile, Call, NO_LIMIT};
use super::line::Line;
use crate::purse::{respond, Card, Session, Verdict};

/// The bench's card and session: at first no card and the unselected session.
#[derive(Clone, Debug, Default, PartialEq, Eq)]
pub struct Bench {
    pub card: Option<Card>,
    pub session: Session,
}

/// What a call gave: its line, and of a command on a card its verdict.
#[derive(Clone, Debug, PartialEq, Eq)]
pub struct Reply {
    pub line: Line,
    pub verdict: Option<Verdict>,
}

impl Bench {
    /// Runs a call to its end, whatever its limit.
    pub fn call(&mut self, call: &Call) -> Reply {
        match call {
            Call::Install { data, .. } => self.install(data).into(),
            Call::Start { .. } => self.start().into(),
            Call::Command {
                random, command, ..
            } => {
                let Some(card) = &self.card else {
                    return Line::Command(2).into();
                };
                let outcome = respond(card, &self.session, command, random);
                self.card = Some(outcome.card);
                self.session = outcome.session;
                Reply {
                    line: Line::Response(outcome.response),
                    verdict: Some(outcome.verdict),
                }
            }
        }
    }

    fn install(&mut self, data: &[u8]) -> Line {
        let Some(card) = Card::install(data) else {
            return Line::Install(6);
        };
        self.card = Some(card);
        self.session = Session::default();
        Line::Install(0)
    }

    fn start(&mut self) -> Line {
        if self.card.is_none() {
            return Line::Start(2);
        }
        self.session = Session::default();
        Line::Start(0)
    }
}

impl From<Line> for Reply {
    fn from(line: Line) -> Reply {
        Reply {
            line,
            verdict: None,
        }
    }
}

/// A limit that a run may reach, and the number of its record from 1.
#[derive(Clone, Copy, Debug, PartialEq, Eq)]
pub struct Limited {
    pub record: usize,
    pub limit: u16,
}

/// The first limit other than FFFF, if there is one.
pub fn find_limit(file: &BenchFile) -> Option<Limited> {
    let place = file
        .calls
        .iter()
        .position(|call| call.limit() != NO_LIMIT)?;
    Some(Limited {
        record: place + 1,
        limit: file.calls[place].limit(),
    })
}

/// The lines of a file whose limits are all FFFF.
pub fn run(file: &BenchFile) -> Result<Vec<Line>, Limited> {
    match find_limit(file) {
        Some(limited) => Err(limited),
        None => Ok(lines(file, |_| ())),
    }
}

/// The lines of a file where each run finishes; `see` gets every reply.
pub fn lines(file: &BenchFile, mut see: impl FnMut(&Reply)) -> Vec<Line> {
    let mut bench = Bench::default();
    let line = |call: &Call| {
        let reply = bench.call(call);
        see(&reply);
        reply.line
    };
    let mut lines: Vec<Line> = file.calls.iter().map(line).collect();
    lines.extend(file.malformed.then_some(Line::Malformed));
    lines
}
