//! The checker for files with cuts: it follows every state that the printed lines allow.
//!
//! A run that may store can finish or, below the limit FFFF, be cut. A cut command leaves the card
//! as before or as after, VERIFY PIN also as before with one try fewer; a cut installation leaves
//! it as before, as no card or as the fresh card. A cut at limit 0 leaves it as it was. Memory may
//! await a start-up only after a cut.

mod outcomes;
mod state;

use std::fmt;

use super::file::{BenchFile, Call};
use super::line::Line;
pub use outcomes::{outcomes, Step};
pub use state::State;

/// Most states to follow at once.
const MOST_STATES: usize = 4096;

/// Counts of an accepted file.
#[derive(Clone, Copy, Debug, Default, PartialEq, Eq)]
pub struct Summary {
    pub calls: usize,
    pub finished: usize,
    pub cut: usize,
    pub refused: usize,
    pub malformed: bool,
    /// Most states that were possible at once.
    pub states: usize,
}

/// The first line that no possible state allows.
#[derive(Clone, Debug, PartialEq, Eq)]
pub struct Rejection {
    /// From 1.
    pub line: usize,
    pub text: String,
    pub reason: String,
}

/// Every state that is possible after the lines so far.
pub struct Checker {
    states: Vec<State>,
    pub summary: Summary,
}

impl Default for Checker {
    fn default() -> Checker {
        Checker {
            states: vec![State::default()],
            summary: Summary::default(),
        }
    }
}

/// Does some run of 01 print these lines for this file?
pub fn check(file: &BenchFile, output: &str) -> Result<Summary, Rejection> {
    let mut checker = Checker::default();
    let mut lines = output.split_terminator('\n');
    for (place, call) in file.calls.iter().enumerate() {
        let text = lines.next();
        let reject = |reason| rejection(place + 1, text, reason);
        checker.follow(call, text).map_err(reject)?;
    }
    let mut number = file.calls.len();
    if file.malformed {
        number += 1;
        expect(lines.next(), Some("X"), number)?;
        checker.summary.malformed = true;
    }
    expect(lines.next(), None, number + 1)?;
    if !output.is_empty() && !output.ends_with('\n') {
        let reason = "the last line has no end".to_string();
        return Err(rejection(number, output.split('\n').next_back(), reason));
    }
    Ok(checker.summary)
}

impl Checker {
    /// Takes a call and the line printed for it, and gives the step that explains it.
    pub fn follow(&mut self, call: &Call, text: Option<&str>) -> Result<Step, String> {
        let steps: Vec<Step> = self
            .states
            .iter()
            .flat_map(|state| outcomes(state, call))
            .collect();
        let allows = |step: &&Step| Some(step.line.to_string().as_str()) == text;
        let Some(first) = steps.iter().find(allows).cloned() else {
            return Err(allowed(&steps));
        };
        let mut states: Vec<State> = Vec::new();
        for step in steps {
            if step.line == first.line && !states.contains(&step.state) {
                states.push(step.state);
            }
        }
        if states.len() > MOST_STATES {
            return Err(format!("over {MOST_STATES} states are possible"));
        }
        self.states = states;
        self.count(&first.line);
        Ok(first)
    }

    fn count(&mut self, line: &Line) {
        let summary = &mut self.summary;
        summary.calls += 1;
        summary.states = summary.states.max(self.states.len());
        match line {
            Line::Install(0) | Line::Start(0) | Line::Response(_) => summary.finished += 1,
            Line::Install(7) | Line::Start(7) | Line::Command(7) => summary.cut += 1,
            _ => summary.refused += 1,
        }
    }
}

/// What the possible states allow, each line once.
fn allowed(steps: &[Step]) -> String {
    let mut lines: Vec<String> = Vec::new();
    for step in steps {
        let line = format!("`{}`", step.line);
        if !lines.contains(&line) {
            lines.push(line);
        }
    }
    format!("01 allows {}", lines.join(" or "))
}

fn expect(line: Option<&str>, wanted: Option<&str>, number: usize) -> Result<(), Rejection> {
    if line == wanted {
        return Ok(());
    }
    let wanted = wanted.map_or("the output to end".to_string(), |text| format!("`{text}`"));
    Err(rejection(number, line, format!("01 has {wanted} here")))
}

fn rejection(line: usize, text: Option<&str>, reason: String) -> Rejection {
    let text = text.map_or("the output ends".to_string(), |text| format!("`{text}`"));
    Rejection { line, text, reason }
}

impl fmt::Display for Rejection {
    fn fmt(&self, output: &mut fmt::Formatter) -> fmt::Result {
        write!(
            output,
            "line {}: {}, but {}",
            self.line, self.text, self.reason
        )
    }
}

impl fmt::Display for Summary {
    fn fmt(&self, output: &mut fmt::Formatter) -> fmt::Result {
        write!(
            output,
            "{} calls: {} finished, {} cut, {} with another answer; at most {} states at once{}",
            self.calls,
            self.finished,
            self.cut,
            self.refused,
            self.states,
            if self.malformed {
                "; malformed at the end"
            } else {
                ""
            }
        )
    }
}
