//! An annotated transcript of a bench file and the lines printed for it, for a person at the
//! bench: commands by name, responses split into fields, refusals with the rule behind them.

mod fields;
mod request;
mod response;

use super::check::{Checker, Step};
use super::file::{BenchFile, Call};
use super::line::Line;
use crate::hex;

/// The whole transcript.
pub fn transcript(file: &BenchFile, output: &str) -> String {
    let mut checker = Some(Checker::default());
    let mut lines = output.split_terminator('\n');
    let mut text = String::new();
    for (place, call) in file.calls.iter().enumerate() {
        let line = lines.next();
        let step = checker.as_mut().map(|checker| checker.follow(call, line));
        if let Some(Err(_)) = step {
            checker = None;
        }
        text += &entry(place + 1, call, line, step.as_ref());
    }
    for line in lines {
        text += &format!("{line}: {}\n", rest_meaning(line, file.malformed));
    }
    text
}

fn rest_meaning(line: &str, malformed: bool) -> &'static str {
    if line == "X" && malformed {
        "the next record is malformed; the bench ends"
    } else {
        "no record of the file asks for this line"
    }
}

/// What one record asked, what was printed and what it means.
fn entry(
    number: usize,
    call: &Call,
    line: Option<&str>,
    step: Option<&Result<Step, String>>,
) -> String {
    let mut text = format!("{number}. {}\n", title(call));
    for field in request::fields(call) {
        text += &format!("     {field}\n");
    }
    let printed = line.unwrap_or("(no line)");
    text += &format!("   {printed}\n");
    let meanings = match step {
        Some(Ok(step)) => explain(call, step),
        Some(Err(reason)) => vec![format!("WRONG: {reason}; what follows is not judged")],
        None => vec!["not judged".to_string()],
    };
    for meaning in meanings {
        text += &format!("     {meaning}\n");
    }
    text
}

fn title(call: &Call) -> String {
    let limit = match call.limit() {
        0xFFFF => String::new(),
        limit => format!(", at most {limit} stores"),
    };
    let name = match call {
        Call::Install { .. } => "installation".to_string(),
        Call::Start { .. } => "start-up".to_string(),
        Call::Command { command, .. } => request::name(command),
    };
    format!("{name}{limit}")
}

/// The answer in words, and a response's fields.
fn explain(call: &Call, step: &Step) -> Vec<String> {
    match (&step.line, step.verdict) {
        (Line::Response(response), Some(verdict)) => {
            let word = verdict.word();
            match verdict.refusal {
                Some(refusal) => vec![format!("refused, {word:04X}: {}", refusal.rule())],
                None => {
                    let mut meanings = vec![format!("done, {word:04X}")];
                    meanings.extend(response::fields(call, verdict.instruction, response));
                    meanings
                }
            }
        }
        (Line::Install(0), _) => vec!["the card is fresh".to_string()],
        (Line::Start(0), _) => vec!["the session is over".to_string()],
        (Line::Install(6), _) => vec![format!("refused: {}", bad_installation(call))],
        (Line::Install(2) | Line::Start(2) | Line::Command(2), _) => {
            vec!["memory reads as no card".to_string()]
        }
        (Line::Command(5), _) => vec!["memory awaits a start-up".to_string()],
        _ => vec!["cut: the limit was reached before the last store".to_string()],
    }
}

fn bad_installation(call: &Call) -> String {
    let data = match call {
        Call::Install { data, .. } => data.as_slice(),
        _ => &[],
    };
    let shown = hex::encode(&data[..data.len().min(20)]);
    format!("a number out of range, too short or too long: {shown}…")
}
