//! Two made-up cards that can be cut, to try the checker on.

use second::bench::check::State;
use second::bench::file::{BenchFile, Call};
use second::bench::line::Line;
use second::purse::instruction::Instruction;
use second::purse::{respond, Block, Card, Outcome, Session};

/// How the card makes a change safe.
#[derive(Clone, Copy, PartialEq)]
pub enum Style {
    /// It writes beside what holds, and one last store makes it hold. Nothing is ever due.
    Shadow,
    /// It writes a journal, then applies it; between, a start-up is due.
    Journal,
}

/// Stores of a change, of its first half, and of a start-up that is due.
const CHANGE: u16 = 60;
const HALF: u16 = 30;
const START: u16 = 20;

/// What such a card prints for a file.
pub fn print(file: &BenchFile, style: Style) -> String {
    let mut state = State::default();
    let mut lines = String::new();
    for call in &file.calls {
        let line = match call {
            Call::Install { limit, data } => install(&mut state, style, *limit, data),
            Call::Start { limit } => start(&mut state, *limit),
            Call::Command {
                limit,
                random,
                command,
            } => run(&mut state, style, *limit, random, command),
        };
        if line == Line::answer(call, 7) {
            state.session = Session::default();
        }
        lines += &format!("{line}\n");
    }
    if file.malformed {
        lines += "X\n";
    }
    lines
}

fn install(state: &mut State, style: Style, limit: u16, data: &[u8]) -> Line {
    let Some(fresh) = Card::install(data) else {
        return Line::Install(6);
    };
    match limit {
        0 => return Line::Install(7),
        1..HALF => *state = State::default(),
        HALF..CHANGE if style == Style::Shadow => *state = State::default(),
        HALF..CHANGE => change(state, fresh, true),
        _ => {
            change(state, fresh, false);
            state.session = Session::default();
            return Line::Install(0);
        }
    }
    Line::Install(7)
}

fn change(state: &mut State, card: Card, due: bool) {
    state.card = Some(card);
    state.due = due;
}

fn start(state: &mut State, limit: u16) -> Line {
    if state.card.is_none() {
        return Line::Start(2);
    }
    if state.due && limit < START {
        return Line::Start(7);
    }
    state.due = false;
    state.session = Session::default();
    Line::Start(0)
}

fn run(state: &mut State, style: Style, limit: u16, random: &Block, command: &[u8]) -> Line {
    let Some(card) = state.card.clone() else {
        return Line::Command(2);
    };
    if state.due {
        return Line::Command(5);
    }
    let outcome = respond(&card, &state.session, command, random);
    if outcome.verdict.may_store() && limit < CHANGE {
        if limit >= HALF {
            cut_late(state, style, &card, outcome);
        }
        return Line::Command(7);
    }
    state.card = Some(outcome.card);
    state.session = outcome.session;
    Line::Response(outcome.response)
}

/// A cut in the second half: a journal holds already; VERIFY PIN has taken its try.
fn cut_late(state: &mut State, style: Style, before: &Card, outcome: Outcome) {
    match (style, outcome.verdict.instruction) {
        (Style::Journal, _) => change(state, outcome.card, true),
        (Style::Shadow, Some(Instruction::VerifyPin)) => {
            let mut fewer = before.clone();
            fewer.tries -= 1;
            change(state, fewer, false);
        }
        (Style::Shadow, _) => (),
    }
}
