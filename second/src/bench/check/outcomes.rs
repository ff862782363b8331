//! Every line that 01 allows for a call in a state, with the state behind it.

use super::state::State;
use crate::bench::file::{Call, NO_LIMIT};
use crate::bench::line::Line;
use crate::purse::instruction::Instruction;
use crate::purse::{respond, Block, Card, Verdict};

/// A possible line, the state behind it, and the verdict of a finished command.
#[derive(Clone, Debug, PartialEq, Eq)]
pub struct Step {
    pub line: Line,
    pub state: State,
    pub verdict: Option<Verdict>,
}

pub fn outcomes(state: &State, call: &Call) -> Vec<Step> {
    match call {
        Call::Install { limit, data } => install(state, *limit, data),
        Call::Start { limit } => start(state, *limit),
        Call::Command {
            limit,
            random,
            command,
        } => run_command(state, *limit, random, command),
    }
}

/// A run that changes what memory holds can't finish at limit 0.
fn can_finish(limit: u16, changes: bool) -> bool {
    limit > 0 || !changes
}

fn can_be_cut(limit: u16) -> bool {
    limit < NO_LIMIT
}

fn install(state: &State, limit: u16, data: &[u8]) -> Vec<Step> {
    let Some(fresh) = Card::install(data) else {
        return vec![step(Line::Install(6), state.clone())];
    };
    let fresh = Some(fresh);
    let changes = state.due || state.card != fresh;
    let mut steps = Vec::new();
    if can_finish(limit, changes) {
        steps.push(step(Line::Install(0), State::unselected(fresh.clone())));
    }
    if can_be_cut(limit) {
        let readings = vec![state.card.clone(), None, fresh];
        steps.extend(cut(state, limit, readings, Line::Install(7)));
    }
    steps
}

/// Only a start-up that is due makes stores.
fn start(state: &State, limit: u16) -> Vec<Step> {
    if state.card.is_none() {
        return vec![step(Line::Start(2), state.clone())];
    }
    let mut steps = Vec::new();
    if can_finish(limit, state.due) {
        let ended = State::unselected(state.card.clone());
        steps.push(step(Line::Start(0), ended));
    }
    if can_be_cut(limit) && state.due {
        let readings = vec![state.card.clone()];
        steps.extend(cut(state, limit, readings, Line::Start(7)));
    }
    steps
}

fn run_command(state: &State, limit: u16, random: &Block, command: &[u8]) -> Vec<Step> {
    let Some(card) = &state.card else {
        return vec![step(Line::Command(2), state.clone())];
    };
    if state.due {
        return vec![step(Line::Command(5), state.clone())];
    }
    let outcome = respond(card, &state.session, command, random);
    let mut steps = Vec::new();
    if outcome.verdict.may_store() && can_be_cut(limit) {
        let readings = cut_readings(card, &outcome.card, outcome.verdict);
        steps.extend(cut(state, limit, readings, Line::Command(7)));
    }
    if can_finish(limit, outcome.card != *card) {
        let state = State {
            card: Some(outcome.card),
            session: outcome.session,
            due: false,
        };
        steps.push(Step {
            line: Line::Response(outcome.response),
            state,
            verdict: Some(outcome.verdict),
        });
    }
    steps
}

/// As before, as after, and for VERIFY PIN as before with one try fewer.
fn cut_readings(before: &Card, after: &Card, verdict: Verdict) -> Vec<Option<Card>> {
    let mut readings = vec![Some(before.clone()), Some(after.clone())];
    if verdict.instruction == Some(Instruction::VerifyPin) {
        let mut fewer = before.clone();
        fewer.tries -= 1;
        readings.push(Some(fewer));
    }
    readings
}

/// Limit 0 leaves memory untouched.
fn cut(state: &State, limit: u16, readings: Vec<Option<Card>>, line: Line) -> Vec<Step> {
    let states = if limit == 0 {
        vec![state.untouched()]
    } else {
        State::after_cut(readings)
    };
    let steps = states.into_iter().map(|state| step(line.clone(), state));
    steps.collect()
}

fn step(line: Line, state: State) -> Step {
    Step {
        line,
        state,
        verdict: None,
    }
}
