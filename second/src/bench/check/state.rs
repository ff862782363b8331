//! What may hold between two calls.

use crate::purse::{Card, Session};

#[derive(Clone, Debug, Default, PartialEq, Eq)]
pub struct State {
    /// What memory reads as.
    pub card: Option<Card>,
    pub session: Session,
    /// Does memory await a start-up?
    pub due: bool,
}

impl State {
    /// After a finished installation or start-up: nothing is awaited.
    pub fn unselected(card: Option<Card>) -> State {
        State {
            card,
            ..State::default()
        }
    }

    /// A cut that made no store.
    pub fn untouched(&self) -> State {
        State {
            session: Session::default(),
            ..self.clone()
        }
    }

    /// Memory reads as one of these after a cut, and may await a start-up if it is a card.
    pub fn after_cut(readings: Vec<Option<Card>>) -> Vec<State> {
        let mut states: Vec<State> = Vec::new();
        for card in readings {
            let due = State {
                due: true,
                ..State::unselected(card.clone())
            };
            let is_card = card.is_some();
            states.push(State::unselected(card));
            states.extend(is_card.then_some(due));
        }
        states
    }
}
