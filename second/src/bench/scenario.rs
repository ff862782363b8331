//! A bench file in the making: a terminal at work on a model of the card, which runs every call to
//! its end.

use super::file::{Call, NO_LIMIT};
use super::line::Line;
use super::run::{Bench, Reply};
use crate::purse::card::{Card, KeySet, Set};
use crate::purse::channel::Challenges;
use crate::purse::instruction::Instruction;
use crate::purse::session::Level;
use crate::purse::{Block, Refusal};
use crate::random::Random;
use crate::terminal::{self, Terminal};

pub struct Scenario {
    /// The records so far.
    pub file: Vec<u8>,
    pub bench: Bench,
    /// The terminal's end of the open channel.
    pub terminal: Option<Terminal>,
    /// Commands so far.
    pub commands: usize,
    /// The limit of the next call alone.
    pub limit: u16,
    pub random: Random,
}

impl Scenario {
    /// The seed decides the challenges.
    pub fn new(seed: u64) -> Scenario {
        Scenario {
            file: Vec::new(),
            bench: Bench::default(),
            terminal: None,
            commands: 0,
            limit: NO_LIMIT,
            random: Random::new(seed),
        }
    }

    fn call(&mut self, call: &Call) -> Reply {
        self.limit = NO_LIMIT;
        self.file.extend(call.bytes());
        let reply = self.bench.call(call);
        if self.bench.session.channel.is_none() {
            self.terminal = None;
        }
        reply
    }

    pub fn install(&mut self, data: &[u8]) -> Reply {
        self.call(&Call::Install {
            limit: self.limit,
            data: data.to_vec(),
        })
    }

    pub fn start(&mut self) -> Reply {
        self.call(&Call::Start { limit: self.limit })
    }

    /// Sends a command with random bytes of its own.
    pub fn send(&mut self, command: &[u8]) -> Reply {
        let random = self.block();
        self.send_with(command, random)
    }

    pub fn send_with(&mut self, command: &[u8], random: Block) -> Reply {
        self.commands += 1;
        self.call(&Call::Command {
            limit: self.limit,
            random,
            command: command.to_vec(),
        })
    }

    pub fn block(&mut self) -> Block {
        self.random.word().to_be_bytes()
    }

    /// The card, or the one of zeros where there is none.
    pub fn card(&self) -> Card {
        let blank = || Card::install(&installation(&[0; 5], 1, 3, &KeySet::default()));
        let card = self.bench.card.clone().or_else(blank);
        card.expect("the blank card's data is in range")
    }

    /// Selects the card's purse.
    pub fn select(&mut self) -> Reply {
        self.send(&terminal::select(&self.card().purse.aid))
    }

    /// INITIALIZE UPDATE, and the terminal's end of the channel that it prepares.
    pub fn initialize_update(&mut self, set: Set, level: Level) -> (Reply, Terminal) {
        let keys = self.card().keys(set).cloned().unwrap_or_default();
        let (host, card) = (self.block(), self.block());
        let challenges = Challenges { host, card };
        let reply = self.send_with(&terminal::initialize_update(set, &host), card);
        (reply, Terminal::new(&keys, set, level, challenges))
    }

    /// Opens a channel with the keys that the model's card has.
    pub fn open(&mut self, set: Set, level: Level) -> Reply {
        let (_, mut end) = self.initialize_update(set, level);
        let command = end.external_authenticate();
        let reply = self.send(&command);
        self.joined(end, &reply);
        reply
    }

    /// After EXTERNAL AUTHENTICATE: the terminal has a channel if the card accepted it.
    pub fn joined(&mut self, end: Terminal, reply: &Reply) {
        if is_done(reply) {
            self.terminal = Some(end);
        }
    }

    /// A signed command in the open channel; where there is none, signed with keys of zeros.
    pub fn signed(&mut self, instruction: Instruction, p1: u8, p2: u8, data: &[u8]) -> Reply {
        let mut end = self.end();
        let command = end.sign(instruction, p1, p2, data);
        self.send_signed(&command, end)
    }

    /// Sends what `end` has signed; the terminal keeps its old chain if no C-MAC was judged.
    pub fn send_signed(&mut self, command: &[u8], mut end: Terminal) -> Reply {
        let reply = self.send(command);
        let refusal = reply.verdict.and_then(|verdict| verdict.refusal);
        let early = refusal.is_some_and(Refusal::is_early);
        if self.terminal.is_some() && !early {
            check_response(&mut end, &reply);
            self.terminal = Some(end);
        }
        reply
    }

    /// The terminal's end of the channel, or a stranger's.
    pub fn end(&self) -> Terminal {
        let stranger = || {
            let challenges = Challenges {
                host: [0; 8],
                card: [0; 8],
            };
            Terminal::new(&KeySet::default(), Set::Admin, Level::Both, challenges)
        };
        self.terminal.clone().unwrap_or_else(stranger)
    }
}

/// The terminal checks the R-MAC of a transaction's answer.
fn check_response(end: &mut Terminal, reply: &Reply) {
    let instruction = reply.verdict.and_then(|verdict| verdict.instruction);
    let sealed = matches!(
        instruction,
        Some(Instruction::InitializeTransaction | Instruction::CompleteTransaction)
    );
    if let (true, true, Line::Response(response)) = (sealed, is_done(reply), &reply.line) {
        assert!(end.accept(response), "the card's R-MAC is wrong");
    }
}

/// Did the command answer 9000?
pub fn is_done(reply: &Reply) -> bool {
    reply.line.word() == Some(0x9000)
}

/// Installation data: AID length, AID, log size, tries, keys.
pub fn installation(aid: &[u8], size: u8, tries: u8, keys: &KeySet) -> Vec<u8> {
    let length = aid.len() as u8;
    [&[length], aid, &[size, tries], &keys.bytes()].concat()
}
