//! The order that decides: steps 1 to 6 of 01, then the command's own rules.

use super::apdu::Apdu;
use super::card::Card;
use super::commands;
use super::instruction::{Instruction, MAC};
use super::session::{Pending, Session};
use super::{Block, Refusal};

/// What a finished command gives.
#[derive(Clone, Debug, PartialEq, Eq)]
pub struct Outcome {
    /// The response data and the status word.
    pub response: Vec<u8>,
    pub card: Card,
    pub session: Session,
    pub verdict: Verdict,
}

/// Which command it was, and whether it was refused.
#[derive(Clone, Copy, Debug, PartialEq, Eq, PartialOrd, Ord)]
pub struct Verdict {
    /// None if step 1 or 2 refuses.
    pub instruction: Option<Instruction>,
    /// None for 9000.
    pub refusal: Option<Refusal>,
}

/// Response data, or why the command is refused.
pub type Answer = Result<Vec<u8>, Refusal>;

/// One command at work: the card and the session as they become.
pub struct Turn<'a> {
    pub card: Card,
    pub session: Session,
    /// What was pending before this command.
    pub pending: Option<Pending>,
    pub random: &'a Block,
    instruction: Option<Instruction>,
}

/// The response of the command, and the card and the session behind it.
pub fn respond(card: &Card, session: &Session, command: &[u8], random: &Block) -> Outcome {
    let mut turn = Turn::new(card, session, random);
    let answer = turn.decide(command);
    let verdict = Verdict {
        instruction: turn.instruction,
        refusal: answer.as_ref().err().copied(),
    };
    let mut response = answer.unwrap_or_default();
    response.extend(verdict.word().to_be_bytes());
    Outcome {
        response,
        card: turn.card,
        session: turn.session,
        verdict,
    }
}

impl Verdict {
    /// The status word.
    pub fn word(self) -> u16 {
        self.refusal.map_or(0x9000, Refusal::word)
    }

    /// May the run make a store? Only such a run can be cut.
    pub fn may_store(self) -> bool {
        match self.instruction {
            Some(Instruction::VerifyPin) => {
                matches!(self.refusal, None | Some(Refusal::WrongPin))
            }
            Some(
                Instruction::PutKey
                | Instruction::PinChange
                | Instruction::StoreData
                | Instruction::CompleteTransaction
                | Instruction::PutData,
            ) => self.refusal.is_none(),
            _ => false,
        }
    }
}

impl<'a> Turn<'a> {
    /// Every command ends what is pending.
    fn new(card: &Card, session: &Session, random: &'a Block) -> Turn<'a> {
        let mut session = session.clone();
        let pending = session.pending.take();
        Turn {
            card: card.clone(),
            session,
            pending,
            random,
            instruction: None,
        }
    }

    fn decide(&mut self, command: &[u8]) -> Answer {
        let apdu = Apdu::read(command)?;
        let instruction = Instruction::of(&apdu)?;
        self.instruction = Some(instruction);
        if instruction != Instruction::Select && !self.session.selected {
            return Err(Refusal::NotSelected);
        }
        if !instruction.takes_parameters(apdu.p1, apdu.p2) {
            return Err(Refusal::Parameters);
        }
        if instruction == Instruction::ReadRecord && self.card.log.get(apdu.p1).is_none() {
            return Err(Refusal::NoRecord);
        }
        if !instruction.takes_length(apdu.data.len()) {
            return Err(Refusal::Length);
        }
        let data = if instruction.is_signed() {
            self.check_mac(&apdu)?
        } else {
            apdu.data
        };
        commands::perform(self, instruction, &Apdu { data, ..apdu })
    }

    /// Step 6: the data before a right C-MAC, which moves the chain on; else the channel closes.
    fn check_mac<'b>(&mut self, apdu: &Apdu<'b>) -> Result<&'b [u8], Refusal> {
        let mut channel = self.session.channel.take().ok_or(Refusal::NoChannel)?;
        let (data, mac) = apdu.data.split_at(apdu.data.len() - MAC);
        let right = channel
            .keys
            .command_mac(&channel.command, &apdu.header(), data);
        if mac != right {
            return Err(Refusal::Mac);
        }
        channel.command = right;
        self.session.channel = Some(channel);
        Ok(data)
    }
}
