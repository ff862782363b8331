//! What a record asks, in words.

use super::fields::{set_words, show, split, Field, Form};
use crate::bench::file::Call;
use crate::hex;
use crate::purse::apdu::Apdu;
use crate::purse::datum::Tag;
use crate::purse::instruction::{Instruction, MAC};

/// The command's name and header; for what is no command, its bytes.
pub fn name(command: &[u8]) -> String {
    let Ok(apdu) = Apdu::read(command) else {
        let shown = hex::encode(&command[..command.len().min(16)]);
        let length = command.len();
        return format!("no command: {length} bytes, {shown}");
    };
    let name = Instruction::of(&apdu).map_or("unknown command", Instruction::name);
    let header = [apdu.class, apdu.instruction, apdu.p1, apdu.p2];
    let header: Vec<String> = header.iter().map(|byte| format!("{byte:02X}")).collect();
    let length = apdu.data.len();
    format!("{name}, {}, {length} bytes of data", header.join(" "))
}

/// The named parts of a record's data.
pub fn fields(call: &Call) -> Vec<String> {
    match call {
        Call::Install { data, .. } => installation(data),
        Call::Start { .. } => Vec::new(),
        Call::Command {
            random, command, ..
        } => {
            let Ok(apdu) = Apdu::read(command) else {
                return Vec::new();
            };
            match Instruction::of(&apdu) {
                Ok(instruction) => command_fields(instruction, &apdu, random),
                Err(_) => Vec::new(),
            }
        }
    }
}

fn installation(data: &[u8]) -> Vec<String> {
    let aid = data.first().map_or(0, |&length| usize::from(length));
    let fields = [
        Field("AID length", 1, Form::Number),
        Field("AID", aid, Form::Hex),
        Field("log size", 1, Form::Number),
        Field("PIN tries", 1, Form::Number),
        Field("S-ENC", 16, Form::Hex),
        Field("S-MAC", 16, Form::Hex),
        Field("DEK", 16, Form::Hex),
    ];
    split(data, &fields)
}

fn command_fields(instruction: Instruction, apdu: &Apdu, random: &[u8]) -> Vec<String> {
    let signed = instruction.is_signed() || instruction == Instruction::ExternalAuthenticate;
    let length = apdu.data.len();
    if !instruction.takes_length(length) {
        return match length {
            0 => Vec::new(),
            _ => vec![show("data", apdu.data, Form::Hex)],
        };
    }
    let (data, mac) = apdu.data.split_at(length - if signed { MAC } else { 0 });
    let mut texts = parameter(instruction, apdu);
    texts.extend(data_fields(instruction, apdu.p2, data));
    if instruction == Instruction::InitializeUpdate {
        texts.push(show("random bytes", random, Form::Hex));
    }
    if signed {
        texts.push(show("C-MAC", mac, Form::Hex));
    }
    texts
}

/// What P1 or P2 chooses.
fn parameter(instruction: Instruction, apdu: &Apdu) -> Vec<String> {
    let tag = |number| Tag::of(number).map_or("unknown tag", Tag::name);
    let text = match (instruction, apdu.p1, apdu.p2) {
        (Instruction::InitializeUpdate, set, _) | (Instruction::PutKey, _, set) => {
            format!("key set {}", set_words(set))
        }
        (Instruction::ExternalAuthenticate, level, _) => format!("security level {level:02X}"),
        (Instruction::InitializeTransaction, 0x00, _) => "debit".to_string(),
        (Instruction::InitializeTransaction, 0x01, _) => "cash credit".to_string(),
        (Instruction::InitializeTransaction, 0x02, _) => "bank credit".to_string(),
        (Instruction::GetData | Instruction::PutData, _, number) => {
            format!("tag {number:02X}, {}", tag(number))
        }
        (Instruction::ReadRecord, number, _) => format!("record {number}"),
        _ => return Vec::new(),
    };
    vec![text]
}

fn data_fields(instruction: Instruction, p2: u8, data: &[u8]) -> Vec<String> {
    let whole = |name| vec![show(name, data, Form::Hex)];
    match instruction {
        Instruction::Select => whole("AID"),
        Instruction::InitializeUpdate => whole("host challenge"),
        Instruction::ExternalAuthenticate => whole("host cryptogram"),
        Instruction::PutKey => whole("three keys under DEK"),
        Instruction::PinChange if data.is_empty() => vec!["unblock".to_string()],
        Instruction::PinChange => whole("PIN under DEK"),
        Instruction::StoreData => tlvs(data),
        Instruction::VerifyPin => whole("PIN under the ENC session key"),
        Instruction::InitializeTransaction => split(
            data,
            &[
                Field("currency", 2, Form::Hex),
                Field("amount", 2, Form::Amount),
            ],
        ),
        Instruction::CompleteTransaction => whole("context"),
        Instruction::PutData => vec![show("value", data, value_form(p2))],
        Instruction::GetData | Instruction::ReadRecord => Vec::new(),
    }
}

/// How the value of a tag reads.
pub fn value_form(tag: u8) -> Form {
    match Tag::of(tag) {
        Some(Tag::Identifier | Tag::Currency | Tag::Bank | Tag::Agent) | None => Form::Hex,
        Some(Tag::Status) => Form::AdministrativeStatus,
        Some(_) => Form::Number,
    }
}

/// One text a TLV; what is past the end is said so.
fn tlvs(mut data: &[u8]) -> Vec<String> {
    let mut texts = Vec::new();
    while let [tag, length, rest @ ..] = data {
        let Some((value, behind)) = rest.split_at_checked(usize::from(*length)) else {
            break;
        };
        let name = Tag::of(*tag).map_or("unknown", Tag::name);
        texts.push(show(&format!("{tag:02X} {name}"), value, value_form(*tag)));
        data = behind;
    }
    if !data.is_empty() {
        texts.push(show("past the end", data, Form::Hex));
    }
    texts
}
