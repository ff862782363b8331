//! The fields of a response with 9000.

use super::fields::{show, split, Field, Form, OPERATIONAL_STATUS};
use super::request::value_form;
use crate::bench::file::Call;
use crate::purse::instruction::Instruction;

const IDENTIFIER: Field = Field("identifier", 4, Form::Hex);
const R_MAC: Field = Field("R-MAC", 8, Form::Hex);

pub fn fields(call: &Call, instruction: Option<Instruction>, response: &[u8]) -> Vec<String> {
    let data = &response[..response.len() - 2];
    match instruction {
        Some(Instruction::Select) => {
            let status = Field("administrative status", 1, Form::AdministrativeStatus);
            let mut fields = vec![IDENTIFIER, status];
            fields.extend(OPERATIONAL_STATUS);
            split(data, &fields)
        }
        Some(Instruction::InitializeUpdate) => split(data, &update()),
        Some(Instruction::InitializeTransaction) => split(data, &beginning(data.len())),
        Some(Instruction::CompleteTransaction) => {
            let mut fields = vec![IDENTIFIER, Field("transaction number", 2, Form::Number)];
            fields.extend(OPERATIONAL_STATUS);
            fields.push(R_MAC);
            split(data, &fields)
        }
        Some(Instruction::GetData) => value(call, data),
        Some(Instruction::ReadRecord) => record(data),
        _ => Vec::new(),
    }
}

fn update() -> [Field; 5] {
    [
        Field("ten zeros", 10, Form::Hex),
        Field("key set", 1, Form::KeySet),
        Field("protocol", 1, Form::Hex),
        Field("card challenge", 8, Form::Hex),
        Field("card cryptogram", 8, Form::Hex),
    ]
}

/// Bank information is there if the answer is longer.
fn beginning(length: usize) -> Vec<Field> {
    if length > 12 {
        let bank = Field("bank information, enciphered", 16, Form::Hex);
        vec![IDENTIFIER, bank, R_MAC]
    } else {
        vec![IDENTIFIER, R_MAC]
    }
}

fn value(call: &Call, data: &[u8]) -> Vec<String> {
    let tag = match call {
        Call::Command { command, .. } => command.get(3).copied().unwrap_or_default(),
        _ => 0,
    };
    match data {
        [0, ..] => vec!["undefined".to_string()],
        [_, value @ ..] => vec![show("value", value, value_form(tag))],
        [] => Vec::new(),
    }
}

fn record(data: &[u8]) -> Vec<String> {
    if data.iter().all(|&byte| byte == 0) {
        return vec!["void".to_string()];
    }
    let fields = [
        Field("transaction number", 2, Form::Number),
        Field("currency", 2, Form::Hex),
        Field("amount", 2, Form::Amount),
        Field("new balance", 2, Form::Number),
        Field("context", 16, Form::Hex),
        Field("by key set", 1, Form::KeySet),
    ];
    split(data, &fields)
}
