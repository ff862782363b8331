//! Bytes split into named fields, one text a field.

use crate::hex;
use crate::purse::card::Set;
use crate::purse::word;

/// How a field's bytes read.
#[derive(Clone, Copy)]
pub enum Form {
    Hex,
    Number,
    /// A signed amount.
    Amount,
    AdministrativeStatus,
    KeySet,
}

/// A field of a fixed length.
pub struct Field(pub &'static str, pub usize, pub Form);

/// Remaining transactions, currency, balance, allowed debit, allowed credit.
pub const OPERATIONAL_STATUS: [Field; 5] = [
    Field("remaining transactions", 2, Form::Number),
    Field("currency", 2, Form::Hex),
    Field("balance", 2, Form::Number),
    Field("allowed debit", 2, Form::Number),
    Field("allowed credit", 2, Form::Number),
];

/// The fields in order; bytes that are left over or missing are said so.
pub fn split(bytes: &[u8], fields: &[Field]) -> Vec<String> {
    let mut rest = bytes;
    let mut texts = Vec::new();
    for Field(name, length, form) in fields {
        let Some((value, behind)) = rest.split_at_checked(*length) else {
            texts.push(format!("{name}: missing"));
            break;
        };
        texts.push(show(name, value, *form));
        rest = behind;
    }
    if !rest.is_empty() {
        texts.push(show("left over", rest, Form::Hex));
    }
    texts
}

/// One field: its name, its bytes, and what they mean.
pub fn show(name: &str, value: &[u8], form: Form) -> String {
    let digits = match value {
        [] => "none".to_string(),
        _ => hex::encode(value),
    };
    let number = value
        .iter()
        .fold(0, |number, &byte| number << 8 | u64::from(byte));
    match (form, value) {
        (Form::Hex, _) => format!("{name}: {digits}"),
        (Form::Number, _) => format!("{name}: {digits} = {number}"),
        (Form::Amount, &[high, low]) => {
            let amount = word([high, low]) as i16;
            format!("{name}: {high:02X} {low:02X} = {amount}")
        }
        (Form::AdministrativeStatus, &[status]) => {
            format!("{name}: {digits} = {}", status_words(status))
        }
        (Form::KeySet, &[number]) => format!("{name} {}", set_words(number)),
        _ => format!("{name}: {digits}"),
    }
}

/// A key set: its number, and its name if there is such a set.
pub fn set_words(number: u8) -> String {
    let name = Set::of(number).map_or("unknown", Set::name);
    format!("{number}, {name}")
}

fn status_words(status: u8) -> String {
    let bits = [
        (0x10, "personalized"),
        (0x20, "bank information and PIN"),
        (0x40, "agent"),
        (0x80, "PIN validated"),
    ];
    let set: Vec<&str> = bits
        .into_iter()
        .filter(|(bit, _)| status & bit != 0)
        .map(|(_, name)| name)
        .collect();
    match set.as_slice() {
        [] => "nothing yet".to_string(),
        _ => set.join(", "),
    }
}
