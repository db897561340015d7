//! One table, one answer.

use crate::{
    check::check,
    decode::decode,
    encode::encode,
    parse::{ErrorRecord, Parsed, hush_expected_panics, parse},
    text::{Text, text},
};
use std::{fmt::Write, sync::Once};

/// What `typefmt` lends for each answer.
pub const TYPEFMT_ROOM: usize = 65_536;

#[derive(Clone, Copy, Debug, Eq, PartialEq)]
pub struct Refusal {
    pub number: u16,
    pub offset: usize,
}

#[derive(Clone, Debug, Eq, PartialEq)]
pub enum Answer {
    Refused(Refusal),
    Errors(Vec<ErrorRecord>),
    /// The Rust panicked; these are the errors that document 01 gives instead.
    Panicked(Vec<ErrorRecord>),
    /// The Rust panicked where document 01 foresees none.
    Surprise,
    Schema(Written),
}

#[derive(Clone, Debug, Eq, PartialEq)]
pub struct Written {
    pub table: Vec<u8>,
    pub text: String,
    /// Some lines are wrapped by document 01's rule instead of the Rust's.
    pub long: bool,
}

/// No colour, and no noise from panics that are answers.
pub fn init() {
    static ONCE: Once = Once::new();
    ONCE.call_once(|| {
        colored::control::set_override(false);
        hush_expected_panics();
    });
}

/// The answer to a token table, with room for any answer.
pub fn judge(table: &[u8]) -> Answer {
    let tokens = match check(table) {
        Ok(tokens) => tokens,
        Err(refusal) => return Answer::Refused(refusal),
    };
    match parse(&tokens) {
        Parsed::Errors(errors) => Answer::Errors(errors),
        Parsed::Panicked(errors) => Answer::Panicked(errors),
        Parsed::Surprise => Answer::Surprise,
        Parsed::Schema(schema) => {
            let Text { text, long } = text(&schema);
            Answer::Schema(Written { table: encode(&schema), text, long })
        }
    }
}

/// The text of a schema table, with room for any text.
pub fn judge_schema(table: &[u8]) -> Result<Text, Refusal> {
    decode(table).map(|schema| text(&schema))
}

impl Answer {
    /// The error list as bytes, where there is one.
    pub fn error_bytes(&self) -> Option<Vec<u8>> {
        let (Self::Errors(errors) | Self::Panicked(errors)) = self else {
            return None;
        };
        Some(errors.iter().flat_map(ErrorRecord::bytes).collect())
    }

    /// What `typefmt` prints, but for a first line `PANIC` where the Rust
    /// panicked.
    pub fn printed(&self) -> String {
        match self {
            Self::Refused(refusal) => refusal.line(),
            Self::Errors(errors) => lines(errors),
            Self::Panicked(errors) => format!("PANIC\n{}", lines(errors)),
            Self::Surprise => "PANIC SURPRISE\n".to_owned(),
            Self::Schema(written) => {
                if written.table.len().max(written.text.len()) > TYPEFMT_ROOM {
                    return Refusal { number: 8, offset: 0 }.line();
                }
                written.text.clone()
            }
        }
    }
}

impl Refusal {
    pub fn line(self) -> String {
        format!("R {} {}\n", self.number, self.offset)
    }
}

impl ErrorRecord {
    pub fn bytes(&self) -> Vec<u8> {
        let mut out = Vec::with_capacity(14);
        out.extend(14_u16.to_le_bytes());
        out.extend(self.number.to_le_bytes());
        out.extend(self.start.to_le_bytes());
        out.extend(self.end.to_le_bytes());
        out.extend(self.found.to_le_bytes());
        out
    }
}

fn lines(errors: &[ErrorRecord]) -> String {
    let mut out = String::new();
    for e in errors {
        writeln!(out, "E {} {} {} {}", e.number, e.start, e.end, e.found).unwrap();
    }
    out
}

pub fn typefmt(table: &[u8]) -> String {
    judge(table).printed()
}
