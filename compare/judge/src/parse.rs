//! The Rust's parser, and its errors as document 01's records.
//!
//! The Rust tells its errors apart by message alone, so the number is read off
//! the message. The range is the Rust's own. The found kind is that of the
//! token at the range; where several tokens share an empty range, a second
//! parse with ranges that number the tokens decides which one it was.

use crate::{
    answer::init,
    error::{Error, SourceRange},
    kinds::kind_of,
    line_index::LineIndex,
    parser, schema,
    token::{Token, Variant},
};
use std::{
    cell::Cell,
    panic::{self, AssertUnwindSafe},
    path::Path,
};

#[derive(Clone, Copy, Debug, Eq, PartialEq)]
pub struct ErrorRecord {
    pub number: u16,
    pub start: u32,
    pub end: u32,
    pub found: u16,
}

pub enum Parsed {
    Schema(schema::Schema),
    Errors(Vec<ErrorRecord>),
    /// The Rust panics where a comment ends the list and a declaration is due.
    /// Held here is what document 01 puts in its place: the errors before it,
    /// then 18.
    Panicked(Vec<ErrorRecord>),
    /// Any other panic would be a finding.
    Surprise,
}

pub fn parse(tokens: &[Token]) -> Parsed {
    init();
    match caught(tokens) {
        None => after_panic(tokens).map_or(Parsed::Surprise, Parsed::Panicked),
        Some(Ok(schema)) => Parsed::Schema(schema),
        Some(Err(errors)) => Parsed::Errors(records(tokens, &errors)),
    }
}

/// The Rust itself, with no source to make listings from.
pub fn bare(tokens: &[Token]) -> Result<schema::Schema, Vec<Error>> {
    parser::parse(Path::new(""), "", &LineIndex, tokens)
}

thread_local! {
    static PANIC_IS_EXPECTED: Cell<bool> = const { Cell::new(false) };
}

/// Keeps the panics that are answers from being printed, and no others.
pub fn hush_expected_panics() {
    let usual = panic::take_hook();
    panic::set_hook(Box::new(move |info| {
        if !PANIC_IS_EXPECTED.get() {
            usual(info);
        }
    }));
}

fn caught(tokens: &[Token]) -> Option<Result<schema::Schema, Vec<Error>>> {
    PANIC_IS_EXPECTED.set(true);
    let result = panic::catch_unwind(AssertUnwindSafe(|| bare(tokens)));
    PANIC_IS_EXPECTED.set(false);
    result.ok()
}

/// With one token more the Rust does not panic but reports error 1 at it, after
/// the errors that the panic lost.
fn after_panic(tokens: &[Token]) -> Option<Vec<ErrorRecord>> {
    let last = tokens.last()?;
    let Variant::Comment(_) = last.variant else {
        return None;
    };
    let end = last.source_range.end;
    let mut longer = tokens.to_vec();
    longer.push(Token { source_range: SourceRange { start: end, end }, variant: Variant::As });
    let mut errors = records(&longer, &caught(&longer)?.err()?);
    let at_the_added = errors.pop()?;
    if at_the_added.number != 1 || at_the_added.found != 1 {
        return None;
    }
    errors.push(record(18, last.source_range, 0));
    Some(errors)
}

fn record(number: u16, range: SourceRange, found: u16) -> ErrorRecord {
    let narrow = |place| u32::try_from(place).expect("places come from u32");
    ErrorRecord { number, start: narrow(range.start), end: narrow(range.end), found }
}

fn records(tokens: &[Token], errors: &[Error]) -> Vec<ErrorRecord> {
    let mut numbered = None;
    let mut made = Vec::with_capacity(errors.len());
    for (i, error) in errors.iter().enumerate() {
        let range = error.source_range().expect("the parser's errors have ranges");
        let (number, at_end) = number_of(error.message());
        let found = if number > 13 || at_end {
            0
        } else {
            let only = only_token_at(tokens, range);
            let token = only.unwrap_or_else(|| numbered.get_or_insert_with(|| places(tokens))[i]);
            kind_of(&tokens[token].variant)
        };
        made.push(record(number, range, found));
    }
    made
}

/// The number of a message, and whether it speaks of the list's end.
fn number_of(message: &str) -> (u16, bool) {
    if let Some(rest) = message.strip_prefix("Expected ") {
        for (number, expectation) in (1..).zip(EXPECTATIONS) {
            match rest.strip_prefix(expectation) {
                Some(" at the end of the file.") => return (number, true),
                Some(tail) if tail.starts_with(", but encountered ") => return (number, false),
                _ => {}
            }
        }
    }
    for (prefix, number) in OTHER_MESSAGES {
        if message.starts_with(prefix) {
            return (number, false);
        }
    }
    panic!("a message without a number: {message}")
}

/// In the order of their numbers, 1 to 13.
const EXPECTATIONS: [&str; 13] = [
    "a declaration",
    "a name for the struct",
    "a name for the choice",
    "`{`",
    "`}`",
    "the path of a file to import",
    "a name for the import",
    "a field",
    "a type",
    "the name of an import",
    "`]`",
    "`=`",
    "an index for the field",
];

const OTHER_MESSAGES: [(&str, u16); 4] = [
    ("Unable to infer a name for this import.", 14),
    ("An import named ", 15),
    ("Index ", 16),
    ("Unexpected ", 17),
];

/// The token with this range, if there is just one.
fn only_token_at(tokens: &[Token], range: SourceRange) -> Option<usize> {
    let order = |r: SourceRange| (r.start, r.end);
    let at = tokens.partition_point(|token| order(token.source_range) < order(range));
    let same = |i: usize| tokens.get(i).is_some_and(|token| token.source_range == range);
    (same(at) && !same(at + 1)).then_some(at)
}

/// The token of each error, from ranges that count tokens in sixteens. The gap
/// after the first token is kept as the comment rule sees it.
fn places(tokens: &[Token]) -> Vec<usize> {
    let mut counted = tokens.to_vec();
    for (i, token) in counted.iter_mut().enumerate() {
        token.source_range = SourceRange { start: 16 * i, end: 16 * i + 15 };
    }
    if let [first, second, ..] = tokens
        && first.source_range.end + 1 < second.source_range.start
    {
        counted[0].source_range.end = 14;
    }
    let errors = bare(&counted).expect_err("only ranges were changed");
    errors.iter().map(|error| error.source_range().unwrap().start / 16).collect()
}
