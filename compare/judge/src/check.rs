//! A token table against R1 to R7, in document 01's order, and its tokens.

use crate::{
    answer::Refusal,
    error::SourceRange,
    identifier::Identifier,
    kinds::{COMMENT, IDENTIFIER, INTEGER, LEFT_SQUARE, PATH, bare_variant},
    token::{Token, Variant},
};
use std::path::PathBuf;

const MOST_BYTES: usize = 65_536;
const MOST_TOKENS: usize = 4_096;
const MOST_SQUARES: usize = 64;

pub fn check(table: &[u8]) -> Result<Vec<Token>, Refusal> {
    if table.len() > MOST_BYTES {
        return Err(Refusal { number: 1, offset: 0 });
    }
    let mut tokens: Vec<Token> = vec![];
    let mut squares = 0;
    let mut offset = 0;
    while offset < table.len() {
        let previous_end = tokens.last().map_or(0, |token| token.source_range.end);
        let step = next_token(&table[offset..], tokens.len(), previous_end, &mut squares);
        let (token, length) = step.map_err(|number| Refusal { number, offset })?;
        tokens.push(token);
        offset += length;
    }
    Ok(tokens)
}

fn next_token(
    rest: &[u8],
    count: usize,
    previous_end: usize,
    squares: &mut usize,
) -> Result<(Token, usize), u16> {
    if count == MOST_TOKENS {
        return Err(6);
    }
    let record = cut_record(rest).ok_or(2_u16)?;
    if !(1..=25).contains(&record.kind) {
        return Err(3);
    }
    let variant = variant(record.kind, record.payload).ok_or(4_u16)?;
    if record.start > record.end || record.start < previous_end {
        return Err(5);
    }
    *squares = if record.kind == LEFT_SQUARE { *squares + 1 } else { 0 };
    if *squares > MOST_SQUARES {
        return Err(7);
    }
    let source_range = SourceRange { start: record.start, end: record.end };
    Ok((Token { source_range, variant }, record.length))
}

/// The head and payload that token and schema tables share.
pub struct Record<'a> {
    pub length: usize,
    pub kind: u16,
    pub start: usize,
    pub end: usize,
    pub payload: &'a [u8],
}

pub fn cut_record(rest: &[u8]) -> Option<Record<'_>> {
    let head = rest.first_chunk::<12>()?;
    let length = usize::from(u16::from_le_bytes([head[0], head[1]]));
    if length < 12 || length > rest.len() {
        return None;
    }
    Some(Record {
        length,
        kind: u16::from_le_bytes([head[2], head[3]]),
        start: u32::from_le_bytes([head[4], head[5], head[6], head[7]]) as usize,
        end: u32::from_le_bytes([head[8], head[9], head[10], head[11]]) as usize,
        payload: &rest[12..length],
    })
}

fn variant(kind: u16, payload: &[u8]) -> Option<Variant> {
    match kind {
        IDENTIFIER => identifier(payload).map(Variant::Identifier),
        PATH => path(payload).map(Variant::Path),
        INTEGER => integer(payload).map(Variant::Integer),
        COMMENT => {
            let (paragraphs, rest) = paragraphs(payload, None)?;
            let filled = rest.is_empty() && (1..=32).contains(&paragraphs.len());
            filled.then_some(Variant::Comment(paragraphs))
        }
        _ => bare_variant(kind).filter(|_| payload.is_empty()),
    }
}

fn identifier(payload: &[u8]) -> Option<Identifier> {
    let first = *payload.first()?;
    let shape = payload.len() <= 128
        && (first.is_ascii_alphabetic() || first == b'_')
        && payload.iter().all(|b| b.is_ascii_alphanumeric() || *b == b'_' || *b == b'-');
    shape.then(|| ascii(payload).into())
}

pub fn path(payload: &[u8]) -> Option<PathBuf> {
    let shape = payload.len() <= 128 && payload.iter().all(|b| printable(*b) && *b != 0x27);
    shape.then(|| PathBuf::from(ascii(payload)))
}

fn integer(payload: &[u8]) -> Option<usize> {
    let bytes: [u8; 8] = payload.try_into().ok()?;
    Some(usize::try_from(u64::from_le_bytes(bytes)).expect("integers are 64-bit"))
}

/// The first `count` paragraphs, or as many as there are, and what follows them.
pub fn paragraphs(payload: &[u8], count: Option<usize>) -> Option<(Vec<String>, &[u8])> {
    let mut found = vec![];
    let mut rest = payload;
    while count.map_or(!rest.is_empty(), |count| found.len() < count) {
        let length = usize::from(u16::from_le_bytes(*rest.first_chunk::<2>()?));
        let paragraph = rest[2..].get(..length)?;
        if !is_paragraph(paragraph) {
            return None;
        }
        found.push(ascii(paragraph).to_owned());
        rest = &rest[2 + length..];
    }
    Some((found, rest))
}

fn is_paragraph(bytes: &[u8]) -> bool {
    (1..=1_024).contains(&bytes.len())
        && bytes.iter().all(|b| printable(*b))
        && bytes.first() != Some(&b' ')
        && bytes.last() != Some(&b' ')
        && !bytes.windows(2).any(|pair| pair == b"  ")
}

pub fn printable(byte: u8) -> bool {
    (0x20..=0x7E).contains(&byte)
}

pub fn ascii(bytes: &[u8]) -> &str {
    str::from_utf8(bytes).expect("the bytes were found to be ASCII")
}
