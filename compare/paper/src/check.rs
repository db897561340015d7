//! "Tables" and "Numbers that stop a call".

use crate::Refusal;
use tables::token::{COMMENT, IDENTIFIER, INTEGER, LEFT_SQUARE, PATH, Tok};

pub fn tokens(table: &[u8]) -> Result<Vec<Tok>, Refusal> {
    if table.len() > 65_536 {
        return Err((1, 0));
    }
    let mut tokens: Vec<Tok> = vec![];
    let mut at = 0;
    while at != table.len() {
        if tokens.len() == 4_096 {
            return Err((6, at));
        }
        let Some((token, length)) = record(&table[at..]) else {
            return Err((2, at));
        };
        if token.kind < 1 || token.kind > 25 {
            return Err((3, at));
        }
        if !payload_ok(token.kind, &token.payload) {
            return Err((4, at));
        }
        let previous = tokens.last().map_or(0, |token| token.end);
        if token.start > token.end || token.start < previous {
            return Err((5, at));
        }
        tokens.push(token);
        if in_a_row(&tokens) == 65 {
            return Err((7, at));
        }
        at += length;
    }
    Ok(tokens)
}

fn in_a_row(tokens: &[Tok]) -> usize {
    tokens.iter().rev().take_while(|token| token.kind == LEFT_SQUARE).take(65).count()
}

pub fn record(rest: &[u8]) -> Option<(Tok, usize)> {
    if rest.len() < 12 {
        return None;
    }
    let length = number(&rest[..2]) as usize;
    if length < 12 || length > rest.len() {
        return None;
    }
    let token = Tok {
        kind: number(&rest[2..4]) as u16,
        start: number(&rest[4..8]) as u32,
        end: number(&rest[8..12]) as u32,
        payload: rest[12..length].to_vec(),
    };
    Some((token, length))
}

/// A little-endian number of up to eight bytes.
pub fn number(bytes: &[u8]) -> u64 {
    bytes.iter().rev().fold(0, |sum, byte| 256 * sum + u64::from(*byte))
}

fn payload_ok(kind: u16, payload: &[u8]) -> bool {
    match kind {
        IDENTIFIER => identifier_ok(payload),
        PATH => path_ok(payload),
        INTEGER => payload.len() == 8,
        COMMENT => paragraphs(payload).is_some_and(|found| !found.is_empty() && found.len() <= 32),
        _ => payload.is_empty(),
    }
}

fn identifier_ok(name: &[u8]) -> bool {
    let letter = |b: u8| b.is_ascii_lowercase() || b.is_ascii_uppercase();
    !name.is_empty()
        && name.len() <= 128
        && (letter(name[0]) || name[0] == b'_')
        && name.iter().all(|b| letter(*b) || b.is_ascii_digit() || b"_-".contains(b))
}

pub fn path_ok(path: &[u8]) -> bool {
    path.len() <= 128 && printable(path) && !path.contains(&0x27)
}

pub fn name_ok(name: &[u8]) -> bool {
    !name.is_empty() && name.len() <= 128 && printable(name)
}

fn printable(bytes: &[u8]) -> bool {
    bytes.iter().all(|b| *b >= 0x20 && *b <= 0x7E)
}

/// Paragraphs that fill the bytes exactly.
pub fn paragraphs(mut bytes: &[u8]) -> Option<Vec<Vec<u8>>> {
    let mut found = vec![];
    while !bytes.is_empty() {
        let length = number(bytes.get(..2)?) as usize;
        let paragraph = bytes.get(2..2 + length)?;
        if !paragraph_ok(paragraph) {
            return None;
        }
        found.push(paragraph.to_vec());
        bytes = &bytes[2 + length..];
    }
    Some(found)
}

fn paragraph_ok(paragraph: &[u8]) -> bool {
    let words = paragraph.split(|b| *b == b' ');
    paragraph.len() <= 1_024 && printable(paragraph) && words.into_iter().all(|w| !w.is_empty())
}
