//! The short form of tokens: a byte for the kind, one for the place, and as many
//! for the payload as it takes.

use tables::token::*;

const NAME_BYTES: &[u8; 64] = b"abcdefghijklmnopqrstuvwxyzABCDEFGHIJKLMNOPQRSTUVWXYZ0123456789_-";

pub fn table_of(input: &[u8]) -> Vec<u8> {
    let mut rest = input.iter().copied();
    let mut at: u32 = 0;
    let mut tokens = vec![];
    while let Some(kind) = rest.next() {
        let kind = 1 + u16::from(kind % 25);
        let place = rest.next().unwrap_or(0x11);
        let mut token = Tok::with(kind, payload(kind, &mut rest));
        token.start = at.saturating_add(u32::from(place & 15));
        token.end = token.start.saturating_add(u32::from(place >> 4));
        at = token.end;
        tokens.push(token);
    }
    table(&tokens)
}

fn payload(kind: u16, rest: &mut impl Iterator<Item = u8>) -> Vec<u8> {
    match kind {
        IDENTIFIER => {
            let mut name = taken(rest, 128, |byte| NAME_BYTES[usize::from(byte % 64)]);
            if name.first().is_none_or(|first| !first.is_ascii_alphabetic() && *first != b'_') {
                name.insert(0, b'a');
            }
            name.truncate(128);
            name
        }
        PATH => taken(rest, 128, |byte| match 0x20 + byte % 0x5F {
            0x27 => b'.',
            printable => printable,
        }),
        INTEGER => integer(rest).to_le_bytes().to_vec(),
        COMMENT => {
            let count = 1 + rest.next().unwrap_or(0) % 4;
            let paragraphs: Vec<Vec<u8>> = (0..count).map(|_| paragraph(rest)).collect();
            Tok::comment(&paragraphs).payload
        }
        _ => vec![],
    }
}

/// A length, and then so many bytes, each turned into an allowed one.
fn taken(rest: &mut impl Iterator<Item = u8>, most: u8, allowed: impl Fn(u8) -> u8) -> Vec<u8> {
    let length = rest.next().unwrap_or(1) % (most + 1);
    rest.take(usize::from(length)).map(allowed).collect()
}

/// Small numbers in one byte; the others in eight.
fn integer(rest: &mut impl Iterator<Item = u8>) -> u64 {
    match rest.next().unwrap_or(0) {
        small @ 0..250 => u64::from(small % 8),
        250 => u64::MAX,
        _ => rest.take(8).fold(0, |sum, byte| sum << 8 | u64::from(byte)),
    }
}

/// Words of the lengths that the bytes give.
fn paragraph(rest: &mut impl Iterator<Item = u8>) -> Vec<u8> {
    let count = 1 + rest.next().unwrap_or(0) % 12;
    let words: Vec<Vec<u8>> =
        (0..count).map(|_| vec![b'w'; 1 + usize::from(rest.next().unwrap_or(0) % 85)]).collect();
    let mut bytes = words.join(&b' ');
    bytes.truncate(1_024);
    bytes
}
