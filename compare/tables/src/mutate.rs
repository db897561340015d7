//! Faults in a list of tokens.

use crate::{rng::Rng, token::*, words};

/// Some token with a good payload; the kinds that matter more come more often.
pub fn any_token(rng: &mut Rng) -> Tok {
    let kind = match rng.below(4) {
        0 => *rng.pick(&[
            COMMENT,
            STRUCT,
            LEFT_CURLY,
            RIGHT_CURLY,
            DELETED,
            DOT,
            IDENTIFIER,
            INTEGER,
        ]),
        _ => rng.between(1, 25) as u16,
    };
    of_kind(rng, kind)
}

pub fn of_kind(rng: &mut Rng, kind: u16) -> Tok {
    let payload = match kind {
        IDENTIFIER => words::name(rng),
        PATH => words::path(rng),
        INTEGER => words::integer(rng).to_le_bytes().to_vec(),
        COMMENT => return Tok::comment(&words::paragraphs(rng, false)),
        _ => vec![],
    };
    Tok::with(kind, payload)
}

/// One to a few faults. Places stay as they are, or zero for new tokens; lay
/// them again for a table that is not refused for them.
pub fn mutate(rng: &mut Rng, tokens: &mut Vec<Tok>) {
    let faults = 1 + rng.below(10) / 6 + rng.below(10) / 8;
    for _ in 0..faults {
        one_fault(rng, tokens);
    }
}

fn one_fault(rng: &mut Rng, tokens: &mut Vec<Tok>) {
    if tokens.is_empty() {
        tokens.push(any_token(rng));
        return;
    }
    let at = rng.below(tokens.len());
    match rng.below(12) {
        0..=2 => {
            tokens.remove(at);
        }
        3..=4 => tokens.insert(at, any_token(rng)),
        5 => tokens.push(any_token(rng)),
        6 => {
            let other = rng.below(tokens.len());
            tokens.swap(at, other);
        }
        7 => {
            let other = (at + 1).min(tokens.len() - 1);
            tokens.swap(at, other);
        }
        8 => tokens.insert(at, tokens[at].clone()),
        9 => tokens[at] = any_token(rng),
        10 => tokens.truncate(at),
        _ => {
            tokens.drain(..at);
        }
    }
}

/// A payload that its kind does not allow.
pub fn spoil_payload(rng: &mut Rng, tokens: &mut [Tok]) {
    if tokens.is_empty() {
        return;
    }
    let at = rng.below(tokens.len());
    let token = &mut tokens[at];
    token.payload = match token.kind {
        IDENTIFIER => words::bad_name(rng),
        PATH => words::bad_path(rng),
        INTEGER => vec![0; *rng.pick(&[0, 1, 7, 9])],
        COMMENT => words::bad_comment(rng),
        _ => vec![rng.byte()],
    };
}

/// A place out of order, or just not.
pub fn spoil_place(rng: &mut Rng, tokens: &mut [Tok]) {
    if tokens.is_empty() {
        return;
    }
    let at = rng.below(tokens.len());
    let before = if at == 0 { 0 } else { tokens[at - 1].end };
    let token = &mut tokens[at];
    match rng.below(5) {
        0 => token.start = before.wrapping_sub(1),
        1 => token.start = token.end.wrapping_add(1),
        2 => token.end = token.start.wrapping_sub(1),
        3 => token.start = before,
        _ => token.end = u32::MAX,
    }
}
