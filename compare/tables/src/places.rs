//! Byte places for tokens: as in a file, and as no file has them.

use crate::{rng::Rng, token::*};

/// Places in order, in one of several ways.
pub fn lay(rng: &mut Rng, tokens: &mut [Tok]) {
    match rng.below(10) {
        0 => spread(tokens, 0, |_| 0, |_| 0),
        1 => spread(tokens, u32::MAX, |_| 0, |_| 0),
        2 => {
            let empty = rng.between(2, 5);
            let mut rng = Rng::new(rng.draw());
            let mut other = Rng::new(rng.draw());
            spread(tokens, 7, |_| u32::from(!rng.one_in(empty)), |_| other.below(3) as u32);
        }
        3 => {
            let step = u32::MAX / (2 * tokens.len() as u32 + 2);
            spread(tokens, step, |_| step, |_| step);
        }
        4 => spread(tokens, 0, text_len, |_| 0),
        5 => {
            // The last token ends at the largest place.
            spread(tokens, 0, text_len, |_| 1);
            let end = tokens.last().map_or(0, |token| token.end);
            shift(tokens, u32::MAX - end);
        }
        6 => {
            let mut rng = Rng::new(rng.draw());
            spread(tokens, 0, text_len, |_| rng.below(4) as u32);
        }
        _ => spread(tokens, 0, text_len, |token| if token.kind == COMMENT { 1 } else { 2 }),
    }
    if rng.one_in(2) {
        gap_after_comment(rng, tokens);
    }
}

/// As in a file with one space or newline between tokens.
pub fn lay_plainly(tokens: &mut [Tok]) {
    spread(tokens, 0, text_len, |_| 1);
}

fn spread(
    tokens: &mut [Tok],
    from: u32,
    mut width: impl FnMut(&Tok) -> u32,
    mut gap: impl FnMut(&Tok) -> u32,
) {
    let mut at = from;
    for token in tokens {
        token.start = at;
        token.end = at.saturating_add(width(token));
        at = token.end.saturating_add(gap(token));
    }
}

fn shift(tokens: &mut [Tok], by: u32) {
    for token in tokens {
        token.start += by;
        token.end += by;
    }
}

/// The comment rule turns on gaps of 0, 1 and 2 after the first token.
fn gap_after_comment(rng: &mut Rng, tokens: &mut [Tok]) {
    let [first, second, ..] = tokens else {
        return;
    };
    if first.kind != COMMENT {
        return;
    }
    let gap = rng.below(4) as u32;
    if second.start >= gap && second.start - gap >= first.start {
        first.end = second.start - gap;
    }
}

fn text_len(token: &Tok) -> u32 {
    let length = match token.kind {
        IDENTIFIER => token.payload.len(),
        PATH => token.payload.len() + 2,
        COMMENT => token.payload.len() + 1,
        INTEGER => match token.payload.first_chunk::<8>() {
            Some(bytes) => u64::from_le_bytes(*bytes).to_string().len(),
            None => 1,
        },
        kind => keyword_len(kind),
    };
    length as u32
}

fn keyword_len(kind: u16) -> usize {
    crate::listing::KEYWORDS
        .iter()
        .find(|(_, known)| *known == kind)
        .map_or(1, |(word, _)| word.len())
}
