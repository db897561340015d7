//! All short lists over a reduced alphabet, after a fixed start.

use crate::token::*;

pub struct Family {
    pub name: &'static str,
    pub start: Vec<Tok>,
    pub alphabet: Vec<Tok>,
    /// The longest list after the start.
    pub most: usize,
    /// Bytes between one token and the next.
    pub gap: u32,
}

pub fn families() -> Vec<Family> {
    let a = || Tok::name("a");
    let comment = || Tok::comment(&["c"]);
    let bare = |kinds: &[u16]| kinds.iter().map(|kind| Tok::bare(*kind)).collect::<Vec<_>>();
    let top = [
        vec![comment(), Tok::path("a.t"), Tok::path(".."), a()],
        bare(&[IMPORT, AS, STRUCT, CHOICE, LEFT_CURLY, RIGHT_CURLY]),
    ]
    .concat();
    let body = [
        vec![comment(), a(), Tok::integer(0)],
        bare(&[STRUCT, OPTIONAL, COLON, DOT, EQUALS, DELETED, RIGHT_CURLY, UNIT, LEFT_SQUARE]),
    ]
    .concat();
    let r#type = [
        vec![a(), Tok::integer(0)],
        bare(&[DOT, LEFT_SQUARE, RIGHT_SQUARE, EQUALS, RIGHT_CURLY, BOOL, DELETED]),
    ]
    .concat();
    let deleted = [
        vec![Tok::integer(0), Tok::integer(1), comment(), a()],
        bare(&[DELETED, RIGHT_CURLY, STRUCT]),
    ]
    .concat();
    let open = vec![Tok::bare(STRUCT), a(), Tok::bare(LEFT_CURLY)];
    let after = |kinds: Vec<Tok>| [open.clone(), kinds].concat();
    let family = |name, start, alphabet: &[Tok], most, gap| Family {
        name,
        start,
        alphabet: alphabet.to_vec(),
        most,
        gap,
    };
    vec![
        family("any", vec![], &every_kind(), 3, 1),
        family("top", vec![], &top, 5, 1),
        family("apart", vec![comment()], &top, 4, 2),
        family("body", open.clone(), &body, 5, 1),
        family("field", after(vec![a()]), &body, 4, 0),
        family("type", after(vec![a(), Tok::bare(COLON)]), &r#type, 5, 1),
        family("deleted", after(vec![Tok::bare(DELETED)]), &deleted, 5, 1),
    ]
}

/// One token of each of the 25 kinds.
pub fn every_kind() -> Vec<Tok> {
    (1..=25)
        .map(|kind| match kind {
            IDENTIFIER => Tok::name("a"),
            PATH => Tok::path("a.t"),
            INTEGER => Tok::integer(0),
            COMMENT => Tok::comment(&["c"]),
            _ => Tok::bare(kind),
        })
        .collect()
}

impl Family {
    /// How many lists there are.
    pub fn count(&self) -> u64 {
        (0..=self.most as u32).map(|length| (self.alphabet.len() as u64).pow(length)).sum()
    }

    /// The list of a number, shorter ones first.
    pub fn list(&self, number: u64) -> Vec<Tok> {
        let size = self.alphabet.len() as u64;
        let (mut left, mut length) = (number, 0);
        while left >= size.pow(length) {
            left -= size.pow(length);
            length += 1;
        }
        let mut tokens = self.start.clone();
        for _ in 0..length {
            tokens.push(self.alphabet[(left % size) as usize].clone());
            left /= size;
        }
        let mut at = 0;
        for token in &mut tokens {
            token.start = at;
            token.end = at + 1;
            at += 1 + self.gap;
        }
        tokens
    }
}
