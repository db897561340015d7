//! Random derivations of the grammar.

use crate::{
    rng::Rng,
    token::*,
    words::{self, snake, stem},
};
use std::collections::HashSet;

#[derive(Clone, Copy)]
pub struct Wish {
    /// About how many tokens.
    pub tokens: usize,
    /// Paragraphs that do not fit one line.
    pub long_comments: bool,
    /// No error of any kind: names of imports found and distinct, no index
    /// deleted twice.
    pub valid: bool,
}

pub fn schema(rng: &mut Rng, wish: Wish) -> Vec<Tok> {
    let mut maker = Maker { out: vec![], wish, rng, imported: HashSet::new() };
    maker.schema();
    maker.out
}

struct Maker<'a> {
    out: Vec<Tok>,
    wish: Wish,
    rng: &'a mut Rng,
    imported: HashSet<Vec<u8>>,
}

impl Maker<'_> {
    fn schema(&mut self) {
        if self.rng.one_in(3) {
            self.comment();
        }
        let imports = if self.rng.one_in(2) { 0 } else { self.rng.below(self.wish.tokens / 8 + 2) };
        for _ in 0..imports {
            self.import();
        }
        while self.out.len() < self.wish.tokens {
            self.declaration();
            if self.rng.one_in(12) {
                break;
            }
        }
    }

    fn push(&mut self, kind: u16) {
        self.out.push(Tok::bare(kind));
    }

    fn name(&mut self) {
        let name = words::name(self.rng);
        self.out.push(Tok::name(name));
    }

    fn integer(&mut self) {
        let number = words::integer(self.rng);
        self.out.push(Tok::integer(number));
    }

    fn comment(&mut self) {
        let paragraphs = words::paragraphs(self.rng, self.wish.long_comments);
        self.out.push(Tok::comment(&paragraphs));
    }

    fn import(&mut self) {
        let path = words::path(self.rng);
        let name = if self.rng.one_in(2) { Some(words::name(self.rng)) } else { None };
        let called = name.as_deref().or(stem(&path)).map(snake);
        if self.wish.valid && !called.is_some_and(|called| self.imported.insert(called)) {
            return;
        }
        self.push(IMPORT);
        self.out.push(Tok::path(path));
        if let Some(name) = name {
            self.push(AS);
            self.out.push(Tok::name(name));
        }
    }

    fn declaration(&mut self) {
        if self.rng.one_in(4) {
            self.comment();
        }
        let keyword = *self.rng.pick(&[STRUCT, CHOICE]);
        self.push(keyword);
        self.name();
        self.push(LEFT_CURLY);
        for _ in 0..self.rng.below(6) {
            self.field();
        }
        if self.rng.one_in(3) {
            self.deleted();
        }
        self.push(RIGHT_CURLY);
    }

    fn field(&mut self) {
        if self.rng.one_in(5) {
            self.comment();
        }
        match self.rng.below(5) {
            0 => self.push(ASYMMETRIC),
            1 => self.push(OPTIONAL),
            _ => {}
        }
        self.name();
        if !self.rng.one_in(4) {
            self.push(COLON);
            self.r#type();
        }
        self.push(EQUALS);
        self.integer();
    }

    fn r#type(&mut self) {
        let depth = match self.rng.below(100) {
            0 => 64,
            1 => self.rng.between(3, 64),
            2..=24 => self.rng.between(1, 3),
            _ => 0,
        };
        for _ in 0..depth {
            self.push(LEFT_SQUARE);
        }
        match self.rng.below(4) {
            0 => self.name(),
            1 => {
                self.name();
                self.push(DOT);
                self.name();
            }
            _ => {
                let plain = *self.rng.pick(&PLAIN_TYPES);
                self.push(plain);
            }
        }
        for _ in 0..depth {
            self.push(RIGHT_SQUARE);
        }
    }

    fn deleted(&mut self) {
        self.push(DELETED);
        let mut seen = HashSet::new();
        for _ in 0..self.rng.below(6) {
            let number = words::integer(self.rng);
            if !self.wish.valid || seen.insert(number) {
                self.out.push(Tok::integer(number));
            }
        }
    }
}
