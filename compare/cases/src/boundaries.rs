//! The list of boundaries: a table for each limit, number and rule of document
//! 01, with a word on what it tests and the answer that is due by that.

mod bytes;
mod document;
mod errors;
mod grammar;
mod largest;
mod payloads;
mod places;
mod sweeps;
mod text;
mod wrapping;

use tables::{listing::assemble, places::lay_plainly, token::*};

pub struct Case {
    pub group: &'static str,
    pub what: String,
    /// `R4`, `E12,5` or `text`: what the table was made to give.
    pub due: String,
    pub table: Vec<u8>,
}

#[derive(Default)]
pub struct Cases {
    pub list: Vec<Case>,
    group: &'static str,
}

pub fn all() -> Vec<Case> {
    let mut cases = Cases::default();
    for add in [
        document::add,
        bytes::add,
        payloads::add,
        places::add,
        errors::add,
        sweeps::add,
        grammar::add,
        text::add,
        wrapping::add,
        largest::add,
    ] {
        add(&mut cases);
    }
    cases.list
}

impl Cases {
    fn group(&mut self, name: &'static str) {
        self.group = name;
    }

    fn bytes(&mut self, due: &str, what: impl Into<String>, table: Vec<u8>) {
        let (group, what) = (self.group, what.into());
        self.list.push(Case { group, what, due: due.to_owned(), table });
    }

    /// Tokens at the places that they have.
    fn placed(&mut self, due: &str, what: impl Into<String>, tokens: &[Tok]) {
        self.bytes(due, what, table(tokens));
    }

    /// Tokens with one byte between them.
    fn tokens(&mut self, due: &str, what: impl Into<String>, mut tokens: Vec<Tok>) {
        lay_plainly(&mut tokens);
        self.placed(due, what, &tokens);
    }

    fn listing(&mut self, due: &str, what: &str, listing: &str) {
        let shown = format!("`{}`", listing.replace('\n', "\\n"));
        let what = if what.is_empty() { shown } else { format!("{what}: {shown}") };
        self.bytes(due, what, assemble(listing).expect("listings here are well formed"));
    }

    fn listings(&mut self, all: &[(&str, &str, &str)]) {
        for (due, what, listing) in all {
            self.listing(due, what, listing);
        }
    }
}

fn bare(kind: u16) -> Tok {
    Tok::bare(kind)
}

/// `struct NAME {`
fn open(name: impl AsRef<[u8]>) -> Vec<Tok> {
    vec![bare(STRUCT), Tok::name(name), bare(LEFT_CURLY)]
}

/// `struct A { .. }`
fn around(inside: Vec<Tok>) -> Vec<Tok> {
    [open("A"), inside, vec![bare(RIGHT_CURLY)]].concat()
}

/// `struct A { }`, 49 bytes.
fn declaration() -> Vec<u8> {
    let mut tokens = around(vec![]);
    lay_plainly(&mut tokens);
    table(&tokens)
}
