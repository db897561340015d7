//! `antt-cases SEED COUNT`: COUNT lines of a short token list and its answer,
//! for testing definitions. Every other list is free of errors.
//!
//! A line is tokens `kind start end payload` with `;` between, ` => `, and then
//! errors `E number start end found` with `;` between, or `S schema text`. Bytes
//! are in hexadecimal, `-` for none. Where the Rust panics the errors are those
//! of document 01, 18 last.

use cases::{answer_line, error_line, hex, number_argument};
use judge::{Answer, judge};
use std::io::{self, BufWriter, Write};
use tables::{
    mix::short_list,
    token::{Tok, table},
};

const MOST_TOKENS: usize = 40;

fn main() -> io::Result<()> {
    let seed = number_argument(1, None);
    let count = number_argument(2, None);
    let mut out = BufWriter::new(io::stdout().lock());
    for number in 0..count {
        let tokens = short_list(seed, number, MOST_TOKENS);
        let answer = match judge(&table(&tokens)) {
            Answer::Panicked(errors) => error_line(&errors),
            answer => answer_line(&answer),
        };
        let list: Vec<String> = tokens.iter().map(token_text).collect();
        writeln!(out, "{} => {answer}", list.join(";"))?;
    }
    out.flush()
}

fn token_text(token: &Tok) -> String {
    format!("{} {} {} {}", token.kind, token.start, token.end, hex(&token.payload))
}
