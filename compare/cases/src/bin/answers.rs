//! `answers SEED COUNT [MOST]`: COUNT lines of a table in hexadecimal and the
//! judge's answer, for tables of at most MOST bytes (400 without). The same
//! numbers give the same lines.

use cases::{answer_line, hex, number_argument};
use judge::judge;
use std::io::{self, BufWriter, Write};
use tables::mix::case;

fn main() -> io::Result<()> {
    let seed = number_argument(1, None);
    let count = number_argument(2, None);
    let most = number_argument(3, Some(400));
    let mut out = BufWriter::new(io::stdout().lock());
    let tables = (0..).map(|number| case(seed, number).table);
    let short = tables.filter(|table| table.len() as u64 <= most);
    for table in short.take(count as usize) {
        writeln!(out, "{} {}", hex(&table), answer_line(&judge(&table)))?;
    }
    out.flush()
}
