//! Reads a table on standard input and prints the judge's answer, as `typefmt`
//! would. `judge schema` writes the schema table instead of its text, and
//! `judge write` takes a schema table.

use judge::{Answer, TYPEFMT_ROOM, judge, judge_schema};
use std::{
    env,
    io::{self, Read, Write},
};

fn main() -> io::Result<()> {
    let mut table = vec![];
    io::stdin().lock().read_to_end(&mut table)?;
    let answer = match env::args().nth(1).as_deref() {
        None => judge(&table).printed().into_bytes(),
        Some("schema") => match judge(&table) {
            Answer::Schema(written) if written.table.len() <= TYPEFMT_ROOM => written.table,
            answer => answer.printed().into_bytes(),
        },
        Some("write") => match judge_schema(&table) {
            Ok(written) if written.text.len() > TYPEFMT_ROOM => b"R 8 0\n".to_vec(),
            Ok(written) => written.text.into_bytes(),
            Err(refusal) => refusal.line().into_bytes(),
        },
        Some(other) => panic!("unknown word {other}: give none, schema or write"),
    };
    io::stdout().lock().write_all(&answer)
}
