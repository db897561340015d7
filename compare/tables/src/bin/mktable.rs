//! A listing on standard input to a token table on standard output. With a name
//! of a special table as its one argument it writes that table; with `list` it
//! prints their names.

use std::{
    env,
    io::{self, Read, Write},
    process::ExitCode,
};
use tables::{listing::assemble, special};

fn main() -> ExitCode {
    match env::args().nth(1).as_deref() {
        None => from_listing(),
        Some("list") => {
            for (name, table) in special::all() {
                println!("{name} {}", table.len());
            }
            ExitCode::SUCCESS
        }
        Some(wanted) => match special::all().into_iter().find(|(name, _)| *name == wanted) {
            Some((_, table)) => write_out(&table),
            None => complain(&format!("no special table is called {wanted}")),
        },
    }
}

fn from_listing() -> ExitCode {
    let mut listing = String::new();
    if io::stdin().lock().read_to_string(&mut listing).is_err() {
        return complain("the listing is not text");
    }
    match assemble(&listing) {
        Ok(table) => write_out(&table),
        Err(why) => complain(&why),
    }
}

fn write_out(table: &[u8]) -> ExitCode {
    match io::stdout().lock().write_all(table) {
        Ok(()) => ExitCode::SUCCESS,
        Err(why) => complain(&why.to_string()),
    }
}

fn complain(why: &str) -> ExitCode {
    eprintln!("mktable: {why}");
    ExitCode::FAILURE
}
