//! The kept lists, run on a side as their programs run them.

use crate::side::{Read, Side, Wrote};
use cases::lists::error_lines;
use std::{fmt::Write, fs, io, path::Path};

const LENT: usize = 65_536;
const UNTOUCHED: u8 = 0xA5;

/// Runs the three lists under ROOT/crates, and prints where the side differs.
pub fn run(side: Side, root: &Path) -> io::Result<bool> {
    let mut passed = true;
    for name in ["boundaries", "replayed", "rooms"] {
        let folder = root.join("crates").join(name);
        let stdin = fs::read(folder.join("stdin"))?;
        let stdout = fs::read(folder.join("stdout"))?;
        let got = if name == "rooms" { rooms(side, &stdin) } else { tables(side, &stdin) };
        let same = got == stdout;
        passed &= same;
        let verdict = if same { "agrees".to_owned() } else { difference(&stdout, &got) };
        println!("{} {name}: {verdict}", side.name);
    }
    Ok(passed)
}

fn difference(due: &[u8], got: &[u8]) -> String {
    let due = String::from_utf8_lossy(due);
    let got = String::from_utf8_lossy(got);
    let mut number = "= 0";
    for (due, got) in due.lines().zip(got.lines()) {
        if due.starts_with("= ") {
            number = due;
        }
        if due != got {
            return format!("differs at {number}: {due} is due, {got} given");
        }
    }
    "differs in its length".to_owned()
}

/// Takes bytes off the front.
fn cut<'a>(rest: &mut &'a [u8], count: usize) -> &'a [u8] {
    let (first, after) = rest.split_at(count);
    *rest = after;
    first
}

fn u32_of(rest: &mut &[u8]) -> usize {
    u32::from_le_bytes(cut(rest, 4).try_into().unwrap()) as usize
}

fn tables(side: Side, mut stdin: &[u8]) -> Vec<u8> {
    let mut out = vec![];
    let mut number = 0;
    while !stdin.is_empty() {
        let length = u32_of(&mut stdin);
        number += 1;
        out.extend(format!("= {number}\n").bytes());
        out.extend(typefmt(side, cut(&mut stdin, length)));
    }
    out
}

/// What `typefmt` would print if it were made of this side.
fn typefmt(side: Side, table: &[u8]) -> Vec<u8> {
    let mut answer = vec![0; LENT];
    match (side.read)(table, &mut answer) {
        Read::Refused(number, offset) => format!("R {number} {offset}\n").into_bytes(),
        Read::Errors(length) => error_lines(&answer[..length]).into_bytes(),
        Read::Schema(length) => {
            let mut text = vec![0; LENT];
            match (side.write)(&answer[..length], &mut text) {
                Wrote::Refused(number, offset) => format!("R {number} {offset}\n").into_bytes(),
                Wrote::Text(length) => text[..length].to_vec(),
            }
        }
    }
}

fn rooms(side: Side, mut stdin: &[u8]) -> Vec<u8> {
    let mut out = String::new();
    let mut number = 0;
    while !stdin.is_empty() {
        let what = cut(&mut stdin, 1)[0];
        let room = u32_of(&mut stdin);
        let length = u32_of(&mut stdin);
        let table = cut(&mut stdin, length);
        let mut lent = vec![UNTOUCHED; room];
        let (answer, used) = match what {
            0 => match (side.read)(table, &mut lent) {
                Read::Schema(length) => (format!("schema {length}"), length),
                Read::Errors(length) => (format!("errors {length}"), length),
                Read::Refused(number, offset) => (format!("R {number} {offset}"), 0),
            },
            _ => match (side.write)(table, &mut lent) {
                Wrote::Text(length) => (format!("text {length}"), length),
                Wrote::Refused(number, offset) => (format!("R {number} {offset}"), 0),
            },
        };
        number += 1;
        let kept = lent[used..].iter().all(|byte| *byte == UNTOUCHED);
        let kept = if kept { "kept" } else { "touched" };
        writeln!(out, "= {number}\n{answer} {kept}").unwrap();
    }
    out.into_bytes()
}
