//! Lists of tables as files: what a program reads on standard input, and what
//! it has to print.
//!
//! The answers are the Rust's. Where it has none (refusals, error 18, lines of
//! long paragraphs, schema tables) they are those of the second reading of
//! document 01; the two agree wherever both speak, or the list isn't made.

use judge::{Answer, TYPEFMT_ROOM, judge, judge_schema};
use std::fmt::Write;

/// What `typefmt` prints for a token table.
pub fn printed(table: &[u8]) -> String {
    let rust = judge(table);
    let paper = paper_prints(table);
    let said = rust.printed();
    assert_eq!(said.strip_prefix("PANIC\n").unwrap_or(&said), paper, "the two readings differ");
    if is_the_rusts(&rust) { said } else { paper }
}

/// Whether the Rust itself gives the whole answer.
pub fn is_the_rusts(answer: &Answer) -> bool {
    match answer {
        Answer::Errors(_) => true,
        Answer::Schema(written) => !written.long,
        _ => false,
    }
}

fn paper_prints(table: &[u8]) -> String {
    let refused = |(number, offset)| format!("R {number} {offset}\n");
    match paper::read(table) {
        Err(refusal) => refused(refusal),
        Ok(paper::Answer::Errors(records)) => error_lines(&records),
        Ok(paper::Answer::Schema(schema)) if schema.len() > TYPEFMT_ROOM => refused((8, 0)),
        Ok(paper::Answer::Schema(schema)) => match paper::write(&schema) {
            Ok(text) if text.len() > TYPEFMT_ROOM => refused((8, 0)),
            Ok(text) => String::from_utf8(text).expect("texts are ASCII"),
            Err(_) => panic!("what was read can't be written"),
        },
    }
}

/// The records of an error list, a line for each.
pub fn error_lines(records: &[u8]) -> String {
    let mut out = String::new();
    for record in records.chunks(14) {
        let number = u16::from_le_bytes([record[2], record[3]]);
        let start = u32::from_le_bytes([record[4], record[5], record[6], record[7]]);
        let end = u32::from_le_bytes([record[8], record[9], record[10], record[11]]);
        let found = u16::from_le_bytes([record[12], record[13]]);
        writeln!(out, "E {number} {start} {end} {found}").unwrap();
    }
    out
}

/// The answer in a word: `R4`, `E12,5` or `text`.
pub fn summary(printed: &str) -> String {
    if let Some(refusal) = printed.strip_prefix("R ") {
        return format!("R{}", refusal.split(' ').next().unwrap());
    }
    if !printed.starts_with("E ") {
        return "text".to_owned();
    }
    let numbers: Vec<&str> = printed.lines().map(|line| line.split(' ').nth(1).unwrap()).collect();
    if numbers.len() <= 8 {
        return format!("E{}", numbers.join(","));
    }
    let count = grouped(numbers.len());
    let mut distinct = numbers.clone();
    distinct.sort_by_key(|number| number.parse::<u16>().unwrap());
    distinct.dedup();
    match &distinct[..] {
        [one] => format!("E{one} {count} times"),
        several => format!("E{}, {count} in all", several.join(" and ")),
    }
}

/// A number with a comma before its last three digits.
pub fn grouped(number: usize) -> String {
    if number < 1_000 {
        return number.to_string();
    }
    format!("{},{:03}", grouped(number / 1_000), number % 1_000)
}

/// Standard input and output for tables: each after its length as u32, and
/// after a line `= N` what is printed.
pub fn files<'a>(tables: impl Iterator<Item = &'a [u8]>) -> (Vec<u8>, String) {
    let (mut stdin, mut stdout) = (vec![], String::new());
    for (number, table) in (1..).zip(tables) {
        stdin.extend((table.len() as u32).to_le_bytes());
        stdin.extend(table);
        writeln!(stdout, "= {number}").unwrap();
        stdout += &printed(table);
    }
    (stdin, stdout)
}

/// What a call with this much room answers to a token table.
pub fn read_line(table: &[u8], room: usize) -> String {
    let (word, length) = match judge(table) {
        Answer::Refused(refusal) => {
            assert_eq!(paper::read(table).err(), Some((refusal.number, refusal.offset)));
            return format!("R {} {} kept\n", refusal.number, refusal.offset);
        }
        Answer::Schema(written) => ("schema", written.table.len()),
        answer => ("errors", answer.error_bytes().expect("a list of errors").len()),
    };
    let second = match paper::read(table) {
        Ok(paper::Answer::Schema(bytes)) => ("schema", bytes.len()),
        Ok(paper::Answer::Errors(bytes)) => ("errors", bytes.len()),
        Err(_) => panic!("the two readings differ"),
    };
    assert_eq!((word, length), second);
    if length > room { "R 8 0 kept\n".to_owned() } else { format!("{word} {length} kept\n") }
}

/// What a call with this much room answers to a schema table.
pub fn write_line(table: &[u8], room: usize) -> String {
    let rust = judge_schema(table).map(|written| written.text.into_bytes());
    let paper = paper::write(table);
    match (rust, paper) {
        (Ok(text), Ok(second)) if text == second => {
            if text.len() > room {
                return "R 8 0 kept\n".to_owned();
            }
            format!("text {} kept\n", text.len())
        }
        (Err(refusal), Err(second)) if (refusal.number, refusal.offset) == second => {
            format!("R {} {} kept\n", second.0, second.1)
        }
        _ => panic!("the two readings differ"),
    }
}
