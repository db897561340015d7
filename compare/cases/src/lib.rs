//! Answers on one line each.

pub mod boundaries;
pub mod kept;
pub mod lists;
pub mod rooms;

use judge::{Answer, ErrorRecord};

/// Bytes in hexadecimal, `-` for none.
pub fn hex(bytes: &[u8]) -> String {
    const DIGITS: &[u8; 16] = b"0123456789abcdef";
    if bytes.is_empty() {
        return "-".to_owned();
    }
    let digits = bytes.iter().flat_map(|byte| [byte >> 4, byte & 15]);
    digits.map(|digit| DIGITS[usize::from(digit)] as char).collect()
}

/// `E number start end found` for each, with `;` between.
pub fn error_line(errors: &[ErrorRecord]) -> String {
    let one = |e: &ErrorRecord| format!("E {} {} {} {}", e.number, e.start, e.end, e.found);
    errors.iter().map(one).collect::<Vec<_>>().join(";")
}

/// `R number offset`, the errors, `P` and the errors where the Rust panicked,
/// `S schema text`, or `L schema text` where the text has lines that are
/// wrapped by document 01 alone.
pub fn answer_line(answer: &Answer) -> String {
    match answer {
        Answer::Refused(refusal) => format!("R {} {}", refusal.number, refusal.offset),
        Answer::Errors(errors) => error_line(errors),
        Answer::Panicked(errors) => format!("P {}", error_line(errors)),
        Answer::Surprise => "PANIC".to_owned(),
        Answer::Schema(written) => {
            let letter = if written.long { 'L' } else { 'S' };
            format!("{letter} {} {}", hex(&written.table), hex(written.text.as_bytes()))
        }
    }
}

/// The argument at this place as a number.
pub fn number_argument(place: usize, default: Option<u64>) -> u64 {
    let given = std::env::args().nth(place).and_then(|text| text.parse().ok());
    given.or(default).unwrap_or_else(|| {
        eprintln!("argument {place} has to be a number");
        std::process::exit(1)
    })
}
