//! What a side is: two functions over lent buffers, as document 01 has them.

use judge::{Answer, judge, judge_schema};

#[derive(Clone, Copy, Debug, Eq, PartialEq)]
pub enum Read {
    Schema(usize),
    Errors(usize),
    Refused(u16, usize),
}

#[derive(Clone, Copy, Debug, Eq, PartialEq)]
pub enum Wrote {
    Text(usize),
    Refused(u16, usize),
}

#[derive(Clone, Copy)]
pub struct Side {
    pub name: &'static str,
    /// A token table to a schema table or an error list.
    pub read: fn(&[u8], &mut [u8]) -> Read,
    /// A schema table to its text.
    pub write: fn(&[u8], &mut [u8]) -> Wrote,
}

pub fn named(name: &str) -> Option<Side> {
    match name {
        "ours" => crate::ours::side(),
        "library" => crate::library::side(),
        "paper" => Some(Side { name: "paper", read: paper_read, write: paper_write }),
        "judge" => Some(Side { name: "judge", read: judge_read, write: judge_write }),
        _ => FAULTY.into_iter().find(|side| side.name == name),
    }
}

pub const FAULTY: [Side; 6] = [
    Side { name: "found-lost", read: found_lost, write: judge_write },
    Side { name: "refusal-touches", read: refusal_touches, write: judge_write },
    Side { name: "past-the-end", read: past_the_end, write: judge_write },
    Side { name: "error-dropped", read: error_dropped, write: judge_write },
    Side { name: "digits-short", read: judge_read, write: digits_short },
    Side { name: "bare-deleted", read: judge_read, write: bare_deleted },
];

/// Copies an answer into the lent buffer, if it has the room.
fn lay(bytes: &[u8], out: &mut [u8]) -> Option<usize> {
    out.get_mut(..bytes.len())?.copy_from_slice(bytes);
    Some(bytes.len())
}

fn paper_read(table: &[u8], out: &mut [u8]) -> Read {
    let laid = match paper::read(table) {
        Err((number, offset)) => return Read::Refused(number, offset),
        Ok(paper::Answer::Schema(bytes)) => lay(&bytes, out).map(Read::Schema),
        Ok(paper::Answer::Errors(bytes)) => lay(&bytes, out).map(Read::Errors),
    };
    laid.unwrap_or(Read::Refused(8, 0))
}

fn paper_write(table: &[u8], out: &mut [u8]) -> Wrote {
    match paper::write(table) {
        Err((number, offset)) => Wrote::Refused(number, offset),
        Ok(text) => lay(&text, out).map_or(Wrote::Refused(8, 0), Wrote::Text),
    }
}

fn judge_read(table: &[u8], out: &mut [u8]) -> Read {
    let answer = judge(table);
    let laid = match &answer {
        Answer::Refused(refusal) => return Read::Refused(refusal.number, refusal.offset),
        Answer::Surprise => return Read::Refused(0, 0),
        Answer::Schema(written) => lay(&written.table, out).map(Read::Schema),
        _ => answer.error_bytes().and_then(|bytes| lay(&bytes, out)).map(Read::Errors),
    };
    laid.unwrap_or(Read::Refused(8, 0))
}

fn judge_write(table: &[u8], out: &mut [u8]) -> Wrote {
    match judge_schema(table) {
        Err(refusal) => Wrote::Refused(refusal.number, refusal.offset),
        Ok(written) => lay(written.text.as_bytes(), out).map_or(Wrote::Refused(8, 0), Wrote::Text),
    }
}

// The judge with one planted fault each, to see that the run finds it and makes
// it small: a fault that no run reports is a fault of the run.

/// The found kind of error 12 is lost.
fn found_lost(table: &[u8], out: &mut [u8]) -> Read {
    let answer = judge_read(table, out);
    if let Read::Errors(length) = answer {
        for record in out[..length].chunks_mut(14) {
            if record[2] == 12 {
                record[12] = 0;
            }
        }
    }
    answer
}

/// A refusal for want of room has touched the buffer.
fn refusal_touches(table: &[u8], out: &mut [u8]) -> Read {
    let answer = judge_read(table, out);
    if let (Read::Refused(8, _), Some(first)) = (answer, out.first_mut()) {
        *first = 0;
    }
    answer
}

/// One byte past a longer schema is touched.
fn past_the_end(table: &[u8], out: &mut [u8]) -> Read {
    let answer = judge_read(table, out);
    if let Read::Schema(length) = answer
        && length > 300
        && let Some(next) = out.get_mut(length)
    {
        *next = 0;
    }
    answer
}

/// The last error of a list of three or more is not counted.
fn error_dropped(table: &[u8], out: &mut [u8]) -> Read {
    match judge_read(table, out) {
        Read::Errors(length) if length >= 3 * 14 => Read::Errors(length - 14),
        answer => answer,
    }
}

/// A text with a number of nine digits or more loses its last byte.
fn digits_short(table: &[u8], out: &mut [u8]) -> Wrote {
    let wrote = judge_write(table, out);
    if let Wrote::Text(length) = wrote
        && out[..length].windows(9).any(|digits| digits.iter().all(u8::is_ascii_digit))
    {
        return Wrote::Text(length - 1);
    }
    wrote
}

/// A schema table with a bare `deleted` record is written.
fn bare_deleted(table: &[u8], out: &mut [u8]) -> Wrote {
    let mut kept = tables::token::tokens(table);
    if tables::token::table_len(&kept) < table.len() {
        return judge_write(table, out);
    }
    kept.retain(|record| record.kind != 106 || !record.payload.is_empty());
    judge_write(&tables::token::table(&kept), out)
}
