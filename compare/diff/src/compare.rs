//! One table on both sides: the answer, the bytes written, and those not.

use crate::side::{Read, Side, Wrote};
use judge::{Answer, Refusal, judge, judge_schema};

/// What unwritten bytes hold.
const UNTOUCHED: u8 = 0xA5;
/// Bytes lent past an answer, to see that they stay.
const SPARE: usize = 24;

#[derive(Debug)]
pub struct Mismatch {
    pub call: &'static str,
    pub room: usize,
    pub expected: String,
    pub got: String,
}

/// What a side has to answer, whatever the room.
pub enum Due {
    Bytes(Read, Vec<u8>),
    Refusal(Refusal),
}

pub fn due(answer: &Answer) -> Due {
    match answer {
        Answer::Refused(refusal) => Due::Refusal(*refusal),
        Answer::Surprise => Due::Refusal(Refusal { number: 0, offset: 0 }),
        Answer::Schema(written) => {
            Due::Bytes(Read::Schema(written.table.len()), written.table.clone())
        }
        _ => {
            let bytes = answer.error_bytes().expect("the answer is a list of errors");
            Due::Bytes(Read::Errors(bytes.len()), bytes)
        }
    }
}

/// Reading a token table, and writing what was read.
pub fn compare_table(side: &Side, table: &[u8]) -> (Answer, Result<(), Mismatch>) {
    let answer = judge(table);
    let mut result = compare_read(side, table, &due(&answer));
    if let (Ok(()), Answer::Schema(written)) = (&result, &answer) {
        let due = Ok(written.text.as_bytes());
        result = compare_write(side, &written.table, due);
    }
    (answer, result)
}

/// Writing any bytes as a schema table.
pub fn compare_schema(side: &Side, table: &[u8]) -> (Result<(), Refusal>, Result<(), Mismatch>) {
    match judge_schema(table) {
        Ok(written) => (Ok(()), compare_write(side, table, Ok(written.text.as_bytes()))),
        Err(refusal) => (Err(refusal), compare_write(side, table, Err(refusal))),
    }
}

fn compare_read(side: &Side, table: &[u8], due: &Due) -> Result<(), Mismatch> {
    let call = |out: &mut [u8]| (side.read)(table, out);
    match due {
        Due::Refusal(refusal) => {
            let expected = Read::Refused(refusal.number, refusal.offset);
            one_call("read", SPARE, expected, &[], call)
        }
        Due::Bytes(expected, bytes) => {
            let short = Read::Refused(8, 0);
            all_rooms("read", *expected, short, bytes, call)
        }
    }
}

fn compare_write(side: &Side, table: &[u8], due: Result<&[u8], Refusal>) -> Result<(), Mismatch> {
    let call = |out: &mut [u8]| (side.write)(table, out);
    match due {
        Err(refusal) => {
            let expected = Wrote::Refused(refusal.number, refusal.offset);
            one_call("write", SPARE, expected, &[], call)
        }
        Ok(text) => {
            let (expected, short) = (Wrote::Text(text.len()), Wrote::Refused(8, 0));
            all_rooms("write", expected, short, text, call)
        }
    }
}

/// With room to spare, with room just enough, and with one byte less.
pub fn all_rooms<A: Copy + PartialEq + std::fmt::Debug>(
    name: &'static str,
    expected: A,
    short: A,
    bytes: &[u8],
    call: impl Fn(&mut [u8]) -> A,
) -> Result<(), Mismatch> {
    one_call(name, bytes.len() + SPARE, expected, bytes, &call)?;
    one_call(name, bytes.len(), expected, bytes, &call)?;
    if !bytes.is_empty() {
        one_call(name, bytes.len() - 1, short, &[], &call)?;
    }
    Ok(())
}

pub fn one_call<A: Copy + PartialEq + std::fmt::Debug>(
    name: &'static str,
    room: usize,
    expected: A,
    bytes: &[u8],
    call: impl Fn(&mut [u8]) -> A,
) -> Result<(), Mismatch> {
    let mut due = bytes.to_vec();
    due.resize(room, UNTOUCHED);
    let mut out = vec![UNTOUCHED; room];
    let got = call(&mut out);
    if got == expected && out == due {
        return Ok(());
    }
    let show = |answer: A, out: &[u8]| format!("{answer:?} {}", readable(out));
    Err(Mismatch { call: name, room, expected: show(expected, &due), got: show(got, &out) })
}

/// Printable bytes as they are, others in hexadecimal.
pub fn readable(bytes: &[u8]) -> String {
    let mut out = String::new();
    for byte in bytes {
        match byte {
            0x20..=0x7E if *byte != b'\\' => out.push(*byte as char),
            b'\n' => out.push_str("\\n"),
            _ => out.push_str(&format!("\\{byte:02x}")),
        }
    }
    out
}
