//! Faults in the bytes of a table, token or schema.

use crate::{
    rng::Rng,
    token::{Tok, table, tokens},
};

pub fn damage(rng: &mut Rng, table: &mut Vec<u8>) {
    for _ in 0..1 + rng.below(10) / 8 {
        one_fault(rng, table);
    }
}

/// Whole records of a schema table out of place, doubled, emptied or renamed.
pub fn spoil_records(rng: &mut Rng, bytes: &mut Vec<u8>) {
    let mut records = tokens(bytes);
    if records.is_empty() {
        return;
    }
    let at = rng.below(records.len());
    let other = rng.below(records.len());
    match rng.below(9) {
        0 => {
            records.remove(at);
        }
        1 => records.insert(at, records[other].clone()),
        2 => records.swap(at, other),
        3 => records[at].kind = rng.between(100, 110) as u16,
        4 => records[at].payload.clear(),
        5 => records.insert(at, Tok::bare(rng.between(101, 109) as u16)),
        6 => {
            let arrays = *rng.pick(&[1, 2, 62, 63, 64, 65]);
            records.splice(at..at, vec![Tok::bare(107); arrays]);
        }
        7 => {
            let indices = (0..rng.below(4)).flat_map(|_| (rng.below(4) as u64).to_le_bytes());
            let deleted = Tok::with(106, indices.collect());
            records.insert(at, deleted);
        }
        _ => records.truncate(at),
    }
    *bytes = table(&records);
}

fn one_fault(rng: &mut Rng, table: &mut Vec<u8>) {
    if table.is_empty() {
        table.extend((0..rng.below(30)).map(|_| rng.byte()));
        return;
    }
    let at = rng.below(table.len());
    match rng.below(11) {
        10 => other_printable(rng, table),
        0 => table[at] ^= 1 << rng.below(8),
        1 => table[at] = *rng.pick(&[0, 1, 11, 12, 0x20, 0x27, 0x7E, 0x7F, 0x80, 0xFF]),
        2 => table.truncate(at),
        3 => table.extend((0..rng.between(1, 14)).map(|_| rng.byte())),
        4 => table.insert(at, rng.byte()),
        5 => {
            table.remove(at);
        }
        6 => {
            let end = (at + rng.below(24)).min(table.len());
            table.drain(at..end);
        }
        _ => spoil_head(rng, table),
    }
}

/// Names in schema tables may hold any printable byte.
fn other_printable(rng: &mut Rng, table: &mut [u8]) {
    let places: Vec<usize> =
        (0..table.len()).filter(|at| table[*at].is_ascii_alphanumeric()).collect();
    if !places.is_empty() {
        for _ in 0..rng.between(1, 4) {
            table[*rng.pick(&places)] = 0x20 + rng.below(0x5F) as u8;
        }
    }
}

/// A number in some record's head: length, kind, start or end.
fn spoil_head(rng: &mut Rng, table: &mut [u8]) {
    let starts = record_starts(table);
    let at = *rng.pick(&starts);
    let field = *rng.pick(&[0, 0, 2, 4, 8]);
    let Some(bytes) = table.get_mut(at + field..at + field + 2) else {
        return;
    };
    let old = u16::from_le_bytes([bytes[0], bytes[1]]);
    let new = match rng.below(8) {
        0 => old.wrapping_add(1),
        1 => old.wrapping_sub(1),
        2 => *rng.pick(&[0, 11, 12, 13, u16::MAX]),
        3 => *rng.pick(&[0, 25, 26, 255, 256]),
        4 => rng.between(100, 110) as u16,
        5 => rng.between(1, 25) as u16,
        6 => old.wrapping_add(rng.below(64) as u16),
        _ => rng.draw() as u16,
    };
    bytes.copy_from_slice(&new.to_le_bytes());
}

fn record_starts(table: &[u8]) -> Vec<usize> {
    let mut starts = vec![0];
    let mut at = 0;
    while let Some(length) = table[at..].first_chunk::<2>() {
        let length = usize::from(u16::from_le_bytes(*length));
        if length < 12 || at + length >= table.len() {
            break;
        }
        at += length;
        starts.push(at);
    }
    starts
}
