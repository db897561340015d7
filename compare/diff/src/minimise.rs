//! Makes a table smaller while some test of it stays true.

use tables::token::{COMMENT, IDENTIFIER, INTEGER, PATH, Tok, table, table_len, tokens};

pub fn minimise(start: &[u8], keeps: impl Fn(&[u8]) -> bool) -> Vec<u8> {
    let mut best = start.to_vec();
    loop {
        let before = best.clone();
        best = fewer_records(best, &keeps);
        best = plainer_records(best, &keeps);
        if best.len() <= 200 {
            best = fewer_bytes(best, &keeps);
        }
        if best == before {
            return best;
        }
    }
}

/// The records of a table, and the bytes that are none.
fn split(bytes: &[u8]) -> (Vec<Tok>, Vec<u8>) {
    let records = tokens(bytes);
    let rest = bytes[table_len(&records)..].to_vec();
    (records, rest)
}

fn fewer_records(mut best: Vec<u8>, keeps: &impl Fn(&[u8]) -> bool) -> Vec<u8> {
    let mut size = split(&best).0.len().max(1);
    while size > 0 {
        let mut at = 0;
        loop {
            let (mut records, rest) = split(&best);
            if at + size > records.len() {
                break;
            }
            records.drain(at..at + size);
            let smaller = [table(&records), rest].concat();
            if keeps(&smaller) { best = smaller } else { at += 1.max(size / 2) }
        }
        size /= 2;
    }
    best
}

fn plainer_records(mut best: Vec<u8>, keeps: &impl Fn(&[u8]) -> bool) -> Vec<u8> {
    for at in 0..split(&best).0.len() {
        for change in [plain_payload, half_payload, no_gap, no_place] {
            let (mut records, rest) = split(&best);
            if at < records.len() {
                change(&mut records, at);
                let plainer = [table(&records), rest].concat();
                if plainer != best && keeps(&plainer) {
                    best = plainer;
                }
            }
        }
    }
    best
}

fn plain_payload(records: &mut [Tok], at: usize) {
    let record = &mut records[at];
    record.payload = match record.kind {
        IDENTIFIER | PATH => b"a".to_vec(),
        COMMENT => vec![1, 0, b'a'],
        INTEGER => vec![0; 8],
        _ => vec![],
    };
}

fn half_payload(records: &mut [Tok], at: usize) {
    let half = records[at].payload.len() / 2;
    records[at].payload.truncate(half);
}

/// This record and those after it move up to the one before.
fn no_gap(records: &mut [Tok], at: usize) {
    let before = if at == 0 { 0 } else { records[at - 1].end };
    let gap = records[at].start.saturating_sub(before + 1);
    for record in &mut records[at..] {
        record.start = record.start.saturating_sub(gap);
        record.end = record.end.saturating_sub(gap);
    }
}

fn no_place(records: &mut [Tok], at: usize) {
    (records[at].start, records[at].end) = (0, 0);
}

fn fewer_bytes(mut best: Vec<u8>, keeps: &impl Fn(&[u8]) -> bool) -> Vec<u8> {
    let mut at = 0;
    while at < best.len() {
        let mut smaller = best.clone();
        smaller.remove(at);
        if keeps(&smaller) { best = smaller } else { at += 1 }
    }
    best
}
