//! R1, R2, R3 and R6, and the order of the checks.

use super::{Cases, bare, declaration, open};
use tables::{
    places::lay_plainly,
    special,
    token::{AS, COMMENT, IDENTIFIER, IMPORT, INTEGER, LEFT_SQUARE, PATH, STRUCT, Tok, table},
};

pub fn add(cases: &mut Cases) {
    cases.group("Bytes of a table: R1, R2");
    sizes(cases);
    cut_records(cases);
    length_fields(cases);
    cases.group("Kinds: R3");
    kinds(cases);
    cases.group("Number of tokens: R6");
    tokens(cases);
    cases.group("Which number comes first");
    order(cases);
}

fn sizes(cases: &mut Cases) {
    let special = |wanted| special::all().into_iter().find(|(name, _)| *name == wanted).unwrap().1;
    cases.bytes("text", "65,536 bytes", special("bytes-65536"));
    cases.bytes("R1", "65,537 bytes", special("bytes-65537"));
    cases.bytes("R1", "65,537 zeros: R1 before R2", vec![0; 65_537]);
    cases.bytes("R2", "65,536 zeros", vec![0; 65_536]);
}

fn cut_records(cases: &mut Cases) {
    let record = table(&[bare(AS)]);
    for left in 1..12 {
        cases.bytes("R2", format!("{left} bytes alone"), record[..left].to_vec());
    }
    for left in 1..12 {
        let bytes = [declaration(), record[..left].to_vec()].concat();
        cases.bytes("R2", format!("{left} bytes after a declaration"), bytes);
    }
    let name = table(&[Tok::name("abc")]);
    for left in 12..15 {
        let bytes = name[..left].to_vec();
        cases.bytes("R2", format!("{} of a name's 3 bytes", left - 12), bytes);
    }
}

fn length_fields(cases: &mut Cases) {
    let with_length = |length: u16, mut record: Vec<u8>| {
        record[..2].copy_from_slice(&length.to_le_bytes());
        record
    };
    let record = table(&[bare(AS)]);
    for length in [0, 1, 10, 11, 13, 14, 255, 256, 268, 3_072, 65_535] {
        let what = format!("length {length} in a record of 12 bytes");
        cases.bytes("R2", what, with_length(length, record.clone()));
    }
    cases.bytes("E1", "length 12 in a record of 12 bytes", record);
    let name = table(&[Tok::name("abc")]);
    for (due, length) in [("R2", 11), ("R4", 12), ("R2", 14), ("E1", 15), ("R2", 16), ("R2", 17)] {
        let what = format!("length {length} in a name of 15 bytes");
        cases.bytes(due, what, with_length(length, name.clone()));
    }
    let two = [declaration(), with_length(13, table(&[bare(AS)]))].concat();
    cases.bytes("R2", "the last record's length one past the end", two);
    let inner = [with_length(25, table(&[bare(AS)])), table(&[bare(AS)]), vec![0]].concat();
    cases.bytes("R4", "a length that swallows the next record", inner);
}

fn kinds(cases: &mut Cases) {
    for kind in [0, 26, 27, 28, 99, 100, 101, 255, 256, 257, 268, 281, 32_767, 32_768, 65_535] {
        cases.tokens("R3", format!("kind {kind} alone"), vec![bare(kind)]);
    }
    for kind in [0, 26, 65_535] {
        let bytes = [declaration(), table(&[bare(kind)])].concat();
        cases.bytes("R3", format!("kind {kind} after a declaration"), bytes);
    }
    for kind in 1..26 {
        let due = if kind == IMPORT { "E6" } else { "E1" };
        let due = match kind {
            STRUCT => "E2",
            5 => "E3",
            COMMENT => "text",
            _ => due,
        };
        cases.tokens(due, format!("kind {kind} alone"), vec![good(kind)]);
    }
}

fn good(kind: u16) -> Tok {
    match kind {
        IDENTIFIER => Tok::name("a"),
        PATH => Tok::path("a.t"),
        INTEGER => Tok::integer(7),
        COMMENT => Tok::comment(&["c"]),
        _ => bare(kind),
    }
}

fn tokens(cases: &mut Cases) {
    let most = special::all_errors(4_096);
    let with = |more: Vec<u8>| {
        let mut tokens = most.clone();
        lay_plainly(&mut tokens);
        [table(&tokens), more].concat()
    };
    cases.bytes("E6 4,096 times", "4,096 tokens, an error for each", with(vec![]));
    cases.bytes("R6", "1 byte after 4,096 tokens", with(vec![0]));
    cases.bytes("R6", "11 bytes after 4,096 tokens", with(vec![0; 11]));
    cases.bytes("R6", "12 bytes after 4,096 tokens", with(vec![0; 12]));
    let fewer = [with(vec![])[..4_095 * 12].to_vec(), vec![12]].concat();
    cases.bytes("R2", "1 byte after 4,095 tokens", fewer);
    let mut squares = special::all_errors(4_032);
    squares.extend(vec![bare(LEFT_SQUARE); 65]);
    cases.tokens("R6", "the 4,097th token is the 65th `[` in a row", squares);
}

fn order(cases: &mut Cases) {
    let at = |start, end, token: Tok| Tok { start, end, ..token };
    let short = |length: u16, mut record: Vec<u8>| {
        record[..2].copy_from_slice(&length.to_le_bytes());
        record
    };
    cases.bytes("R2", "R2 before R3", short(11, table(&[bare(0)])));
    cases.placed("R3", "R3 before R4", &[Tok::with(26, vec![1])]);
    cases.placed("R3", "R3 before R5", &[at(2, 1, bare(0))]);
    cases.placed("R4", "R4 before R5", &[at(2, 1, Tok::name("1"))]);
    let mut row = open("A");
    row.extend(vec![bare(LEFT_SQUARE); 64]);
    lay_plainly(&mut row);
    let with = |last: Tok| [row.clone(), vec![last]].concat();
    let end = row.last().unwrap().end;
    cases.placed("R4", "R4 before R7", &with(at(end, end, Tok::with(LEFT_SQUARE, vec![0]))));
    cases.placed("R5", "R5 before R7", &with(at(end - 1, end, bare(LEFT_SQUARE))));
    cases.placed("R7", "R7 alone", &with(at(end, end, bare(LEFT_SQUARE))));
    let faulty = [bare(0), Tok::name("1"), at(2, 1, bare(AS))];
    for (due, first, second) in [("R3", 0, 1), ("R4", 1, 0), ("R5", 2, 0), ("R3", 0, 2)] {
        let what = format!("{due} in the first record, another fault in the second");
        cases.placed(due, what, &[faulty[first].clone(), faulty[second].clone()]);
    }
    let refused = [table(&[bare(STRUCT), bare(STRUCT)]), vec![0]].concat();
    cases.bytes("R2", "a refusal before any error", refused);
}
