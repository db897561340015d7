//! R5, R7, and ranges at their limits.

use super::{Cases, around, bare};
use tables::{listing::scan, token::*};

pub fn add(cases: &mut Cases) {
    cases.group("Ranges: R5");
    alone(cases);
    pairs(cases);
    whole_lists(cases);
    cases.group("LeftSquare in a row: R7");
    squares(cases);
}

fn at(start: u32, end: u32, kind: u16) -> Tok {
    Tok { start, end, ..bare(kind) }
}

fn alone(cases: &mut Cases) {
    let most = u32::MAX;
    for (due, start, end) in [
        ("E1", 0, 0),
        ("E1", 0, 1),
        ("E1", 1, 1),
        ("R5", 1, 0),
        ("R5", 2, 1),
        ("E1", 0, most),
        ("E1", most, most),
        ("E1", most - 1, most),
        ("R5", most, most - 1),
        ("R5", most, 0),
        ("E1", 255, 256),
        ("R5", 256, 255),
        ("E1", 65_535, 65_536),
        ("R5", 65_536, 65_535),
        ("E1", 0x00FF_FFFF, 0x0100_0000),
        ("R5", 0x0100_0000, 0x00FF_FFFF),
        ("E1", 0x7FFF_FFFF, 0x8000_0000),
        ("R5", 0x8000_0000, 0x7FFF_FFFF),
    ] {
        cases.placed(due, format!("one token from {start} to {end}"), &[at(start, end, AS)]);
    }
}

fn pairs(cases: &mut Cases) {
    let most = u32::MAX;
    for (due, what, first, second) in [
        ("E6,1", "touching", (3, 5), (5, 6)),
        ("E6,1", "touching, the second empty", (3, 5), (5, 5)),
        ("E6,1", "both empty at one place", (5, 5), (5, 5)),
        ("R5", "overlapping by one", (3, 5), (4, 6)),
        ("R5", "the second inside the first", (3, 9), (4, 6)),
        ("R5", "the same range twice", (3, 5), (3, 5)),
        ("R5", "the second before the first", (3, 5), (1, 2)),
        ("R5", "an empty second before the first's end", (3, 5), (4, 4)),
        ("E6,1", "the first ends at the largest place", (3, most), (most, most)),
        ("R5", "the second one before the largest place", (3, most), (most - 1, most)),
        ("R5", "the second at 0 after the largest place", (3, most), (0, 1)),
        ("E6,1", "touching where all bytes change", (0, 0x00FF_FFFF), (0x00FF_FFFF, 0x0100_0000)),
        ("R5", "one less where all bytes change", (0, 0x0100_0000), (0x00FF_FFFF, 0x0100_0000)),
        ("E6,1", "over the sign bit", (0, 0x8000_0000), (0x8000_0000, most)),
        ("R5", "under the sign bit", (0, 0x8000_0000), (0x7FFF_FFFF, most)),
    ] {
        let pair = [at(first.0, first.1, IMPORT), at(second.0, second.1, AS)];
        cases.placed(due, format!("two tokens: {what}"), &pair);
    }
}

fn whole_lists(cases: &mut Cases) {
    let list = "import 'a.t' # c\nstruct A { # d\nx: [U64] = 0 deleted 1 }";
    let moved = |change: &dyn Fn(&Tok) -> (u32, u32)| {
        let mut tokens = scan(list).expect("the listing is well formed");
        for token in &mut tokens {
            (token.start, token.end) = change(token);
        }
        tokens
    };
    cases.placed("text", "a schema with every token at 0", &moved(&|_| (0, 0)));
    let most = u32::MAX;
    cases.placed(
        "text",
        "a schema with every token at the largest place",
        &moved(&|_| (most, most)),
    );
    let end = moved(&|token| (token.start, token.end)).last().unwrap().end;
    let up = most - end;
    let last = moved(&|token| (token.start + up, token.end + up));
    cases.placed("text", "a schema that ends at the largest place", &last);
    let mut back = moved(&|token| (token.start, token.end));
    let count = back.len();
    back[count - 1].start = back[count - 2].end - 1;
    cases.placed("R5", "the last token one before the end of the one before it", &back);
    let mut turned = moved(&|token| (token.start, token.end));
    turned[count - 1].end = turned[count - 1].start - 1;
    cases.placed("R5", "the last token ends before it starts", &turned);
}

fn squares(cases: &mut Cases) {
    let row = |count: usize| vec![bare(LEFT_SQUARE); count];
    let field = |inside: Vec<Tok>, closing: usize| {
        let close = vec![bare(RIGHT_SQUARE); closing];
        let start = vec![Tok::name("x"), bare(COLON)];
        let end = vec![bare(EQUALS), Tok::integer(0)];
        [start, inside, vec![bare(UNIT)], close, end].concat()
    };
    cases.tokens("text", "63 `[` of a type", around(field(row(63), 63)));
    cases.tokens("text", "64 `[` of a type", around(field(row(64), 64)));
    cases.tokens("R7", "65 `[` of a type", around(field(row(65), 65)));
    cases.tokens("R7", "66 `[` of a type", around(field(row(66), 66)));
    cases.tokens("E1", "64 `[` alone", row(64));
    cases.tokens("R7", "65 `[` alone", row(65));
    cases.tokens("R7", "65 `[` last in the table", [super::open("A"), row(65)].concat());
    let twice = [field(row(64), 64), field(row(64), 64)].concat();
    cases.tokens("text", "64 `[` in each of two fields", around(twice));
    let parted = [row(64), vec![bare(UNIT)], row(64)].concat();
    cases.tokens("E1", "64 `[`, another token, 64 `[`", parted);
    let parted = [row(64), vec![bare(RIGHT_SQUARE)], row(65)].concat();
    cases.tokens("R7", "64 `[`, a `]`, 65 `[`", parted);
    let parted = [row(32), vec![bare(COLON)], row(33)].concat();
    cases.tokens("E1", "65 `[` with a `:` among them", parted);
    cases.tokens("E11", "64 `[` and 63 `]`", around(field(row(64), 63)));
    cases.tokens("E12", "64 `[` and 65 `]`", around(field(row(64), 65)));
    cases.tokens(
        "E9,5",
        "64 `[` at the list's end",
        [super::open("A"), vec![Tok::name("x"), bare(COLON)], row(64)].concat(),
    );
}
