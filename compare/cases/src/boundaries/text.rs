//! The canonical text: blank lines, order, names, numbers, types.

use super::{Cases, around, bare};
use tables::token::*;

pub fn add(cases: &mut Cases) {
    cases.group("Text: blank lines");
    parts(cases);
    fields(cases);
    cases.group("Text: order of imports and indices");
    order(cases);
    cases.group("Text: numbers");
    numbers(cases);
    cases.group("Text: types");
    types(cases);
    cases.group("Text: names");
    names(cases);
}

fn parts(cases: &mut Cases) {
    let parts = ["# c\n\n", "import 'a.t' ", "import 'b.t' ", "# d\nstruct A { } ", "choice B { }"];
    for set in 0..1 << parts.len() {
        let chosen: String =
            (0..parts.len()).filter(|i| set >> i & 1 == 1).map(|i| parts[i]).collect();
        cases.listing("text", &format!("parts {set:05b}"), &chosen);
    }
}

fn fields(cases: &mut Cases) {
    for comments in 0..8 {
        let mut inside = vec![];
        for i in 0..3 {
            if comments >> i & 1 == 1 {
                inside.push(Tok::comment(&["c"]));
            }
            inside.extend([Tok::name(["x", "y", "z"][i]), bare(EQUALS), Tok::integer(i as u64)]);
        }
        let what = |more| format!("three fields, comments by the bits of {comments}{more}");
        cases.tokens("text", what(""), around(inside.clone()));
        inside.extend([bare(DELETED), Tok::integer(9)]);
        cases.tokens("text", what(", and `deleted`"), around(inside));
    }
    cases.listings(&[
        ("text", "`deleted` alone", "struct A { deleted 1 }"),
        ("text", "`deleted` without an index, alone", "struct A { deleted }"),
        ("text", "`deleted` without an index, after fields", "struct A { x = 0 deleted }"),
        ("text", "one field and `deleted`", "struct A { x = 0 deleted 1 }"),
        ("text", "a commented field and `deleted`", "struct A { # c\nx = 0 deleted 1 }"),
        ("text", "two paragraphs", "# a\n#\n# b"),
        ("text", "three paragraphs before an import", "# a\n#\n# b\n#\n# c\nimport 'a.t'"),
        ("text", "two paragraphs of a declaration", "# a\n#\n# b\nstruct A { }"),
        ("text", "two paragraphs of a field", "struct A { # a\n#\n# b\nx = 0 }"),
    ]);
}

fn order(cases: &mut Cases) {
    cases.listings(&[
        ("text", "a prefix first", "import 'ab' import 'a'"),
        ("text", "`_` before letters", "import 'ab' import 'a_b' import 'a'"),
        ("text", "digits before `_`", "import 'a_b' import 'a1' import 'a'"),
        ("text", "capitals fall together with small letters", "import 'b' import 'C' import 'A'"),
        ("text", "a break before each capital", "import 'aBc' import 'abc' import 'AB'"),
        ("text", "a name of no words first", "import 'a' import '_'"),
        ("text", "odd bytes in stems", "import '~' import ' ' import '!' import 'a'"),
        ("text", "names, not paths", "import 'a.t' as z import 'z.t' as a"),
        ("text", "five in reverse order", "import 'e' import 'd' import 'c' import 'b' import 'a'"),
        ("text", "nine mixed", "import 'c' import 'i' import 'a' import 'h' import 'e' import 'b' import 'g' import 'd' import 'f'"),
        ("text", "indices in reverse order", "struct A { deleted 5 4 3 2 1 0 }"),
        ("text", "indices mixed", "struct A { deleted 7 10 3 256 0 255 65536 1 }"),
        ("text", "indices that differ in the high bytes", "struct A { deleted 72057594037927936 256 1 65536 4294967296 }"),
        ("text", "the largest indices", "struct A { deleted 18446744073709551615 9223372036854775808 18446744073709551614 9223372036854775807 }"),
        ("text", "declarations stay in their order", "struct B { } struct A { } choice C { } choice A { }"),
    ]);
}

fn numbers(cases: &mut Cases) {
    let mut numbers = vec![0, u64::MAX - 1, u64::MAX, u64::from(u32::MAX), 1 << 32, 1 << 63];
    for digits in 1..20 {
        numbers.extend([10_u64.pow(digits) - 1, 10_u64.pow(digits)]);
    }
    for number in numbers {
        let field = format!("struct A {{ x = {number} deleted {number} }}");
        cases.listing("text", "", &field);
    }
    let every = (0..20).map(|digits| Tok::integer(10_u64.pow(digits)));
    let inside = [vec![bare(DELETED)], every.rev().collect()].concat();
    cases.tokens("text", "every power of ten, in reverse order", around(inside));
}

fn types(cases: &mut Cases) {
    for kind in PLAIN_TYPES {
        for arrays in 0..3 {
            let inside = [
                vec![Tok::name("x"), bare(COLON)],
                vec![bare(LEFT_SQUARE); arrays],
                vec![bare(kind)],
                vec![bare(RIGHT_SQUARE); arrays],
                vec![bare(EQUALS), Tok::integer(0)],
            ];
            let what = format!("kind {kind} in {arrays} arrays");
            cases.tokens("text", what, around(inside.concat()));
        }
    }
    cases.listings(&[
        ("text", "a field without a type", "struct A { x = 0 }"),
        ("text", "a field of Unit", "struct A { x: Unit = 0 }"),
        ("text", "an array of Unit", "struct A { x: [ Unit ] = 0 }"),
        (
            "text",
            "a type named as a plain one",
            "struct A { x: unit = 0 y: u64 = 1 z: string = 2 }",
        ),
        ("text", "a custom type in snake case", "struct A { x: op_table = 0 }"),
        ("text", "an import in Pascal case", "struct A { x: OpTable . op_table = 0 }"),
        ("text", "an import of no words", "struct A { x: _ . a = 0 }"),
        ("text", "a type of no words", "struct A { x: a . _ = 0 y: _ = 1 }"),
    ]);
}

fn names(cases: &mut Cases) {
    for name in [
        "a", "A", "_", "__", "_-_", "_a", "a_", "a-", "_-a", "a_b", "a-b", "a__b", "aB", "AB",
        "ABc", "aBC", "A_B", "A-B", "a1", "a_1", "A1", "a1B", "_1", "_1a", "op_8d", "Op8d",
        "op-8D", "HTTPPort", "httpPort", "HttpPort", "x86_64", "Ab1C2", "Z9_z-Z", "Struct",
        "Deleted", "Bool2",
    ] {
        let listing = format!("struct {name} {{ {name}: {name} . {name} = 0 }}");
        cases.listing("text", "", &listing);
    }
    let long = "aB".repeat(64);
    let listing = format!("struct {long} {{ {long}: {long} = 0 }}");
    cases.listing("text", "128 bytes, 128 words", &listing);
}
