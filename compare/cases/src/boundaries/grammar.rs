//! What is read without an error: whose comment, which name, which range.

use super::{Cases, bare};
use tables::{listing::scan, token::*};

pub fn add(cases: &mut Cases) {
    cases.group("The comment rule");
    comment_rule(cases);
    comment_listings(cases);
    cases.group("Import names");
    import_names(cases);
    cases.group("Grammar");
    cases.listings(&[
        ("text", "an empty struct", "struct A { }"),
        ("text", "an empty choice", "choice A { }"),
        ("text", "a required field", "struct A { x: Bool = 0 }"),
        ("text", "an asymmetric field", "struct A { asymmetric x: Bool = 0 }"),
        ("text", "an optional field", "choice A { optional x: Bool = 0 }"),
        ("text", "a custom type", "struct A { x: b = 0 }"),
        ("text", "an imported type", "struct A { x: m . b = 0 }"),
        ("text", "an array of an imported type", "struct A { x: [ m . b ] = 0 }"),
        ("text", "an array of arrays", "struct A { x: [ [ [ S64 ] ] ] = 0 }"),
        ("text", "no type in the list's middle", "struct A { x = 0 y = 1 }"),
        ("text", "the same name twice", "struct A { x = 0 } struct A { x = 0 }"),
        ("text", "fields out of order", "struct A { b = 7 a = 3 }"),
    ]);
}

fn comment_rule(cases: &mut Cases) {
    let most = u32::MAX;
    let mut places = vec![];
    for gap in 0..4 {
        places.push((format!("the keyword {gap} after the comment's end"), 10, 10 + gap));
        places.push((format!("{gap} apart, at the largest place"), most - gap, most));
    }
    places.push(("256 apart".to_owned(), 0, 256));
    places.push(("as far apart as can be".to_owned(), 0, most));
    for (what, end, start) in places {
        for keyword in [STRUCT, CHOICE] {
            let at = |token: Tok, start, end| Tok { start, end, ..token };
            let rest = if start == most { most } else { most - 1 };
            let tokens = [
                at(Tok::comment(&["c"]), 0, end),
                at(bare(keyword), start, rest),
                at(Tok::name("A"), rest, rest),
                at(bare(LEFT_CURLY), rest, rest),
                at(bare(RIGHT_CURLY), rest, rest),
            ];
            let what = format!("{what}, kind {keyword}");
            cases.placed("text", what, &tokens);
        }
    }
}

fn comment_listings(cases: &mut Cases) {
    cases.listings(&[
        ("text", "an import next: the schema's", "# c\nimport 'a.t'"),
        ("text", "an import next, then a struct", "# c\nimport 'a.t' struct A { }"),
        ("text", "a second comment: the first is the schema's", "# a\n\n# b\nstruct A { }"),
        ("text", "the second stands far off", "# a\n\n# b\n\n\nstruct A { }"),
        ("text", "a comment of a later declaration, far off", "struct A { }# c\n\n\nstruct B { }"),
        ("text", "a comment after an import, far off", "import 'a.t' # c\n\n\nstruct B { }"),
        ("E1", "another token next: the schema's", "# c\n{"),
        ("E1", "a type next: the schema's", "# c\nU64"),
        ("E2", "the declaration's, then an error", "# c\nstruct"),
        ("E2", "the schema's, then an error", "# c\n\nstruct"),
    ]);
    let mut tokens = scan("# c\nstruct A { }").expect("the listing is well formed");
    tokens[0].end = tokens[0].start;
    cases.placed("text", "an empty range of the comment", &tokens);
}

/// Each has a stem.
const PATHS: [&str; 40] = [
    "a",
    "a.t",
    "a.b.t",
    ".a",
    ".a.t",
    "..a",
    "..a.t",
    "...",
    "....",
    "a.",
    "a..",
    ".a.",
    "a/b.t",
    "a/",
    "a//",
    "a/.",
    "a/./",
    "./a",
    "../a.t",
    "/a.t",
    "//a.t",
    "a/../b.t",
    "a/.b",
    "a/..b",
    "a/b/c/d.t",
    " ",
    "a b.t",
    "-",
    "_",
    "_.t",
    "-.t",
    "A.t",
    "opTable.t",
    "op-8d.t",
    "a.B.c",
    "~",
    "\"",
    "a\\b.t",
    "a/...",
    "x.y/z",
];

fn import_names(cases: &mut Cases) {
    for path in PATHS {
        cases.listing("text", "", &format!("import '{path}'"));
    }
    cases.listings(&[
        ("text", "`as` the stem", "import 'op.t' as op"),
        ("text", "`as` the stem's snake case", "import 'op_table.t' as opTable"),
        ("text", "`as` the stem in capitals", "import 'op.t' as Op"),
        ("text", "`as` another name", "import 'op.t' as pO"),
        ("text", "`as` a name of no words", "import 'op.t' as _"),
        ("text", "`as` a name of no words, as the stem", "import '-.t' as _"),
        ("text", "`as` without a stem", "import '' as a"),
        ("text", "`as` with the extension's name", "import 'a.t' as t"),
        ("text", "a name that is a keyword's word", "import 'struct.t'"),
    ]);
}
