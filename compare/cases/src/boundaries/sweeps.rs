//! Every kind of token where each thing is due: the found kinds.

use super::{Cases, bare};
use tables::{places::lay_plainly, short::every_kind, token::*};

/// A start after which one kind is due, and the number where another comes.
struct Due {
    what: &'static str,
    start: Vec<Tok>,
    number: u16,
}

pub fn add(cases: &mut Cases) {
    cases.group("Every kind where each thing is due");
    for due in all() {
        for token in every_kind() {
            let kind = token.kind;
            let mut tokens = [due.start.clone(), vec![token], vec![bare(RIGHT_CURLY)]].concat();
            lay_plainly(&mut tokens);
            let numbers = numbers(&due, kind);
            cases.placed(
                &numbers,
                format!("{} is due, kind {kind} and `}}` come", due.what),
                &tokens,
            );
        }
    }
}

fn all() -> Vec<Due> {
    let open = super::open("A");
    let inside = |more: &[Tok]| [open.clone(), more.to_vec()].concat();
    let x = || Tok::name("x");
    let due = |what, number, start| Due { what, start, number };
    vec![
        due("a declaration", 1, vec![]),
        due("a declaration's keyword", 1, inside(&[bare(RIGHT_CURLY), Tok::comment(&["c"])])),
        due("a struct name", 2, vec![bare(STRUCT)]),
        due("a choice name", 3, vec![bare(CHOICE)]),
        due("`{`", 4, vec![bare(STRUCT), x()]),
        due("an index or `}`", 5, inside(&[bare(DELETED)])),
        due("a path", 6, vec![bare(IMPORT)]),
        due("an import's name", 7, vec![bare(IMPORT), Tok::path("a.t"), bare(AS)]),
        due("a field", 8, open.clone()),
        due("a field's name", 8, inside(&[bare(OPTIONAL)])),
        due("a type", 9, inside(&[x(), bare(COLON)])),
        due("a type's name", 9, inside(&[x(), bare(COLON), Tok::name("m"), bare(DOT)])),
        due("`]`", 11, inside(&[x(), bare(COLON), bare(LEFT_SQUARE), bare(BOOL)])),
        due("`=`", 12, inside(&[x(), bare(COLON), bare(UNIT)])),
        due("an index", 13, inside(&[x(), bare(EQUALS)])),
    ]
}

/// Where the kind is the due one, or one that is read on.
const KNOWN: [(&str, u16, &str); 24] = [
    ("a declaration", COMMENT, "E1"),
    ("a declaration", IMPORT, "E6,1"),
    ("a declaration", STRUCT, "E2"),
    ("a declaration", CHOICE, "E3"),
    ("a declaration's keyword", STRUCT, "E2"),
    ("a declaration's keyword", CHOICE, "E3"),
    ("a struct name", IDENTIFIER, "E4"),
    ("a choice name", IDENTIFIER, "E4"),
    ("`{`", LEFT_CURLY, "text"),
    ("an index or `}`", INTEGER, "text"),
    ("an index or `}`", RIGHT_CURLY, "E1"),
    ("a path", PATH, "E1"),
    ("a path", IMPORT, "E6,6,1"),
    ("an import's name", IDENTIFIER, "E1"),
    ("an import's name", IMPORT, "E7,6,1"),
    ("a field", IDENTIFIER, "E12"),
    ("a field", DELETED, "text"),
    ("a field", RIGHT_CURLY, "E1"),
    ("a field's name", IDENTIFIER, "E12"),
    ("a type", IDENTIFIER, "E12"),
    ("a type's name", IDENTIFIER, "E12"),
    ("`]`", RIGHT_SQUARE, "E12"),
    ("`=`", EQUALS, "E13"),
    ("an index", INTEGER, "text"),
];

/// The numbers that the list's answer is made of.
fn numbers(due: &Due, kind: u16) -> String {
    let plain = PLAIN_TYPES.contains(&kind);
    if let Some((_, _, answer)) = KNOWN.iter().find(|known| (known.0, known.1) == (due.what, kind))
    {
        return (*answer).to_owned();
    }
    match due.what {
        "a type" if plain => "E12".to_owned(),
        // An import that fails leaves its place, and no declaration begins there.
        "a path" | "an import's name" => match kind {
            STRUCT => format!("E{},2", due.number),
            CHOICE => format!("E{},3", due.number),
            _ => format!("E{},1", due.number),
        },
        // Recovery stops at the first of two `}`, the second begins no declaration.
        _ if kind == RIGHT_CURLY && due.number > 7 => format!("E{},1", due.number),
        _ => format!("E{}", due.number),
    }
}
