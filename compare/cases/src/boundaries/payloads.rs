//! R4: the payload of each kind of token.

use super::{Cases, around, bare, declaration};
use tables::token::*;

pub fn add(cases: &mut Cases) {
    cases.group("Payloads: names (R4)");
    names(cases);
    cases.group("Payloads: paths (R4)");
    paths(cases);
    cases.group("Payloads: integers and tokens without payload (R4)");
    integers(cases);
    no_payload(cases);
    cases.group("Payloads: comments (R4)");
    paragraphs(cases);
    comments(cases);
}

/// The ends of each class of bytes and their neighbours.
const EDGES: [u8; 30] = [
    0x00, 0x1F, b' ', b'!', b'#', b'\'', b',', b'-', b'.', b'/', b'0', b'9', b':', b'@', b'A',
    b'Z', b'[', b'\\', b']', b'^', b'_', b'`', b'a', b'z', b'{', b'~', 0x7F, 0x80, 0xC3, 0xFF,
];

fn shown(byte: u8) -> String {
    match byte {
        b'`' | b'|' | 0x00..=0x20 | 0x7F.. => format!("0x{byte:02X}"),
        _ => format!("`{}`", byte as char),
    }
}

fn names(cases: &mut Cases) {
    let struct_named = |name: &[u8]| vec![bare(STRUCT), Tok::name(name), bare(15), bare(19)];
    cases.tokens("R4", "a name of 0 bytes", struct_named(b""));
    cases.tokens("text", "a name of 1 byte", struct_named(b"a"));
    cases.tokens("text", "a name of 127 bytes", struct_named(&[b'a'; 127]));
    cases.tokens("text", "a name of 128 bytes", struct_named(&[b'a'; 128]));
    cases.tokens("R4", "a name of 129 bytes", struct_named(&[b'a'; 129]));
    cases.tokens(
        "text",
        "a name of 128 capitals, snake case of 255 bytes",
        around(vec![Tok::name([b'A'; 128]), bare(EQUALS), Tok::integer(0)]),
    );
    for byte in EDGES {
        let letter = byte.is_ascii_alphabetic() || byte == b'_';
        let due = if letter { "text" } else { "R4" };
        cases.tokens(
            due,
            format!("a name that begins with {}", shown(byte)),
            struct_named(&[byte]),
        );
        let due = if letter || byte.is_ascii_digit() || byte == b'-' { "text" } else { "R4" };
        cases.tokens(
            due,
            format!("a name that goes on with {}", shown(byte)),
            struct_named(&[b'x', byte]),
        );
    }
    let mut last = [b'a'; 128];
    last[127] = b'.';
    cases.tokens("R4", "the 128th byte of a name is `.`", struct_named(&last));
}

fn paths(cases: &mut Cases) {
    let import = |path: &[u8]| vec![bare(IMPORT), Tok::path(path), bare(AS), Tok::name("m")];
    cases.tokens("text", "a path of 0 bytes", import(b""));
    cases.tokens("text", "a path of 1 byte", import(b"a"));
    cases.tokens("text", "a path of 128 bytes", import(&[b'a'; 128]));
    cases.tokens("R4", "a path of 129 bytes", import(&[b'a'; 129]));
    for byte in EDGES {
        let due = if (0x20..=0x7E).contains(&byte) && byte != 0x27 { "text" } else { "R4" };
        cases.tokens(due, format!("a path with {} last", shown(byte)), import(&[b'a', byte]));
    }
    cases.tokens("R4", "a path with `'` first", import(b"'a"));
    cases.tokens("R4", "a path with a newline", import(b"a\nb"));
    cases.tokens("text", "a path of spaces", import(b"   "));
    cases.tokens("text", "a path with double quotes", import(b"\"a\""));
}

fn integers(cases: &mut Cases) {
    for length in [0, 1, 4, 7, 8, 9, 16] {
        let due = if length == 8 { "text" } else { "R4" };
        let field = vec![Tok::name("x"), bare(EQUALS), Tok::with(INTEGER, vec![1; length])];
        cases.tokens(due, format!("an integer of {length} bytes"), around(field));
    }
}

fn no_payload(cases: &mut Cases) {
    for kind in (1..26).filter(|kind| ![COMMENT, IDENTIFIER, INTEGER, PATH].contains(kind)) {
        let bytes = [declaration(), table(&[Tok::with(kind, vec![0])])].concat();
        cases.bytes("R4", format!("kind {kind} with a payload of 1 byte"), bytes);
    }
}

fn counted(paragraph: &[u8]) -> Vec<u8> {
    [&(paragraph.len() as u16).to_le_bytes(), paragraph].concat()
}

fn paragraphs(cases: &mut Cases) {
    let mut one = |due: &str, what: &str, paragraph: &[u8]| {
        cases.tokens(due, what, vec![Tok::with(COMMENT, counted(paragraph))]);
    };
    one("R4", "a paragraph of 0 bytes", b"");
    one("text", "a paragraph of 1 byte", b"a");
    one("text", "a paragraph of 1,024 bytes", &[b'a'; 1_024]);
    one("R4", "a paragraph of 1,025 bytes", &[b'a'; 1_025]);
    one("R4", "a space alone", b" ");
    one("R4", "a space first", b" a");
    one("R4", "a space last", b"a ");
    one("R4", "two spaces together", b"a  b");
    one("R4", "two spaces together, far in", b"a b c d e f g  h");
    one("R4", "two spaces alone", b"  ");
    one("text", "single spaces", b"a b c");
    one("R4", "a tab", b"a\tb");
    one("R4", "a newline", b"a\nb");
    for byte in EDGES {
        if byte != b' ' {
            let due = if (0x21..=0x7E).contains(&byte) { "text" } else { "R4" };
            one(due, &format!("a paragraph with {} last", shown(byte)), &[b'a', byte]);
        }
    }
}

fn comments(cases: &mut Cases) {
    let mut one = |due: &str, what: &str, payload: Vec<u8>| {
        cases.tokens(due, what, vec![Tok::with(COMMENT, payload)]);
    };
    one("R4", "no paragraph", vec![]);
    one("text", "2 paragraphs", counted(b"a").repeat(2));
    one("text", "32 paragraphs", counted(b"a").repeat(32));
    one("R4", "33 paragraphs", counted(b"a").repeat(33));
    one("R4", "64 paragraphs", counted(b"a").repeat(64));
    one("R4", "1 byte of a length", vec![1]);
    one("R4", "a length and no bytes", vec![1, 0]);
    one("R4", "a paragraph cut short by one byte", vec![3, 0, b'a', b'b']);
    one("R4", "a length whose high byte is 1", vec![1, 1, b'a']);
    one("R4", "the largest length", vec![255, 255, b'a']);
    one("R4", "1 byte after the last paragraph", [counted(b"a"), vec![1]].concat());
    one("R4", "2 bytes after the last paragraph", [counted(b"a"), vec![0, 0]].concat());
    one("R4", "the second paragraph is empty", [counted(b"a"), counted(b"")].concat());
    one("R4", "the second paragraph begins with a space", [counted(b"a"), counted(b" b")].concat());
    one("R4", "the second paragraph is cut short", [counted(b"a"), vec![2, 0, b'b']].concat());
    one("R4", "1 byte after 32 paragraphs", [counted(b"a").repeat(32), vec![0]].concat());
    let last_long = [counted(b"a").repeat(31), counted(&[b'b'; 1_025])].concat();
    one("R4", "the 32nd paragraph has 1,025 bytes", last_long);
}
