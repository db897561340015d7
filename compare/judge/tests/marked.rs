//! Document 01's cases, the marked ones and the rest, as the judge answers them.

use judge::{check::check, names, parse::bare, typefmt};
use tables::{listing::assemble, special, token::*};

fn printed(listing: &str) -> String {
    typefmt(&assemble(listing).unwrap())
}

fn special_printed(wanted: &str) -> String {
    let (_, table) = special::all().into_iter().find(|(name, _)| *name == wanted).unwrap();
    typefmt(&table)
}

#[test]
fn opcode_8d() {
    let text = "struct Op8d {\n    cycles: U64 = 0\n\n    deleted 1 2\n}\n";
    assert_eq!(printed("struct op_8d { cycles: U64 = 0 deleted 2 1 }"), text);
}

#[test]
fn errors_in_two_declarations() {
    let listing = "struct A { x 3 } choice B { y = 0 deleted 4 4 }";
    assert_eq!(printed(listing), "E 12 13 14 14\nE 16 44 45 0\n");
}

#[test]
fn cut_after_a_field_name() {
    assert_eq!(printed("struct A { x"), "E 12 12 12 0\nE 5 12 12 0\n");
}

#[test]
fn empty_table() {
    assert_eq!(typefmt(&[]), "");
}

#[test]
fn comments_alone() {
    assert_eq!(printed("# one"), "# one\n");
    assert_eq!(printed("# one\n\n# two"), "PANIC\nE 18 7 12 0\n");
}

#[test]
fn dots_near_the_end() {
    assert_eq!(printed("struct A { x: y ."), "E 12 16 17 9\nE 5 17 17 0\n");
    assert_eq!(printed("struct A { x: y . z"), "E 12 19 19 0\nE 5 19 19 0\n");
}

#[test]
fn deleted_after_a_failed_field() {
    assert_eq!(printed("struct A { x deleted 1 1 }"), "E 12 13 20 8\n");
}

#[test]
fn names_of_the_paper() {
    assert_eq!(names::pascal(b"foo_1").unwrap(), "Foo1");
    assert!(!names::survives(b"foo_1").unwrap());
    assert_eq!(names::snake(b"HTTPPort").unwrap(), "h_t_t_p_port");
    assert_eq!(names::snake(&[b'A'; 128]).unwrap().len(), 255);
    assert_eq!(names::snake(b"_").unwrap(), "");
}

#[test]
fn squares_in_a_row() {
    let inner = format!("{}Unit{}", "[".repeat(64), "]".repeat(64));
    let text = format!("struct A {{\n    x: {inner} = 0\n}}\n");
    assert_eq!(special_printed("squares-64"), text);
    // Five records of 12 bytes, two of them with a name of one byte, and 64 more.
    assert_eq!(special_printed("squares-65"), format!("R 7 {}\n", 5 * 12 + 2 + 64 * 12));
}

#[test]
fn limits_of_a_table() {
    assert_eq!(special_printed("tokens-4097"), "R 6 49152\n");
    assert_eq!(special_printed("byte-after-4096"), "R 6 49152\n");
    assert_eq!(special_printed("bytes-65537"), "R 1 0\n");
    assert!(special_printed("bytes-65536").starts_with("# www"));
    assert!(special_printed("largest").starts_with("struct LargestOfAll {\n    f000 = 0\n"));
    assert_eq!(special_printed("all-errors").lines().count(), 4_096);
    assert_eq!(special_printed("import-capitals"), "R 8 0\n");
    assert_eq!(special_printed("long-paths"), "R 8 0\n");
}

fn first_comment(end: u32, start: u32) -> String {
    let mut tokens = vec![Tok::comment(&["c"]), Tok::bare(STRUCT), Tok::name("A")];
    tokens.extend([Tok::bare(LEFT_CURLY), Tok::bare(RIGHT_CURLY)]);
    for token in &mut tokens[1..] {
        (token.start, token.end) = (start, start);
    }
    (tokens[0].start, tokens[0].end) = (0, end);
    typefmt(&table(&tokens))
}

#[test]
fn whose_comment() {
    assert_eq!(first_comment(10, 10), "# c\nstruct A {\n}\n");
    assert_eq!(first_comment(10, 11), "# c\nstruct A {\n}\n");
    assert_eq!(first_comment(10, 12), "# c\n\nstruct A {\n}\n");
    assert_eq!(first_comment(u32::MAX, u32::MAX), "# c\nstruct A {\n}\n");
}

#[test]
fn stems() {
    assert_eq!(printed("import 'b/op.t' as op"), "import 'b/op.t'\n");
    assert_eq!(printed("import '.t' as x"), "import '.t' as x\n");
    assert_eq!(printed("import 'a/..'"), "E 14 0 13 0\n");
    assert_eq!(printed("import '..' import ''"), "E 14 0 11 0\nE 14 12 21 0\nE 15 12 21 0\n");
    assert_eq!(printed("import 'opTable.t' import 'op_table.t'"), "E 15 19 38 0\n");
}

#[test]
fn tokens_that_share_an_empty_range() {
    let mut tokens = vec![Tok::bare(STRUCT), Tok::bare(CHOICE), Tok::bare(DELETED)];
    for token in &mut tokens {
        (token.start, token.end) = (4, 4);
    }
    assert_eq!(typefmt(&table(&tokens)), "E 2 4 4 5\n");
}

#[test]
fn long_paragraphs_wrap_greedily() {
    let word = "w".repeat(80);
    let seventy = "a".repeat(70);
    let text = printed(&format!("# {seventy} 123456\n"));
    assert_eq!(text, format!("# {seventy} 123456\n"));
    let text = printed(&format!("# {seventy} 1234567\n# {word} end\n"));
    assert_eq!(text, format!("# {seventy}\n# 1234567\n# {word}\n# end\n"));
}

/// Why long paragraphs are not compared: the Rust breaks a word that does not
/// fit, and it evens lines out where document 01 fills them.
#[test]
fn the_rust_wraps_otherwise() {
    let by_the_rust =
        |listing: &str| bare(&check(&assemble(listing).unwrap()).unwrap()).unwrap().to_string();
    let word = format!("# {}", "w".repeat(78));
    assert_eq!(by_the_rust(&word), format!("# {}\n# w\n", "w".repeat(77)));
    assert_eq!(printed(&word), format!("{word}\n"));
    let [x, y, w] = [("x", 40), ("y", 36), ("w", 76)].map(|(letter, count)| letter.repeat(count));
    let uneven = format!("# {x} {y} zz {w}");
    assert_eq!(by_the_rust(&uneven), format!("# {x}\n# {y} zz\n# {w}\n"));
    assert_eq!(printed(&uneven), format!("# {x} {y}\n# zz\n# {w}\n"));
}

fn record(length: u16, kind: u16, start: u32, end: u32, payload: &[u8]) -> Vec<u8> {
    let head = [length.to_le_bytes(), kind.to_le_bytes()].concat();
    let range = [start.to_le_bytes(), end.to_le_bytes()].concat();
    [head, range, payload.to_vec()].concat()
}

#[test]
fn refusals_and_their_order() {
    let good = record(13, 12, 0, 5, b"a");
    let after = |bad: Vec<u8>| typefmt(&[good.clone(), bad].concat());
    assert_eq!(typefmt(&[0; 11]), "R 2 0\n");
    assert_eq!(after(vec![1]), "R 2 13\n");
    assert_eq!(after(record(11, 1, 5, 5, b"")), "R 2 13\n");
    assert_eq!(after(record(13, 1, 5, 5, b"")), "R 2 13\n");
    assert_eq!(after(record(13, 0, 9, 5, b"x")), "R 3 13\n");
    assert_eq!(after(record(12, 26, 5, 5, b"")), "R 3 13\n");
    assert_eq!(after(record(13, 1, 9, 5, b"x")), "R 4 13\n");
    assert_eq!(after(record(14, 12, 5, 5, b"-x")), "R 4 13\n");
    assert_eq!(after(record(19, 14, 5, 5, &[0; 7])), "R 4 13\n");
    assert_eq!(after(record(13, 18, 5, 5, b"'")), "R 4 13\n");
    assert_eq!(after(record(16, 7, 5, 5, &[1, 0, b'a', 0])), "R 4 13\n");
    assert_eq!(after(record(12, 1, 4, 9, b"")), "R 5 13\n");
    assert_eq!(after(record(12, 1, 9, 8, b"")), "R 5 13\n");
    assert_eq!(after(record(12, 1, 5, 5, b"")), "E 1 0 5 12\n");
    // A late refusal hides earlier errors, and the first faulty record decides.
    assert_eq!(after([record(12, 26, 5, 5, b""), vec![1]].concat()), "R 3 13\n");
}
