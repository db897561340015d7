//! Paragraphs that fit a line exactly, by one byte not, and longer ones.

use super::{Cases, around, bare};
use tables::token::*;

pub fn add(cases: &mut Cases) {
    cases.group("Text: wrapping at 77 columns, in fields at 73");
    for (what, columns) in [("", 77), (" in a field", 73)] {
        for (of, words) in [edges(columns), mixed(columns)].concat() {
            let comment = Tok::comment(&[words_of(&words)]);
            let tokens = if columns == 77 {
                vec![comment]
            } else {
                around(vec![comment, Tok::name("x"), bare(EQUALS), Tok::integer(0)])
            };
            cases.tokens("text", format!("{of}{what}"), tokens);
        }
    }
    places(cases);
}

/// The lengths of a paragraph's words, and what they test.
type Words = (String, Vec<usize>);

fn edges(columns: usize) -> Vec<Words> {
    let mut all = vec![];
    for length in [columns - 1, columns, columns + 1, columns + 2, 2 * columns, 1_024] {
        all.push((format!("one word of {length} bytes"), vec![length]));
    }
    for first in [1, 36, columns - 2] {
        for total in [columns - 1, columns, columns + 1] {
            let second = total - 1 - first;
            if second > 0 {
                all.push((format!("words of {first} and {second} bytes"), vec![first, second]));
            }
        }
    }
    for total in [columns, columns + 1] {
        let (ten, rest) = (10, total - 32);
        all.push((format!("three words, {total} bytes in all"), vec![ten, 20, rest]));
        let what = format!("a full line, then three words of {total} bytes in all");
        all.push((what, vec![columns, ten, 20, rest]));
    }
    all
}

fn mixed(columns: usize) -> Vec<Words> {
    let named = |what: &str, words: &[usize]| (what.to_owned(), words.to_vec());
    vec![
        named("a long word between short ones", &[1, columns + 1, 1]),
        named("a long word first", &[columns + 1, 1, 1]),
        named("a long word last", &[1, 1, columns + 1]),
        named("two long words", &[columns + 1, columns + 1]),
        named("a full line and a word of 1 byte", &[columns, 1]),
        named("a word of 1 byte and a full line", &[1, columns]),
        named("words of 40, 36, 2 and 76 bytes", &[40, 36, 2, 76]),
        named("words of 1 byte, 1,023 bytes in all", &[1; 512]),
        named("words of 9 bytes", &[9; 102]),
    ]
}

fn places(cases: &mut Cases) {
    let long = Tok::comment(&[words_of(&[30, 30, 30, 30]), b"short".to_vec(), words_of(&[80, 3])]);
    let declaration = [vec![long.clone()], around(vec![])].concat();
    cases.tokens("text", "three paragraphs of a declaration, two long", declaration.clone());
    let import = vec![long.clone(), bare(IMPORT), Tok::path("a.t")];
    cases.tokens(
        "text",
        "long paragraphs of schema and declaration",
        [import, declaration].concat(),
    );
    let field = vec![long.clone(), Tok::name("x"), bare(EQUALS), Tok::integer(0)];
    let fields = [field.clone(), field].concat();
    cases.tokens("text", "long paragraphs of two fields", around(fields));
}

fn words_of(lengths: &[usize]) -> Vec<u8> {
    let words: Vec<Vec<u8>> =
        lengths.iter().zip((b'a'..=b'z').cycle()).map(|(n, b)| vec![b; *n]).collect();
    words.join(&b' ')
}
