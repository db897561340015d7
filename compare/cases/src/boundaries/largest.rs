//! The largest tables and answers, and R8 as a program that lends 65,536 bytes
//! gives it.

use super::{Cases, around, bare, open};
use tables::{places::lay_plainly, special, token::*};

pub fn add(cases: &mut Cases) {
    cases.group("The largest tables");
    cases.tokens("text", "4,096 tokens in 65,536 bytes", special::largest());
    cases.tokens("text", "2,048 imports in reverse order", special::imports_reversed(2_048));
    cases.tokens(
        "text",
        "3,200 deleted indices in reverse order",
        special::deleted_reversed(3_200),
    );
    cases.tokens("R8", "361 names of 128 capitals", special::capitals());
    let capitals = (0..240).flat_map(|number| {
        let mut name = [b'B'; 128];
        name[number % 128] = b'C';
        [Tok::name(name), bare(EQUALS), Tok::integer(number as u64)]
    });
    cases.tokens("text", "240 names of 128 capitals", around(capitals.collect()));
    let full = Tok::comment(&vec![[b'w'; 1_024]; 32]);
    let many = Tok::comment(&vec![b"word ".repeat(204).trim_ascii_end().to_vec(); 32]);
    cases.tokens("text", "a comment of 32 paragraphs of one word of 1,024 bytes", vec![full]);
    cases.tokens("text", "a comment of 32 paragraphs of 204 words", vec![many]);
    let twice = [vec![bare(DELETED)], vec![Tok::integer(7); 3_200]].concat();
    cases.tokens("E16 3,199 times", "one index deleted 3,200 times", around(twice));
    let nameless = vec![[bare(IMPORT), Tok::path("..")]; 2_048].concat();
    let due = "E14 and 15, 4,095 in all";
    cases.tokens(due, "2,048 imports without a name", nameless);
    let failing = vec![[open("A"), vec![Tok::name("x"), bare(RIGHT_CURLY)]].concat(); 800].concat();
    cases.tokens("E12 800 times", "800 declarations with a failed field each", failing);
    let arrays =
        [vec![bare(LEFT_SQUARE); 64], vec![bare(BOOL)], vec![bare(RIGHT_SQUARE); 64]].concat();
    let field =
        [vec![Tok::name("x"), bare(COLON)], arrays, vec![bare(EQUALS), Tok::integer(0)]].concat();
    cases.tokens("text", "30 fields of 64 arrays", around(vec![field; 30].concat()));
    cases.group("Answers of 65,536 bytes and more: R8");
    cases.bytes("text", "a schema table of 65,536 bytes", wide_schema(65_536));
    cases.bytes("R8", "a schema table of 65,537 bytes", wide_schema(65_537));
    cases.bytes("text", "a text of 65,536 bytes", wide_text(65_536));
    cases.bytes("R8", "a text of 65,537 bytes", wide_text(65_537));
}

/// Paths come twice in a schema table: as path and as name.
fn wide_schema(bytes: usize) -> Vec<u8> {
    let count = (bytes - 14) / 270;
    let mut tokens = special::long_paths(count);
    // The last import has its name after `as`, so its bytes can be any number.
    let left = bytes - 270 * count - 14;
    let (path, name) = if left > 129 { (left - 128, 128) } else { (0, left) };
    let name = vec![b'z'; name];
    tokens.extend([bare(IMPORT), Tok::path(vec![b'z'; path]), bare(AS), Tok::name(name)]);
    finish(tokens)
}

/// Names of 128 capitals have twice as many bytes in the text.
fn wide_text(bytes: usize) -> Vec<u8> {
    let one = b"import 'a.t' as \n".len() + 255;
    let last = b"import '' as b\n".len();
    let count = (bytes - last) / one;
    let mut tokens = special::import_capitals(count);
    let mut left = bytes - one * count - last;
    let mut name = b"b".to_vec();
    if left > 128 {
        name.resize(1 + left - 128, b'b');
        left = 128;
    }
    tokens.extend([bare(IMPORT), Tok::path(vec![b'q'; left]), bare(AS), Tok::name(name)]);
    finish(tokens)
}

fn finish(mut tokens: Vec<Tok>) -> Vec<u8> {
    lay_plainly(&mut tokens);
    table(&tokens)
}
