//! Tables built for one purpose each: the limits, and the slowest inputs.

use crate::{places::lay_plainly, rng::Rng, token::*};

/// Every special table with its name.
pub fn all() -> Vec<(&'static str, Vec<u8>)> {
    vec![
        ("small", finish(small())),
        ("typical", finish(typical(300))),
        ("largest", finish(largest())),
        ("all-errors", finish(all_errors(4_096))),
        ("imports-reversed", finish(imports_reversed(2_048))),
        ("deleted-reversed", finish(deleted_reversed(3_200))),
        ("capitals", finish(capitals())),
        ("import-capitals", finish(import_capitals(365))),
        ("long-paths", finish(long_paths(431))),
        ("squares-64", finish(squares(64))),
        ("squares-65", finish(squares(65))),
        ("tokens-4097", finish(all_errors(4_097))),
        ("byte-after-4096", [finish(all_errors(4_096)), vec![0]].concat()),
        ("bytes-65536", finish(bytes_total(65_536))),
        ("bytes-65537", finish(bytes_total(65_537))),
        ("long-comment", finish(long_comment())),
    ]
}

/// Tables that take long to put in order or to search for repeats. They stand
/// apart, since the seeded cases draw from `all`.
pub fn unordered() -> Vec<(&'static str, Vec<u8>)> {
    let imports = imports(shuffled(2_048).map(|number| format!("m{number:04}.t")));
    let indices: Vec<u64> = shuffled(3_200).map(|index| index as u64).collect();
    let alike = "p".repeat(100);
    let long = shuffled(480).map(|number| format!("{alike}{number:04}.t"));
    let pairs = shuffled(3_200).map(|index| index as u64 / 2);
    vec![
        ("imports-repeated", finish(with_copy(&imports, 3_001, 4_001))),
        ("imports-random", finish(imports)),
        ("imports-long", finish(self::imports(long))),
        ("deleted-repeated", finish(deleted(with_copy(&indices, 1_001, 3_001)))),
        ("deleted-random", finish(deleted(indices))),
        ("deleted-pairs", finish(deleted(pairs))),
    ]
}

fn imports(paths: impl Iterator<Item = String>) -> Vec<Tok> {
    paths.flat_map(|path| [bare(IMPORT), Tok::path(path)]).collect()
}

fn deleted(indices: impl IntoIterator<Item = u64>) -> Vec<Tok> {
    let mut tokens = open("A");
    tokens.push(bare(DELETED));
    tokens.extend(indices.into_iter().map(Tok::integer));
    tokens.push(bare(RIGHT_CURLY));
    tokens
}

fn with_copy<T: Clone>(list: &[T], from: usize, to: usize) -> Vec<T> {
    let mut list = list.to_vec();
    list[to] = list[from].clone();
    list
}

fn shuffled(count: usize) -> impl Iterator<Item = usize> {
    let mut numbers: Vec<usize> = (0..count).collect();
    shuffle(&mut numbers);
    numbers.into_iter()
}

fn shuffle<T>(list: &mut [T]) {
    let rng = &mut Rng::new(1);
    for i in (1..list.len()).rev() {
        list.swap(i, rng.below(i + 1));
    }
}

/// Schema tables at the limits of writing, each with its name.
pub fn schemas() -> Vec<(&'static str, Vec<u8>)> {
    let head = |name: &[u8]| Tok::with(103, [counted(name), vec![0, 0]].concat());
    let declaration = head(b"A");
    let field = Tok::with(105, [vec![0; 9], counted(b"x"), vec![0, 0]].concat());
    let unit = Tok::with(108, vec![25, 0]);
    let deleted = |indices: &[u64]| {
        Tok::with(106, indices.iter().flat_map(|index| index.to_le_bytes()).collect())
    };
    let import = |name: &[u8]| Tok::with(102, [counted(name), b"p.t".to_vec()].concat());
    let comment = |count| Tok { kind: 101, ..Tok::comment(&vec!["c"; count]) };
    let arrays = |count| {
        let arrays = vec![Tok::bare(107); count];
        [vec![declaration.clone(), field.clone()], arrays, vec![unit.clone()]].concat()
    };
    let with_deleted = |indices: &[u64]| vec![declaration.clone(), deleted(indices)];
    // Full records of 144 bytes, and two that share the rest.
    let named = |bytes: usize| {
        let count = bytes / 144 - 1;
        let names = bytes - 144 * count - 32;
        let last = [head(&vec![b'n'; names / 2]), head(&vec![b'm'; names - names / 2])];
        [vec![head(&[b'n'; 128]); count], last.to_vec()].concat()
    };
    let all = vec![
        ("schema-empty", vec![]),
        ("schema-131072", named(131_072)),
        ("schema-131073", named(131_073)),
        ("schema-arrays-64", arrays(64)),
        ("schema-arrays-65", arrays(65)),
        ("schema-deleted-none", with_deleted(&[])),
        ("schema-deleted-up", with_deleted(&[0, 1, u64::MAX])),
        ("schema-deleted-equal", with_deleted(&[1, 1])),
        ("schema-deleted-down", with_deleted(&[2, 1])),
        ("schema-imports-up", vec![import(b"a"), import(b"a_b"), import(b"ab")]),
        ("schema-imports-equal", vec![import(b"aB"), import(b"a_b")]),
        ("schema-imports-down", vec![import(b"b"), import(b"a")]),
        ("schema-comment-0", vec![comment(0)]),
        ("schema-comment-32", vec![comment(32)]),
        ("schema-comment-33", vec![comment(33)]),
        ("schema-comment-late", vec![declaration.clone(), comment(1)]),
        ("schema-field-first", vec![field.clone(), unit.clone()]),
        ("schema-no-type", vec![declaration.clone(), field.clone()]),
        ("schema-two-types", vec![declaration.clone(), field, unit.clone(), unit]),
        ("schema-name-odd", vec![head(b" '~ A.b")]),
        ("schema-name-129", vec![head(&[b'a'; 129])]),
    ];
    all.into_iter().map(|(name, records)| (name, table(&records))).collect()
}

fn counted(bytes: &[u8]) -> Vec<u8> {
    [&(bytes.len() as u16).to_le_bytes(), bytes].concat()
}

fn finish(mut tokens: Vec<Tok>) -> Vec<u8> {
    lay_plainly(&mut tokens);
    table(&tokens)
}

fn bare(kind: u16) -> Tok {
    Tok::bare(kind)
}

fn open(name: impl AsRef<[u8]>) -> Vec<Tok> {
    vec![bare(STRUCT), Tok::name(name), bare(LEFT_CURLY)]
}

/// Ten tokens.
pub fn small() -> Vec<Tok> {
    let mut tokens = open("op_8d");
    tokens.extend([Tok::name("cycles"), bare(COLON), bare(24), bare(EQUALS), Tok::integer(0)]);
    tokens.extend([bare(DELETED), bare(RIGHT_CURLY)]);
    tokens
}

/// About this many tokens, with each feature, as a file of opcodes has them.
pub fn typical(most: usize) -> Vec<Tok> {
    let mut tokens = vec![Tok::comment(&["Opcodes of the core, one struct each."])];
    for (path, name) in [("lib/timer.t", None), ("lib/bus.v2.t", Some("bus")), ("trace.t", None)] {
        tokens.extend([bare(IMPORT), Tok::path(path)]);
        if let Some(name) = name {
            tokens.extend([bare(AS), Tok::name(name)]);
        }
    }
    for number in 0.. {
        let declaration = opcode(number);
        if tokens.len() + declaration.len() > most {
            return tokens;
        }
        tokens.extend(declaration);
    }
    unreachable!("the list grows with each declaration")
}

fn opcode(number: usize) -> Vec<Tok> {
    let mut tokens = vec![];
    if number.is_multiple_of(2) {
        tokens.push(Tok::comment(&["Loads a word.", "Takes one cycle more across a page."]));
    }
    tokens.extend(open(format!("op_{number:02x}_load")));
    tokens.extend([Tok::name("cycles"), bare(COLON), bare(24), bare(EQUALS), Tok::integer(0)]);
    tokens.push(Tok::comment(&["Where the operand stands."]));
    tokens.extend([bare(OPTIONAL), Tok::name("addressMode"), bare(COLON), bare(LEFT_SQUARE)]);
    tokens.extend([Tok::name("bus"), bare(DOT), Tok::name("Mode"), bare(RIGHT_SQUARE)]);
    tokens.extend([bare(EQUALS), Tok::integer(1), Tok::name("halts"), bare(EQUALS)]);
    tokens.extend([Tok::integer(2), bare(DELETED), Tok::integer(4), Tok::integer(3)]);
    tokens.push(bare(RIGHT_CURLY));
    tokens
}

/// 4,096 tokens in 65,536 bytes.
pub fn largest() -> Vec<Tok> {
    let mut tokens = open("largest_of_all__");
    for number in 0..1_364 {
        let name = format!("f{number:03x}");
        tokens.extend([Tok::name(name), bare(EQUALS), Tok::integer(number)]);
    }
    tokens.push(bare(RIGHT_CURLY));
    assert_eq!((tokens.len(), table_len(&tokens)), (4_096, 65_536));
    tokens
}

/// An error for every token.
pub fn all_errors(count: usize) -> Vec<Tok> {
    vec![bare(IMPORT); count]
}

pub fn imports_reversed(count: usize) -> Vec<Tok> {
    imports((0..count).rev().map(|number| format!("m{number:04}.t")))
}

pub fn deleted_reversed(count: u64) -> Vec<Tok> {
    deleted((0..count).rev())
}

/// Names of 128 capitals, whose snake forms have 255 bytes.
pub fn capitals() -> Vec<Tok> {
    let mut tokens = open([b'A'; 128]);
    for number in 0..360_u64 {
        let mut name = [b'B'; 128];
        name[127 - number as usize % 128] = b'C';
        tokens.extend([Tok::name(name), bare(EQUALS), Tok::integer(number)]);
    }
    tokens.push(bare(RIGHT_CURLY));
    tokens
}

/// A text over 65,536 bytes from a table that is not.
pub fn import_capitals(count: usize) -> Vec<Tok> {
    (0..count)
        .flat_map(|number| {
            let mut name = [b'A'; 128];
            name[number % 128] = b'B';
            name[(number / 128 + number + 1) % 128] = b'C';
            [bare(IMPORT), Tok::path("a.t"), bare(AS), Tok::name(name)]
        })
        .collect()
}

/// A schema table over 65,536 bytes, for names come twice in it.
pub fn long_paths(count: usize) -> Vec<Tok> {
    (0..count).flat_map(|number| [bare(IMPORT), Tok::path(format!("{number:0128}"))]).collect()
}

pub fn squares(count: usize) -> Vec<Tok> {
    let mut tokens = open("A");
    tokens.extend([Tok::name("x"), bare(COLON)]);
    tokens.extend(vec![bare(LEFT_SQUARE); count]);
    tokens.push(bare(UNIT));
    tokens.extend(vec![bare(RIGHT_SQUARE); count]);
    tokens.extend([bare(EQUALS), Tok::integer(0), bare(RIGHT_CURLY)]);
    tokens
}

/// A schema of exactly so many bytes.
fn bytes_total(bytes: usize) -> Vec<Tok> {
    let mut tokens = vec![];
    let mut left = bytes;
    while left > 2 * 1_040 {
        let comment = Tok::comment(&[vec![b'w'; 1_000]]);
        left -= comment.record_len() + 49;
        tokens.push(comment);
        tokens.extend([open("A"), vec![bare(RIGHT_CURLY)]].concat());
    }
    let mut name = left - 48;
    while name > 128 {
        name -= 128 + 48;
        tokens.extend([open([b'n'; 128]), vec![bare(RIGHT_CURLY)]].concat());
    }
    tokens.extend([open(vec![b'n'; name]), vec![bare(RIGHT_CURLY)]].concat());
    tokens
}

/// 32 paragraphs of 1,024 bytes.
fn long_comment() -> Vec<Tok> {
    let mut paragraph = b"word ".repeat(204);
    paragraph.extend(b"last");
    vec![Tok::comment(&vec![paragraph; 32])]
}
