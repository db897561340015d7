//! Payloads, plain and odd: names, paths, paragraphs, integers.

use crate::rng::Rng;

const NAMES: [&str; 34] = [
    "op_8d", "HTTPPort", "_", "__", "_-_", "opTable", "op_table", "op-table", "OpTable", "a", "A",
    "x1", "foo_1", "_1", "a-b", "a-", "_-", "struct", "bool", "Bool", "as", "import", "deleted",
    "Unit", "x", "y", "z", "id", "cycles", "aB", "a_b", "A_B", "a__b", "Ab1C2",
];

/// Several have one snake case, several have no stem.
const PATHS: [&str; 36] = [
    "",
    ".",
    "..",
    "a/..",
    ".t",
    "b/op.t",
    "timer.v2.t",
    "a//b/./c.t",
    "a/",
    "a//",
    "a/.",
    "a/./",
    "/",
    "//",
    "./",
    "../",
    "...",
    "..t",
    "t..",
    "a.",
    ".a.",
    "a.b.",
    "x y.t",
    "a/.b.t",
    "opTable.t",
    "op_table.t",
    "op-table",
    "OpTable.x",
    "/abs/op.t",
    "_.t",
    "-.t",
    "a/../b.t",
    "../..",
    "\"q\".t",
    " ",
    "~.~",
];

const NAME_BYTES: &[u8] = b"abcxyzABCXYZ0189_-";
const PATH_BYTES: &[u8] = b"abzABZ09_-./ ~!.";

pub fn name(rng: &mut Rng) -> Vec<u8> {
    match rng.below(40) {
        0 => vec![*rng.pick(b"AaZz_"); 128],
        1 => long_name(rng),
        2..=11 => random_name(rng, 12),
        12..=29 => rng.pick(&NAMES).as_bytes().to_vec(),
        _ => format!("{}{}", rng.pick(&["f", "field_", "Op", "opN", "x_"]), rng.below(500))
            .into_bytes(),
    }
}

fn random_name(rng: &mut Rng, most: usize) -> Vec<u8> {
    let mut name = vec![*rng.pick(b"abzABZ_")];
    for _ in 0..rng.below(most) {
        name.push(*rng.pick(NAME_BYTES));
    }
    name
}

fn long_name(rng: &mut Rng) -> Vec<u8> {
    let mut name = random_name(rng, 128);
    while name.len() < 128 && !rng.one_in(60) {
        name.push(*rng.pick(NAME_BYTES));
    }
    name
}

/// Not an Identifier's payload.
pub fn bad_name(rng: &mut Rng) -> Vec<u8> {
    let long = [b'a'; 129];
    let choices: [&[u8]; 9] =
        [b"", b"-x", b"1a", b"a b", b"a.b", b"\xC3\xA9", b"a\0", &long, b"a\x7F"];
    rng.pick(&choices).to_vec()
}

pub fn path(rng: &mut Rng) -> Vec<u8> {
    match rng.below(12) {
        0 => random_path(rng, 128),
        1..=2 => random_path(rng, 14),
        3..=7 => rng.pick(&PATHS).as_bytes().to_vec(),
        _ => format!("{}/m{}.t", rng.pick(&["lib", "..", "a/b"]), rng.below(500)).into_bytes(),
    }
}

fn random_path(rng: &mut Rng, most: usize) -> Vec<u8> {
    (0..=rng.below(most)).map(|_| *rng.pick(PATH_BYTES)).collect()
}

pub fn bad_path(rng: &mut Rng) -> Vec<u8> {
    let long = [b'a'; 129];
    let choices: [&[u8]; 6] = [b"it's", b"'", b"a\n", b"\x7F", b"\x1F", &long];
    rng.pick(&choices).to_vec()
}

pub fn integer(rng: &mut Rng) -> u64 {
    match rng.below(12) {
        0 => u64::MAX,
        1 => {
            *rng.pick(&[1 << 63, u64::MAX - 1, 1 << 32, u32::MAX as u64, 255, 256, 99_999, 100_000])
        }
        2 => rng.draw() >> rng.below(64),
        _ => rng.below(12) as u64,
    }
}

pub fn paragraphs(rng: &mut Rng, long: bool) -> Vec<Vec<u8>> {
    let count = if long && rng.one_in(40) { 32 } else { 1 + rng.below(10) / 7 + rng.below(10) / 9 };
    (0..count).map(|_| paragraph(rng, long)).collect()
}

fn paragraph(rng: &mut Rng, long: bool) -> Vec<u8> {
    let length = if !long {
        rng.between(1, 24)
    } else {
        match rng.below(16) {
            0 => *rng.pick(&[72, 73, 74, 76, 77, 78, 79, 80]),
            1 => *rng.pick(&[1_023, 1_024]),
            2 => rng.between(60, 260),
            3 => rng.between(1, 1_024),
            _ => rng.between(1, 40),
        }
    };
    let longest_word = *rng.pick(&[1, 4, 9, 9, 9, 30, 80, 200]);
    words(rng, length, longest_word)
}

/// Exactly `length` printable bytes that obey the rule for spaces.
fn words(rng: &mut Rng, length: usize, longest_word: usize) -> Vec<u8> {
    let mut out = vec![];
    let mut left = 1 + rng.below(longest_word);
    while out.len() < length {
        if left == 0 && out.len() + 1 < length {
            out.push(b' ');
            left = 1 + rng.below(longest_word);
        } else {
            out.push(if rng.one_in(8) {
                0x21 + rng.below(0x5E) as u8
            } else {
                b'a' + rng.below(26) as u8
            });
            left = left.saturating_sub(1);
        }
    }
    out
}

/// Not a Comment's payload.
pub fn bad_comment(rng: &mut Rng) -> Vec<u8> {
    let one = |bytes: &[u8]| [&(bytes.len() as u16).to_le_bytes(), bytes].concat();
    match rng.below(12) {
        0 => vec![],
        1 => one(b""),
        2 => one(b" a"),
        3 => one(b"a "),
        4 => one(b"a  b"),
        5 => one(&[b'a'; 1_025]),
        6 => one(b"a").repeat(33),
        7 => [one(b"a"), vec![1]].concat(),
        8 => vec![3, 0, b'a', b'b'],
        9 => one(b"a\tb"),
        10 => one(b"a\x7F"),
        _ => [one(b"ok"), one(b" ")].concat(),
    }
}

/// The snake case by a second reading of document 01, to keep names apart.
pub fn snake(name: &[u8]) -> Vec<u8> {
    let mut words: Vec<Vec<u8>> = vec![vec![]];
    for byte in name {
        match byte {
            b'_' | b'-' => words.push(vec![]),
            b'A'..=b'Z' => words.push(vec![byte.to_ascii_lowercase()]),
            _ => words.last_mut().expect("there is a first word").push(*byte),
        }
    }
    words.retain(|word| !word.is_empty());
    words.join(&b'_')
}

/// The stem by document 01's words.
pub fn stem(path: &[u8]) -> Option<&[u8]> {
    let last = path.split(|b| *b == b'/').rfind(|part| !part.is_empty() && *part != b".")?;
    if last == b".." {
        return None;
    }
    match last.iter().rposition(|b| *b == b'.') {
        None | Some(0) => Some(last),
        Some(dot) => Some(&last[..dot]),
    }
}
