//! Names and namespaces as a caller lends them, good and bad, in pairs that have
//! something in common.

use crate::{rng::Rng, words};

const ODD: [&str; 24] = [
    "op_8d",
    "Op8d",
    "HTTPPort",
    "h_t_t_p_port",
    "_",
    "__",
    "-x",
    "-",
    "x-",
    "opTable",
    "op_table",
    "op-table",
    "OpTable",
    "foo_1",
    "Foo1",
    "_1",
    "a b",
    " ",
    "~",
    "'",
    "a.b",
    "A_",
    "Z9_z-Z",
    "1",
];

/// A name, and in one of eight cases bytes that are none.
pub fn name(rng: &mut Rng) -> Vec<u8> {
    match rng.below(16) {
        0 => bad(rng),
        1 => vec![rng.byte(); rng.below(4)],
        2 => vec![*rng.pick(b"Aa_-9 "); *rng.pick(&[63, 64, 127, 128])],
        3..=5 => rng.pick(&ODD).as_bytes().to_vec(),
        6..=9 => printable(rng, 10),
        10 => printable(rng, 128),
        _ => words::name(rng),
    }
}

fn bad(rng: &mut Rng) -> Vec<u8> {
    let mut name = words::name(rng);
    match rng.below(5) {
        0 => name.clear(),
        1 => name.resize(129, b'a'),
        2 => name.resize(rng.between(129, 300), b'A'),
        _ => {
            let at = rng.below(name.len());
            name[at] = *rng.pick(&[0, 0x1F, 0x7F, 0x80, 0xFF, b'\n']);
        }
    }
    name
}

fn printable(rng: &mut Rng, most: usize) -> Vec<u8> {
    let mixed = |rng: &mut Rng| match rng.below(3) {
        0 => 0x20 + rng.below(0x5F) as u8,
        _ => *rng.pick(b"abzABZ019__--"),
    };
    (0..rng.between(1, most)).map(|_| mixed(rng)).collect()
}

/// Two names: any, the same name spelled otherwise, or just joinable.
pub fn pair(rng: &mut Rng) -> (Vec<u8>, Vec<u8>) {
    let one = name(rng);
    let other = match rng.below(4) {
        0 => respelled(rng, &one),
        1 => vec![*rng.pick(b"bB_"); (127 - one.len().min(126)) + rng.below(3) - 1],
        _ => name(rng),
    };
    if rng.one_in(2) { (one, other) } else { (other, one) }
}

/// Often of the same snake case.
fn respelled(rng: &mut Rng, name: &[u8]) -> Vec<u8> {
    let mut out = vec![];
    for byte in name {
        match byte {
            b'_' | b'-' => out.push(*rng.pick(b"_-")),
            b'A'..=b'Z' if rng.one_in(2) => out.extend([b'_', byte.to_ascii_lowercase()]),
            _ => out.push(*byte),
        }
    }
    if rng.one_in(6) {
        out.push(*rng.pick(b"_a-"));
    }
    out
}

/// A namespace as lent; some are too long, cut short, or hold what is no name.
pub fn namespace(rng: &mut Rng) -> Vec<u8> {
    let count = match rng.below(12) {
        0 => rng.between(60, 66),
        1 => *rng.pick(&[64, 65]),
        _ => rng.below(7),
    };
    let names: Vec<Vec<u8>> = (0..count).map(|_| component(rng)).collect();
    let mut lent = laid(&names);
    if rng.one_in(8) && !lent.is_empty() {
        match rng.below(3) {
            0 => lent.truncate(rng.below(lent.len())),
            1 => lent.push(rng.byte()),
            _ => {
                let at = rng.below(lent.len());
                lent[at] = rng.byte();
            }
        }
    }
    lent
}

fn component(rng: &mut Rng) -> Vec<u8> {
    loop {
        let name = if rng.one_in(300) { name(rng) } else { words::name(rng) };
        if name.len() <= 12 || rng.one_in(4) {
            return name;
        }
    }
}

fn laid(names: &[Vec<u8>]) -> Vec<u8> {
    let one = |name: &Vec<u8>| [&(name.len() as u16).to_le_bytes()[..], name].concat();
    names.iter().flat_map(one).collect()
}

/// Two namespaces, most of them with a common start, spelled alike or not.
pub fn namespaces(rng: &mut Rng) -> (Vec<u8>, Vec<u8>) {
    if rng.one_in(4) {
        return (namespace(rng), namespace(rng));
    }
    let start: Vec<Vec<u8>> = (0..rng.below(5)).map(|_| component(rng)).collect();
    let again: Vec<Vec<u8>> = start.iter().map(|name| respelled(rng, name)).collect();
    let ends = (namespace(rng), namespace(rng));
    ([laid(&start), ends.0].concat(), [laid(&again), ends.1].concat())
}
