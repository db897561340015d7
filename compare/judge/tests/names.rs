//! What document 01 says of names, against the Rust's forms.

use judge::names;
use tables::{rng::Rng, words};

fn printable_name(rng: &mut Rng) -> Vec<u8> {
    let length = rng.between(1, 10);
    let mixed = |rng: &mut Rng| match rng.below(3) {
        0 => 0x20 + rng.below(0x5F) as u8,
        _ => *rng.pick(b"abAB01__--"),
    };
    (0..length).map(|_| mixed(rng)).collect()
}

fn any_name(rng: &mut Rng) -> Vec<u8> {
    if rng.one_in(2) { words::name(rng) } else { printable_name(rng) }
}

/// Document 01's words, in lower case.
fn split(name: &[u8]) -> Vec<Vec<u8>> {
    let snake = words::snake(name);
    snake.split(|b| *b == b'_').filter(|word| !word.is_empty()).map(<[u8]>::to_vec).collect()
}

fn capitalised(words: &[Vec<u8>]) -> Vec<u8> {
    words.iter().flat_map(|word| [&[word[0].to_ascii_uppercase()], &word[1..]].concat()).collect()
}

#[test]
fn forms() {
    let rng = &mut Rng::new(1);
    for _ in 0..200_000 {
        let name = any_name(rng);
        let words = split(&name);
        assert_eq!(names::snake(&name).unwrap().as_bytes(), words.join(&b'_'));
        assert_eq!(names::pascal(&name).unwrap().as_bytes(), capitalised(&words));
        let (first, others) = words.split_at(words.len().min(1));
        let camel = [first.concat(), capitalised(others)].concat();
        assert_eq!(names::camel(&name).unwrap().as_bytes(), camel);
    }
}

#[test]
fn a_name_survives_exactly_when_later_words_begin_with_letters() {
    let rng = &mut Rng::new(2);
    for _ in 0..200_000 {
        let name = any_name(rng);
        let letters = split(&name).iter().skip(1).all(|word| word[0].is_ascii_alphabetic());
        assert_eq!(names::survives(&name).unwrap(), letters, "{name:?}");
    }
}

#[test]
fn refusals() {
    assert!(names::snake(b"").is_err());
    assert!(names::snake(&[b'a'; 129]).is_err());
    assert!(names::snake(b"a\x7F").is_err());
    assert_eq!(names::join(&[b'a'; 100], &[b'b'; 27]).unwrap().len(), 128);
    assert!(names::join(&[b'a'; 100], &[b'b'; 28]).is_err());
}

#[test]
fn namespaces() {
    let lent = |names: &[&str]| -> Vec<u8> {
        let one = |name: &&str| [&(name.len() as u16).to_le_bytes(), name.as_bytes()].concat();
        names.iter().flat_map(one).collect()
    };
    assert_eq!(names::namespace_text(&lent(&[])).unwrap(), "");
    assert_eq!(names::namespace_text(&lent(&["opTable", "_", "a"])).unwrap(), "op_table..a");
    assert!(names::namespace_text(&lent(&["a"; 65])).is_err());
    assert!(names::namespace_text(&lent(&["a"; 64])).is_ok());
    assert!(names::namespace_text(&[1]).is_err());
    assert!(names::namespace_text(&[2, 0, b'a']).is_err());
    let (left, up) =
        names::relativize(&lent(&["opA", "b", "C"]), &lent(&["op_a", "x", "b", "c"])).unwrap();
    assert_eq!((left, up), (lent(&["b", "C"]), 3));
}
