//! The generator keeps its promises: the same each time, and of the size asked.

use tables::{
    listing::{assemble, scan},
    mix::{case, short_list},
    short::families,
    special,
    token::{table, tokens},
};

#[test]
fn a_case_is_its_seed_and_number() {
    for number in 0..500 {
        assert_eq!(case(7, number).table, case(7, number).table);
    }
    assert_ne!(case(7, 0).table, case(8, 0).table);
}

#[test]
fn short_lists_are_short() {
    for number in 0..2_000 {
        assert!(short_list(1, number, 40).len() <= 40);
    }
}

#[test]
fn families_number_each_list_once() {
    let family = families().into_iter().find(|family| family.name == "deleted").unwrap();
    let mut lists: Vec<Vec<u8>> = (0..family.count()).map(|n| table(&family.list(n))).collect();
    lists.sort();
    lists.dedup();
    assert_eq!(lists.len() as u64, family.count());
}

#[test]
fn tables_and_tokens_turn_into_each_other() {
    for (_, bytes) in special::all() {
        let kept = tokens(&bytes);
        assert!(bytes.starts_with(&table(&kept)));
    }
}

#[test]
fn listing_places() {
    let tokens = scan("# a  b\n # c\n#\n# d\nstruct A { x-1: 'p' 18446744073709551615 }").unwrap();
    let places: Vec<_> = tokens.iter().map(|t| (t.kind, t.start, t.end)).collect();
    let due = [
        (7, 0, 17),
        (23, 18, 24),
        (12, 25, 26),
        (15, 27, 28),
        (12, 29, 32),
        (6, 32, 33),
        (18, 34, 37),
        (14, 38, 58),
        (19, 59, 60),
    ];
    assert_eq!(places, due);
    assert_eq!(tokens[0].payload, b"\x05\0a b c\x01\0d");
    assert!(assemble("'a").is_err());
    assert!(assemble("18446744073709551616").is_err());
    assert!(scan("#\n#  \n").unwrap().is_empty());
}
