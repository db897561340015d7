//! What document 02 wants proved later, seen on the Rust: never more errors than
//! tokens, and never error 17.

use judge::{Answer, judge};
use tables::{
    mix::case,
    short::families,
    token::{table, tokens},
};

fn look(bytes: &[u8]) {
    if let Answer::Errors(errors) | Answer::Panicked(errors) = judge(bytes) {
        assert!(errors.len() <= tokens(bytes).len(), "{bytes:?}");
        assert!(errors.iter().all(|error| error.number != 17), "{bytes:?}");
    }
}

#[test]
fn errors_of_all_short_lists() {
    for family in families() {
        for number in 0..family.count() {
            look(&table(&family.list(number)));
        }
    }
}

#[test]
fn errors_of_random_tables() {
    for number in 0..50_000 {
        look(&case(21, number).table);
    }
}
