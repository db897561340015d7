//! The mixture that the comparison runs on: a case is a seed and a number.

use crate::{
    damage::{damage, spoil_records},
    grammar::{Wish, schema},
    mutate::{any_token, mutate, spoil_payload, spoil_place},
    places::lay,
    rng::Rng,
    special,
    token::{Tok, table},
};

/// What was done to make the table.
#[derive(Clone, Copy, Debug, Eq, PartialEq)]
pub enum Sort {
    Valid,
    Derived,
    Mutated,
    Soup,
    SpoiltPayload,
    SpoiltPlace,
    Damaged,
    DamagedSpecial,
    Noise,
}

pub struct Case {
    pub sort: Sort,
    pub table: Vec<u8>,
}

pub fn case(seed: u64, number: u64) -> Case {
    let rng = &mut Rng::for_case(seed, number);
    let sort = *rng.pick(&[
        Sort::Valid,
        Sort::Valid,
        Sort::Valid,
        Sort::Derived,
        Sort::Derived,
        Sort::Mutated,
        Sort::Mutated,
        Sort::Mutated,
        Sort::Mutated,
        Sort::Mutated,
        Sort::Soup,
        Sort::SpoiltPayload,
        Sort::SpoiltPlace,
        Sort::Damaged,
        Sort::Damaged,
        Sort::Noise,
    ]);
    // The special tables are large, so few of them go a long way.
    let sort = if rng.one_in(2_000) { Sort::DamagedSpecial } else { sort };
    Case { sort, table: build(rng, sort) }
}

fn build(rng: &mut Rng, sort: Sort) -> Vec<u8> {
    match sort {
        Sort::Noise => (0..rng.below(60)).map(|_| rng.byte()).collect(),
        Sort::DamagedSpecial => {
            let specials = special::all();
            let (_, mut table) = rng.pick(&specials).clone();
            damage(rng, &mut table);
            table
        }
        Sort::Soup => {
            let mut tokens: Vec<Tok> = (0..rng.below(16)).map(|_| any_token(rng)).collect();
            lay(rng, &mut tokens);
            table(&tokens)
        }
        _ => {
            let mut tokens = derived(rng, sort == Sort::Valid);
            match sort {
                Sort::Mutated => {
                    mutate(rng, &mut tokens);
                    lay(rng, &mut tokens);
                }
                Sort::SpoiltPayload => spoil_payload(rng, &mut tokens),
                Sort::SpoiltPlace => spoil_place(rng, &mut tokens),
                _ => {}
            }
            let mut table = table(&tokens);
            if sort == Sort::Damaged {
                damage(rng, &mut table);
            }
            table
        }
    }
}

fn derived(rng: &mut Rng, valid: bool) -> Vec<Tok> {
    let size = match rng.below(50) {
        0 => rng.between(300, 1_500),
        1..=6 => rng.between(60, 300),
        _ => rng.between(1, 60),
    };
    let wish = Wish { tokens: size, long_comments: rng.one_in(6), valid };
    let mut tokens = schema(rng, wish);
    lay(rng, &mut tokens);
    tokens
}

/// What reading gave, damaged by records or by bytes.
pub fn damaged_schema(seed: u64, number: u64, mut table: Vec<u8>) -> Vec<u8> {
    let rng = &mut Rng::for_case(seed, number);
    if rng.one_in(2) {
        spoil_records(rng, &mut table);
    } else {
        damage(rng, &mut table);
    }
    table
}

/// A list of at most `most` tokens, by turns valid and mutated.
pub fn short_list(seed: u64, number: u64, most: usize) -> Vec<Tok> {
    let rng = &mut Rng::for_case(seed, number);
    let valid = number.is_multiple_of(2);
    loop {
        let size = rng.between(1, most - 5);
        let mut tokens = schema(rng, Wish { tokens: size, long_comments: false, valid });
        if !valid {
            mutate(rng, &mut tokens);
        }
        // Longest names are rare here: they would be most of what is printed.
        let brief = tokens.iter().all(|token| token.payload.len() <= 40) || rng.one_in(30);
        let some = !tokens.is_empty() || rng.one_in(50);
        if tokens.len() <= most && brief && some {
            lay(rng, &mut tokens);
            return tokens;
        }
    }
}
