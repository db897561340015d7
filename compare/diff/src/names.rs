//! The functions on names: a side against the Rust's identifiers and namespaces.

use crate::compare::{Mismatch, all_rooms, one_call, readable};
use judge::{Refusal, names};
use std::{cmp::Ordering, collections::BTreeMap};
use tables::{naming, rng::Rng};

#[derive(Clone, Copy, Debug, Eq, Ord, PartialEq, PartialOrd)]
pub enum Ask {
    Snake,
    Camel,
    Pascal,
    Cmp,
    Eq,
    Join,
    Survives,
    Text,
    Relativize,
}

pub const ASKS: [Ask; 9] = [
    Ask::Snake,
    Ask::Camel,
    Ask::Pascal,
    Ask::Cmp,
    Ask::Eq,
    Ask::Join,
    Ask::Survives,
    Ask::Text,
    Ask::Relativize,
];

#[derive(Clone, Copy, Debug, Eq, PartialEq)]
pub enum Said {
    Written(usize),
    /// With the steps up.
    Relative(usize, usize),
    Order(Ordering),
    Is(bool),
    Refused(u16, usize),
}

#[derive(Clone, Copy)]
pub struct NameSide {
    pub name: &'static str,
    pub call: fn(Ask, &mut [u8], &[u8], &[u8]) -> Said,
}

pub fn named(name: &str) -> Option<NameSide> {
    match name {
        "ours" => crate::ours::names(),
        "judge" => Some(NameSide { name: "judge", call: judge_call }),
        "join-long" => Some(NameSide { name: "join-long", call: join_long }),
        "camel-pascal" => Some(NameSide { name: "camel-pascal", call: camel_pascal }),
        _ => None,
    }
}

/// The Rust's answer, and the bytes that go with it.
fn due(ask: Ask, a: &[u8], b: &[u8]) -> Result<(Said, Vec<u8>), Refusal> {
    let written = |text: String| (Said::Written(text.len()), text.into_bytes());
    Ok(match ask {
        Ask::Snake => written(names::snake(a)?),
        Ask::Camel => written(names::camel(a)?),
        Ask::Pascal => written(names::pascal(a)?),
        Ask::Cmp => (Said::Order(names::name(a)?.cmp(&names::name(b)?)), vec![]),
        Ask::Eq => (Said::Is(names::name(a)? == names::name(b)?), vec![]),
        Ask::Join => written(names::join(a, b)?),
        Ask::Survives => (Said::Is(names::survives(a)?), vec![]),
        Ask::Text => written(names::namespace_text(a)?),
        Ask::Relativize => {
            let (left, up) = names::relativize(a, b)?;
            (Said::Relative(left.len(), up), left)
        }
    })
}

pub fn compare(side: NameSide, ask: Ask, a: &[u8], b: &[u8]) -> (Said, Result<(), Mismatch>) {
    let call = |out: &mut [u8]| (side.call)(ask, out, a, b);
    match due(ask, a, b) {
        Err(refusal) => {
            let said = Said::Refused(refusal.number, refusal.offset);
            (said, one_call("names", 24, said, &[], call))
        }
        Ok((said, bytes)) => {
            let short = Said::Refused(8, 0);
            (said, all_rooms("names", said, short, &bytes, call))
        }
    }
}

/// Compares so many calls of each function and prints what was found.
pub fn run(side: NameSide, seed: u64, count: u64) -> bool {
    let mut counts: BTreeMap<String, u64> = BTreeMap::new();
    let mut mismatches = 0;
    for number in 0..count {
        let rng = &mut Rng::for_case(seed, number);
        for ask in ASKS {
            let (a, b) = match ask {
                Ask::Text | Ask::Relativize => naming::namespaces(rng),
                _ => naming::pair(rng),
            };
            let (said, result) = compare(side, ask, &a, &b);
            let refused = if let Said::Refused(..) = said { " R10" } else { "" };
            *counts.entry(format!("{ask:?}{refused}")).or_default() += 1;
            if let Err(mismatch) = result {
                mismatches += 1;
                println!("MISMATCH {ask:?} of {} and {}", readable(&a), readable(&b));
                println!("  judge {}\n  side  {}", mismatch.expected, mismatch.got);
                if mismatches == 6 {
                    return false;
                }
            }
        }
    }
    let counts: Vec<String> =
        counts.iter().map(|(what, count)| format!("{what} {count}")).collect();
    println!("{} names: mismatches {mismatches} {}", side.name, counts.join(" "));
    mismatches == 0
}

fn judge_call(ask: Ask, out: &mut [u8], a: &[u8], b: &[u8]) -> Said {
    match due(ask, a, b) {
        Err(refusal) => Said::Refused(refusal.number, refusal.offset),
        Ok((_, bytes)) if bytes.len() > out.len() => Said::Refused(8, 0),
        Ok((said, bytes)) => {
            out[..bytes.len()].copy_from_slice(&bytes);
            said
        }
    }
}

// Planted faults, as in side.rs.

/// A joined name of 129 bytes is given.
fn join_long(ask: Ask, out: &mut [u8], a: &[u8], b: &[u8]) -> Said {
    let said = judge_call(ask, out, a, b);
    let names = names::name(a).is_ok() && names::name(b).is_ok();
    if ask == Ask::Join && names && a.len() + b.len() == 128 { Said::Written(129) } else { said }
}

/// The first word of a camel form is capitalised.
fn camel_pascal(ask: Ask, out: &mut [u8], a: &[u8], b: &[u8]) -> Said {
    let ask = if ask == Ask::Camel { Ask::Pascal } else { ask };
    judge_call(ask, out, a, b)
}
