//! Compares a side with the judge:
//!
//!     diff SIDE seeded SEED COUNT     random tables
//!     diff SIDE short                 all short lists
//!     diff SIDE special               the special tables
//!     diff SIDE file FILE..           tables in files
//!     diff SIDE lists ROOT            the lists kept under ROOT/crates
//!     diff SIDE names SEED COUNT      random names and namespaces
//!
//! SIDE is `ours`, `paper` (document 01 read literally), `judge` (the judge
//! itself) or one of the planted faults in side.rs and names.rs. THREADS in the environment
//! sets the number of threads, 2 without.

use diff::{
    compare::readable,
    lists, names,
    run::{Counts, Found, Plan, Work, run},
    side::{Side, named},
};
use std::{env, fs, path::Path, process::ExitCode, time::Instant};
use tables::{
    short::{Family, families},
    special,
    token::tokens,
};

const MOST_FOUND: usize = 6;

fn main() -> ExitCode {
    let words: Vec<String> = env::args().skip(1).collect();
    let words: Vec<&str> = words.iter().map(String::as_str).collect();
    let [side, task, rest @ ..] = &words[..] else {
        return complain("give a side and a task, as in: diff paper seeded 1 100000");
    };
    if let ("names", [seed, count]) = (*task, rest) {
        return on_names(side, seed, count);
    }
    let Some(side) = named(side) else {
        return complain("no such side, or built without it");
    };
    let started = Instant::now();
    let passed = match (*task, rest) {
        ("seeded", [seed, count]) => match (seed.parse(), count.parse()) {
            (Ok(seed), Ok(count)) => report(side, "seeded", Work::Seeded { seed, count }),
            _ => return complain("seed and count are numbers"),
        },
        ("short", []) => all_short(side),
        ("special", []) => {
            let tables = Work::Tables(&owned(special::all()));
            let schemas = Work::Schemas(&owned(special::schemas()));
            report(side, "special", tables) & report(side, "special schemas", schemas)
        }
        ("lists", [root]) => match lists::run(side, Path::new(root)) {
            Ok(passed) => passed,
            Err(why) => return complain(&why.to_string()),
        },
        ("file", files) => match read_files(files) {
            Ok(tables) => report(side, "file", Work::Tables(&tables)),
            Err(why) => return complain(&why),
        },
        _ => return complain("the tasks are: seeded, short, special, file, lists, names"),
    };
    eprintln!("took {:.1} s", started.elapsed().as_secs_f64());
    if passed { ExitCode::SUCCESS } else { ExitCode::FAILURE }
}

fn all_short(side: Side) -> bool {
    let passes = |family: &Family| report(side, family.name, Work::Short(family));
    let passed: Vec<bool> = families().iter().map(passes).collect();
    !passed.contains(&false)
}

fn on_names(side: &str, seed: &str, count: &str) -> ExitCode {
    let Some(side) = names::named(side) else {
        return complain("no such side, or built without it");
    };
    match (seed.parse(), count.parse()) {
        (Ok(seed), Ok(count)) if names::run(side, seed, count) => ExitCode::SUCCESS,
        (Ok(_), Ok(_)) => ExitCode::FAILURE,
        _ => complain("seed and count are numbers"),
    }
}

fn owned(tables: Vec<(&'static str, Vec<u8>)>) -> Vec<(String, Vec<u8>)> {
    tables.into_iter().map(|(name, table)| (name.to_owned(), table)).collect()
}

fn read_files(files: &[&str]) -> Result<Vec<(String, Vec<u8>)>, String> {
    let read = |file: &&str| match fs::read(file) {
        Ok(table) => Ok(((*file).to_owned(), table)),
        Err(why) => Err(format!("{file}: {why}")),
    };
    files.iter().map(read).collect()
}

fn report(side: Side, name: &str, work: Work) -> bool {
    let threads = env::var("THREADS").ok().and_then(|text| text.parse().ok()).unwrap_or(2);
    let outcome = run(&Plan { side, threads, most_found: MOST_FOUND, work });
    for found in &outcome.found {
        show(found);
    }
    summary(side, name, &outcome.counts, outcome.found.len());
    outcome.found.is_empty()
}

fn summary(side: Side, name: &str, counts: &Counts, mismatches: usize) {
    println!("{} {name}: mismatches {mismatches} {counts}", side.name);
}

fn show(found: &Found) {
    let Found { from, table, mismatch } = found;
    println!("MISMATCH {} with room {} ({from})", mismatch.call, mismatch.room);
    println!("  judge {}", mismatch.expected);
    println!("  side  {}", mismatch.got);
    for token in tokens(table) {
        println!("  {} {} {} {}", token.kind, token.start, token.end, readable(&token.payload));
    }
    let hex: String = table.iter().map(|byte| format!("{byte:02x}")).collect();
    println!("  hex {hex}");
}

fn complain(why: &str) -> ExitCode {
    eprintln!("diff: {why}");
    ExitCode::FAILURE
}
