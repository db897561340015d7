//! `bench SIDE..`: how long the Rust takes for each measured table, and each SIDE
//! beside it, all in this one process and from the same bytes. Each line is
//!
//!     TABLE TOKENS BYTES TASK WORK NS
//!
//! with the least nanoseconds for one table. TASK is `read`, `write` or `both`.
//! WORK is `rust`, the Rust from what it has in memory; `rust-table`, the Rust
//! from the bytes, with the judge's code for tables around it; or the side.
//!
//! `bench SIDE seeded SEED COUNT`: of the random tables that are not refused,
//! those on which SIDE is the least times as fast as the Rust from the bytes.

use diff::side::{Side, named};
use judge::{
    Answer, check::check, decode::decode, judge, parse::bare, schema::Schema, token::Token,
};
use std::{
    env,
    hint::black_box,
    time::{Duration, Instant},
};
use tables::{mix, special};

/// A batch is short, so that some of many run without a pause.
const BATCH_TIME: Duration = Duration::from_millis(1);
const ROUNDS: usize = 60;
/// For a seeded table.
const FEW: usize = 5;
/// More than any answer here takes.
const LENT: usize = 1 << 18;
const MEASURED: [&str; 7] = [
    "small",
    "typical",
    "largest",
    "all-errors",
    "imports-reversed",
    "deleted-reversed",
    "capitals",
];

/// How many of the seeded tables are shown.
const SHOWN: usize = 8;

fn main() {
    let words: Vec<String> = env::args().skip(1).collect();
    let side = |word: &String| named(word).expect("no such side");
    if let [name, task, seed, count] = &words[..]
        && task == "seeded"
    {
        let number = |word: &String| word.parse().expect("a number");
        return seeded(side(name), number(seed), number(count));
    }
    let sides: Vec<Side> = words.iter().map(side).collect();
    let tables = special::all().into_iter().filter(|(name, _)| MEASURED.contains(name));
    for (name, table) in tables.chain(special::unordered()) {
        measure(name, &table, &sides);
    }
}

fn seeded(side: Side, seed: u64, count: u64) {
    let mut found: Vec<(f64, u64)> = (0..count)
        .filter_map(|number| Some((gain(side, &mix::case(seed, number).table, FEW)?, number)))
        .collect();
    println!("{} tables", found.len());
    found.sort_by(|a, b| a.0.total_cmp(&b.0));
    found.truncate(SHOWN);
    // So few rounds may have been unlucky ones.
    for (times, number) in &mut found {
        *times = gain(side, &mix::case(seed, *number).table, ROUNDS).expect("it was measured");
    }
    found.sort_by(|a, b| a.0.total_cmp(&b.0));
    for (times, number) in found {
        let table = mix::case(seed, number).table;
        let tokens = check(&table).expect("it was measured").len();
        println!("{times:.2} case {number} tokens {tokens} bytes {}", table.len());
    }
}

/// How many times as fast as the Rust from the bytes; nothing for a table that
/// is refused, or on which the Rust panics.
fn gain(side: Side, table: &[u8], rounds: usize) -> Option<f64> {
    let tokens = check(table).ok()?;
    let times = match judge(table) {
        Answer::Schema(written) => whole_way(table, &tokens, written.table.len(), &[side], rounds),
        Answer::Errors(_) => reading(table, &tokens, &[side], rounds),
        _ => return None,
    };
    Some(times[1].1 / times[2].1)
}

type Work<'a> = (&'static str, Box<dyn FnMut() + 'a>);

fn measure(name: &str, table: &[u8], sides: &[Side]) {
    let tokens = check(table).expect("the measured tables are not refused");
    let print = |task: &str, times: Vec<(&str, f64)>| {
        for (work, ns) in times {
            println!("{name} {} {} {task} {work} {ns:.0}", tokens.len(), table.len());
        }
    };
    print("read", reading(table, &tokens, sides, ROUNDS));
    if let Answer::Schema(written) = judge(table) {
        let schema = bare(&tokens).expect("the answer was a schema");
        print("write", writing(&written.table, &schema, sides));
        print("both", whole_way(table, &tokens, written.table.len(), sides, ROUNDS));
    }
}

fn reading(
    table: &[u8],
    tokens: &[Token],
    sides: &[Side],
    rounds: usize,
) -> Vec<(&'static str, f64)> {
    let mut works: Vec<Work> = vec![
        ("rust", Box::new(|| drop(black_box(bare(black_box(tokens)))))),
        ("rust-table", Box::new(|| drop(black_box(bare(&check(black_box(table)).unwrap()))))),
    ];
    for side in sides {
        let mut out = vec![0; LENT];
        let read = move || _ = black_box((side.read)(black_box(table), &mut out));
        works.push((side.name, Box::new(read)));
    }
    times(works, rounds)
}

fn writing(table: &[u8], schema: &Schema, sides: &[Side]) -> Vec<(&'static str, f64)> {
    let decoded = |table| decode(table).expect("it was written by the judge");
    let mut works: Vec<Work> = vec![
        ("rust", Box::new(|| drop(black_box(black_box(schema).to_string())))),
        ("rust-table", Box::new(|| drop(black_box(decoded(black_box(table)).to_string())))),
    ];
    for side in sides {
        let mut out = vec![0; LENT];
        let write = move || _ = black_box((side.write)(black_box(table), &mut out));
        works.push((side.name, Box::new(write)));
    }
    times(works, ROUNDS)
}

fn whole_way(
    table: &[u8],
    tokens: &[Token],
    schema_length: usize,
    sides: &[Side],
    rounds: usize,
) -> Vec<(&'static str, f64)> {
    let printed = |tokens: &[Token]| bare(tokens).expect("it is a schema").to_string();
    let mut works: Vec<Work> = vec![
        ("rust", Box::new(|| drop(black_box(printed(black_box(tokens)))))),
        ("rust-table", Box::new(|| drop(black_box(printed(&check(black_box(table)).unwrap()))))),
    ];
    for side in sides {
        let (mut out, mut text) = (vec![0; LENT], vec![0; LENT]);
        let both = move || {
            black_box((side.read)(black_box(table), &mut out));
            black_box((side.write)(&out[..schema_length], &mut text));
        };
        works.push((side.name, Box::new(both)));
    }
    times(works, rounds)
}

/// The least time of each, by turns, for other work on the machine only adds.
fn times(mut works: Vec<Work>, rounds: usize) -> Vec<(&'static str, f64)> {
    let calls: Vec<u32> = works.iter_mut().map(|(_, work)| calls_in_a_batch(work)).collect();
    let mut least = vec![f64::INFINITY; works.len()];
    for _ in 0..rounds {
        for (i, (_, work)) in works.iter_mut().enumerate() {
            let ns = batch(calls[i], work).as_nanos() as f64 / f64::from(calls[i]);
            least[i] = least[i].min(ns);
        }
    }
    works.iter().zip(least).map(|((name, _), ns)| (*name, ns)).collect()
}

fn calls_in_a_batch(work: &mut dyn FnMut()) -> u32 {
    let mut calls = 1;
    while batch(calls, work) < BATCH_TIME {
        calls *= 2;
    }
    calls
}

fn batch(calls: u32, work: &mut dyn FnMut()) -> Duration {
    let started = Instant::now();
    for _ in 0..calls {
        work();
    }
    started.elapsed()
}
