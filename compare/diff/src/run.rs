//! The loop over cases, shared among threads, and its counts.

use crate::{
    compare::{Mismatch, compare_schema, compare_table},
    minimise::minimise,
    side::Side,
};
use judge::{Answer, ErrorRecord, Refusal};
use std::{
    collections::BTreeMap,
    fmt,
    sync::atomic::{AtomicUsize, Ordering},
    thread,
};
use tables::{
    mix::{case, damaged_schema},
    short::Family,
    token::table,
};

/// Cases between two lines about how far a long run has come.
const PROGRESS: u64 = 250_000;

/// How often each kind of answer came.
#[derive(Clone, Default)]
pub struct Counts {
    pub tables: u64,
    pub bytes: u64,
    kinds: BTreeMap<String, u64>,
    errors: BTreeMap<u16, u64>,
}

impl Counts {
    fn add(&mut self, kind: impl Into<String>) {
        *self.kinds.entry(kind.into()).or_default() += 1;
    }

    fn answer(&mut self, table: &[u8], answer: &Answer) {
        self.tables += 1;
        self.bytes += table.len() as u64;
        match answer {
            Answer::Refused(refusal) => self.add(format!("R{}", refusal.number)),
            Answer::Errors(errors) => self.error_list("errors", errors),
            Answer::Panicked(errors) => self.error_list("panic", errors),
            Answer::Surprise => self.add("SURPRISE"),
            Answer::Schema(written) if written.long => self.add("schema-long"),
            Answer::Schema(_) => self.add("schema"),
        }
    }

    fn error_list(&mut self, kind: &str, errors: &[ErrorRecord]) {
        self.add(kind);
        for error in errors {
            *self.errors.entry(error.number).or_default() += 1;
        }
    }

    fn schema_table(&mut self, table: &[u8], answer: Result<(), Refusal>) {
        self.tables += 1;
        self.bytes += table.len() as u64;
        match answer {
            Ok(()) => self.add("written"),
            Err(refusal) => self.add(format!("write-R{}", refusal.number)),
        }
    }

    fn merge(&mut self, other: &Self) {
        self.tables += other.tables;
        self.bytes += other.bytes;
        for (kind, count) in &other.kinds {
            *self.kinds.entry(kind.clone()).or_default() += count;
        }
        for (number, count) in &other.errors {
            *self.errors.entry(*number).or_default() += count;
        }
    }
}

impl fmt::Display for Counts {
    fn fmt(&self, f: &mut fmt::Formatter) -> fmt::Result {
        write!(f, "tables {} bytes {}", self.tables, self.bytes)?;
        for (kind, count) in &self.kinds {
            write!(f, " {kind} {count}")?;
        }
        for (number, count) in &self.errors {
            write!(f, " E{number} {count}")?;
        }
        Ok(())
    }
}

/// A mismatch with the smallest table that still shows one.
pub struct Found {
    pub from: String,
    pub table: Vec<u8>,
    pub mismatch: Mismatch,
}

#[derive(Default)]
pub struct Outcome {
    pub counts: Counts,
    pub found: Vec<Found>,
}

pub struct Plan<'a> {
    pub side: Side,
    pub threads: usize,
    /// The run stops after this many.
    pub most_found: usize,
    pub work: Work<'a>,
}

pub enum Work<'a> {
    /// Random cases of a seed.
    Seeded { seed: u64, count: u64 },
    /// All lists of a family.
    Short(&'a Family),
    /// Given token tables.
    Tables(&'a [(String, Vec<u8>)]),
    /// Given schema tables.
    Schemas(&'a [(String, Vec<u8>)]),
}

impl Work<'_> {
    fn count(&self) -> u64 {
        match self {
            Self::Seeded { count, .. } => *count,
            Self::Short(family) => family.count(),
            Self::Tables(tables) | Self::Schemas(tables) => tables.len() as u64,
        }
    }

    fn table(&self, number: u64) -> (String, Vec<u8>) {
        match self {
            Self::Seeded { seed, .. } => {
                let case = case(*seed, number);
                (format!("seed {seed} case {number} {:?}", case.sort), case.table)
            }
            Self::Short(family) => {
                (format!("{} {number}", family.name), table(&family.list(number)))
            }
            Self::Tables(tables) | Self::Schemas(tables) => tables[number as usize].clone(),
        }
    }
}

pub fn run(plan: &Plan) -> Outcome {
    let found_by_all = AtomicUsize::new(0);
    let mut outcome = Outcome::default();
    thread::scope(|scope| {
        let workers: Vec<_> = (0..plan.threads)
            .map(|first| {
                scope.spawn({
                    let found_by_all = &found_by_all;
                    move || share(plan, first, found_by_all)
                })
            })
            .collect();
        for worker in workers {
            let part = worker.join().expect("a side must not panic");
            outcome.counts.merge(&part.counts);
            outcome.found.extend(part.found);
        }
    });
    outcome
}

fn share(plan: &Plan, first: usize, found_by_all: &AtomicUsize) -> Outcome {
    let mut outcome = Outcome::default();
    let mut number = first as u64;
    while number < plan.work.count() && found_by_all.load(Ordering::Relaxed) < plan.most_found {
        if number > 0 && number.is_multiple_of(PROGRESS) {
            eprintln!("{number} cases, {} found", found_by_all.load(Ordering::Relaxed));
        }
        let before = outcome.found.len();
        one_case(plan, number, &mut outcome);
        found_by_all.fetch_add(outcome.found.len() - before, Ordering::Relaxed);
        number += plan.threads as u64;
    }
    outcome
}

fn one_case(plan: &Plan, number: u64, outcome: &mut Outcome) {
    let (from, table) = plan.work.table(number);
    if let Work::Schemas(_) = plan.work {
        return schema_case(&plan.side, &from, &table, outcome);
    }
    let answer = table_case(&plan.side, &from, &table, outcome);
    if let (Answer::Schema(written), Work::Seeded { seed, .. }) = (answer, &plan.work) {
        let table = damaged_schema(*seed, number, written.table);
        schema_case(&plan.side, &format!("{from}, its schema damaged"), &table, outcome);
    }
}

fn table_case(side: &Side, from: &str, table: &[u8], outcome: &mut Outcome) -> Answer {
    let (answer, result) = compare_table(side, table);
    outcome.counts.answer(table, &answer);
    // A panic that document 01 does not foresee is a finding on any side.
    let faulty = |answer: &Answer, result: &Result<(), Mismatch>| {
        result.is_err() || *answer == Answer::Surprise
    };
    if faulty(&answer, &result) {
        let table = minimise(table, |table| {
            let (answer, result) = compare_table(side, table);
            faulty(&answer, &result)
        });
        let mismatch = compare_table(side, &table).1.err().unwrap_or(Mismatch {
            call: "read",
            room: 0,
            expected: "a panic".to_owned(),
            got: "that document 01 does not foresee".to_owned(),
        });
        outcome.found.push(Found { from: from.to_owned(), table, mismatch });
    }
    answer
}

fn schema_case(side: &Side, from: &str, table: &[u8], outcome: &mut Outcome) {
    let (answer, result) = compare_schema(side, table);
    outcome.counts.schema_table(table, answer);
    if result.is_err() {
        let table = minimise(table, |table| compare_schema(side, table).1.is_err());
        if let Err(mismatch) = compare_schema(side, &table).1 {
            outcome.found.push(Found { from: from.to_owned(), table, mismatch });
        }
    }
}
