//! The run finds each planted fault and makes its table small, and finds none
//! where there is none.

use diff::{
    run::{Outcome, Plan, Work, run},
    side::{FAULTY, Side, named},
};

fn seeded(side: Side, most_found: usize, count: u64) -> Outcome {
    run(&Plan { side, threads: 2, most_found, work: Work::Seeded { seed: 3, count } })
}

#[test]
fn planted_faults_are_found() {
    for side in FAULTY {
        let outcome = seeded(side, 1, 200_000);
        let found = outcome.found.first().unwrap_or_else(|| panic!("{} not found", side.name));
        let most = if side.name == "past-the-end" { 500 } else { 250 };
        assert!(found.table.len() <= most, "{} has {} bytes", side.name, found.table.len());
    }
}

#[test]
fn document_01_and_the_rust_agree() {
    let outcome = seeded(named("paper").unwrap(), 1, 20_000);
    assert!(outcome.found.is_empty());
}
