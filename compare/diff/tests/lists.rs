//! The kept lists are right by both readings, and a planted fault shows.

use diff::{lists::run, side::named};
use std::path::Path;

#[test]
fn both_readings_agree_with_the_lists() {
    let root = Path::new(env!("CARGO_MANIFEST_DIR")).join("../..");
    for name in ["paper", "judge"] {
        assert!(run(named(name).unwrap(), &root).unwrap(), "{name}");
    }
    for name in ["found-lost", "refusal-touches", "bare-deleted"] {
        assert!(!run(named(name).unwrap(), &root).unwrap(), "{name}");
    }
    if let Some(ours) = named("ours") {
        assert!(run(ours, &root).unwrap());
    }
}
