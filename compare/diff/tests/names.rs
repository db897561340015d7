//! The run over names finds each planted fault, and none where there is none.

use diff::names::{named, run};

#[test]
fn names() {
    assert!(run(named("judge").unwrap(), 5, 20_000));
    for fault in ["join-long", "camel-pascal"] {
        assert!(!run(named(fault).unwrap(), 5, 20_000), "{fault}");
    }
    if let Some(ours) = named("ours") {
        assert!(run(ours, 5, 20_000));
    }
}
