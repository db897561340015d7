//! The kept lists are what the program makes.

use cases::kept;
use std::{fs, path::Path};

#[test]
fn the_kept_lists_are_made_again() {
    let crates = Path::new(env!("CARGO_MANIFEST_DIR")).join("../../crates");
    for list in kept::all() {
        let folder = crates.join(list.name);
        assert!(fs::read(folder.join("stdin")).unwrap() == list.stdin, "{}", list.name);
        assert!(
            fs::read(folder.join("stdout")).unwrap() == list.stdout.as_bytes(),
            "{}",
            list.name
        );
        assert_eq!(fs::read_to_string(folder.join("README.md")).unwrap(), list.readme);
    }
}
