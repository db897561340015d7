// The stripped source is one file with a module for each crate. It names its
// modules from the root of a crate, so it is laid into this crate's root.

use std::{env, fs, path::PathBuf};

fn main() {
    println!("cargo::rerun-if-env-changed=OURS_RS");
    let source = match env::var_os("OURS_RS") {
        None => String::new(),
        Some(file) => {
            println!("cargo::rerun-if-changed={}", PathBuf::from(&file).display());
            let text = fs::read_to_string(&file).expect("OURS_RS names the stripped source");
            without_inner_attributes(&text)
        }
    };
    let out = PathBuf::from(env::var_os("OUT_DIR").unwrap());
    fs::write(out.join("ours.rs"), source).unwrap();
}

/// An included file may not have them.
fn without_inner_attributes(text: &str) -> String {
    let kept = text.lines().filter(|line| !line.starts_with("#!["));
    kept.flat_map(|line| [line, "\n"]).collect()
}
