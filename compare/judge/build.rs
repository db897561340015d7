// Names the original files by their place on this machine, which `#[path]`
// wants as a literal and which may not be committed.

use std::{env, fmt::Write, fs, path::PathBuf};

const FILES: [&str; 6] = ["error", "format", "identifier", "parser", "schema", "token"];

fn source_folder() -> PathBuf {
    match env::var_os("TYPICAL_SRC") {
        Some(folder) => PathBuf::from(folder),
        None => PathBuf::from(env::var_os("CARGO_MANIFEST_DIR").unwrap())
            .join("../../../shared/docs/src"),
    }
}

fn main() {
    println!("cargo::rerun-if-env-changed=TYPICAL_SRC");
    let folder = source_folder();
    let Ok(folder) = folder.canonicalize() else {
        panic!(
            "the original Rust is not at {}: set TYPICAL_SRC to the folder with parser.rs",
            folder.display(),
        );
    };
    let mut modules = String::new();
    for name in FILES {
        let file = folder.join(name).with_extension("rs");
        println!("cargo::rerun-if-changed={}", file.display());
        writeln!(modules, "#[path = {:?}]\npub mod {name};", file.display().to_string()).unwrap();
    }
    let out = PathBuf::from(env::var_os("OUT_DIR").unwrap());
    fs::write(out.join("original.rs"), modules).unwrap();
}
