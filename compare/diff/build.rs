// Links the static library that LIBRARY_A names, if the feature asks for it.

use std::{env, path::Path};

fn main() {
    println!("cargo::rerun-if-env-changed=LIBRARY_A");
    if env::var_os("CARGO_FEATURE_LIBRARY").is_none() {
        return;
    }
    let file = env::var("LIBRARY_A").expect("LIBRARY_A names libtypical.a");
    println!("cargo::rerun-if-changed={file}");
    let folder = Path::new(&file).parent().expect("a folder holds it");
    println!("cargo::rustc-link-search=native={}", folder.display());
    println!("cargo::rustc-link-lib=static=typical");
}
