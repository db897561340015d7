// Links libFuzzer, which run.sh has found, and what it needs in turn.

use std::env;

fn main() {
    println!("cargo::rerun-if-env-changed=FUZZER_RUNTIME");
    let runtime = env::var("FUZZER_RUNTIME").expect("run.sh names libFuzzer");
    for argument in [&runtime[..], "-lstdc++", "-lm", "-lpthread", "-ldl", "-lgcc_s", "-lc"] {
        println!("cargo::rustc-link-arg-bins={argument}");
    }
}
