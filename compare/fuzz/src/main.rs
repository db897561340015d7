//! The comparison as a target for libFuzzer, which brings its own `main`: an
//! input becomes a table, the project's own source and the judge answer it, and
//! a difference ends the run.
//!
//! The first byte chooses how the rest is taken: as a token table, as a schema
//! table, or as a short form of tokens, in which every change of a byte is again
//! a list of tokens.
#![no_main]

mod short;

use diff::{
    compare::{Mismatch, compare_schema, compare_table},
    side::{Side, named},
};
use std::{process::abort, slice, sync::OnceLock};

static OURS: OnceLock<Side> = OnceLock::new();

/// # Safety
///
/// libFuzzer lends `size` bytes at `data`.
#[unsafe(no_mangle)]
pub unsafe extern "C" fn LLVMFuzzerTestOneInput(data: *const u8, size: usize) -> i32 {
    if size > 0 {
        // SAFETY: libFuzzer's promise, as above, and `data` is not null then.
        one(unsafe { slice::from_raw_parts(data, size) });
    }
    0
}

fn one(input: &[u8]) {
    let ours = OURS.get_or_init(|| named("ours").expect("built with the project's own source"));
    let (how, rest) = input.split_first().expect("the input is not empty");
    let result = match how % 4 {
        0 => compare_table(ours, rest).1,
        1 => compare_schema(ours, rest).1,
        _ => compare_table(ours, &short::table_of(rest)).1,
    };
    if let Err(mismatch) = result {
        report(&mismatch);
    }
}

fn report(mismatch: &Mismatch) {
    eprintln!("MISMATCH {} with room {}", mismatch.call, mismatch.room);
    eprintln!("  judge {}", mismatch.expected);
    eprintln!("  side  {}", mismatch.got);
    abort();
}
