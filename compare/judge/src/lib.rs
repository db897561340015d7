//! The unchanged Rust as judge: a token table goes in, and what the Rust makes
//! of its tokens comes out in document 01's formats.
//!
//! The original files are modules of this crate's root, as they expect. What
//! the Rust has no counterpart for (tables and their refusals) is plain code
//! here, written from document 01.

include!(concat!(env!("OUT_DIR"), "/original.rs"));
pub mod line_index;

pub mod check;
pub mod decode;
pub mod encode;
pub mod kinds;
pub mod names;
pub mod parse;
pub mod text;

mod answer;
pub use answer::{Answer, Refusal, TYPEFMT_ROOM, Written, judge, judge_schema, typefmt};
pub use parse::ErrorRecord;
