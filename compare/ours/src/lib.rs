//! The project's own source, from the file that `OURS_RS` names; empty without.
#![allow(warnings)]

include!(concat!(env!("OUT_DIR"), "/ours.rs"));
