//! Token tables for the comparison: seeded and deterministic, so that a case is
//! named by its seed and number alone.

pub mod damage;
pub mod grammar;
pub mod listing;
pub mod mix;
pub mod mutate;
pub mod naming;
pub mod places;
pub mod rng;
pub mod short;
pub mod special;
pub mod token;
pub mod words;
