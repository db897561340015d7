//! Compares a side with the judge on many tables.

pub mod compare;
mod library;
pub mod lists;
pub mod minimise;
pub mod names;
pub mod ours;
pub mod run;
pub mod side;
