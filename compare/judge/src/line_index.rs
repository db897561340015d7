//! Stands in for the original's `line_index.rs`, which is not to be had. It
//! serves the listings in messages only, and those are not compared, so it
//! knows no lines and the listing ends at once.

#[derive(Default)]
pub struct LineIndex;

impl LineIndex {
    pub fn line(&self, _offset: usize) -> Option<usize> {
        None
    }

    pub fn line_start(&self, _line: usize) -> Option<usize> {
        None
    }

    pub fn line_end(&self, _line: usize) -> Option<usize> {
        None
    }
}
