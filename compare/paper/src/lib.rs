//! Document 01 read literally, sharing no code with the judge: a slow second
//! side for the comparison. Where it and the judge differ, either the document says
//! something else than the Rust does, or one of the two is misread.

mod check;
mod read;
mod schema;
mod text;

pub use read::Answer;

/// A number that stops a call, and its offset.
pub type Refusal = (u16, usize);

/// The schema table or error list of a token table, with room for any.
pub fn read(table: &[u8]) -> Result<Answer, Refusal> {
    check::tokens(table).map(|tokens| read::read(&tokens))
}

/// The canonical text of a schema table, with room for any.
pub fn write(table: &[u8]) -> Result<Vec<u8>, Refusal> {
    if table.len() > 131_072 {
        return Err((1, 0));
    }
    schema::decode(table).map(|schema| text::text(&schema)).ok_or((9, 0))
}
