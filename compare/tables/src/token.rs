//! Tokens as plain data, faulty ones included, and their table.

pub const AS: u16 = 1;
pub const ASYMMETRIC: u16 = 2;
pub const BOOL: u16 = 3;
pub const CHOICE: u16 = 5;
pub const COLON: u16 = 6;
pub const COMMENT: u16 = 7;
pub const DELETED: u16 = 8;
pub const DOT: u16 = 9;
pub const EQUALS: u16 = 10;
pub const IDENTIFIER: u16 = 12;
pub const IMPORT: u16 = 13;
pub const INTEGER: u16 = 14;
pub const LEFT_CURLY: u16 = 15;
pub const LEFT_SQUARE: u16 = 16;
pub const OPTIONAL: u16 = 17;
pub const PATH: u16 = 18;
pub const RIGHT_CURLY: u16 = 19;
pub const RIGHT_SQUARE: u16 = 20;
pub const STRUCT: u16 = 23;
pub const UNIT: u16 = 25;

pub const PLAIN_TYPES: [u16; 7] = [3, 4, 11, 21, 22, 24, 25];

#[derive(Clone, Debug, Eq, PartialEq)]
pub struct Tok {
    pub kind: u16,
    pub start: u32,
    pub end: u32,
    pub payload: Vec<u8>,
}

impl Tok {
    pub fn bare(kind: u16) -> Self {
        Self::with(kind, vec![])
    }

    pub fn with(kind: u16, payload: Vec<u8>) -> Self {
        Self { kind, start: 0, end: 0, payload }
    }

    pub fn name(name: impl AsRef<[u8]>) -> Self {
        Self::with(IDENTIFIER, name.as_ref().to_vec())
    }

    pub fn path(path: impl AsRef<[u8]>) -> Self {
        Self::with(PATH, path.as_ref().to_vec())
    }

    pub fn integer(number: u64) -> Self {
        Self::with(INTEGER, number.to_le_bytes().to_vec())
    }

    pub fn comment<T: AsRef<[u8]>>(paragraphs: &[T]) -> Self {
        let mut payload = vec![];
        for paragraph in paragraphs {
            payload.extend((paragraph.as_ref().len() as u16).to_le_bytes());
            payload.extend(paragraph.as_ref());
        }
        Self::with(COMMENT, payload)
    }

    pub fn record_len(&self) -> usize {
        12 + self.payload.len()
    }
}

pub fn table_len(tokens: &[Tok]) -> usize {
    tokens.iter().map(Tok::record_len).sum()
}

pub fn table(tokens: &[Tok]) -> Vec<u8> {
    let mut out = Vec::with_capacity(table_len(tokens));
    for token in tokens {
        // A length that does not fit is a fault that some cases want.
        out.extend((token.record_len() as u16).to_le_bytes());
        out.extend(token.kind.to_le_bytes());
        out.extend(token.start.to_le_bytes());
        out.extend(token.end.to_le_bytes());
        out.extend(&token.payload);
    }
    out
}

/// The tokens of a table, as far as its records hold together.
pub fn tokens(table: &[u8]) -> Vec<Tok> {
    let mut found = vec![];
    let mut rest = table;
    while let Some(head) = rest.first_chunk::<12>() {
        let length = usize::from(u16::from_le_bytes([head[0], head[1]]));
        if length < 12 || length > rest.len() {
            break;
        }
        found.push(Tok {
            kind: u16::from_le_bytes([head[2], head[3]]),
            start: u32::from_le_bytes([head[4], head[5], head[6], head[7]]),
            end: u32::from_le_bytes([head[8], head[9], head[10], head[11]]),
            payload: rest[12..length].to_vec(),
        });
        rest = &rest[length..];
    }
    found
}
