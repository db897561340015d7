//! The token kinds 1 to 25 of document 01, against the Rust's variants.

use crate::token::Variant;

pub const COMMENT: u16 = 7;
pub const IDENTIFIER: u16 = 12;
pub const INTEGER: u16 = 14;
pub const LEFT_SQUARE: u16 = 16;
pub const PATH: u16 = 18;

pub fn kind_of(variant: &Variant) -> u16 {
    match variant {
        Variant::As => 1,
        Variant::Asymmetric => 2,
        Variant::Bool => 3,
        Variant::Bytes => 4,
        Variant::Choice => 5,
        Variant::Colon => 6,
        Variant::Comment(_) => COMMENT,
        Variant::Deleted => 8,
        Variant::Dot => 9,
        Variant::Equals => 10,
        Variant::F64 => 11,
        Variant::Identifier(_) => IDENTIFIER,
        Variant::Import => 13,
        Variant::Integer(_) => INTEGER,
        Variant::LeftCurly => 15,
        Variant::LeftSquare => LEFT_SQUARE,
        Variant::Optional => 17,
        Variant::Path(_) => PATH,
        Variant::RightCurly => 19,
        Variant::RightSquare => 20,
        Variant::S64 => 21,
        Variant::String => 22,
        Variant::Struct => 23,
        Variant::U64 => 24,
        Variant::Unit => 25,
    }
}

/// The variant of a kind whose payload is empty.
pub fn bare_variant(kind: u16) -> Option<Variant> {
    Some(match kind {
        1 => Variant::As,
        2 => Variant::Asymmetric,
        3 => Variant::Bool,
        4 => Variant::Bytes,
        5 => Variant::Choice,
        6 => Variant::Colon,
        8 => Variant::Deleted,
        9 => Variant::Dot,
        10 => Variant::Equals,
        11 => Variant::F64,
        13 => Variant::Import,
        15 => Variant::LeftCurly,
        16 => Variant::LeftSquare,
        17 => Variant::Optional,
        19 => Variant::RightCurly,
        20 => Variant::RightSquare,
        21 => Variant::S64,
        22 => Variant::String,
        23 => Variant::Struct,
        24 => Variant::U64,
        25 => Variant::Unit,
        _ => return None,
    })
}
