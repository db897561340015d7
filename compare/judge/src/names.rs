//! Names and namespaces, as lent by document 01: the Rust's forms, or R10.

use crate::{
    answer::Refusal,
    check::{ascii, printable},
    identifier::Identifier,
    schema::{Namespace, relativize_namespace},
};

const R10: Refusal = Refusal { number: 10, offset: 0 };
const MOST_NAMES: usize = 64;

pub fn name(bytes: &[u8]) -> Result<Identifier, Refusal> {
    let shape = (1..=128).contains(&bytes.len()) && bytes.iter().all(|b| printable(*b));
    if shape { Ok(ascii(bytes).into()) } else { Err(R10) }
}

pub fn snake(bytes: &[u8]) -> Result<String, Refusal> {
    name(bytes).map(|name| name.snake_case())
}

pub fn camel(bytes: &[u8]) -> Result<String, Refusal> {
    name(bytes).map(|name| name.camel_case())
}

pub fn pascal(bytes: &[u8]) -> Result<String, Refusal> {
    name(bytes).map(|name| name.pascal_case())
}

pub fn join(left: &[u8], right: &[u8]) -> Result<String, Refusal> {
    let joined = name(left)?.join(&name(right)?).original().to_owned();
    if joined.len() <= 128 { Ok(joined) } else { Err(R10) }
}

/// Whether the snake case of the Pascal form is the name's own.
pub fn survives(bytes: &[u8]) -> Result<bool, Refusal> {
    let name = name(bytes)?;
    Ok(Identifier::from(name.pascal_case().as_str()) == name)
}

pub fn namespace(lent: &[u8]) -> Result<Namespace, Refusal> {
    let mut components = vec![];
    let mut rest = lent;
    while !rest.is_empty() {
        let (length, after) = rest.split_first_chunk::<2>().ok_or(R10)?;
        let length = usize::from(u16::from_le_bytes(*length));
        let (bytes, after) = after.split_at_checked(length).ok_or(R10)?;
        components.push(name(bytes)?);
        rest = after;
    }
    if components.len() <= MOST_NAMES { Ok(Namespace { components }) } else { Err(R10) }
}

pub fn namespace_text(lent: &[u8]) -> Result<String, Refusal> {
    namespace(lent).map(|namespace| namespace.to_string())
}

/// The first namespace relative to the second, laid out as lent, and the number
/// of steps up.
pub fn relativize(first: &[u8], second: &[u8]) -> Result<(Vec<u8>, usize), Refusal> {
    let (left, up) = relativize_namespace(&namespace(first)?, &namespace(second)?);
    let mut out = vec![];
    for component in &left.components {
        let length = u16::try_from(component.original().len()).expect("names are short");
        out.extend(length.to_le_bytes());
        out.extend(component.original().bytes());
    }
    Ok((out, up))
}
