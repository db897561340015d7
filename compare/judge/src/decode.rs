//! A schema table back into the Rust's schema, or R1 or R9.

use crate::{
    answer::Refusal,
    check::{Record, ascii, cut_record, paragraphs, path, printable},
    error::SourceRange,
    identifier::Identifier,
    schema::{Declaration, DeclarationVariant, Field, Import, Rule, Schema, Type, TypeVariant},
};
use std::collections::{BTreeMap, BTreeSet};

const MOST_BYTES: usize = 131_072;
const MOST_ARRAYS: usize = 64;

pub fn decode(table: &[u8]) -> Result<Schema, Refusal> {
    if table.len() > MOST_BYTES {
        return Err(Refusal { number: 1, offset: 0 });
    }
    schema(table).ok_or(Refusal { number: 9, offset: 0 })
}

fn schema(table: &[u8]) -> Option<Schema> {
    let mut records = records(table)?.into_iter().peekable();
    let mut comment = vec![];
    if let Some(record) = records.next_if(|record| record.kind == 101) {
        comment = filled_paragraphs(record.payload, None)?;
        if comment.is_empty() {
            return None;
        }
    }
    let mut imports: BTreeMap<Identifier, Import> = BTreeMap::new();
    while let Some(record) = records.next_if(|record| record.kind == 102) {
        let (name, rest) = counted_name(record.payload)?;
        if imports.last_key_value().is_some_and(|(last, _)| *last >= name) {
            return None;
        }
        let source_range = range(&record);
        imports.insert(name, Import { source_range, path: path(rest)?, namespace: None });
    }
    let mut declarations = vec![];
    while let Some(record) = records.next() {
        let variant = match record.kind {
            103 => DeclarationVariant::Struct,
            104 => DeclarationVariant::Choice,
            _ => return None,
        };
        let (name, rest) = counted_name(record.payload)?;
        let comment = counted_paragraphs(rest)?;
        let mut fields = vec![];
        while let Some(record) = records.next_if(|record| record.kind == 105) {
            fields.push(field(&record, &mut records)?);
        }
        let mut deleted = BTreeSet::new();
        if let Some(record) = records.next_if(|record| record.kind == 106) {
            deleted = indices(record.payload)?;
        }
        let source_range = range(&record);
        declarations.push(Declaration { source_range, comment, variant, name, fields, deleted });
    }
    Some(Schema { comment, imports, declarations })
}

fn records(table: &[u8]) -> Option<Vec<Record<'_>>> {
    let mut found = vec![];
    let mut rest = table;
    while !rest.is_empty() {
        let record = cut_record(rest)?;
        rest = &rest[record.length..];
        found.push(record);
    }
    Some(found)
}

fn range(record: &Record) -> SourceRange {
    SourceRange { start: record.start, end: record.end }
}

fn field<'a>(record: &Record, records: &mut impl Iterator<Item = Record<'a>>) -> Option<Field> {
    let (rule, rest) = record.payload.split_first()?;
    let rule = match rule {
        0 => Rule::Required,
        1 => Rule::Asymmetric,
        2 => Rule::Optional,
        _ => return None,
    };
    let (index, rest) = rest.split_first_chunk::<8>()?;
    let index = usize::try_from(u64::from_le_bytes(*index)).expect("integers are 64-bit");
    let (name, rest) = counted_name(rest)?;
    let comment = counted_paragraphs(rest)?;
    let r#type = r#type(records, 0)?;
    Some(Field { source_range: range(record), comment, rule, name, r#type, index })
}

fn r#type<'a>(records: &mut impl Iterator<Item = Record<'a>>, arrays: usize) -> Option<Type> {
    let record = records.next()?;
    let variant = match record.kind {
        107 if record.payload.is_empty() && arrays < MOST_ARRAYS => {
            TypeVariant::Array(Box::new(r#type(records, arrays + 1)?))
        }
        108 => plain(record.payload)?,
        109 => custom(record.payload)?,
        _ => return None,
    };
    Some(Type { source_range: range(&record), variant })
}

fn plain(payload: &[u8]) -> Option<TypeVariant> {
    Some(match u16::from_le_bytes(payload.try_into().ok()?) {
        3 => TypeVariant::Bool,
        4 => TypeVariant::Bytes,
        11 => TypeVariant::F64,
        21 => TypeVariant::S64,
        22 => TypeVariant::String,
        24 => TypeVariant::U64,
        25 => TypeVariant::Unit,
        _ => return None,
    })
}

fn custom(payload: &[u8]) -> Option<TypeVariant> {
    let (length, rest) = payload.split_first_chunk::<2>()?;
    if *length == [0, 0] {
        return Some(TypeVariant::Custom(None, name(rest)?));
    }
    let (import, rest) = counted_name(payload)?;
    Some(TypeVariant::Custom(Some(import), name(rest)?))
}

fn indices(payload: &[u8]) -> Option<BTreeSet<usize>> {
    let mut found = BTreeSet::new();
    let mut rest = payload;
    while let Some((index, after)) = rest.split_first_chunk::<8>() {
        let index = usize::try_from(u64::from_le_bytes(*index)).expect("integers are 64-bit");
        if found.last().is_some_and(|last| *last >= index) {
            return None;
        }
        found.insert(index);
        rest = after;
    }
    (rest.is_empty() && !found.is_empty()).then_some(found)
}

fn name(bytes: &[u8]) -> Option<Identifier> {
    let shape = (1..=128).contains(&bytes.len()) && bytes.iter().all(|b| printable(*b));
    shape.then(|| ascii(bytes).into())
}

fn counted_name(payload: &[u8]) -> Option<(Identifier, &[u8])> {
    let (length, rest) = payload.split_first_chunk::<2>()?;
    let (bytes, rest) = rest.split_at_checked(usize::from(u16::from_le_bytes(*length)))?;
    Some((name(bytes)?, rest))
}

fn counted_paragraphs(payload: &[u8]) -> Option<Vec<String>> {
    let (count, rest) = payload.split_first_chunk::<2>()?;
    filled_paragraphs(rest, Some(usize::from(u16::from_le_bytes(*count))))
}

fn filled_paragraphs(payload: &[u8], count: Option<usize>) -> Option<Vec<String>> {
    if count.is_some_and(|count| count > 32) {
        return None;
    }
    let (found, rest) = paragraphs(payload, count)?;
    (rest.is_empty() && found.len() <= 32).then_some(found)
}
