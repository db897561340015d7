//! Schemas, and the schema table.

use crate::check::{name_ok, number, paragraphs, path_ok, record};
use tables::{token::Tok, words::snake};

pub type Range = (u32, u32);
pub type Paragraphs = Vec<Vec<u8>>;

#[derive(Default)]
pub struct Schema {
    pub comment: Paragraphs,
    pub imports: Vec<Import>,
    pub declarations: Vec<Declaration>,
}

pub struct Import {
    pub range: Range,
    pub name: Vec<u8>,
    pub path: Vec<u8>,
}

pub struct Declaration {
    pub range: Range,
    pub choice: bool,
    pub name: Vec<u8>,
    pub comment: Paragraphs,
    pub fields: Vec<Field>,
    /// In any order before they are encoded.
    pub deleted: Vec<u64>,
}

pub struct Field {
    pub range: Range,
    pub rule: u8,
    pub index: u64,
    pub name: Vec<u8>,
    pub comment: Paragraphs,
    pub r#type: Type,
}

/// Arrays from the outside in, then what they hold.
pub struct Type {
    pub arrays: Vec<Range>,
    pub range: Range,
    pub held: Held,
}

pub enum Held {
    Plain(u16),
    Custom { import: Vec<u8>, name: Vec<u8> },
}

pub fn encode(schema: &Schema) -> Vec<u8> {
    let mut out = vec![];
    if !schema.comment.is_empty() {
        put(&mut out, 101, (0, 0), &laid(&schema.comment));
    }
    let mut imports: Vec<&Import> = schema.imports.iter().collect();
    imports.sort_by_key(|import| snake(&import.name));
    for import in imports {
        put(&mut out, 102, import.range, &[counted(&import.name), import.path.clone()].concat());
    }
    for declaration in &schema.declarations {
        let kind = if declaration.choice { 104 } else { 103 };
        let payload = [counted(&declaration.name), counted_paragraphs(&declaration.comment)];
        put(&mut out, kind, declaration.range, &payload.concat());
        for field in &declaration.fields {
            put_field(&mut out, field);
        }
        let mut deleted = declaration.deleted.clone();
        deleted.sort_unstable();
        if !deleted.is_empty() {
            let payload: Vec<u8> = deleted.iter().flat_map(|index| index.to_le_bytes()).collect();
            put(&mut out, 106, (0, 0), &payload);
        }
    }
    out
}

fn put_field(out: &mut Vec<u8>, field: &Field) {
    let payload = [
        vec![field.rule],
        field.index.to_le_bytes().to_vec(),
        counted(&field.name),
        counted_paragraphs(&field.comment),
    ];
    put(out, 105, field.range, &payload.concat());
    for range in &field.r#type.arrays {
        put(out, 107, *range, &[]);
    }
    match &field.r#type.held {
        Held::Plain(kind) => put(out, 108, field.r#type.range, &kind.to_le_bytes()),
        Held::Custom { import, name } => {
            put(out, 109, field.r#type.range, &[counted(import), name.clone()].concat());
        }
    }
}

fn put(out: &mut Vec<u8>, kind: u16, range: Range, payload: &[u8]) {
    let token = Tok { kind, start: range.0, end: range.1, payload: payload.to_vec() };
    out.extend(tables::token::table(&[token]));
}

fn counted(bytes: &[u8]) -> Vec<u8> {
    [&(bytes.len() as u16).to_le_bytes(), bytes].concat()
}

fn laid(paragraphs: &Paragraphs) -> Vec<u8> {
    paragraphs.iter().flat_map(|paragraph| counted(paragraph)).collect()
}

fn counted_paragraphs(paragraphs: &Paragraphs) -> Vec<u8> {
    [(paragraphs.len() as u16).to_le_bytes().to_vec(), laid(paragraphs)].concat()
}

/// Nothing where the bytes are no schema table.
pub fn decode(table: &[u8]) -> Option<Schema> {
    let mut records = vec![];
    let mut at = 0;
    while at < table.len() {
        let (record, length) = record(&table[at..])?;
        records.push(record);
        at += length;
    }
    let mut schema = Schema::default();
    let mut rest = &records[..];
    if let Some(record) = take(&mut rest, 101) {
        schema.comment = paragraphs(&record.payload)?;
        if schema.comment.is_empty() || schema.comment.len() > 32 {
            return None;
        }
    }
    while let Some(record) = take(&mut rest, 102) {
        let (name, path) = cut_name(&record.payload)?;
        schema.imports.push(Import { range: range(record), name, path: path.to_vec() });
        if !path_ok(path) {
            return None;
        }
    }
    if !schema.imports.is_sorted_by(|a, b| snake(&a.name) < snake(&b.name)) {
        return None;
    }
    while !rest.is_empty() {
        schema.declarations.push(declaration(&mut rest)?);
    }
    Some(schema)
}

fn take<'a>(rest: &mut &'a [Tok], kind: u16) -> Option<&'a Tok> {
    let (first, after) = rest.split_first()?;
    if first.kind != kind {
        return None;
    }
    *rest = after;
    Some(first)
}

fn range(record: &Tok) -> Range {
    (record.start, record.end)
}

fn cut_name(payload: &[u8]) -> Option<(Vec<u8>, &[u8])> {
    let length = number(payload.get(..2)?) as usize;
    let name = payload.get(2..2 + length)?;
    name_ok(name).then(|| (name.to_vec(), &payload[2 + length..]))
}

fn cut_paragraphs(payload: &[u8]) -> Option<Paragraphs> {
    let count = number(payload.get(..2)?) as usize;
    let found = paragraphs(&payload[2..])?;
    (found.len() == count && count <= 32).then_some(found)
}

fn declaration(rest: &mut &[Tok]) -> Option<Declaration> {
    let (choice, head) = match take(rest, 103) {
        Some(head) => (false, head),
        None => (true, take(rest, 104)?),
    };
    let (name, after) = cut_name(&head.payload)?;
    let comment = cut_paragraphs(after)?;
    let mut fields = vec![];
    while let Some(record) = take(rest, 105) {
        fields.push(field(record, rest)?);
    }
    let mut deleted = vec![];
    if let Some(record) = take(rest, 106) {
        deleted = record.payload.chunks(8).map(number).collect();
        let whole = record.payload.len() % 8 == 0 && !deleted.is_empty();
        if !whole || !deleted.is_sorted_by(|a, b| a < b) {
            return None;
        }
    }
    Some(Declaration { range: range(head), choice, name, comment, fields, deleted })
}

fn field(record: &Tok, rest: &mut &[Tok]) -> Option<Field> {
    let rule = *record.payload.first()?;
    if rule > 2 {
        return None;
    }
    let index = number(record.payload.get(1..9)?);
    let (name, after) = cut_name(&record.payload[9..])?;
    let comment = cut_paragraphs(after)?;
    let r#type = r#type(rest)?;
    Some(Field { range: range(record), rule, index, name, comment, r#type })
}

fn r#type(rest: &mut &[Tok]) -> Option<Type> {
    let mut arrays = vec![];
    while let Some(record) = take(rest, 107) {
        arrays.push(range(record));
        if !record.payload.is_empty() || arrays.len() > 64 {
            return None;
        }
    }
    if let Some(record) = take(rest, 108) {
        let kind = number(&record.payload) as u16;
        let plain = record.payload.len() == 2 && [3, 4, 11, 21, 22, 24, 25].contains(&kind);
        return plain.then(|| Type { arrays, range: range(record), held: Held::Plain(kind) });
    }
    let record = take(rest, 109)?;
    let (import, name) = match record.payload.strip_prefix(&[0, 0]) {
        Some(name) => (vec![], name),
        None => cut_name(&record.payload)?,
    };
    let held = Held::Custom { import, name: name.to_vec() };
    name_ok(name).then(|| Type { arrays, range: range(record), held })
}
