//! A schema as document 01's schema table, kinds 101 to 109.

use crate::{
    error::SourceRange,
    identifier::Identifier,
    kinds::{bare_variant, kind_of},
    schema::{Declaration, DeclarationVariant, Field, Rule, Schema, Type, TypeVariant},
};

const NOWHERE: SourceRange = SourceRange { start: 0, end: 0 };

pub fn encode(schema: &Schema) -> Vec<u8> {
    let mut out = vec![];
    if !schema.comment.is_empty() {
        let mut payload = vec![];
        put_paragraphs(&mut payload, &schema.comment);
        put_record(&mut out, 101, NOWHERE, &payload);
    }
    // The map's order is that of snake case.
    for (name, import) in &schema.imports {
        let mut payload = vec![];
        put_name(&mut payload, name);
        payload.extend(import.path.to_str().expect("paths are ASCII").bytes());
        put_record(&mut out, 102, import.source_range, &payload);
    }
    for declaration in &schema.declarations {
        put_declaration(&mut out, declaration);
    }
    out
}

fn put_declaration(out: &mut Vec<u8>, declaration: &Declaration) {
    let kind = match declaration.variant {
        DeclarationVariant::Struct => 103,
        DeclarationVariant::Choice => 104,
    };
    let mut payload = vec![];
    put_name(&mut payload, &declaration.name);
    put_counted_paragraphs(&mut payload, &declaration.comment);
    put_record(out, kind, declaration.source_range, &payload);
    for field in &declaration.fields {
        put_field(out, field);
    }
    if !declaration.deleted.is_empty() {
        let indices = declaration.deleted.iter();
        let payload: Vec<u8> = indices.flat_map(|index| (*index as u64).to_le_bytes()).collect();
        put_record(out, 106, NOWHERE, &payload);
    }
}

fn put_field(out: &mut Vec<u8>, field: &Field) {
    let rule = match field.rule {
        Rule::Required => 0,
        Rule::Asymmetric => 1,
        Rule::Optional => 2,
    };
    let mut payload = vec![rule];
    payload.extend((field.index as u64).to_le_bytes());
    put_name(&mut payload, &field.name);
    put_counted_paragraphs(&mut payload, &field.comment);
    put_record(out, 105, field.source_range, &payload);
    put_type(out, &field.r#type);
}

fn put_type(out: &mut Vec<u8>, r#type: &Type) {
    let plain = match &r#type.variant {
        TypeVariant::Array(inner) => {
            put_record(out, 107, r#type.source_range, &[]);
            return put_type(out, inner);
        }
        TypeVariant::Custom(import, name) => {
            let mut payload = vec![];
            match import {
                None => put_number(&mut payload, 0),
                Some(import) => put_name(&mut payload, import),
            }
            payload.extend(name.original().bytes());
            return put_record(out, 109, r#type.source_range, &payload);
        }
        TypeVariant::Bool => 3_u16,
        TypeVariant::Bytes => 4,
        TypeVariant::F64 => 11,
        TypeVariant::S64 => 21,
        TypeVariant::String => 22,
        TypeVariant::U64 => 24,
        TypeVariant::Unit => 25,
    };
    debug_assert!(bare_variant(plain).is_some_and(|variant| kind_of(&variant) == plain));
    put_record(out, 108, r#type.source_range, &plain.to_le_bytes());
}

fn put_record(out: &mut Vec<u8>, kind: usize, range: SourceRange, payload: &[u8]) {
    put_number(out, 12 + payload.len());
    put_number(out, kind);
    for place in [range.start, range.end] {
        let place = u32::try_from(place).expect("places come from u32");
        out.extend(place.to_le_bytes());
    }
    out.extend(payload);
}

fn put_number(out: &mut Vec<u8>, number: usize) {
    let number = u16::try_from(number).expect("lengths within the limits fit 16 bits");
    out.extend(number.to_le_bytes());
}

fn put_name(out: &mut Vec<u8>, name: &Identifier) {
    put_number(out, name.original().len());
    out.extend(name.original().bytes());
}

fn put_paragraphs(out: &mut Vec<u8>, paragraphs: &[String]) {
    for paragraph in paragraphs {
        put_number(out, paragraph.len());
        out.extend(paragraph.bytes());
    }
}

fn put_counted_paragraphs(out: &mut Vec<u8>, paragraphs: &[String]) {
    put_number(out, paragraphs.len());
    put_paragraphs(out, paragraphs);
}
