//! The canonical text: the Rust's own `Display`, but for the lines of
//! paragraphs that do not fit one line. Document 01 wraps those in its own way,
//! so each is printed under a mark of one line, and the mark's line is then
//! replaced by lines wrapped here.

use crate::schema::Schema;

const COLUMNS: usize = 77;
const FIELD_COLUMNS: usize = 73;
/// No printable byte, so no text of a table holds it.
const MARK: char = '\u{1}';

pub struct Text {
    pub text: String,
    /// Some paragraph did not fit one line, and its lines are not the Rust's.
    pub long: bool,
}

pub fn text(schema: &Schema) -> Text {
    if !has_long(schema) {
        return Text { text: schema.to_string(), long: false };
    }
    let mut marked = schema.clone();
    let mut wrapped = vec![];
    mark(&mut marked.comment, COLUMNS, &mut wrapped);
    for declaration in &mut marked.declarations {
        mark(&mut declaration.comment, COLUMNS, &mut wrapped);
        for field in &mut declaration.fields {
            mark(&mut field.comment, FIELD_COLUMNS, &mut wrapped);
        }
    }
    Text { text: unmark(&marked.to_string(), &wrapped), long: true }
}

fn has_long(schema: &Schema) -> bool {
    let long = |paragraphs: &[String], columns| paragraphs.iter().any(|p| p.len() > columns);
    long(&schema.comment, COLUMNS)
        || schema.declarations.iter().any(|declaration| {
            long(&declaration.comment, COLUMNS)
                || declaration.fields.iter().any(|field| long(&field.comment, FIELD_COLUMNS))
        })
}

fn mark(paragraphs: &mut [String], columns: usize, wrapped: &mut Vec<Vec<String>>) {
    for paragraph in paragraphs {
        if paragraph.len() > columns {
            wrapped.push(wrap(paragraph, columns));
            *paragraph = MARK.to_string();
        }
    }
}

fn unmark(text: &str, wrapped: &[Vec<String>]) -> String {
    let mut out = String::new();
    let mut wrapped = wrapped.iter();
    for line in text.split_inclusive('\n') {
        let Some((before, after)) = line.split_once(MARK) else {
            out += line;
            continue;
        };
        for part in wrapped.next().expect("as many marks as long paragraphs") {
            out += before;
            out += part;
            out += after;
        }
    }
    out
}

/// Each line takes as many whole words as fit; a longer word stands alone.
pub fn wrap(paragraph: &str, columns: usize) -> Vec<String> {
    let mut lines: Vec<String> = vec![];
    for word in paragraph.split(' ') {
        match lines.last_mut() {
            Some(line) if line.len() + 1 + word.len() <= columns => {
                line.push(' ');
                line.push_str(word);
            }
            _ => lines.push(word.to_owned()),
        }
    }
    lines
}
