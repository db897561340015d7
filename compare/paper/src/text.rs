//! "Names" and "Canonical text".

use crate::schema::{Declaration, Field, Held, Import, Paragraphs, Schema, Type};
use tables::words::{snake, stem};

pub fn text(schema: &Schema) -> Vec<u8> {
    let mut out = vec![];
    comment(&mut out, "", 77, &schema.comment);
    let parts_follow = !schema.imports.is_empty() || !schema.declarations.is_empty();
    if !schema.comment.is_empty() && parts_follow {
        out.push(b'\n');
    }
    for each in &schema.imports {
        import(&mut out, each);
    }
    for (i, each) in schema.declarations.iter().enumerate() {
        if i > 0 || !schema.imports.is_empty() {
            out.push(b'\n');
        }
        declaration(&mut out, each);
    }
    out
}

fn comment(out: &mut Vec<u8>, indent: &str, columns: usize, paragraphs: &Paragraphs) {
    for (i, paragraph) in paragraphs.iter().enumerate() {
        if i > 0 {
            out.extend(format!("{indent}#\n").bytes());
        }
        let mut used = 0;
        for (j, word) in paragraph.split(|b| *b == b' ').enumerate() {
            if j > 0 && used + 1 + word.len() <= columns {
                out.push(b' ');
                used += 1 + word.len();
            } else {
                out.extend(if j > 0 { "\n" } else { "" }.bytes());
                out.extend(format!("{indent}# ").bytes());
                used = word.len();
            }
            out.extend(word);
        }
        out.push(b'\n');
    }
}

fn import(out: &mut Vec<u8>, import: &Import) {
    out.extend(b"import '");
    out.extend(&import.path);
    out.push(b'\'');
    let name = snake(&import.name);
    if stem(&import.path).map(snake) != Some(name.clone()) {
        out.extend(b" as ");
        out.extend(name);
    }
    out.push(b'\n');
}

fn declaration(out: &mut Vec<u8>, declaration: &Declaration) {
    comment(out, "", 77, &declaration.comment);
    out.extend(if declaration.choice { "choice " } else { "struct " }.bytes());
    out.extend(pascal(&declaration.name));
    out.extend(b" {\n");
    for (i, each) in declaration.fields.iter().enumerate() {
        let commented = |field: &Field| !field.comment.is_empty();
        if i > 0 && (commented(each) || commented(&declaration.fields[i - 1])) {
            out.push(b'\n');
        }
        field(out, each);
    }
    if !declaration.deleted.is_empty() {
        if !declaration.fields.is_empty() {
            out.push(b'\n');
        }
        out.extend(b"    deleted");
        for index in &declaration.deleted {
            out.extend(format!(" {index}").bytes());
        }
        out.push(b'\n');
    }
    out.extend(b"}\n");
}

fn field(out: &mut Vec<u8>, field: &Field) {
    comment(out, "    ", 73, &field.comment);
    out.extend(["    ", "    asymmetric ", "    optional "][usize::from(field.rule)].bytes());
    out.extend(snake(&field.name));
    let own_unit = field.r#type.arrays.is_empty() && matches!(field.r#type.held, Held::Plain(25));
    if !own_unit {
        out.extend(b": ");
        r#type(out, &field.r#type);
    }
    out.extend(format!(" = {}\n", field.index).bytes());
}

fn r#type(out: &mut Vec<u8>, r#type: &Type) {
    let depth = r#type.arrays.len();
    out.extend(b"[".repeat(depth));
    match &r#type.held {
        Held::Plain(kind) => {
            let known = tables::listing::KEYWORDS.iter().find(|(_, known)| known == kind);
            out.extend(known.expect("a plain type is a keyword").0.bytes());
        }
        Held::Custom { import, name } => {
            if !import.is_empty() {
                out.extend(snake(import));
                out.push(b'.');
            }
            out.extend(pascal(name));
        }
    }
    out.extend(b"]".repeat(depth));
}

/// Each word of the snake form, capitalised.
fn pascal(name: &[u8]) -> Vec<u8> {
    let snake = snake(name);
    let words = snake.split(|b| *b == b'_').filter(|word| !word.is_empty());
    words.flat_map(|word| [&[word[0].to_ascii_uppercase()], &word[1..]].concat()).collect()
}
