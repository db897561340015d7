//! "The grammar" and "Errors collected".

use crate::{
    check::{number, paragraphs},
    schema::{Declaration, Field, Held, Import, Paragraphs, Range, Schema, Type, encode},
};
use tables::{
    token::*,
    words::{snake, stem},
};

pub enum Answer {
    Schema(Vec<u8>),
    Errors(Vec<u8>),
}

pub fn read(tokens: &[Tok]) -> Answer {
    let mut reader = Reader { tokens, at: 0, errors: vec![] };
    let mut schema = Schema::default();
    let ended = reader.schema(&mut schema);
    if let Err(End) = ended {
        debug_assert!(!reader.errors.is_empty());
    }
    if reader.errors.is_empty() {
        Answer::Schema(encode(&schema))
    } else {
        Answer::Errors(reader.errors)
    }
}

/// An error of those that end the parse was reported.
struct End;
/// An error was found whose place is the reader's.
struct Fault(u16);

struct Reader<'a> {
    tokens: &'a [Tok],
    at: usize,
    errors: Vec<u8>,
}

impl Reader<'_> {
    fn kind(&self, ahead: usize) -> u16 {
        self.tokens.get(self.at + ahead).map_or(0, |token| token.kind)
    }

    fn list_end(&self) -> u32 {
        self.tokens.last().map_or(0, |token| token.end)
    }

    fn report(&mut self, number: u16, range: Range, found: u16) {
        for part in [14, number] {
            self.errors.extend(part.to_le_bytes());
        }
        self.errors.extend(range.0.to_le_bytes());
        self.errors.extend(range.1.to_le_bytes());
        self.errors.extend(found.to_le_bytes());
    }

    /// Errors 1 to 13: at the offending token, or at the list's end.
    fn report_here(&mut self, number: u16) {
        match self.tokens.get(self.at) {
            Some(token) => self.report(number, (token.start, token.end), token.kind),
            None => self.report(number, (self.list_end(), self.list_end()), 0),
        }
    }

    fn take(&mut self, kind: u16, number: u16) -> Result<&[u8], Fault> {
        if self.kind(0) != kind {
            return Err(Fault(number));
        }
        self.at += 1;
        Ok(&self.tokens[self.at - 1].payload)
    }

    fn take_or_end(&mut self, kind: u16, number: u16) -> Result<Vec<u8>, End> {
        match self.take(kind, number) {
            Ok(payload) => Ok(payload.to_vec()),
            Err(Fault(number)) => {
                self.report_here(number);
                Err(End)
            }
        }
    }

    /// From the first token's start to the last one's end.
    fn range_from(&self, first: usize) -> Range {
        (self.tokens[first].start, self.tokens[self.at - 1].end)
    }

    fn comment(&mut self) -> Paragraphs {
        match self.take(COMMENT, 0) {
            Ok(payload) => paragraphs(payload).expect("the table was checked"),
            Err(_) => vec![],
        }
    }

    fn schema(&mut self, schema: &mut Schema) -> Result<(), End> {
        if self.kind(0) == COMMENT && !self.is_declarations_comment() {
            schema.comment = self.comment();
        }
        let mut taken: Vec<Option<Vec<u8>>> = vec![];
        while self.kind(0) == IMPORT {
            let first = self.at;
            match self.import() {
                Err(Fault(number)) => self.report_here(number),
                Ok((path, name)) => {
                    let range = self.range_from(first);
                    if name.is_none() {
                        self.report(14, range, 0);
                    }
                    let folded = name.as_deref().map(snake);
                    if taken.contains(&folded) {
                        self.report(15, range, 0);
                    }
                    taken.push(folded);
                    schema.imports.push(Import { range, name: name.unwrap_or_default(), path });
                }
            }
        }
        while self.at < self.tokens.len() {
            schema.declarations.push(self.declaration()?);
        }
        Ok(())
    }

    fn is_declarations_comment(&self) -> bool {
        let [comment, next, ..] = self.tokens else {
            return false;
        };
        [STRUCT, CHOICE].contains(&next.kind) && u64::from(next.start) <= u64::from(comment.end) + 1
    }

    /// The path, and the name if one is given or can be inferred.
    fn import(&mut self) -> Result<(Vec<u8>, Option<Vec<u8>>), Fault> {
        self.at += 1;
        let path = self.take(PATH, 6)?.to_vec();
        if self.kind(0) == AS {
            self.at += 1;
            let name = self.take(IDENTIFIER, 7)?.to_vec();
            return Ok((path, Some(name)));
        }
        let name = stem(&path).map(<[u8]>::to_vec);
        Ok((path, name))
    }

    fn declaration(&mut self) -> Result<Declaration, End> {
        let first = self.at;
        let comment = self.comment();
        if self.at == self.tokens.len() {
            let last = &self.tokens[first];
            self.report(18, (last.start, last.end), 0);
            return Err(End);
        }
        let choice = self.kind(0) == CHOICE;
        if !choice && self.kind(0) != STRUCT {
            self.report_here(1);
            return Err(End);
        }
        self.at += 1;
        let name = self.take_or_end(IDENTIFIER, if choice { 3 } else { 2 })?;
        self.take_or_end(LEFT_CURLY, 4)?;
        let mut fields = vec![];
        while ![0, DELETED, RIGHT_CURLY].contains(&self.kind(0)) {
            match self.field() {
                Ok(field) => fields.push(field),
                Err(Fault(number)) => {
                    self.report_here(number);
                    while ![0, RIGHT_CURLY].contains(&self.kind(0)) {
                        self.at += 1;
                    }
                }
            }
        }
        let deleted = self.deleted();
        self.take_or_end(RIGHT_CURLY, 5)?;
        Ok(Declaration { range: self.range_from(first), choice, name, comment, fields, deleted })
    }

    fn deleted(&mut self) -> Vec<u64> {
        let mut deleted = vec![];
        if self.take(DELETED, 0).is_err() {
            return deleted;
        }
        while let Ok(payload) = self.take(INTEGER, 0) {
            let index = number(payload);
            if deleted.contains(&index) {
                self.report(16, self.range_from(self.at - 1), 0);
            }
            deleted.push(index);
        }
        deleted
    }

    fn field(&mut self) -> Result<Field, Fault> {
        let first = self.at;
        let comment = self.comment();
        let rule = match self.kind(0) {
            ASYMMETRIC => 1,
            OPTIONAL => 2,
            _ => 0,
        };
        if rule != 0 {
            self.at += 1;
        }
        let name = self.take(IDENTIFIER, 8)?.to_vec();
        let r#type = if self.take(COLON, 0).is_ok() { self.r#type()? } else { self.no_type() };
        self.take(EQUALS, 12)?;
        let index = number(self.take(INTEGER, 13)?);
        Ok(Field { range: self.range_from(first), rule, index, name, comment, r#type })
    }

    fn no_type(&self) -> Type {
        let place = self.tokens.get(self.at).map_or(self.list_end(), |token| token.start);
        Type { arrays: vec![], range: (place, place), held: Held::Plain(UNIT) }
    }

    fn r#type(&mut self) -> Result<Type, Fault> {
        let first = self.at;
        while self.kind(0) == LEFT_SQUARE {
            self.at += 1;
        }
        let depth = self.at - first;
        let inside = self.at;
        let held = self.held()?;
        let range = self.range_from(inside);
        let mut arrays = vec![];
        for outer in (first..inside).rev() {
            self.take(RIGHT_SQUARE, 11)?;
            arrays.insert(0, self.range_from(outer));
        }
        debug_assert_eq!(depth, arrays.len());
        Ok(Type { arrays, range, held })
    }

    fn held(&mut self) -> Result<Held, Fault> {
        let kind = self.kind(0);
        if PLAIN_TYPES.contains(&kind) {
            self.at += 1;
            return Ok(Held::Plain(kind));
        }
        if self.tokens.len() - self.at >= 3 && self.kind(1) == DOT {
            let import = self.take(IDENTIFIER, 10)?.to_vec();
            self.at += 1;
            let name = self.take(IDENTIFIER, 9)?.to_vec();
            return Ok(Held::Custom { import, name });
        }
        let name = self.take(IDENTIFIER, 9)?.to_vec();
        Ok(Held::Custom { import: vec![], name })
    }
}
