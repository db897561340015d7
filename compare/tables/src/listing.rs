//! A readable listing to its tokens at its byte places, for writing tests:
//! words, signs, integers, 'paths' and lines of `# comment`.

use crate::token::*;

pub const KEYWORDS: [(&str, u16); 14] = [
    ("as", 1),
    ("asymmetric", 2),
    ("Bool", 3),
    ("Bytes", 4),
    ("choice", 5),
    ("deleted", 8),
    ("F64", 11),
    ("import", 13),
    ("optional", 17),
    ("S64", 21),
    ("String", 22),
    ("struct", 23),
    ("U64", 24),
    ("Unit", 25),
];

const SIGNS: [(u8, u16); 7] = [
    (b':', COLON),
    (b'.', DOT),
    (b'=', EQUALS),
    (b'{', LEFT_CURLY),
    (b'[', LEFT_SQUARE),
    (b'}', RIGHT_CURLY),
    (b']', RIGHT_SQUARE),
];

/// The table of a listing.
pub fn assemble(listing: &str) -> Result<Vec<u8>, String> {
    Ok(table(&scan(listing)?))
}

pub fn scan(listing: &str) -> Result<Vec<Tok>, String> {
    let text = listing.as_bytes();
    let mut tokens = vec![];
    let mut at = 0;
    while at < text.len() {
        let (token, end) = match text[at] {
            b' ' | b'\t' | b'\n' => (None, at + 1),
            b'#' => comment(text, at),
            b'\'' => path(text, at)?,
            b'0'..=b'9' => integer(text, at)?,
            b'A'..=b'Z' | b'a'..=b'z' | b'_' => word(text, at),
            other => match SIGNS.iter().find(|(sign, _)| *sign == other) {
                Some((_, kind)) => (Some(Tok::bare(*kind)), at + 1),
                None => return Err(format!("no token begins at byte {at}")),
            },
        };
        if let Some(mut token) = token {
            token.start = at as u32;
            token.end = end as u32;
            tokens.push(token);
        }
        at = end;
    }
    Ok(tokens)
}

type Scanned = (Option<Tok>, usize);

fn run(text: &[u8], from: usize, fits: impl Fn(u8) -> bool) -> usize {
    text[from..].iter().position(|b| !fits(*b)).map_or(text.len(), |length| from + length)
}

fn word(text: &[u8], at: usize) -> Scanned {
    let end = run(text, at, |b| b.is_ascii_alphanumeric() || b == b'_' || b == b'-');
    let word = &text[at..end];
    let keyword = KEYWORDS.iter().find(|(known, _)| known.as_bytes() == word);
    (Some(keyword.map_or_else(|| Tok::name(word), |(_, kind)| Tok::bare(*kind))), end)
}

fn integer(text: &[u8], at: usize) -> Result<Scanned, String> {
    let end = run(text, at, |b| b.is_ascii_digit());
    let digits = str::from_utf8(&text[at..end]).expect("digits are ASCII");
    let number = digits.parse().map_err(|_| format!("the integer at byte {at} is too large"))?;
    Ok((Some(Tok::integer(number)), end))
}

fn path(text: &[u8], at: usize) -> Result<Scanned, String> {
    let end = run(text, at + 1, |b| b != b'\'' && b != b'\n');
    if text.get(end) != Some(&b'\'') {
        return Err(format!("the path at byte {at} is not closed"));
    }
    Ok((Some(Tok::path(&text[at + 1..end])), end + 1))
}

/// Lines that follow each other are one comment, and an empty one parts its
/// paragraphs.
fn comment(text: &[u8], at: usize) -> Scanned {
    let mut paragraphs: Vec<Vec<u8>> = vec![vec![]];
    let mut from = at;
    loop {
        let end = run(text, from, |b| b != b'\n');
        add_line(&mut paragraphs, &text[from + 1..end]);
        let next = run(text, (end + 1).min(text.len()), |b| b == b' ' || b == b'\t');
        if text.get(next) != Some(&b'#') {
            paragraphs.retain(|paragraph| !paragraph.is_empty());
            let token = (!paragraphs.is_empty()).then(|| Tok::comment(&paragraphs));
            return (token, end);
        }
        from = next;
    }
}

fn add_line(paragraphs: &mut Vec<Vec<u8>>, line: &[u8]) {
    let words: Vec<&[u8]> =
        line.split(|b| *b == b' ' || *b == b'\t').filter(|word| !word.is_empty()).collect();
    if words.is_empty() {
        paragraphs.push(vec![]);
    }
    let last = paragraphs.last_mut().expect("there is a first paragraph");
    for word in words {
        if !last.is_empty() {
            last.push(b' ');
        }
        last.extend(word);
    }
}
