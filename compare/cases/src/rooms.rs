//! The list of rooms: reading and writing with just enough room, with one byte
//! less, with none and with some to spare; and the schema tables that writing
//! refuses.

mod refused;

use crate::lists::{read_line, write_line};
use judge::{Answer, judge};
use tables::{listing::assemble, special};

#[derive(Clone, Copy, Eq, PartialEq)]
pub enum Call {
    Read,
    Write,
}

pub struct Room {
    pub call: Call,
    pub what: String,
    /// `R9` or `text`, where the table was made to give it.
    pub due: Option<&'static str>,
    pub room: usize,
    pub table: Vec<u8>,
}

impl Room {
    pub fn line(&self) -> String {
        match self.call {
            Call::Read => read_line(&self.table, self.room),
            Call::Write => write_line(&self.table, self.room),
        }
    }
}

/// No room in the list is larger.
pub const MOST_ROOM: usize = 131_072;

pub fn all() -> Vec<Room> {
    let mut list = vec![];
    for (what, table) in sources() {
        let answer = judge(&table);
        rooms(&mut list, Call::Read, &what, &table, length(&answer));
        if let Answer::Schema(written) = answer {
            rooms(&mut list, Call::Write, &what, &written.table, Some(written.text.len()));
        }
    }
    list.extend(refused::all());
    assert!(list.iter().all(|room| room.room <= MOST_ROOM));
    list
}

/// The length of an answer, if it isn't a refusal.
fn length(answer: &Answer) -> Option<usize> {
    match answer {
        Answer::Schema(written) => Some(written.table.len()),
        Answer::Refused(_) => None,
        answer => answer.error_bytes().map(|bytes| bytes.len()),
    }
}

fn rooms(list: &mut Vec<Room>, call: Call, what: &str, table: &[u8], length: Option<usize>) {
    let large = table.len() > 4_096;
    let rooms = match length {
        None => vec![0, 24],
        Some(0) => vec![0, 1, 24],
        Some(length) if large => vec![length - 1, length],
        Some(length) => vec![0, 1, length / 2, length - 1, length, length + 1, length + 24],
    };
    let mut last = None;
    for room in rooms {
        if last != Some(room) {
            let (what, table) = (what.to_owned(), table.to_vec());
            list.push(Room { call, what, due: None, room, table });
        }
        last = Some(room);
    }
}

const LISTINGS: [&str; 32] = [
    "",
    "# a",
    "# a b c\n#\n# d",
    "import 'a.t'",
    "import 'b.t' import 'a.t'",
    "import 'op_table.t' as opTable",
    "import 'a.t' as HTTPPort",
    "struct A { }",
    "struct _ { }",
    "choice opTable { }",
    "# a\nstruct A { }",
    "# a\n\nstruct A { }",
    "struct A { x = 0 }",
    "struct A { x: U64 = 18446744073709551615 }",
    "struct A { optional x: [[String]] = 7 }",
    "struct A { asymmetric x: m . b = 10 }",
    "struct A { # c\nx: Bytes = 0 y: F64 = 1 }",
    "struct A { deleted 3 2 1 }",
    "struct op_8d { cycles: U64 = 0 deleted 2 1 }",
    "# s\nimport 'a' struct A { x = 0 } # d\nchoice B { y: [Unit] = 1 deleted 0 }",
    "x",
    "struct",
    "struct A { x",
    "struct A { x 3 } choice B { y = 0 deleted 4 4 }",
    "# a\n\n# b",
    "import '..' import '.'",
    "import import import",
    "import 'a' import 'A'",
    "struct A { x: y .",
    "struct A { deleted 1 1 1 1 }",
    "import struct A { x } choice B { deleted 1 1 =",
    "struct A { } struct B { } x",
];

fn sources() -> Vec<(String, Vec<u8>)> {
    let mut all = vec![];
    for listing in LISTINGS {
        let shown = format!("`{}`", listing.replace('\n', "\\n"));
        all.push((shown, assemble(listing).expect("listings here are well formed")));
    }
    let faulty: [(&str, &[u8]); 5] = [
        ("refused with R2", &[1]),
        ("refused with R3", &[12, 0, 26, 0, 0, 0, 0, 0, 0, 0, 0, 0]),
        ("refused with R4", &[13, 0, 1, 0, 0, 0, 0, 0, 0, 0, 0, 0, 0]),
        ("refused with R5", &[12, 0, 1, 0, 1, 0, 0, 0, 0, 0, 0, 0]),
        ("refused with R2 after a good record", &[12, 0, 1, 0, 0, 0, 0, 0, 0, 0, 0, 0, 7]),
    ];
    all.extend(faulty.map(|(what, table)| (what.to_owned(), table.to_vec())));
    let wanted = ["typical", "squares-64", "squares-65", "largest", "all-errors", "long-comment"];
    let specials = special::all().into_iter().filter(|(name, _)| wanted.contains(name));
    all.extend(specials.map(|(name, table)| (format!("the special table {name}"), table)));
    all
}
