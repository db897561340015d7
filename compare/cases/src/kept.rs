//! The kept lists: what their programs read and have to print, and a README for
//! each.

use crate::{
    boundaries,
    lists::{files, grouped, is_the_rusts, printed, summary},
    rooms::{self, Call},
};
use judge::judge;
use std::{collections::BTreeMap, fmt::Write};
use tables::mix::case;

pub struct Kept {
    pub name: &'static str,
    pub stdin: Vec<u8>,
    pub stdout: String,
    pub readme: String,
}

pub fn all() -> [Kept; 3] {
    [boundaries(), replayed(), rooms()]
}

const SEED: u64 = 20_240;
/// The list ends when so many answers are the Rust's own.
const RUSTS: usize = 1_200;
const MOST_BYTES: usize = 600;

const TABLES: &str = "\
`stdin` holds the tables, each after its length as a little-endian u32. `stdout` has for each a \
line `= N`, N from 1, and then what `typefmt` prints for it: the text, or a line \
`E number start end found` for each error, or `R number offset`; 65,536 bytes are lent for each \
answer.";

const SOURCES: &str = "\
The answers are the unchanged Rust's. Where it has none (refusals, error 18, lines of paragraphs \
that don't fit one line) they are those of compare/paper, a second reading of document 01; the \
list is made only if the two agree wherever both speak. Made by `lists ROOT` in compare/, whose \
tests make it again and compare.";

fn boundaries() -> Kept {
    let cases = boundaries::all();
    let (stdin, stdout) = files(cases.iter().map(|case| &case.table[..]));
    let count = grouped(cases.len());
    let mut readme = format!(
        "# Boundaries\n\n{count} tables, one for each limit, number and rule of document 01, with \
         the answers that are due.\n\n{TABLES}\n\n{SOURCES}\n\nIn the tables below `R4` is a \
         refusal, `E12,5` an error list with these numbers, and `text` a schema. A listing stands \
         for its tokens at its byte places; other tokens have one byte between them. A range's \
         limits and the kinds are decimal.\n",
    );
    let (mut group, mut surprises) = ("", 0);
    for (number, case) in (1..).zip(&cases) {
        let got = summary(&printed(&case.table));
        if got != case.due {
            eprintln!("{}: {}: due {}, got {got}", case.group, case.what, case.due);
            surprises += 1;
        }
        if case.group != group {
            group = case.group;
            write!(readme, "\n## {group}\n\n| No. | What it tests | Answer |\n|---|---|---|\n")
                .unwrap();
        }
        writeln!(readme, "| {number} | {} | {got} |", case.what.replace('|', "\\|")).unwrap();
    }
    assert_eq!(surprises, 0, "tables that don't test what they say");
    Kept { name: "boundaries", stdin, stdout, readme }
}

fn replayed() -> Kept {
    let mut tables = vec![];
    let mut counts: BTreeMap<String, usize> = BTreeMap::new();
    let (mut rusts, mut number) = (0, 0);
    while rusts < RUSTS {
        let table = case(SEED, number).table;
        number += 1;
        if table.len() <= MOST_BYTES {
            rusts += usize::from(is_the_rusts(&judge(&table)));
            for part in kinds(&printed(&table)) {
                *counts.entry(part).or_default() += 1;
            }
            tables.push(table);
        }
    }
    let (stdin, stdout) = files(tables.iter().map(|table| &table[..]));
    let readme = format!(
        "# Replayed answers\n\n{} of the Rust's answers, and {} more, on tables of the seeded \
         generator: those of at most {MOST_BYTES} bytes among the first {} cases of seed {SEED} \
         (compare/tables).\n\n{TABLES}\n\n{SOURCES}\n\nHow many answers have each number, or are \
         schemas:\n\n{}",
        grouped(rusts),
        grouped(tables.len() - rusts),
        grouped(number as usize),
        counted(&counts),
    );
    Kept { name: "replayed", stdin, stdout, readme }
}

/// What the answer is, or which numbers its list has.
fn kinds(printed: &str) -> Vec<String> {
    if printed.is_empty() || !printed.starts_with(['E', 'R']) {
        return vec!["schema".to_owned()];
    }
    let word = |line: &str| line.split(' ').take(2).collect::<Vec<_>>().concat();
    let mut words: Vec<String> = printed.lines().map(word).collect();
    words.sort();
    words.dedup();
    words
}

fn counted(counts: &BTreeMap<String, usize>) -> String {
    let mut rows: Vec<_> = counts.iter().collect();
    rows.sort_by_key(|(word, _)| (word[..1].to_owned(), word[1..].parse::<u16>().unwrap_or(0)));
    let mut out = "| Answer | Tables |\n|---|---|\n".to_owned();
    for (word, count) in rows {
        writeln!(out, "| {word} | {} |", grouped(*count)).unwrap();
    }
    out
}

fn rooms() -> Kept {
    let list = rooms::all();
    let (mut stdin, mut stdout) = (vec![], String::new());
    let mut readme = format!(
        "# Rooms\n\n{} calls with a certain room: just enough, one byte less, none, some to spare; \
         and schema tables that writing refuses, rule by rule.\n\n`stdin` holds the calls: a byte \
         (0: a token table is read, 1: a schema table is written), the room as u32, the table's \
         length as u32, the table; numbers are little-endian. No room is above {} bytes and no \
         table above 131,073. `stdout` has for each call a line `= N`, N from 1, and then \
         `schema LEN kept`, `errors LEN kept`, `text LEN kept` or `R number offset kept`, where \
         `kept` says that no byte past the answer changed, and on a refusal none at all.\n\n\
         The lengths and numbers are the judge's and compare/paper's, which have to agree: the \
         Rust itself knows no room and no tables. Made by `lists ROOT` in compare/, whose tests \
         make it again and compare.\n\n| No. | Call | Table | Room | Answer |\n|---|---|---|---|---|\n",
        grouped(list.len()),
        grouped(rooms::MOST_ROOM),
    );
    for (number, room) in (1..).zip(&list) {
        let line = room.line();
        let answer = line.trim_end().trim_end_matches(" kept");
        if let Some(due) = room.due {
            let got =
                if line.starts_with('R') { line[..3].replace(' ', "") } else { "text".to_owned() };
            assert_eq!(got, due, "{}", room.what);
        }
        stdin.push(u8::from(room.call == Call::Write));
        stdin.extend((room.room as u32).to_le_bytes());
        stdin.extend((room.table.len() as u32).to_le_bytes());
        stdin.extend(&room.table);
        write!(stdout, "= {number}\n{line}").unwrap();
        let call = if room.call == Call::Read { "read" } else { "write" };
        writeln!(readme, "| {number} | {call} | {} | {} | {answer} |", room.what, room.room)
            .unwrap();
    }
    Kept { name: "rooms", stdin, stdout, readme }
}
