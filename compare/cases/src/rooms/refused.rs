//! Schema tables against R1 and R9, each rule by itself.

use super::{Call, Room};
use tables::{special, token::*};

/// Enough for the text of any small table here.
const ROOM: usize = 2_048;

/// A paragraph.
const ONE: &[u8] = b"c";

/// A letter for each record: comment, import, declaration, x (a field), type,
/// array, and - for deleted indices.
const ORDERS: [(&str, &str); 29] = [
    ("text", "cidxt-dxtxat-d"),
    ("R9", "cc"),
    ("R9", "ic"),
    ("R9", "dc"),
    ("R9", "di"),
    ("R9", "dxti"),
    ("R9", "xt"),
    ("R9", "ixt"),
    ("R9", "-"),
    ("R9", "i-"),
    ("R9", "t"),
    ("R9", "a"),
    ("R9", "dt"),
    ("R9", "da"),
    ("R9", "d-t"),
    ("R9", "dxtt"),
    ("R9", "dx"),
    ("R9", "dxx"),
    ("R9", "dxd"),
    ("R9", "dx-"),
    ("R9", "dxa"),
    ("R9", "dxaxt"),
    ("R9", "d--"),
    ("R9", "d-xt"),
    ("text", "dxtxt"),
    ("text", "dd"),
    ("text", "d-d-"),
    ("text", "c"),
    ("text", "i"),
];

struct List(Vec<Room>);

pub fn all() -> Vec<Room> {
    let mut list = List(vec![]);
    list.sizes();
    list.cut_records();
    list.order_of_records();
    list.comments();
    list.imports();
    list.declarations();
    list.fields();
    list.deleted();
    list.types();
    list.ranges();
    list.0
}

fn counted(bytes: impl AsRef<[u8]>) -> Vec<u8> {
    let bytes = bytes.as_ref();
    [&(bytes.len() as u16).to_le_bytes(), bytes].concat()
}

/// A count, and then the paragraphs, which may be other than counted.
fn paragraphs(count: u16, paragraphs: &[&[u8]]) -> Vec<u8> {
    let laid: Vec<u8> = paragraphs.iter().flat_map(counted).collect();
    [count.to_le_bytes().to_vec(), laid].concat()
}

fn comment(all: &[&[u8]]) -> Tok {
    Tok::with(101, all.iter().flat_map(counted).collect())
}

fn import(name: impl AsRef<[u8]>, path: impl AsRef<[u8]>) -> Tok {
    Tok::with(102, [counted(name), path.as_ref().to_vec()].concat())
}

fn head(name: impl AsRef<[u8]>) -> Tok {
    Tok::with(103, [counted(name), vec![0, 0]].concat())
}

fn field(rule: u8, name: impl AsRef<[u8]>) -> Tok {
    Tok::with(105, [vec![rule], vec![0; 8], counted(name), vec![0, 0]].concat())
}

fn deleted(indices: &[u64]) -> Tok {
    Tok::with(106, indices.iter().flat_map(|index| index.to_le_bytes()).collect())
}

fn array() -> Tok {
    Tok::bare(107)
}

fn plain(kind: u16) -> Tok {
    Tok::with(108, kind.to_le_bytes().to_vec())
}

fn custom(import: impl AsRef<[u8]>, name: impl AsRef<[u8]>) -> Tok {
    Tok::with(109, [counted(import), name.as_ref().to_vec()].concat())
}

/// `struct A { x: TYPE = 0 }`
fn with_type(r#type: &[Tok]) -> Vec<Tok> {
    [&[head("A"), field(0, "x")], r#type].concat()
}

impl List {
    fn bytes(&mut self, due: &'static str, what: &str, room: usize, table: Vec<u8>) {
        let (what, due) = (what.to_owned(), Some(due));
        self.0.push(Room { call: Call::Write, what, due, room, table });
    }

    fn one(&mut self, due: &'static str, what: &str, records: &[Tok]) {
        self.bytes(due, what, ROOM, table(records));
    }

    fn many(&mut self, all: &[(&'static str, &str, &[Tok])]) {
        for (due, what, records) in all {
            self.one(due, what, records);
        }
    }

    fn sizes(&mut self) {
        let named = |wanted| special::schemas().into_iter().find(|(n, _)| *n == wanted).unwrap().1;
        let largest = named("schema-131072");
        self.bytes("R1", "131,073 bytes", ROOM, named("schema-131073"));
        self.bytes("R1", "131,073 zeros: R1 before R9", ROOM, vec![0; 131_073]);
        let text = judge::judge_schema(&largest).expect("it is well formed").text.len();
        self.bytes("R8", "131,072 bytes, one byte too little room", text - 1, largest.clone());
        self.bytes("text", "131,072 bytes", text, largest);
        self.bytes("R9", "R9 before R8", 0, table(&[head("")]));
        self.bytes("text", "the empty schema table, no room", 0, vec![]);
    }

    fn cut_records(&mut self) {
        let good = table(&[head("A")]);
        for left in 1..good.len() {
            let what = format!("{left} of a declaration's {} bytes", good.len());
            self.bytes("R9", &what, ROOM, good[..left].to_vec());
        }
        self.bytes("text", "all of them", ROOM, good.clone());
        for (length, due) in
            [(0, "R9"), (11, "R9"), (12, "R9"), (16, "R9"), (18, "R9"), (273, "R9")]
        {
            let mut bytes = good.clone();
            bytes[..2].copy_from_slice(&u16::to_le_bytes(length));
            self.bytes(due, &format!("its length field is {length}"), ROOM, bytes);
        }
        for kind in [0, 1, 12, 100, 110, 103 + 256, 65_535] {
            let mut record = head("A");
            record.kind = kind;
            self.one("R9", &format!("kind {kind}"), &[record]);
        }
    }

    fn order_of_records(&mut self) {
        let record = |letter| match letter {
            'c' => comment(&[b"c"]),
            'i' => import("a", "p"),
            'd' => head("A"),
            'x' => field(0, "x"),
            't' => plain(UNIT),
            'a' => array(),
            _ => deleted(&[1]),
        };
        for (due, letters) in ORDERS {
            let records: Vec<Tok> = letters.chars().map(record).collect();
            self.one(due, &format!("records in the order {letters}"), &records);
        }
    }

    fn comments(&mut self) {
        let long = [b'a'; 1_025];
        self.many(&[
            ("R9", "a comment of no paragraph", &[comment(&[])]),
            ("text", "32 paragraphs", &[comment(&[ONE; 32])]),
            ("R9", "33 paragraphs", &[comment(&[ONE; 33])]),
            ("text", "a paragraph of 1,024 bytes", &[comment(&[&long[..1_024]])]),
            ("R9", "a paragraph of 1,025 bytes", &[comment(&[&long])]),
            ("R9", "a paragraph of 0 bytes", &[comment(&[b""])]),
            ("R9", "a space first", &[comment(&[b" a"])]),
            ("R9", "a space last", &[comment(&[b"a "])]),
            ("R9", "two spaces together", &[comment(&[b"a  b"])]),
            ("R9", "a byte 0x1F", &[comment(&[b"a\x1Fb"])]),
            ("R9", "a byte 0x7F", &[comment(&[b"a\x7Fb"])]),
            ("R9", "1 byte after the last paragraph", &[Tok::with(101, vec![1, 0, b'a', 0])]),
            ("R9", "a paragraph cut short", &[Tok::with(101, vec![2, 0, b'a'])]),
        ]);
    }

    fn imports(&mut self) {
        let long = [b'a'; 129];
        self.many(&[
            ("R9", "an import's name of 0 bytes", &[import("", "p")]),
            ("text", "an import's name of 128 bytes", &[import(&long[..128], "p")]),
            ("R9", "an import's name of 129 bytes", &[import(long, "p")]),
            ("R9", "an import's name with 0x1F", &[import("a\x1F", "p")]),
            ("R9", "an import's name with 0x7F", &[import("a\x7F", "p")]),
            ("R9", "an import's name with 0x80", &[import(b"a\x80", "p")]),
            ("text", "an import's name of odd bytes", &[import(" '~.", "p")]),
            ("text", "no path", &[import("a", "")]),
            ("text", "a path of 128 bytes", &[import("a", &long[..128])]),
            ("R9", "a path of 129 bytes", &[import("a", long)]),
            ("R9", "a path with 0x27", &[import("a", "p'")]),
            ("R9", "a path with 0x1F", &[import("a", "\x1F")]),
            ("R9", "a path with 0x7F", &[import("a", "\x7F")]),
            ("R9", "an import of no bytes", &[Tok::bare(102)]),
            ("R9", "an import of 1 byte", &[Tok::with(102, vec![1])]),
            ("R9", "a name one past the end", &[Tok::with(102, vec![2, 0, b'a'])]),
            ("R9", "a name far past the end", &[Tok::with(102, vec![1, 1, b'a'])]),
            ("text", "names in order", &[import("a", ""), import("a_b", ""), import("ab", "")]),
            ("R9", "one name twice", &[import("a", ""), import("a", "q")]),
            ("R9", "one snake case twice", &[import("aB", ""), import("a_b", "")]),
            ("R9", "names of no words twice", &[import("_", ""), import("-", "")]),
            ("R9", "names in reverse order", &[import("b", ""), import("a", "")]),
            ("R9", "in order as spelled alone", &[import("Z", ""), import("a", "")]),
            ("text", "in order by snake case alone", &[import("a", ""), import("Z", "")]),
            ("R9", "a prefix last", &[import("ab", ""), import("a", "")]),
            ("R9", "the third out of order", &[import("a", ""), import("c", ""), import("b", "")]),
        ]);
    }

    fn declarations(&mut self) {
        let long = [b'a'; 129];
        let with = |rest: Vec<u8>| Tok::with(103, [counted("A"), rest].concat());
        let extra = |rest: Vec<u8>| with([rest, vec![0]].concat());
        self.many(&[
            ("R9", "a declaration's name of 0 bytes", &[head("")]),
            ("text", "a declaration's name of 128 bytes", &[head(&long[..128])]),
            ("R9", "a declaration's name of 129 bytes", &[head(long)]),
            ("R9", "a declaration's name with a newline", &[head("a\nb")]),
            ("text", "a declaration's name of odd bytes", &[head(" '~ A.b")]),
            ("R9", "no count of paragraphs", &[with(vec![])]),
            ("R9", "1 byte of the count", &[with(vec![0])]),
            ("text", "2 paragraphs", &[with(paragraphs(2, &[b"c", b"d"]))]),
            ("R9", "more paragraphs than counted", &[with(paragraphs(1, &[b"c", b"d"]))]),
            ("R9", "fewer paragraphs than counted", &[with(paragraphs(3, &[b"c", b"d"]))]),
            ("R9", "counted 0, one there", &[with(paragraphs(0, &[b"c"]))]),
            ("R9", "counted 1, none there", &[with(paragraphs(1, &[]))]),
            ("R9", "counted 257, one there", &[with(paragraphs(257, &[b"c"]))]),
            ("text", "32 paragraphs of a declaration", &[with(paragraphs(32, &[ONE; 32]))]),
            ("R9", "33 paragraphs of a declaration", &[with(paragraphs(33, &[ONE; 33]))]),
            ("R9", "1 byte after the paragraphs", &[extra(paragraphs(1, &[b"c"]))]),
            ("R9", "1 byte after no paragraphs", &[extra(paragraphs(0, &[]))]),
            ("R9", "a space first in a declaration's", &[with(paragraphs(1, &[b" c"]))]),
            ("R9", "a space last in a declaration's", &[with(paragraphs(1, &[b"c "]))]),
            ("R9", "an empty one in a declaration's", &[with(paragraphs(1, &[b""]))]),
        ]);
    }

    fn fields(&mut self) {
        let long = [b'a'; 129];
        let unit = plain(UNIT);
        let with = |field: Tok| vec![head("A"), field, unit.clone()];
        for rule in [0, 1, 2, 3, 4, 128, 255] {
            let due = if rule <= 2 { "text" } else { "R9" };
            self.one(due, &format!("rule {rule}"), &with(field(rule, "x")));
        }
        let good = field(0, "x");
        for left in 0..good.payload.len() {
            let cut = Tok::with(105, good.payload[..left].to_vec());
            self.one("R9", &format!("{left} bytes of a field's payload"), &with(cut));
        }
        let told = |rest: Vec<u8>| {
            with(Tok::with(105, [vec![1], vec![255; 8], counted("x"), rest].concat()))
        };
        self.many(&[
            ("R9", "a field's name of 0 bytes", &with(field(0, ""))),
            ("text", "a field's name of 128 bytes", &with(field(0, &long[..128]))),
            ("R9", "a field's name of 129 bytes", &with(field(0, long))),
            ("R9", "a field's name with 0x00", &with(field(0, "a\0"))),
            ("text", "the largest index and 2 paragraphs", &told(paragraphs(2, &[b"c", b"d"]))),
            ("R9", "a field's paragraphs more than counted", &told(paragraphs(1, &[b"c", b"d"]))),
            ("R9", "a field's paragraphs fewer than counted", &told(paragraphs(2, &[b"c"]))),
            ("text", "32 paragraphs of a field", &told(paragraphs(32, &[ONE; 32]))),
            ("R9", "33 paragraphs of a field", &told(paragraphs(33, &[ONE; 33]))),
            ("R9", "two spaces in a field's", &told(paragraphs(1, &[b"c  d"]))),
            ("R9", "1 byte after a field's", &told([paragraphs(1, &[b"c"]), vec![9]].concat())),
        ]);
    }

    fn deleted(&mut self) {
        let with = |record: Tok| vec![head("A"), record];
        for length in [0, 1, 7, 9, 12, 15] {
            let record = Tok::with(106, vec![0; length]);
            self.one("R9", &format!("{length} bytes of deleted indices"), &with(record));
        }
        self.many(&[
            ("text", "one deleted index", &with(deleted(&[0]))),
            ("text", "in order", &with(deleted(&[0, 1, 255, 256, 1 << 32, u64::MAX]))),
            ("R9", "one index twice", &with(deleted(&[1, 1]))),
            ("R9", "the largest twice", &with(deleted(&[u64::MAX, u64::MAX]))),
            ("R9", "in reverse order", &with(deleted(&[2, 1]))),
            ("R9", "in order by the low byte alone", &with(deleted(&[256, 1]))),
            ("R9", "in order by the low half alone", &with(deleted(&[1 << 32, 1]))),
            ("R9", "in order as signed numbers alone", &with(deleted(&[u64::MAX, 1]))),
            ("R9", "the third out of order", &with(deleted(&[1, 3, 2]))),
        ]);
    }

    fn types(&mut self) {
        for kind in [0, 1, 2, 3, 4, 5, 7, 11, 12, 20, 21, 22, 23, 24, 25, 26, 256 + 3, 3 << 8] {
            let due = if PLAIN_TYPES.contains(&kind) { "text" } else { "R9" };
            self.one(due, &format!("plain type {kind}"), &with_type(&[plain(kind)]));
        }
        for length in [0, 1, 3, 4] {
            let record = Tok::with(108, [3, 0, 0, 0][..length].to_vec());
            self.one("R9", &format!("a plain type of {length} bytes"), &with_type(&[record]));
        }
        for (due, arrays) in [("text", 1), ("text", 63), ("text", 64), ("R9", 65), ("R9", 66)] {
            let records = [vec![array(); arrays], vec![plain(UNIT)]].concat();
            self.one(due, &format!("{arrays} arrays"), &with_type(&records));
        }
        let long = [b'a'; 129];
        let bytes = |payload: &[u8]| with_type(&[Tok::with(109, payload.to_vec())]);
        self.many(&[
            ("R9", "an array with a byte", &with_type(&[Tok::with(107, vec![0]), plain(UNIT)])),
            ("text", "a custom type", &with_type(&[custom("", "b")])),
            ("text", "an imported type", &with_type(&[custom("m", "b")])),
            ("R9", "a custom type of no bytes", &bytes(b"")),
            ("R9", "a custom type of 1 byte", &bytes(b"\0")),
            ("R9", "a custom type's name of 0 bytes", &bytes(b"\0\0")),
            ("text", "a custom type's name of 128 bytes", &with_type(&[custom("", &long[..128])])),
            ("R9", "a custom type's name of 129 bytes", &with_type(&[custom("", long)])),
            ("R9", "a custom type's name with 0x7F", &with_type(&[custom("", "\x7F")])),
            ("text", "its import's name of 128 bytes", &with_type(&[custom(&long[..128], "b")])),
            ("R9", "its import's name of 129 bytes", &with_type(&[custom(long, "b")])),
            ("R9", "its import's name with 0x1F", &with_type(&[custom("\x1F", "b")])),
            ("R9", "its import's name takes all bytes", &with_type(&[custom("m", "")])),
            ("R9", "its import's name one past the end", &bytes(b"\x02\0m")),
        ]);
    }

    fn ranges(&mut self) {
        let most = u32::MAX;
        for (what, start, end) in [("turned about", 2, 1), ("at the largest place", most, most)] {
            let mut records = vec![comment(&[b"c"]), import("a", "p"), head("A"), field(0, "x")];
            records.extend([array(), plain(BOOL), deleted(&[1])]);
            for record in &mut records {
                (record.start, record.end) = (start, end);
            }
            self.one("text", &format!("every range {what}"), &records);
        }
    }
}
