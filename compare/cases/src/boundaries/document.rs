//! "Cases to run" and "Readings that look right", and the examples in the text.

use super::Cases;

pub fn add(cases: &mut Cases) {
    to_run(cases);
    readings(cases);
    examples(cases);
}

fn to_run(cases: &mut Cases) {
    cases.group("Cases to run");
    cases.listings(&[
        ("text", "", "struct op_8d { cycles: U64 = 0 deleted 2 1 }"),
        ("E12,16", "", "struct A { x 3 } choice B { y = 0 deleted 4 4 }"),
        ("E12,5", "", "struct A { x"),
        ("text", "the empty table", ""),
        ("text", "one comment alone", "# a"),
        ("E18", "two comments alone", "# a\n\n# b"),
        ("E12,5", "12 at the dot", "struct A { x: y ."),
        ("E12,5", "12 at the end", "struct A { x: y . z"),
        ("E12", "", "struct A { x deleted 1 1 }"),
        ("text", "a name that doesn't survive", "struct foo_1 { }"),
        ("text", "what it is printed as, read again", "struct Foo1 { }"),
        ("text", "", "struct A { HTTPPort = 0 }"),
    ]);
}

fn readings(cases: &mut Cases) {
    cases.group("Readings that look right");
    cases.listings(&[
        ("E12", "`deleted` after a failed field isn't read", "struct A { x deleted 4 4 }"),
        ("E8", "nor after several tokens", "struct A { x = 0 = deleted 1 1 z }"),
        ("text", "an opening comment of a struct", "# a\nstruct A { }"),
        ("text", "an opening comment of a choice", "# a\nchoice A { }"),
        ("text", "an opening comment of the schema", "# a\n\nstruct A { }"),
        ("E15", "names are compared by snake case", "import 'opTable.t' import 'op_table.t'"),
        ("E15", "with `as` too", "import 'a' as op_table import 'b' as opTable"),
        ("text", "imports are printed in order", "import 'b' import 'c' import 'a'"),
        ("E12,5", "`y .` at the list's end is no missing type", "struct A { x: y ."),
        ("E11,5", "nor in an array", "struct A { x: [ y ."),
    ]);
}

fn examples(cases: &mut Cases) {
    cases.group("Examples in the text");
    cases.listings(&[
        ("text", "end 10, start 11: the declaration's", "# 3456789x\nstruct A { }"),
        ("text", "end 10, start 12: the schema's", "# 3456789x\n\nstruct A { }"),
        ("text", "the stem of b/op.t is op", "import 'b/op.t' as op"),
        ("text", "the stem of .t is .t", "import '.t'"),
        ("E14", "a/.. has no stem", "import 'a/..'"),
        ("text", "`deleted` with no index equals its absence", "struct A { x = 0 deleted }"),
        ("E14,14,15", "a second import without a name", "import '..' import '.'"),
        ("text", "a name of no words has empty forms", "struct _ { _: _ = 0 }"),
    ]);
}
