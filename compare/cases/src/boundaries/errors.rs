//! Each error number, at a token and at the list's end, and recovery.

use super::Cases;

pub fn add(cases: &mut Cases) {
    declarations(cases);
    imports(cases);
    fields(cases);
    types(cases);
    deleted(cases);
    recovery(cases);
}

fn declarations(cases: &mut Cases) {
    cases.group("Errors: declarations (1 to 5, 18)");
    cases.listings(&[
        ("E1", "", "x"),
        ("E1", "a comment of the schema first", "# c\nx"),
        ("E1", "after a declaration", "struct A { } x"),
        ("E1", "an import after a declaration", "struct A { } import 'a.t'"),
        ("E1", "a comment, then no declaration", "struct A { } # c\nimport 'a.t'"),
        ("E1", "two comments, then no declaration", "# a\n\n# b\nx"),
        ("E1", "three comments", "# a\n\n# b\n\n# c"),
        ("E1", "`}` once too often", "struct A { } }"),
        ("E1", "nothing is read after it", "x struct { 7"),
        ("E2", "at the end", "struct"),
        ("E2", "", "struct { }"),
        ("E2", "a keyword is no name", "struct struct { }"),
        ("E2", "a second declaration", "struct A { } struct"),
        ("E3", "at the end", "choice"),
        ("E3", "", "choice 'a' { }"),
        ("E3", "", "choice U64 { }"),
        ("E4", "at the end", "struct A"),
        ("E4", "", "struct A }"),
        ("E4", "", "choice A B { }"),
        ("E5", "at the end", "struct A {"),
        ("E5", "at the end, after a field", "struct A { x = 0"),
        ("E5", "at the end, after `deleted`", "struct A { deleted"),
        ("E5", "at the end, after an index", "struct A { deleted 1"),
        ("E5", "a field after `deleted`", "struct A { deleted 1 x = 0 }"),
        ("E5", "a comment after `deleted`", "struct A { deleted # c\n }"),
        ("E5", "`deleted` twice", "struct A { deleted 1 deleted 2 }"),
        ("E18", "after a comment of the schema", "# a\n\n# b"),
        ("E18", "after a declaration", "struct A { } # b"),
        ("E18", "after an import", "import 'a.t' # b"),
        ("E14,18", "after another error", "import '..' # b"),
        ("E12,18", "after a failed field", "struct A { x } # b"),
        ("E16,18", "after an index deleted twice", "struct A { deleted 1 1 } # b"),
        ("E5", "a comment ends the list inside a declaration", "struct A { deleted # b"),
        ("E8,5", "a comment ends the list where a field is due", "struct A { # b"),
    ]);
}

fn imports(cases: &mut Cases) {
    cases.group("Errors: imports (6, 7, 14, 15)");
    cases.listings(&[
        ("E6", "at the end", "import"),
        ("E6,1", "", "import x"),
        ("E6", "reading goes on", "import import 'a.t'"),
        ("E6,6,6", "", "import import import"),
        ("E6,1", "", "import as b"),
        ("E7", "at the end", "import 'a.t' as"),
        ("E7,1", "", "import 'a.t' as 'b.t'"),
        ("E7", "reading goes on", "import 'a.t' as import 'b.t'"),
        ("E7", "a failed import takes no name", "import 'a.t' as import 'a.t'"),
        ("E14", "", "import ''"),
        ("E14", "", "import '.'"),
        ("E14", "", "import '..'"),
        ("E14", "", "import '/'"),
        ("E14", "", "import '//'"),
        ("E14", "", "import './'"),
        ("E14", "", "import '../'"),
        ("E14", "", "import '../..'"),
        ("E14", "", "import 'a/../.'"),
        ("text", "`as` makes up for it", "import '..' as up"),
        ("E14,14,15,14,15", "three without a name", "import '' import '.' import '..'"),
        ("E14,1", "", "import '..' x"),
        ("E15", "one path twice", "import 'a.t' import 'a.t'"),
        ("E15", "two paths with one stem", "import 'a.t' import 'b/a.x'"),
        ("E15,15", "three times", "import 'a' import 'a' import 'a'"),
        ("E15", "`as` and a stem", "import 'x' as opTable import 'lib/op-table.t'"),
        ("E15", "names of no words are one name", "import 'x' as _ import 'y' as __"),
        ("E15", "capitals", "import 'HTTPPort' import 'h_t_t_p_port'"),
        ("text", "names that differ by a break", "import 'ab' import 'a_b' import 'aB1'"),
        ("E15,6,14", "in the order of the file", "import 'a' import 'A' import import '..'"),
    ]);
}

fn fields(cases: &mut Cases) {
    cases.group("Errors: fields (8, 12, 13)");
    cases.listings(&[
        ("E8,5", "at the end, after a comment", "struct A { # c"),
        ("E8,5", "at the end, after a rule", "struct A { optional"),
        ("E8", "", "struct A { = 0 }"),
        ("E8", "", "struct A { 7 }"),
        ("E8", "a comment and no field", "struct A { # c\n }"),
        ("E8", "two comments", "struct A { # c\n\n# d\nx = 0 }"),
        ("E8", "a comment after the rule", "struct A { optional # c\nx = 0 }"),
        ("E8", "two rules", "struct A { optional asymmetric x = 0 }"),
        ("E8", "a rule before `deleted`", "struct A { asymmetric deleted }"),
        ("E8", "a rule and no field", "struct A { asymmetric }"),
        ("E8", "a comment before `deleted`", "struct A { # c\ndeleted 1 }"),
        ("E8", "a keyword is no name", "struct A { struct = 0 }"),
        ("E12,5", "at the end, after the name", "struct A { x"),
        ("E12,5", "at the end, after the type", "struct A { x: U64"),
        ("E12", "", "struct A { x 0 }"),
        ("E12", "", "struct A { x: U64 0 }"),
        ("E12", "", "struct A { x: a . b . c = 0 }"),
        ("E12", "", "struct A { x y = 0 }"),
        ("E13,5", "at the end", "struct A { x ="),
        ("E13", "", "struct A { x = }"),
        ("E13", "", "struct A { x = y }"),
        ("E13", "", "struct A { x = = 0 }"),
        ("E13", "", "struct A { x: U64 = 'a' }"),
        ("E13,13", "in two declarations", "struct A { x = } choice B { x = }"),
    ]);
}

fn types(cases: &mut Cases) {
    cases.group("Errors: types (9, 10, 11) and the dot rule");
    cases.listings(&[
        ("E9,5", "at the end", "struct A { x:"),
        ("E9,5", "at the end, in an array", "struct A { x: ["),
        ("E9", "", "struct A { x: }"),
        ("E9", "", "struct A { x: = 0 }"),
        ("E9", "an array of nothing", "struct A { x: [ ] = 0 }"),
        ("E9", "the third is no name", "struct A { x: a . 1 = 0 }"),
        ("E9", "the third is a plain type", "struct A { x: a . U64 = 0 }"),
        ("E9", "the third is a dot", "struct A { x: a . . = 0 }"),
        ("E9,5", "no name, and two tokens left", "struct A { x: 7 ."),
        ("E9,5", "a dot alone", "struct A { x: ."),
        ("E9,5", "two dots", "struct A { x: . ."),
        ("E10,5", "three dots", "struct A { x: . . ."),
        ("E10,5", "no name, and three tokens left", "struct A { x: 7 . y"),
        ("E10", "", "struct A { x: 7 . y = 0 }"),
        ("E10", "", "struct A { x: ] . y = 0 }"),
        ("E10", "in an array", "struct A { x: [ struct . y ] = 0 }"),
        ("E10,1", "the third isn't looked at", "struct A { x: } . } }"),
        ("E12", "a plain type has no dot", "struct A { x: U64 . y = 0 }"),
        ("E12", "a plain type before a dot, three tokens left", "struct A { x: Unit . }"),
        ("E12,5", "a name, a dot, and the end", "struct A { x: y ."),
        ("E9", "a name, a dot, and one token", "struct A { x: y . }"),
        ("E12,5", "a custom type at the end", "struct A { x: y . z"),
        ("E11,5", "a name, a dot, and the end, in an array", "struct A { x: [ y ."),
        ("E11,5", "at the end", "struct A { x: [ U64"),
        ("E11", "", "struct A { x: [ U64 = 0 }"),
        ("E11", "the outer one", "struct A { x: [ [ U64 ] = 0 }"),
        ("E11,1", "", "struct A { x: [ a . b } }"),
        ("E11", "", "struct A { x: [ a [ b ] ] = 0 }"),
        ("E12", "one `]` too many", "struct A { x: [ U64 ] ] = 0 }"),
    ]);
}

fn deleted(cases: &mut Cases) {
    let most = u64::MAX;
    cases.group("Errors: deleted indices (16)");
    cases.listings(&[
        ("E16", "", "struct A { deleted 1 1 }"),
        ("E16,16", "three times", "struct A { deleted 1 1 1 }"),
        ("E16,16", "not side by side", "struct A { deleted 0 1 0 1 }"),
        ("text", "in two declarations", "struct A { deleted 1 } struct B { deleted 1 }"),
        ("E16,16", "", "struct A { deleted 1 1 } choice B { deleted 2 2 }"),
        ("text", "an index that a field has", "struct A { x = 1 deleted 1 }"),
        ("E16,5", "it doesn't end the parse", "struct A { deleted 1 1"),
        ("E16,5", "", "struct A { deleted 1 1 x }"),
        ("E16,1", "", "struct A { deleted 1 1 } x"),
        ("text", "two fields of one index are no error", "struct A { x = 1 y = 1 x = 1 }"),
    ]);
    let largest = format!("struct A {{ deleted {most} 0 {most} }}");
    cases.listing("E16", "the largest index twice", &largest);
    let wide = format!("struct A {{ deleted {} {} }}", 1_u64 << 32, 0);
    cases.listing("text", "indices that are equal in 32 bits", &wide);
    let wide = format!("struct A {{ deleted {} {} }}", 1_u64 << 63, 0);
    cases.listing("text", "indices that are equal in 63 bits", &wide);
}

fn recovery(cases: &mut Cases) {
    cases.group("Recovery");
    cases.listings(&[
        ("E12", "the next declaration is read", "struct A { x } struct B { }"),
        ("E12,12", "one error for each declaration", "struct A { x y z } struct B { x y z }"),
        ("E12", "a field after a failed one isn't read", "struct A { x y = 0 z = 1 }"),
        ("E12,1", "to the first `}`", "struct A { x { y = 0 } z = 1 }"),
        ("E12", "the offending token is `}`", "struct A { x }"),
        ("E9", "the offending token is `}`", "struct A { x: } choice B { }"),
        ("E12,5", "to the end", "struct A { x struct B { y = 0"),
        ("E12", "past another declaration's start", "struct A { x struct B { y = 0 }"),
        ("E8", "past `deleted` and its indices", "struct A { 7 deleted 1 1 1 }"),
        ("E12", "past imports", "struct A { x import '..' }"),
        ("E12,18", "and then a comment", "struct A { x # a\n } # b"),
        ("E6,12,16,5", "imports, fields, indices, the end", "import struct A { x } choice B { deleted 1 1 ="),
        ("E6,7,14,15,12,16,1", "seven numbers in one list", "import import 'a' as import '..' import 'b' import 'b' struct A { x } choice B { deleted 0 0 } x"),
    ]);
}
