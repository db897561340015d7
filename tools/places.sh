#!/bin/sh
# The places in src/ where a form of an older Rattle may stand, point by point (docs/DESIGN-PASS.md), at a commit: sh tools/places.sh [-l] COMMIT
# -l lists them, else they are counted.
list=-c
[ "$1" = -l ] && { list=-n; shift; }
at=${1:-HEAD}

show() {
    label=$1
    shift
    if [ "$list" = -n ]; then
        echo "== $label"
        git grep -nE "$@" "$at" -- 'crates/*/src/*.rt'
    else
        printf '%4d  %s\n' "$(git grep -hE "$@" "$at" -- 'crates/*/src/*.rt' | wc -l)" "$label"
    fi
}

show '1a enums of our own'                           '^(pub )?enum '
show '1b flags among fields'                         '^    (pub )?[a-z_]+: bool,$'
show '1c numbers of kinds, by name'                  '^pub const [A-Z0-9_]+: u16'
show '1d kinds, faults, states and rules as numbers' '\b(kind|number|keyword|state|rule|k|last|found): u(8|16)\b'
show '1e refusals and faults by a literal number'    '(Refused|Failed|put_error|put_error_over|consume_token)\(.*\b[0-9]+\b|^ +return [1-9][0-9]?;$'
show '1f a number that stands for none'              '(\b(kind_or_end|name_end|last_dot|fault|number|end|dot|rule|kind|last)\b[^;]* [!=]= 0)|^ +(return )?0;?$'
show '2a functions named for a size, a kind or both' 'fn [a-z_]*(tiny|small|medium|large|numbers?|names?|lower|upper|snake|camel|pascal|first|later|u16|u32|u64|reversed)\b'
show '2b copies and tables of a byte'                'fn (copy|class|lower|upper)[a-z_]*\('
show '3a loops that are no for'                      "^ +('[a-z]+: )?(while|loop)\b"
show '3b counting by hand'                           '^ +[a-z]+ (\+|-)= (1|8|12|14);$'
show '4a equality, order, copies by hand'            'fn (copy|copy_reversed|is_less|is_equal|order_of|same|as_compared|skip_same|least|store_le|clear|mark|is_marked|code)\('
show '4b casts between numbers'                      '\) as u(16|32|64|size)|\b[a-z]+ as u(16|32|64)\b'
show '5a facts asked of callers'                     'requires'
show '5b a byte table, lent'                         '(class|lower|upper): &\[u8; 256\]'
show '5c a buffer and the place in it'               '(out: &mut \[u8\], (at|o|to): usize)|^    (at|o|to): usize,$'
show '6a fixed arrays'                               '\[0(u8|u64)?; [0-9A-Z]+\]'
show '6b a length or count beside'                   '\b(len|count|length|n): usize\b'
show '6c searched by hand'                           'fn (search|take|insert_numbers?|merge[a-z_]*|sort[a-z_]*|choose)[(<]'
show '7 which step to run'                           '\b(key: Key|up: bool|bar: bool|down: bool)\b'
