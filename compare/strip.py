#!/usr/bin/env python3
"""strip.py OUT.rs CRATE..: the Rattle source of the crates without its contracts, a Rust module for each crate, for rustc.

The crates that these need, by crates.txt, come along. What the prover showed stays true of the stripped source: only `ghost`
lines, `requires`, `ensures` and Rattle's own attributes are taken out, and a function with a large array stays a function. Run it from anywhere.
"""
import pathlib
import re
import sys

ROOT = pathlib.Path(__file__).resolve().parent.parent
CRATES = ROOT / "crates"
CLAUSE = re.compile(r"^[ \t]*(requires|ensures|ghost)\b[^\n{]*\{", re.M)


def without_clauses(text):
    text = re.sub(r"^[ \t]*ghost use [^;]*;\n", "", text, flags=re.M)
    text = re.sub(r"^[ \t]*#!?\[(tactic|cycle)\([^\n]*\)\]\n", "", text, flags=re.M)
    text = re.sub(r"^([ \t]*#\[derive\()([^)]*)\)\]\n", without_drop, text, flags=re.M)
    kept, place = [], 0
    while match := CLAUSE.search(text, place):
        kept.append(text[place:match.start()])
        place = braces_end(text, match.end())
        if match.group(1) == "ghost":
            # a member of a trait may have its type before its value; it ends with `;`, and a field with `,`
            if value := re.match(r"[ \t]*=[ \t]*\{", text[place:]):
                place = braces_end(text, place + value.end())
            place += text[place:place + 1] in (";", ",")
        place += text[place:place + 1] == "\n"
    return "".join(kept) + text[place:]


def braces_end(text, place):
    """The place past the brace that closes the one before `place`."""
    depth = 1
    while depth:
        depth += {"{": 1, "}": -1}.get(text[place], 0)
        place += 1
    return place


def without_drop(match):
    """Rattle's `Drop` says that a value may be let go, which Rust's needn't be told."""
    names = [name for name in match.group(2).split(", ") if name != "Drop"]
    return f"{match.group(1)}{', '.join(names)})]\n" if names else ""


def kept_apart(text):
    """rustc touches each page of a frame at its begin: a large array that is inlined would cost every call of the function around it."""
    def apart(match):
        sizes = re.findall(r"= \[\w+; (\d+|N)\];", match.group(0))
        large = any(size == "N" or int(size) >= 1_024 for size in sizes)
        return "#[inline(never)]\n" * large + match.group(0)
    return re.sub(r"^(pub )?fn .*?^}\n", apart, text, flags=re.M | re.S)


def module(path, name, crates):
    text = kept_apart(without_clauses(path.read_text()))
    text = re.sub(r"(?<![\w:])crate::", f"crate::{name}::", text)
    own = re.findall(r"^(?:pub )?mod (\w+);$", text, flags=re.M)
    for crate in crates:
        if crate not in own:
            text = re.sub(rf"(?<![\w:]){crate}::", f"crate::{crate}::", text)
    def inner(match):
        return f"pub mod {match.group(2)} {{\n{module(path.with_name(match.group(2) + '.rt'), name, crates)}}}\n"
    return re.sub(r"^(pub )?mod (\w+);\n", inner, text, flags=re.M)


def with_dependencies(wanted):
    lines = (line.split(":") for line in (ROOT / "crates.txt").read_text().splitlines() if line)
    needs = {name.split()[0]: rest.split() for name, rest in lines}
    found = []
    def visit(name):
        if name not in found:
            for need in needs[name]:
                visit(need)
            found.append(name)
    for name in wanted:
        visit(name)
    return found


def main():
    out, crates = sys.argv[1], with_dependencies(sys.argv[2:])
    text = "#![allow(dead_code, unused_imports)]\n"
    for crate in crates:
        text += f"pub mod {crate} {{\n{module(CRATES / crate / 'src' / 'lib.rt', crate, crates)}}}\n"
    pathlib.Path(out).write_text(text)


main()
