#!/usr/bin/env python3
"""Spells the definitions and laws that this repository declares as today's Rattle does: words in snake case, a dash only between two names.

usage: respell.py [--table] [FOLDER]

It reads which names the files of specs/ and proofs/ (not those of one function's proof) declare, and turns each as a whole word in every .antt file, in the
clauses of every .rt file and in the edits of must-fail/. Behind a dot a word with a dash turns only where it is the name of a record's field, or where a module stands before the dot.
A function of src/ keeps its name. Where a law would have a definition's name it gets `_lem`. --table prints the names and writes nothing.
Run once, after the toolchain's port.py.
"""
import glob
import os
import re
import sys

STRING = re.compile(r'("(?:[^"\\\n]|\\.)*")')
WORD = re.compile(r"(?<![^\s(){}\[\];,.@\"«»|])[^\s(){}\[\];,.@\"«»|]+")
IDENT = r"[^\s(){}\[\];,.:λ\"]+"
DECLARED = re.compile(r"^(\s*)(?:(?:unfoldable|abbrev)\s+)?(?:pub\s+)?(" + IDENT + r")(?:\s\{[^}]*\})*\s*:\s")
TYPE = re.compile(r"^\s*(?:pub\s+)?(?:record|data)\s+(" + IDENT + ")")
# Names of operations that laws speak of, beside those that this repository defines.
OPERATIONS = set("append length take drop map zero suc cons set add mul sub min max all filter replicate".split())


def shared_files():
    return sorted(glob.glob("crates/*/specs/*.antt") + glob.glob("crates/*/proofs/*.antt"))


def all_files():
    return sorted(
        glob.glob("crates/*/specs/**/*.antt", recursive=True)
        + glob.glob("crates/*/proofs/**/*.antt", recursive=True)
        + glob.glob("crates/*/src/**/*.rt", recursive=True)
        + glob.glob("crates/*/must-fail/*.edit")
    )


def read(path):
    with open(path, encoding="utf-8") as f:
        return f.read()


def declared():
    """The names, and of them those of fields and of definitions (not laws)."""
    names, fields, definitions = set(), set(), set()
    for path in shared_files():
        for line in read(path).split("\n"):
            m = TYPE.match(line)
            if m:
                names.add(m[1])
            m = DECLARED.match(line)
            if m:
                names.add(m[2])
                if m[1]:
                    fields.add(m[2])
                elif "/specs/" in path:
                    definitions.add(m[2])
    return names, fields, definitions


def snake(word):
    if word[:1].isupper():
        return word
    return re.sub(r"(?<=[a-z0-9])[A-Z]", lambda m: "_" + m[0].lower(), word)


def table(names, fields, definitions):
    known = {snake(n) for n in definitions} | OPERATIONS
    turned = {"inOrder": "in_order", "in_order": "in_order_lem"}
    taken = set(names) | {"in_order_lem"}
    for name in sorted(names, key=lambda n: ("-" in n, n)):
        parts = [snake(p) for p in name.split("-")]
        new = parts[0]
        for before, part in zip(parts, parts[1:]):
            new += ("-" if before in known and part in known else "_") + part
        if new == name or name in turned:
            continue
        if new in taken and "-" not in name and new not in definitions | fields:
            turned[new] = new + "_lem"  # a law that the toolchain's port.py gave the definition's name
            taken.add(new + "_lem")
            taken.remove(new)
        if new in taken:
            new += "_lem"
        if new in taken:
            print(f"kept: {name}, since {new} is there too")
            continue
        taken.add(new)
        turned[name] = new
    return turned


def main():
    words = [a for a in sys.argv[1:] if a != "--table"]
    os.chdir(words[0] if words else ".")
    names, fields, definitions = declared()
    turned = table(names, fields, definitions)
    if "--table" in sys.argv:
        for old in sorted(turned):
            print(f"{old}\t{turned[old]}")
        return
    count = 0
    for path in all_files():
        text = read(path)
        own = re.search(r"/proofs/[^/]+/[^/]+$", path) is not None
        local = set()
        modules = set(re.findall(r"^use \S+ as (\S+)$", text, re.M))
        if own:
            local = {m[2] for m in map(DECLARED.match, text.split("\n")) if m}

        def one(m):
            word = m[0]
            if word not in turned or word in local:
                return word
            behind = re.search(r"([^\s(){}]*)\.$", m.string[: m.start()])
            if behind and word in turned and "-" in word and word not in fields and behind[1] not in modules:
                return word
            return turned[word]

        new = "".join(part if part[:1] == '"' else WORD.sub(one, part) for part in STRING.split(text))
        if path.endswith(".rt"):
            new = clauses(text, turned)
        if new != text:
            count += 1
            with open(path, "w", encoding="utf-8") as f:
                f.write(new)
    print(f"{count} files, {len(turned)} names")


CLAUSE = re.compile(r"(?:requires|ensures)\s*(?:\w+\s*)?\{|ghost use [^;]*;")


def clauses(text, turned):
    """Only what stands in a clause or a ghost use."""
    out, at = [], 0
    while True:
        m = CLAUSE.search(text, at)
        if not m:
            return "".join(out) + text[at:]
        out.append(text[at : m.start()])
        end = m.end()
        if not m[0].startswith("ghost"):
            depth = 1
            while depth:
                depth += {"{": 1, "}": -1}.get(text[end], 0)
                end += 1
        part = text[m.start() : end]
        out.append(WORD.sub(lambda w: turned.get(w[0], w[0]) if not (w.start() and part[w.start() - 1] == ".") else w[0], part))
        at = end


main()
