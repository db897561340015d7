#!/usr/bin/env python3
"""Makes NAME.table from each listing NAME.txt beside this script, and damaged.table from opcodes.table.

A listing is Typical's text: words, the signs : . = { } [ ], integers, 'paths' and comments from # to the line's end.
Its tokens become the records of a token table at their own byte places (docs/FORMAT.md). Comment lines below each
other are one comment; a line of # alone parts its paragraphs.
"""
import pathlib
import re
import struct

KINDS = ("as asymmetric Bool Bytes choice : COMMENT deleted . = F64 IDENTIFIER import INTEGER { [ optional PATH } ] "
         "S64 String struct U64 Unit").split()
TOKEN = re.compile(r"(?P<COMMENT>#[^\n]*(?:\n[ \t]*#[^\n]*)*)|'(?P<PATH>[^'\n]*)'|(?P<INTEGER>[0-9]+)|"
                   r"(?P<word>[A-Za-z_][A-Za-z0-9_-]*)|(?P<sign>[:.={}\[\]])")


def paragraphs(comment):
    lines = [" ".join(line.strip().lstrip("#").split()) for line in comment.split("\n")]
    joined, whole = [], []
    for line in lines + [""]:
        if line:
            joined.append(line)
        elif joined:
            whole.append(" ".join(joined))
            joined = []
    return whole


def payload(group, text):
    if group == "COMMENT":
        return b"".join(struct.pack("<H", len(p)) + p.encode("ascii") for p in paragraphs(text))
    if group == "INTEGER":
        return struct.pack("<Q", int(text))
    return text.encode("ascii") if group in ("IDENTIFIER", "PATH") else b""


def table(listing):
    records = b""
    for match in TOKEN.finditer(listing):
        group, text = match.lastgroup, match.group(match.lastgroup)
        if group in ("word", "sign"):
            group = text if text in KINDS else "IDENTIFIER"
        data = payload(group, text)
        records += struct.pack("<HHII", 12 + len(data), KINDS.index(group) + 1, match.start(), match.end()) + data
    return records


def main():
    here = pathlib.Path(__file__).parent
    for listing in sorted(here.glob("*.txt")):
        listing.with_suffix(".table").write_bytes(table(listing.read_text("ascii")))
    whole = (here / "opcodes.table").read_bytes()
    (here / "damaged.table").write_bytes(whole[:-5])


main()
