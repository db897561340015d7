#!/usr/bin/env python3
"""Draws docs/architecture.svg: the crates, and the way of a table through them. Run it from anywhere; it writes beside itself."""

from pathlib import Path

WIDTH, HEIGHT = 1110, 780
COLUMN, ROW = 180, 96
LEFT, TOP, BOX_WIDTH, BOX_HEIGHT = 30, 116, 150, 56

# name: (column, row, what it is, kind)
BOXES = {
    "typefmt": (1, 0, "the program", "program"),
    "boundaries": (2, 0, "cases that are run", "program"),
    "replayed": (3, 0, "the Rust's answers", "program"),
    "rooms": (4, 0, "small buffers, R8", "program"),
    "printed": (2, 1, "what typefmt prints", "code"),
    "typical": (0, 1, "for C and Rust", "code"),
    "stream": (4, 1, "lists on standard input", "code"),
    "demands": (5, 1, "demands 1 to 3", "theorem"),
    "reader": (1, 2, "read", "code"),
    "writer": (3, 2, "write", "code"),
    "names": (4, 2, "the functions on names", "code"),
    "collector": (0, 3, "errors and their number", "code"),
    "emit": (2, 3, "the schema table", "code"),
    "places": (1, 3, "the imports, once", "code"),
    "text": (3, 3, "canonical text", "code"),
    "cases": (5, 3, "the marked cases", "theorem"),
    "judge": (0, 4, "reading with recovery", "code"),
    "imports": (2, 4, "imports in order", "code"),
    "sorted": (1, 4, "order and repeats", "code"),
    "schema": (3, 4, "schema tables, R9", "code"),
    "grammar": (5, 4, "trees, reading, demand 3", "theorem"),
    "parser": (0, 5, "the rules of parser.rs", "code"),
    "token": (1, 5, "token tables, R1 to R7", "code"),
    "records": (2, 5, "records of a schema", "code"),
    "identifier": (3, 5, "words, forms, order", "code"),
    "stem": (2, 6, "names of imports", "code"),
    "wire": (1, 6, "numbers, lent buffers", "code"),
}
FILL = {"program": "#fde7c8", "code": "#dce9f9", "theorem": "#e3f1dd"}

# the way of a table: from, to, what goes along, and where the words stand beside the arrow's middle
WAY = [
    ("typefmt", "printed", "", (0, 0)),
    ("boundaries", "stream", "", (0, 0)),
    ("replayed", "stream", "", (0, 0)),
    ("rooms", "stream", "", (0, 0)),
    ("stream", "printed", "", (0, 0)),
    ("printed", "reader", "token table", (44, 12)),
    ("typical", "reader", "", (0, 0)),
    ("reader", "places", "", (0, 0)),
    ("places", "sorted", "", (0, 0)),
    ("reader", "collector", "errors", (-40, -6)),
    ("reader", "emit", "schema", (40, -6)),
    ("printed", "writer", "schema table", (60, -10)),
    ("writer", "text", "", (0, 0)),
    ("collector", "judge", "", (0, 0)),
    ("judge", "parser", "", (0, 0)),
    ("parser", "token", "", (0, 0)),
    ("emit", "imports", "", (0, 0)),
    ("imports", "records", "", (0, 0)),
    ("judge", "sorted", "", (0, 0)),
    ("text", "schema", "", (0, 0)),
    ("sorted", "token", "", (0, 0)),
    ("records", "token", "", (0, 0)),
    ("schema", "identifier", "", (0, 0)),
    ("token", "wire", "", (0, 0)),
]


def corner(name):
    column, row = BOXES[name][:2]
    return LEFT + column * COLUMN, TOP + row * ROW


def ends(start, end):
    """From the edge of one box to the edge of the other."""
    (x1, y1), (x2, y2) = corner(start), corner(end)
    if y1 == y2:
        side = BOX_WIDTH if x1 < x2 else 0
        return x1 + side, y1 + BOX_HEIGHT / 2, x2 + BOX_WIDTH - side, y2 + BOX_HEIGHT / 2
    return x1 + BOX_WIDTH / 2, y1 + BOX_HEIGHT, x2 + BOX_WIDTH / 2, y2


def box(name):
    x, y = corner(name)
    says, kind = BOXES[name][2:]
    middle = x + BOX_WIDTH / 2
    return (
        f'<rect x="{x}" y="{y}" width="{BOX_WIDTH}" height="{BOX_HEIGHT}" rx="6" fill="{FILL[kind]}" stroke="#556"/>'
        f'<text x="{middle}" y="{y + 24}" text-anchor="middle" font-weight="bold">{name}</text>'
        f'<text x="{middle}" y="{y + 42}" text-anchor="middle" font-size="11" fill="#445">{says}</text>'
    )


def arrow(start, end, along, shift):
    x1, y1, x2, y2 = ends(start, end)
    line = f'<line x1="{x1}" y1="{y1}" x2="{x2}" y2="{y2}" stroke="#556" stroke-width="1.4" marker-end="url(#tip)"/>'
    words = f'<text x="{(x1 + x2) / 2 + shift[0]}" y="{(y1 + y2) / 2 + shift[1]}" text-anchor="middle" font-size="11" fill="#a33">{along}</text>'
    return line + (words if along else "")


def legend():
    kinds = [("program", "programs"), ("code", "code, definitions and proofs"), ("theorem", "definitions and theorems alone")]
    parts = ['<text x="30" y="34" font-size="18" font-weight="bold">The crates, and the way of a table</text>']
    for place, (kind, says) in enumerate(kinds):
        x = 30 + place * 230
        parts.append(f'<rect x="{x}" y="56" width="18" height="14" fill="{FILL[kind]}" stroke="#556"/><text x="{x + 26}" y="68" font-size="12">{says}</text>')
    return "".join(parts)


def main():
    drawing = [
        f'<svg xmlns="http://www.w3.org/2000/svg" viewBox="0 0 {WIDTH} {HEIGHT}" width="{WIDTH}" height="{HEIGHT}" font-family="sans-serif" font-size="14">',
        '<defs><marker id="tip" viewBox="0 0 8 8" refX="7" refY="4" markerWidth="8" markerHeight="8" orient="auto"><path d="M0 0 L8 4 L0 8 z" fill="#556"/></marker></defs>',
        f'<rect width="{WIDTH}" height="{HEIGHT}" fill="white"/>',
        legend(),
        *(arrow(*step) for step in WAY),
        *(box(name) for name in BOXES),
        "</svg>",
    ]
    Path(__file__).with_name("architecture.svg").write_text("\n".join(drawing) + "\n")


main()
