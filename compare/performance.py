#!/usr/bin/env python3
"""performance.py BENCH.txt SEEDED.txt DOCS: what `bench SIDE..` and `bench SIDE seeded ..` measured, as DOCS/PERFORMANCE.md and DOCS/performance.svg."""
import collections
import math
import pathlib
import subprocess
import sys

ABOUT = {
    "small": "one struct with one field",
    "typical": "a file of opcodes, with every feature",
    "largest": "the most tokens in the most bytes",
    "all-errors": "an error for every token",
    "imports-reversed": "2,048 imports, in reverse order",
    "imports-random": "2,048 imports, in random order",
    "imports-repeated": "the same, with one name twice",
    "imports-long": "480 imports whose names have 100 bytes in common, in random order",
    "deleted-reversed": "3,200 deleted indices, in reverse order",
    "deleted-random": "3,200 deleted indices, in random order",
    "deleted-repeated": "the same, with one of them twice",
    "deleted-pairs": "1,600 deleted indices, each twice, in random order",
    "capitals": "361 names of 128 capitals",
}
TASKS = {
    "read": ("Reading", "a schema or an error list from a token table"),
    "write": ("Writing", "the text from a schema"),
    "both": ("The whole way", "the text from a token table"),
}
RUST = [("rust", "Rust, from memory"), ("rust-table", "Rust, from the bytes")]
SIDES = {"library": "here", "ours": "here, by rustc"}


HERE = {
    "library": "*Here* is the static library that Rattle's compiler makes of the proved source (`rt lib`); *here, by rustc* is the same source without its contracts, compiled by rustc as the Rust is.",
    "ours": "*Here, by rustc* is the project's own source without its contracts, compiled by rustc as the Rust is; the static library links on x86-64 only.",
}


def measured(path):
    rows = collections.OrderedDict()
    for line in path.read_text().splitlines():
        name, tokens, size, task, work, ns = line.split()
        rows.setdefault(name, {"tokens": int(tokens), "bytes": int(size)})[task, work] = float(ns)
    return collections.OrderedDict((name, rows[name]) for name in ABOUT if name in rows)


def time(ns):
    for unit, size in (("ms", 1e6), ("µs", 1e3)):
        if ns >= size:
            return f"{ns / size:.3g} {unit}"
    return f"{ns:.0f} ns"


def speed(row, ns):
    return f"{row['bytes'] * 1_000 / ns:,.0f}"


def sides(rows):
    """The first is the one that the Rust is compared with."""
    return [side for side in SIDES if ("read", side) in next(iter(rows.values()))]


def table(rows, task):
    ours = sides(rows)
    labels = [label for _, label in RUST] + [SIDES[side].capitalize() for side in ours]
    out = [f"| Table | {' | '.join(labels)} | MB/s here | Times as fast as from memory | Times as fast as from the bytes |", "|---" * (len(labels) + 4) + "|"]
    for name, row in rows.items():
        if (task, ours[0]) in row:
            memory, whole, here = (row[task, work] for work in ("rust", "rust-table", ours[0]))
            times = " | ".join(time(row[task, work]) for work in ["rust", "rust-table"] + ours)
            out.append(f"| {name} | {times} | {speed(row, here)} | {memory / here:.1f} | {whole / here:.1f} |")
    return "\n".join(out)


def slower(rows, seeded):
    out = []
    for name, row in rows.items():
        task = "both" if ("both", "ours") in row else "read"
        for side in sides(rows):
            times = row[task, "rust-table"] / row[task, side]
            if times < 1:
                out.append(f"- {name}, {SIDES[side]}, from the bytes: {times:.2f} times as fast as the Rust.")
    count, first = seeded[0].split()[0], seeded[1].split()
    return "\n".join(out or ["On no table here, from the bytes."]) + (
        f"\n\nOf {int(count):,} random tables that are not refused the one that gained least, {plural(int(first[4]), 'token')} in {first[6]} bytes, was answered {first[0]} times as fast as by the Rust "
        f"(`bench {sides(rows)[0]} seeded 1 3000`). Before it reads anything, a call of the static library touches the pages of the lists that the largest table would need, some 60 ns, because its compiler "
        "lays the function that makes them into `read`; only tables of a few tokens notice it.")


def ordered(rows):
    """Nanoseconds a byte to read what has to be put in order, and an ordinary large table."""
    def each(side):
        return ", ".join(f"{rows[name]['read', side] / rows[name]['bytes']:.2f} for {name}" for name in ("largest", "imports-reversed", "deleted-reversed"))
    return "\n".join(f"- {SIDES[side].capitalize()}: {each(side)}" for side in sides(rows))


def plural(n, word):
    return f"{n} {word}" + "s" * (n != 1)


def page(rows, seeded):
    compiler = subprocess.run(["rustc", "--version"], capture_output=True, text=True).stdout.split(" (")[0].strip()
    machine = subprocess.run(["uname", "-m"], capture_output=True, text=True).stdout.strip()
    out = ["# Speed, beside the Rust", "",
           "All are measured in one process, by turns, from the same bytes, in a release build. " + HERE[sides(rows)[0]] + " A number is the least of 60 batches, since other work on the machine only adds. "
           f"{compiler}, {machine}. `compare/bench.sh` measures again and writes this page.", "",
           "Each side does its own work:", "",
           "- **Rust, from memory** starts from the tokens (for writing, the schema) as its own data, and ends with its own schema or a `String`. The case of a name is already folded in a token, and nothing is checked, so part of the work is behind it.",
           "- **Rust, from the bytes** starts from the same table as this project: the judge's code checks the table and makes the tokens (for writing, the schema), and then the Rust runs.",
           "- **Here,** either way, the table is checked, parsed, and laid as a schema table or an error list into a lent buffer; for writing, the schema table is checked and laid as text. Nothing is allocated. The whole way has both, with the schema table between them.", "",
           "MB/s are of the token table's bytes.", "",
           "![From a token table to the answer, in MB/s](performance.svg)", "",
           "| Table | Tokens | Bytes | What it is |", "|---|---|---|---|"]
    out += [f"| {name} | {row['tokens']:,} | {row['bytes']:,} | {ABOUT[name]} |" for name, row in rows.items()]
    for task, (title, what) in TASKS.items():
        out += ["", f"## {title}: {what}", "", table(rows, task)]
    out += ["", "## In reverse order: nanoseconds a byte, to read", "", ordered(rows)]
    out += ["", "## Where the Rust is faster", "", slower(rows, seeded)]
    return "\n".join(out) + "\n"


COLOURS = {"rust": "#b9bec6", "rust-table": "#7d8590", "library": "#1f6feb", "ours": "#8fb8f5"}
LEFT, WIDTH, BAR, GAP, TOP = 150, 560, 13, 16, 64


def plot(rows):
    """Speed from a token table to the answer, on a scale where each line is ten times the one before."""
    works = RUST + [(side, SIDES[side]) for side in sides(rows)]
    bars = []
    for name, row in rows.items():
        task = "both" if ("both", "ours") in row else "read"
        bars.append((name, [(work, row["bytes"] * 1_000 / row[task, work]) for work, _ in works]))
    speeds = [value for _, group in bars for _, value in group]
    low, high = math.floor(math.log10(min(speeds))), math.ceil(math.log10(max(speeds)))

    def x(value):
        return LEFT + WIDTH * (math.log10(value) - low) / (high - low)

    height = TOP + len(bars) * (len(works) * BAR + GAP) + 30
    out = [f'<svg xmlns="http://www.w3.org/2000/svg" width="{LEFT + WIDTH + 70}" height="{height}" font-family="sans-serif" font-size="12">',
           '<rect width="100%" height="100%" fill="white"/>',
           '<text x="16" y="22" font-size="15">From a token table to its text or error list: MB/s of the table, logarithmic</text>']
    at = 16
    for work, label in works:
        out.append(f'<rect x="{at}" y="34" width="12" height="12" fill="{COLOURS[work]}"/><text x="{at + 17}" y="44">{label}</text>')
        at += 150
    for power in range(low, high + 1):
        place = x(10 ** power)
        out.append(f'<line x1="{place:.1f}" y1="{TOP - 8}" x2="{place:.1f}" y2="{height - 26}" stroke="#d8dbe0"/>'
                   f'<text x="{place:.1f}" y="{height - 10}" text-anchor="middle" fill="#57606a">{10 ** power:,} MB/s</text>')
    top = TOP
    for name, group in bars:
        out.append(f'<text x="{LEFT - 8}" y="{top + len(works) * BAR / 2 + 4}" text-anchor="end">{name}</text>')
        for work, value in group:
            out.append(f'<rect x="{LEFT}" y="{top}" width="{x(value) - LEFT:.1f}" height="{BAR - 1}" fill="{COLOURS[work]}"/>'
                       f'<text x="{x(value) + 4:.1f}" y="{top + BAR - 3}" font-size="10" fill="#57606a">{value:,.0f}</text>')
            top += BAR
        top += GAP
    return "\n".join(out + ["</svg>"]) + "\n"


def main():
    rows, docs = measured(pathlib.Path(sys.argv[1])), pathlib.Path(sys.argv[3])
    seeded = pathlib.Path(sys.argv[2]).read_text().splitlines()
    (docs / "PERFORMANCE.md").write_text(page(rows, seeded))
    (docs / "performance.svg").write_text(plot(rows))


main()
