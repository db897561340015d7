#!/usr/bin/env python3
"""seeds.py pack FOLDER | unpack FOLDER | lists FOLDER: the fuzzer's inputs as one file, seeds.bin, each after its u16 length.

`lists` writes the short tables of the kept lists as inputs, for a start from nothing.
"""
import hashlib
import pathlib
import struct
import sys

HERE = pathlib.Path(__file__).resolve().parent
SEEDS = HERE / "seeds.bin"
CRATES = HERE.parent.parent / "crates"
MOST = 1_024


def put(folder, data):
    (folder / hashlib.sha1(data).hexdigest()).write_bytes(data)


def pack(folder):
    inputs = sorted((path.read_bytes() for path in folder.iterdir()), key=lambda data: (len(data), data))
    SEEDS.write_bytes(b"".join(struct.pack("<H", len(data)) + data for data in inputs))
    print(f"{len(inputs)} inputs, {SEEDS.stat().st_size} bytes")


def unpack(folder):
    if not SEEDS.exists():
        return lists(folder)
    data, at = SEEDS.read_bytes(), 0
    while at < len(data):
        (size,) = struct.unpack_from("<H", data, at)
        put(folder, data[at + 2:at + 2 + size])
        at += 2 + size


def lists(folder):
    for name in ("boundaries", "replayed"):
        data, at = (CRATES / name / "stdin").read_bytes(), 0
        while at < len(data):
            (size,) = struct.unpack_from("<I", data, at)
            if size < MOST:
                put(folder, b"\0" + data[at + 4:at + 4 + size])
            at += 4 + size
    data, at = (CRATES / "rooms" / "stdin").read_bytes(), 0
    while at < len(data):
        call, _, size = struct.unpack_from("<BII", data, at)
        if size < MOST:
            put(folder, bytes([call]) + data[at + 9:at + 9 + size])
        at += 9 + size


def main():
    task, folder = sys.argv[1], pathlib.Path(sys.argv[2])
    {"pack": pack, "unpack": unpack, "lists": lists}[task](folder)


main()
