#!/usr/bin/env python3
"""Writes a network file NAME.net for each networks/NAME.txt, beside this script.

A text line has one of these forms; an empty line or one that begins with '#' is skipped.

    node N        a node record
    arc A B W     an arc record: source, target, weight
    cut L         keep only the first L bytes of the file (for damaged files)

Records are written in text sequence. Nothing is checked: damaged files are wanted too.
usage: make_networks.py           write all files
       make_networks.py --check   write nothing, and end with status 1 where a file differs
"""
import pathlib
import struct
import sys


def network_file(text):
    nodes, arcs, cut = [], [], None
    for line in text.splitlines():
        words = line.split()
        if not words or words[0].startswith("#"):
            continue
        numbers = [int(word) for word in words[1:]]
        if words[0] == "node" and len(numbers) == 1:
            nodes += numbers
        elif words[0] == "arc" and len(numbers) == 3:
            arcs += numbers
        elif words[0] == "cut" and len(numbers) == 1:
            cut = numbers[0]
        else:
            raise ValueError(f"not a line of a network: {line!r}")
    n, m = len(nodes), len(arcs) // 3
    fields = [16, n, 16 + 4 * n, m] + nodes + arcs
    return struct.pack(f"<{len(fields)}I", *fields)[:cut]


def main():
    here = pathlib.Path(__file__).resolve().parent
    check = sys.argv[1:] == ["--check"]
    differ = 0
    for source in sorted((here / "networks").glob("*.txt")):
        data = network_file(source.read_text(encoding="ascii"))
        target = here / (source.stem + ".net")
        if not check:
            target.write_bytes(data)
            print(f"{target.name}: {len(data)} bytes")
        elif not target.exists() or target.read_bytes() != data:
            differ += 1
            print(f"{target.name}: differs")
    return 1 if differ else 0


if __name__ == "__main__":
    sys.exit(main())
