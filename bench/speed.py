#!/usr/bin/env python3
"""Writes what README.md says of speed, a table of four rows: bench/speed.py ROWS [COUNTS]

ROWS is rows.tsv of BENCH_ROOM, which bench/run writes; COUNTS is counts.tsv, which bench/run --count writes. A cell has the
library's time, or its instructions, as a share of what the row names, for each of the row's inputs."""

import sys

# What the table says, the candidate that it is a share of, and the bench's rows.
TASKS = [
    ("read a certificate and go through its names: the system's; a leaf", "mbedTLS 3.6",
     ["certificate with names, system", "certificate with names, leaf"]),
    ("read an entry of a list of revoked certificates, of 1,000; of 100,000", "mbedTLS 3.6",
     ["revoked entry, 1,000", "revoked entry, 100,000"]),
    ("walk over the values of a certificate: the system's; a leaf", "mbedTLS 3.6",
     ["walk one at a time, system", "walk one at a time, leaf"]),
    ("`der_certificate`, beside a walk over the headers: the system's; a leaf", "here, headers",
     ["places of the fields, system", "places of the fields, leaf"]),
]
NAMES = {"here, headers": "the walk"}


def amounts(path):
    """What a file says of each row and candidate."""
    with open(path, encoding="utf-8") as file:
        lines = [line.rstrip("\n").split("\t") for line in file]
    return {(line[0], line[1]): float(line[2]) for line in lines}


def share(of, row, other):
    if (row, "here") not in of or (row, other) not in of:
        return "not measured"
    return f"{of[row, 'here'] / of[row, other]:.2f}"


def cell(of, other, rows):
    return "; ".join(share(of, row, other) for row in rows)


def main(paths):
    columns = [amounts(path) for path in paths]
    heads = ["Task", "Beside", "Time", "Instructions"][:2 + len(columns)]
    print("| " + " | ".join(heads) + " |")
    print("|" + "---|" * len(heads))
    for task, other, rows in TASKS:
        cells = [cell(of, other, rows) for of in columns]
        print("| " + " | ".join([task, NAMES.get(other, other), *cells]) + " |")


if __name__ == "__main__":
    main(sys.argv[1:3])
