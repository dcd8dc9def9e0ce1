#!/usr/bin/env python3
"""Counts the instructions that the program der_counts takes for a message, by valgrind, and keeps them in counts.txt:

    python3 bench/counts.py PROGRAM

PROGRAM is der_counts as 'rt run' builds it, crates/der_counts/out/der_counts. It does three rounds and one; half of the
difference is a round. The messages are the same in each run, and so is what is counted. tests/counts.py compares."""

import os
import re
import shutil
import subprocess
import sys

sys.dont_write_bytecode = True
import messages

KEPT = os.path.join(os.path.dirname(os.path.abspath(__file__)), "counts.txt")
ENTRIES = 1_000
NUMBERS = 10_000


def rows():
    """The rows: a name, the letter that the program knows it by, the messages, and by how many a round is divided."""
    leaves = [messages.leaf(number) for number in range(20)]
    entries, integers = [messages.revoked(ENTRIES)], [messages.integers(NUMBERS)]
    signed = [messages.signed_message(number) for number in range(10)]
    answers = [messages.status_answer(number) for number in range(10)]
    return [
        ("read Vec<i64>", b"i", integers, NUMBERS),
        ("read and write Vec<i64>", b"I", integers, NUMBERS),
        ("walk a certificate", b"w", leaves, len(leaves)),
        ("read a certificate", b"c", leaves, len(leaves)),
        ("read a certificate with names", b"n", leaves, len(leaves)),
        ("read and write a certificate", b"C", leaves, len(leaves)),
        ("read an entry of a list", b"l", entries, ENTRIES),
        ("read SignedData", b"s", signed, len(signed)),
        ("walk SignedData", b"w", signed, len(signed)),
        ("read an OCSP answer", b"a", answers, len(answers)),
    ]


def has_valgrind():
    return shutil.which("valgrind") is not None


def ran(program, mode, rounds, all_messages):
    """The instructions that the program took, and what it wrote."""
    octets = mode + bytes([rounds]) + messages.sequence(*(messages.tlv(4, it) for it in all_messages))
    words = ["valgrind", "--tool=callgrind", "--callgrind-out-file=/dev/null", program]
    done = subprocess.run(words, input=octets, capture_output=True)
    found = re.search(rb"Collected : (\d+)", done.stderr)
    if done.returncode or not found:
        sys.exit(f"{program} was not counted: {done.stderr[-400:].decode(errors='replace')}")
    return int(found[1]), int(done.stdout)


def counted(program):
    """The instructions of each row, for one of what it is divided by."""
    all_rows = {}
    for name, mode, all_messages, count in rows():
        (once, one), (thrice, three) = (ran(program, mode, rounds, all_messages) for rounds in (1, 3))
        if not one or three != 3 * one or (mode in b"cns" and one != len(all_messages)):
            sys.exit(f"{name}: the messages are refused")
        all_rows[name] = round((thrice - once) / 2 / count, 1)
    return all_rows


def kept():
    """The rows of the file."""
    with open(KEPT, encoding="utf-8") as file:
        lines = [it.rstrip("\n").rsplit(None, 1) for it in file if it.strip() and not it.startswith("#")]
    return {name: float(count) for name, count in lines}


def main(program):
    if not has_valgrind():
        sys.exit("valgrind is not there")
    with open(KEPT, "w", encoding="utf-8") as file:
        file.write("# Instructions of der_counts for one message, entry or number (bench/counts.py).\n")
        for name, count in counted(program).items():
            file.write(f"{name:<32} {count:>9.1f}\n")
            print(f"{name:<32} {count:>9.1f}")


if __name__ == "__main__":
    main(sys.argv[1])
