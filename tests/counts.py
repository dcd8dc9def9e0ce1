#!/usr/bin/env python3
"""Compares the instructions of der_counts with those that bench/counts.txt keeps: a row that takes more than 3 % more fails.

    python3 tests/counts.py [--built TREE]

TREE is a copy of the repository in which 'rt ci' has built the program; without it, what 'rt run' has built is taken. Where
valgrind is not there, and as long as no counts are kept, nothing is compared. The last line counts the rows."""

import os
import sys

sys.dont_write_bytecode = True
from lib import ROOT

sys.path.insert(0, f"{ROOT}/bench")
import counts

MOST = 1.03


def main(words):
    tree = words[1] if words[:1] == ["--built"] else ROOT
    program = f"{tree}/crates/der_counts/out/der_counts"
    if not counts.has_valgrind() or not os.path.isfile(counts.KEPT):
        print("counts: " + ("no counts are kept" if counts.has_valgrind() else "valgrind is not there"))
        print("0 passed, 0 failed")
        return 0
    if not os.path.isfile(program):
        print(f"counts: {program} is not built")
        print("0 passed, 1 failed")
        return 1
    found, kept = counts.counted(program), counts.kept()
    failed = 0
    for name in sorted({*found, *kept}, key=list({**found, **kept}).index):
        if name not in kept or name not in found:
            failed += 1
            print(f"FAILED: counts: {name}: not in {'bench/counts.txt' if name in found else 'the program'}")
        elif found[name] > MOST * kept[name]:
            failed += 1
            print(f"FAILED: counts: {name}: {found[name]} instructions, and {kept[name]} are kept")
    print(f"{len(found) - failed} passed, {failed} failed")
    return 1 if failed else 0


if __name__ == "__main__":
    sys.exit(main(sys.argv[1:]))
