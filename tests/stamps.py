#!/usr/bin/env python3
"""Marks the libraries that 'rt ci' has built in a copy of the repository, so that 'rt lib' and 'rt run' there prove none again.

    python3 tests/stamps.py TREE

'rt ci' leaves its libraries without the stamp by which other commands know them, since each fits only those that it was built
over. Here all are of one run, and stay together. Nothing is marked where the kit has other insides than those that this reads:
then these commands prove the libraries again, which takes long and changes nothing else. The line says how many are marked."""
import os
import sys

from lib.edit_checks import kit_of_rt
from lib.kept_edits import rtlib_of


def mark(tree):
    """Writes the stamp of each library that is built in the tree over libraries that are; gives how many there are."""
    marked = set()
    crates = [it for it in rtlib_of(kit_of_rt()).crates_below(tree) if not it.is_program]
    for crate in sorted(crates, key=lambda it: len(it.below())):
        if os.path.isdir(crate.rlib) and all(it.folder in marked for it in crate.below()):
            with open(f"{crate.folder}/out/rlib/stamp", "w", encoding="utf-8") as file:
                file.write(crate.stamp())
            marked.add(crate.folder)
    return len(marked)


def main(tree):
    try:
        number = mark(os.path.realpath(tree))
    except (Exception, SystemExit) as why:
        print(f"no library is marked: {why!r}")
        return
    print(f"libraries of rt ci that are marked: {number}")


if __name__ == "__main__":
    main(sys.argv[1])
