#!/usr/bin/env python3
"""Prints the instructions for an item of each row that one run under callgrind measured, and adds them to counts.tsv."""
import glob
import re
import sys

room, candidate = sys.argv[1:]
rows = [line.rstrip("\n").split("\t") for line in open(f"{room}/rows.{candidate}") if "\t" in line]
dumps = glob.glob(f"{room}/callgrind.{candidate}.*")
dumps.sort(key=lambda name: int(name.rsplit(".", 1)[1]))
with open(f"{room}/counts.tsv", "a") as counts:
    for (row, name, items, _), dump in zip(rows, dumps):
        totals = re.search(r"^(?:summary|totals): (\d+)", open(dump).read(), re.M)
        count = int(totals.group(1)) / int(items)
        print(f"{row:<36} {name:<8} {count:>9.1f} instructions")
        counts.write(f"{row}\t{name}\t{count:.1f}\n")
