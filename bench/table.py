#!/usr/bin/env python3
"""Draws the rows that bench/run has measured as a picture: bench/table.py ROWS > bench/table.svg

ROWS is the file rows.tsv of BENCH_ROOM. Each row is a scale, on which the library's time is 1 and each step is a factor of
two: peers to the right take longer, those to the left less. A bar from 1 goes to the fastest peer."""

import math
import sys
from xml.sax.saxutils import escape

LEFT, STEP, HEIGHT, TOP = 270, 76, 66, 52
# Where words stand at a row, from its middle: those that have room take the first.
LEVELS = (-9, 17, -20, 28)
# Factors of two that are drawn on either side of 1.
LESS, MORE = 3, 9
HERE, LIMIT, PEER, LINE = "#b3541e", "#777777", "#27566b", "#dddddd"


def rows_of(path):
    """The rows by their names, each a list of candidates and times, the library first."""
    rows = {}
    with open(path, encoding="utf-8") as file:
        for line in file:
            row, candidate, time, _ = line.rstrip("\n").split("\t")
            rows.setdefault(row, []).append((candidate, float(time)))
    return {name: row for name, row in rows.items() if row[0][0] == "here" and len(row) > 1}


def place(share):
    """Where a candidate stands that takes so many times the library's time."""
    return LEFT + STEP * (LESS + min(max(math.log2(share), -LESS), MORE))


def text(x, y, words, colour="#222222", size=11, anchor="start"):
    return f'<text x="{x:.1f}" y="{y:.1f}" fill="{colour}" font-size="{size}" text-anchor="{anchor}">{escape(words)}</text>'


def time_of(nanoseconds):
    return f"{nanoseconds / 1000:.1f} µs" if nanoseconds >= 1000 else f"{nanoseconds:.3g} ns"


def share_of(share):
    return f"{share:.0f}" if share >= 10 else f"{share:.2g}"


def drawn_row(name, row, y):
    """A row at the height y: its name and time, a mark for each candidate, and a word at those that have room."""
    here = row[0][1]
    others = sorted(((it, time / here) for it, time in row[1:] if not it.startswith("here")), key=lambda it: it[1])
    yield text(LEFT - 12, y - 2, name, anchor="end")
    yield text(LEFT - 12, y + 11, time_of(here), HERE, 10, "end")
    peers = [it for it in others if not it[0].startswith("limit")]
    if peers:
        from_x, to_x = sorted((place(1), place(peers[0][1])))
        yield f'<rect x="{from_x:.1f}" y="{y - 3}" width="{to_x - from_x:.1f}" height="6" fill="{PEER}" opacity="0.35"/>'
    ends = dict.fromkeys(LEVELS, -math.inf)
    for other, share in [*others, ("", 1.0)]:
        x, colour = place(share), HERE if not other else LIMIT if other.startswith("limit") else PEER
        yield f'<circle cx="{x:.1f}" cy="{y}" r="{5 if not other else 4}" fill="{colour}"/>'
    for other, share in others:
        colour = LIMIT if other.startswith("limit") else PEER
        words, x = f"{other} {share_of(share)}", place(share)
        for level in LEVELS:
            if ends[level] < x - 3:
                yield text(x - 3, y + level, words, colour, 9)
                ends[level] = x + 5 * len(words)
                break


def drawn(rows):
    width, height = LEFT + STEP * (LESS + MORE) + 130, TOP + HEIGHT * len(rows) + 10
    yield f'<svg xmlns="http://www.w3.org/2000/svg" width="{width}" height="{height}" font-family="sans-serif">'
    yield f'<rect width="{width}" height="{height}" fill="#ffffff"/>'
    for power in range(-LESS, MORE + 1):
        x = LEFT + STEP * (LESS + power)
        yield f'<line x1="{x}" y1="{TOP - 14}" x2="{x}" y2="{height - 10}" stroke="{HERE if not power else LINE}"/>'
        yield text(x, TOP - 22, f"{2 ** power:g}" if power >= 0 else f"1/{2 ** -power}", "#555555", 10, "middle")
    yield text(LEFT - 12, TOP - 22, "time, as a multiple of the library's", "#555555", 10, "end")
    for number, (name, row) in enumerate(rows.items()):
        yield from drawn_row(name, row, TOP + HEIGHT * number + 24)
    yield "</svg>"


if __name__ == "__main__":
    sys.stdout.write("\n".join(drawn(rows_of(sys.argv[1]))) + "\n")
