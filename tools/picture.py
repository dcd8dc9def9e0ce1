#!/usr/bin/env python3
"""Draws docs/crates.svg from crates.txt: the crates in floors, each above those that it stands on.

usage: tools/picture.py [--check]

A line leads from a crate down to what it names in crates.txt, but for what it also reaches through another. Crates of tests
stand in a row of their own below, without lines. --check draws nothing: the status is 1 where the picture is not what this
draws."""
import sys
from pathlib import Path

ROOT = Path(__file__).resolve().parent.parent
PICTURE = ROOT / "docs/crates.svg"
# What users name in their line of crates.txt; der_asn1_types hands on what stands below it.
NAMED = {"der_asn1_types", "der_pkix", "der_extensions", "der_ocsp", "der_cms", "der_enveloped", "der_time_stamp", "der_pkcs", "der_build", "der_verify",
    "der_path", "der_places"}
HEIGHT, STEP, GAP, LETTER, THIN = 26, 84, 20, 7.4, 10
COLOURS = {"named": "#bfe3c6", "below": "#e4ecf7", "program": "#fbe3b5", "other": "#eeeeee", "tests": "#ffffff"}
WORDS = {
    "named": "named by users",
    "below": "handed on by der_asn1_types",
    "program": "a program",
    "other": "another library",
    "tests": "tests alone",
}


def crates():
    """The crates of the repository, each with those of them that it stands on."""
    found = {}
    for line in (ROOT / "crates.txt").read_text(encoding="utf-8").split("\n"):
        name, colon, names = line.split("#")[0].partition(":")
        if colon:
            found[name.split()[0]] = names.split()
    return {name: [below for below in names if below in found] for name, names in found.items()}


def is_of_tests(name):
    return name.endswith("_tests")


def reached(below):
    """What each crate stands on, through others too."""
    found = {}

    def of(name):
        if name not in found:
            found[name] = set(below[name]).union(*[of(it) for it in below[name]])
        return found[name]

    for name in below:
        of(name)
    return found


def floors(below):
    """The number of the floor of each crate: one above the highest that it stands on."""
    found = {}

    def of(name):
        if name not in found:
            found[name] = 1 + max((of(it) for it in below[name]), default=-1)
        return found[name]

    for name in below:
        of(name)
    return found


def rows_and_lines(below):
    """The rows of nodes, lowest first, and the lines between neighbouring rows. A line that passes a row has a node there,
    which is a pair."""
    reach, floor = reached(below), floors(below)
    rows = [[] for _ in range(1 + max(floor.values()))]
    for name in below:
        rows[floor[name]].append(name)
    lines = []
    for name, names in below.items():
        for low in names:
            if any(low in reach[other] for other in names):
                continue
            upper = name
            for place in range(floor[name] - 1, floor[low], -1):
                rows[place].append((name, low, place))
                lines.append((upper, (name, low, place)))
                upper = (name, low, place)
            lines.append((upper, low))
    return rows, lines


def width(node):
    return THIN if isinstance(node, tuple) else 20 + LETTER * len(node)


def in_order(rows, lines):
    """Orders each row by the middle of its neighbours' places, up and down, so that few lines cross."""
    beside = {node: [] for row in rows for node in row}
    for upper, lower in lines:
        beside[upper].append(lower)
        beside[lower].append(upper)
    for sweep in range(24):
        pairs = list(zip(rows, rows[1:]))
        for fixed, moved in pairs if sweep % 2 == 0 else [(high, low) for low, high in reversed(pairs)]:
            place = {node: at / max(1, len(fixed) - 1) for at, node in enumerate(fixed)}

            def middle(node):
                found = [place[it] for it in beside[node] if it in place]
                return sum(found) / len(found) if found else 0.5

            moved.sort(key=lambda node: (middle(node), str(node)))
    return rows


def places(rows, room):
    """The middle of each node, and the size of the picture."""
    found = {}
    for at, row in enumerate(rows):
        taken = sum(width(node) for node in row)
        gap = (room - taken) / (len(row) + 1)
        x = gap
        for node in row:
            found[node] = (x + width(node) / 2, (len(rows) - 1 - at) * STEP + HEIGHT)
            x += width(node) + gap
    return found


def kind_of(name, reach):
    if is_of_tests(name):
        return "tests"
    if (ROOT / f"crates/{name}/src/main.rt").exists():
        return "program"
    if name in NAMED:
        return "named"
    return "below" if name in reach["der_asn1_types"] else "other"


def box(name, x, y, kind):
    wide = width(name)
    dashes = ' stroke-dasharray="4 3"' if kind == "tests" else ""
    return (
        f'<rect x="{x - wide / 2:.0f}" y="{y - HEIGHT / 2:.0f}" width="{wide:.0f}" height="{HEIGHT}" rx="4" '
        f'fill="{COLOURS[kind]}" stroke="#555555"{dashes}/>\n'
        f'<text x="{x:.0f}" y="{y + 4:.0f}" text-anchor="middle">{name}</text>\n'
    )


def line(x, y, to_x, to_y):
    return f'<line x1="{x:.0f}" y1="{y:.0f}" x2="{to_x:.0f}" y2="{to_y:.0f}" stroke="#999999"/>\n'


def row_of(names, kinds, room, y):
    """Boxes one beside another, in as many rows as they take; and where the next row stands."""
    text, x = "", GAP
    for name in names:
        if x + width(name) > room:
            x, y = GAP, y + HEIGHT + GAP
        text += box(name, x + width(name) / 2, y, kinds[name])
        x += width(name) + GAP
    return text, y + HEIGHT + GAP


def key(y):
    text, x = "", GAP
    for kind, words in WORDS.items():
        dashes = ' stroke-dasharray="4 3"' if kind == "tests" else ""
        text += f'<rect x="{x}" y="{y - 8}" width="16" height="16" fill="{COLOURS[kind]}" stroke="#555555"{dashes}/>\n'
        text += f'<text x="{x + 22}" y="{y + 4}">{words}</text>\n'
        x += int(40 + LETTER * len(words))
    return text


def picture():
    """The text of the picture."""
    everything = crates()
    reach = reached(everything)
    kinds = {name: kind_of(name, reach) for name in everything}
    below = {name: names for name, names in everything.items() if kinds[name] != "tests"}
    rows, lines = rows_and_lines(below)
    rows = in_order(rows, lines)
    room = max(sum(width(node) + GAP for node in row) + GAP for row in rows)
    place = places(rows, room)
    body = ""
    for upper, lower in sorted(lines, key=str):
        (x, y), (to_x, to_y) = place[upper], place[lower]
        body += line(x, y + HEIGHT / 2, to_x, to_y - HEIGHT / 2)
        if isinstance(lower, tuple):
            body += line(to_x, to_y - HEIGHT / 2, to_x, to_y + HEIGHT / 2)
    for name in sorted(below):
        body += box(name, *place[name], kinds[name])
    boxes, y = row_of(sorted(set(everything) - set(below)), kinds, room, len(rows) * STEP)
    body += boxes + key(y)
    return (
        f'<svg xmlns="http://www.w3.org/2000/svg" width="{room:.0f}" height="{y + HEIGHT:.0f}" '
        f'font-family="monospace" font-size="12">\n'
        f'<rect width="100%" height="100%" fill="#ffffff"/>\n{body}</svg>\n'
    )


def main():
    text = picture()
    if sys.argv[1:] == ["--check"]:
        return 0 if PICTURE.exists() and PICTURE.read_text(encoding="utf-8") == text else 1
    PICTURE.write_text(text, encoding="utf-8")
    return 0


if __name__ == "__main__":
    sys.exit(main())
