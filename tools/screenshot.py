#!/usr/bin/env python3
"""Draws docs/certview.svg: what certview prints of the certificate of crates/certview, as a terminal shows it.

    python3 tools/screenshot.py [--check]

With --check it writes nothing, and the status is 1 where the picture is not what it would draw."""
import os
import sys
from xml.sax.saxutils import escape

ROOT = os.path.dirname(os.path.dirname(os.path.abspath(__file__)))
PICTURE = f"{ROOT}/docs/certview.svg"
COLUMNS, WIDTH, HEIGHT, MARGIN = 100, 7.8, 18, 14


def lines():
    """The command and the lines that it prints, each cut where the window ends."""
    with open(f"{ROOT}/crates/certview/stdout", encoding="utf-8") as file:
        printed = file.read().splitlines()
    return ["$ certview cert.pem", *(it if len(it) <= COLUMNS else it[: COLUMNS - 1] + "…" for it in printed)]


def drawn():
    """The picture's text."""
    shown = lines()
    width, height = 2 * MARGIN + COLUMNS * WIDTH, 2 * MARGIN + len(shown) * HEIGHT
    yield f'<svg xmlns="http://www.w3.org/2000/svg" viewBox="0 0 {width:.0f} {height}" width="{width:.0f}" height="{height}">'
    yield f'<rect width="{width:.0f}" height="{height}" rx="8" fill="#1b1f24"/>'
    yield '<g font-family="ui-monospace, Menlo, Consolas, monospace" font-size="13" fill="#e6e9ec" xml:space="preserve">'
    for number, line in enumerate(shown):
        colour = ' fill="#8fd694"' if number == 0 else ""
        yield f'<text x="{MARGIN}" y="{MARGIN + 13 + number * HEIGHT}"{colour}>{escape(line)}</text>'
    yield "</g>\n</svg>"


def main(words):
    text = "\n".join(drawn()) + "\n"
    if words == ["--check"]:
        same = os.path.isfile(PICTURE) and open(PICTURE, encoding="utf-8").read() == text
        return 0 if same else 1
    with open(PICTURE, "w", encoding="utf-8") as file:
        file.write(text)
    return 0


if __name__ == "__main__":
    sys.exit(main(sys.argv[1:]))
