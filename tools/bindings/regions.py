"""The written parts of files: each stands between two comments, and the other lines of the file are by hand.

    /* written by tools/bindings: rules */
    /* end of rules */
"""

from __future__ import annotations

import re
from pathlib import Path

from .errors import Difference

MARK = re.compile(r"^[ \t]*(?:/\*|//|#|<!--) (written by tools/bindings:|end of) ([A-Za-z ]*[A-Za-z])", re.M)


def marks(text: str) -> list[tuple[int, bool, str]]:
    """The comments around written parts: the index of the line, whether the part begins there, and its name."""
    return [(text.count("\n", 0, mark.start()), mark[1] != "end of", mark[2]) for mark in MARK.finditer(text)]


def find(file: str, text: str, name: str) -> tuple[int, int] | Difference:
    """Where a written part begins and ends in the lines: after its first comment, and at its last one."""
    begins = [line for line, is_begin, of in marks(text) if of == name and is_begin]
    ends = [line for line, is_begin, of in marks(text) if of == name and not is_begin]
    if len(begins) != 1 or len(ends) != 1:
        return Difference(file, (begins or ends or [0])[-1] + 1, f"the comments around '{name}' stand {len(begins)} and {len(ends)} times")
    if begins[0] > ends[0]:
        return Difference(file, ends[0] + 1, f"'{name}' ends before it begins")
    return begins[0] + 1, ends[0]


def replaced(file: str, text: str, parts: dict[str, list[str]]) -> str | Difference:
    """The text of a file with other written parts."""
    for name, written in parts.items():
        found = find(file, text, name)
        if isinstance(found, Difference):
            return found
        lines = text.split("\n")
        lines[found[0] : found[1]] = written
        text = "\n".join(lines)
    return text


def put(root: Path, written: dict[str, dict[str, list[str]]]) -> list[Difference]:
    """Writes the parts of all files; what can't be written is returned."""
    wrong = []
    for file, parts in written.items():
        before = text_of(root / file)
        after = replaced(file, before, parts)
        if isinstance(after, Difference):
            wrong.append(after)
        elif after != before:
            (root / file).write_text(after, encoding="utf-8")
            print(f"{file} is changed")
    return wrong + unknown(root, written)


def compare(root: Path, written: dict[str, dict[str, list[str]]]) -> list[Difference]:
    """Of each part that is not as it would be written, the first line that differs."""
    wrong = []
    for file, parts in written.items():
        text = text_of(root / file)
        lines = text.split("\n")
        for name, expected in parts.items():
            found = find(file, text, name)
            if isinstance(found, Difference):
                wrong.append(found)
            elif (there := lines[found[0] : found[1]]) != expected:
                wrong.append(first_difference(file, name, found[0], there, expected))
    return wrong + unknown(root, written)


def first_difference(file: str, name: str, start: int, there: list[str], expected: list[str]) -> Difference:
    at = 0
    while at < min(len(there), len(expected)) and there[at] == expected[at]:
        at += 1
    line = expected[at] if at < len(expected) else "nothing more"
    return Difference(file, start + at + 1, f"'{name}' is not what tools/bindings writes, which has here: {line.strip()}")


def unknown(root: Path, written: dict[str, dict[str, list[str]]]) -> list[Difference]:
    """Parts that are marked as written, and that nothing writes."""
    found = []
    for file, parts in written.items():
        strange = [(line, name) for line, is_begin, name in marks(text_of(root / file)) if is_begin and name not in parts]
        found += [Difference(file, line + 1, f"nothing writes '{name}'") for line, name in strange]
    return found


def text_of(path: Path) -> str:
    return path.read_text(encoding="utf-8")
