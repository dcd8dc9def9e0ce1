"""The lines of a table that are no comments."""

from __future__ import annotations

from dataclasses import dataclass

from ..errors import TableError


@dataclass(frozen=True)
class Line:
    """A line with its number, its depth (how many times four spaces stand before it), and its text."""

    file: str
    number: int
    depth: int
    text: str

    def error(self, problem: str) -> TableError:
        return TableError(self.file, self.number, problem)


def lines_of(file: str, text: str) -> list[Line]:
    """All lines of a table but empty ones and comments."""
    found = []
    for number, line in enumerate(text.split("\n"), 1):
        stripped = line.strip()
        if not stripped or stripped.startswith("#"):
            continue
        spaces = len(line) - len(line.lstrip(" "))
        read = Line(file, number, spaces // 4, stripped)
        if spaces % 4 or line.lstrip(" ").startswith("\t"):
            raise read.error("the spaces before a line are a multiple of four")
        found.append(read)
    return found
