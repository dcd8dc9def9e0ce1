"""What the compiler says of a module: an error ends it, a remark does not."""

from __future__ import annotations

from dataclasses import dataclass


@dataclass(frozen=True, order=True)
class Place:
    """Where something stands: a file, a line and a column, both counted from 1."""

    file: str
    line: int
    column: int

    def __str__(self) -> str:
        return f"{self.file}:{self.line}:{self.column}"


class AsnError(Exception):
    """The one error that a module gets: where, what, and what to write instead."""

    def __init__(self, place: Place, problem: str, instead: str) -> None:
        super().__init__(f"{place}: error: {problem}\n    {instead}")
        self.place = place
        self.problem = problem
        self.instead = instead


@dataclass(frozen=True)
class Remark:
    """What the written types do not check, or leave out, of a module that is taken."""

    place: Place
    text: str

    def __str__(self) -> str:
        return f"{self.place}: remark: {self.text}"
