"""What is wrong with a table or a file: an error ends the run, a difference is printed beside others."""

from __future__ import annotations

from dataclasses import dataclass


class TableError(Exception):
    """A line of a table that can't be read."""

    def __init__(self, file: str, line: int, problem: str) -> None:
        super().__init__(f"{file}:{line}: error: {problem}")
        self.line = line
        self.problem = problem


@dataclass(frozen=True, order=True)
class Difference:
    """A line of a file that is not what the tables say. Lines are counted from 1."""

    file: str
    line: int
    problem: str

    def __str__(self) -> str:
        return f"{self.file}:{self.line}: {self.problem}"
