"""Lines of at most 120 characters: comments and lists of parameters."""

from __future__ import annotations

import textwrap

WIDTH = 120


def wrapped(text: str, width: int) -> list[str]:
    """A text in lines that end between words."""
    return textwrap.wrap(text, width, break_long_words=False, break_on_hyphens=False)


def comment_in_c(text: str, indent: str = "") -> list[str]:
    """A comment of C, in as many lines as it takes."""
    lines = wrapped(text, WIDTH - len(indent) - 6)
    lines = [("/* " if at == 0 else " * ") + line for at, line in enumerate(lines)]
    return [indent + line for line in [*lines[:-1], f"{lines[-1]} */"]]


def call_in_c(head: str, parameters: list[str], tail: str) -> list[str]:
    """A call with its parameters, which go on below the first of them."""
    lines = [head]
    for at, parameter in enumerate(parameters):
        part = parameter + (", " if at + 1 < len(parameters) else tail)
        if len(lines[-1] + part.rstrip()) > WIDTH:
            lines[-1] = lines[-1].rstrip()
            lines.append(" " * len(head))
        lines[-1] += part
    return lines


def call_in_rust(indent: str, head: str, parameters: list[str], tail: str) -> list[str]:
    """A call in Rust: in one line, or with a line a parameter."""
    line = f"{indent}{head}({', '.join(parameters)}){tail}"
    if len(line) <= WIDTH:
        return [line]
    return [f"{indent}{head}(", *[f"{indent}    {parameter}," for parameter in parameters], f"{indent}){tail}"]


def aligned(pairs: list[tuple[str, str]]) -> list[str]:
    """Lines with a comment behind each, which all begin in one column."""
    column = max((len(code) for code, _ in pairs), default=0)
    return [f"{code.ljust(column)} {comment}" for code, comment in pairs]
