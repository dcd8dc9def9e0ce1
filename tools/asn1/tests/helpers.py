"""What the tests share: modules in a line or two, and what they come to."""

from __future__ import annotations

from pathlib import Path

from ..errors import AsnError, Remark
from ..model import Definition, ResolvedModule
from ..parser import parse_modules
from ..resolver import resolve

MODULES = Path(__file__).parent / "modules"


def module_of(body: str, tags: str = "", name: str = "Test") -> str:
    """A module with this body, which begins in its second line."""
    return f"{name} DEFINITIONS {tags} ::= BEGIN\n{body}\nEND\n"


def resolved(*texts: str) -> tuple[list[ResolvedModule], list[Remark]]:
    """What the modules of some files come to."""
    return resolve([module for text in texts for module in parse_modules("test.asn1", text)])


def definitions(body: str, tags: str = "") -> dict[str, Definition]:
    """The definitions of a module with this body, by their names in Rattle."""
    found, _ = resolved(module_of(body, tags))
    return {definition.rust: definition for definition in found[0].definitions}


def remarks(body: str, tags: str = "") -> list[str]:
    """What is said of a module with this body, with lines and columns."""
    return [f"{r.place.line}:{r.place.column} {r.text}" for r in resolved(module_of(body, tags))[1]]


def refusal(*texts: str) -> AsnError:
    """The error that modules get."""
    try:
        resolved(*texts)
    except AsnError as error:
        return error
    raise AssertionError("the module is taken")


def standard(name: str) -> str:
    """The text of a module of a standard."""
    return (MODULES / f"{name}.asn1").read_text(encoding="utf-8")
