"""Modules that others import from and that are not given: which they are, and where the library has them."""

from __future__ import annotations

from collections.abc import Iterable, Iterator
from dataclasses import fields, is_dataclass
from pathlib import Path

from .crates import Entry, entries_of
from .errors import AsnError, Place
from .parser import parse_modules
from .reading import text_of_file
from .syntax import Module

LIBRARY = Path(__file__).resolve().parents[2] / "asn1" / "modules.txt"


def not_given(name: str, module: str, place: Place, given: Iterable[Module]) -> AsnError:
    """The error of a name whose module is not given: it tells all modules that are lacking."""
    known = library_modules()
    lacking = all_missing(module, list(given), {source.name: source for source, _ in known.values()})
    return AsnError(place, f"'{name}' is of the module '{module}', which is not given", advice(lacking, known))


def all_missing(first: str, given: list[Module], known: dict[str, Module]) -> list[str]:
    """The modules that are not given, of which a name is used: by those that are given, and by those of the library."""
    names = {module.name for module in given}
    found, left = [first], [*given, *([known[first]] if first in known else [])]
    while left:
        for name in used_modules(left.pop(0)):
            if name not in names and name not in found:
                found.append(name)
                left += [known[name]] if name in known else []
    return found


def used_modules(module: Module) -> list[str]:
    """The modules from which a module imports what it uses or exports."""
    words = set(words_of((module.assignments, module.exports)))
    return [one.module for one in module.imports if words.intersection(symbol.text for symbol in one.symbols)]


def words_of(tree: object) -> Iterator[str]:
    """All words of a part of the tree of a module."""
    if isinstance(tree, str):
        yield tree
    elif isinstance(tree, tuple):
        for part in tree:
            yield from words_of(part)
    elif is_dataclass(tree) and not isinstance(tree, Place):
        for one in fields(tree):
            yield from words_of(getattr(tree, one.name))


def library_modules() -> dict[str, tuple[Module, Entry]]:
    """The modules of the library by their names, each with its file and its crate."""
    entries = entries_of(LIBRARY) if LIBRARY.exists() else []
    return {
        module.name: (module, entry)
        for entry in entries
        for module in parse_modules(str(entry.file), text_of_file(entry.file))
    }


def advice(lacking: list[str], known: dict[str, tuple[Module, Entry]]) -> str:
    """What to write for modules that are lacking."""
    parts: list[str] = []
    there = [(name, known[name][1]) for name in lacking if name in known]
    if there:
        crates = " ".join(dict.fromkeys(entry.crate for _, entry in there))
        listed = ", ".join(f"{name} ({entry.file.name} of {entry.crate})" for name, entry in there)
        parts.append(f"'tools/vendor FOLDER {crates}' copies what is lacking, and writes its lines: {listed}")
    others = [name for name in lacking if name not in known]
    if others:
        listed = ", ".join(others)
        parts.append(f"write 'crate: module=FILE' in the list, or 'crate given: module=FILE' of a crate that is there, for {listed}")
    return "\n    ".join(parts)
