"""Modules of files in some folders that the compiler takes whole, with those that they import from, in an order by lot."""

from __future__ import annotations

import random
import re
from collections.abc import Iterator
from dataclasses import dataclass, field
from pathlib import Path

from ..crates import Entry
from ..errors import AsnError
from ..files import read
from ..parser import parse_modules
from ..reading import text_of_file
from ..resolver import resolve
from ..spelling import snake
from ..syntax import Module, TypeAssignment
from .trial import Crate, types_of

SUFFIXES = (".asn1", ".asn")
COMMENT = re.compile(r"--[^\n]*?(?:--|$)|/\*.*?\*/", re.M | re.S)
HEADER = re.compile(r"^\s*([A-Z][A-Za-z0-9-]*)\s*(?:\{[^{}]*\}\s*)?(?:\"[^\"]*\"\s*)?DEFINITIONS\b", re.M)


@dataclass(frozen=True)
class Ticket:
    """A module in the lot."""

    name: str
    path: Path


@dataclass
class Drawn:
    """A module that was drawn, the crate that it becomes with those that it imports from, and how many types it has."""

    ticket: Ticket
    crate: Crate
    types: int
    files: int


@dataclass
class Lot:
    """The modules in some folders, by the names that their headers seem to have."""

    sources: list[Path]
    most: int | None = None  # types that a module may assign with those that it imports from; larger ones are passed over
    by_source: list[dict[str, list[Path]]] = field(default_factory=list)
    parsed: dict[Path, list[Module]] = field(default_factory=dict)
    refused: int = 0
    passed_over: int = 0

    def __post_init__(self) -> None:
        for source in self.sources:
            names: dict[str, list[Path]] = {}
            for path in sorted(path for path in source.rglob("*") if path.suffix in SUFFIXES and path.is_file()):
                text = COMMENT.sub("", path.read_text(encoding="utf-8", errors="replace"))
                for name in HEADER.findall(text):
                    names.setdefault(name, []).append(path)
            self.by_source.append(names)

    def tickets(self) -> list[Ticket]:
        """All modules; one of several with the same text."""
        found: dict[tuple[str, bytes], Ticket] = {}
        for names in self.by_source:
            for name, paths in names.items():
                for path in paths:
                    found.setdefault((name, path.read_bytes()), Ticket(name, path))
        return list(found.values())

    def drawn(self, seed: int) -> Iterator[Drawn]:
        """The modules with types that are taken whole, in the order of a lot."""
        tickets = self.tickets()
        random.Random(seed).shuffle(tickets)
        for number, ticket in enumerate(tickets):
            try:
                found = self.taken(ticket, f"s{number:04}")
            except AsnError:
                self.refused += 1
                continue
            if found is not None:
                yield found

    def taken(self, ticket: Ticket, crate: str) -> Drawn | None:
        """A module with those that it imports from, by parser and resolver; None of one with no types."""
        paths = self.closure(ticket.path)
        if self.most is not None and self.assigned(paths) > self.most:
            self.passed_over += 1
            return None
        entries = [Entry(crate, self.name_in_crate(path), path) for path in paths]
        modules, named = read(entries)
        resolved, _ = resolve(modules)
        mine = [(one, entry) for one, entry in zip(resolved, named) if one.name == ticket.name and entry.file == ticket.path]
        if not mine or not mine[0][0].definitions:
            return None
        module, entry = mine[0]
        types = types_of(module, f"{crate}::{entry.module}")
        files = tuple((entry.module, entry.file) for entry in entries)
        return Drawn(ticket, Crate(crate, files, types), len(types), len(paths))

    def assigned(self, paths: list[Path]) -> int:
        """How many types the modules of some files assign."""
        modules = [module for path in paths for module in self.modules_of(path)]
        return sum(isinstance(one, TypeAssignment) for module in modules for one in module.assignments)

    def modules_of(self, path: Path) -> list[Module]:
        if path not in self.parsed:
            self.parsed[path] = parse_modules(str(path), text_of_file(path))
        return self.parsed[path]

    def name_in_crate(self, path: Path) -> str:
        """The name before the file in the list: none of a file with several modules, or with one that assigns nothing."""
        modules = self.modules_of(path)
        return snake(modules[0].name) if len(modules) == 1 and modules[0].assignments else ""

    def closure(self, path: Path) -> list[Path]:
        """The files of the modules that a file's modules import from, and of those these import from."""
        found, wanted = [], [path]
        while wanted:
            path = wanted.pop(0)
            found.append(path)
            there = {module.name for known in found for module in self.modules_of(known)}
            for module in self.modules_of(path):
                for one in module.imports:
                    file = None if one.module in there else self.file_of(one.module, path)
                    if file is not None and file not in found + wanted:
                        wanted.append(file)
        return found

    def file_of(self, name: str, path: Path) -> Path | None:
        """The file of a module that a file imports from: in its folder, then in its source, then in the others."""
        own = [names for names, source in zip(self.by_source, self.sources) if path.is_relative_to(source)]
        for paths in [near for names in own if (near := [it for it in names.get(name, []) if it.parent == path.parent])]:
            return paths[0]
        return next((names[name][0] for names in own + self.by_source if name in names), None)


def line_count(folder: Path) -> int:
    """How many lines the files of a crate have."""
    return sum(len(path.read_text(encoding="utf-8").splitlines()) for kind in ("rt", "antt") for path in folder.rglob(f"*.{kind}"))
