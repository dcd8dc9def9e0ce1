"""The constants of the written crates, beside the numbers that the text of ASN.1 has.

The text is read by expressions of this file and of `standards.py`, and not by the compiler; its list of modules is.
"""

from __future__ import annotations

import re
import unittest
from collections.abc import Iterator

from ..crates import entries_of
from .standards import COMMENT, NAME, WRITTEN, library

CRATES = WRITTEN.parent / "crates"

# `Name ::= INTEGER { .. }`, or such a type in a component.
NAMED = re.compile(rf"(?:\b([A-Z][A-Za-z0-9-]*)\s*::=\s*|\b({NAME})\s+)(INTEGER|BIT STRING)\s*{{([^}}]*)}}")
ENUMERATED = re.compile(r"\b([A-Z][A-Za-z0-9-]*)\s*::=\s*ENUMERATED\s*{([^}]*)}")
ASSIGNED = re.compile(r"\b([A-Z][A-Za-z0-9-]*)\s*::=")
ONE = re.compile(rf"({NAME})\s*\(\s*(-?\d+)\s*\)")

NUMBER = re.compile(r"^pub const ([A-Z0-9_]+): ([iu]\d+|usize) = (-?\d+);$", re.MULTILINE)
OCTETS = re.compile(r"^pub const ([A-Z0-9_]+): \[u8; (\d+)\] = \[([^\]]*)\];$", re.MULTILINE)
ARM = re.compile(r"\b([A-Za-z0-9]+)::([A-Za-z0-9]+) => (-?\d+),")
ARM_BACK = re.compile(r"(-?\d+) => Some\(([A-Za-z0-9]+)::([A-Za-z0-9]+)\)")

# A crate and a module of it, and the letters of a name with neither case nor hyphens nor underscores.
Key = tuple[str, str, str]


def letters(*names: str) -> str:
    """Names as the letters and figures that ASN.1's and Rattle's spelling have in common."""
    return re.sub(r"[^a-z0-9]", "", "".join(names).lower())


def modules() -> Iterator[tuple[str, str, str]]:
    """The crates and modules of `modules.txt`, with the text of each, without comments."""
    for entry in entries_of(WRITTEN / "modules.txt"):
        if entry.module:
            yield entry.crate, entry.module, COMMENT.sub(" ", entry.file.read_text(encoding="utf-8"))


def named_in_text() -> dict[Key, tuple[str, int]]:
    """The named numbers and bits of the text: the name of the type, or of the type and the component, and the name."""
    found: dict[Key, tuple[str, int]] = {}
    for crate, module, text in modules():
        for one in NAMED.finditer(text):
            assigned, component, kind, listed = one.groups()
            outer = assigned or ASSIGNED.findall(text[: one.start()])[-1] + component
            for name, number in ONE.findall(listed):
                found[crate, module, letters(outer, name)] = (kind, int(number))
    return found


def sources() -> Iterator[tuple[str, str, str]]:
    """The crates and modules, with the text of each written source."""
    for crate, module, _ in modules():
        for file in sorted((CRATES / crate / "src" / module).glob("*.rt")):
            yield crate, module, file.read_text(encoding="utf-8")


class NamedNumbers(unittest.TestCase):
    def test_each_constant_has_the_number_that_stands_in_the_text(self) -> None:
        found: dict[Key, tuple[str, int]] = {}
        for crate, module, text in sources():
            for name, type_, number in NUMBER.findall(text):
                kind = "BIT STRING" if type_ == "usize" else "INTEGER"
                found[crate, module, letters(name)] = (kind, int(number))
        self.assertEqual(found, named_in_text())
        self.assertGreaterEqual(len(found), 54)

    def test_each_alternative_of_an_enumeration_has_the_number_that_stands_in_the_text(self) -> None:
        expected: dict[Key, int] = {}
        for crate, module, text in modules():
            for type_, listed in ENUMERATED.findall(text):
                expected.update({(crate, module, letters(type_, name)): int(n) for name, n in ONE.findall(listed)})
        found: dict[Key, int] = {}
        back: dict[Key, int] = {}
        for crate, module, text in sources():
            found.update({(crate, module, letters(type_, name)): int(n) for type_, name, n in ARM.findall(text)})
            back.update({(crate, module, letters(type_, name)): int(n) for n, type_, name in ARM_BACK.findall(text)})
        self.assertEqual(found, expected)
        self.assertEqual(back, expected)
        self.assertGreaterEqual(len(found), 16)


class Identifiers(unittest.TestCase):
    def test_each_constant_has_the_arcs_that_stand_in_the_text(self) -> None:
        ours = library(WRITTEN)
        expected: dict[Key, tuple[int, ...]] = {}
        for crate, module, text in modules():
            name = text.split()[0]
            for value, found in ours.modules[name].assignments.items():
                if found[0] != "::=":
                    expected[crate, module, letters(value)] = ours.arcs(name, found[found.index("::=") + 1 :])
        written: dict[Key, tuple[int, ...]] = {}
        for crate, module, text in sources():
            for name, count, octets in OCTETS.findall(text):
                values = [int(one, 16) for one in octets.replace(",", " ").split()]
                self.assertEqual(len(values), int(count), name)
                written[crate, module, letters(name)] = arcs_of(values)
        self.assertEqual(written, expected)
        self.assertGreaterEqual(len(written), 177)


def arcs_of(octets: list[int]) -> tuple[int, ...]:
    """The arcs of contents octets (X.690 8.19): seven bits an octet, the last of an arc with the eighth bit 0."""
    numbers, number = [], 0
    for octet in octets:
        number = number * 128 + octet % 128
        if octet < 128:
            numbers.append(number)
            number = 0
    first = min(numbers[0] // 40, 2)
    return (first, numbers[0] - 40 * first, *numbers[1:])
