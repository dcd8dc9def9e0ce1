"""The calls that write messages, of the table of structs: which fields of a struct each takes, and how."""

from __future__ import annotations

import re
from dataclasses import dataclass

from .lines import Line
from .structs import Field, Part, Struct, Writing

HEAD = re.compile(r"^([a-z][a-z0-9_]*)(?: = ([A-Z][\w-]+) \((RFC [^()|]+)\) \| ([^|]+))?$")
PART = re.compile(r"^([a-zA-Z]\w*) (optional )?(field|items|set|version|moment|flag|number)((?: [0-9a-f]{2})*)$")
# the types of the fields that are taken so
TYPES = {
    "field": ["place"], "items": ["place"], "set": ["place"], "version": ["u64"], "moment": ["u64"], "flag": ["u32"], "number": ["i64", "u64"],
}


@dataclass(frozen=True)
class Said:
    """A call as its lines say it, before the fields of the struct are known."""

    line: Line
    parts: tuple[tuple[Line, re.Match[str]], ...]


def said_of(line: Line, lines: list[Line]) -> Said:
    """The line `writes:`, and the lines below it."""
    parts = []
    for it in lines:
        read = PART.match(it.text)
        if not read or bool(read[4]) != (read[3] in ("items", "set")):
            raise it.error("a field that is written has its name, how it is taken, and the identifier octets of items")
        parts.append((it, read))
    if not parts:
        raise line.error("'writes:' has the fields that the call takes")
    return Said(line, tuple(parts))


def writing_of(said: Said, struct: Struct) -> Writing:
    """The call, with the fields of its struct."""
    read = HEAD.match(said.line.text.removeprefix("writes:").strip())
    if not read or (read[2] is None) != (read[1] == struct.name):
        raise said.line.error("'writes:' has NAME = TYPE (STANDARD) | what it is, or the name of the struct alone")
    parts = tuple(part_of(line, it, struct) for line, it in said.parts)
    if len({part.field.name for part in parts}) != len(parts):
        raise said.line.error(f"{read[1]}: a field is written twice")
    if read[2] is None:
        return Writing(struct.name, struct.type, struct.standard, struct.noun, struct.name, parts)
    return Writing(read[1], read[2], read[3], read[4], struct.name, parts)


def part_of(line: Line, read: re.Match[str], struct: Struct) -> Part:
    found = [field for field in struct.fields if read[1] == (field.name_elsewhere if field.is_place else field.name)]
    if len(found) != 1:
        raise line.error(f"{struct.name} has no field {read[1]}")
    if found[0].type not in TYPES[read[3]]:
        raise line.error(f"{read[1]} is not taken as {read[3]}")
    if read[2] and read[3] in ("flag", "number", "version"):
        raise line.error(f"{read[1]} is always there")
    return Part(found[0], within_of(found[0], struct), read[2] is not None, read[3], tuple(int(it, 16) for it in read[4].split()))


def within_of(field: Field, struct: Struct) -> str:
    """The field of the message that has the field; '' of the message itself, and of numbers."""
    return next(group.within for group in struct.groups if field in group.fields)
