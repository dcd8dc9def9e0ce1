"""Reads the table of structs."""

from __future__ import annotations

import re
from collections.abc import Iterable, Sequence
from dataclasses import replace

from asn1.spelling import snake

from .lines import Line, lines_of
from .structs import ACCESS, SIZES, Field, Group, Next, Struct
from .writings import Said, said_of, writing_of

HEAD = re.compile(r"^([a-z][a-z0-9_]*): ([A-Z][\w-]+) \((RFC [^()|]+)\) \| ([^|]+)$")
FILE = re.compile(r"^[a-z_]+$")
KEY = re.compile(r"^([a-z_]+):(?: (.*))?$")
PLACE = re.compile(rf"^([a-z][A-Za-z0-9]*) ({'|'.join(ACCESS)}) (.+)$")
NUMBER = re.compile(r"^([a-z][a-z0-9_]*)(?:=([a-z][a-z0-9_]*))? (u32|u64|i64) (.+)$")
NEXT = re.compile(r"^(?:written; (.+)|by hand (der_next_\w+))$")
WORDS = ("file", "secret", "reads", "next", "note", "results")


def structs_of(file: str, text: str) -> list[Struct]:
    """The structs of a table; no two have one name."""
    found: list[Struct] = []
    for head, lines in blocks(lines_of(file, text), 0):
        struct = struct_of(head, lines)
        if struct.name in [other.name for other in found]:
            raise head.error(f"another struct has the name {struct.name}")
        found.append(struct)
        names = names_of_writings(found)
        if len(set(names)) != len(names):
            raise head.error(f"{struct.name}: another call that writes has this name")
    return found


def names_of_writings(found: list[Struct]) -> list[str]:
    return [writing.name for struct in found for writing in struct.writings]


def blocks(lines: list[Line], depth: int) -> Iterable[tuple[Line, list[Line]]]:
    """Each line of this depth, with the deeper ones that follow it."""
    if lines and lines[0].depth != depth:
        raise lines[0].error("this line belongs to none before it")
    starts = [at for at, line in enumerate(lines) if line.depth <= depth]
    for start, end in zip(starts, [*starts[1:], len(lines)]):
        yield lines[start], lines[start + 1 : end]


def struct_of(head: Line, lines: list[Line]) -> Struct:
    read = HEAD.match(head.text)
    if not read:
        raise head.error("a struct begins with 'NAME: TYPE (STANDARD) | what it is'")
    said: dict[str, list[str]] = {word: [] for word in WORDS}
    groups = []
    written: list[Said] = []
    for line, deeper in blocks(lines, 1):
        key = KEY.match(line.text)
        if not key:
            raise line.error("a word and a colon stand here")
        if key[1] == "writes":
            written.append(said_of(line, deeper))
        elif key[1] not in said:
            groups.append(group_of(line, key[1], key[2] or "", deeper))
        elif deeper or not key[2]:
            raise line.error(f"'{key[1]}:' has a text, and no fields")
        else:
            said[key[1]].append(key[2])
    struct = Struct(
        *read.groups(), " ".join(said["file"]), said["secret"] == ["yes"], said["reads"] == ["front"], next_of(head, read[1], said),
        tuple(said["note"]), "; ".join(said["results"]), tuple(groups),
    )
    check_struct(head, struct, said["reads"])
    return replace(struct, writings=tuple(writing_of(it, struct) for it in written))


def next_of(head: Line, name: str, said: dict[str, list[str]]) -> Next | None:
    """What the line `next:` says."""
    if not said["next"]:
        return None
    read = NEXT.match(said["next"][0])
    if not read or len(said["next"]) > 1:
        raise head.error("'next:' says 'written; ' and what is left at first, or 'by hand ' and the name of the call")
    return Next(read[2] or f"der_next_{name}", read[2] is None, read[1] or "")


def group_of(line: Line, member: str, text: str, lines: list[Line]) -> Group:
    type_, _, within = text.partition(", ")
    if (member == "numbers") != (text == ""):
        raise line.error("a member has a type of der_c or der_places, and 'numbers' has none")
    read = number_of if member == "numbers" else place_of
    fields = tuple(read(it) for it, _ in blocks(lines, 2))
    if not fields:
        raise line.error(f"{member} has no fields")
    if any(field.phrase.endswith(".") for field in fields):
        raise line.error("a phrase has no full stop")
    return Group(member, type_, within, fields)


def place_of(line: Line) -> Field:
    """A field that is a place. Its name in C is the one that tools/asn1 gives the field."""
    read = PLACE.match(line.text)
    if not read:
        raise line.error("a field has a name in ASN.1, 'field', 'optional' or 'place', and a phrase")
    return Field(snake(read[1]).rstrip("_"), read[1], "place", read[2], read[3])


def number_of(line: Line) -> Field:
    read = NUMBER.match(line.text)
    if not read:
        raise line.error("a number has a name in C, a type (u32, u64 or i64) and a phrase")
    return Field(read[1], read[2] or re.sub("_(number|seconds)$", "", read[1]), read[3], "", read[4])


def check_struct(head: Line, struct: Struct, reads: list[str]) -> None:
    """What a struct must have, so that its parts can be written."""
    names = [field.name for field in struct.fields]
    whole = [group.type == "Place" for group in struct.groups]
    wrong = [
        (reads not in (["all"], ["front"]), "'reads:' says all or front"),
        (not FILE.match(struct.file), "'file:' names the file of the packages, without its ending"),
        (len(set(names)) != len(names), "two fields have one name"),
        (not struct.places, "it has no places"),
        (any(group.member == "numbers" for group in struct.groups[:-1]), "numbers stand after the places"),
        (whole != [struct.is_front, *[False] * (len(whole) - 1)], "the place 'whole' stands first, at the front alone"),
        (struct.is_front and struct.next is None, "'next:' is said of those at the front"),
        (not struct.is_front and struct.next is not None and not struct.next.is_written, "'next:' by hand is of those at the front"),
        (struct.is_secret and not struct.is_inner, "'secret:' is said of 'inner' alone"),
        (struct.is_inner and (struct.is_front or struct.numbers), "'inner' has messages that are all octets, without numbers"),
        (bool(struct.numbers) != bool(struct.results), "'results:' says what the numbers are"),
    ]
    for is_wrong, problem in wrong:
        if is_wrong:
            raise head.error(f"{struct.name}: {problem}")
    check_layout(head, struct.name, struct.fields)


def check_layout(head: Line, name: str, fields: Sequence[Field]) -> None:
    """No compiler leaves a gap between two fields, or after the last one."""
    offset = 0
    for field in fields:
        if offset % alignment(field):
            raise head.error(f"{name}: there is a gap before {field.name}")
        offset += SIZES[field.type]
    if offset % max(alignment(field) for field in fields):
        raise head.error(f"{name}: there is a gap after the last field")


def alignment(field: Field) -> int:
    return 4 if field.is_place else SIZES[field.type]
