"""The table of the structs that calls which check take and write."""

from __future__ import annotations

import re
from dataclasses import dataclass

from .lines import Line, lines_of
from .reading import blocks, check_layout
from .structs import SIZES, Field

CALLS = ("check_path", "list_status", "revocation_status", "ocsp_status")
HEAD = re.compile(r"^([a-z][a-z0-9_]*): ([A-Z][A-Za-z0-9]*) \| (.+)$")
FIELD = re.compile(r"^([a-z][a-z0-9_]*)(?:=([a-z][a-z0-9_]*))? (place|u32|u64) (.+)$")


@dataclass(frozen=True)
class Check:
    """A struct that a call takes or writes."""

    call: str  # in C without der_
    name: str  # in C without der_
    type: str  # of der_c and of rust/der-proved-sys
    sentence: str  # what it is; no full stop
    fields: tuple[Field, ...]

    @property
    def size(self) -> int:
        return sum(SIZES[field.type] for field in self.fields)


def checks_of(file: str, text: str) -> list[Check]:
    """The structs of a table; no two have one name."""
    found: list[Check] = []
    for call, structs in blocks(lines_of(file, text), 0):
        if call.text not in CALLS or call.text in [other.call for other in found]:
            raise call.error(f"one of {', '.join(CALLS)} stands here, each once")
        found += [check_of(call.text, head, lines) for head, lines in blocks(structs, 1)]
        if len({check.name for check in found}) != len(found):
            raise call.error(f"{call.text}: two structs have one name")
    return found


def check_of(call: str, head: Line, lines: list[Line]) -> Check:
    """The struct of some lines."""
    read = HEAD.match(head.text)
    if not read:
        raise head.error("a struct begins with 'NAME: STRUCT | what it is'")
    check = Check(call, *read.groups(), tuple(field_of(line) for line, _ in blocks(lines, 2)))
    names = [field.name for field in check.fields]
    for is_wrong, problem in [(not names, "it has no fields"), (len(set(names)) != len(names), "two fields have one name")]:
        if is_wrong:
            raise head.error(f"{check.name}: {problem}")
    check_layout(head, check.name, check.fields)
    return check


def field_of(line: Line) -> Field:
    read = FIELD.match(line.text)
    if not read:
        raise line.error("a field has a name in C, a type (place, u32 or u64) and a phrase")
    if read[4].endswith("."):
        raise line.error("a phrase has no full stop")
    return Field(read[1], read[2] or re.sub("_seconds$", "", read[1]), read[3], "", read[4])


def of_call(checks: list[Check], call: str) -> list[Check]:
    return [check for check in checks if check.call == call]
