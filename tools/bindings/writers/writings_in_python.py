"""What Python has of the calls that write messages: in C a line of each, and in Python a function."""

from __future__ import annotations

from ..names import capital, with_article
from ..tables.structs import Part, Struct, Writing
from ..wrapping import WIDTH, wrapped
from .structs_in_python import is_widened, macro

TYPES = {"field": "Octets", "items": "Iterable[Octets]", "set": "Iterable[Octets]", "version": "int", "moment": "datetime", "flag": "bool", "number": "int"}
ORDER = {"items": "in this order", "set": "in any order"}
FUNCTIONS = {"items": "items", "set": "set_"}  # of _writing.py


def calls(found: list[Struct]) -> list[str]:
    """The macros that have a line for each call: its name, the struct, and how many places and numbers that has."""
    plain = [line for struct in found if not is_widened(struct) for line in lines_of(struct)]
    widened = [line for struct in found if is_widened(struct) for line in lines_of(struct)]
    return macro("#define MESSAGES_BUT_WIDENED(A)", plain) + macro("#define MESSAGES(A)", ["MESSAGES_BUT_WIDENED(A)", *widened])


def lines_of(struct: Struct) -> list[str]:
    return [f"A({writing.name}, {struct.name}, {len(struct.places)}, {len(struct.numbers)})" for writing in struct.writings]


def messages(found: list[Struct]) -> list[str]:
    written = [(struct, writing) for struct in found for writing in struct.writings]
    lines = ["__all__ = [", *[f'    "write_{name}",' for name in sorted(writing.name for _, writing in written)], "]"]
    for struct, writing in written:
        lines += ["", "", *function(struct, writing)]
    return lines


def function(struct: Struct, writing: Writing) -> list[str]:
    lines = [f"def write_{writing.name}(", "    *,", *[f"    {parameter(part)}," for part in writing.parts], ") -> bytes:"]
    lines += [f'    """{capital(with_article(writing.noun))} ({writing.type}, {writing.standard}).', ""]
    for part in writing.parts:
        first, *rest = wrapped(f"{part.name}: {described(part)}.", WIDTH - 8)
        lines += [f"    {first}", *[f"        {line}" for line in rest]]
    lines += ['    """']
    taken = {part.field.name: part for part in writing.parts}
    for name, of in (("fields", struct.places), ("numbers", struct.numbers)):
        values = [value(taken[field.name]) if field.name in taken else ("None" if field.is_place else "0") for field in of]
        lines += assignment(name, values)
    return [*lines, f'    return written("{writing.name}", fields, numbers)']


def assignment(name: str, values: list[str]) -> list[str]:
    """A tuple, in one line or with a line a value."""
    line = f"    {name} = ({', '.join(values)}{',' if len(values) == 1 else ''})"
    return [line] if len(line) <= WIDTH else [f"    {name} = (", *[f"        {it}," for it in values], "    )"]


def parameter(part: Part) -> str:
    if not part.is_optional:
        return f"{part.name}: {TYPES[part.kind]}"
    if part.kind in ORDER:
        return f"{part.name}: {TYPES[part.kind]} = ()"
    return f"{part.name}: {TYPES[part.kind]} | None = None"


def described(part: Part) -> str:
    name = part.name_in_asn1
    if part.kind in ORDER:
        absent = "; absent if there are none" if part.is_optional else ""
        return f"`{name}`, the encodings of its items, {ORDER[part.kind]}{absent}"
    if part.kind == "field":
        return f"`{name}`, {part.field.phrase}"
    return {
        "version": f"`{name}`: 1 for v1, 2 for v2 and so on",
        "moment": f"`{name}`, with a time zone; a fraction of a second is left out",
        "flag": "`critical`",
        "number": f"`{name}`: {part.field.phrase}",
    }[part.kind]


def value(part: Part) -> str:
    it = part.name
    if part.kind in ORDER:
        within = ", ".join(f"0x{number:02X}" for number in part.identifiers)
        return f"{'optional_' if part.is_optional else ''}{FUNCTIONS[part.kind]}({it}, {within})"
    if part.kind == "moment":
        return f"{'optional_' if part.is_optional else ''}seconds({it})"
    return {"field": it, "version": f"{it} - 1", "flag": it, "number": it}[part.kind]
