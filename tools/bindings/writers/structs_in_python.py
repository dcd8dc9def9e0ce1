"""What the package for Python has of each struct: in C its kind, and in Python the index of each field."""

from __future__ import annotations

from ..names import camel, struct_in_c
from ..tables.structs import Struct
from ..wrapping import WIDTH, wrapped


def members(found: list[Struct]) -> list[str]:
    """The members of the union `told`."""
    return [f"    {type_of(struct)} {struct.name};" for struct in found]


def type_of(struct: Struct) -> str:
    """The struct that the module keeps: that of der.h, or one of the module whose numbers have 64 bits."""
    return f"{struct.name}_told" if is_widened(struct) else struct_in_c(struct)


def is_widened(struct: Struct) -> bool:
    return any(field.type == "u32" for field in struct.fields)


def kinds(found: list[Struct]) -> list[str]:
    """The macros that have a line for each kind of messages."""
    plain = [kind(struct) for struct in found if not is_widened(struct)]
    widened = [kind(struct) for struct in found if is_widened(struct)]
    return macro("#define ALL_BUT_WIDENED(A)", plain) + macro("#define ALL(A)", ["ALL_BUT_WIDENED(A)", *widened])


def kind(struct: Struct) -> str:
    is_all = "false" if struct.is_front else "true"
    return f"A({struct.name}, {camel(struct.name)}, {len(struct.places)}, {len(struct.numbers)}, {is_all})"


def macro(head: str, lines: list[str]) -> list[str]:
    """A macro of several lines, each but the last with a backslash in one column."""
    whole = [head, *[f"    {line}" for line in lines]]
    column = max(len(line) for line in whole) + 1
    return [f"{line.ljust(column)}\\" for line in whole[:-1]] + whole[-1:]


def classes(found: list[Struct]) -> list[str]:
    """The classes of the module in C, for type checkers."""
    return [f"class {camel(struct.name)}(Message): ..." for struct in found]


def indices(found: list[Struct]) -> list[str]:
    """A line for each struct, with the names of its places and of its numbers in their order."""
    lines = []
    for struct in found:
        texts = [" ".join(field.name for field in fields) for fields in (struct.places, struct.numbers) if fields]
        head = f"{camel(struct.name)} = _indices("
        line = f"{head}{', '.join(map(quoted, texts))})"
        lines += [line] if len(line) <= WIDTH else [head, *[it for text in texts for it in argument(text)], ")"]
    return lines


def quoted(text: str) -> str:
    return f'"{text}"'


def argument(text: str) -> list[str]:
    """A text as an argument, in as many lines as it takes."""
    lines = wrapped(text, WIDTH - 8)
    return [*[f"    {quoted(line + ' ')}" for line in lines[:-1]], f"    {quoted(lines[-1])},"]
