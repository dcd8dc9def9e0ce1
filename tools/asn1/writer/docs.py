"""Documentation: the text of ASN.1, and what is not checked of it."""

from __future__ import annotations

import textwrap

from ..model import Choice, Definition, Struct
from ..properties import properties_of_definition

WIDTH = 100


def doc(*paragraphs: str, indent: str = "") -> str:
    """A `///` comment of these paragraphs, filled."""
    lines: list[str] = []
    for paragraph in paragraphs:
        lines += [""] if lines else []
        lines += textwrap.wrap(paragraph, WIDTH - len(indent) - 4, break_on_hyphens=False, break_long_words=False)
    return "\n".join(f"{indent}///{' ' if line else ''}{line}" for line in lines)


def asn1(text: str) -> str:
    """A `///` comment that quotes a text of ASN.1."""
    lines = ["```text", *text.split("\n"), "```"]
    return "\n".join(f"///{' ' if line else ''}{line}" for line in lines)


def of_definition(definition: Definition, *more: str) -> str:
    """The documentation of a type: its text, what else is to be said, and what the resolver said of it."""
    inner = doc(inner_words(definition))
    parts = [asn1(definition.text) if definition.text else inner]
    parts += [doc(text) for text in more]
    parts += [doc(sentence) for sentence in definition.remarks]
    return "\n///\n".join(parts)


def inner_words(definition: Definition) -> str:
    """What a type is that no assignment has."""
    if isinstance(definition, Choice) and definition.is_half:
        return f"{definition.name[0].upper()}{definition.name[1:]}, as one of which a value is read."
    if isinstance(definition, Struct) and definition.is_holder:
        return f"`{definition.name}`, as which a field is read and written."
    return f"A type that is written out within another, as `{definition.name}`."


def errors(definition: Definition) -> str:
    """What reading and writing refuse."""
    takes = properties_of_definition(definition).takes_memory
    memory = "; `ErrorKind::Memory` (1) where memory runs out" if takes else ""
    return f"Reading refuses the first fault of the octets, in their order{memory}."
