"""The markers of tags: the type that stands for the one tag of a type."""

from __future__ import annotations

from ..model import (
    Alias,
    Enumeration,
    Leaf,
    List,
    Listed,
    Resolved,
    Struct,
    Tag,
    Tagged,
    Use,
    Whole,
)
from .source import Source
from .types import CHARACTERS, tagging

MARKERS = {
    Whole.BOOLEAN: "BooleanTag",
    Whole.NULL: "NullTag",
    Whole.MACHINE_INTEGER: "IntegerTag",
    Whole.INTEGER: "IntegerTag",
    Whole.NATURAL: "IntegerTag",
    Whole.BIT_STRING: "BitStringTag",
    Whole.NAMED_BITS: "BitStringTag",
    Whole.OCTET_STRING: "OctetStringTag",
    Whole.OBJECT_IDENTIFIER: "ObjectIdentifierTag",
    Whole.UTC_TIME: "UtcTimeTag",
    Whole.GENERALIZED_TIME: "GeneralizedTimeTag",
    Whole.FRACTIONAL_TIME: "GeneralizedTimeTag",
    Whole.UTF8_STRING: "Utf8StringTag",
    Whole.RELATIVE_OID: "RelativeOidTag",
    Whole.GENERAL_STRING: "GeneralStringTag",
    Whole.BMP_STRING: "BmpStringTag",
    Whole.UNREAD_SEQUENCE: "SequenceTag",
}


def of_definition(source: Source, definition: Struct | List | Enumeration) -> str:
    """The marker of a type that is written: its own tag's, or another in its place."""
    if isinstance(definition, Struct) and definition.is_holder:
        assert definition.tag is not None
        return explicit(source, definition.tag)
    if isinstance(definition, Enumeration):
        own = source.use("EnumeratedTag")
    else:
        own = source.use("SetTag" if definition.is_set else "SequenceTag")
    return own if definition.tag is None else implicit(source, own, definition.tag)


def implicit(source: Source, own: str, tag: Tag) -> str:
    return f"{source.use(tagging(tag, False) + 'Tag')}<{own}, {tag.number}>"


def explicit(source: Source, tag: Tag) -> str:
    return f"{source.use(tagging(tag, True) + 'Tag')}<{tag.number}>"


def of_type(source: Source, type_: Resolved) -> str:
    """The marker of a type with one tag."""
    if isinstance(type_, Leaf):
        if type_.whole in CHARACTERS:
            kind, number = CHARACTERS[type_.whole]
            return f"{source.use(kind + 'Tag')}<{number}>"
        return source.use(MARKERS[type_.whole])
    if isinstance(type_, Listed):
        return source.use("SetTag" if type_.is_set else "SequenceTag")
    if isinstance(type_, Tagged):
        if type_.is_explicit:
            return explicit(source, type_.tag)
        return implicit(source, of_type(source, type_.of), type_.tag)
    assert isinstance(type_, Use)
    definition = type_.definition
    if isinstance(definition, Alias):
        assert definition.type is not None
        return of_type(source, definition.type)
    assert isinstance(definition, (Struct, List, Enumeration))
    return of_definition(source, definition)
