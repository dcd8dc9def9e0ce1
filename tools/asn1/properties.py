"""What follows from a type: the tags that its encodings begin with, and what is known of its values."""

from __future__ import annotations

from dataclasses import dataclass

from .model import (
    Alias,
    Choice,
    Definition,
    Enumeration,
    Leaf,
    List,
    Listed,
    NameOf,
    Resolved,
    Struct,
    Tag,
    Tagged,
    Use,
    Whole,
)
from .syntax import Simple, TagClass

# ---- tags


UNIVERSAL_TAGS = {
    Whole.BOOLEAN: 1,
    Whole.MACHINE_INTEGER: 2,
    Whole.INTEGER: 2,
    Whole.NATURAL: 2,
    Whole.BIT_STRING: 3,
    Whole.NAMED_BITS: 3,
    Whole.OCTET_STRING: 4,
    Whole.NULL: 5,
    Whole.OBJECT_IDENTIFIER: 6,
    Whole.UTF8_STRING: 12,
    Whole.RELATIVE_OID: 13,
    Whole.UNREAD_SEQUENCE: 16,
    Whole.NUMERIC_STRING: 18,
    Whole.PRINTABLE_STRING: 19,
    Whole.TELETEX_STRING: 20,
    Whole.VIDEOTEX_STRING: 21,
    Whole.IA5_STRING: 22,
    Whole.UTC_TIME: 23,
    Whole.GENERALIZED_TIME: 24,
    Whole.FRACTIONAL_TIME: 24,
    Whole.VISIBLE_STRING: 26,
    Whole.GENERAL_STRING: 27,
    Whole.BMP_STRING: 30,
}
SEQUENCE = Tag(TagClass.UNIVERSAL.value, 16)
SET = Tag(TagClass.UNIVERSAL.value, 17)
ENUMERATED = Tag(TagClass.UNIVERSAL.value, 10)

# The types of X.680 that a Leaf can be.
WHOLES = {simple: Whole[simple.name] for simple in Simple if simple.name in Whole.__members__}


def tags_of(type_: Resolved) -> frozenset[Tag] | None:
    """The tags that the encodings of a type begin with; None where that is any tag."""
    if isinstance(type_, Leaf):
        return None if type_.whole is Whole.ANY else frozenset([Tag(0, UNIVERSAL_TAGS[type_.whole])])
    if isinstance(type_, Tagged):
        return frozenset([type_.tag])
    if isinstance(type_, Listed):
        return frozenset([SET if type_.is_set else SEQUENCE])
    assert isinstance(type_, Use)
    return tags_of_definition(type_.definition)


def tags_of_definition(definition: Definition) -> frozenset[Tag] | None:
    """The same of a definition."""
    if isinstance(definition, Alias):
        assert definition.type is not None
        return tags_of(definition.type)
    if isinstance(definition, Choice):
        found: set[Tag] = set()
        for alternative in definition.alternatives:
            tags = tags_of(alternative.type)
            if tags is None:
                return None
            found |= tags
        return frozenset(found)
    if isinstance(definition, (Struct, List)):
        return frozenset([definition.tag or (SET if definition.is_set else SEQUENCE)])
    assert isinstance(definition, Enumeration)
    return frozenset([definition.tag or ENUMERATED])


def is_constructed(type_: Resolved) -> bool:
    """Whether the encodings of a type have the bit of a constructed one (X.690 8.1.2.5)."""
    if isinstance(type_, Leaf):
        return type_.whole is Whole.UNREAD_SEQUENCE
    if isinstance(type_, Tagged):
        return type_.is_explicit or is_constructed(type_.of)
    if isinstance(type_, Use) and isinstance(type_.definition, Alias):
        assert type_.definition.type is not None
        return is_constructed(type_.definition.type)
    return isinstance(type_, Listed) or (isinstance(type_, Use) and isinstance(type_.definition, (Struct, List)))


def identifier_octet(type_: Resolved) -> int | None:
    """The first octet of the encodings of a type (X.690 8.1.2); None where there is more than one such."""
    tags = tags_of(type_)
    if tags is None or len(tags) != 1:
        return None
    (tag,) = tags
    return tag.tag_class << 6 | is_constructed(type_) << 5 | min(tag.number, 31)


# ---- names and tags before a type


def named_type(type_: Resolved) -> Resolved:
    """A type after second names."""
    while isinstance(type_, Use) and isinstance(type_.definition, Alias):
        assert type_.definition.type is not None
        type_ = type_.definition.type
    return type_


def behind_explicit(type_: Resolved) -> Resolved:
    """A type after the explicit tags before it, by whatever names."""
    type_ = named_type(type_)
    while isinstance(type_, Tagged) and type_.is_explicit:
        type_ = named_type(type_.of)
    return type_


def behind_tags(type_: Resolved) -> Resolved:
    """A type after all tags before it, by whatever names."""
    type_ = named_type(type_)
    while isinstance(type_, Tagged):
        type_ = named_type(type_.of)
    return type_


# ---- properties


# The types whose values never borrow.
OWNED = frozenset(
    [
        Whole.BOOLEAN,
        Whole.NULL,
        Whole.MACHINE_INTEGER,
        Whole.UTC_TIME,
        Whole.GENERALIZED_TIME,
        Whole.BMP_STRING,
    ]
)


@dataclass(frozen=True)
class Properties:
    """What is known of a type's values."""

    borrows: bool  # it has a lifetime
    takes_memory: bool  # reading takes memory
    is_copy: bool

    def __add__(self, other: "Properties") -> "Properties":
        return Properties(
            self.borrows or other.borrows, self.takes_memory or other.takes_memory, self.is_copy and other.is_copy
        )


NOTHING = Properties(borrows=False, takes_memory=False, is_copy=True)
ADDITIONS = Properties(borrows=True, takes_memory=False, is_copy=True)


def properties_of(type_: Resolved) -> Properties:
    """What is known of the values of a type."""
    if isinstance(type_, Leaf):
        takes = type_.whole is Whole.BMP_STRING or (type_.is_owned and type_.whole is not Whole.OBJECT_IDENTIFIER)
        borrows = not type_.is_owned and type_.whole not in OWNED
        return Properties(borrows, takes, not takes)
    if isinstance(type_, Listed):
        return Properties(True, properties_of(type_.item).takes_memory, True)
    if isinstance(type_, Tagged):
        return properties_of(type_.of)
    if isinstance(type_, NameOf):
        return NOTHING
    return properties_of_definition(type_.definition)


def properties_of_definition(definition: Definition) -> Properties:
    """The same of a definition."""
    if isinstance(definition, Alias):
        assert definition.type is not None
        return properties_of(definition.type)
    if isinstance(definition, List):
        return properties_of(definition.listed)
    found = NOTHING
    if isinstance(definition, Struct):
        found = ADDITIONS if definition.has_additions else NOTHING
        for part in definition.fields:
            found += properties_of(part.type)
    if isinstance(definition, Choice):
        for part in definition.alternatives:
            found += properties_of(part.type)
    return found
