"""A default on the page of the grammar: its encoding, from the tree of the module alone, so that another default in the code
is one that the prover refuses.

The resolver's types say one thing alone: whether an INTEGER's contents octets are those of a number that may be negative.
"""

from __future__ import annotations

import re
from dataclasses import dataclass

from .. import as_written
from ..as_written import Part, given_number, universal
from ..model import Field, Leaf, Resolved, Struct, Choice, Use, Whole
from ..parser.values import bit_names, component_values
from ..properties import behind_tags
from ..resolver.classes import follow, is_parameter, is_untagged_choice, meant
from ..scope import Env, Library
from ..syntax import (
    BitsValue,
    BitStringType,
    BooleanValue,
    BracedValue,
    ChoiceType,
    ChosenValue,
    ConstrainedType,
    EnumeratedType,
    FieldOfClass,
    FieldsType,
    IntegerType,
    NamedNumber,
    NullValue,
    ReferenceType,
    ReferenceValue,
    SelectionType,
    Simple,
    SimpleType,
    TagClass,
    TaggedType,
    TextValue,
    Type,
    Value,
)
from ..values import arcs_of, assigned_value, number_of
from .names import ASN1, TAGS
from .source import Page

CLASSES = {TagClass.APPLICATION: "application", TagClass.CONTEXT: "context", TagClass.PRIVATE: "private"}
Terms = tuple[str, str]  # the tag, and the contents octets


@dataclass(frozen=True)
class Given:
    """A value, and the names that it is understood by."""

    env: Env
    value: Value


class DefaultTerms:
    """The encodings of defaults, as terms of a page."""

    def __init__(self, page: Page, library: Library) -> None:
        self.page = page
        self.library = library

    def default(self, part: Part, resolved: Resolved) -> str:
        """The encoding of a component's default."""
        assert part.component.default is not None
        return self.encoding(self.component(part, resolved, Given(part.env, part.component.default)))

    def encoding(self, terms: Terms) -> str:
        return f"{self.page.word('tlv')} {' '.join(terms)}"

    def component(self, part: Part, resolved: Resolved, given: Given) -> Terms:
        """A value of a component, with its automatic tag if the module gives it one (25.7, 29.2)."""
        terms = self.value(part.env, part.component.type, resolved, given)
        if part.number is None:
            return terms
        type_ = part.component.type
        is_explicit = is_untagged_choice(self.library, part.env, type_) or is_parameter(part.env, type_)
        return self.behind_tag("context", part.number, is_explicit, terms)

    def value(self, env: Env, type_: Type, resolved: Resolved, given: Given) -> Terms:
        """A value of a type, with its tags."""
        if isinstance(type_, ConstrainedType):
            return self.value(env, type_.type, resolved, given)
        if isinstance(type_, ReferenceType):
            return self.value(*follow(self.library, env, type_), resolved, given)
        if isinstance(type_, (FieldOfClass, SelectionType)):
            return self.value(*meant(self.library, env, type_), resolved, given)
        if isinstance(type_, TaggedType):
            return self.tagged(env, type_, resolved, given)
        given = Given(*assigned_value(self.library, given.env, given.value, own_names(type_)))
        if isinstance(type_, ChoiceType):
            return self.alternative(env, type_, resolved, given)
        self.page.word("tags")
        return f"tags.{TAGS[universal(type_)]}", self.contents(env, type_, resolved, given)

    # ---- tags

    def tagged(self, env: Env, type_: TaggedType, resolved: Resolved, given: Given) -> Terms:
        """A value after a tag that is written."""
        number = type_.number if isinstance(type_.number, int) else number_of(self.library, env, type_.number)
        is_before_choice = type_.mode is None and is_untagged_choice(self.library, env, type_.type)
        is_explicit = is_before_choice or as_written.is_explicit(env, type_)
        return self.behind_tag(CLASSES[type_.tag_class], number, is_explicit, self.value(env, type_.type, resolved, given))

    def behind_tag(self, tag_class: str, number: int, is_explicit: bool, terms: Terms) -> Terms:
        tag, contents = terms
        word = self.page.from_module(ASN1, tag_class)
        constructed = self.page.word("true") if is_explicit else f"({self.page.word('is_constructed')} {tag})"
        inner = f"({self.page.word('tlv')} {tag} {contents})" if is_explicit else contents
        return f"({self.page.word('marker_tag')} {word} {constructed} {number})", inner

    # ---- contents octets

    def contents(self, env: Env, type_: Type, resolved: Resolved, given: Given) -> str:
        """The contents octets of a value of a type that is written out."""
        value = given.value
        if isinstance(type_, FieldsType):
            assert isinstance(value, BracedValue)
            return self.fields(env, type_, resolved, Given(given.env, value))
        if isinstance(type_, EnumeratedType):
            assert isinstance(value, ReferenceValue)
            return self.number(dict(as_written.enumeration(self.library, env, type_))[value.name], True)
        if isinstance(type_, IntegerType):
            return self.number(self.integer(env, type_, given), is_signed(resolved))
        if isinstance(value, BooleanValue):
            return f"({self.page.word('boolean_contents')} {self.page.word('true' if value.truth else 'false')})"
        return self.octets(self.octets_of(env, type_, given))

    def number(self, number: int, signed: bool) -> str:
        if signed:
            return f"({self.page.word('integer_contents')} ({self.page.integer(number)}))"
        return f"({self.page.word('natural_contents')} {number})"

    def integer(self, env: Env, type_: IntegerType, given: Given) -> int:
        """A number, by itself or by a name of its type's."""
        if isinstance(given.value, ReferenceValue):
            return self.numbers(env, type_.named)[given.value.name]
        return number_of(self.library, given.env, given.value)

    def numbers(self, env: Env, named: tuple[NamedNumber, ...]) -> dict[str, int]:
        """The numbers of names."""
        found = {one.name: given_number(self.library, env, one) for one in named}
        return {name: number for name, number in found.items() if number is not None}

    def octets(self, octets: list[int]) -> str:
        """A list of octets."""
        self.page.word("[]")
        if not octets:
            return "[]"
        return f"({f' {self.page.word(chr(0x2237))} '.join([*map(str, octets), '[]'])})"

    def octets_of(self, env: Env, type_: Type, given: Given) -> list[int]:
        """The contents octets of a type with no parts."""
        value = given.value
        if isinstance(type_, BitStringType):
            return self.bits(env, type_, value)
        if isinstance(value, BitsValue):
            return filled(value.bits)
        if isinstance(value, TextValue):
            return list(re.sub(r"\s*\n\s*", "", value.text).encode())
        if isinstance(value, NullValue):
            return []
        assert isinstance(type_, SimpleType) and type_.simple is Simple.OBJECT_IDENTIFIER
        return identifier(arcs_of(self.library, given.env, value))

    def bits(self, env: Env, type_: BitStringType, value: Value) -> list[int]:
        """A BIT STRING; bits that have names end in a bit 1 (X.690 11.2.2)."""
        if isinstance(value, BitsValue):
            bits = value.bits
        else:
            assert isinstance(value, BracedValue)
            numbers = self.numbers(env, type_.named)
            places = {numbers[token.text] for token in bit_names(value)}
            bits = "".join("01"[place in places] for place in range(max(places, default=-1) + 1))
        if type_.named:
            bits = bits.rstrip("0")
        return [-len(bits) % 8, *filled(bits)]

    # ---- parts

    def fields(self, env: Env, type_: FieldsType, resolved: Resolved, given: Given) -> str:
        """The fields that stand in the encoding: one that has its default does not (X.690 11.5)."""
        assert isinstance(given.value, BracedValue)
        values = {one.name: one.value for one in component_values(given.value)}
        types = types_of_parts(resolved)
        found: list[str] = []
        for part in as_written.fields(self.library, env, type_):
            if part.component.name not in values:
                continue
            inner = types[as_written.key_of(part.component)]
            terms = self.component(part, inner, Given(given.env, values[part.component.name]))
            if part.component.default is None or self.encoding(terms) != self.default(part, inner):
                found.append(f"({self.encoding(terms)})")
        self.page.word("[]")
        listed = f" {self.page.word(chr(0x2237))} ".join([*found, "[]"]) if found else "[]"
        return f"({self.page.from_module(ASN1, 'joined')} {f'({listed})' if found else listed})"

    def alternative(self, env: Env, type_: ChoiceType, resolved: Resolved, given: Given) -> Terms:
        """A value of an alternative, which has no octets of its own (X.690 8.13)."""
        value = given.value
        assert isinstance(value, ChosenValue)
        parts = as_written.alternatives(self.library, env, type_)
        part = next(one for one in parts if one.component.name == value.name)
        is_alone = len(parts) == 1  # then the CHOICE is a second name of it
        inner = resolved if is_alone else types_of_parts(resolved)[as_written.key_of(part.component)]
        return self.component(part, inner, Given(given.env, value.value))


def own_names(type_: Type) -> frozenset[str]:
    """The names that a type gives its values, which come before those of assignments."""
    named = type_.named if isinstance(type_, (IntegerType, EnumeratedType)) else ()
    return frozenset(one.name for one in named)


def types_of_parts(resolved: Resolved) -> dict[as_written.Key, Resolved]:
    """The types of a definition's fields or alternatives."""
    base = behind_tags(resolved)
    parts: tuple[Field, ...] = ()
    if isinstance(base, Use) and isinstance(base.definition, Struct):
        parts = base.definition.fields
    elif isinstance(base, Use) and isinstance(base.definition, Choice):
        parts = base.definition.alternatives
    return {as_written.key_of(one.component): one.type for one in parts}


def is_signed(resolved: Resolved) -> bool:
    """Whether an INTEGER is one that may be negative."""
    leaf = behind_tags(resolved)
    assert isinstance(leaf, Leaf)
    return leaf.whole is Whole.INTEGER or (leaf.width or "u").startswith("i")


def filled(bits: str) -> list[int]:
    """Bits as octets, with bits 0 after them (X.680 23.3, X.690 11.2.1)."""
    return [int(bits[at : at + 8].ljust(8, "0"), 2) for at in range(0, len(bits), 8)]


def identifier(arcs: tuple[int, ...]) -> list[int]:
    """The contents octets of an object identifier: seven bits of an arc an octet (X.690 8.19)."""
    found: list[int] = []
    for arc in (40 * arcs[0] + arcs[1], *arcs[2:]):
        count = max(1, (arc.bit_length() + 6) // 7)
        found += [arc >> 7 * at & 0x7F | (0x80 if at else 0) for at in reversed(range(count))]
    return found
