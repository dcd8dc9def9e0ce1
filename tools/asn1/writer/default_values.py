"""The statements of Rattle that make the value of a default, with no memory."""

from __future__ import annotations

from ..model import (
    AlternativeValue,
    Bits,
    Choice,
    DefaultValue,
    FieldValues,
    Leaf,
    NamedValue,
    NameOf,
    Nothing,
    Presence,
    Resolved,
    Struct,
    Tagged,
    Use,
    Whole,
)
from ..properties import behind_tags, named_type
from .default_makers import BIT_STRING, OF_WHOLES, OWNED_IDENTIFIER, Made
from .default_octets import contents_octets
from .fields import Member, members_of
from .enumerations import variant_of
from .leaves import CHARACTERS
from .source import Source
from .types import plain, tagging


class Maker:
    """The statements that stand before a value, in their order, and the functions that are called."""

    def __init__(self, source: Source, called: dict[str, Made]) -> None:
        self.source = source
        self.called = called
        self.lines: list[str] = []

    def let(self, name: str, expression: str) -> str:
        self.lines.append(f"let {name} = {expression};")
        return name

    def call(self, made: Made, arguments: str, constant: int | None = None) -> str:
        """A call of a function of the file."""
        self.called[made.name] = made
        return f"{made.name}{'' if constant is None else f'::<{constant}>'}({arguments})"

    def held(self, type_: Resolved, value: DefaultValue, name: str) -> str:
        """A value with the tags of its type, as it stands in a message."""
        type_ = named_type(type_)
        if isinstance(type_, Tagged):
            inner = self.held(type_.of, value, name)
            word = self.source.use(tagging(type_.tag, type_.is_explicit))
            if type_.is_explicit:
                return f"{self.source.use('tagged')}!({word}, {inner})"
            return f"{word} {{ {member('value', inner)} }}"
        if isinstance(value, NamedValue):
            return f"{self.source.use('Enumerated')} {{ {member('value', self.name_of(value))} }}"
        return self.untagged(type_, value, name)

    def name_of(self, value: NamedValue) -> str:
        """A name of an ENUMERATED."""
        return f"{self.source.use_type(value.definition)}::{variant_of(value.definition, value.name)}"

    def untagged(self, type_: Resolved, value: DefaultValue, name: str) -> str:
        """A value of a type with no tags before it."""
        if isinstance(value, bool):
            return "true" if value else "false"
        if isinstance(value, Nothing):
            return self.source.use("Null")
        if isinstance(value, FieldValues):
            return self.fields(value, name)
        if isinstance(value, AlternativeValue):
            part = value.definition.alternatives[value.index]
            return f"{self.source.use_type(value.definition)}::{part.rust}({self.held(part.type, value.value, name)})"
        assert isinstance(type_, Leaf)
        if isinstance(value, int) and type_.whole is Whole.MACHINE_INTEGER:
            return str(value)
        return self.of_octets(type_, value)

    def of_octets(self, leaf: Leaf, value: DefaultValue) -> str:
        """A value of the library that is made of octets."""
        made = OWNED_IDENTIFIER if leaf.is_owned else OF_WHOLES[leaf.whole]
        if isinstance(value, Bits):
            if leaf.whole is Whole.NAMED_BITS:
                self.called[BIT_STRING.name] = BIT_STRING
            return self.call(made, f"{value.unused}, {octets_literal(value.octets)}")
        octets = contents_octets(leaf, value)
        if leaf.whole is Whole.UTF8_STRING:
            return self.call(made, text_literal(octets.decode()))
        constant = CHARACTERS[leaf.whole][1] if leaf.whole in CHARACTERS else leaf.octets
        return self.call(made, octets_literal(octets), constant)

    # ---- fields

    def fields(self, value: FieldValues, name: str) -> str:
        """A SEQUENCE or a SET, from the values of its fields."""
        members = members_of(value.definition)
        arguments = [self.argument(one, given, f"{one.name}_of_{name}") for one, given in zip(members, value.values)]
        return f"{self.source.use_type(value.definition)}::new({', '.join(arguments)})"

    def argument(self, one: Member, given: DefaultValue | None, name: str) -> str:
        """The value of a field, as `new` takes it."""
        if given is None and one.field.presence is Presence.OPTIONAL:
            return "None"
        value = one.field.default if given is None else given
        assert value is not None
        type_ = plain(one.field.type)
        if isinstance(type_, NameOf):
            assert isinstance(value, NamedValue)
            found = self.name_of(value)
        else:
            found = self.held(type_, value, name)
        if one.is_lent:
            found = f"&{self.let(name, found)}"
        return f"Some({found})" if one.is_optional else found


def member(name: str, value: str) -> str:
    """A member of a struct, by its name alone where the value is called so."""
    return name if value == name else f"{name}: {value}"


def text_literal(text: str) -> str:
    """A text as Rust writes it, with what is no letter, figure or sign of ASCII by its number."""
    shown = {'"': '\\"', "\\": "\\\\"}
    return '"' + "".join(shown.get(one, one if one.isascii() and one.isprintable() else f"\\u{{{ord(one):x}}}") for one in text) + '"'


def octets_literal(octets: bytes) -> str:
    return f"&[{', '.join(f'0x{octet:02x}' for octet in octets)}]"


def has_parts(type_: Resolved) -> bool:
    """Whether a default is a SEQUENCE, a SET or a CHOICE, whose values are compared by their octets."""
    base = behind_tags(type_)
    return isinstance(base, Use) and isinstance(base.definition, (Choice, Struct))
