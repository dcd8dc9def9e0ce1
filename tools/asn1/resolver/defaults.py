"""Defaults (X.680 25.1): what a value of value notation comes to, by the type of its component (17)."""

from __future__ import annotations

import re
from typing import NoReturn

from ..bounds import MACHINE, Bounds, holds
from ..errors import AsnError, Place
from ..model import (
    Alias,
    AlternativeValue,
    Bits,
    Choice,
    DefaultValue,
    Enumeration,
    Field,
    FieldValues,
    Leaf,
    Marker,
    NamedValue,
    Nothing,
    Octets,
    Presence,
    Resolved,
    Struct,
    Tagged,
    Use,
    Whole,
)
from ..parser.values import bit_names, component_values
from ..properties import behind_explicit, behind_tags, named_type, properties_of
from ..scope import Env, check_names
from ..spelling import camel
from ..syntax import (
    BitsValue,
    BooleanValue,
    BracedValue,
    ChoiceType,
    ChosenValue,
    ComponentValue,
    NullValue,
    NumberValue,
    ReferenceValue,
    TextValue,
    Value,
)
from ..values import arcs_of, assigned_value, contents
from .context import Context
from .lacking import readable

INSTEAD = "write OPTIONAL, and let an absent value stand for the default; an encoded default is then not refused"
INTEGERS = frozenset([Whole.MACHINE_INTEGER, Whole.INTEGER, Whole.NATURAL])
# The characters of strings of which not all of ASCII are some (X.680 41.1, 41.2, 41.4).
CHARACTERS_OF = {
    Whole.NUMERIC_STRING: re.compile(r"[0-9 ]*"),
    Whole.PRINTABLE_STRING: re.compile(r"[A-Za-z0-9 '()+,\-./:=?]*"),
    Whole.VISIBLE_STRING: re.compile(r"[ -~]*"),
}
ASCII = frozenset([Whole.IA5_STRING, Whole.TELETEX_STRING, Whole.VIDEOTEX_STRING, Whole.GENERAL_STRING])
STRINGS = ASCII | CHARACTERS_OF.keys() | {Whole.UTF8_STRING}
# Whose values nothing makes but reading.
TIMES = [Whole.UTC_TIME, Whole.GENERALIZED_TIME, Whole.FRACTIONAL_TIME]
READ_ALONE = frozenset([Whole.ANY, Whole.UNREAD_SEQUENCE, *TIMES])


def default_of(context: Context, value: Value, type_: Resolved) -> DefaultValue:
    """What a DEFAULT comes to."""
    if properties_of(type_).takes_memory:
        raise AsnError(
            value.place,
            "a value that owns its octets has no DEFAULT: its octets take memory",
            "leave '@owned' out where it stands, or write OPTIONAL, and let an absent value stand for the default",
        )
    return value_of(context, context.env, value, type_)


def refuse(place: Place, what: str) -> NoReturn:
    raise AsnError(place, f"{what} has no DEFAULT here", INSTEAD)


def value_of(context: Context, env: Env, value: Value, type_: Resolved) -> DefaultValue:
    """What a value comes to, with the names that `env` has, as one of a type."""
    library = context.state.library
    type_, value = chosen_alone(type_, value)
    base = behind_tags(type_)
    numbers, bits = names_of(type_)
    env, value = assigned_value(library, env, value, names_of_values(base, numbers))
    if isinstance(base, Leaf):
        return of_leaf(context, env, value, base, bits if base.whole is Whole.NAMED_BITS else numbers)
    definition = base.definition if isinstance(base, Use) else None
    if definition is not None and definition.by_hand:
        refuse(value.place, "a type of '@rust'")
    if isinstance(definition, Enumeration):
        return of_enumeration(value, definition)
    if isinstance(definition, Struct) and definition.has_additions:
        refuse(value.place, "a SEQUENCE with '@skip'")
    if isinstance(definition, Struct):
        return of_struct(context, env, value, definition)
    if isinstance(definition, Choice):
        return of_choice(context, env, value, definition)
    refuse(value.place, "a SEQUENCE OF or a SET OF")


def chosen_alone(type_: Resolved, value: Value) -> tuple[Resolved, Value]:
    """Of a CHOICE of one alternative, which is a second name of that, the alternative's value."""
    found = type_
    while isinstance(found, (Use, Tagged)):
        if isinstance(found, Tagged):
            found = found.of
            continue
        if not isinstance(found.definition, Alias) or found.definition.type is None:
            break
        origin = found.definition.origin
        found = found.definition.type
        if origin is not None and isinstance(origin.type, ChoiceType):
            (only,) = readable(origin.library, origin.env, origin.type)
            if not isinstance(value, ChosenValue) or value.name != only.name:
                raise AsnError(value.place, "this value names no alternative", f"write '{only.name} : value'")
            value = value.value
    return type_, value


# ---- names


def names_of(type_: Resolved) -> tuple[dict[str, int], dict[str, int]]:
    """The names of a type's numbers and bits, by all of its names."""
    numbers: dict[str, int] = {}
    bits: dict[str, int] = {}
    while True:
        if isinstance(type_, Tagged):
            type_ = type_.of
        elif isinstance(type_, Use) and isinstance(type_.definition, Alias) and type_.definition.type is not None:
            numbers |= {one.name: one.number for one in type_.definition.numbers}
            bits |= {one.name: one.number for one in type_.definition.bits}
            type_ = type_.definition.type
        else:
            return numbers, bits


def names_of_values(base: Resolved, numbers: dict[str, int]) -> frozenset[str]:
    """The names that stand for values of a type, before those of assignments."""
    if isinstance(base, Use) and isinstance(base.definition, Enumeration):
        return frozenset(one.name for one in base.definition.values)
    return frozenset(numbers)


# ---- the library's types


def of_leaf(context: Context, env: Env, value: Value, leaf: Leaf, names: dict[str, int]) -> DefaultValue:
    """A value of a type of the library."""
    if leaf.allowed is not None:
        raise AsnError(value.place, "a value of a type with a constraint has no DEFAULT here", "write '-- @unchecked' where the constraint stands")
    if leaf.whole in READ_ALONE:
        refuse(value.place, f"{leaf.whole.value}, of which nothing but reading makes a value,")
    if leaf.whole is Whole.OBJECT_IDENTIFIER:
        return identifier(context, env, value, leaf)
    if leaf.whole is Whole.BOOLEAN and isinstance(value, BooleanValue):
        return value.truth
    if leaf.whole is Whole.NULL and isinstance(value, NullValue):
        return Nothing()
    if leaf.whole in INTEGERS and isinstance(value, (NumberValue, ReferenceValue)):
        return number(value, leaf, names)
    if leaf.whole in (Whole.BIT_STRING, Whole.NAMED_BITS) and isinstance(value, (BitsValue, BracedValue)):
        return bit_string(value, leaf, names)
    if leaf.whole is Whole.OCTET_STRING and isinstance(value, BitsValue):
        return Octets(octets_of(value.bits))
    if leaf.whole in STRINGS and isinstance(value, TextValue):
        return Octets(characters(value, leaf))
    raise AsnError(value.place, f"this value is none of {leaf.whole.value}", FORMS[leaf.whole])


FORMS = {
    Whole.BOOLEAN: "write TRUE or FALSE",
    Whole.NULL: "write NULL",
    **dict.fromkeys(INTEGERS, "write a number, or the name of one"),
    Whole.BIT_STRING: "write '0101'B or '0A'H",
    Whole.NAMED_BITS: "write the names of bits as '{ name, .. }'",
    Whole.OCTET_STRING: "write '0AFF'H",
    **dict.fromkeys(STRINGS, 'write "text"'),
}


def number(value: NumberValue | ReferenceValue, leaf: Leaf, names: dict[str, int]) -> int:
    """A number, or the name of one, which the library's type has."""
    if isinstance(value, ReferenceValue) and value.name not in names:
        raise AsnError(value.place, "this value is no number", "write a number, or the name of one")
    found = names[value.name] if isinstance(value, ReferenceValue) else value.number
    if leaf.whole is Whole.NATURAL and found < 0:
        raise AsnError(value.place, f"DEFAULT {found} of an INTEGER that is not negative", "write a number from 0 on")
    if leaf.whole is Whole.MACHINE_INTEGER and leaf.width and not holds(leaf.width, Bounds(found, found)):
        bounds = MACHINE[leaf.width]
        raise AsnError(
            value.place,
            f"DEFAULT {found} of an INTEGER as {leaf.width}, which has no such number",
            f"write one from {bounds.low} to {bounds.high}, or a wider type, as '-- @i64', after the component",
        )
    return found


def octets_of(bits: str) -> bytes:
    """Bits as octets, with bits 0 after them (X.680 23.3, X.690 11.2.1)."""
    filled = bits + "0" * (-len(bits) % 8)
    return bytes(int(filled[at : at + 8], 2) for at in range(0, len(filled), 8))


def bit_string(value: BitsValue | BracedValue, leaf: Leaf, names: dict[str, int]) -> Bits:
    """Bits by themselves, or by their names; those with names have no bit 0 at their end (X.690 11.2.2)."""
    bits = value.bits if isinstance(value, BitsValue) else named_bits(value, names)
    if leaf.whole is Whole.NAMED_BITS:
        bits = bits.rstrip("0")
    return Bits(-len(bits) % 8, octets_of(bits))


def named_bits(value: BracedValue, names: dict[str, int]) -> str:
    """The bits of these names (X.680 22.9)."""
    places: list[int] = []
    for token in bit_names(value):
        if token.text not in names:
            known = f"the names are {', '.join(names)}" if names else "the type has no names of bits: write '0101'B"
            raise AsnError(token.place, f"'{token.text}' is the name of no bit", known)
        places.append(names[token.text])
    return "".join("1" if place in places else "0" for place in range(max(places, default=-1) + 1))


def characters(value: TextValue, leaf: Leaf) -> bytes:
    """The octets of a string of characters, with no end of a line and no space beside it (X.680 12.14.1)."""
    text = re.sub(r"\s*\n\s*", "", value.text)
    form = CHARACTERS_OF.get(leaf.whole)
    if (form is not None and form.fullmatch(text) is None) or (leaf.whole in ASCII and not text.isascii()):
        raise AsnError(value.place, f"this text has a character that no {leaf.whole.value} has", "leave it out")
    return text.encode("utf-8")


def identifier(context: Context, env: Env, value: Value, leaf: Leaf) -> Octets:
    """The contents octets of an object identifier, of which the library's type has so many at most."""
    found = bytes(contents(arcs_of(context.state.library, env, value)))
    if leaf.octets is not None and len(found) > leaf.octets:
        raise AsnError(
            value.place,
            f"this object identifier has {len(found)} contents octets, and the type {leaf.octets} at most",
            f"write '-- @max({len(found)})' after the component",
        )
    return Octets(found)


# ---- types with parts


def of_enumeration(value: Value, definition: Enumeration) -> NamedValue:
    """A name of an ENUMERATED (20.8)."""
    names = [one.name for one in definition.values]
    if not isinstance(value, ReferenceValue) or value.name not in names:
        raise AsnError(value.place, f"this value is no name of '{definition.name}'", f"its names are {', '.join(names)}")
    return NamedValue(definition, value.name)


def of_struct(context: Context, env: Env, value: Value, definition: Struct) -> FieldValues:
    """The values of fields by their names (25, 27)."""
    if not isinstance(value, BracedValue):
        raise AsnError(value.place, f"this value is none of '{definition.name}'", "write '{ name value, .. }'")
    given = component_values(value)
    check_names([(one.place, one.name) for one in given], "component")
    check_order(given, definition)
    by_name = {one.name: one.value for one in given}
    for part in definition.declared:
        if part.name not in by_name and part.presence is Presence.ALWAYS:
            raise AsnError(value.place, f"this value lacks the component '{part.name}'", f"write '{part.name} value' in it")
    return FieldValues(definition, tuple(of_field(context, env, by_name.get(part.name), part) for part in definition.fields))


def of_field(context: Context, env: Env, value: Value | None, part: Field) -> DefaultValue | None:
    """The value of a field; None where none is written, or the field's own default is (X.690 11.5)."""
    found = None if value is None else value_of(context, env, value, part.type)
    return None if part.presence is Presence.DEFAULT and found == part.default else found


def check_order(given: tuple[ComponentValue, ...], definition: Struct) -> None:
    """The values name components of the type, and of a SEQUENCE in its order."""
    names = [part.name for part in definition.declared]
    for one in given:
        if one.name not in names:
            known = f"its components are {', '.join(names)}" if names else "write '{}'"
            raise AsnError(one.place, f"'{definition.name}' has no component '{one.name}'", known)
    if definition.is_set:
        return
    for before, after in zip(given, given[1:]):
        if names.index(after.name) < names.index(before.name):
            problem = f"the value of '{after.name}' stands after that of '{before.name}'"
            raise AsnError(after.place, problem, "write the values in the order of the components")


def of_choice(context: Context, env: Env, value: Value, definition: Choice) -> AlternativeValue:
    """`alternative : value` (29)."""
    names = [part.name for part in definition.alternatives]
    if not isinstance(value, ChosenValue) or value.name not in names:
        raise AsnError(value.place, f"this value names no alternative of '{definition.name}'", f"its alternatives are {', '.join(names)}")
    index = names.index(value.name)
    return AlternativeValue(definition, index, value_of(context, env, value.value, definition.alternatives[index].type))


# ---- the type that stands for a default


def marker_of(context: Context, rust: str, value: DefaultValue, type_: Resolved) -> Marker | None:
    """The type that stands for the default of the field with this name; None where the library has one."""
    if is_of_library(value, type_):
        return None
    if value is True:
        return Marker(context.home, "DefaultTrue")
    if isinstance(value, Nothing):
        return Marker(context.home, "DefaultNull")
    if isinstance(value, int) and not isinstance(value, bool) and abs(value) < 10**20:
        return Marker(context.home, f"DefaultMinus{-value}" if value < 0 else f"Default{value}")
    return Marker(context.home, f"DefaultOf{context.inner}{camel(rust)}")


def is_of_library(value: DefaultValue, type_: Resolved) -> bool:
    """Whether the library has a type for a default: FALSE, or a number of a u8, after one implicit tag at most."""
    inner = behind_explicit(type_)
    if isinstance(inner, Tagged):
        inner = named_type(inner.of)
    if not isinstance(inner, Leaf):
        return False
    return value is False or (inner.width == "u8" and isinstance(value, int))
