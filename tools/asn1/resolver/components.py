"""The fields of a SEQUENCE or a SET, and the alternatives of a CHOICE."""

from __future__ import annotations

from collections.abc import Callable
from dataclasses import replace

from ..errors import AsnError, Place
from ..model import Field, Presence, Resolved
from ..notes import Notes
from ..scope import check_names
from ..spelling import camel, field, numbered, variant
from ..syntax import ChoiceType, Component, FieldsType
from ..tagging import alternatives, check_all, check_sequence, in_order_of_tags
from . import types
from .context import Context
from .empty_lists import optional_list
from .included import components_of
from .kept import OMIT, is_left_out
from .lacking import may_be_absent
from .recursion import cut_at
from .subsets import unconstrained
from .defaults import default_of, marker_of


LONG = 8  # the components of a SEQUENCE whose lists need no name


def fields_of(context: Context, type_: FieldsType) -> tuple[tuple[Field, ...], tuple[Field, ...]]:
    """The fields, distinguished by their tags: in the order of their encodings, and as they are written."""
    placed = components_of(context.state.library, context.env, type_)
    check_names([(part.place, part.name) for part, _ in placed], "name")
    names = spelled(context, [part for part, _ in placed], field)
    placed = [one for one in placed if not may_be_absent(one[0]) or not is_left_out(context.within(one[1]), one[0])]
    # (a name makes a long SEQUENCE provable: the prover looks into a struct once, and into a list at each bound)
    context = replace(context, names_lists=len(placed) > LONG)
    fields = tuple(one_field(context.within(env), part, names[part.name]) for part, env in placed)
    check_fields(fields)
    if not type_.is_set:
        check_sequence(fields)
        return fields, fields
    check_all(fields, "X.680 27.3")
    return in_order_of_tags(fields), fields


def alternatives_of(context: Context, type_: ChoiceType) -> tuple[Field, ...]:
    """The alternatives, distinguished by their tags."""
    parts = alternatives(context.env, type_)
    check_names([(part.place, part.name) for part in parts], "name")
    names = spelled(context, parts, variant)
    parts = [part for part in parts if not is_left_out(context, part)]
    if not parts:
        raise AsnError(type_.place, "the layer has no type for any alternative of this CHOICE", OMIT)
    fields = tuple(one_field(context, part, names[part.name]) for part in parts)
    check_fields(fields)
    check_all(fields, "X.680 29.3")
    return fields


def spelled(context: Context, parts: list[Component], spell: Callable[[str], str]) -> dict[str, str]:
    """The names of components in Rattle: of those that are spelled alike, each but the first has a number."""
    names = dict(zip((part.name for part in parts), numbered([spell(part.name) for part in parts])))
    for part in parts:
        if names[part.name] != spell(part.name) and not Notes(part.annotations).has("name"):
            said = f"'{part.name}' is '{names[part.name]}', as another is '{spell(part.name)}'"
            context.say(part.place, said)
    return names


def one_field(context: Context, part: Component, rust: str) -> Field:
    """One field or alternative."""
    notes = Notes(part.annotations)
    number = rust.removeprefix(field(part.name)).removeprefix(variant(part.name))
    rust = notes.argument("name") or rust
    inner = replace(context, inner=context.inner + camel(part.name) + number, notes=notes, checks=part.default is None)
    found = type_of(inner, part)
    if part.is_later:
        remark_on_addition(inner, part)
    notes.check_used(f"'{part.name}'")
    listed = optional_list(inner, part, found)
    if listed is not None:
        return Field(part.place, part.name, rust, listed, Presence.OPTIONAL, None, part.text, part, context.env)
    if part.default is None:
        presence = Presence.OPTIONAL if part.optional else Presence.ALWAYS
        return Field(part.place, part.name, rust, found, presence, None, part.text, part, context.env)
    found = unconstrained(inner, part.place, found)
    default = default_of(inner, part.default, found)
    marker = marker_of(context, rust, default, found)
    return Field(part.place, part.name, rust, found, Presence.DEFAULT, default, part.text, part, context.env, marker)


def type_of(context: Context, part: Component) -> Resolved:
    """The type of a component, which is not read where it leads back to a type that reaches itself."""
    leads_to = cut_at(context.state.library, context.env, part.place)
    if leads_to is None:
        return types.resolve_type(context, part.type)
    return types.cut(context, part.type, f"'{part.name}'", leads_to)


def remark_on_addition(context: Context, part: Component) -> None:
    """An addition that is always there in values of this version is read as OPTIONAL: those of older versions have it not."""
    said = f"'{part.name}' may be absent, as in values of an older version, though it is neither OPTIONAL nor DEFAULT"
    context.say(part.place, said)


def check_fields(fields: tuple[Field, ...]) -> None:
    """Components that differ in ASN.1 have to differ in Rattle too."""
    check_spelling([(part.place, part.name, part.rust) for part in fields], "write '-- @name(..)' after one of them")


def check_spelling(names: list[tuple[Place, str, str]], instead: str = "give one of them another name") -> None:
    """Names that differ in ASN.1 have to differ in Rattle too, as they are spelled there."""
    seen: dict[str, str] = {}
    for place, name, rust in names:
        if rust in seen:
            raise AsnError(place, f"'{name}' and '{seen[rust]}' are both '{rust}' in Rattle", instead)
        seen[rust] = name
