"""Equality of values by their octets, as one datum of a type: a line for each field, and each CHOICE by its tree."""

from __future__ import annotations

from ..model import Alias, Choice, Field, Leaf, Presence, Resolved, Tagged, Use, Whole
from .alternatives import Alternatives
from .fields import AT_ONCE
from .source import Source
from .types import default_type, rust_type

BREAK = "\n        "  # a long term goes on in the next line


def tells_tags(type_: Resolved) -> bool:
    """Whether the values of a type tell their tags: a CHOICE, and ANY."""
    type_ = named(type_)
    if isinstance(type_, Leaf):
        return type_.whole is Whole.ANY
    return isinstance(type_, Use) and isinstance(type_.definition, Choice)


def named(type_: Resolved) -> Resolved:
    """A type after second names; of a value that is held with its tag what holds it."""
    if isinstance(type_, Tagged) and type_.holder is not None:
        return Use(type_.holder)
    while isinstance(type_, Use) and isinstance(type_.definition, Alias):
        assert type_.definition.type is not None
        type_ = type_.definition.type
    return type_


def member_of(source: Source, type_: str) -> str:
    """The equality of a type with one tag."""
    return f"⟦<{type_} as {source.use('Member')}>⟧.{source.member('member')}"


def choice_of(source: Source, type_: str) -> str:
    """The equality of a type whose values tell their tags."""
    return f"⟦<{type_} as {source.use('Choosing')}>⟧.{source.member('choice')}"


# ---- a list of fields


def listed(source: Source, fields: tuple[Field, ...], end: str = "no_fields") -> str:
    """The equality of a list of fields, a line each, and of what stands after them."""
    found = source.word(end)
    if len(fields) > AT_ONCE:
        found = f"({source.word('part')} (λ v. v.list){BREAK}{listed(source, fields[AT_ONCE:], end)})"
    for field in reversed(fields[:AT_ONCE]):
        found = f"({line(source, field)}{BREAK}{found})"
    return found


def line(source: Source, field: Field) -> str:
    """The equality of a field, by its presence."""
    type_ = rust_type(source, field.type)
    chooses = tells_tags(field.type)
    equality = choice_of(source, type_) if chooses else member_of(source, type_)
    kind = "choice_field" if chooses else "field"
    if field.presence is Presence.ALWAYS:
        return f"{source.word(kind)} {equality}"
    if field.presence is Presence.OPTIONAL:
        return f"{source.word(f'optional_{kind}')} {equality}"
    default = f"⟦<{default_type(source, field)} as {source.use('DefaultOf')}<{type_}>>⟧.{source.member('octets')}"
    return f"{source.word(f'default_{kind}')} {default} {equality}"


# ---- impls


def write_member(source: Source, whole: str, lifetime: str, term: str) -> None:
    """The equality of a type with one tag, and the law that cites it."""
    source.add(
        f"impl{lifetime} {source.use('Member')} for {whole} {{\n    ghost {source.member('member')} = {{ {term} }};\n}}"
    )
    source.add(
        f"impl{lifetime} {source.use('ContentsEq')} for {whole} {{\n"
        f"    ghost {source.member('contents_eq')} = {{ {member_of(source, whole)}.equal }};\n}}"
    )


def tag_of_marker(source: Source, marker: str) -> str:
    """The tag that a marker stands for."""
    return f"⟦<{marker} as {source.use('TagMarker')}>⟧.{source.member('TAG')}"


def write_choice_member(source: Source, all_of: Alternatives) -> None:
    """The equality of a CHOICE: that of its tree, which is the enum's."""
    tree = choice_of(source, f"Tree{all_of.lifetime}")
    source.add(
        f"impl{all_of.lifetime} {source.use('Choosing')} for {all_of.whole} {{\n"
        f"    ghost {source.member('choice')} = {{ {source.word('seen_choice')} {all_of.view} {own_eq(all_of)} {tree}"
        f"{BREAK}{same_equality(source, all_of, f'{tree}.eq')} }};\n}}"
    )
    source.add(
        f"impl{all_of.lifetime} {source.use('EncodingEq')} for {all_of.whole} {{\n"
        f"    ghost {source.member('encoding_eq')} = {{ {choice_of(source, all_of.whole)}.equal }};\n}}"
    )


def same_equality(source: Source, all_of: Alternatives, other: str) -> str:
    """That the enum's equality is this one of its tree, by two alternatives at a time."""
    source.word("refl")
    source.word("≡")
    own, view = own_eq(all_of), all_of.view

    def row(name: str) -> str:
        first = f"({all_of.variants}.{name} x)"
        cases = " | ".join(f"{all_of.variants}.{one} y ↦ refl" for one in all_of.names)
        same = f"elim w as (λ k. {own} {first} k ≡ {other} ({view} {first}) ({view} k)) [ {cases} ]"
        return f"{all_of.variants}.{name} x ↦ {same}"

    rows = f"{BREAK}| ".join(row(name) for name in all_of.names)
    return f"(λ v w. elim v as (λ k. {own} k w ≡ {other} ({view} k) ({view} w)) [{BREAK}{rows} ])"


def own_eq(all_of: Alternatives) -> str:
    return f"⟦<{all_of.whole} as PartialEq>⟧.eq"
