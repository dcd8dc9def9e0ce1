"""A value after an explicit tag is held by a struct of its own where it is not copied: so it costs the prover less."""

from __future__ import annotations

from dataclasses import replace

from ..model import Definition, Field, Presence, ResolvedModule, Struct, Tag, Tagged, Use
from ..properties import properties_of
from .types import tagging

Holders = dict[tuple[Tag, Definition], Struct]


def hold_tagged(modules: list[ResolvedModule]) -> None:
    """Puts the structs that hold values after explicit tags before the first struct that has each."""
    for module in modules:
        holders: Holders = {}
        module.definitions[:] = [part for definition in module.definitions for part in with_holders(definition, holders)]


def with_holders(definition: Definition, holders: Holders) -> list[Definition]:
    """A definition after the holders of its fields that no definition before it has."""
    if not isinstance(definition, Struct) or definition.by_hand:
        return [definition]
    known = len(holders)
    definition.fields = tuple(held(definition, part, holders) for part in definition.fields)
    definition.declared = tuple(held(definition, part, holders) for part in definition.declared)
    return [*list(holders.values())[known:], definition]


def held(struct: Struct, part: Field, holders: Holders) -> Field:
    """A field, with the holder of its value if it has one."""
    type_ = part.type
    if not isinstance(type_, Tagged) or not is_held(type_):
        return part
    assert isinstance(type_.of, Use)
    key = (type_.tag, type_.of.definition)
    if key not in holders:
        holders[key] = holder_of(struct, part, type_, type_.of.definition)
    return replace(part, type=replace(type_, holder=holders[key]))


def is_held(type_: Tagged) -> bool:
    """Whether it has a holder: a type with a name, of whose values a copy takes more than the value."""
    return type_.is_explicit and isinstance(type_.of, Use) and not properties_of(type_.of).is_copy


def holder_of(struct: Struct, part: Field, type_: Tagged, inner: Definition) -> Struct:
    """The struct of one field: its octets are those of a SEQUENCE with another tag."""
    name = f"{type_.tag} EXPLICIT {inner.name}"
    rust = f"{tagging(type_.tag, True)}{type_.tag.number}{inner.rust}"
    field = replace(part, name=inner.name, rust="value", type=type_.of, presence=Presence.ALWAYS, default=None)
    fields = (field,)
    return Struct(part.place, struct.module, name, rust, "", fields=fields, declared=fields, tag=type_.tag, is_holder=True)
