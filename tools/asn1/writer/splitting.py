"""A CHOICE of many structs is read as one of two halves, each an enum of its own: so it costs the prover less. So is a CHOICE of
more alternatives than the toolchain takes at once."""

from __future__ import annotations

from ..model import Alias, Choice, Definition, Enumeration, Leaf, Listed, Resolved, ResolvedModule, Tagged, Use
from .alternatives import halves

MOST_STRUCTS = 4  # of a CHOICE that is read at once
MOST_ALTERNATIVES = 10  # of any kind: 'rt try' takes 10, and says of 16 that the requirements of their tree overflow
SIDES = (("First", "first"), ("Other", "other"))


def split_choices(modules: list[ResolvedModule]) -> None:
    """Puts the halves of each CHOICE that has many structs before it."""
    for module in modules:
        module.definitions[:] = [part for definition in module.definitions for part in with_halves(definition)]


def with_halves(definition: Definition) -> list[Definition]:
    """A definition after the halves that it is read as."""
    if not isinstance(definition, Choice) or is_read_at_once(definition):
        return [definition]
    middle = halves(len(definition.alternatives))
    both = (definition.alternatives[:middle], definition.alternatives[middle:])
    definition.halves = tuple(half_of(definition, side, part) for side, part in zip(SIDES, both))
    return [part for half in definition.halves for part in with_halves(half)] + [definition]


def is_read_at_once(choice: Choice) -> bool:
    return count_structs(choice) <= MOST_STRUCTS and len(choice.alternatives) <= MOST_ALTERNATIVES


def half_of(whole: Choice, side: tuple[str, str], alternatives: tuple) -> Choice:
    suffix, word = side
    name = f"the {word} alternatives of {whole.name}"
    return Choice(whole.place, whole.module, name, whole.rust + suffix, "", alternatives=alternatives, is_half=True)


def count_structs(choice: Choice) -> int:
    return sum(is_struct(part.type) for part in choice.alternatives)


def is_struct(type_: Resolved) -> bool:
    """Whether an alternative has components, by whatever name and after whatever tags."""
    while not isinstance(type_, Leaf):
        if isinstance(type_, Tagged):
            type_ = type_.of
        elif isinstance(type_, Use) and isinstance(type_.definition, Alias):
            assert type_.definition.type is not None
            type_ = type_.definition.type
        else:
            return isinstance(type_, Listed) or (isinstance(type_, Use) and not isinstance(type_.definition, Enumeration))
    return False
