"""The components of a SEQUENCE or a SET, with those of COMPONENTS OF in its place (X.680 25.5)."""

from __future__ import annotations

from ..errors import AsnError
from ..scope import Env, Library
from ..syntax import Component, ComponentsOf, FieldsType
from ..tagging import automatic, has_automatic_tags
from .classes import base_of

Placed = tuple[Component, Env]
DEEPEST = 40  # types whose components are taken, one in another


def components_of(library: Library, env: Env, type_: FieldsType, by: tuple[FieldsType, ...] = ()) -> list[Placed]:
    """The components, with automatic tags (25.7); `by` are the types that take this one's."""
    own = [part for part in type_.components if isinstance(part, Component)]
    is_automatic = has_automatic_tags(env, own)
    placed: list[Placed] = []
    for part in type_.components:
        if isinstance(part, Component):
            placed.append((part, env))
        else:
            placed += included(library, env, part, (*by, type_))
    if is_automatic:
        tagged = automatic([part for part, _ in placed])
        placed = [(part, env) for part, (_, env) in zip(tagged, placed)]
    return placed


def included(library: Library, env: Env, part: ComponentsOf, by: tuple[FieldsType, ...]) -> list[Placed]:
    """The components of a type whose components are taken (25.5), but for its additions."""
    env, base = base_of(library, env, part.type)
    word = "SET" if by[-1].is_set else "SEQUENCE"
    if not isinstance(base, FieldsType) or base.is_instance or base.is_set != by[-1].is_set or base is by[-1]:
        raise AsnError(part.place, f"COMPONENTS OF stands before what is no other {word}", "write the components out")
    if any(base is one for one in by) or len(by) == DEEPEST:
        raise AsnError(part.place, f"this {word} has its own components by COMPONENTS OF, or those of too many", "write them out")
    return [one for one in components_of(library, env, base, by) if not one[0].is_addition]
