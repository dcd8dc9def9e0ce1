"""A DEFAULT of the empty list: its encoding is left out, and refused (X.690 11.5). So the component is OPTIONAL, and never empty."""

from __future__ import annotations

from dataclasses import replace

from ..errors import Place
from ..model import Alias, List, Listed, Resolved, Tagged, Use
from ..scope import Env, Library
from ..syntax import BracedValue, Component, ListType
from ..values import assigned_value
from .classes import base_of
from .context import Context


def optional_list(context: Context, part: Component, found: Resolved) -> Resolved | None:
    """The list that a component has where it is there, if its default is the empty one; None of any other component."""
    if part.default is None or not is_empty_list(context.state.library, context.env, part):
        return None
    listed = never_empty(found)
    if listed is not None:
        remark_on(context, part.place, part.name)
    return listed


def is_empty_list(library: Library, env: Env, part: Component) -> bool:
    """Whether the default of a component is `{}`, as a value of a SEQUENCE OF or a SET OF (X.680 26.3, 28.3)."""
    if part.default is None or not isinstance(base_of(library, env, part.type)[1], ListType):
        return False
    value = assigned_value(library, env, part.default)[1]
    return isinstance(value, BracedValue) and not value.tokens


def never_empty(type_: Resolved) -> Resolved | None:
    """A list with one item at least, after the tags of a type and by no name; None where it has no empty value, or is not read."""
    if isinstance(type_, Tagged):
        inner = never_empty(type_.of)
        return None if inner is None else replace(type_, of=inner)
    if isinstance(type_, Use) and isinstance(type_.definition, Alias) and type_.definition.type is not None:
        return never_empty(type_.definition.type)
    if isinstance(type_, Use) and isinstance(type_.definition, List):
        inner, tag = never_empty(type_.definition.listed), type_.definition.tag
        return inner if inner is None or tag is None else Tagged(tag, False, inner)
    return replace(type_, is_never_empty=True) if isinstance(type_, Listed) and not type_.is_never_empty else None


def remark_on(context: Context, place: Place, name: str) -> None:
    """Says that an absent value stands for the empty list."""
    said = f"'{name}' is absent where it is its default, the empty list; the encoding of an empty one is refused"
    context.say(place, said)
