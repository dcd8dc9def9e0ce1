"""Types that the layer does not have: but for REAL it refuses their universal tags, as the crate `der` does.

A SET with such a part in each value has no values here, and neither has a CHOICE of such alternatives alone: they are lacking too.
"""

from __future__ import annotations

from dataclasses import dataclass
from typing import Union

from ..scope import Env, Library
from ..syntax import (
    ChoiceType,
    Component,
    ConstrainedType,
    FieldOfClass,
    FieldsType,
    ListType,
    ReferenceType,
    SelectionType,
    Simple,
    SimpleType,
    TagDefault,
    TaggedType,
    TagMode,
    Type,
)
from ..tagging import alternatives
from .classes import MOST_STEPS, follow, is_parameter, is_untagged_choice, meant
from .context import too_deep
from .included import components_of

# The types, and their universal tags.
LACKING = {
    Simple.OBJECT_DESCRIPTOR: 7,
    Simple.EXTERNAL: 8,
    Simple.REAL: 9,
    Simple.EMBEDDED_PDV: 11,
    Simple.GRAPHIC_STRING: 25,
    Simple.UNIVERSAL_STRING: 28,
    Simple.CHARACTER_STRING: 29,
}


# Those of which an encoding is constructed (X.690 8.18, 8.23 and 8.24 with X.680 36, 44).
CONSTRUCTED = frozenset([Simple.EXTERNAL, Simple.EMBEDDED_PDV, Simple.CHARACTER_STRING])
INSTANCE = "INSTANCE OF"  # an EXTERNAL with two components (X.681 annex C)
MOST_TYPES = 10_000  # that are looked at for what one type lacks
Around = tuple[Type, ...]  # the types that a type stands in, from the outermost


@dataclass(frozen=True)
class Lack:
    """What the layer lacks, by its notation; the type that it is lacked for, and whether encodings of that are constructed."""

    what: str
    of: str
    is_constructed: bool


def lacking(library: Library, env: Env, type_: Type) -> Lack | None:
    """What a type lacks, with its own tag after its names and explicit tags."""
    return Search(library).lacking(env, type_, ())


def lack_of(library: Library, env: Env, part: Component) -> Lack | None:
    """What a component or an alternative lacks."""
    return Search(library).lack_of(env, part, ())


def replaced(library: Library, env: Env, type_: Type) -> Lack | None:
    """What a type lacks, after its names and implicit tags, if another tag stands in place of its own."""
    env, found = behind(library, env, type_, implicit=True)
    if isinstance(found, FieldsType) and found.is_instance and found is not unconstrained(type_):
        return Lack(INSTANCE, INSTANCE, True)
    return simple_lack(found) or Search(library).lacking_set(env, found, (found,))


def unconstrained(type_: Type) -> Type:
    """A type with no constraints after it."""
    while isinstance(type_, ConstrainedType):
        type_ = type_.type
    return type_


class Search:
    """Looks for what a type lacks, in those within it."""

    def __init__(self, library: Library) -> None:
        self.library = library
        self.left = MOST_TYPES

    def lacking(self, env: Env, type_: Type, around: Around) -> Lack | None:
        """What a type lacks; one that stands in itself is cut there, and read."""
        env, type_ = behind(self.library, env, type_, implicit=False)
        if any(type_ is one for one in around):
            return None
        self.left -= 1
        if self.left == 0:
            raise too_deep(type_.place)
        around = (*around, type_)
        if isinstance(type_, ChoiceType):
            return self.lacking_choice(env, type_, around)
        if isinstance(type_, FieldsType) and type_.is_instance:
            return Lack(INSTANCE, INSTANCE, True)
        return simple_lack(type_) or self.lacking_set(env, type_, around)

    def lack_of(self, env: Env, part: Component, around: Around) -> Lack | None:
        """What a component lacks; with `@unread` the octets of a type with parts are kept."""
        if any(note.name == "unread" for note in part.annotations):
            return simple_lack(behind(self.library, env, part.type, implicit=False)[1])
        return self.lacking(env, part.type, around)

    def lacking_choice(self, env: Env, type_: ChoiceType, around: Around) -> Lack | None:
        """What the first alternative lacks, if all lack something."""
        first = None
        for part in alternatives(env, type_):
            found = self.lack_of(env, part, around)
            if found is None:
                return None
            first = first or found
        return first

    def lacking_set(self, env: Env, type_: Type, around: Around) -> Lack | None:
        """What a SET or a SET OF lacks in each value that has parts."""
        if not isinstance(type_, (FieldsType, ListType)) or not type_.is_set:
            return None
        found = self.lacking_part(env, type_, around)
        word = "SET OF" if isinstance(type_, ListType) else "SET"
        return None if found is None else Lack(found[1].what, word, True)

    def lacking_part(self, env: Env, type_: Union[FieldsType, ListType], around: Around) -> tuple[str, Lack] | None:
        """A component that is in each value, or the items, with what they lack."""
        if isinstance(type_, ListType):
            found = self.lacking(env, type_.item, around)
            return None if found is None else ("an item", found)
        for part, inner in components_of(self.library, env, type_):
            found = None if may_be_absent(part) else self.lack_of(inner, part, around)
            if found is not None:
                return f"'{part.name}'", found
        return None


def behind(library: Library, env: Env, type_: Type, implicit: bool) -> tuple[Env, Type]:
    """A type after its names and tags that are all implicit, or all explicit."""
    for _ in range(MOST_STEPS):
        if isinstance(type_, ConstrainedType):
            type_ = type_.type
        elif isinstance(type_, TaggedType) and is_implicit(library, env, type_) == implicit:
            type_ = type_.type
        elif isinstance(type_, ReferenceType):
            env, type_ = follow(library, env, type_)
        elif isinstance(type_, (FieldOfClass, SelectionType)):
            env, type_ = meant(library, env, type_)
        else:
            break
    return env, type_


def simple_lack(type_: Type) -> Lack | None:
    """A type with no parts that the layer lacks."""
    if isinstance(type_, SimpleType) and type_.simple in LACKING:
        return Lack(type_.simple.value, type_.simple.value, type_.simple in CONSTRUCTED)
    return None


def may_be_absent(part: Component) -> bool:
    """Whether a component is OPTIONAL or has a DEFAULT."""
    return part.optional or part.default is not None


def is_implicit(library: Library, env: Env, type_: TaggedType) -> bool:
    """Whether a tag stands in place of that of a type (31.2.7)."""
    if is_untagged_choice(library, env, type_.type):
        return False
    if type_.mode is not None:
        return type_.mode is TagMode.IMPLICIT
    is_default = type_.is_automatic or env.scope.module.tag_default is not TagDefault.EXPLICIT
    return is_default and not is_parameter(env, type_.type)


def readable(library: Library, env: Env, type_: ChoiceType) -> list[Component]:
    """The alternatives that can be read."""
    return [part for part in alternatives(env, type_) if lack_of(library, env, part) is None]
