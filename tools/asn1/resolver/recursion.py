"""Types that reach themselves: the components and the items at which they are cut, by the tree of the modules alone.

What is cut is kept as contents octets behind its tag, and not read. So it has one tag, and is constructed. A SET or a SET OF with its
own tag is kept as items of any type; it is cut where nothing else can be.
"""

from __future__ import annotations

from collections.abc import Iterator
from dataclasses import dataclass
from typing import Union

from ..errors import AsnError, Place
from ..scope import Env, Library, Scope
from ..syntax import (
    ChoiceType,
    Component,
    ComponentsOf,
    ConstrainedType,
    FieldOfClass,
    FieldsType,
    ListType,
    ReferenceType,
    SelectionType,
    TaggedType,
    Type,
    TypeAssignment,
)
from ..tagging import has_automatic_tags
from .classes import MOST_STEPS, follow, meant
from .cycles import Graph, groups_of

Key = tuple[str, str]
Found = tuple[Scope, TypeAssignment]
Within = Union[Component, ReferenceType]
Around = tuple[Within, bool]  # with whether it gets an automatic tag


@dataclass(frozen=True)
class Way:
    """A name of a type within an assignment: by it the one type is reached from the other."""

    source: Key
    target: Key
    place: Place  # of the component that it stands in, of the item, or of the name
    can_be_cut: bool  # behind a tag, or behind that of a SEQUENCE
    is_in_set: bool  # or else, behind that of a SET
    is_back: bool  # to a type of before, or to the same

    @property
    def key(self) -> tuple[str, Place]:
        return self.source[0], self.place


def cut_at(library: Library, env: Env, place: Place) -> str | None:
    """The type that a component or an item of a module leads back to, if it is cut there."""
    return library.cuts.get((env.scope.module.name, place))


def find_cuts(library: Library, scope: Scope, assignment: TypeAssignment) -> None:
    """Finds where types are cut that reach themselves, of those that a type has within it and itself.

    These are the ways back to a type of before, or to the same. Where none of them can be cut, as before a CHOICE with no
    tag, it is the first way around that can be; where none can, the ways are cut that stand in a SET with its own tag.
    """
    ways = ways_from(library, (scope, assignment))
    while True:
        ways_left = ways_around([way for way in ways if way.key not in library.cuts])
        around = [way for way in ways_left if way.can_be_cut] or [way for way in ways_left if way.is_in_set]
        if not around:
            return
        back = [way for way in around if way.is_back]
        library.cuts.update((way.key, way.target[1]) for way in back or around[:1])


def ways_around(ways: list[Way]) -> list[Way]:
    """Those by which a type is reached from itself."""
    graph: Graph[Key] = {}
    for way in ways:
        graph.setdefault(way.source, []).append(way.target)
    group = groups_of(graph)
    return [way for way in ways if group[way.source] == group[way.target]]


# ---- the ways


def order_of(found: Found) -> tuple[str, Place]:
    """The order of types: of modules by their names, and in each as the text has them."""
    return found[0].module.name, found[1].place


def ways_from(library: Library, start: Found) -> list[Way]:
    """The ways within a type and those that it reaches, but for those that were searched before, in the order of the text."""
    waiting, ways = [start], []
    while waiting:
        found = waiting.pop()
        if order_of(found) in library.searched:
            continue
        library.searched.add(order_of(found))
        for within, in_set, name, other in names_of(library, found):
            waiting.append(other)
            keys = [(scope.module.name, assignment.name) for scope, assignment in (found, other)]
            place = (within or in_set or name).place
            way = Way(keys[0], keys[1], place, within is not None, in_set is not None, order_of(other) <= order_of(found))
            ways.append((order_of(found), way))
    return [way for _, way in sorted(ways, key=lambda one: (one[0], one[1].place))]


def names_of(library: Library, found: Found) -> Iterator[tuple[Within | None, Within | None, ReferenceType, Found]]:
    """The names of types in an assignment, each with the innermost component or item around it that can be cut behind a tag, the
    innermost that is a SET, and what it stands for; those of parameters stand for none."""
    scope, assignment = found
    parameters = [parameter.name for parameter in assignment.parameters]
    for around, name in names_in(Env(scope), assignment.type, ()):
        other = None if name.module is None and name.name in parameters else assigned(library, scope, name)
        if other is not None:
            can_be_cut = (one for one, is_tagged in reversed(around) if is_tagged or is_kept_behind_a_tag(library, scope, one))
            sets = (one for one, _ in reversed(around) if is_set(library, scope, one))
            yield next(can_be_cut, None), next(sets, None), name, other


def names_in(env: Env, tree: object, around: tuple[Around, ...]) -> Iterator[tuple[tuple[Around, ...], ReferenceType]]:
    """The names of types in a type, each with the components or the item around it; what is not read is passed over."""
    if isinstance(tree, (FieldsType, ChoiceType)):
        parts = tree.components if isinstance(tree, FieldsType) else tree.alternatives
        is_tagged = has_automatic_tags(env, [part for part in parts if isinstance(part, Component)])
        for part in parts:
            if isinstance(part, ComponentsOf):
                yield from names_in(env, part.type, ())
            elif not any(note.name == "unread" for note in part.annotations):
                yield from names_in(env, part.type, (*around, (part, is_tagged)))
    elif isinstance(tree, (ConstrainedType, TaggedType, SelectionType)):
        yield from names_in(env, tree.type, around)
    elif isinstance(tree, ListType):
        item = ((tree.item, False),) if isinstance(tree.item, ReferenceType) else ()
        yield from names_in(env, tree.item, around or item)
    elif isinstance(tree, ReferenceType):
        yield around, tree
        for actual in tree.actuals:
            yield from names_in(env, actual.type, around)


def assigned(library: Library, scope: Scope, name: ReferenceType) -> tuple[Scope, TypeAssignment] | None:
    """The assignment of a name, if it is a type's of a module that is given."""
    sources = (name.module,) if name.module is not None else scope.imported.get(name.name, (scope.module.name,))
    if not all(source in library.scopes for source in sources):
        return None
    try:
        return library.find_type(Env(scope), name.name, name.place, name.module)
    except AsnError:
        return None


# ---- tags


def is_kept_behind_a_tag(library: Library, scope: Scope, within: Within) -> bool:
    """Whether what reaches another type has one tag, so that its contents octets can be kept behind it."""
    base = base_within(library, scope, within)
    return isinstance(base, TaggedType) or (isinstance(base, (FieldsType, ListType)) and not base.is_set)


def is_set(library: Library, scope: Scope, within: Within) -> bool:
    """Whether what reaches another type is a SET or a SET OF with its own tag."""
    base = base_within(library, scope, within)
    return isinstance(base, (FieldsType, ListType)) and base.is_set


def base_within(library: Library, scope: Scope, within: Within) -> Type | None:
    """The outermost tag of a component or an item, or its type where it has none; None where a name stands for no type."""
    type_ = within.type if isinstance(within, Component) else within
    try:
        return first_tagged(library, Env(scope), type_)[1]
    except AsnError:
        return None


def first_tagged(library: Library, env: Env, type_: Type) -> tuple[Env, Type]:
    """The outermost tag before a type, by whatever names, or the type itself where it has none before it."""
    for _ in range(MOST_STEPS):
        if isinstance(type_, ConstrainedType):
            type_ = type_.type
        elif isinstance(type_, ReferenceType):
            env, type_ = follow(library, env, type_)
        elif isinstance(type_, (FieldOfClass, SelectionType)):
            env, type_ = meant(library, env, type_)
        else:
            break
    return env, type_
