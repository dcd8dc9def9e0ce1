"""Whole modules: every assignment, in its module's order."""

from __future__ import annotations

from collections.abc import Iterator
from contextlib import contextmanager

from ..errors import Place, Remark
from ..model import Constant, Definition, ResolvedModule
from ..notes import Notes
from ..scope import Env, Library, Scope
from ..spelling import numbered, screaming
from ..syntax import Module, Simple, SimpleType, TypeAssignment, ValueAssignment
from ..values import arcs_of
from .classes import base_of, class_of
from .context import State, too_deep
from .definitions import definition_of
from .lacking import lacking


def resolve(modules: list[Module]) -> tuple[list[ResolvedModule], list[Remark]]:
    """What all modules come to, and what was said of them."""
    state = State(Library(modules))
    for module in modules:
        scope = state.library.scopes[module.name]
        for assignment in module.assignments:
            if isinstance(assignment, TypeAssignment) and is_written(state, scope, assignment):
                define_type(state, scope, assignment)
    found = [resolved(state, module) for module in modules]
    return found, state.remarks


def define_type(state: State, scope: Scope, assignment: TypeAssignment) -> None:
    """The definition of an assignment."""
    with within_limits(assignment.place):
        definition_of(state, Env(scope), assignment, assignment.place)


@contextmanager
def within_limits(place: Place) -> Iterator[None]:
    """An error where what is looked into calls itself oftener than Python allows."""
    try:
        yield
    except RecursionError:
        raise too_deep(place) from None


def is_written(state: State, scope: Scope, assignment: TypeAssignment) -> bool:
    """Whether an assignment is a type of its own: no class, no type with parameters, and not omitted."""
    if assignment.parameters:
        return False
    if class_of(state.library, Env(scope), assignment.type):
        return False
    notes = Notes(assignment.annotations)
    if not notes.has("omit"):
        return not is_lacking(state, scope, assignment)
    notes.check_used(f"'{assignment.name}', which is omitted")
    return False


def is_lacking(state: State, scope: Scope, assignment: TypeAssignment) -> bool:
    """Whether an assignment is of a type that can't be read, and is not written; a component that needs it is an error."""
    with within_limits(assignment.place):
        found = lacking(state.library, Env(scope), assignment.type)
    if found is not None:
        state.remarks.append(Remark(assignment.place, f"'{assignment.name}' is not written: the layer has no {found.what}"))
    return found is not None


def resolved(state: State, module: Module) -> ResolvedModule:
    """The definitions and the constants of a module."""
    mine = [found for (name, _), found in state.definitions.items() if name == module.name]
    definitions: list[Definition] = sorted(mine, key=lambda found: found.place)
    scope = state.library.scopes[module.name]
    values = [one for one in module.assignments if isinstance(one, ValueAssignment) and is_identifier(state, scope, one)]
    names = numbered([screaming(one.name) for one in values])
    constants = [constant(state, scope, one, name) for one, name in zip(values, names)]
    return ResolvedModule(module.name, module.file, definitions, constants, state.library)


def is_identifier(state: State, scope: Scope, assignment: ValueAssignment) -> bool:
    """Whether a value is an object identifier: an object of a class is none."""
    if class_of(state.library, Env(scope), assignment.type):
        return False
    with within_limits(assignment.place):
        base = base_of(state.library, Env(scope), assignment.type)[1]
    return isinstance(base, SimpleType) and base.simple is Simple.OBJECT_IDENTIFIER


def constant(state: State, scope: Scope, assignment: ValueAssignment, rust: str) -> Constant:
    if rust != screaming(assignment.name):
        said = f"'{assignment.name}' is '{rust}', as another is '{screaming(assignment.name)}'"
        state.remarks.append(Remark(assignment.place, said))
    arcs = arcs_of(state.library, Env(scope), assignment.value)
    return Constant(assignment.name, rust, arcs, assignment.text)
