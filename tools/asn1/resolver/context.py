"""What is known while types are resolved."""

from __future__ import annotations

from collections.abc import Iterator
from contextlib import contextmanager
from dataclasses import dataclass, field, replace

from ..errors import AsnError, Place, Remark
from ..model import Definition
from ..notes import Notes
from ..scope import Env, Library
from ..syntax import Module
from .naming import Names

Key = tuple[str, str]
DEEPEST = 60  # names of types, each within the type before it


def too_deep(place: Place) -> AsnError:
    """The error of types that are named, each from within the one before it, too often or without end."""
    return AsnError(
        place,
        "too many types stand within one another here, by their names or their parameters",
        "write '-- @unread' after a component on the way: its octets are kept, and read when they are asked for",
    )


@dataclass
class State:
    """The definitions so far, those that are being made, and what was said."""

    library: Library
    definitions: dict[Key, Definition] = field(default_factory=dict)
    opening: list[Key] = field(default_factory=list)
    spelled: dict[Key, Place] = field(default_factory=dict)
    remarks: list[Remark] = field(default_factory=list)
    depth: int = 0  # how many names of types are being looked into, each from within the one before it
    named: dict[str, Names] = field(default_factory=dict)  # the names of the types of each module

    def names_of(self, module: Module) -> Names:
        """The names in Rattle of the types of a module."""
        if module.name not in self.named:
            self.named[module.name] = Names(module)
        return self.named[module.name]

    def scratch(self) -> "State":
        """A copy, to try what a second instance of a type comes to."""
        return State(self.library, dict(self.definitions), list(self.opening), dict(self.spelled), [], self.depth, self.named)

    @contextmanager
    def within(self, place: Place) -> Iterator[None]:
        """Within a type that is named at this place: of what makes types, each name calls all from the beginning."""
        if self.depth == DEEPEST:
            raise too_deep(place)
        self.depth += 1
        yield
        self.depth -= 1

    def add(self, definition: Definition) -> None:
        """Keeps a definition, whose name in Rattle no other of its module has."""
        spelled = (definition.module, definition.rust)
        if spelled in self.spelled:
            raise AsnError(
                definition.place,
                f"the type '{definition.name}' is named '{definition.rust}', as the one at {self.spelled[spelled]}",
                "write '-- @name(..)' after an assignment, or '-- @type(..)' after a type that is written out",
            )
        self.spelled[spelled] = definition.place
        self.definitions[(definition.module, definition.name)] = definition


@dataclass(frozen=True)
class Context:
    """Where a type stands: the names that it may use, and the name that it gets if it is written out."""

    state: State
    env: Env
    home: str  # the module whose types are being made
    inner: str  # the name in Rattle of a type that is written out here
    notes: Notes
    remarks: list[str]  # what the documentation of the definition says of it
    checks: bool = True  # whether constraints are checked here
    names_lists: bool = False  # whether a list of SEQUENCEs, SETs or CHOICEs gets a name if it is written out here

    def within(self, env: Env) -> "Context":
        return replace(self, env=env)

    def name_within(self, name: str) -> str:
        """The name of a type that is written out, which no type of the module has."""
        return self.state.names_of(self.state.library.scopes[self.home].module).apart(name)

    def item(self) -> "Context":
        return replace(self, inner=self.inner + "Item")

    def remark(self, place: Place, text: str) -> None:
        """Says what is not checked here, in the documentation too."""
        self.say(place, text, f"Not checked: {text}.")

    def say(self, place: Place, text: str, sentence: str = "") -> None:
        """Says what a user has to know of a type: in a remark, and in a sentence of the documentation, which has other words if given."""
        self.remarks.append(sentence or f"{text[0].upper()}{text[1:]}.")
        self.state.remarks.append(Remark(place, text))
