"""The names of modules (X.680 13.12 to 13.17, 14), and those of parameters (X.683 8)."""

from __future__ import annotations

import difflib
from dataclasses import dataclass, field

from .errors import AsnError, Place
from .missing import not_given
from .syntax import (
    Actual,
    Assignment,
    ClassAssignment,
    Module,
    SetAssignment,
    TypeAssignment,
    ValueAssignment,
)

WHAT = {
    TypeAssignment: "type",
    ValueAssignment: "value",
    ClassAssignment: "class",
    SetAssignment: "set",
}


@dataclass(eq=False)
class Scope:
    """The names that a module assigns and imports."""

    module: Module
    assigned: dict[str, Assignment]
    imported: dict[str, tuple[str, ...]]  # the modules that each name is imported from

    def hands_on(self, name: str) -> bool:
        """Whether a name is imported from one module, and exported again: by its name, or with all others (13.13, 13.16 a)."""
        exports = self.module.exports
        is_exported = exports is None or name in [token.text for token in exports]
        return is_exported and len(self.imported.get(name, ())) == 1


@dataclass(frozen=True)
class Binding:
    """What a parameter stands for, and where that is to be understood."""

    actual: Actual
    env: "Env"


@dataclass(frozen=True, eq=False)
class Env:
    """A module's names, and the parameters of the type that is looked into."""

    scope: Scope
    bindings: dict[str, Binding] = field(default_factory=dict)


class Library:
    """All modules that were given."""

    def __init__(self, modules: list[Module]) -> None:
        self.scopes: dict[str, Scope] = {}
        # The components and the items at which types are cut that reach themselves, by their modules and places, with the types
        # that they lead back to; and the types of which they are known, by their modules and places.
        self.cuts: dict[tuple[str, Place], str] = {}
        self.searched: set[tuple[str, Place]] = set()
        for module in modules:
            if module.name in self.scopes:
                raise AsnError(
                    module.place,
                    f"the module '{module.name}' is given twice",
                    f"leave one out; the other is {self.scopes[module.name].module.place}",
                )
            self.scopes[module.name] = scope_of(module)
        for scope in self.scopes.values():
            self.check_imports(scope)
            self.check_exports(scope)

    def check_imports(self, scope: Scope) -> None:
        """Each name that is imported from a module which is given has to be assigned there, or handed on."""
        for imported in scope.module.imports:
            source = self.scopes.get(imported.module)
            for symbol in imported.symbols if source else ():
                assert source is not None
                exports = source.module.exports
                if symbol.text not in source.assigned and symbol.text not in source.imported:
                    raise AsnError(
                        symbol.place,
                        f"the module '{imported.module}' assigns no '{symbol.text}'",
                        nearest(symbol.text, list(source.assigned)),
                    )
                if exports is not None and symbol.text not in [token.text for token in exports]:
                    raise AsnError(
                        symbol.place,
                        f"the module '{imported.module}' does not export '{symbol.text}'",
                        "write the name under its EXPORTS",
                    )

    def check_exports(self, scope: Scope) -> None:
        """Each name that is exported is assigned or imported (13.13)."""
        for symbol in scope.module.exports or ():
            if symbol.text not in scope.assigned and symbol.text not in scope.imported:
                raise AsnError(
                    symbol.place,
                    f"'{symbol.text}' is exported, and neither assigned nor imported",
                    nearest(symbol.text, list(scope.assigned)),
                )

    def find(self, env: Env, name: str, place: Place, module: str | None = None) -> tuple[Scope, Assignment]:
        """The assignment of a name, and the module that has it."""
        scope = env.scope
        if module is not None and module != scope.module.name:
            return self.find_in(module, name, place)
        if name in scope.assigned:
            return scope, scope.assigned[name]
        if name not in scope.imported:
            raise AsnError(
                place,
                f"'{name}' is neither assigned in '{scope.module.name}' nor imported",
                nearest(name, [*scope.assigned, *scope.imported]),
            )
        found = [self.find_in(source, name, place) for source in scope.imported[name]]
        if any(one[1] is not found[0][1] for one in found):
            sources = scope.imported[name]
            raise AsnError(
                place,
                f"'{name}' is imported from {' and '.join(sources)}, which assign it differently",
                f"write '{sources[0]}.{name}', or the name with another of the modules before it (X.680 14.1)",
            )
        return found[0]

    def find_in(self, module: str, name: str, place: Place, by: tuple[str, ...] = ()) -> tuple[Scope, Assignment]:
        """The assignment of a name in another module, by the modules that hand it on."""
        source = self.scopes.get(module)
        if source is None:
            raise not_given(name, module, place, [scope.module for scope in self.scopes.values()])
        if name in source.assigned:
            return source, source.assigned[name]
        if source.hands_on(name) and module not in by:
            return self.find_in(source.imported[name][0], name, place, (*by, module))
        if len(source.imported.get(name, ())) > 1:
            raise AsnError(
                place,
                f"the module '{module}' imports '{name}' from {' and '.join(source.imported[name])}, and so hands on none of them",
                "import it from the module that assigns it (X.680 13.16 a)",
            )
        raise AsnError(place, f"the module '{module}' assigns no '{name}'", nearest(name, list(source.assigned)))

    def find_type(self, env: Env, name: str, place: Place, module: str | None = None) -> tuple[Scope, TypeAssignment]:
        """The assignment of a name that has to be a type's."""
        scope, found = self.find(env, name, place, module)
        if isinstance(found, TypeAssignment):
            return scope, found
        raise AsnError(
            place,
            f"'{name}' is a {WHAT[type(found)]}, and stands where a type is expected",
            "write the name of a type",
        )


def nearest(name: str, known: list[str]) -> str:
    """What to write in place of a name that is not known."""
    close = difflib.get_close_matches(name, known, 1)
    return f"did you mean '{close[0]}'?" if close else f"assign it ('{name} ::= ..') or import it"


def scope_of(module: Module) -> Scope:
    """The names of a module, each of which stands for one thing (13.12)."""
    assigned: dict[str, Assignment] = {}
    for assignment in module.assignments:
        other = assigned.get(assignment.name)
        if other is not None:
            raise AsnError(
                assignment.place,
                f"'{assignment.name}' is assigned twice",
                f"give one of them another name; the other is at {other.place}",
            )
        assigned[assignment.name] = assignment
    return Scope(module, assigned, imported_by(module))


def imported_by(module: Module) -> dict[str, tuple[str, ...]]:
    """The names that a module imports, each with the modules that it is imported from."""
    found: dict[str, tuple[str, ...]] = {}
    for import_ in module.imports:
        for symbol in import_.symbols:
            before = found.get(symbol.text, ())
            found[symbol.text] = before if import_.module in before else (*before, import_.module)
    return found


def check_names(names: list[tuple[Place, str]], what: str) -> None:
    """Names of components, alternatives or numbers differ (25.12, 29.2, 19.4, 20.4, 22.4)."""
    seen: dict[str, Place] = {}
    for place, name in names:
        if name in seen:
            instead = f"give one another name; the other is at {seen[name]}"
            raise AsnError(place, f"the {what} '{name}' stands twice", instead)
        seen[name] = place
