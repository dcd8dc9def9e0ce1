"""The names in Rattle of the types of a module: of names that are spelled alike, each but the first has a number, and so has one
that the written files use themselves."""

from __future__ import annotations

from ..annotations import NAMED_BY
from ..reserved import is_reserved
from ..spelling import camel
from ..syntax import Module, TypeAssignment


class Names:
    """The names of the types that a module assigns, but for those that an annotation names."""

    def __init__(self, module: Module) -> None:
        names = [one.name for one in module.assignments if isinstance(one, TypeAssignment) and not is_named(one)]
        self.taken = {camel(name).lower() for name in names}
        self.of: dict[str, str] = {}
        seen: set[str] = set()
        for name in names:
            spelled = camel(name)
            self.of[name] = self.apart(spelled) if spelled.lower() in seen or is_reserved(spelled) else spelled
            self.taken.add(self.of[name].lower())
            seen.add(spelled.lower())

    def said(self, name: str) -> str | None:
        """Why a type has a number in its name, if it has one."""
        spelled = camel(name)
        own = self.of.get(name, spelled)
        if own == spelled:
            return None
        other = "what the written files use" if is_reserved(spelled) else "another type of the module"
        return f"'{name}' is '{own}', as {other} is '{spelled}'"

    def apart(self, name: str) -> str:
        """The name, or with the least number from 2 on with which it differs from these in more than its capitals."""
        found, number = name, 1
        while found.lower() in self.taken:
            number += 1
            found = f"{name}{number}"
        return found


def is_named(assignment: TypeAssignment) -> bool:
    """Whether an annotation names a type, or says that it is not written."""
    return any(note.name in NAMED_BY for note in assignment.annotations)
