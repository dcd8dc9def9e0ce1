"""Which crate and which module a module of ASN.1 is written to."""

from __future__ import annotations

from dataclasses import dataclass

from ..model import Alias, Definition
from ..spelling import snake

DEFAULTS = "defaults"  # the file of a module that has the types which stand for its defaults
DEFAULT_LAWS = "DefaultLaws"  # the page of the laws by which they are made and told


@dataclass(frozen=True)
class Target:
    """The crate of a module of ASN.1, and its module there."""

    crate: str
    module: str

    @property
    def page(self) -> str:
        """The module of specs/ that has its grammar."""
        return "".join(word.capitalize() for word in self.module.split("_"))


def is_apart(definition: Definition) -> bool:
    """Whether a definition has no file of its own: a second name, and a type that a crate has already."""
    return isinstance(definition, Alias) or bool(definition.by_hand)


@dataclass(frozen=True)
class Plan:
    """The targets of all modules that are known."""

    targets: dict[str, Target]

    def of(self, definition: Definition) -> Target:
        return self.targets[definition.module]

    def file(self, definition: Definition) -> str:
        """The source file that has a definition, without its ending: second names share one."""
        return "aliases" if is_apart(definition) else snake(definition.rust)

    def module(self, definition: Definition, kind: str) -> str:
        """The module of the logic that has a definition: what is declared of it, or its contracts."""
        if definition.by_hand:
            crate, *files = definition.by_hand[:-1]
            return ".".join([crate, "specs", kind, *files])
        target = self.of(definition)
        return f"{target.crate}.specs.{kind}.{target.module}.{self.file(definition)}"
