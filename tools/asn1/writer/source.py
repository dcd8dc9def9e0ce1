"""A source file of Rattle while it is written: its text, and what it imports."""

from __future__ import annotations

from ..model import Definition, Marker
from .names import LOGIC, MEMBERS, RUST, WORDS
from .plan import DEFAULT_LAWS, DEFAULTS, Plan, Target



class Source:
    """One file of src/."""

    def __init__(self, plan: Plan, target: Target, file: str = "") -> None:
        self.plan = plan
        self.target = target
        self.file = file  # the module's file that this is, without its ending
        self.parts: list[str] = []
        self.imports: dict[str, set[str]] = {}
        self.words: dict[str, set[str]] = {}
        self.laws: set[str] = set()  # of the module's defaults

    # ---- names

    def use(self, key: str) -> str:
        """An item of the library, which is imported."""
        crate, name = RUST[key]
        self.imports.setdefault(crate, set()).add(name)
        return name

    def use_type(self, definition: Definition) -> str:
        """A type that is written too, which is imported from where it stands."""
        name = definition.rust
        target, file = self.plan.of(definition), self.plan.file(definition)
        if file == self.file and target == self.target:
            return name
        path = self.root_of(definition.by_hand[0]) if definition.by_hand else self.path_of(target, file)
        self.imports.setdefault(path, set()).add(name)
        return name

    def use_default(self, marker: Marker) -> str:
        """The type that stands for a default, which is imported from where it stands."""
        target = self.plan.targets[marker.module]
        if self.file != DEFAULTS or target != self.target:
            self.imports.setdefault(self.path_of(target, DEFAULTS), set()).add(marker.rust)
        return marker.rust

    def using(self, law: str) -> str:
        """The attribute of a function whose proof takes a law of the module's defaults."""
        self.laws.add(law)
        return f"#[tactic(auto, using(crate::specs::{self.target.page}::{DEFAULT_LAWS}::{law}))]"

    def path_of(self, target: Target, file: str) -> str:
        """What a file of a module has, as this file names it: a file of another module through that."""
        if target.crate != self.target.crate:
            return f"{target.crate}::{target.module}"
        return f"crate::{target.module}" + (f"::{file}" if target.module == self.target.module else "")

    def root_of(self, crate: str) -> str:
        """The root of a crate, as this file names it."""
        return "crate" if crate == self.target.crate else crate

    def logic_name(self, definition: Definition) -> str:
        """A type that is written too, as the logic has it."""
        return self.page_word(f"{self.plan.module(definition, 'declared')}.{definition.rust}", definition.rust)

    def word(self, key: str) -> str:
        """A word of the logic, which is imported; operators are written as they are."""
        module, name = WORDS[key]
        self.words.setdefault(module, set()).add(name)
        return key if name.startswith("◌") else name

    def page_word(self, module: str, name: str) -> str:
        """A word of a page that is written too."""
        self.words.setdefault(module, set()).add(name)
        return name

    @staticmethod
    def member(key: str) -> str:
        """A member of a trait, a record or a struct of the library."""
        return MEMBERS[key]

    # ---- text

    def add(self, text: str) -> None:
        """An item, with an empty line before it."""
        self.parts.append(text.strip("\n"))

    def text(self, first: list[str]) -> str:
        """The file: its first lines, its imports, and its items."""
        lines = [*first, ""]
        for module in sorted(self.words, key=order_of):
            lines.append(f"ghost use Rattle.{imported(module, self.words[module])};")
        lines.append("")
        for path in sorted(path for path in self.imports):
            names = sorted(self.imports[path])
            listed = names[0] if len(names) == 1 else f"{{{', '.join(names)}}}"
            lines.append(f"use {path}::{listed};")
        lines += ["", "\n\n".join(self.parts), ""]
        return "\n".join(lines)


def order_of(module: str) -> tuple[int, str]:
    """The standard library's words stand first."""
    return (0 if module.startswith("std.") else 1, module)


def imported(module: str, names: set[str]) -> str:
    """Words of a module, or the module itself by another name."""
    return module if " as " in module else f"{module}.{{{', '.join(sorted_words(names))}}}"


def sorted_words(names: set[str]) -> list[str]:
    """Operators first."""
    return sorted(names, key=lambda name: (not name.startswith("◌"), name))


class Page:
    """One file of specs/: what it imports, and its definitions."""

    def __init__(self, plan: Plan, target: Target, first: str) -> None:
        self.plan = plan
        self.target = target
        self.first = first
        self.words: dict[str, set[str]] = {}
        self.parts: list[str] = []

    def word(self, key: str) -> str:
        module, name = WORDS[key]
        self.words.setdefault(module, set()).add(name)
        return key if name.startswith("◌") else name

    def from_module(self, module: str, name: str) -> str:
        self.words.setdefault(module, set()).add(name)
        return name

    def logic(self, key: str) -> str:
        """A type of the library, as the logic has it."""
        module, name = LOGIC[key]
        if module is not None:
            self.words.setdefault(module, set()).add(name)
        return name

    def logic_type(self, definition: Definition) -> str:
        """A type that is written too, as the logic has it."""
        module = f"{self.plan.module(definition, 'declared')}.{definition.rust}"
        self.words.setdefault(module, set()).add(definition.rust)
        return definition.rust

    def integer(self, number: int) -> str:
        """A number as the logic has it: the negative ones are counted from -1 on."""
        return f"{self.word('pos')} {number}" if number >= 0 else f"{self.word('negsuc')} {-number - 1}"

    def add(self, text: str) -> None:
        self.parts.append(text)

    def text(self) -> str:
        lines = [self.first]
        for module in sorted(self.words, key=order_of):
            lines.append(f"use Rattle.{imported(module, self.words[module])}")
        return "\n".join(lines) + "\n\n" + "\n\n".join(self.parts) + "\n"
