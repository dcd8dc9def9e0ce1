"""The files of a list: which module of a crate each of their modules of ASN.1 becomes."""

from __future__ import annotations

from dataclasses import replace

from .crates import Entry
from .errors import AsnError
from .parser import parse_modules
from .reading import text_of_file
from .spelling import snake
from .syntax import Module


def read(listed: list[Entry]) -> tuple[list[Module], list[Entry]]:
    """The modules of all files, and the entry of each."""
    modules: list[Module] = []
    entries: list[Entry] = []
    for entry in listed:
        found = parse_modules(str(entry.file), text_of_file(entry.file))
        modules += found
        entries += [named(entry, module, len(found) > 1) for module in found]
    check_names(modules, entries)
    return modules, entries


def named(entry: Entry, module: Module, is_one_of_several: bool) -> Entry:
    """The entry of a module: the name before the file is that of its only module; each of several has its own name."""
    if is_one_of_several and entry.module:
        raise AsnError(
            module.place,
            f"'{entry.file.name}' has several modules, and the list gives them the one name '{entry.module}'",
            f"write '{entry.file.name}' alone in the list: this module is then '{snake(module.name)}' in the crate",
        )
    if is_one_of_several and module.assignments:
        return replace(entry, module=snake(module.name))
    if module.assignments and not entry.module:
        raise AsnError(
            module.place,
            f"the module '{module.name}' has no name in the crate '{entry.crate}'",
            f"write 'name={entry.file.name}' in the list",
        )
    return entry


def check_names(modules: list[Module], entries: list[Entry]) -> None:
    """No two modules of a crate have one name there."""
    seen: dict[tuple[str, str], Module] = {}
    for module, entry in zip(modules, entries):
        other = seen.setdefault((entry.crate, entry.module), module)
        if entry.module and other is not module:
            raise AsnError(
                module.place,
                f"the modules '{module.name}' and '{other.name}' are both '{entry.module}' in the crate '{entry.crate}'",
                "write one of them in a file of its own, with another name before it in the list",
            )
