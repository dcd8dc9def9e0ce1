"""The names that the written files use, so that no type of a module has them in Rattle."""

from __future__ import annotations

from .writer.names import LOGIC, RUST, WORDS

PRELUDE = frozenset(["Err", "None", "Ok", "Option", "Result", "Self", "Some", "Vec", "Box", "String"])
TAKEN = PRELUDE | {name for words in (RUST, LOGIC, WORDS) for _, name in words.values()} | {"Fields", "Tree"}
FILES = ("aliases", "constants", "grammar", "laws")  # of each module, beside those of its types


def is_reserved(name: str) -> bool:
    """Whether a written file uses this name, or each module has a file of it."""
    return name in TAKEN or name.lower() in FILES
