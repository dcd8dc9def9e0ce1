"""The structs of der_c that calls which check take and write."""

from __future__ import annotations

import re
from pathlib import Path

from ..errors import Difference
from ..regions import text_of
from ..tables.checks import Check
from .listing import compare, line_at
from .structs import FOLDER, members

FOLDERS = (f"{FOLDER}/path", f"{FOLDER}/revocation")
STRUCT = re.compile(r"^#\[repr\(C\)\]\n#\[derive\(.*\)\]\npub struct (\w+) ", re.M)


def compare_checks(root: Path, checks: list[Check]) -> list[Difference]:
    texts = {f"{folder}/{path.name}": text_of(path) for folder in FOLDERS for path in sorted((root / folder).glob("*.rt"))}
    found = [(file, struct) for file, text in texts.items() for struct in STRUCT.finditer(text)]
    wrong = [it for check in checks for it in compare_check(check, texts, [file for file, it in found if it[1] == check.type])]
    known = [check.type for check in checks]
    others = [(file, it) for file, it in found if it[1] not in known]
    return wrong + [Difference(file, line_at(texts[file], it.end()), f"the table has no struct {it[1]}") for file, it in others]


def compare_check(check: Check, texts: dict[str, str], files: list[str]) -> list[Difference]:
    """The struct of a file, of those that have it."""
    if len(files) != 1:
        return [Difference(FOLDERS[0], 1, f"{len(files)} files have {check.type}")]
    expected = [(field.name_elsewhere, "Place" if field.is_place else field.type) for field in check.fields]
    return compare(files[0], texts[files[0]], members(check.type), expected)
