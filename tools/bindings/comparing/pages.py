"""How many rules there are, by docs/C.md."""

from __future__ import annotations

import re
from pathlib import Path

from ..errors import Difference
from ..regions import text_of
from ..tables.rules import KINDS, Rule, of_kind
from .listing import line_at

FILE = "docs/C.md"
COUNT = re.compile(r"which of (\d+) rules")


def compare_pages(root: Path, rules: list[Rule]) -> list[Difference]:
    text = text_of(root / FILE)
    found = list(COUNT.finditer(text))
    if len(found) != len(KINDS):
        return [Difference(FILE, 1, f"the count of rules stands {len(found)} times")]
    counts = [len(of_kind(rules, kind)) for kind in KINDS]
    return [
        Difference(FILE, line_at(text, count.start()), f"there are {expected} rules, not {count[1]}")
        for count, expected in zip(found, counts)
        if count[1] != str(expected)
    ]
