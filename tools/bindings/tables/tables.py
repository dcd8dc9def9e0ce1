"""What all tables have."""

from __future__ import annotations

from dataclasses import dataclass
from pathlib import Path

from ..regions import text_of
from .checks import Check, checks_of
from .reading import structs_of
from .rules import Rule, rules_of
from .steps import Step, steps_of
from .structs import Struct

RULES = "asn1/rules.txt"
STEPS = "asn1/steps.txt"
STRUCTS = "asn1/structs.txt"
CHECKS = "asn1/checks.txt"


@dataclass(frozen=True)
class Tables:
    """The lines of each table."""

    rules: list[Rule]
    steps: list[Step]
    structs: list[Struct]
    checks: list[Check]

    def __str__(self) -> str:
        return f"{len(self.rules)} rules, {len(self.steps)} steps, {len(self.structs) + len(self.checks)} structs"


def tables_of(root: Path) -> Tables:
    """The tables of a repository."""
    return Tables(
        rules_of(RULES, text_of(root / RULES)),
        steps_of(STEPS, text_of(root / STEPS)),
        structs_of(STRUCTS, text_of(root / STRUCTS)),
        checks_of(CHECKS, text_of(root / CHECKS)),
    )
