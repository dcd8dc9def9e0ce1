"""All that is compared with the tables."""

from __future__ import annotations

from pathlib import Path

from ..errors import Difference
from ..tables.tables import Tables
from .checks import compare_checks
from .findings import compare_findings
from .pages import compare_pages
from .rules import compare_rules
from .steps import compare_steps
from .structs import compare_structs


def compare(root: Path, tables: Tables) -> list[Difference]:
    return [
        *compare_rules(root, tables.rules),
        *compare_findings(root, tables.rules),
        *compare_steps(root, tables.steps),
        *compare_structs(root, tables.structs),
        *compare_checks(root, tables.checks),
        *compare_pages(root, tables.rules),
    ]
