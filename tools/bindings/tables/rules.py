"""The table of rules: a line a rule."""

from __future__ import annotations

import re
from dataclasses import dataclass

from .lines import Line, lines_of

KINDS = ("certificate", "list")
NAME = re.compile(r"^([A-Z][a-z]*[0-9]*)+$")
SECTION = r"(\d+(\.\d+)+|[AB](\.\d+)?)"
SECTIONS = re.compile(rf"^{SECTION}(, {SECTION})*$")
NAME_IN_C = re.compile(r"^C: ([A-Z0-9]+(_[A-Z0-9]+)*)$")


@dataclass(frozen=True)
class Rule:
    """A rule of RFC 5280 for certificates or for lists of revoked certificates."""

    kind: str
    bit: int
    name: str
    sections: str  # the first is the one that `section` returns
    sentence: str  # what RFC 5280 requires; no full stop
    broken_by: str  # what a certificate or a list has that breaks it
    name_in_c: str | None  # if it is not derived from the name

    @property
    def section(self) -> str:
        return self.sections.split(", ")[0]


def rules_of(file: str, text: str) -> list[Rule]:
    """The rules of a table: of each kind, the bits are 0, 1, 2 and so on, and no two rules have one name."""
    found: list[Rule] = []
    for line in lines_of(file, text):
        rule = rule_of(line)
        before = [other for other in found if other.kind == rule.kind]
        if rule.bit != len(before):
            raise line.error(f"the next rule of this kind has bit {len(before)}, not {rule.bit}")
        if rule.bit > 63:
            raise line.error("a number of 64 bits has no bit for this rule")
        if rule.name in [other.name for other in before]:
            raise line.error(f"another rule has the name {rule.name}")
        found.append(rule)
    return found


def rule_of(line: Line) -> Rule:
    """The rule of a line."""
    parts = [part.strip() for part in line.text.split("|")]
    if len(parts) not in (6, 7) or not all(parts):
        raise line.error("a rule has six parts, or seven")
    kind, bit, name, sections, sentence, broken_by = parts[:6]
    given = NAME_IN_C.match(parts[6]) if len(parts) == 7 else None
    wrong = [
        (kind not in KINDS, "a rule is of a certificate or of a list"),
        (not bit.isdecimal(), "the second part is the rule's bit"),
        (not NAME.match(name), f"{name} is no name of a variant"),
        (not SECTIONS.match(sections), f"{sections} are no sections"),
        (sentence.endswith("."), "the sentence has no full stop"),
        (len(parts) == 7 and given is None, "the seventh part is 'C: ' and a name in capital letters"),
    ]
    for is_wrong, problem in wrong:
        if is_wrong:
            raise line.error(problem)
    return Rule(kind, int(bit), name, sections, sentence, broken_by, given[1] if given else None)


def of_kind(rules: list[Rule], kind: str) -> list[Rule]:
    return [rule for rule in rules if rule.kind == kind]
