"""What certview says of each rule that is broken."""

from __future__ import annotations

import re
from dataclasses import dataclass
from pathlib import Path

from ..errors import Difference
from ..regions import text_of
from ..tables.rules import Rule, of_kind
from .listing import line_at

FILE = "crates/certview_text/src/findings.rt"
BEFORE = ("finding", "field", "name", "usage", "constraint", "value", "point")  # the functions before `criticality`, each with a last arm `_`
CRITICALITY = re.compile(r"^(\w+)(?: of a CA|( of an entry))? is (not )?critical$")


@dataclass(frozen=True)
class Arm:
    """An arm of a match over rules: its line, the rule's name ('_' of the last arm), and what it returns."""

    line: int
    name: str
    value: str


def compare_findings(root: Path, rules: list[Rule]) -> list[Difference]:
    text = text_of(root / FILE)
    wrong = []
    for kind in ("certificate", "list"):
        wrong += compare_kind(text, kind, of_kind(rules, kind))
    return wrong


def compare_kind(text: str, kind: str, rules: list[Rule]) -> list[Difference]:
    """Each rule has one arm in one of the matches; one rule is that of the last arm, which names none."""
    arms = [arm for what in BEFORE for arm in arms_of(text, kind, what)[:-1]] + arms_of(text, kind, "criticality")
    if not arms or arms[-1].name != "_":
        return [Difference(FILE, 1, f"{kind}_finding and {kind}_criticality are not there, each with a last arm '_'")]
    names = [arm.name for arm in arms[:-1]]
    left = [rule for rule in rules if rule.name not in names]
    wrong = [Difference(FILE, arm.line, f"the table has no rule {arm.name}") for arm in arms[:-1] if not named(rules, arm.name)]
    wrong += [Difference(FILE, arm.line, f"{arm.name} has two arms") for at, arm in enumerate(arms[:-1]) if arm.name in names[:at]]
    if len(left) != 1:
        listed = ", ".join(rule.name for rule in left) or "none"
        return [*wrong, Difference(FILE, arms[-1].line, f"the arm '_' is that of one rule, and here of {listed}")]
    known = [(named(rules, arm.name) or left[0], arm) for arm in arms if arm.name == "_" or named(rules, arm.name)]
    return wrong + [it for rule, arm in known for it in wrong_words(rule, arm)]


def named(rules: list[Rule], name: str) -> Rule | None:
    return next((rule for rule in rules if rule.name == name), None)


def arms_of(text: str, kind: str, what: str) -> list[Arm]:
    """The arms of the match in a function."""
    function = re.search(rf"^fn {kind}_{what}\(.*\n(?:    let .*\n)*    match rule \{{\n((?s:.*?))^    \}}\n\}}", text, re.M)
    if not function:
        return []
    heads = list(re.finditer(r"^        (?:\w+::)?(\w+) => ", function[1], re.M))
    ends = [head.start() for head in heads[1:]] + [len(function[1])]
    return [
        Arm(line_at(text, function.start(1) + head.start()), head[1], function[1][head.end() : end])
        for head, end in zip(heads, ends)
    ]


def wrong_words(rule: Rule, arm: Arm) -> list[Difference]:
    """Of a rule on criticality: the extension and what it must not be."""
    says = CRITICALITY.match(rule.sentence)
    if not says:
        return []
    extension, of_entry, is_not = says.groups()
    if of_entry:
        words = f'"has a critical {extension}"' if is_not else f'"has a {extension} that is not critical"'
    else:
        words = f'{"is_critical" if is_not else "is_not_critical"}("{extension}"'
    value = re.sub(r"\(\s+", "(", arm.value)
    return [] if words in value else [Difference(FILE, arm.line, f"the finding of {rule.name} lacks {words}")]
