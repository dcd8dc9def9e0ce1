"""The table of steps: a line a step."""

from __future__ import annotations

import re
from dataclasses import dataclass

from .lines import Line, lines_of

KINDS = {"certificate": "Step", "list": "ListStep", "answer": "OcspStep"}  # what is refused, and the enum of der_path
NAME = re.compile(r"^([A-Z][a-z]*)+$")
SECTION = re.compile(r"^\d+(\.\d+)+( (\([a-z0-9]+\))+)?$")


@dataclass(frozen=True)
class Step:
    """A step of an RFC that refuses a certificate of a chain, a list of revoked certificates or an answer of OCSP."""

    kind: str
    number: int
    name: str
    section: str  # with the letter or the number within it
    phrase: str  # for which fault the step refuses; no full stop

    @property
    def enum(self) -> str:
        return KINDS[self.kind]


def steps_of(file: str, text: str) -> list[Step]:
    """The steps of a table: of each kind, the numbers are 1, 2, 3 and so on, and no two steps have one name."""
    found: list[Step] = []
    for line in lines_of(file, text):
        step = step_of(line)
        before = of_kind(found, step.kind)
        if step.number != len(before) + 1:
            raise line.error(f"the next step of this kind has number {len(before) + 1}, not {step.number}")
        if step.name in [other.name for other in before]:
            raise line.error(f"another step has the name {step.name}")
        found.append(step)
    return found


def step_of(line: Line) -> Step:
    """The step of a line."""
    parts = [part.strip() for part in line.text.split("|")]
    if len(parts) != 5 or not all(parts):
        raise line.error("a step has five parts")
    kind, number, name, section, phrase = parts
    wrong = [
        (kind not in KINDS, "a step refuses a certificate, a list or an answer"),
        (not number.isdecimal(), "the second part is the step's number"),
        (not NAME.match(name), f"{name} is no name of a variant"),
        (not SECTION.match(section), f"{section} is no section with a letter or a number"),
        (phrase.endswith("."), "the phrase has no full stop"),
    ]
    for is_wrong, problem in wrong:
        if is_wrong:
            raise line.error(problem)
    return Step(kind, int(number), name, section, phrase)


def of_kind(steps: list[Step], kind: str) -> list[Step]:
    return [step for step in steps if step.kind == kind]
