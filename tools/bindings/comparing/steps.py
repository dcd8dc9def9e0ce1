"""The lists of steps in der_path, der_c and certview_text."""

from __future__ import annotations

from pathlib import Path

from ..errors import Difference
from ..regions import text_of
from ..tables.steps import KINDS, Step, of_kind
from .listing import Entry, Listing, compare

SOURCES = {
    "certificate": "crates/der_path/src/step.rt",
    "list": "crates/der_path/src/list_step.rt",
    "answer": "crates/der_path/src/ocsp_step.rt",
}
DEFINITIONS = {
    "certificate": "crates/der_path/specs/Steps.antt",
    "list": "crates/der_path/specs/ListSteps.antt",
    "answer": "crates/der_path/specs/OcspSteps.antt",
}
NUMBERS = {
    "certificate": "crates/der_c/src/path/refusal.rt",
    "list": "crates/der_c/src/revocation/numbers.rt",
    "answer": "crates/der_c/src/revocation/numbers.rt",
}
DEFINED_NUMBERS = {
    "certificate": "crates/der_c/specs/ChainFaults.antt",
    "list": "crates/der_c/specs/StatusNumbers.antt",
    "answer": "crates/der_c/specs/StatusNumbers.antt",
}
WORDS = "crates/certview_text/src/steps.rt"
LETTER = {"certificate": "letter", "list": "list_letter", "answer": "ocsp_letter"}
NUMBER = {"certificate": "number_of_step", "list": "number_of_list_step", "answer": "number_of_ocsp_step"}


def compare_steps(root: Path, steps: list[Step]) -> list[Difference]:
    words = compare(WORDS, text_of(root / WORDS), match_of_words(), [(step.name,) for step in of_kind(steps, "certificate")])
    lists = [it for kind in KINDS for it in lists_of(kind, of_kind(steps, kind))]
    return words + [it for file, listing, expected in lists for it in compare(file, text_of(root / file), listing, expected)]


def lists_of(kind: str, steps: list[Step]) -> list[tuple[str, Listing, list[Entry]]]:
    """Each list of the steps of a kind: its file, how it is found, and what it should have."""
    enum = KINDS[kind]
    sections: list[Entry] = [(step.name, step.section) for step in steps]
    numbers: list[Entry] = [(step.name, str(step.number)) for step in steps]
    return [
        (SOURCES[kind], variants(enum), [(step.section, step.name) for step in steps]),
        (SOURCES[kind], match_of_letters(enum), sections),
        (DEFINITIONS[kind], letters(LETTER[kind]), sections),
        (NUMBERS[kind], match_of_numbers(NUMBER[kind], enum), numbers),
        (DEFINED_NUMBERS[kind], numbers_in(NUMBER[kind]), numbers),
    ]


def variants(enum: str) -> Listing:
    """The variants, each with a comment that begins with the section."""
    entry = r"^    /// ([^:]+): .*\n(?:    /// .*\n)*    (\w+),$"
    return Listing(f"the enum {enum}", rf"^pub enum {enum} \{{$", entry, r"^\}$")


def match_of_letters(enum: str) -> Listing:
    begin = r"^    pub fn letter\(self\)[^}]*\}\n    \{\n        match self \{$"
    return Listing("the call letter", begin, rf'^            {enum}::(\w+) => "([^"]+)",$', r"^        \}$")


def letters(name: str) -> Listing:
    entry = rf'^{name} step\.(\w+) = codes "([^"]+)"$'
    return Listing(f"the definition {name}", rf"^abbrev pub {name} : .*$", entry, r"^$|\Z")


def match_of_numbers(name: str, enum: str) -> Listing:
    begin = rf"^(?:pub\(crate\) )?fn {name}\([^}}]*\}}\n\{{\n    match step \{{$"
    return Listing(f"the function {name}", begin, rf"^        {enum}::(\w+) => (\d+),$", r"^    \}$")


def numbers_in(name: str) -> Listing:
    entry = rf"^{name} \w+\.(\w+) = (\d+)$"
    return Listing(f"the definition {name}", rf"^abbrev pub {name} : .*$", entry, r"^$|\Z")


def match_of_words() -> Listing:
    """The words of certview, some of them those of two steps."""
    begin = r"^pub\(crate\) fn words_of_step\(.*\n    match step \{$"
    entry = r'(?:^        |\| )Step::(\w+)(?: => (?:".*",|\{\n.*\n        \}))?'
    return Listing("the function words_of_step", begin, entry, r"^    \}$")
