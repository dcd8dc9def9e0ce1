"""The lists of rules in der_verify and der_c."""

from __future__ import annotations

from pathlib import Path

from ..errors import Difference
from ..regions import text_of
from ..tables.rules import Rule, of_kind
from .listing import Entry, Listing, compare

SOURCES = {"certificate": "crates/der_verify/src/rfc5280.rt", "list": "crates/der_verify/src/rfc5280/lists.rt"}
DEFINITIONS = {"certificate": "crates/der_verify/specs/Rfc5280.antt", "list": "crates/der_verify/specs/Rfc5280Lists.antt"}
SECTIONS = "crates/der_verify/specs/Sections.antt"
BITS = "crates/der_c/src/rfc5280.rt"
RULE = {"certificate": "rule", "list": "list_rule"}
SECTION = {"certificate": "section", "list": "list_section"}


def compare_rules(root: Path, rules: list[Rule]) -> list[Difference]:
    wrong = []
    for kind in SOURCES:
        for file, listing, expected in lists(kind, of_kind(rules, kind)):
            wrong += compare(file, text_of(root / file), listing, expected)
    return wrong


def lists(kind: str, rules: list[Rule]) -> list[tuple[str, Listing, list[Entry]]]:
    """Each list of the rules of a kind: its file, how it is found, and what it should have."""
    enum = f"{kind.capitalize()}Rule"
    names: list[Entry] = [(rule.name,) for rule in rules]
    sections: list[Entry] = [(rule.name, rule.section) for rule in rules]
    return [
        (SOURCES[kind], variants(enum), [(f"{rule.sentence} ({rule.sections}).", rule.name) for rule in rules]),
        (SOURCES[kind], constant(kind, enum), names),
        (SOURCES[kind], match_of_sections(enum), sections),
        (DEFINITIONS[kind], definition(kind), names),
        (SECTIONS, equations(kind), sections),
        (BITS, flags(kind, enum), names[::-1]),
    ]


def variants(enum: str) -> Listing:
    return Listing(f"the enum {enum}", rf"^pub enum {enum} \{{$", r"^((?:    /// .*\n)+)    (\w+),$", r"^\}$")


def constant(kind: str, enum: str) -> Listing:
    name = f"{kind.upper()}_RULES"
    return Listing(f"the constant {name}", rf"^pub const {name}: .*\[$", rf"^    {enum}::(\w+),$", r"^\];$")


def match_of_sections(enum: str) -> Listing:
    begin = r"^    pub fn section\(self\)[^}]*\}\n    \{\n        match self \{$"
    return Listing("the call section", begin, rf'^            {enum}::(\w+) => "([\dAB.]+)",$', r"^        \}$")


def definition(kind: str) -> Listing:
    return Listing(f"the definition {kind}_rules", rf"^{kind}_rules =$", r"^    (?:∷ )?rule\.(\w+)", r" ∷ \[\]$")


def equations(kind: str) -> Listing:
    name = SECTION[kind]
    entry = rf'^{name} {RULE[kind]}\.(\w+) = codes "([\dAB.]+)"$'
    return Listing(f"the definition {name}", rf"^abbrev pub {name} : .*$", entry, r"^$|\Z")


def flags(kind: str, enum: str) -> Listing:
    begin = rf"^fn broken_by_{kind}<'a>(?s:.*?)^    number_of_flags\(&\[$"
    return Listing(f"the list of broken_by_{kind}", begin, rf"^        {enum}::(\w+)\.is_broken\(alloc, value\),$", r"^    \]\)$")
