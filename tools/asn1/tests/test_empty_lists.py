"""A DEFAULT of the empty list: the component may be absent, and has one item at least where it is there (X.690 11.5)."""

from __future__ import annotations

import unittest

from ..model import Presence, Struct
from .helpers import definitions, module_of, refusal, remarks
from .test_writer import grammar, written

TYPES = """L ::= SEQUENCE OF INTEGER
M ::= [3] IMPLICIT SET OF NULL
N ::= [4] EXPLICIT SET OF NULL
empty L ::= {}
P{T, L:none} ::= SEQUENCE { p SEQUENCE OF T DEFAULT none }"""
# A component with its default, and its grammar after OPTIONAL.
ROWS = [
    ("SET OF NULL DEFAULT {}", "(NOT_EMPTY (SET_OF NULL))"),
    ("SEQUENCE OF NULL DEFAULT { }", "(NOT_EMPTY (SEQUENCE_OF NULL))"),
    ("SET SIZE (0..5) OF NULL DEFAULT {}", "(NOT_EMPTY (SET_OF NULL))"),
    ("L DEFAULT {}", "(NOT_EMPTY (SEQUENCE_OF INTEGER))"),
    ("L DEFAULT empty", "(NOT_EMPTY (SEQUENCE_OF INTEGER))"),
    ("[0] IMPLICIT L DEFAULT {}", "(IMPLICIT context 0 (NOT_EMPTY (SEQUENCE_OF INTEGER)))"),
    ("[0] EXPLICIT L DEFAULT {}", "(EXPLICIT context 0 (NOT_EMPTY (SEQUENCE_OF INTEGER)))"),
    ("M DEFAULT {}", "(IMPLICIT context 3 (NOT_EMPTY (SET_OF NULL)))"),
    ("[0] EXPLICIT M DEFAULT {}", "(EXPLICIT context 0 (IMPLICIT context 3 (NOT_EMPTY (SET_OF NULL))))"),
    ("N DEFAULT {}", "(EXPLICIT context 4 (NOT_EMPTY (SET_OF NULL)))"),
]
SAID = "'a' is absent where it is its default, the empty list; the encoding of an empty one is refused"


class EmptyLists(unittest.TestCase):
    def test_grammars(self) -> None:
        for component, term in ROWS:
            with self.subTest(component):
                found = grammar(f"A ::= SEQUENCE {{ a {component} }}\n{TYPES}")["a"]
                self.assertEqual(found, f"SEQUENCE (OPTIONAL {term} end)")

    def test_automatic_tags(self) -> None:
        found = grammar(f"A ::= SEQUENCE {{ a L DEFAULT {{}}, b SET OF L DEFAULT {{}} }}\n{TYPES}", "AUTOMATIC TAGS")["a"]
        first = "(IMPLICIT context 0 (NOT_EMPTY (SEQUENCE_OF INTEGER)))"
        self.assertEqual(found, f"SEQUENCE (OPTIONAL {first} (OPTIONAL (IMPLICIT context 1 (NOT_EMPTY (SET_OF l))) end))")

    def test_a_set(self) -> None:
        found = grammar(f"A ::= SET {{ a N DEFAULT {{}}, b L DEFAULT {{}} }}\n{TYPES}")["a"]
        first = "(NOT_EMPTY (SEQUENCE_OF INTEGER))"
        self.assertEqual(found, f"SET (OPTIONAL {first} (OPTIONAL (EXPLICIT context 4 (NOT_EMPTY (SET_OF NULL))) end))")

    def test_a_parameter(self) -> None:
        found = definitions(f"A ::= SEQUENCE {{ a P{{NULL, empty}} }}\n{TYPES}")["AA"]
        assert isinstance(found, Struct)
        self.assertIs(found.fields[0].presence, Presence.OPTIONAL)

    def test_it_is_said(self) -> None:
        body = "A ::= SEQUENCE { a SET OF NULL DEFAULT {} }"
        self.assertEqual(remarks(body), [f"2:18 {SAID}"])
        text = written(module_of(body))["src/test/a.rt"]
        self.assertIn(f"/// {SAID}.", text)
        self.assertIn("pub fn a(&self) -> Option<&NonEmptyRef<SetRef<'a, Null>>>", text)

    def test_a_value_of_a_sequence_lacks_it(self) -> None:
        found = grammar("A ::= SEQUENCE { s S DEFAULT {} }\nS ::= SEQUENCE { l SEQUENCE OF NULL DEFAULT {} }")
        self.assertEqual(found["a"], "SEQUENCE (DEFAULT (tlv tags.Sequence (joined [])) s end)")
        self.assertEqual(found["s"], "SEQUENCE (OPTIONAL (NOT_EMPTY (SEQUENCE_OF NULL)) end)")

    def test_what_is_refused(self) -> None:
        for body in (
            "A ::= SEQUENCE { a SEQUENCE OF NULL DEFAULT { NULL } }",
            "A ::= SEQUENCE { a SEQUENCE SIZE (1..MAX) OF NULL DEFAULT {} }",
            "A ::= SEQUENCE { s S DEFAULT { l {} } }\nS ::= SEQUENCE { l SEQUENCE OF NULL }",
            "A ::= SEQUENCE { a CHOICE { l SEQUENCE OF NULL, n NULL } DEFAULT l : {} }",
        ):
            with self.subTest(body):
                self.assertIn("a SEQUENCE OF or a SET OF has no DEFAULT here", refusal(module_of(body)).problem)

    def test_a_list_that_is_not_read(self) -> None:
        error = refusal(module_of("A ::= SEQUENCE { a SEQUENCE OF A DEFAULT {} }"))
        self.assertIn("a SEQUENCE that is not read, of which nothing but reading makes a value, has no DEFAULT", error.problem)


if __name__ == "__main__":
    unittest.main()
