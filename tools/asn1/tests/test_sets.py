"""A SET in which a component has no one place (X.690 10.3): its components are kept, each as any value."""

from __future__ import annotations

import unittest

from .helpers import module_of, remarks
from .test_writer import grammar, written

CHOICE = "CHOICE { b BOOLEAN, c NULL }"
KEPT = "SET_OF_ANY_ORDER ANY"
# A module, a type, and its grammar.
ROWS = [
    (f"A ::= SET {{ a {CHOICE}, d INTEGER }}", "a", KEPT),
    ("A ::= SET { a ANY }", "a", KEPT),
    ("A ::= SET { a CHOICE { b BOOLEAN, c INTEGER }, d NULL }", "a", "SET (field aa (field NULL end))"),
    ("A ::= SET { a CHOICE { b [1] NULL, c [3] NULL }, d [0] NULL, e [4] NULL }", "a", None),
    ("A ::= SET { a CHOICE { b [1] NULL, c [3] NULL }, d [2] NULL }", "a", KEPT),
    ("A ::= SET { a CHOICE { b NULL, c [APPLICATION 3] NULL }, d [APPLICATION 2] NULL }", "a", KEPT),
    (f"A ::= [1] IMPLICIT [2] IMPLICIT SET {{ a {CHOICE}, d INTEGER }}", "a", f"IMPLICIT context 1 (IMPLICIT context 2 ({KEPT}))"),
    (f"A ::= [1] EXPLICIT SET {{ a {CHOICE}, d INTEGER }}", "a", "EXPLICIT context 1 a_value"),
    (f"A ::= [1] EXPLICIT SET {{ a {CHOICE}, d INTEGER }}", "a_value", KEPT),
    (f"A ::= SEQUENCE {{ a SET {{ a {CHOICE}, d INTEGER }} }}", "a", "SEQUENCE (field aa end)"),
    (f"A ::= SEQUENCE {{ a SET {{ a {CHOICE}, d INTEGER }} }}", "aa", KEPT),
    (f"A ::= SEQUENCE {{ b [0] IMPLICIT B OPTIONAL }}\nB ::= SET {{ a {CHOICE}, d INTEGER }}", "a", "SEQUENCE (OPTIONAL (IMPLICIT context 0 b) end)"),
    (f"P{{T}} ::= SET {{ a T, d INTEGER }}\nA ::= P{{{CHOICE}}}", "a", KEPT),
    (f"A ::= SET {{ COMPONENTS OF B }}\nB ::= SET {{ a {CHOICE}, d INTEGER }}", "a", KEPT),
]


class Sets(unittest.TestCase):
    def test_grammars(self) -> None:
        for body, name, term in ROWS:
            with self.subTest(body):
                found = grammar(body)[name]
                self.assertEqual(found, term or found)
                self.assertEqual(KEPT in found, KEPT in (term or ""))

    def test_it_is_said(self) -> None:
        body = f"A ::= SET {{ a {CHOICE}, d INTEGER }}"
        said = "the components of this SET are kept, each as any value, and not checked: 'a' has no one place among them (X.690 10.3)"
        self.assertEqual(remarks(body), [f"2:7 {said}"])
        text = written(module_of(body))["src/test/aliases.rt"]
        self.assertIn(f"{said[0].upper()}{said[1:]}.", text.replace("\n/// ", " "))
        self.assertIn("pub type A<'a> = UnorderedSetRef<'a, AnyRef<'a>>;", text)

    def test_types_of_the_components_are_written(self) -> None:
        files = written(module_of("A ::= SET { a CHOICE { b BOOLEAN, c NULL }, d INTEGER, e SEQUENCE { n NULL } }"))
        self.assertIn("src/test/aa.rt", files)
        self.assertIn("src/test/ae.rt", files)


if __name__ == "__main__":
    unittest.main()
