"""Types with parameters that have no parts of their own (X.683): an instance is what it stands for."""

from __future__ import annotations

import re
import unittest

from ..model import Alias, Leaf, Struct, Tagged, Use, Whole
from .helpers import definitions, module_of, refusal, remarks, resolved
from .test_writer import grammar


class Instances(unittest.TestCase):
    def whole(self, body: str) -> Whole:
        """The type of the library that A is."""
        found = definitions(body)["A"]
        assert isinstance(found, Alias) and isinstance(found.type, Leaf)
        return found.type.whole

    def test_a_type_that_does_not_use_its_parameter(self) -> None:
        self.assertIs(self.whole("E{T} ::= OCTET STRING\nA ::= E{INTEGER}"), Whole.OCTET_STRING)
        encrypted = "ENCRYPTED{T} ::= BIT STRING (CONSTRAINED BY { T })\nA ::= ENCRYPTED{NULL}"
        self.assertIs(self.whole(encrypted), Whole.BIT_STRING)
        self.assertEqual(remarks(encrypted), ["2:30 CONSTRAINED BY { T } is not checked"])

    def test_a_type_that_is_its_parameter(self) -> None:
        self.assertIs(self.whole("E{T} ::= T\nA ::= E{INTEGER}"), Whole.INTEGER)
        self.assertIs(self.whole("E{T} ::= T\nA ::= E{E{E{NULL}}}"), Whole.NULL)
        found = definitions("E{T} ::= T\nB ::= SEQUENCE { a E{SEQUENCE { x NULL }} }")
        self.assertIsInstance(found["BA"], Struct)

    def test_a_tag_before_one(self) -> None:
        body = "E{T} ::= [5] T\nA ::= E{INTEGER}\nB ::= SEQUENCE { a [0] E{C} }\nC ::= CHOICE { x NULL, y BOOLEAN }"
        found = definitions(body)["A"]
        assert isinstance(found, Alias)
        self.assertIsInstance(found.type, Tagged)
        self.assertEqual(grammar(body)["a"], "EXPLICIT context 5 INTEGER")
        self.assertEqual(grammar(body)["b"], "SEQUENCE (field (EXPLICIT context 0 (EXPLICIT context 5 c)) end)")

    def test_a_choice_behind_a_parameter_gets_an_explicit_tag(self) -> None:
        body = "E{T} ::= T\nA ::= SEQUENCE { a [0] E{E{C}} }\nC ::= CHOICE { x NULL, y BOOLEAN }"
        found = definitions(body, "IMPLICIT TAGS")["A"]
        assert isinstance(found, Struct) and isinstance(found.fields[0].type, Tagged)
        self.assertTrue(found.fields[0].type.is_explicit)

    def test_a_tag_before_the_name_of_a_parameter_is_explicit(self) -> None:
        """X.680 31.2.7 c: the module's default makes it implicit no more than before a CHOICE."""
        body = "P{T} ::= SEQUENCE { a [0] T, b [1] IMPLICIT T, c [2] T (0..5), d [3] SEQUENCE OF T, e [4] E{T} }\nE{T} ::= T\nA ::= P{INTEGER}"
        found = definitions(body, "IMPLICIT TAGS")["A"]
        assert isinstance(found, Struct)
        kinds = [part.type.is_explicit for part in found.fields if isinstance(part.type, Tagged)]
        self.assertEqual(kinds, [True, False, True, False, False])
        words = re.findall(r"(\w+) context (\d)", grammar(body, "IMPLICIT TAGS")["a"])
        self.assertEqual(words, [("EXPLICIT" if kind else "IMPLICIT", str(i)) for i, kind in enumerate(kinds)])

    def test_an_automatic_tag_is_too(self) -> None:
        for body in ("P{T} ::= SEQUENCE { a T, b NULL }\nA ::= P{INTEGER}", "P{T} ::= CHOICE { a T, b NULL }\nA ::= P{INTEGER}"):
            page = grammar(body, "AUTOMATIC TAGS")["a"]
            self.assertIn("EXPLICIT context 0 INTEGER", page)
            self.assertIn("IMPLICIT context 1 NULL", page)
        one = module_of("P{T} ::= SEQUENCE { a T, b NULL }", name="One")
        body = "IMPORTS P FROM One;\nA ::= SEQUENCE { x NULL, COMPONENTS OF P{INTEGER} }"
        found = resolved(one, module_of(body, "AUTOMATIC TAGS"))[0][1].definitions[0]
        assert isinstance(found, Struct)
        kinds = [part.type.is_explicit for part in found.fields if isinstance(part.type, Tagged)]
        self.assertEqual(kinds, [False, True, False])

    def test_a_default_after_such_a_tag(self) -> None:
        wanted = "DEFAULT (tlv (marker_tag context true 0) (tlv tags.Integer (natural_contents 5)))"
        for part, tags in (("a [0] T DEFAULT 5", "IMPLICIT TAGS"), ("a T DEFAULT 5", "AUTOMATIC TAGS")):
            body = f"P{{T}} ::= SEQUENCE {{ {part} }}\nA ::= P{{B}}\nB ::= INTEGER (0..255)"
            self.assertIn(wanted, grammar(body, tags)["a"])

    def test_constraints_by_a_parameter_are_those_of_one_instance(self) -> None:
        instead = "write its type out here; or, where a constraint alone differs, '-- @unchecked' after that type"
        for text in (
            "OCTET STRING (SIZE (1..max))",
            "SEQUENCE SIZE (1..max) OF NULL",
            "SEQUENCE { x OCTET STRING (SIZE (1..max)) }",
            "CHOICE { x INTEGER (0..255) (0..max), y NULL }",
        ):
            with self.subTest(text):
                body = f"L{{INTEGER:max}} ::= {text}\nA ::= SEQUENCE {{ a L{{4}}, b [0] L{{4}} }}"
                self.assertIn("L", definitions(body))
                self.assertIn(instead, str(refusal(module_of(body.replace("[0] L{4}", "[0] L{8}")))))
        body = "L{INTEGER:max} ::= SEQUENCE { x OCTET STRING (SIZE (1..max)) -- @unchecked\n }\nA ::= SEQUENCE { a L{4}, b [0] L{8} }"
        self.assertEqual(remarks(body), ["2:47 SIZE (1..4) is not checked"])

    def test_names_of_numbers(self) -> None:
        body = "E{T} ::= INTEGER { a(0), b(1) }\nA ::= SEQUENCE { a E{NULL} DEFAULT b }"
        found = definitions(body)["A"]
        assert isinstance(found, Struct) and isinstance(found.fields[0].type, Use)
        self.assertEqual(found.fields[0].default, 1)


if __name__ == "__main__":
    unittest.main()
