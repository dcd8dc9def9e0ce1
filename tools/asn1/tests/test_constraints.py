"""Constraints that are checked (X.680 49 to 51): the values that they allow, and what is written of them."""

from __future__ import annotations

import unittest

from ..model import Alias, Allowed, Leaf, Measure, Struct, Tagged
from ..resolver.subsets import complement, joined, shared
from .helpers import definitions, module_of, refusal, remarks
from .test_writer import grammar, written


def numbers(*runs: tuple[int, int]) -> Allowed:
    return Allowed(Measure.NUMBER, runs)


def sizes(*runs: tuple[int, int]) -> Allowed:
    return Allowed(Measure.SIZE, runs)


def characters(*runs: tuple[int, int]) -> Allowed:
    return Allowed(Measure.CHARACTER, runs)


# Types, and the values that are allowed of each: None where all are, or where it cannot be checked.
ALLOWED = [
    ("INTEGER (0..10)", numbers((0, 10))),
    ("INTEGER (5)", numbers((5, 5))),
    ("INTEGER (1 | 3..5)", numbers((1, 1), (3, 5))),
    ("INTEGER (1..3 | 4 | 9)", numbers((1, 4), (9, 9))),
    ("INTEGER (0..9 ^ 5..20)", numbers((5, 9))),
    ("INTEGER (0..9 EXCEPT 5)", numbers((0, 4), (6, 9))),
    ("INTEGER (0..9) (2..20)", numbers((2, 9))),
    ("INTEGER (-5..<0)", numbers((-5, -1))),
    ("INTEGER (0<..9)", numbers((1, 9))),
    ("INTEGER { two(2) } (two..9)", numbers((2, 9))),
    ("INTEGER (0..top)", numbers((0, 7))),
    ("INTEGER (0..255)", None),
    ("INTEGER (-128..127)", None),
    ("INTEGER (ALL EXCEPT 300) -- @u8", None),
    ("INTEGER (0..10) -- @u32", numbers((0, 10))),
    (f"INTEGER (0..{2**63})", None),
    ("OCTET STRING (SIZE (4))", sizes((4, 4))),
    ("UTF8String (SIZE (1..MAX))", sizes((1, 2**32 - 1))),
    ("BIT STRING (SIZE (8 | 16))", sizes((8, 8), (16, 16))),
    ("IA5String (SIZE (0..MAX))", None),
    ('VisibleString (FROM ("0".."9" | "a"))', characters((48, 57), (97, 97))),
    ('NumericString (FROM ("0123"))', characters((48, 51))),
    ('IA5String (FROM ("b"..MAX))', characters((98, 127))),
    ('IA5String (SIZE (1..2)) (FROM ("a".."f"))', Allowed(all_of=(sizes((1, 2)), characters((97, 102))))),
    ('IA5String (SIZE (1..2) ^ FROM ("a".."f"))', Allowed(all_of=(sizes((1, 2)), characters((97, 102))))),
    ('IA5String (SIZE (1..2) | FROM ("a".."f"))', Allowed(any_of=(sizes((1, 2)), characters((97, 102))))),
]
# Types, and what is said of each that is not checked.
UNCHECKED = [
    (f"INTEGER (0..{2**63})", f"2:7 INTEGER as u64: (0..{2**63}) is not checked"),
    ("SEQUENCE { a OCTET STRING (SIZE (1), ...) }", "2:33 which values are allowed is not checked"),
    ('IA5String ("a" | "b")', "2:18 which values are allowed is not checked"),
    ("SEQUENCE { a INTEGER (0..9) -- @unchecked\n }", "2:20 INTEGER as u8: (0..9) is not checked"),
    ("SEQUENCE { a INTEGER (0..9) DEFAULT 1 }", "2:20 INTEGER as u8: (0..9) is not checked"),
]


class Runs(unittest.TestCase):
    def test_runs_that_touch_are_one(self) -> None:
        self.assertEqual(joined(((3, 4), (1, 2), (6, 9), (7, 8))), ((1, 4), (6, 9)))

    def test_what_is_in_both(self) -> None:
        self.assertEqual(shared(((1, 5), (7, 9)), ((4, 8),)), ((4, 5), (7, 8)))

    def test_what_is_left(self) -> None:
        self.assertEqual(complement(((2, 3), (5, 20)), (0, 9)), ((0, 1), (4, 4)))
        self.assertEqual(complement(((0, 9),), (0, 9)), ())


class Types(unittest.TestCase):
    def test_what_is_allowed(self) -> None:
        for text, wanted in ALLOWED:
            with self.subTest(text):
                found = definitions(f"A ::= {text}\ntop INTEGER ::= 7")["A"]
                assert isinstance(found, Alias) and isinstance(found.type, Leaf)
                self.assertEqual(found.type.allowed, wanted)

    def test_what_is_not_checked(self) -> None:
        for text, said in UNCHECKED:
            with self.subTest(text):
                self.assertEqual(remarks(f"A ::= {text}"), [said])

    def test_no_value_is_left(self) -> None:
        for text in ("INTEGER (5..2)", "INTEGER (0..3) (4..5)", "OCTET STRING (SIZE (2..1))"):
            with self.subTest(text):
                self.assertIn("leaves no value", str(refusal(module_of(f"A ::= {text}"))))


class Names(unittest.TestCase):
    def field(self, body: str) -> object:
        found = definitions(body)["A"]
        assert isinstance(found, Struct)
        return found.fields[0].type

    def test_a_name_with_a_constraint(self) -> None:
        found = self.field("B ::= INTEGER (0..9)\nA ::= SEQUENCE { a B (5..20) }")
        assert isinstance(found, Leaf) and found.allowed is not None
        self.assertEqual(found.allowed.runs, ((5, 9),))

    def test_a_name_of_a_type_after_a_tag(self) -> None:
        found = self.field("B ::= [3] OCTET STRING\nA ::= SEQUENCE { a B (SIZE (2)) }")
        assert isinstance(found, Tagged) and isinstance(found.of, Leaf)
        self.assertEqual(found.of.allowed, Allowed(Measure.SIZE, ((2, 2),)))

    def test_names_of_numbers_of_the_type_that_is_named(self) -> None:
        found = self.field("B ::= INTEGER { one(1) } (0..9)\nA ::= SEQUENCE { a B (one) }")
        assert isinstance(found, Leaf) and found.allowed is not None
        self.assertEqual(found.allowed.runs, ((1, 1),))

    def test_what_says_that_nothing_is_checked(self) -> None:
        text = "SEQUENCE { a INTEGER (0..9) }"
        checked = "A DEFINITIONS ::= BEGIN\nA ::= " + text + "\nEND\n"
        self.assertIn("Constrained", written(checked)["src/test/a.rt"])
        unchecked = checked.replace("BEGIN", "BEGIN -- @unchecked")
        self.assertNotIn("Constrained", written(unchecked)["src/test/a.rt"])
        self.assertIn("says nothing of", str(refusal(module_of("A ::= NULL -- @unchecked"))))


class Written(unittest.TestCase):
    BODY = """A ::= SEQUENCE {
    a INTEGER (-3..4 | 7),
    b BIT STRING (SIZE (3)),
    c UTF8String (SIZE (1..4)),
    d IA5String (FROM ("a".."c" | "x") ^ SIZE (1..2)) }"""

    def test_the_types(self) -> None:
        text = written(module_of(self.BODY))["src/test/a.rt"]
        for type_ in (
            "Constrained<i8, UnionOf<InRange<-3, 4>, InRange<7, 7>>>",
            "Constrained<BitStringRef<'a>, HasSize<3, 3>>",
            "HasCharacters<CharacterUnion<CharacterRange<97, 99>, CharacterRange<120, 120>>>",
        ):
            with self.subTest(type_):
                self.assertIn(type_, text)

    def test_the_page_of_the_grammar(self) -> None:
        text = grammar(self.BODY)["a"]
        for term in (
            "ALLOWED (union (range (negsuc 2) (pos 4)) (range (pos 7) (pos 7))) INTEGER_i8",
            "ALLOWED (size_in_bits 3 3) BIT_STRING",
            "ALLOWED (size_in_characters 1 4) UTF8_STRING",
            "ALLOWED (intersection (permitted (either_set (characters 97 99) (characters 120 120))) (size_in_octets 1 2)) IA5_STRING",
        ):
            with self.subTest(term):
                self.assertIn(term, " ".join(text.split()))
