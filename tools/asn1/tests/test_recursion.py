"""A type that reaches itself: which components and items are kept, and not read; what of it the page of the grammar says."""

from __future__ import annotations

import unittest

from ..model import Leaf, Tag, Tagged, Use, Whole
from .helpers import definitions, module_of, refusal, remarks, resolved
from .test_writer import grammar, written

KEPT = Leaf(Whole.UNREAD_SEQUENCE)
FILTER = """Filter ::= CHOICE {
    and [0] SET OF Filter,
    or [1] SET OF Filter,
    not [2] Filter,
    present [7] OCTET STRING,
    substrings [8] Part }
Part ::= SEQUENCE { name UTF8String, inner [0] Filter OPTIONAL, list SEQUENCE OF Part }"""


def behind(number: int, tag_class: int = 2) -> Tagged:
    """Contents octets that are kept behind a tag."""
    return Tagged(Tag(tag_class, number), False, KEPT)


class Recursion(unittest.TestCase):
    def test_all_ways_back_are_kept(self) -> None:
        found = definitions(FILTER, "IMPLICIT TAGS")
        kept = [part.type for part in found["Filter"].alternatives[:3]]
        self.assertEqual(kept, [behind(0), behind(1), behind(2)])
        other = found["Part"].fields
        self.assertEqual([part.type for part in other[1:]], [behind(0), KEPT])

    def test_what_does_not_lead_back_is_read(self) -> None:
        found = definitions(FILTER)
        present, other = found["Filter"].alternatives[3:]
        self.assertNotEqual(present.type, behind(7))
        self.assertNotEqual(other.type, behind(8))

    def test_each_is_said(self) -> None:
        said = remarks(FILTER)
        for name, place, leads_to in (
            ("and", "3:5", "Filter"),
            ("or", "4:5", "Filter"),
            ("not", "5:5", "Filter"),
            ("inner", "8:38", "Filter"),
            ("list", "8:65", "Part"),
        ):
            with self.subTest(name):
                kept = f"'{name}' leads back to {leads_to}: its contents octets are kept, and not read"
                self.assertTrue(any(kept in text for text in said), said)

    def test_the_first_way_around_a_choice_is_cut(self) -> None:
        found = definitions("A ::= CHOICE { b B, c NULL }\nB ::= SEQUENCE { a A OPTIONAL }")
        self.assertEqual(found["A"].alternatives[0].type, KEPT)
        self.assertNotEqual(found["B"].fields[0].type, KEPT)

    def test_an_automatic_tag_is_one(self) -> None:
        found = definitions("A ::= CHOICE { a A, b NULL }\nB ::= SET { b B OPTIONAL }", "AUTOMATIC TAGS")
        self.assertEqual(found["A"].alternatives[0].type, behind(0))
        self.assertEqual(found["B"].fields[0].type, behind(0))

    def test_what_stands_around_is_cut_where_the_innermost_has_no_tag(self) -> None:
        found = definitions("A ::= CHOICE { a [0] NULL, b SEQUENCE { c NULL, d A } }")
        self.assertEqual(found["A"].alternatives[1].type, KEPT)

    def test_items_are_kept(self) -> None:
        found = definitions("A ::= SEQUENCE OF A\nB ::= [APPLICATION 3] SET OF B", "EXPLICIT TAGS")
        self.assertEqual(found["A"].item, KEPT)
        self.assertEqual(found["BValue"].item, behind(3, 1))

    def test_the_order_in_which_modules_are_given_says_nothing(self) -> None:
        first = "One DEFINITIONS ::= BEGIN\nIMPORTS B FROM Two;\nA ::= SEQUENCE { b B OPTIONAL }\nEND\n"
        second = "Two DEFINITIONS ::= BEGIN\nIMPORTS A FROM One;\nB ::= SEQUENCE { a [1] A OPTIONAL }\nEND\n"
        orders = (resolved(first, second)[0], resolved(second, first)[0][::-1])
        fields = [[one.definitions[0].fields[0].type for one in modules] for modules in orders]  # type: ignore[attr-defined]
        self.assertEqual(fields[0][1], behind(1))
        self.assertIsInstance(fields[0][0], Use)
        self.assertEqual(fields[1][1], behind(1))
        self.assertIsInstance(fields[1][0], Use)

    def test_an_annotation_cuts_elsewhere(self) -> None:
        text = "A ::= SEQUENCE { b B OPTIONAL -- @unread\n}\nB ::= SEQUENCE { a A OPTIONAL }"
        found = definitions(text)
        self.assertEqual(found["A"].fields[0].type, KEPT)
        self.assertNotEqual(found["B"].fields[0].type, KEPT)

    def test_a_constraint_leads_nowhere(self) -> None:
        found = definitions("A ::= SEQUENCE { a OCTET STRING (CONTAINING A) }")
        self.assertEqual(found["A"].fields[0].type, Leaf(Whole.OCTET_STRING))

    def test_a_set_with_its_own_tag_is_cut_where_nothing_else_can_be(self) -> None:
        for body, term in (
            ("A ::= SET { a A OPTIONAL }", "SET (OPTIONAL (SET_OF_ANY_ORDER ANY) end)"),
            ("A ::= SET { a SET OF A }", "SET (field (SET_OF_ANY_ORDER ANY) end)"),
            ("A ::= SET OF A", "SET_OF (SET_OF_ANY_ORDER ANY)"),
            ("A ::= SET { a [0] A OPTIONAL }", "SET (OPTIONAL (IMPLICIT context 0 UNREAD_SEQUENCE) end)"),
            ("A ::= SET { a B OPTIONAL }\nB ::= CHOICE { a A, b NULL }", "SET (OPTIONAL b end)"),
            ("A ::= CHOICE { a SET { b A }, c NULL }", "CHOICE (SET_OF_ANY_ORDER ANY) NULL"),
            ("A ::= SET { a B OPTIONAL }\nB ::= SEQUENCE { a A }", "SET (OPTIONAL UNREAD_SEQUENCE end)"),
            ("A ::= SET OF B\nB ::= CHOICE { a A, b NULL }", "SET_OF b"),
            ("P{T} ::= SET { a P{T} OPTIONAL }\nA ::= P{INTEGER}", "SET (OPTIONAL (SET_OF_ANY_ORDER ANY) end)"),
            ("P{T} ::= SET { a P{P{T}} OPTIONAL }\nA ::= P{INTEGER}", "SET (OPTIONAL (SET_OF_ANY_ORDER ANY) end)"),
        ):
            with self.subTest(body):
                self.assertEqual(grammar(body)["a"], term)
        said = "'a' leads back to A: the values in it are kept, each as any value, and not checked"
        self.assertEqual(remarks("A ::= SET { a A OPTIONAL }"), [f"2:15 {said}"])
        self.assertEqual(grammar("A ::= SET { a B OPTIONAL }\nB ::= CHOICE { a A, b NULL }")["b"], "CHOICE (SET_OF_ANY_ORDER ANY) NULL")

    def test_a_choice_with_no_tag_is_not_cut(self) -> None:
        error = refusal(module_of("A ::= CHOICE { a A, b NULL }"))
        self.assertIn("reaches itself", error.problem)
        self.assertIn("@unread", error.instead)

    def test_the_page_says_it_from_the_text(self) -> None:
        pages = written(module_of(FILTER, "EXPLICIT TAGS"))
        page = next(text for name, text in pages.items() if name.endswith("Grammar.antt"))
        for number in range(3):
            self.assertIn(f"(IMPLICIT context {number} UNREAD_SEQUENCE)", page)
        self.assertIn("(OPTIONAL (IMPLICIT context 0 UNREAD_SEQUENCE)", page)
