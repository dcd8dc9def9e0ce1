"""What stands too deep, or reaches itself: each is an error with its place, and none ends the compiler otherwise."""

from __future__ import annotations

import unittest

from ..errors import AsnError
from .helpers import module_of, refusal
from .test_writer import written


def rows(form: str, count: int, last: str) -> str:
    """Assignments of which each names the next."""
    return "\n".join([*(form.format(i, i + 1) for i in range(count)), last.format(count)])


# A module's body, the place of the error, and a part of what is said.
TOO_DEEP = [
    ("A ::= " + "SEQUENCE OF " * 3000 + "NULL", "2:487", "more than 40 types stand within one another here"),
    ("A ::= " + "SEQUENCE { a " * 400 + "NULL" + "}" * 400, "2:527", "more than 40 types stand within one another here"),
    ("A ::= " + "[0] " * 3000 + "NULL", "2:167", "more than 40 types stand within one another here"),
    ("A ::= INTEGER " + "(" * 3000 + "5" + ")" * 3000, "2:54", "more than 40 constraints stand within one another here"),
    ("A ::= NULL " + "(SIZE " * 500 + "(5)" + ")" * 500, "2:246", "more than 40 constraints stand within one another here"),
    (rows("A{} ::= A{}", 900, "A{} ::= NULL"), "62:9", "too many types stand within one another here"),
    (rows("A{} ::= SEQUENCE {{ a A{} }}", 900, "A{} ::= NULL"), "62:22", "too many types stand within one another here"),
    (rows("a{} OBJECT IDENTIFIER ::= {{ a{} 1 }}", 900, "a{} OBJECT IDENTIFIER ::= {{ 1 2 }}"), "66:27", "more than 64 names"),
    (rows("A{0} ::= SEQUENCE {{ a{0} NULL, COMPONENTS OF A{1} }}", 90, "A{} ::= SEQUENCE {{ x NULL }}"), "41:30", "of too many"),
    ("A ::= INTEGER (0.." + "9" * 6000 + ")", "2:19", "a number of 6000 digits is not taken"),
]
REACHES_ITSELF = [
    ("a INTEGER ::= b\nb INTEGER ::= a\nA ::= INTEGER (0..a)", "3:15", "the value 'a' stands for itself"),
    ("a INTEGER ::= b\nb INTEGER ::= a\nA ::= [a] NULL", "3:15", "the value 'a' stands for itself"),
    ("a INTEGER ::= a\nA ::= ENUMERATED { x(a) }", "2:15", "the value 'a' stands for itself"),
    ("a OBJECT IDENTIFIER ::= { b 1 }\nb OBJECT IDENTIFIER ::= { a 1 }", "2:25", "this object identifier stands first in itself"),
    ("a OBJECT IDENTIFIER ::= { a 1 }", "2:25", "this object identifier stands first in itself"),
    ("a OBJECT IDENTIFIER ::= b\nb OBJECT IDENTIFIER ::= a", "2:25", "the value 'b' stands for itself"),
    ("A ::= SEQUENCE { COMPONENTS OF B }\nB ::= SEQUENCE { COMPONENTS OF A }", "3:18", "has its own components by COMPONENTS OF"),
    ("P{T} ::= CHOICE { a P{T}, b NULL }\nA ::= P{INTEGER}", "2:21", "too many types stand within one another"),
    ("P{T} ::= CHOICE { a P{P{T}}, b NULL }\nA ::= P{INTEGER}", "2:21", "too many types stand within one another"),
    ("P{T} ::= P{T}\nA ::= P{INTEGER}", "2:10", "too many types stand within one another"),
    ("P{T} ::= P{P{T}}\nA ::= P{INTEGER}", "2:10", "too many types stand within one another"),
    ("E{T} ::= T\nA ::= E{A}", "3:9", "the type 'A' reaches itself: A, A"),
    ("K ::= CLASS { &x K.&x }\nA ::= K.&x", "2:18", "too many types stand within one another"),
]
TAKEN = [
    "A ::= " + "SEQUENCE OF " * 39 + "NULL",
    "A ::= " + "SEQUENCE { a " * 39 + "NULL" + "}" * 39,
    "A ::= INTEGER " + "(" * 30 + "5" + ")" * 30,
    rows("A{} ::= SEQUENCE {{ a A{} }}", 50, "A{} ::= NULL"),
    rows("a{} INTEGER ::= a{}", 3000, "a{} INTEGER ::= 5") + "\nA ::= INTEGER (0..a0)",
    rows("a{} OBJECT IDENTIFIER ::= {{ a{} 1 }}", 50, "a{} OBJECT IDENTIFIER ::= {{ 1 2 }}"),
    "A ::= INTEGER (0.." + "9" * 999 + ")",
]


class Limits(unittest.TestCase):
    def test_each_is_an_error_with_its_place(self) -> None:
        for body, place, said in (*TOO_DEEP, *REACHES_ITSELF):
            with self.subTest(body[:60]):
                error = refusal(module_of(body))
                self.assertIn(said, error.problem)
                self.assertEqual(f"{error.place.line}:{error.place.column}", place)
                self.assertTrue(error.instead)

    def test_what_is_less_deep_is_written(self) -> None:
        for body in TAKEN:
            with self.subTest(body[:60]):
                written(module_of(body))

    def test_what_python_does_not_allow_is_one_too(self) -> None:
        body = rows("A{} ::= SEQUENCE {{ a SEQUENCE OF SEQUENCE {{ b SEQUENCE OF A{} }} }}", 59, "A{} ::= NULL")
        try:
            written(module_of(body))
        except AsnError as error:
            self.assertIn("too many types stand within one another", error.problem)


if __name__ == "__main__":
    unittest.main()
