"""The numbers of an ENUMERATED (X.680 20), with the examples of its clauses."""

from __future__ import annotations

import unittest

from ..model import Enumeration
from .helpers import definitions, module_of, refusal
from .test_writer import written

VALUES = "zero INTEGER ::= 0\nthree INTEGER ::= 3\nseven INTEGER ::= also-seven\nalso-seven INTEGER ::= 7"
# The names of an ENUMERATED, and the numbers that they have, in this order.
NUMBERS = [
    # 20.3: the names of the root are counted from 0; numbers that are given there are passed over
    ("a", [0]),
    ("a, b, c", [0, 1, 2]),
    ("a, b(1), c", [0, 1, 2]),
    ("a, b(0), c", [1, 0, 2]),
    ("a, b(-1), c(1), d", [0, -1, 1, 2]),
    ("a(seven), b", [7, 0]),
    ("a(three), b(zero), c(also-seven), d", [3, 0, 7, 1]),
    # those of additions are not passed over
    ("a, b(3), ..., c(1)", [0, 3, 1]),
    # 20.7: an addition without a number has the least that the root has not
    ("a, b, ..., c", [0, 1, 2]),
    ("a, b, c(0), ..., d", [1, 2, 0, 3]),
    ("a, z(25), ..., d", [0, 25, 1]),
    ("a, b(0), c, d(5), ..., e", [1, 0, 2, 5, 3]),
    # and one above those of the additions before it
    ("a, b, ..., c(3), d", [0, 1, 3, 4]),
    ("a, b(4), ..., c(3), d", [0, 4, 3, 5]),
    ("a, b, ..., c(seven), d, e", [0, 1, 7, 8, 9]),
]
# Names, where the error stands, and what it says (20.5 to 20.7).
REFUSED = [
    ("a, b, ..., c(0)", "2:31", "the number 0 of 'c' is one of those before '...'"),
    ("a, b(5), ..., c, d(5)", "2:37", "the number 5 of 'd' is one of those before '...'"),
    ("a, ..., d(9), c(5)", "2:34", "the number 5 of 'c' is not greater than 9, before it"),
    ("a, b, ..., c, d(2)", "2:34", "the number 2 of 'd' is not greater than 2, before it"),
    ("a, ..., c(9), d(9)", "2:34", "the number 9 of 'd' is not greater than 9, before it"),
    ("a, ..., b, ..., c", "2:31", "'...' stands here a second time"),
    ("a, ..., a", "2:28", "the name 'a' stands twice"),
]


class Enumerations(unittest.TestCase):
    def test_numbers(self) -> None:
        for text, numbers in NUMBERS:
            with self.subTest(text):
                found = definitions(f"E ::= ENUMERATED {{ {text} }}\n{VALUES}")["E"]
                assert isinstance(found, Enumeration)
                self.assertEqual([one.name for one in found.values], [name.split("(")[0] for name in text.split(", ") if name != "..."])
                self.assertEqual([one.number for one in found.values], numbers)

    def test_what_is_refused(self) -> None:
        for text, place, said in REFUSED:
            with self.subTest(text):
                error = refusal(module_of(f"E ::= ENUMERATED {{ {text} }}"))
                self.assertEqual(error.problem, said)
                self.assertEqual(f"{error.place.line}:{error.place.column}", place)

    def test_what_is_written_has_these_numbers(self) -> None:
        text = written(module_of("A ::= ENUMERATED { red, green }"))["src/test/a.rt"]
        for line in ("A::Red => 0,", "A::Green => 1,", "0 => Some(A::Red),", "1 => Some(A::Green),"):
            self.assertIn(line, text)


if __name__ == "__main__":
    unittest.main()
