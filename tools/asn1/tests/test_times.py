"""`@fraction`: a GeneralizedTime that may have a fraction of a second."""

from __future__ import annotations

import unittest

from ..errors import AsnError
from ..model import Alias, Leaf, Listed, Tag, Whole
from ..properties import properties_of, tags_of
from ..writer.leaves import WHOLES
from .helpers import definitions, module_of, resolved
from .test_resolver import struct
from .test_writer import grammar, written

FRACTIONAL = Leaf(Whole.FRACTIONAL_TIME)
PLAIN = Leaf(Whole.GENERALIZED_TIME)
# Modules, and the time of each that has a fraction: where it stands and what is said.
REFUSED = (
    ("A ::= UTCTime -- @fraction", "'@fraction' says nothing of 'A'"),
    ("A ::= SEQUENCE { a UTCTime -- @fraction\n}", "'@fraction' says nothing of 'a'"),
    ("A ::= SEQUENCE { a B -- @fraction\n}\nB ::= GeneralizedTime", "'@fraction' says nothing of 'a'"),
    ("A ::= SEQUENCE { a GeneralizedTime } -- @fraction", "'@fraction' says nothing of 'A'"),
    ("A ::= GeneralizedTime -- @fraction(3)", "'@fraction' has no argument"),
    ("A ::= GeneralizedTime -- @fractions", "there is no annotation '@fractions'"),
    ('A ::= SEQUENCE { a GeneralizedTime DEFAULT "20200101000000.5Z" -- @fraction\n}', "has no DEFAULT here"),
)


class Fractions(unittest.TestCase):
    def test_a_component_an_item_and_an_assignment(self) -> None:
        found = struct("A ::= SEQUENCE { a GeneralizedTime, -- @fraction\n b GeneralizedTime }")
        self.assertEqual([part.type for part in found.fields], [FRACTIONAL, PLAIN])
        (part,) = struct("A ::= SEQUENCE { a SEQUENCE OF GeneralizedTime -- @fraction\n}").fields
        assert isinstance(part.type, Listed)
        self.assertEqual(part.type.item, FRACTIONAL)
        alias = definitions("A ::= GeneralizedTime -- @fraction")["A"]
        assert isinstance(alias, Alias)
        self.assertEqual(alias.type, FRACTIONAL)

    def test_it_has_the_tag_of_a_time_and_borrows(self) -> None:
        self.assertEqual(tags_of(FRACTIONAL), frozenset([Tag(0, 24)]))
        found = properties_of(FRACTIONAL)
        self.assertEqual((found.borrows, found.takes_memory, found.is_copy), (True, False, True))
        self.assertEqual(WHOLES[FRACTIONAL.whole], ("FractionalTimeRef", "FractionalTimeRef"))

    def test_what_is_written(self) -> None:
        body = "A ::= SEQUENCE { a GeneralizedTime, -- @fraction\n b [0] GeneralizedTime OPTIONAL -- @fraction\n}"
        text = written(module_of(body))["src/test/a.rt"]
        self.assertIn("Fields2<FractionalTimeRef<'a>, Option<Explicit<FractionalTimeRef<'a>, 0>>>", text)
        self.assertNotIn("GeneralizedTime<", text)

    def test_the_page_of_the_grammar_tells_the_two_apart(self) -> None:
        found = grammar("A ::= SEQUENCE { a GeneralizedTime -- @fraction\n}\nB ::= SEQUENCE { a GeneralizedTime }")
        self.assertIn("FRACTIONAL_TIME", found["a"])
        self.assertIn("GENERALIZED_TIME", found["b"])
        self.assertEqual(found["FRACTIONAL_TIME"], "one tags.GeneralizedTime parse_fractional_time")

    def test_where_it_says_nothing(self) -> None:
        for body, text in REFUSED:
            with self.subTest(body), self.assertRaises(AsnError) as raised:
                resolved(module_of(body))
            self.assertIn(text, str(raised.exception))


if __name__ == "__main__":
    unittest.main()
