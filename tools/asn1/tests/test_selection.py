"""Selection types (X.680 30), and INSTANCE OF (X.681 annex C), which is a SEQUENCE after an implicit tag."""

from __future__ import annotations

import unittest

from ..model import Alias, Leaf, List, Struct, Tagged, Use, Whole
from .helpers import definitions, module_of, resolved
from .test_writer import grammar, written

CHOICE = "C ::= CHOICE { a NULL, b [5] INTEGER (0..255), c SET { x BOOLEAN }, d D }\nD ::= SEQUENCE { y UTF8String }\n"
OTHERS = "OTHER-NAME ::= TYPE-IDENTIFIER\n"


class Selection(unittest.TestCase):
    def test_the_type_of_the_alternative_with_its_tag(self) -> None:
        body = f"{CHOICE}A ::= SEQUENCE {{ p a < C, q b < C OPTIONAL, r SEQUENCE OF d < C }}"
        found = definitions(body)
        assert isinstance(found["A"], Struct)
        kinds = [part.type for part in found["A"].fields]
        self.assertEqual(kinds[0], Leaf(Whole.NULL))
        assert isinstance(kinds[1], Tagged)
        self.assertEqual((kinds[1].tag.number, kinds[1].is_explicit, kinds[1].of), (5, True, Leaf(Whole.MACHINE_INTEGER, width="u8")))
        self.assertIn("EXPLICIT context 5 INTEGER_u8", grammar(body)["a"])
        self.assertIn("SEQUENCE_OF d", grammar(body)["a"])

    def test_automatic_tags_are_the_alternatives(self) -> None:
        one = module_of(CHOICE.replace("[5] ", ""), "AUTOMATIC TAGS", "One")
        body = "IMPORTS C FROM One;\nA ::= SEQUENCE { p b < C }\nB ::= d < C"
        found = {one.rust: one for one in resolved(one, module_of(body))[0][1].definitions}
        assert isinstance(found["A"], Struct) and isinstance(found["B"], Alias)
        tags = [(one.tag.number, one.is_explicit) for one in (found["A"].fields[0].type, found["B"].type) if isinstance(one, Tagged)]
        self.assertEqual(tags, [(1, False), (3, False)])
        page = written(one, module_of(body))["specs/Module1/Grammar.antt"]
        self.assertIn("IMPLICIT context 1 INTEGER_u8", page)
        self.assertIn("IMPLICIT context 3 d", page)

    def test_a_constraint_is_on_the_alternative(self) -> None:
        found = definitions("C ::= CHOICE { a INTEGER, b NULL }\nA ::= SEQUENCE OF x < C (0..65535)".replace("x", "a"))["A"]
        assert isinstance(found, List)
        self.assertEqual(found.item, Leaf(Whole.MACHINE_INTEGER, width="u16"))

    def test_a_type_that_is_written_out_there(self) -> None:
        found = definitions(f"{CHOICE}A ::= SEQUENCE {{ p c < C }}")
        self.assertEqual([part.name for part in found["AP"].fields], ["x"])

    def test_a_component_of_a_set_has_its_place_by_it(self) -> None:
        body = f"{CHOICE}A ::= SET {{ p b < C, q [1] NULL, r d < C }}"
        found = definitions(body, "IMPLICIT TAGS")["A"]
        assert isinstance(found, Struct)
        self.assertEqual([part.name for part in found.fields], ["r", "q", "p"])
        self.assertIn("IMPLICIT context 5", grammar(body, "IMPLICIT TAGS")["a"].split("IMPLICIT context 1")[1])


class Instance(unittest.TestCase):
    """The tag [UNIVERSAL 8] has no place in the layer; an implicit tag stands in place of it."""

    BODY = OTHERS + "A ::= CHOICE { o [0] INSTANCE OF OTHER-NAME, n [1] NULL }"
    SAME = "A ::= CHOICE { o [0] O, n [1] NULL }\nO ::= SEQUENCE { type-id OBJECT IDENTIFIER, value [0] EXPLICIT ANY DEFINED BY type-id }"

    def test_it_is_its_sequence(self) -> None:
        found = definitions(self.BODY, "IMPLICIT TAGS")["AO"]
        assert isinstance(found, Struct) and isinstance(found.fields[1].type, Tagged)
        self.assertEqual([part.rust for part in found.fields], ["type_id", "value"])
        self.assertEqual(found.fields[0].type, Leaf(Whole.OBJECT_IDENTIFIER, octets=39))
        self.assertEqual((found.fields[1].type.is_explicit, found.fields[1].type.of), (True, Leaf(Whole.ANY)))
        mine, same = grammar(self.BODY, "IMPLICIT TAGS"), grammar(self.SAME, "IMPLICIT TAGS")
        self.assertEqual(mine["ao"], same["o"])
        self.assertEqual(mine["a"], same["a"].replace(" o)", " ao)"))

    def test_behind_an_automatic_tag(self) -> None:
        body = OTHERS + "A ::= CHOICE { o INSTANCE OF OTHER-NAME ({x}), n NULL }"
        self.assertEqual(grammar(body, "AUTOMATIC TAGS")["ao"], grammar(self.SAME, "IMPLICIT TAGS")["o"])
        self.assertIn("IMPLICIT context 0 ao", grammar(body, "AUTOMATIC TAGS")["a"])

    def test_of_an_assignment_with_a_name(self) -> None:
        body = OTHERS + "A ::= [0] IMPLICIT INSTANCE OF TYPE-IDENTIFIER\nB ::= SEQUENCE { a [1] IMPLICIT INSTANCE OF OTHER-NAME -- @type(OtherOne)\n}"
        found = definitions(body)
        assert isinstance(found["A"], Struct) and found["A"].tag is not None
        self.assertEqual(str(found["A"].tag), "[0]")
        self.assertIsInstance(found["OtherOne"], Struct)
        self.assertIn("src/test/a.rt", written(module_of(body)))

    def test_of_a_class_of_another_module_or_of_a_parameter(self) -> None:
        body = "P{CLS} ::= SEQUENCE { a [0] IMPLICIT INSTANCE OF CLS, b [1] IMPLICIT INSTANCE OF One.OTHER-NAME }\nA ::= P{TYPE-IDENTIFIER}"
        found, _ = resolved(module_of(OTHERS, name="One"), module_of(body))
        struct = next(one for one in found[1].definitions if one.rust == "P")
        assert isinstance(struct, Struct)
        self.assertTrue(all(isinstance(part.type, Tagged) and isinstance(part.type.of, Use) for part in struct.fields))


if __name__ == "__main__":
    unittest.main()
