"""Classes and their fields (X.681), and parameters of each governor (X.683), as RFC 5912 and X.500 have them."""

from __future__ import annotations

import unittest

from ..model import Alias, Allowed, Leaf, List, Measure, Struct, Tagged, Whole
from ..syntax import OtherValue, SetAssignment, ValueAssignment
from .helpers import definitions, module_of, refusal, resolved
from .test_parser import parsed

CLASSES = """MATCHING-RULE ::= CLASS { &AssertionType OPTIONAL, &id OBJECT IDENTIFIER UNIQUE, &Parents MATCHING-RULE OPTIONAL }
ATTRIBUTE ::= CLASS {
  &derivation ATTRIBUTE OPTIONAL, &Type OPTIONAL, &equality MATCHING-RULE OPTIONAL, &default &Type OPTIONAL,
  &Sizes INTEGER (0..9) OPTIONAL, &number INTEGER (0..300) DEFAULT 5, &id OBJECT IDENTIFIER UNIQUE
} WITH SYNTAX { [SUBTYPE OF &derivation] [WITH SYNTAX &Type [DEFAULT &default]] [EQUALITY &equality] ID &id }
"""


def leaf(body: str) -> Leaf:
    """The type of the library that A is."""
    found = definitions(CLASSES + body)["A"]
    assert isinstance(found, Alias) and isinstance(found.type, Leaf)
    return found.type


UP_TO_300 = Leaf(Whole.MACHINE_INTEGER, width="u16", allowed=Allowed(Measure.NUMBER, ((0, 300),)))


class Fields(unittest.TestCase):
    def test_a_field_of_a_field_is_of_its_class(self) -> None:
        self.assertIs(leaf("A ::= ATTRIBUTE.&equality.&id").whole, Whole.OBJECT_IDENTIFIER)
        self.assertIs(leaf("A ::= ATTRIBUTE.&equality.&AssertionType").whole, Whole.ANY)
        self.assertIs(leaf("A ::= ATTRIBUTE.&derivation.&derivation.&equality.&Parents.&id").whole, Whole.OBJECT_IDENTIFIER)

    def test_a_field_whose_type_is_another_field_is_open(self) -> None:
        self.assertIs(leaf("A ::= ATTRIBUTE.&default").whole, Whole.ANY)

    def test_a_field_of_values_or_of_a_set_of_values_is_of_their_type(self) -> None:
        self.assertEqual(leaf("A ::= ATTRIBUTE.&number").width, "u16")
        self.assertEqual(leaf("A ::= ATTRIBUTE.&Sizes").width, "u8")

    def test_a_class_of_another_module(self) -> None:
        body = "A ::= SEQUENCE { a Classes.ATTRIBUTE.&equality.&id, b B.&id }\nB ::= Classes.MATCHING-RULE"
        found, _ = resolved(module_of(CLASSES, name="Classes"), module_of(body))
        (only,) = found[1].definitions
        assert isinstance(only, Struct)
        self.assertEqual([part.type for part in only.fields], [Leaf(Whole.OBJECT_IDENTIFIER, octets=39)] * 2)

    def test_the_classes_that_each_module_has(self) -> None:
        self.assertIs(leaf("A ::= ABSTRACT-SYNTAX.&id").whole, Whole.OBJECT_IDENTIFIER)
        self.assertEqual([one.name for one in definitions("A ::= ABSTRACT-SYNTAX.&property")["AValue"].bits], ["handles-invalid-encodings"])
        self.assertIs(leaf("B ::= ABSTRACT-SYNTAX\nA ::= B.&Type").whole, Whole.ANY)
        self.assertEqual(resolved(module_of("a ABSTRACT-SYNTAX ::= { NULL IDENTIFIED BY {1 2 3} }"))[0][0].constants, [])


class Parameters(unittest.TestCase):
    def test_a_value(self) -> None:
        body = "P{INTEGER:least, INTEGER:most} ::= INTEGER (least..most)\nA ::= SEQUENCE { a P{0, ub} }\nub INTEGER ::= 300"
        found = definitions(body)["P"]
        assert isinstance(found, Alias)
        self.assertEqual(found.type, UP_TO_300)

    def test_a_value_that_is_handed_on_by_the_same_name(self) -> None:
        body = "P{INTEGER:ub} ::= INTEGER (0..ub)\nQ{INTEGER:ub} ::= SEQUENCE { a P{ub} }\nA ::= Q{ub}\nub INTEGER ::= 300"
        found = definitions(body)["P"]
        assert isinstance(found, Alias)
        self.assertEqual(found.type, UP_TO_300)

    def test_a_constraint_is_understood_where_it_stands(self) -> None:
        types = module_of("P{T} ::= SEQUENCE { a T (0..ub), b Q{T} (0..ub) }\nQ{T} ::= T (least..MAX)\nub INTEGER ::= 300\nleast INTEGER ::= 1", name="Types")
        lists = module_of("L{T} ::= SEQUENCE SIZE (least..MAX) OF T\nleast INTEGER ::= 1", name="Lists")
        body = "IMPORTS P FROM Types L FROM Lists;\nA ::= P{INTEGER}\nB ::= L{NULL}\nub INTEGER ::= 5"
        found = {one.rust: one for one in resolved(types, lists, module_of(body))[0][2].definitions}
        assert isinstance(found["A"], Struct) and isinstance(found["B"], List)
        from_1 = Leaf(Whole.MACHINE_INTEGER, width="u16", allowed=Allowed(Measure.NUMBER, ((1, 300),)))
        self.assertEqual([part.type for part in found["A"].fields], [UP_TO_300, from_1])
        self.assertTrue(found["B"].is_never_empty)

    def test_the_number_of_a_tag(self) -> None:
        found = definitions("P{INTEGER:n} ::= SEQUENCE { a [n] NULL }\nA ::= P{7}")["P"]
        assert isinstance(found, Struct) and isinstance(found.fields[0].type, Tagged)
        self.assertEqual(found.fields[0].type.tag.number, 7)

    def test_a_type_that_governs_another_parameter(self) -> None:
        body = "P{T, T:least, CLS, CLS:Set} ::= SEQUENCE { a T (least..MAX), b CLS.&id({Set}) }\nA ::= P{INTEGER, 5, ATTRIBUTE, {x}}"
        found = definitions(CLASSES + body)["A"]
        assert isinstance(found, Struct)
        self.assertEqual([part.type for part in found.fields], [Leaf(Whole.NATURAL), Leaf(Whole.OBJECT_IDENTIFIER, octets=39)])

    def test_objects_and_sets_may_have_some(self) -> None:
        body = """chained{OPERATION:operation} OPERATION ::= { ARGUMENT SET { a operation.&Type } CODE operation.&code }
            read OPERATION ::= chained{x}
            All{OPERATION:some} OPERATION ::= { read | some }
            five{INTEGER:n} INTEGER ::= 5"""
        kinds = [type(one) for one in parsed(body).assignments]
        self.assertEqual(kinds, [ValueAssignment, ValueAssignment, SetAssignment, ValueAssignment])

    def test_a_field_of_an_object_as_a_parameter(self) -> None:
        body = "B{OPERATION:o} ::= SEQUENCE { a OPERATION.&id({o}) }\nOPERATION ::= TYPE-IDENTIFIER\nA ::= B{contract.&connection.&bind}"
        self.assertIn("B", definitions(body))


class Values(unittest.TestCase):
    def test_of_an_open_type(self) -> None:
        for value in ("NULL:NULL", "INTEGER : 5", "Name:{ a 5 }", "Name : b : 5"):
            (only,) = parsed(f"a A ::= {value}").assignments
            assert isinstance(only, ValueAssignment)
            self.assertIsInstance(only.value, OtherValue)

    def test_one_of_another_kind_is_no_number(self) -> None:
        for value in ("NULL:NULL", "x{5}", "x.&y.&z"):
            error = refusal(module_of(f"a INTEGER ::= {value}\nA ::= INTEGER (0..a)"))
            self.assertEqual((error.problem, error.place.line), ("this value is no number", 2))


if __name__ == "__main__":
    unittest.main()
