"""The trees of modules."""

from __future__ import annotations

import unittest

from ..parser import parse_modules
from ..syntax import (
    AnyType,
    ChoiceType,
    ClassAssignment,
    Component,
    ConstrainedType,
    EnumeratedType,
    FieldOfClass,
    FieldsType,
    IntegerType,
    ListType,
    Module,
    Range,
    ReferenceType,
    SetAssignment,
    Size,
    TagClass,
    TagDefault,
    TaggedType,
    TagMode,
    Type,
    TypeAssignment,
    ValueAssignment,
)
from .helpers import module_of


def parsed(body: str, tags: str = "") -> Module:
    return parse_modules("test.asn1", module_of(body, tags))[0]


def type_of(text: str) -> Type:
    """The type of one assignment."""
    only = parsed(f"T ::= {text}").assignments[0]
    assert isinstance(only, TypeAssignment)
    return only.type


def components_of(text: str) -> list[Component]:
    """The components of a SEQUENCE or a SET."""
    found = type_of(text)
    assert isinstance(found, FieldsType)
    return [part for part in found.components if isinstance(part, Component)]


class Headers(unittest.TestCase):
    def test_tag_defaults(self) -> None:
        self.assertIs(parsed("").tag_default, TagDefault.EXPLICIT)
        for default in TagDefault:
            self.assertIs(parsed("", f"{default.value} TAGS").tag_default, default)

    def test_identifier(self) -> None:
        (module,) = parse_modules("test.asn1", "Test { iso(1) member-body 840 } DEFINITIONS ::= BEGIN END")
        self.assertEqual([(arc.name, arc.number) for arc in module.identifier], [("iso", 1), ("member-body", None), (None, 840)])

    def test_imports_and_exports(self) -> None:
        module = parsed("EXPORTS A, b; IMPORTS C, d FROM Other { iso(1) 2 } E{} FROM Third;")
        self.assertEqual([token.text for token in module.exports or ()], ["A", "b"])
        found = [(one.module, [token.text for token in one.symbols]) for one in module.imports]
        self.assertEqual(found, [("Other", ["C", "d"]), ("Third", ["E"])])

    def test_an_import_whose_module_is_told_by_the_name_of_a_value(self) -> None:
        module = parsed("IMPORTS A FROM Other id-other B FROM Third;")
        self.assertEqual([one.module for one in module.imports], ["Other", "Third"])


class Types(unittest.TestCase):
    def test_tags(self) -> None:
        found = type_of("[APPLICATION 3] IMPLICIT INTEGER")
        assert isinstance(found, TaggedType)
        self.assertEqual((found.tag_class, found.number, found.mode), (TagClass.APPLICATION, 3, TagMode.IMPLICIT))
        found = type_of("[0] INTEGER")
        assert isinstance(found, TaggedType)
        self.assertEqual((found.tag_class, found.mode), (TagClass.CONTEXT, None))

    def test_components(self) -> None:
        found = components_of("SEQUENCE { a INTEGER OPTIONAL, b BOOLEAN DEFAULT FALSE, c [0] T }")
        self.assertEqual([(part.name, part.optional, part.default is None) for part in found], [("a", True, True), ("b", False, False), ("c", False, True)])

    def test_a_component_with_no_name(self) -> None:
        self.assertEqual([part.name for part in components_of("SEQUENCE { CHOICE { a NULL }, Other }")], ["choice", "other"])

    def test_extensions(self) -> None:
        found = components_of("SEQUENCE { a INTEGER, ..., [[2: b INTEGER OPTIONAL ]], ..., c INTEGER }")
        self.assertEqual([(part.name, part.is_addition) for part in found], [("a", False), ("b", True), ("c", False)])

    def test_lists(self) -> None:
        for text in ("SEQUENCE SIZE (1..MAX) OF T", "SEQUENCE (SIZE (1..MAX)) OF T"):
            found = type_of(text)
            assert isinstance(found, ConstrainedType) and isinstance(found.type, ListType)
            assert isinstance(found.constraints[0], Size) and isinstance(found.constraints[0].of, Range)
        found = type_of("SET OF INTEGER (0..5)")
        assert isinstance(found, ListType) and isinstance(found.item, ConstrainedType)
        self.assertTrue(found.is_set)

    def test_numbers_with_names(self) -> None:
        found = type_of("INTEGER { v1(0), v2(-1), v3(third) }")
        assert isinstance(found, IntegerType)
        self.assertEqual([one.name for one in found.named], ["v1", "v2", "v3"])

    def test_enumerated(self) -> None:
        found = type_of("ENUMERATED { a, b(3), ..., c }")
        assert isinstance(found, EnumeratedType)
        self.assertEqual(([(one.name, one.number) for one in found.named], found.extensible), ([("a", None), ("b", 3), ("c", None)], True))

    def test_any(self) -> None:
        found = components_of("SEQUENCE { a ANY, b ANY DEFINED BY a }")
        kinds = [part.type.defined_by for part in found if isinstance(part.type, AnyType)]
        self.assertEqual(kinds, [None, "a"])

    def test_a_choice_in_a_choice(self) -> None:
        found = type_of("CHOICE { a CHOICE { b NULL }, c NULL }")
        assert isinstance(found, ChoiceType)
        self.assertEqual([part.name for part in found.alternatives], ["a", "c"])

    def test_fields_of_classes(self) -> None:
        found = components_of("SEQUENCE { a ALG.&id({Set}), b ALG.&Type({Set}{@a}) OPTIONAL }")
        kinds = [part.type.type for part in found if isinstance(part.type, ConstrainedType)]
        self.assertEqual([kind.fields for kind in kinds if isinstance(kind, FieldOfClass)], [("&id",), ("&Type",)])

    def test_constraints_of_all_kinds(self) -> None:
        for text in (
            "INTEGER (0 | 2..5 | 7<..<MAX, ...)",
            'PrintableString (FROM ("a".."z") ^ SIZE (1..5))',
            "OCTET STRING (CONTAINING T ENCODED BY { 1 2 3 })",
            "OCTET STRING (CONTAINING T)",
            "T (WITH COMPONENTS { a PRESENT, b ABSENT })",
            'UTF8String (PATTERN "a*")',
            "INTEGER (ALL EXCEPT 5)",
            "INTEGER (1..9 EXCEPT 5)",
            "BIT STRING (CONSTRAINED BY { -- a text -- })",
            "INTEGER (INCLUDES Other)",
        ):
            with self.subTest(text):
                self.assertIsInstance(type_of(text), ConstrainedType)

    def test_a_reference_to_another_module(self) -> None:
        found = type_of("Other.Name")
        assert isinstance(found, ReferenceType)
        self.assertEqual((found.module, found.name), ("Other", "Name"))


class Assignments(unittest.TestCase):
    def test_kinds(self) -> None:
        module = parsed(
            """A ::= INTEGER
            b A ::= 5
            C ::= CLASS { &id OBJECT IDENTIFIER UNIQUE, &Type OPTIONAL } WITH SYNTAX { TYPE &Type ID &id }
            d C ::= { TYPE A ID { 1 2 3 } }
            E C ::= { d, ... }
            F{C:Set, T} ::= SEQUENCE { a C.&id({Set}), b T }"""
        )
        kinds = [type(one) for one in module.assignments]
        self.assertEqual(
            kinds, [TypeAssignment, ValueAssignment, ClassAssignment, ValueAssignment, SetAssignment, TypeAssignment]
        )

    def test_the_text_is_the_modules_with_no_annotations(self) -> None:
        only = parsed("  A ::= SEQUENCE { -- @omit\n    a INTEGER, -- @u8\n    b INTEGER -- a word\n  }").assignments[0]
        assert isinstance(only, TypeAssignment)
        self.assertEqual(only.text, "A ::= SEQUENCE {\n  a INTEGER,\n  b INTEGER -- a word\n}")

    def test_annotations_of_components_and_of_the_assignment(self) -> None:
        only = parsed("A ::= SEQUENCE { -- @omit\n a INTEGER, -- @u8\n b T -- @unread\n} -- @name(B)").assignments[0]
        assert isinstance(only, TypeAssignment) and isinstance(only.type, FieldsType)
        self.assertEqual([note.name for note in only.annotations], ["omit", "name"])
        parts = [part for part in only.type.components if isinstance(part, Component)]
        self.assertEqual([[note.name for note in part.annotations] for part in parts], [["u8"], ["unread"]])
