"""What types come to."""

from __future__ import annotations

import unittest

from ..model import (
    Alias,
    Choice,
    Definition,
    Field,
    Leaf,
    List,
    Listed,
    Presence,
    Struct,
    Tag,
    Tagged,
    Use,
    Whole,
)
from ..properties import properties_of_definition
from ..spelling import camel, screaming, snake
from .helpers import definitions, module_of, remarks, resolved


def struct(body: str, tags: str = "", name: str = "A") -> Struct:
    found = definitions(body, tags)[name]
    assert isinstance(found, Struct)
    return found


def fields(body: str, tags: str = "") -> dict[str, Field]:
    return {part.name: part for part in struct(body, tags).fields}


def leaf(text: str) -> Leaf:
    """The type of the library that `A ::= text` is."""
    found = definitions(f"A ::= {text}")["A"]
    assert isinstance(found, Alias) and isinstance(found.type, Leaf)
    return found.type


class Integers(unittest.TestCase):
    def test_the_narrowest_machine_integer(self) -> None:
        for text, width in (
            ("(0..255)", "u8"),
            ("(0..256)", "u16"),
            ("(5)", "u8"),
            ("(0..4294967295)", "u32"),
            ("(0..18446744073709551615)", "u64"),
            ("(-128..127)", "i8"),
            ("(-1..255)", "i16"),
            ("(-2147483648..2147483647)", "i32"),
            ("(1 | 3..9)", "u8"),
            ("(0..1000 ^ 5..9)", "u8"),
            ("(0..1000) (5..9)", "u8"),
            ("(0<..<256)", "u8"),
        ):
            with self.subTest(text):
                self.assertEqual(leaf(f"INTEGER {text}").width, width)

    def test_any_length(self) -> None:
        self.assertIs(leaf("INTEGER").whole, Whole.INTEGER)
        self.assertIs(leaf("INTEGER (0..MAX)").whole, Whole.NATURAL)
        self.assertIs(leaf("INTEGER (1..MAX)").whole, Whole.NATURAL)
        self.assertIs(leaf("INTEGER (MIN..0)").whole, Whole.INTEGER)
        self.assertIs(leaf("INTEGER (0..9, ...)").whole, Whole.INTEGER)

    def test_names_of_numbers(self) -> None:
        self.assertEqual(leaf("INTEGER { v1(0), v2(1) }").width, "u8")
        self.assertEqual(leaf("INTEGER { least(-1) }").width, "i8")

    def test_annotations(self) -> None:
        self.assertEqual(leaf("INTEGER -- @u32").width, "u32")
        self.assertIs(leaf("INTEGER (0..255) -- @unsigned").whole, Whole.NATURAL)
        self.assertIs(leaf("INTEGER { v1(0) } -- @signed").whole, Whole.INTEGER)
        self.assertTrue(leaf("INTEGER -- @owned").is_owned)
        self.assertTrue(leaf("OBJECT IDENTIFIER -- @owned").is_owned)
        self.assertFalse(leaf("OBJECT IDENTIFIER").is_owned)

    def test_remarks(self) -> None:
        for text, said in (
            ("INTEGER (0..255)", []),
            ("INTEGER (0..MAX)", []),
            ("INTEGER", []),
            ("INTEGER (0..100)", []),
            ("INTEGER (0..100) -- @unchecked", ["2:7 INTEGER as u8: (0..100) is not checked"]),
            ("INTEGER (0..100, ...) -- @u8", ["2:7 INTEGER as u8: other numbers are refused"]),
            ("INTEGER (1..MAX)", ["2:7 INTEGER of any length: (1..MAX) is not checked"]),
            ("INTEGER (0 | 255) -- @unchecked", ["2:7 INTEGER as u8: (0..255) is not checked"]),
            ("INTEGER -- @u8", ["2:7 INTEGER as u8: other numbers are refused"]),
            ("INTEGER { a(0) } (0..255)", []),
            ("OCTET STRING (SIZE (4))", []),
            ("OCTET STRING (SIZE (4)) -- @unchecked", ["2:21 SIZE (4..4) is not checked"]),
            ("OCTET STRING (SIZE (4)) -- @owned", ["2:21 SIZE (4..4) is not checked"]),
            ("OCTET STRING (SIZE (4, ...))", ["2:21 SIZE (MIN..MAX) is not checked"]),
            ("BMPString (SIZE (4))", ["2:18 SIZE (4..4) is not checked"]),
            ("BIT STRING { a(0) } (SIZE (4))", ["2:28 SIZE (4..4) is not checked"]),
            ("SEQUENCE SIZE (1..MAX) OF NULL", []),
            ("SEQUENCE SIZE (1..4) OF NULL", []),
            ("SEQUENCE SIZE (1..4) OF NULL -- @unchecked", ["2:16 SIZE (1..4) is checked as (1..MAX)"]),
            ("SEQUENCE SIZE (0..4) OF NULL -- @unchecked", ["2:16 SIZE (0..4) is not checked"]),
            ("OCTET STRING (CONTAINING NULL)", ["2:21 the octets that CONTAINING speaks of are not read"]),
            ("SEQUENCE { a NULL, ... }", ["2:7 '...': fields that this module does not have are refused"]),
        ):
            with self.subTest(text):
                self.assertEqual(remarks(f"A ::= {text}"), said)


    def test_the_names_of_numbers_bound_nothing(self) -> None:
        said = "2:7 INTEGER as {0}, by the numbers that have names: a number outside {1} is refused; {2}'-- @signed' takes all"
        for text, words in (
            ("{ one(1), two(2) }", ("u8", "0..255", "'-- @i32' takes more, and ")),
            ("{ least(-40000) }", ("i32", "-2147483648..2147483647", "'-- @i64' takes more, and ")),
            ("{ most(18446744073709551616) }", ("u128", f"0..{2**128 - 1}", "")),
        ):
            with self.subTest(text):
                self.assertEqual(remarks(f"A ::= INTEGER {text}"), [said.format(*words)])
                within = definitions(f"A ::= SEQUENCE {{ a INTEGER {text} }}")["AA"]
                sentence = f"A number outside {words[1]} is refused: the names alone say how wide the type is."
                self.assertEqual(within.remarks, [sentence])


class Tags(unittest.TestCase):
    def test_the_modules_default(self) -> None:
        body = "A ::= SEQUENCE { a [0] NULL, b [1] IMPLICIT NULL, c [2] EXPLICIT NULL }"
        for tags, explicit in (("", [True, False, True]), ("IMPLICIT TAGS", [False, False, True])):
            found = [part.type.is_explicit for part in struct(body, tags).fields if isinstance(part.type, Tagged)]
            self.assertEqual(found, explicit)

    def test_a_choice_gets_an_explicit_tag(self) -> None:
        body = """A ::= SEQUENCE { a [0] B, b [1] C, c [2] ANY, d [3] D, e [4] K.&Type }
        B ::= CHOICE { x NULL, y INTEGER }
        C ::= B
        D ::= CHOICE { x NULL }
        K ::= CLASS { &Type }"""
        for tags in ("IMPLICIT TAGS", "AUTOMATIC TAGS"):
            found = [part.type.is_explicit for part in struct(body, tags).fields if isinstance(part.type, Tagged)]
            self.assertEqual(found, [True] * 5)

    def test_automatic_tags(self) -> None:
        found = fields("A ::= SEQUENCE { a NULL, b NULL OPTIONAL, c CHOICE { x NULL, y NULL } }", "AUTOMATIC TAGS")
        self.assertEqual([part.type.tag.number for part in found.values() if isinstance(part.type, Tagged)], [0, 1, 2])
        self.assertEqual([part.type.is_explicit for part in found.values() if isinstance(part.type, Tagged)], [False, False, True])
        choice = definitions("A ::= CHOICE { x NULL, y NULL }", "AUTOMATIC TAGS")["A"]
        assert isinstance(choice, Choice)
        self.assertEqual([part.type.tag for part in choice.alternatives if isinstance(part.type, Tagged)], [Tag(2, 0), Tag(2, 1)])

    def test_no_automatic_tags_where_one_is_written(self) -> None:
        found = fields("A ::= SEQUENCE { a NULL, b [5] NULL }", "AUTOMATIC TAGS")
        self.assertIsInstance(found["a"].type, Leaf)

    def test_automatic_tags_of_additions_come_last(self) -> None:
        found = fields("A ::= SEQUENCE { a NULL, ..., b NULL OPTIONAL, ..., c NULL }", "AUTOMATIC TAGS")
        numbers = {name: part.type.tag.number for name, part in found.items() if isinstance(part.type, Tagged)}
        self.assertEqual(numbers, {"a": 0, "b": 2, "c": 1})

    def test_a_tag_in_place_of_a_types_own(self) -> None:
        self.assertEqual(struct("A ::= [APPLICATION 3] IMPLICIT SEQUENCE { a NULL }").tag, Tag(1, 3))
        found = definitions("A ::= [0] SEQUENCE { a NULL }")
        self.assertIsInstance(found["AValue"], Struct)
        alias = found["A"]
        assert isinstance(alias, Alias) and isinstance(alias.type, Tagged)
        self.assertTrue(alias.type.is_explicit)

    def test_a_set_stands_in_the_order_of_tags(self) -> None:
        found = struct("A ::= SET { a [1] NULL, b INTEGER, c [0] NULL, d [APPLICATION 7] NULL, e BOOLEAN }")
        self.assertEqual([part.name for part in found.fields], ["e", "b", "d", "c", "a"])

    def test_fields_that_are_told_apart(self) -> None:
        for text in (
            "SEQUENCE { a INTEGER OPTIONAL, b NULL, c INTEGER OPTIONAL }",
            "SEQUENCE { a INTEGER, b INTEGER }",
            "SEQUENCE { a [0] NULL OPTIONAL, b [1] NULL OPTIONAL, c NULL OPTIONAL }",
            "SEQUENCE { a NULL, b ANY }",
        ):
            with self.subTest(text):
                definitions(f"A ::= {text}")


class Names(unittest.TestCase):
    def test_spelling(self) -> None:
        for name, type_, field in (
            ("TBSCertificate", "TbsCertificate", "tbs_certificate"),
            ("dNSName", "DnsName", "dns_name"),
            ("iPAddress", "IpAddress", "ip_address"),
            ("cA", "Ca", "ca"),
            ("x400Address", "X400Address", "x400_address"),
            ("onlyContainsCACerts", "OnlyContainsCaCerts", "only_contains_ca_certs"),
            ("SNMPv2-Trap-PDU", "Snmpv2TrapPdu", "snmpv2_trap_pdu"),
            ("PDUs", "Pdus", "pdus"),
            ("eContentType", "EContentType", "e_content_type"),
            ("type", "Type", "type_"),
        ):
            self.assertEqual((camel(name), snake(name)), (type_, field))
        self.assertEqual(screaming("id-kp-OCSPSigning"), "ID_KP_OCSP_SIGNING")

    def test_types_that_are_written_out(self) -> None:
        found = definitions(
            """A ::= SEQUENCE {
                a SEQUENCE OF SEQUENCE { b NULL },
                c CHOICE { d NULL, e INTEGER },
                f ENUMERATED { g },
                h INTEGER { i(1) },
                j SEQUENCE { k NULL } -- @type(J)
            }"""
        )
        self.assertEqual(sorted(found), ["A", "AAItem", "AC", "AF", "AH", "J"])

    def test_annotations(self) -> None:
        found = definitions("A ::= SEQUENCE { type NULL } -- @name(B)")
        self.assertEqual(list(found), ["B"])
        self.assertEqual(list(struct("A ::= SEQUENCE { type NULL -- @name(kind)\n}").fields)[0].rust, "kind")

    def test_a_choice_of_one_alternative_is_a_second_name(self) -> None:
        found = definitions("A ::= CHOICE { a B }\nB ::= SEQUENCE OF NULL")["A"]
        assert isinstance(found, Alias) and isinstance(found.type, Use)
        self.assertEqual(found.type.definition.rust, "B")


class Fields(unittest.TestCase):
    def test_presence(self) -> None:
        found = fields("A ::= SEQUENCE { a NULL, b INTEGER (0..255) DEFAULT 5, c BOOLEAN DEFAULT FALSE, d NULL OPTIONAL }")
        self.assertEqual([part.presence for part in found.values()], [Presence.ALWAYS, Presence.DEFAULT, Presence.DEFAULT, Presence.OPTIONAL])
        self.assertEqual([part.default for part in found.values()], [None, 5, False, None])

    def test_a_default_with_a_name(self) -> None:
        found = fields("A ::= SEQUENCE { a V DEFAULT v2, b [0] V DEFAULT v1, c [1] W DEFAULT v1 }\nV ::= INTEGER { v1(0), v2(1) }\nW ::= V")
        self.assertEqual([part.default for part in found.values()], [1, 0, 0])

    def test_components_of(self) -> None:
        body = "A ::= SEQUENCE { a NULL, COMPONENTS OF B, c NULL }\nB ::= SEQUENCE { x INTEGER, y INTEGER, ..., z NULL OPTIONAL }"
        self.assertEqual(list(fields(body)), ["a", "x", "y", "c"])
        found = fields(body, "AUTOMATIC TAGS")
        self.assertEqual([part.type.tag.number for part in found.values() if isinstance(part.type, Tagged)], [0, 1, 2, 3])

    def test_unread(self) -> None:
        found = fields(
            """A ::= SEQUENCE {
                a B, -- @unread
                b [0] IMPLICIT B, -- @unread
                c C, -- @unread
                d SEQUENCE OF B -- @unread
            }
            B ::= SEQUENCE { x A }
            C ::= CHOICE { x NULL, y A }"""
        )
        whole = [part.type.of if isinstance(part.type, Tagged) else part.type for part in found.values()]
        whole = [one.item if isinstance(one, Listed) else one for one in whole]
        self.assertEqual(
            [one.whole for one in whole if isinstance(one, Leaf)],
            [Whole.UNREAD_SEQUENCE, Whole.UNREAD_SEQUENCE, Whole.ANY, Whole.UNREAD_SEQUENCE],
        )


class Lists(unittest.TestCase):
    def test_lists(self) -> None:
        found = definitions("A ::= SEQUENCE SIZE (1..MAX) OF B\nB ::= SET OF NULL")
        first, second = found["A"], found["B"]
        assert isinstance(first, List) and isinstance(second, List)
        self.assertEqual((first.is_set, first.is_never_empty), (False, True))
        self.assertEqual((second.is_set, second.is_never_empty), (True, False))


class Properties(unittest.TestCase):
    def properties(self, body: str) -> tuple[bool, bool, bool]:
        found: Definition = definitions(body)["A"]
        properties = properties_of_definition(found)
        return properties.borrows, properties.takes_memory, properties.is_copy

    def test_properties(self) -> None:
        for text, expected in (
            ("SEQUENCE { a INTEGER (0..255), b BOOLEAN }", (False, False, True)),
            ("SEQUENCE { a OCTET STRING }", (True, False, True)),
            ("SEQUENCE { a OCTET STRING -- @owned\n }", (False, True, False)),
            ("SEQUENCE { a OBJECT IDENTIFIER }", (True, False, True)),
            ("SEQUENCE { a OBJECT IDENTIFIER -- @owned\n }", (False, False, True)),
            ("CHOICE { a NULL, b [0] UTF8String }", (True, False, True)),
            ("SEQUENCE { a BMPString }", (False, True, False)),
            ("ENUMERATED { a }", (False, False, True)),
        ):
            with self.subTest(text):
                self.assertEqual(self.properties(f"A ::= {text}"), expected)

    def test_of_lists(self) -> None:
        """They borrow, and are copied, whatever their items are; reading checks the items, and takes memory where these do."""
        for text, expected in (
            ("SEQUENCE { a SEQUENCE OF BOOLEAN }", (True, False, True)),
            ("SEQUENCE { a SET OF ANY OPTIONAL }", (True, False, True)),
            ("SEQUENCE OF BOOLEAN", (True, False, True)),
            ("SET SIZE (1..MAX) OF UTF8String", (True, False, True)),
            ("SET OF BMPString", (True, True, True)),
            ("SET OF BMPString -- @any_order", (True, True, True)),
            ("SEQUENCE { a [0] SEQUENCE SIZE (1..MAX) OF SEQUENCE { x BMPString } }", (True, True, True)),
            ("SEQUENCE OF SEQUENCE OF BMPString", (True, True, True)),
            ("SEQUENCE OF SET OF NULL", (True, False, True)),
        ):
            with self.subTest(text):
                self.assertEqual(self.properties(f"A ::= {text}"), expected)


class Classes(unittest.TestCase):
    def test_open_types_and_identifiers(self) -> None:
        found = fields(
            """ALG ::= CLASS { &id OBJECT IDENTIFIER UNIQUE, &Type OPTIONAL }
            OTHER ::= TYPE-IDENTIFIER
            A ::= SEQUENCE { a ALG.&id({Set}), b ALG.&Type({Set}{@a}), c OTHER.&id, d TYPE-IDENTIFIER.&Type }
            Set ALG ::= { ... }"""
        )
        whole = [part.type.whole for part in found.values() if isinstance(part.type, Leaf)]
        self.assertEqual(whole, [Whole.OBJECT_IDENTIFIER, Whole.ANY, Whole.OBJECT_IDENTIFIER, Whole.ANY])

    def test_a_type_with_a_class_as_its_parameter_is_one_type(self) -> None:
        found = definitions(
            """ALG ::= CLASS { &id OBJECT IDENTIFIER, &Params OPTIONAL }
            SIG ::= CLASS { &id OBJECT IDENTIFIER, &Params OPTIONAL, &Value }
            AlgorithmIdentifier{ALG-TYPE, ALG-TYPE:Set} ::= SEQUENCE {
                algorithm ALG-TYPE.&id({Set}),
                parameters ALG-TYPE.&Params({Set}{@algorithm}) OPTIONAL }
            A ::= SEQUENCE { a AlgorithmIdentifier{ALG, {One}}, b AlgorithmIdentifier{SIG, {Two}} }
            One ALG ::= { ... }
            Two SIG ::= { ... }"""
        )
        self.assertEqual(sorted(found), ["A", "AlgorithmIdentifier"])

    def test_a_type_with_a_type_as_its_parameter_is_as_many(self) -> None:
        found = definitions(
            """SIGNED{ToBeSigned} ::= SEQUENCE { toBeSigned ToBeSigned, signature BIT STRING }
            A ::= SIGNED{B}
            B ::= SEQUENCE { a NULL }
            C ::= SEQUENCE { x SIGNED{INTEGER}, y SEQUENCE OF SIGNED{BOOLEAN} }"""
        )
        self.assertEqual(sorted(found), ["A", "B", "C", "CX", "CYItem"])
        self.assertIsInstance(found["A"], Struct)


class Constants(unittest.TestCase):
    def test_object_identifiers(self) -> None:
        found, _ = resolved(
            module_of(
                """a OBJECT IDENTIFIER ::= { iso(1) member-body(2) us(840) }
                b OBJECT IDENTIFIER ::= { a 5 c(c) }
                c INTEGER ::= 7
                d Id ::= { joint-iso-itu-t 5 4 }
                Id ::= OBJECT IDENTIFIER
                e OBJECT IDENTIFIER ::= { iso standard 8571 }
                f OBJECT IDENTIFIER ::= d
                K ::= CLASS { &id INTEGER }
                g K ::= { ID 5 }"""
            )
        )
        arcs = {one.name: one.arcs for one in found[0].constants}
        self.assertEqual(
            arcs,
            {
                "a": (1, 2, 840),
                "b": (1, 2, 840, 5, 7),
                "d": (2, 5, 4),
                "e": (1, 0, 8571),
                "f": (2, 5, 4),
            },
        )
