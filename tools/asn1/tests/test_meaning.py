"""Numbers, names and sizes: what X.680 says that they are, where a module leaves a part of it unsaid."""

from __future__ import annotations

import unittest

from ..model import (
    Alias,
    Allowed,
    Choice,
    Definition,
    Leaf,
    List,
    Listed,
    Measure,
    Presence,
    Struct,
    Tag,
    Tagged,
    Whole,
)
from ..properties import tags_of
from ..writer.leaves import WHOLES
from .helpers import definitions, module_of, refusal, remarks, resolved
from .test_writer import grammar, written

# Names of numbers, of which one is the name of another.
VALUES = """zero INTEGER ::= 0
    three INTEGER ::= 3
    seven INTEGER ::= 7
    also-seven INTEGER ::= seven
    top INTEGER ::= 255
"""


def struct(body: str) -> Struct:
    """The SEQUENCE `A` of a module."""
    found = definitions(body)["A"]
    assert isinstance(found, Struct)
    return found


def alias(body: str) -> Alias:
    """The second name `A` of a module."""
    found = definitions(body)["A"]
    assert isinstance(found, Alias)
    return found


def leaf(body: str) -> Leaf:
    """The type of the library that `A` of a module is."""
    found = alias(body).type
    assert isinstance(found, Leaf)
    return found


class NumbersByName(unittest.TestCase):
    """A number that is the name of a value is the number of that value."""

    def test_of_a_tag(self) -> None:
        found = struct(VALUES + "A ::= SEQUENCE { a [zero] NULL, b [three] NULL, c [APPLICATION also-seven] NULL }")
        tags = [part.type.tag for part in found.fields if isinstance(part.type, Tagged)]
        self.assertEqual(tags, [Tag(2, 0), Tag(2, 3), Tag(1, 7)])

    def test_of_bounds(self) -> None:
        for text, width in (
            ("(zero..top)", "u8"),
            ("(0..also-seven)", "u8"),
            ("(three | top)", "u8"),
            ("(top)", "u8"),
        ):
            with self.subTest(text):
                self.assertEqual(leaf(f"{VALUES}A ::= INTEGER {text}").width, width)
        self.assertEqual(remarks(VALUES + "A ::= INTEGER (zero..top)"), [])
        found = leaf(f"{VALUES}A ::= INTEGER (three..also-seven)").allowed
        self.assertEqual(found, Allowed(Measure.NUMBER, ((3, 7),)))
        said = remarks(VALUES + "A ::= INTEGER (three..also-seven) -- @unchecked")
        self.assertEqual([text.split(" ", 1)[1] for text in said], ["INTEGER as u8: (3..7) is not checked"])

    def test_of_named_numbers_and_bits(self) -> None:
        found = alias(VALUES + "A ::= INTEGER { a(zero), b(also-seven) }")
        self.assertEqual([(one.name, one.number) for one in found.numbers], [("a", 0), ("b", 7)])
        found = alias(VALUES + "A ::= BIT STRING { a(zero), b(three) }")
        self.assertEqual([(one.name, one.number) for one in found.bits], [("a", 0), ("b", 3)])

    def test_of_a_default(self) -> None:
        byte = "INTEGER (0..255) DEFAULT"
        found = struct(f"{VALUES}A ::= SEQUENCE {{ a {byte} three, b [0] {byte} zero }}")
        self.assertEqual({part.presence for part in found.fields}, {Presence.DEFAULT})
        self.assertEqual([part.default for part in found.fields], [3, 0])

    def test_of_a_size(self) -> None:
        for text, ends in (("zero..three", (0, 3)), ("three..top", (3, 255)), ("three", (3, 3))):
            found = definitions(f"{VALUES}A ::= SEQUENCE SIZE ({text}) OF NULL")["A"]
            assert isinstance(found, List)
            self.assertEqual(found.allowed, Allowed(Measure.SIZE, (ends,)), text)

    def test_of_an_arc(self) -> None:
        found, _ = resolved(module_of(VALUES + "a OBJECT IDENTIFIER ::= { iso(1) x(three) seven }"))
        self.assertEqual([one.arcs for one in found[0].constants], [(1, 3, 7)])

    def test_of_another_module(self) -> None:
        one = module_of(VALUES, name="One")
        two = module_of("IMPORTS three FROM One;\nA ::= SEQUENCE { a [three] NULL }", name="Two")
        found, _ = resolved(one, two)
        part = found[1].definitions[0]
        assert isinstance(part, Struct) and isinstance(part.fields[0].type, Tagged)
        self.assertEqual(part.fields[0].type.tag, Tag(2, 3))


class Arcs(unittest.TestCase):
    """The names of arcs that stand without a number (32.3), and their numbers (X.660 annex A)."""

    KNOWN = (
        ("itu-t recommendation", (0, 0)),
        ("itu-t question", (0, 1)),
        ("itu-t administration", (0, 2)),
        ("itu-t network-operator", (0, 3)),
        ("itu-t identified-organization", (0, 4)),
        ("ccitt recommendation", (0, 0)),
        ("ccitt network-operator", (0, 3)),
        ("iso standard", (1, 0)),
        ("iso registration-authority", (1, 1)),
        ("iso member-body", (1, 2)),
        ("iso identified-organization", (1, 3)),
        ("iso(1) member-body us(840)", (1, 2, 840)),
        ("iso identified-organization dod(6)", (1, 3, 6)),
        ("joint-iso-itu-t 5", (2, 5)),
        ("joint-iso-ccitt ds(5)", (2, 5)),
    )

    def test_a_known_name_is_its_number(self) -> None:
        for text, arcs in self.KNOWN:
            with self.subTest(text):
                found, _ = resolved(module_of(f"a OBJECT IDENTIFIER ::= {{ {text} 77 }}"))
                self.assertEqual([one.arcs for one in found[0].constants], [(*arcs, 77)])

    def test_a_known_name_is_none_elsewhere(self) -> None:
        body = "member-body INTEGER ::= 4\n a OBJECT IDENTIFIER ::= { joint-iso-itu-t member-body 7 }"
        found, _ = resolved(module_of(body))
        self.assertEqual([one.arcs for one in found[0].constants], [(2, 4, 7)])


class Leaves(unittest.TestCase):
    # Types, the library's type of each, and its universal tag (X.680 table 1).
    KNOWN = (
        ("BOOLEAN", Whole.BOOLEAN, 1),
        ("INTEGER", Whole.INTEGER, 2),
        ("BIT STRING", Whole.BIT_STRING, 3),
        ("OCTET STRING", Whole.OCTET_STRING, 4),
        ("NULL", Whole.NULL, 5),
        ("OBJECT IDENTIFIER", Whole.OBJECT_IDENTIFIER, 6),
        ("UTF8String", Whole.UTF8_STRING, 12),
        ("RELATIVE-OID", Whole.RELATIVE_OID, 13),
        ("NumericString", Whole.NUMERIC_STRING, 18),
        ("PrintableString", Whole.PRINTABLE_STRING, 19),
        ("TeletexString", Whole.TELETEX_STRING, 20),
        ("T61String", Whole.TELETEX_STRING, 20),
        ("VideotexString", Whole.VIDEOTEX_STRING, 21),
        ("IA5String", Whole.IA5_STRING, 22),
        ("VisibleString", Whole.VISIBLE_STRING, 26),
        ("ISO646String", Whole.VISIBLE_STRING, 26),
        ("UTCTime", Whole.UTC_TIME, 23),
        ("GeneralizedTime", Whole.GENERALIZED_TIME, 24),
        ("GeneralString", Whole.GENERAL_STRING, 27),
        ("BMPString", Whole.BMP_STRING, 30),
    )

    def test_each_is_its_type_with_its_universal_tag(self) -> None:
        for text, whole, number in self.KNOWN:
            with self.subTest(text):
                found = leaf(f"A ::= {text}")
                self.assertIs(found.whole, whole)
                self.assertEqual(tags_of(found), frozenset([Tag(0, number)]))

    def test_t61_string_is_teletex_string(self) -> None:
        """41.1, table 8: T61String is a second name of TeletexString, and VideotexString is another type."""
        found = struct("A ::= SEQUENCE { a T61String, b TeletexString, c VideotexString }")
        teletex = Leaf(Whole.TELETEX_STRING)
        self.assertEqual([part.type for part in found.fields], [teletex, teletex, Leaf(Whole.VIDEOTEX_STRING)])
        self.assertEqual(WHOLES[Whole.TELETEX_STRING], ("TeletexStringRef", "TeletexString"))
        text = written(module_of("A ::= SEQUENCE { a T61String }"))["src/test/a.rt"]
        self.assertIn("TeletexStringRef<'a>", text)
        self.assertNotIn("Videotex", text)

    def test_the_page_of_the_grammar_has_the_same_type(self) -> None:
        names = {"A": "T61String", "B": "TeletexString", "C": "VideotexString"}
        found = grammar("\n".join(f"{name} ::= SEQUENCE {{ a {type_} }}" for name, type_ in names.items()))
        self.assertEqual(found["a"], found["b"])
        self.assertNotEqual(found["a"], found["c"])

    def test_an_object_identifier_has_39_octets_at_most(self) -> None:
        self.assertEqual(leaf("A ::= OBJECT IDENTIFIER").octets, 39)
        self.assertEqual(leaf("A ::= OBJECT IDENTIFIER -- @max(12)").octets, 12)

    def test_the_narrowest_integer_at_each_end(self) -> None:
        for bits in (8, 16, 32, 64, 128):
            for low, high, width in (
                (0, 2**bits - 1, f"u{bits}"),
                (0, 2 ** (bits - 1), f"u{bits}"),
                (0, 2 ** (bits - 1) - 1, f"u{bits}"),
                (-(2 ** (bits - 1)), 2 ** (bits - 1) - 1, f"i{bits}"),
                (-1, 2 ** (bits - 1) - 1, f"i{bits}"),
            ):
                with self.subTest(low=low, high=high):
                    self.assertEqual(leaf(f"A ::= INTEGER ({low}..{high})").width, width)


class Sizes(unittest.TestCase):
    """SIZE before OF, of a SEQUENCE and of a SET: the sizes that are allowed, or that the list has an item, or all."""

    MOST = 2**32 - 1

    def test_the_sizes_of_each_constraint(self) -> None:
        for size, is_never_empty, runs in (
            ("1..MAX", True, None),
            ("1 | 2..MAX", True, None),
            ("0<..MAX", True, None),
            ("2..MAX", False, ((2, self.MOST),)),
            ("1..3", False, ((1, 3),)),
            ("3", False, ((3, 3),)),
            ("2 | 4", False, ((2, 2), (4, 4))),
            ("0..MAX", False, None),
            ("0..3", False, ((0, 3),)),
            ("0 | 4", False, ((0, 0), (4, 4))),
            ("0..9 EXCEPT 5", False, ((0, 4), (6, 9))),
            (f"0..{self.MOST + 1}", False, None),
        ):
            for kind in ("SEQUENCE", "SET"):
                with self.subTest(kind=kind, size=size):
                    found = definitions(f"A ::= {kind} SIZE ({size}) OF NULL")["A"]
                    assert isinstance(found, List)
                    self.assertEqual((found.is_set, found.is_never_empty), (kind == "SET", is_never_empty))
                    self.assertEqual(found.allowed, None if runs is None else Allowed(Measure.SIZE, runs))
                    self.assertEqual(remarks(f"A ::= {kind} SIZE ({size}) OF NULL"), [])

    def test_of_a_list_that_is_written_out(self) -> None:
        found = struct("A ::= SEQUENCE { a SET SIZE (2..MAX) OF NULL, b SEQUENCE SIZE (0..2) OF NULL, c SET OF NULL }")
        lists = [part.type for part in found.fields if isinstance(part.type, Listed)]
        self.assertEqual([one.is_set for one in lists], [True, False, True])
        self.assertEqual([one.allowed and one.allowed.runs for one in lists], [((2, self.MOST),), ((0, 2),), None])

    def test_of_constraints_one_after_another(self) -> None:
        found = struct("L{T} ::= T (SIZE (1..4))\nA ::= SEQUENCE { a L{SEQUENCE SIZE (3..9) OF NULL} }").fields[0].type
        assert isinstance(found, Listed)
        self.assertEqual(found.allowed, Allowed(Measure.SIZE, ((3, 4),)))

    def test_what_is_written_checks_it(self) -> None:
        body = "A ::= SEQUENCE SIZE (2..MAX) OF NULL\nB ::= SEQUENCE SIZE (1..MAX) OF NULL\nC ::= SEQUENCE OF NULL"
        files, found = written(module_of(body)), grammar(body)
        self.assertIn(f"    items: Constrained<ListRef<'a, Null>, HasSize<2, {self.MOST}>>,\n", files["src/test/a.rt"])
        self.assertIn("    items: NonEmptyRef<ListRef<'a, Null>>,\n", files["src/test/b.rt"])
        self.assertIn("    items: ListRef<'a, Null>,\n", files["src/test/c.rt"])
        self.assertEqual(found["a"], f"ALLOWED (size_in_components 2 {self.MOST}) (SEQUENCE_OF NULL)")
        self.assertEqual((found["b"], found["c"]), ("NOT_EMPTY (SEQUENCE_OF NULL)", "SEQUENCE_OF NULL"))

    def test_no_size_is_left(self) -> None:
        for text, kind in (("SEQUENCE SIZE (3..2) OF NULL", "SEQUENCE OF"), (f"SET SIZE ({self.MOST + 1}) OF NULL", "SET OF")):
            with self.subTest(text):
                self.assertIn(f"2:7: error: the constraints leave no value of this {kind}\n", str(refusal(module_of(f"A ::= {text}"))))

    def test_what_is_not_checked_is_said(self) -> None:
        for text, said in (
            ("SEQUENCE SIZE (2..MAX) OF NULL -- @unchecked", "SIZE (2..MAX) is checked as (1..MAX)"),
            ("SEQUENCE SIZE (0..2) OF NULL -- @unchecked", "SIZE (0..2) is not checked"),
            ("SEQUENCE SIZE (1..2, ...) OF NULL", "SIZE (MIN..MAX) is not checked"),
        ):
            with self.subTest(text):
                self.assertEqual(remarks(f"A ::= {text}"), [f"2:16 {said}"])
                found = definitions(f"A ::= {text}")["A"]
                assert isinstance(found, List)
                self.assertIsNone(found.allowed)

    def test_of_the_name_of_a_list_none_is_checked(self) -> None:
        said = remarks("A ::= SEQUENCE { a B (SIZE (1..2)) }\nB ::= SEQUENCE OF NULL")
        self.assertEqual(said, ["2:23 SIZE (1..2) is not checked"])


class NamedNumbers(unittest.TestCase):
    """The constants of named numbers and bits have the numbers that stand beside the names."""

    BODY = """Version ::= INTEGER { v1(0), v2(1), v3(2) }
        Fault ::= INTEGER { least(-2), most(300) }
        Usage ::= BIT STRING { first(0), ninth(8) }
        A ::= SEQUENCE { version INTEGER { one-prime(0), many(1) } }"""

    def test_the_numbers(self) -> None:
        found = definitions(self.BODY)
        self.assertEqual(self.pairs(found["Version"]), [("v1", 0), ("v2", 1), ("v3", 2)])
        self.assertEqual(self.pairs(found["Fault"]), [("least", -2), ("most", 300)])
        self.assertEqual(self.pairs(found["Usage"]), [("first", 0), ("ninth", 8)])
        self.assertEqual(self.pairs(found["AVersion"]), [("one-prime", 0), ("many", 1)])

    def pairs(self, found: Definition) -> list[tuple[str, int]]:
        assert isinstance(found, Alias)
        return [(one.name, one.number) for one in (*found.numbers, *found.bits)]

    def test_the_constants(self) -> None:
        text = written(module_of(self.BODY))["src/test/aliases.rt"]
        for line in (
            "/// `v3` of `Version`.\npub const VERSION_V3: u8 = 2;",
            "pub const VERSION_V1: u8 = 0;",
            "pub const FAULT_LEAST: i16 = -2;",
            "pub const FAULT_MOST: i16 = 300;",
            "/// The position of the bit `ninth` of `Usage`.\npub const USAGE_NINTH: usize = 8;",
            "pub const A_VERSION_MANY: u8 = 1;",
        ):
            self.assertIn(line, text)


class TagsBeforeATag(unittest.TestCase):
    def test_the_first_is_the_outer(self) -> None:
        """31.2.6: each tag stands before what follows it."""
        outer = alias("A ::= [1] EXPLICIT [2] EXPLICIT NULL").type
        assert isinstance(outer, Tagged) and isinstance(outer.of, Tagged)
        self.assertEqual((outer.tag, outer.of.tag), (Tag(2, 1), Tag(2, 2)))
        found = definitions("A ::= CHOICE { a [3] EXPLICIT [4] EXPLICIT NULL, b [5] NULL }")["A"]
        assert isinstance(found, Choice)
        inner = found.alternatives[0].type
        assert isinstance(inner, Tagged) and isinstance(inner.of, Tagged)
        self.assertEqual((inner.tag, inner.of.tag), (Tag(2, 3), Tag(2, 4)))
