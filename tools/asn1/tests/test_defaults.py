"""DEFAULT: what a value comes to, on the page of the grammar and in the code."""

from __future__ import annotations

import re
import unittest
from dataclasses import replace

from ..errors import AsnError
from ..model import Bits, Nothing, Octets, Struct
from .helpers import definitions, module_of
from .terms import octets_of
from .test_as_written import with_fields
from .test_writer import written

TYPES = """
Color ::= ENUMERATED { red, green(-129), blue }
Level ::= INTEGER { low(-1), high(300) }
Small ::= [7] IMPLICIT INTEGER (0..255)
usual Level ::= high
Rights ::= BIT STRING { read(0), write(1), grant(9) }
id-a OBJECT IDENTIFIER ::= { iso(1) member-body(2) us(840) }
Extent ::= SEQUENCE { width INTEGER (0..255) OPTIONAL, tall BOOLEAN DEFAULT FALSE, name [0] IA5String DEFAULT "x" }
wide Extent ::= { width 5, tall TRUE }
Mixed ::= SET { second [1] NULL, first BOOLEAN }
Inner ::= SEQUENCE { extent Extent, color [1] Color, side [2] Side OPTIONAL }
Side ::= CHOICE { length [3] INTEGER (0..255), extent [4] Extent, none NULL }
Only ::= CHOICE { level [5] Level }
Plain ::= SEQUENCE { x BOOLEAN OPTIONAL, y NULL OPTIONAL }
"""

# A component with a default, and the default's encoding.
ROWS = [
    ("BOOLEAN DEFAULT TRUE", "0101ff"),
    ("BOOLEAN DEFAULT FALSE", "010100"),
    ("NULL DEFAULT NULL", "0500"),
    # ---- numbers
    ("INTEGER (0..255) DEFAULT 200", "020200c8"),
    ("INTEGER (0..65535) DEFAULT 8080", "02021f90"),
    ("INTEGER (0..18446744073709551615) DEFAULT 18446744073709551615", "020900ffffffffffffffff"),
    ("INTEGER (-128..127) DEFAULT -1", "0201ff"),
    ("INTEGER (-32768..32767) DEFAULT 128", "02020080"),
    ("INTEGER (-32768..32767) DEFAULT -129", "0202ff7f"),
    ("INTEGER DEFAULT 0", "020100"),
    ("INTEGER DEFAULT -40000", "0203ff63c0"),
    ("INTEGER DEFAULT -32768", "02028000"),
    ("INTEGER (0..MAX) DEFAULT 200", "020200c8"),
    ("INTEGER (0..MAX) DEFAULT 0", "020100"),
    ("INTEGER (0..MAX) DEFAULT 1208925819614629174706175", "020b00ffffffffffffffffffff"),
    ("Level DEFAULT low", "0201ff"),
    ("Level DEFAULT usual", "0202012c"),
    ("Level DEFAULT Test.usual", "0202012c"),
    ("Color DEFAULT green", "0a02ff7f"),
    ("Color DEFAULT blue", "0a0101"),
    # ---- octets and bits
    ("OCTET STRING DEFAULT ''H", "0400"),
    ("OCTET STRING DEFAULT '00FF'H", "040200ff"),
    ("OCTET STRING DEFAULT '1'B", "040180"),
    ("OCTET STRING DEFAULT 'ABC'H", "0402abc0"),
    ("BIT STRING DEFAULT '101'B", "030205a0"),
    ("BIT STRING DEFAULT ''B", "030100"),
    ("BIT STRING DEFAULT '100'B", "03020580"),
    ("BIT STRING DEFAULT 'A0F'H", "030304a0f0"),
    ("BIT STRING DEFAULT {}", "030100"),
    ("Rights DEFAULT { grant, read }", "0303068040"),
    ("Rights DEFAULT {}", "030100"),
    ("Rights DEFAULT '0100'B", "03020640"),
    # ---- texts and object identifiers
    ('UTF8String DEFAULT "é"', "0c02c3a9"),
    ('PrintableString DEFAULT ""', "1300"),
    ('IA5String DEFAULT "say ""@"""', "1607736179202240" + "22"),
    ('IA5String DEFAULT "one\n      two"', "16066f6e6574776f"),
    ('TeletexString DEFAULT "a"', "140161"),
    ('VideotexString DEFAULT "a"', "150161"),
    ('GeneralString DEFAULT "a"', "1b0161"),
    ("OBJECT IDENTIFIER DEFAULT { 2 999 3 }", "0603883703"),
    ("OBJECT IDENTIFIER DEFAULT id-a", "06032a8648"),
    ("OBJECT IDENTIFIER DEFAULT { id-a 1 } -- @owned\n", "06042a864801"),
    # ---- types with parts
    ("Extent DEFAULT {}", "3000"),
    ("Extent DEFAULT { width 5, tall TRUE }", "3006020105" + "0101ff"),
    ('Extent DEFAULT { tall FALSE, name "x" }', "3000"),
    ("Extent DEFAULT wide", "3006020105" + "0101ff"),
    ("Mixed DEFAULT { second NULL, first TRUE }", "31050101ff" + "8100"),
    ("Inner DEFAULT { extent wide, color red }", "300b30060201050101ff" + "810100"),
    ("Inner DEFAULT { extent {}, color red, side length : 7 }", "300a3000" + "810100" + "a203830107"),
    ("Side DEFAULT length : 7", "830107"),
    ("Side DEFAULT extent : { width 9 }", "a403020109"),
    ("Side DEFAULT none : NULL", "0500"),
    ("Only DEFAULT level : high", "8502012c"),
    # ---- tags
    ("[3] IMPLICIT INTEGER (0..65535) DEFAULT 8080", "83021f90"),
    ("[3] EXPLICIT INTEGER (0..65535) DEFAULT 8080", "a30402021f90"),
    ("[3] EXPLICIT [4] IMPLICIT Color DEFAULT blue", "a303840101"),
    ("[3] IMPLICIT [4] EXPLICIT Color DEFAULT blue", "a3030a0101"),
    ("[3] IMPLICIT [4] IMPLICIT BOOLEAN DEFAULT FALSE", "830100"),
    ("[3] IMPLICIT Small DEFAULT 5", "830105"),
    ("Small DEFAULT 5", "870105"),
    ("[3] EXPLICIT Small DEFAULT 5", "a303870105"),
    ("[APPLICATION 33] IMPLICIT OCTET STRING DEFAULT 'AA'H", "5f2101aa"),
    ("[PRIVATE 300] IMPLICIT Extent DEFAULT { tall TRUE }", "ff822c030101ff"),
    ("[3] EXPLICIT Side DEFAULT length : 7", "a303830107"),
]


def files_of(component: str, tags: str = "IMPLICIT TAGS") -> dict[str, str]:
    """What is written of a SEQUENCE with this component."""
    return written(module_of(f"A ::= SEQUENCE {{ a {component} }}{TYPES}", tags))


def on_page(files: dict[str, str]) -> str:
    """The default that the page of the grammar has, in digits."""
    found = re.search(r"^a =\s+SEQUENCE\s+\(DEFAULT \((.*)\n", files["specs/Test/Grammar.antt"], re.M)
    assert found is not None
    return octets_of(group(found[1])).hex()


def group(text: str) -> str:
    """A text up to where its group in parentheses closes."""
    depth = 0
    for at, character in enumerate(text):
        depth += {"(": 1, ")": -1}.get(character, 0)
        if depth < 0:
            return text[:at]
    raise AssertionError(text)


def impl_of(files: dict[str, str]) -> str | None:
    """The impl of the type that stands for the default of `a`; None where the library has it."""
    found = re.search(r"WithDefault<.*, (Default\w+)(<\d+>)?>", files["src/test/a.rt"])
    assert found is not None
    if found[1] in ("DefaultFalse", "DefaultNumber"):
        return None
    (own,) = [one for one in files["src/test/defaults.rt"].split("\nimpl") if f"> for {found[1]} {{" in one]
    return own


def in_code(files: dict[str, str]) -> str | None:
    """The default that the code has, in digits; the library adds explicit tags before it."""
    own = impl_of(files)
    term = None if own is None else re.search(r"ghost octets = \{ (.*) \};", own)
    return None if term is None else octets_of(term[1]).hex()


class Encodings(unittest.TestCase):
    """The page has the default's encoding, and so has the code."""

    def test_of_each_kind(self) -> None:
        for component, octets in ROWS:
            with self.subTest(component):
                files = files_of(component)
                self.assertEqual(on_page(files), octets)
                inner = octets[4:] if "EXPLICIT" in component and "[3] IMPLICIT" not in component else octets
                self.assertIn(in_code(files), (inner, None))

    def test_types_with_parts_are_told_by_these_octets(self) -> None:
        for component in ("Inner DEFAULT { extent wide, color red }", "[PRIVATE 300] IMPLICIT Extent DEFAULT { tall TRUE }"):
            with self.subTest(component):
                files = files_of(component)
                own = impl_of(files)
                assert own is not None
                literal = re.search(r"is_encoded_as\(value, &\[(.*)\]\)", own)
                assert literal is not None
                self.assertEqual(literal[1].replace("0x", "").replace(", ", ""), in_code(files))

    def test_automatic_tags(self) -> None:
        rows = [
            ("INTEGER (0..65535) DEFAULT 8080", "80021f90", "80021f90"),
            ("Extent DEFAULT { tall TRUE }", "a0030101ff", "a0030101ff"),
            ("Plain DEFAULT { y NULL }", "a0028100", "a0028100"),
            ("Side DEFAULT none : NULL", "a0020500", "0500"),
            ("Only DEFAULT level : high", "a0048502012c", "8502012c"),
        ]
        for component, octets, inner in rows:
            with self.subTest(component):
                files = files_of(component, "AUTOMATIC TAGS")
                self.assertEqual(on_page(files), octets)
                self.assertEqual(in_code(files), inner)

    def test_of_another_modules_types(self) -> None:
        body = "IMPORTS Color, most FROM Other;\nA ::= SEQUENCE { a Color DEFAULT blue, b INTEGER (0..999) DEFAULT most }"
        files = written(module_of(body), module_of(f"{TYPES}most INTEGER ::= 999", name="Other"))
        text = files["src/test/defaults.rt"]
        self.assertIn("use crate::module1::Color;", text)
        self.assertIn("value: Color::Blue", text)
        self.assertIn("pub struct Default999;", text)


class Values(unittest.TestCase):
    """The value itself, which takes no memory."""

    def body(self, component: str) -> str:
        """The statements of `default_value`, in one line."""
        own = impl_of(files_of(component))
        assert own is not None
        found = re.search(r"fn default_value\(\) -> .*? \{\n(.*?)\n    \}\n\n    fn is_default", own, re.S)
        assert found is not None
        return " ".join(found[1].split())

    def test_of_each_kind(self) -> None:
        rows = [
            ("BOOLEAN DEFAULT TRUE", "true"),
            ("INTEGER (-128..127) DEFAULT -1", "-1"),
            ("NULL DEFAULT NULL", "Null"),
            ("Color DEFAULT blue", "Enumerated { value: Color::Blue }"),
            ("[3] IMPLICIT INTEGER (0..999) DEFAULT 8", "Implicit { value: 8 }"),
            ("INTEGER DEFAULT -1", "integer(&[0xff])"),
            ("INTEGER (0..MAX) DEFAULT 200", "natural(&[0x00, 0xc8])"),
            ('UTF8String DEFAULT "é""\\"', r'utf8_string("\u{e9}\"\\")'),
            ('IA5String DEFAULT "a"', "character_string::<22>(&[0x61])"),
            ('GeneralString DEFAULT "a"', "general_string(&[0x61])"),
            ("OCTET STRING DEFAULT ''H", "octet_string(&[])"),
            ("BIT STRING DEFAULT '101'B", "bit_string(5, &[0xa0])"),
            ("Rights DEFAULT { write }", "named_bits(6, &[0x40])"),
            ("OBJECT IDENTIFIER DEFAULT { 2 5 }", "identifier::<39>(&[0x55])"),
            ("OBJECT IDENTIFIER DEFAULT { 2 5 } -- @owned\n", "owned_identifier::<39>(&[0x55])"),
            ("Side DEFAULT none : NULL", "Side::None(Null)"),
            ("Mixed DEFAULT { second NULL, first TRUE }", "Mixed::new(true, Null)"),
        ]
        for component, body in rows:
            with self.subTest(component):
                self.assertEqual(self.body(component), body)

    def test_fields_that_are_not_written_are_absent_or_have_their_defaults(self) -> None:
        body = self.body("Extent DEFAULT { tall TRUE }")
        self.assertEqual(body, "Extent::new(None, true, character_string::<22>(&[0x78]))")

    def test_parts_within_parts(self) -> None:
        body = self.body("Inner DEFAULT { extent wide, color red, side extent : {} }")
        self.assertIn("let extent_of_value = Extent::new(Some(5), true, character_string::<22>(&[0x78]));", body)
        self.assertTrue(body.endswith("Inner::new(&extent_of_value, Color::Red, Some(&side_of_value))"), body)


class Names(unittest.TestCase):
    """The types that stand for defaults."""

    def markers(self, body: str) -> list[str]:
        text = written(module_of(body))["src/test/defaults.rt"]
        return re.findall(r"^pub struct (\w+);$", text, re.M)

    def test_numbers_and_truth_are_named_by_themselves(self) -> None:
        body = "A ::= SEQUENCE { a BOOLEAN DEFAULT TRUE, b INTEGER DEFAULT -5, c [1] INTEGER (0..999) DEFAULT 300, d NULL DEFAULT NULL }"
        self.assertEqual(self.markers(body), ["DefaultTrue", "DefaultMinus5", "Default300", "DefaultNull"])

    def test_others_are_named_by_their_fields(self) -> None:
        body = "A ::= SEQUENCE { b-c OCTET STRING DEFAULT ''H, d IA5String DEFAULT \"\" -- @name(other)\n}"
        self.assertEqual(self.markers(body), ["DefaultOfABC", "DefaultOfAOther"])

    def test_one_stands_for_a_value_of_several_types(self) -> None:
        body = "A ::= SEQUENCE { a BOOLEAN DEFAULT TRUE, b [1] IMPLICIT BOOLEAN DEFAULT TRUE, c [2] BOOLEAN DEFAULT TRUE }"
        text = written(module_of(body))["src/test/defaults.rt"]
        self.assertEqual(re.findall(r"DefaultOf<([^>]*>?)> for", text), ["bool", "Implicit<bool, 1>"])

    def test_those_of_the_library_stay(self) -> None:
        body = "A ::= SEQUENCE { a BOOLEAN DEFAULT FALSE, b [1] IMPLICIT INTEGER (0..255) DEFAULT 5, c [2] EXPLICIT BOOLEAN DEFAULT FALSE }"
        files = written(module_of(body))
        self.assertNotIn("src/test/defaults.rt", files)
        self.assertNotIn("specs/Test/DefaultLaws.antt", files)

    def test_a_type_that_a_module_with_defaults_may_not_have(self) -> None:
        for name in ("Defaults", "DefaultLaws", "DefaultTrue"):
            with self.subTest(name), self.assertRaisesRegex(AsnError, f"the name '{name}' is taken"):
                written(module_of(f"A ::= SEQUENCE {{ a BOOLEAN DEFAULT TRUE }}\n{name} ::= SEQUENCE {{ b NULL }}"))
        written(module_of("Defaults ::= SEQUENCE { a BOOLEAN DEFAULT FALSE }"))

    def test_two_defaults_with_one_name(self) -> None:
        body = "A ::= SEQUENCE { b-c IA5String DEFAULT \"x\" }\nAB ::= SEQUENCE { c IA5String DEFAULT \"y\" } -- @name(AB)"
        with self.assertRaisesRegex(AsnError, "the default of 'c' is named 'DefaultOfABC', as that of 'b-c'"):
            written(module_of(body))


class Laws(unittest.TestCase):
    """The page of laws has those that the module's defaults take, and so no word of a crate that these do without."""

    PAGE = "specs/Test/DefaultLaws.antt"

    def laws(self, component: str) -> list[str]:
        files = written(module_of(f"A ::= SEQUENCE {{ a {component} }}"))
        used = re.findall(r"using\(crate::specs::Test::DefaultLaws::(\w+)\)", files["src/test/defaults.rt"])
        found = re.findall(r"^pub (\w+) :", files.get(self.PAGE, ""), re.M)
        self.assertEqual(sorted(used), sorted(found))
        return found

    def test_of_each_kind(self) -> None:
        self.assertEqual(self.laws("BOOLEAN DEFAULT TRUE"), ["told_by_equality"])
        self.assertEqual(self.laws("INTEGER DEFAULT 5"), ["told_by_equality", "integer_within"])
        self.assertEqual(self.laws("INTEGER (0..MAX) DEFAULT 5"), ["told_by_equality", "natural_within"])
        self.assertEqual(self.laws("SEQUENCE { b BOOLEAN } DEFAULT { b TRUE }"), ["told_by_length"])

    def test_no_crate_is_named_that_is_not_needed(self) -> None:
        files = written(module_of("A ::= SEQUENCE { a BOOLEAN DEFAULT TRUE }"))
        for path in ("src/test/defaults.rt", self.PAGE):
            self.assertNotIn("der_numbers", files[path])


class Documentation(unittest.TestCase):
    """A default stands in the documentation as the module has it."""

    def test_quotes(self) -> None:
        body = "A ::= SEQUENCE { a IA5String DEFAULT \"say \"\"a\"\"\", b OCTET STRING DEFAULT '0A'H, c [1] BIT STRING DEFAULT ''B }"
        text = written(module_of(body))["src/test/a.rt"]
        self.assertIn("/// `a`, `IA5String DEFAULT \"say \"\"a\"\"\"`.", text)
        self.assertIn("/// `b`, `OCTET STRING DEFAULT '0A'H`.", text)
        self.assertIn("/// `c`, `[1] BIT STRING DEFAULT ''B`.", text)


class Contradictions(unittest.TestCase):
    """A resolver that has another default writes code that the page contradicts."""

    def test_another_value(self) -> None:
        rows = [
            ("BOOLEAN DEFAULT TRUE", False, "0101ff", "010100"),
            ("INTEGER (0..999) DEFAULT 300", 301, "0202012c", "0202012d"),
            ("OCTET STRING DEFAULT 'AA'H", Octets(b"\xab"), "0401aa", "0401ab"),
            ("BIT STRING DEFAULT '1'B", Bits(6, b"\x80"), "03020780", "03020680"),
        ]
        for component, wrong, page, code in rows:
            with self.subTest(component), with_fields(lambda fields: tuple(replace(part, default=wrong) for part in fields)):
                files = written(module_of(f"A ::= SEQUENCE {{ a {component} }}"))
                self.assertEqual((on_page(files), in_code(files)), (page, code))


class Instances(unittest.TestCase):
    """Instances of a type with parameters that change no octets are alike where their defaults are."""

    PARTS = "a ENUMERATED { red } DEFAULT red, b SEQUENCE { c NULL } DEFAULT { c NULL }, d CHOICE { e NULL, f BOOLEAN } DEFAULT e : NULL"

    def test_defaults_with_parts(self) -> None:
        body = f"E{{INTEGER:n}} ::= SEQUENCE {{ {self.PARTS} }}\nA ::= SEQUENCE {{ a E{{1}}, b [1] E{{2}} }}"
        self.assertIn("Fields2<E, Explicit<E, 1>>", written(module_of(body))["src/test/a.rt"])


class Presence(unittest.TestCase):
    """A default within a value is none that is written (X.690 11.5)."""

    def test_a_value_that_is_the_default(self) -> None:
        found = definitions("A ::= SEQUENCE { a B DEFAULT { b 5, c NULL } }\nB ::= SEQUENCE { b INTEGER (0..9) DEFAULT 5, c NULL }")["A"]
        assert isinstance(found, Struct)
        default = found.fields[0].default
        self.assertEqual(getattr(default, "values", None), (None, Nothing()))


if __name__ == "__main__":
    unittest.main()
