"""What no DEFAULT can be, and values that are none of their types: the place, and what is said."""

from __future__ import annotations

import unittest

from .helpers import module_of, refusal


class Refused(unittest.TestCase):
    """What no default can be, and values that are none of their types."""

    ROWS = [
        ("OCTET STRING DEFAULT ''H -- @owned\n", "2:41", "a value that owns its octets has no DEFAULT"),
        ('BMPString DEFAULT ""', "2:38", "a value that owns its octets has no DEFAULT"),
        ("SEQUENCE OF NULL DEFAULT { NULL }", "2:45", "a SEQUENCE OF or a SET OF has no DEFAULT here"),
        ('UTCTime DEFAULT "700101000000Z"', "2:36", "UTCTime, of which nothing but reading makes a value, has no DEFAULT here"),
        ("ANY DEFAULT 5", "2:32", "ANY, of which nothing but reading makes a value, has no DEFAULT here"),
        ("BOOLEAN DEFAULT 1", "2:36", "this value is none of BOOLEAN"),
        ("NULL DEFAULT 1", "2:33", "this value is none of NULL"),
        ("INTEGER DEFAULT TRUE", "2:36", "this value is none of INTEGER of any length"),
        ("INTEGER DEFAULT PLUS-INFINITY", "2:36", "this value is none of INTEGER of any length"),
        ("INTEGER { b(1) } DEFAULT c", "2:45", "'c' is neither assigned"),
        ("INTEGER (0..255) DEFAULT 256", "2:45", "DEFAULT 256 of an INTEGER as u8, which has no such number"),
        ("INTEGER (0..MAX) DEFAULT -1", "2:45", "DEFAULT -1 of an INTEGER that is not negative"),
        ("ENUMERATED { b, c } DEFAULT d", "2:48", "'d' is neither assigned"),
        ("ENUMERATED { b, c } DEFAULT 1", "2:48", "this value is no name of 'AA'"),
        ('OCTET STRING DEFAULT "a"', "2:41", "this value is none of OCTET STRING"),
        ("BIT STRING DEFAULT { b }", "2:41", "'b' is the name of no bit"),
        ("BIT STRING { b(0) } DEFAULT { b c }", "2:52", "'c' stands where ',' is expected"),
        ('PrintableString DEFAULT "a@b"', "2:44", "this text has a character that no PrintableString has"),
        ('IA5String DEFAULT "é"', "2:38", "this text has a character that no IA5String has"),
        ("OBJECT IDENTIFIER DEFAULT { 1 }", "2:46", "an object identifier has at least two arcs"),
        ("OBJECT IDENTIFIER DEFAULT { 2 5 4 } -- @max(1)\n", "2:46", "this object identifier has 2 contents octets, and the type 1 at most"),
        ("SEQUENCE { b NULL } DEFAULT 5", "2:48", "this value is none of 'AA'"),
        ("SEQUENCE { b NULL } DEFAULT {}", "2:48", "this value lacks the component 'b'"),
        ("SEQUENCE { b NULL } DEFAULT { c NULL }", "2:50", "'AA' has no component 'c'"),
        ("SEQUENCE { b NULL } DEFAULT { b NULL, b NULL }", "2:58", "the component 'b' stands twice"),
        ("SEQUENCE { b NULL, c NULL } DEFAULT { c NULL, b NULL }", "2:66", "the value of 'b' stands after that of 'c'"),
        ("SEQUENCE { b NULL } DEFAULT { b }", "2:52", "'}' is no value"),
        ("SEQUENCE { b NULL } DEFAULT { NULL }", "2:50", "'NULL' stands where the name of a component is expected"),
        ("CHOICE { b NULL, c BOOLEAN } DEFAULT d : NULL", "2:57", "this value names no alternative of 'AA'"),
        ("CHOICE { b NULL, c BOOLEAN } DEFAULT NULL", "2:57", "this value names no alternative of 'AA'"),
        ("CHOICE { b NULL, c BOOLEAN } DEFAULT b : TRUE", "2:61", "this value is none of NULL"),
        ("B DEFAULT NULL }\nB ::= CHOICE { b NULL", "2:30", "this value names no alternative"),
    ]

    def test_components(self) -> None:
        for component, place, said in self.ROWS:
            with self.subTest(component):
                error = refusal(module_of(f"A ::= SEQUENCE {{ a {component} }}"))
                self.assertEqual(f"{error.place.line}:{error.place.column}", place)
                self.assertIn(said, error.problem)
                self.assertTrue(error.instead)

    def test_a_type_that_a_crate_has(self) -> None:
        body = "A ::= SEQUENCE { a B DEFAULT {} }\nB ::= SEQUENCE { b NULL OPTIONAL } -- @rust(other::b::B)"
        self.assertIn("a type of '@rust' has no DEFAULT here", refusal(module_of(body)).problem)


if __name__ == "__main__":
    unittest.main()
