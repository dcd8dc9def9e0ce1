"""The octets of a file: UTF-8, a byte order mark, ends of lines, tabs; and comments that begin with '@'."""

from __future__ import annotations

import unittest

from ..annotations import NAMES
from ..errors import AsnError
from ..lexer import tokens_of
from ..notes import KNOWN
from ..reading import text_of
from .helpers import definitions, module_of, refusal
from .test_writer import written


class Octets(unittest.TestCase):
    def test_a_byte_order_mark_is_skipped(self) -> None:
        self.assertEqual(text_of(b"\xef\xbb\xbfA ::= NULL"), "A ::= NULL")

    def test_ends_of_lines_are_alike(self) -> None:
        self.assertEqual(text_of(b"a\r\nb\rc\nd"), "a\nb\nc\nd")

    def test_what_is_no_utf_8_has_a_place(self) -> None:
        for octets, place in ((b"A ::= \xe9NULL", "1:7"), ("/*\r\n\u00e9*/ ".encode() + b"\xff\xfe", "2:5")):
            with self.assertRaises(AsnError) as caught:
                tokens_of("a.asn1", text_of(octets))
            self.assertEqual(str(caught.exception.place), f"a.asn1:{place}")
            self.assertIn("is no UTF-8 here", caught.exception.problem)

    def test_a_comment_may_have_other_octets(self) -> None:
        text = text_of(b"Test DEFINITIONS ::= BEGIN\nA ::= SEQUENCE { -- Universit\xe9\n a NULL }\nEND\n")
        source = written(text)["src/test/a.rt"]
        self.assertIn("-- Universit\ufffd", source)
        source.encode("utf-8")


class Tabs(unittest.TestCase):
    BODY = "A ::= SEQUENCE {\n\ta\tINTEGER,\t-- one\n\t  b\tB\f}\nB\t::=\tSEQUENCE OF NULL\nc\tOBJECT IDENTIFIER ::= {\n\t1 2 }"

    def test_no_written_file_has_one(self) -> None:
        for path, text in written(module_of(self.BODY)).items():
            self.assertNotIn("\t", text, path)
            self.assertNotIn("\f", text, path)

    def test_columns_stay(self) -> None:
        found = definitions(self.BODY)
        self.assertEqual(found["A"].text, "A ::= SEQUENCE {\n        a       INTEGER,        -- one\n          b     B }")
        self.assertEqual(found["B"].text, "B       ::=     SEQUENCE OF NULL")

    def test_a_text_with_lines_stands_in_one(self) -> None:
        text = written(module_of('A ::= SEQUENCE { a IA5String (PATTERN "x\ty\nz") }'))["specs/Test/A.antt"]
        self.assertIn("-- a IA5String (PATTERN x y z)\n", text)


class Comments(unittest.TestCase):
    def test_the_annotations_are_these(self) -> None:
        self.assertEqual(sorted(NAMES), sorted(KNOWN))

    def test_a_comment_for_another_purpose_is_one(self) -> None:
        for comment in ("-- @see RFC 5280", "-- @param x the size", "-- @ 5", "/* @author A. Writer */", "-- @since 2002 --"):
            with self.subTest(comment):
                tokens = tokens_of("a.asn1", f"a NULL, {comment}\n{comment}\nb")
                self.assertEqual([token.annotations for token in tokens], [[]] * 5)

    def test_it_stays_in_the_quoted_text(self) -> None:
        body = "A ::= SEQUENCE { -- @see 5\n  a INTEGER -- @u8\n  }"
        self.assertEqual(definitions(body)["A"].text, "A ::= SEQUENCE { -- @see 5\n  a INTEGER\n  }")

    def test_a_misspelt_annotation_is_an_error(self) -> None:
        for comment, said in (
            ("@ownd", "there is no annotation '@ownd'"),
            ("@kept", "there is no annotation '@kept'"),
            ("@unraed, of course", "has annotations alone"),
            ("@owned for ever", "has annotations alone"),
            ("@later", "there is no annotation '@later'"),
        ):
            with self.subTest(comment):
                self.assertIn(said, refusal(module_of(f"A ::= SEQUENCE {{ a NULL -- {comment}\n}}")).problem)
        self.assertEqual(refusal(module_of("A ::= NULL -- @ommit")).instead, "did you mean '@omit'?")


if __name__ == "__main__":
    unittest.main()
