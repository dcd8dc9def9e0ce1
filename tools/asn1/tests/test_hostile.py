"""Texts that are no modules, or are meant to break a compiler: each is an error with its place, or is taken."""

from __future__ import annotations

import unittest

from ..errors import AsnError
from ..parser import parse_modules
from ..reading import text_of
from ..resolver import resolve
from .helpers import definitions, module_of, refusal, remarks

# Octets of a file, the place of the error, and a part of what is said.
FILES = [
    (b"", "1:1", "the end of the file stands where the name of a module is expected"),
    (b"\xef\xbb\xbf", "1:1", "the end of the file stands where the name of a module is expected"),
    (b"\n\n  ", "3:3", "the end of the file stands where the name of a module is expected"),
    (b"-- a comment", "1:13", "the end of the file stands where the name of a module is expected"),
    (b"/* a comment", "1:1", "a comment does not end"),
    (b"/* /* */", "1:1", "a comment does not end"),
    (b"\x00", "1:1", "the character '\\x00' is none of ASN.1's"),
    (b"A DEFINITIONS ::= BEGIN a\x00 END", "1:26", "the character '\\x00' is none of ASN.1's"),
    (b"\xff\xfeA\x00", "1:1", "the octet FF is no UTF-8 here"),
    (b"A DEFINITIONS ::= BEGIN -- \xe9\n\xe9", "2:1", "the octet E9 is no UTF-8 here"),
    (b'A DEFINITIONS ::= BEGIN a IA5String ::= "\xe9" END', "1:41", "the octet E9 is no UTF-8 here"),
    ("Ä DEFINITIONS ::= BEGIN END".encode(), "1:1", "the character 'Ä' is none of ASN.1's"),
    ("A DEFINITIONS ::= BEGIN Bж ::= NULL END".encode(), "1:26", "the character 'ж' is none of ASN.1's"),
    (b"END", "1:1", "'END' stands where the name of a module is expected"),
    (b"a DEFINITIONS ::= BEGIN END", "1:1", "'a' stands where the name of a module is expected"),
    (b"A", "1:2", "the end of the file stands where 'DEFINITIONS' is expected"),
    (b"A { iso", "1:3", "this '{' is not closed"),
    (b"A { & } DEFINITIONS", "1:5", "the character '&' is none of ASN.1's"),
    (b"A { 'x'H } DEFINITIONS", "1:5", "this quoted string has no end"),
    (b"A { NULL } DEFINITIONS", "1:3", "this is no object identifier"),
    (b"A DEFINITIONS ::= BEGIN", "1:24", "the end of the file stands where END is expected"),
    (b"A DEFINITIONS ::= BEGIN END }", "1:29", "'}' stands where the name of a module is expected"),
    (b"A DEFINITIONS ::= BEGIN END END", "1:29", "'END' stands where the name of a module is expected"),
    (b"A DEFINITIONS ::= BEGIN IMPORTS", "1:32", "the end of the file stands where a name is expected"),
    (b"A DEFINITIONS ::= BEGIN IMPORTS B FROM", "1:39", "the end of the file stands where the name of a module is expected"),
    (b"A DEFINITIONS ::= BEGIN IMPORTS B FROM C {", "1:42", "this '{' is not closed"),
    (b"A DEFINITIONS ::= BEGIN EXPORTS", "1:32", "the end of the file stands where a name is expected"),
    (b"A DEFINITIONS ::= BEGIN B ::= \"x", "1:31", "this quoted string has no end"),
    (b"A DEFINITIONS ::= BEGIN B ::= SEQUENCE {" + b"{" * 5000, "1:41", "'{' stands where the name of a component is expected"),
    (b"A DEFINITIONS ::= BEGIN b C ::= " + b"{" * 5000, "1:5032", "this '{' is not closed"),
    (b"A" * 100_000, "1:100001", "the end of the file stands where 'DEFINITIONS' is expected"),
    (b"A DEFINITIONS ::= BEGIN B ::= C " + b"(" * 5000, "1:72", "more than 40 constraints stand within one another"),
    (b"A DEFINITIONS ::= BEGIN B ::= " + b"x < " * 3000, "1:187", "more than 40 types stand within one another"),
    (b"A DEFINITIONS ::= BEGIN B ::= C" + b"{D" * 3000, "1:111", "more than 40 types stand within one another"),
    (b"A DEFINITIONS ::= BEGIN b C ::= " + b"x : " * 3000, "1:193", "more than 40 values stand within one another"),
]

# A module's body, the place of the error, and a part of what is said.
BODIES = [
    ("A ::= SEQUENCE { a NULL b NULL }", "2:25", "'b' stands where ',' or '}' is expected"),
    ("A ::= SEQUENCE { a NULL,, b NULL }", "2:25", "',' stands where the name of a component is expected"),
    ("A ::= SEQUENCE { , a NULL }", "2:18", "',' stands where the name of a component is expected"),
    ("A ::= INTEGER ()", "2:16", "')' stands where a type is expected"),
    ("A ::= INTEGER (1..)", "2:19", "')' is no value"),
    ("A ::= INTEGER (1 ! )", "2:20", "')' stands where a type is expected"),
    ("A ::= INTEGER (1 ! B)", "2:21", "')' stands where ':' is expected"),
    ("A ::= [] NULL", "2:8", "']' stands where the number of a tag is expected"),
    ("A ::= [-1] NULL", "2:8", "'-' stands where the number of a tag is expected"),
    ("A ::= [99999999999] NULL", "2:7", "the number 99999999999 of a tag is not taken"),
    ("A ::= ENUMERATED {}", "2:19", "'}' stands where a name is expected"),
    ("A ::= ENUMERATED { ... }", "2:24", "'}' stands where"),
    ("A{} ::= NULL", "2:3", "'}' is no parameter"),
    ("A{B", "2:3", "is no parameter"),
    ("A ::= B{}\nB{T} ::= T", "2:9", "'}' stands where a type is expected"),
    ("A ::= P{A}\nP{T} ::= SEQUENCE { a T OPTIONAL }", "2:9", "the type 'A' reaches itself"),
    ("A ::= a < B\nB ::= CHOICE { a b < B, b a < B }", "3:27", "too many types stand within one another"),
    ("A ::= P{a}\nP{INTEGER:n} ::= INTEGER (0..n)\na INTEGER ::= a", "4:15", "the value 'a' stands for itself"),
    ("A ::= C.&x\nC ::= D\nD ::= C", "2:7", "'C' is no class"),
    ("A ::= C.&x.&x.&x\nC ::= CLASS { &x C, &x C }", "2:7", "the values of the field '&x' are objects"),
    ("A ::= C.&y\nC ::= CLASS { &x C.&y }", "2:7", "the class 'C' has no field '&y'"),
    ("A ::= Test.A", "2:7", "the type 'A' reaches itself"),
    ("a INTEGER ::= Test.a\nA ::= INTEGER (0..a)", "2:15", "the value 'a' stands for itself"),
]

EXCEPTIONS = ["! 3", "! -3", "! a", "!INTEGER:3", "! B : a", "! Test.B : a", "! E:{ 1 2 3 }", "! CHOICE { a INTEGER } : a : 3"]


class Hostile(unittest.TestCase):
    def test_files(self) -> None:
        for octets, place, said in FILES:
            with self.subTest(octets[:50]), self.assertRaises(AsnError) as caught:
                resolve(parse_modules("a.asn1", text_of(octets)))
            self.assertIn(said, caught.exception.problem, octets[:50])
            self.assertEqual(str(caught.exception.place), f"a.asn1:{place}", octets[:50])
            self.assertTrue(caught.exception.instead)

    def test_bodies(self) -> None:
        for body, place, said in BODIES:
            with self.subTest(body[:60]):
                error = refusal(module_of(body))
                self.assertIn(said, error.problem)
                self.assertEqual(f"{error.place.line}:{error.place.column}", place)
                self.assertTrue(error.instead)

    def test_modules_that_import_in_a_circle(self) -> None:
        one = module_of("IMPORTS X FROM Two;", name="One")
        two = module_of("IMPORTS X FROM Three;", name="Two")
        three = module_of("IMPORTS X FROM One;", name="Three")
        self.assertIn("assigns no 'X'", refusal(one, two, three, module_of("IMPORTS X FROM One;\nA ::= X")).problem)


class Exceptions(unittest.TestCase):
    """What a program does with what it does not know (X.680 53) changes no octets."""

    def test_of_constraints(self) -> None:
        for text in EXCEPTIONS:
            with self.subTest(text):
                body = f"A ::= SEQUENCE {{ a INTEGER (0..9, ... {text}), b INTEGER (0..5 {text}) }}\nB ::= ENUMERATED {{ a }}\na INTEGER ::= 1"
                self.assertEqual(len(definitions(body)["A"].fields), 2)

    def test_of_types(self) -> None:
        for text in EXCEPTIONS:
            with self.subTest(text):
                body = f"A ::= SEQUENCE {{ a NULL, ... {text}, b [0] NULL OPTIONAL, ..., c NULL }}\nB ::= CHOICE {{ a NULL, ... {text} }}"
                found = definitions(f"{body}\nE ::= ENUMERATED {{ a, ... {text}, b }}")
                self.assertEqual([part.name for part in found["A"].fields], ["a", "b", "c"])
                self.assertEqual(len(remarks(body)), 2)


if __name__ == "__main__":
    unittest.main()
