"""Every refusal: its place, and what is said. A module's body begins in line 2."""

from __future__ import annotations

import unittest

from .helpers import module_of, refusal

# The body of a module, its tag default, the place of the error, and a part of what is said.
BODIES = [
    # ---- lexical items
    ("A ::= INTEGER /* no end", "", "2:15", "a comment does not end"),
    ("A ::= 'xyz'H", "", "2:7", "this quoted string has no end"),
    ("A ::= '012'B", "", "2:7", "this quoted string has no end"),
    ("A ::= INTEGER (0..007)", "", "2:19", "the number 007 begins with 0"),
    ("A- ::= INTEGER", "", "2:1", "the name 'A-' ends with a hyphen"),
    ("A ::= INTEGER # 5", "", "2:15", "the character '#' is none of ASN.1's"),
    ("A ::= SEQUENCE {\n  -- @unread\n  a INTEGER }", "", "3:6", "this annotation stands on a line of its own"),
    ("A ::= INTEGER -- @u8 as ever", "", "2:18", "a comment that begins with an annotation"),
    # ---- headers, imports, assignments
    ("A ::= INTEGER", "EXTENSIBILITY", "1:32", "'::=' stands where 'IMPLIED' is expected"),
    ("IMPORTS A FROM B WITH SUCCESSORS;", "", "2:18", "WITH SUCCESSORS is not taken"),
    ("IMPORTS A, FROM B;", "", "2:12", "'FROM' stands where a name is expected"),
    ("EXPORTS A", "", "3:1", "'END' stands where ';' is expected"),
    ("END more", "", "2:5", "'more' stands where the name of a module is expected"),
    ("A ::= ", "", "3:1", "'END' stands where a type is expected"),
    ("a ::= 5", "", "2:3", "'::=' stands where a type is expected"),
    ("A INTEGER ::= 5", "", "2:15", "'5' stands where '{' is expected"),
    ("OBJECT-TYPE MACRO ::= BEGIN", "", "2:1", "MACRO is not taken"),
    ("5 ::= INTEGER", "", "2:1", "'5' stands where an assignment is expected"),
    ("A ::= CLASS { id INTEGER }", "", "2:15", "'id' stands where the name of a field is expected"),
    # ---- types
    ("A ::= [0] IMPLICIT INSTANCE OF B\nB ::= NULL", "", "2:20", "'B' is no class"),
    ("A ::= [0] INSTANCE 5", "", "2:20", "'5' stands where 'OF' is expected"),
    ("A ::= [0] INSTANCE OF {}", "", "2:23", "'{' stands where the name of a class is expected"),
    ("A ::= SEQUENCE { COMPONENTS OF [0] IMPLICIT INSTANCE OF TYPE-IDENTIFIER }", "", "2:18", "what is no other SEQUENCE"),
    ("A ::= b < C\nC ::= NULL", "", "2:7", "what stands after 'b <' is no CHOICE"),
    ("A ::= b < C\nC ::= CHOICE { a NULL }", "", "2:7", "the CHOICE has no alternative 'b'"),
    ("A ::= a < A", "", "2:1", "too many types stand within one another"),
    ("A ::= a < C\nC ::= CHOICE { a A, b NULL }", "", "3:18", "the type 'A' reaches itself"),
    ("A ::= BIT", "", "3:1", "'END' stands where 'STRING' is expected"),
    ("A ::= SEQUENCE INTEGER", "", "2:16", "'INTEGER' stands where 'OF' is expected"),
    ("A ::= INTEGER { a 5 }", "", "2:19", "'5' stands where '(' is expected"),
    ("A ::= ENUMERATED { }", "", "2:20", "'}' stands where a name is expected"),
    ("A ::= CHOICE { }", "", "2:14", "this CHOICE has no alternative"),
    ("A ::= SEQUENCE { a INTEGER b INTEGER }", "", "2:28", "'b' stands where ',' or '}' is expected"),
    ("A ::= SEQUENCE { a INTEGER, }", "", "2:29", "no component stands after this comma"),
    ("A ::= SEQUENCE { a INTEGER", "", "3:1", "'END' stands where ',' or '}' is expected"),
    ("A ::= CHOICE { a INTEGER OPTIONAL }", "", "2:26", "the alternative 'a' is OPTIONAL"),
    ("A ::= CHOICE { a INTEGER DEFAULT 5 }", "", "2:26", "the alternative 'a' is DEFAULT"),
    ("A ::= CHOICE { COMPONENTS OF B }", "", "2:16", "COMPONENTS OF stands in a CHOICE"),
    ("A ::= SEQUENCE { a NULL, ..., b INTEGER, ..., c INTEGER }", "", "2:47", "'c' and 'b' are not distinguished"),
    ("A ::= SEQUENCE { COMPONENTS OF B }\nB ::= INTEGER", "", "2:18", "what is no other SEQUENCE"),
    ("A ::= SEQUENCE { COMPONENTS OF A }", "", "2:18", "what is no other SEQUENCE"),
    ("A ::= INTEGER (0..5", "", "3:1", "'END' stands where ')' is expected"),
    ("A ::= INTEGER (MIN)", "", "2:19", "')' stands where '..' is expected"),
    ("A ::= INTEGER {", "", "3:1", "'END' stands where a name is expected"),
    # ---- names
    ("A ::= B", "", "2:7", "'B' is neither assigned in 'Test' nor imported"),
    ("A ::= INTEGER\nA ::= BOOLEAN", "", "3:1", "'A' is assigned twice"),
    ("IMPORTS A FROM B;\nA ::= SEQUENCE { a B.A }", "", "3:20", "'A' is of the module 'B', which is not given"),
    ("IMPORTS A FROM B A FROM C;\nD ::= A", "", "3:7", "'A' is of the module 'B', which is not given"),
    ("IMPORTS B FROM Other;\nA ::= B", "", "3:7", "'B' is of the module 'Other', which is not given"),
    ("EXPORTS B;\nA ::= INTEGER", "", "2:9", "'B' is exported, and neither"),
    ("A ::= B\nB ::= CLASS { &id INTEGER }\nC ::= SEQUENCE { a B }", "", "4:20", "'B' is a class"),
    ("A ::= Other.B", "", "2:7", "'B' is of the module 'Other'"),
    ("A ::= SEQUENCE { a NULL, b NULL, a NULL }", "", "2:34", "the name 'a' stands twice"),
    ("A ::= CHOICE { a NULL, a INTEGER }", "", "2:24", "the name 'a' stands twice"),
    ("A ::= INTEGER { a(1), a(2) }", "", "2:23", "the name 'a' stands twice"),
    ("A ::= INTEGER { a(1), b(1) }", "", "2:23", "the number 1 has two names"),
    ("A ::= BIT STRING { a(-1) }", "", "2:7", "the bit 'a' has a negative number"),
    ("A ::= ENUMERATED { a, a }", "", "2:23", "the name 'a' stands twice"),
    ("A ::= ENUMERATED { a(1), b(1) }", "", "2:26", "the number 1 has two names"),
    ("AB ::= NULL -- @name(Ab)\nAb ::= NULL", "", "3:1", "the type 'Ab' is named 'Ab', as the one at"),
    ("A ::= SEQUENCE { b SEQUENCE {} }\nB ::= SEQUENCE { c NULL } -- @name(AB)", "", "3:1", "the type 'B' is named 'AB', as the one at"),
    ("A ::= SEQUENCE { ab NULL, abC NULL -- @name(ab)\n}", "", "2:27", "'abC' and 'ab' are both 'ab'"),
    # ---- values
    ("A ::= INTEGER (0..b)\nb BOOLEAN ::= TRUE", "", "3:15", "this value is no number"),
    ("a OBJECT IDENTIFIER ::= 5", "", "2:25", "this is no object identifier"),
    ("a OBJECT IDENTIFIER ::= { 5 }", "", "2:25", "an object identifier has at least two arcs"),
    ("a OBJECT IDENTIFIER ::= { 5 6 }", "", "2:25", "no object identifier begins with 5.6"),
    ("a OBJECT IDENTIFIER ::= { 1 40 }", "", "2:25", "no object identifier begins with 1.40"),
    ("a OBJECT IDENTIFIER ::= { 1 b }", "", "2:29", "'b' is neither assigned"),
    ("a OBJECT IDENTIFIER ::= { 1 b }\nb OBJECT IDENTIFIER ::= { 1 2 }", "", "2:29", "'b' does not stand first"),
    # ---- tags
    ("A ::= [UNIVERSAL 5] NULL", "", "2:7", "a tag of the class UNIVERSAL"),
    ("A ::= [4294967296] NULL", "", "2:7", "the number 4294967296 of a tag is not taken"),
    ("A ::= [x NULL", "", "2:10", "'NULL' stands where ']' is expected"),
    ("A ::= [NULL] NULL", "", "2:8", "'NULL' stands where the number of a tag is expected"),
    ("A ::= SEQUENCE { a [0] IMPLICIT B }\nB ::= CHOICE { c NULL, d INTEGER }", "", "2:20", "IMPLICIT stands before a CHOICE"),
    ("A ::= SEQUENCE { a [0] IMPLICIT ANY }", "", "2:20", "IMPLICIT stands before a CHOICE or an open type"),
    ("A ::= CHOICE { a INTEGER, b INTEGER }", "", "2:27", "'b' and 'a' are not distinguished: both may begin with the tag [UNIVERSAL 2]"),
    ("A ::= CHOICE { a INTEGER, b B }\nB ::= CHOICE { c NULL, d INTEGER }", "", "2:27", "'b' and 'a' are not distinguished"),
    ("A ::= CHOICE { a INTEGER, b ANY }", "", "2:27", "'b' and 'a' are not distinguished"),
    ("A ::= SEQUENCE { a INTEGER OPTIONAL, b INTEGER }", "", "2:38", "'b' and 'a' are not distinguished"),
    ("A ::= SEQUENCE { a INTEGER (0..255) DEFAULT 0, b NULL OPTIONAL, c INTEGER }", "", "2:65", "'c' and 'a' are not distinguished"),
    ("A ::= SEQUENCE { a ANY OPTIONAL, b NULL }", "", "2:34", "'b' and 'a' are not distinguished"),
    ("A ::= SEQUENCE { a [0] NULL OPTIONAL, b [0] NULL }", "", "2:39", "both may begin with the tag [0]"),
    ("A ::= SET { a INTEGER, b NULL, c INTEGER }", "", "2:32", "'c' and 'a' are not distinguished"),
    # ---- types that reach themselves
    ("A ::= CHOICE { a A, b NULL }", "", "2:18", "the type 'A' reaches itself: A, A"),
    ("A ::= CHOICE { a B, c NULL }\nB ::= CHOICE { a A, b BOOLEAN }", "", "3:18", "the type 'A' reaches itself: A, B, A"),
    ("A ::= B\nB ::= A", "", "3:7", "the type 'A' reaches itself"),
    ("A ::= ENUMERATED { a(9223372036854775808) }", "", "2:7", "an ENUMERATED with numbers of 64 bits"),
    # ---- annotations
    ("A ::= INTEGER -- @borrow", "", "2:18", "there is no annotation '@borrow'"),
    ("A ::= SEQUENCE { a B -- @kept\n}\nB ::= SEQUENCE { x NULL }", "", "2:25", "there is no annotation '@kept'"),
    ("A ::= INTEGER -- @u8 @u8", "", "2:22", "'@u8' stands twice"),
    ("A ::= INTEGER -- @u8 @unsigned", "", "2:22", "'@u8' and '@unsigned' say two things"),
    ("A ::= INTEGER -- @u8(5)", "", "2:18", "'@u8' has no argument"),
    ("A ::= OBJECT IDENTIFIER -- @max", "", "2:28", "'@max' wants an argument"),
    ("A ::= OBJECT IDENTIFIER -- @max(0)", "", "2:28", "'@max' wants an argument"),
    ("A ::= BOOLEAN -- @owned", "", "2:18", "'@owned' says nothing of 'A'"),
    ("A ::= SEQUENCE { a BOOLEAN -- @u8\n}", "", "2:31", "'@u8' says nothing of 'a'"),
    ("A ::= SEQUENCE OF NULL -- @any_order", "", "2:27", "'@any_order' says nothing of 'A'"),
    ("A ::= SET { a NULL } -- @any_order", "", "2:25", "'@any_order' says nothing of 'A'"),
    ("A ::= B -- @any_order\nB ::= SET OF NULL", "", "2:12", "'@any_order' says nothing of 'A'"),
    ("A ::= SEQUENCE { a SEQUENCE OF NULL -- @any_order\n}", "", "2:40", "'@any_order' says nothing of 'a'"),
    ("A ::= SEQUENCE { a NULL -- @any_order\n}", "", "2:28", "'@any_order' says nothing of 'a'"),
    ("A ::= SEQUENCE { a B -- @any_order\n}\nB ::= SET OF NULL", "", "2:25", "'@any_order' says nothing of 'a'"),
    ("A ::= SEQUENCE { a SEQUENCE OF B -- @any_order\n}\nB ::= SET OF NULL", "", "2:37", "'@any_order' says nothing of 'a'"),
    ("A ::= SET OF SEQUENCE { a NULL -- @any_order\n}", "", "2:35", "'@any_order' says nothing of 'a'"),
    ("A ::= CHOICE { a [0] B, -- @any_order\n b NULL }\nB ::= SET OF NULL", "", "2:28", "'@any_order' says nothing of 'a'"),
    ("A ::= SET OF NULL -- @any_order(5)", "", "2:22", "'@any_order' has no argument"),
    ("A ::= SET OF NULL -- @anyorder", "", "2:22", "there is no annotation '@anyorder'"),
    ("A ::= INTEGER -- @omit @u8", "", "2:24", "'@u8' says nothing of 'A', which is omitted"),
    ("A ::= INTEGER -- @omit\nB ::= A", "", "3:7", "'A' is not written ('@omit' at test.asn1:2:1)"),
    ("A ::= INTEGER (0..300) -- @u8", "", "2:7", "'@u8' has not all of (0..300)"),
    ("A ::= INTEGER { a(300) } -- @u8", "", "2:7", "'@u8' has no 300, which is 'a'"),
    ("A ::= SEQUENCE { a [0] IMPLICIT B -- @unread\n}\nB ::= BIT STRING", "", "2:20", "'@unread' after an implicit tag"),
    # ---- classes and parameters
    ("A ::= B.&Type\nB ::= INTEGER", "", "2:7", "'B' is no class"),
    ("A ::= B.&Other\nB ::= CLASS { &Type }", "", "2:7", "the class 'B' has no field '&Other'"),
    ("A ::= B.&c.&d\nB ::= CLASS { &c B }", "", "2:7", "the class 'B' has no field '&d'"),
    ("A ::= B.&c.&d\nB ::= CLASS { &c INTEGER }", "", "2:7", "the values of the field '&c' are no objects"),
    ("A ::= B.&c\nB ::= CLASS { &c B OPTIONAL }", "", "2:7", "the values of the field '&c' are objects"),
    ("A ::= B.&C\nB ::= CLASS { &C B OPTIONAL }", "", "2:7", "the values of the field '&C' are objects"),
    ("A ::= SEQUENCE { a b.&C }", "", "2:20", "the type of a field of the object 'b' is not taken"),
    ("A ::= P{{5}}\nP{INTEGER:n} ::= INTEGER (0..n)", "", "3:30", "'n' stands for no value here"),
    ("A ::= B{NULL}\nB ::= NULL", "", "2:7", "'B' has 0 parameters, and 1 are given"),
    ("A ::= B\nB{C} ::= SEQUENCE { a C }", "", "2:7", "'B' has 1 parameters, and 0 are given"),
    ("A ::= B{5}\nB{C} ::= SEQUENCE { a C }", "", "3:23", "'C' stands for no type here"),
    ("B{INTEGER C} ::= NULL", "", "2:3", "'INTEGER C' is no parameter"),
]


class Refusals(unittest.TestCase):
    def test_bodies(self) -> None:
        for body, tags, place, said in BODIES:
            with self.subTest(body):
                error = refusal(module_of(body, tags))
                self.assertIn(said, error.problem)
                self.assertEqual(f"{error.place.line}:{error.place.column}", place)
                self.assertTrue(error.instead)

    def test_what_is_written(self) -> None:
        error = refusal(module_of("A ::= CHOICE { a INTEGER, b INTEGER }"))
        self.assertEqual(
            str(error),
            "test.asn1:2:27: error: 'b' and 'a' are not distinguished: both may begin with the tag [UNIVERSAL 2]\n"
            "    write a tag before one of them, as '[0]' (X.680 29.3)",
        )

    def test_headers(self) -> None:
        for text, place, said in (
            ("test DEFINITIONS ::= BEGIN END", "1:1", "'test' stands where the name of a module"),
            ("Test { a, b } DEFINITIONS ::= BEGIN END", "1:6", "this is no object identifier"),
            ("Test { a DEFINITIONS ::= BEGIN END", "1:6", "this '{' is not closed"),
            ("Test ::= BEGIN END", "1:6", "'::=' stands where 'DEFINITIONS' is expected"),
            ("Test DEFINITIONS IMPLICIT ::= BEGIN END", "1:27", "'::=' stands where 'TAGS' is expected"),
            ("Test DEFINITIONS ::= END", "1:22", "'END' stands where 'BEGIN' is expected"),
            ("Test DEFINITIONS ::= BEGIN", "1:27", "the end of the file stands where END is expected"),
        ):
            with self.subTest(text):
                error = refusal(text)
                self.assertIn(said, error.problem)
                self.assertEqual(f"{error.place.line}:{error.place.column}", place)

    def test_modules_together(self) -> None:
        other = module_of("B ::= NULL", name="Other")
        self.assertIn("is given twice", refusal(other, other).problem)
        self.assertIn("assigns no 'C'", refusal(module_of("IMPORTS C FROM Other;"), other).problem)
        self.assertIn("assigns no 'C'", refusal(module_of("A ::= Other.C"), other).problem)
        third = module_of("B ::= NULL", name="Third")
        circle = module_of("EXPORTS C; IMPORTS C FROM Test;", name="Other")
        error = refusal(module_of("EXPORTS C; IMPORTS C FROM Other; A ::= C"), circle)
        self.assertIn("assigns no 'C'", error.problem)
        hidden = module_of("EXPORTS ; B ::= NULL", name="Other")
        self.assertIn("does not export 'B'", refusal(module_of("IMPORTS B FROM Other;"), hidden).problem)
        hidden = module_of("EXPORTS D; IMPORTS B FROM Third; D ::= NULL", name="Other")
        self.assertIn("does not export 'B'", refusal(module_of("IMPORTS B FROM Other;"), hidden, third).problem)

    def test_two_instances_that_differ(self) -> None:
        error = refusal(
            module_of(
                """ONE ::= CLASS { &id INTEGER }
                TWO ::= CLASS { &id BOOLEAN }
                A{C, C:Set} ::= SEQUENCE { a C.&id({Set}) }
                B ::= SEQUENCE { a A{ONE, {S}}, b A{ONE, {T}} }
                D ::= SEQUENCE { a A{TWO, {S}} }"""
            )
        )
        self.assertIn("this instance of 'A' has other types", error.problem)
        self.assertEqual(error.place.line, 6)

    def test_the_nearest_name_is_told(self) -> None:
        self.assertEqual(refusal(module_of("Name ::= NULL\nA ::= Nane")).instead, "did you mean 'Name'?")
        self.assertEqual(refusal(module_of("A ::= NULL -- @ommit")).instead, "did you mean '@omit'?")
