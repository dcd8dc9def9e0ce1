"""Types whose tags the layer refuses: what has one and may be absent is left out, and said so."""

from __future__ import annotations

import unittest

from ..model import Choice, Struct
from .helpers import definitions, module_of, refusal, remarks
from .test_writer import grammar, written

DIRECTORY_STRING = "D ::= CHOICE { teletex TeletexString, printable PrintableString, universal UniversalString, utf8 UTF8String }"

# Modules, their tags, a type and its grammar: None where the type is not written.
GRAMMARS = [
    ("A ::= SEQUENCE OF EXTERNAL", "", "a", "UNREAD_SEQUENCE"),
    ("A ::= SEQUENCE OF SEQUENCE { a REAL }", "", "a", "SEQUENCE_OF UNREAD_SEQUENCE"),
    ("A ::= [APPLICATION 3] IMPLICIT SEQUENCE { a UniversalString }", "", "a", "IMPLICIT application 3 UNREAD_SEQUENCE"),
    ("A ::= SEQUENCE { a GraphicString }", "AUTOMATIC TAGS", "a", "SEQUENCE (field (IMPLICIT context 0 OCTET_STRING) end)"),
    ("A ::= SEQUENCE { a [0] IMPLICIT [1] IMPLICIT GraphicString }", "", "a", "SEQUENCE (field (IMPLICIT context 0 (IMPLICIT context 1 OCTET_STRING)) end)"),
    ("A ::= SEQUENCE { n NULL, ..., b EXTERNAL, ..., c NULL }", "", "a", "SEQUENCE (field NULL (field NULL end))"),
    ("A ::= SEQUENCE { COMPONENTS OF B, n NULL }\nB ::= SEQUENCE { r REAL, s NULL }", "", "a", "UNREAD_SEQUENCE"),
    ("P{T} ::= SEQUENCE { t T }\nA ::= P{EXTERNAL}", "", "a", "UNREAD_SEQUENCE"),
    ("P{T} ::= SEQUENCE { t T }\nA ::= SEQUENCE { p P{REAL}, n NULL }", "", "a", "SEQUENCE (field UNREAD_SEQUENCE (field NULL end))"),
    ("A ::= SEQUENCE { i INSTANCE OF TYPE-IDENTIFIER }", "", "a", "UNREAD_SEQUENCE"),
    ("A ::= SEQUENCE { i INSTANCE OF TYPE-IDENTIFIER OPTIONAL, n NULL }", "", "a", "SEQUENCE (field NULL end)"),
    ("A ::= SEQUENCE { a S OPTIONAL, n NULL }\nS ::= SET OF EXTERNAL", "", "a", "SEQUENCE (field NULL end)"),
    ("A ::= SEQUENCE { a S, n NULL }\nS ::= SET { g GraphicString }", "", "a", "UNREAD_SEQUENCE"),
    ("A ::= SEQUENCE { a [0] S, n NULL }\nS ::= SET { g GraphicString }", "IMPLICIT TAGS", "a", "SEQUENCE (field (IMPLICIT context 0 UNREAD_SEQUENCE) (field NULL end))"),
    ("A ::= SEQUENCE { a [0] C OPTIONAL, n NULL }\nC ::= CHOICE { g GraphicString, r REAL }", "IMPLICIT TAGS", "a", "SEQUENCE (field NULL end)"),
    ("A ::= SEQUENCE { a C }\nC ::= CHOICE { g GraphicString, r REAL }", "", "a", "UNREAD_SEQUENCE"),
    ("A ::= SEQUENCE { a C, n NULL }\nC ::= CHOICE { g GraphicString, n NULL }", "", "a", "SEQUENCE (field c (field NULL end))"),
    ("A ::= SEQUENCE { a a < C }\nC ::= CHOICE { a GraphicString, b NULL }", "", "a", "UNREAD_SEQUENCE"),
    ("A ::= CHOICE { a [0] A, b GraphicString }", "", "a", "CHOICE_OF_ONE (IMPLICIT context 0 UNREAD_SEQUENCE)"),
    ("A ::= SET { b A OPTIONAL, c GraphicString }\nB ::= SEQUENCE { a [0] IMPLICIT A, n NULL }", "", "b", "SEQUENCE (field (IMPLICIT context 0 UNREAD_SEQUENCE) (field NULL end))"),
    ("A ::= SEQUENCE { n N -- @unread\n}\nN ::= SET { g GraphicString }", "", "a", "SEQUENCE (field ANY end)"),
    ("A ::= SET { g GraphicString }", "", "a", None),
    ("A ::= SEQUENCE { a REAL }", "", "a", "UNREAD_SEQUENCE"),
    ("A ::= SEQUENCE { a ObjectDescriptor }", "", "a", "UNREAD_SEQUENCE"),
    ("A ::= SEQUENCE OF GraphicString", "", "a", "UNREAD_SEQUENCE"),
    ("A ::= SET OF EMBEDDED PDV", "", "a", None),
    ("A ::= SET OF CHARACTER STRING", "", "a", None),
    ("A ::= CHOICE { a UniversalString, b NULL }", "", "a", "CHOICE_OF_ONE NULL"),
    ("A ::= SEQUENCE { a [0] B }\nB ::= INSTANCE OF C\nC ::= TYPE-IDENTIFIER", "IMPLICIT TAGS", "a", "SEQUENCE (field (IMPLICIT context 0 UNREAD_SEQUENCE) end)"),
]


class Lacking(unittest.TestCase):
    def test_an_alternative_is_left_out(self) -> None:
        found = definitions(DIRECTORY_STRING)["D"]
        assert isinstance(found, Choice)
        self.assertEqual([part.name for part in found.alternatives], ["teletex", "printable", "utf8"])
        said = "a value with 'universal' is refused: the layer has no UniversalString"
        self.assertEqual(remarks(DIRECTORY_STRING), [f"2:66 {said}"])
        self.assertIn("/// A value with 'universal' is refused: the layer has no UniversalString.", written(module_of(DIRECTORY_STRING))["src/test/d.rt"])
        self.assertNotIn("universal", grammar(DIRECTORY_STRING)["d"].split("abbrev")[-1].split("=", 1)[-1].lower())

    def test_what_has_an_implicit_tag_is_kept(self) -> None:
        page = written(module_of(DIRECTORY_STRING, "AUTOMATIC TAGS"))["specs/Test/Grammar.antt"]
        self.assertIn("IMPLICIT context 2 OCTET_STRING", page)
        self.assertIn("IMPLICIT context 3 UTF8_STRING", page)
        said = "the contents octets of this UniversalString are kept, and not checked"
        self.assertEqual(remarks(DIRECTORY_STRING, "AUTOMATIC TAGS"), [f"2:66 {said}"])

    def test_what_is_constructed_is_kept_so(self) -> None:
        body = "A ::= SEQUENCE { a [0] IMPLICIT N, b [1] GraphicString }\nN ::= EXTERNAL"
        page = written(module_of(body, "IMPLICIT TAGS"))["specs/Test/Grammar.antt"]
        self.assertIn("(field (IMPLICIT context 0 UNREAD_SEQUENCE)", page)
        self.assertIn("(field (IMPLICIT context 1 OCTET_STRING)", page)

    def test_an_explicit_tag_changes_nothing(self) -> None:
        error = refusal(module_of("A ::= SEQUENCE { a [0] IMPLICIT N }\nN ::= [1] EXPLICIT GraphicString"))
        self.assertIn("there is no type for GraphicString", str(error))

    def test_a_component_that_may_be_absent_is_left_out(self) -> None:
        body = "A ::= SEQUENCE { a NULL, b GraphicString OPTIONAL, c [0] N OPTIONAL }\nN ::= ObjectDescriptor"
        found = definitions(body)["A"]
        assert isinstance(found, Struct)
        self.assertEqual([part.name for part in found.fields], ["a"])
        self.assertIn("3:1 'N' is not written: the layer has no ObjectDescriptor", remarks(body))
        self.assertIn("SEQUENCE (field NULL end)", " ".join(grammar(body)["a"].split()))

    def test_a_sequence_with_one_in_each_value_is_kept(self) -> None:
        body = "A ::= SEQUENCE { a N }\nN ::= GraphicString\nB ::= SEQUENCE { a A, b [1] IMPLICIT A OPTIONAL }"
        found = grammar(body)
        self.assertEqual([found[name] for name in ("a", "b")], ["UNREAD_SEQUENCE", "SEQUENCE (field a (OPTIONAL (IMPLICIT context 1 a) end))"])
        said = "the contents octets of this SEQUENCE are kept, and not read: 'a' needs GraphicString, which the layer lacks"
        self.assertIn(f"2:7 {said}", remarks(body))
        self.assertIn(f"{said[0].upper()}{said[1:]}.", written(module_of(body))["src/test/aliases.rt"].replace("\n/// ", " "))

    def test_grammars(self) -> None:
        for body, tags, name, term in GRAMMARS:
            with self.subTest(body):
                self.assertEqual(grammar(body, tags).get(name), term)

    def test_each_of_these_types(self) -> None:
        for text in ("REAL", "EXTERNAL", "EMBEDDED PDV", "CHARACTER STRING", "GraphicString", "UniversalString", "ObjectDescriptor"):
            with self.subTest(text):
                self.assertEqual(remarks(f"A ::= {text}"), [f"2:1 'A' is not written: the layer has no {text}"])

    def test_a_choice_with_one_alternative_left_is_a_second_name(self) -> None:
        body = "A ::= CHOICE { a GraphicString, b NULL }"
        self.assertEqual(grammar(body)["a"], "CHOICE_OF_ONE NULL")
        said = "a value with 'a' is refused: the layer has no GraphicString"
        self.assertEqual(remarks(body), [f"2:16 {said}"])
        self.assertIn(f"/// {said[0].upper()}{said[1:]}.", written(module_of(body))["src/test/aliases.rt"])

    def test_types_that_are_not_written(self) -> None:
        for body, lacks in (
            ("A ::= SET { a NULL, b GraphicString }", "GraphicString"),
            ("A ::= [1] EXPLICIT SET OF EXTERNAL", "EXTERNAL"),
            ("A ::= CHOICE { a GraphicString, b [1] CHOICE { c REAL } }", "GraphicString"),
            ("A ::= SET OF EXTERNAL", "EXTERNAL"),
            ("A ::= INSTANCE OF TYPE-IDENTIFIER", "INSTANCE OF"),
            ("A ::= [0] EXPLICIT INSTANCE OF TYPE-IDENTIFIER", "INSTANCE OF"),
        ):
            with self.subTest(body):
                self.assertEqual(remarks(body, "IMPLICIT TAGS"), [f"2:1 'A' is not written: the layer has no {lacks}"])

    def test_what_is_refused(self) -> None:
        for body, problem in (
            ("A ::= SEQUENCE { a [0] IMPLICIT [1] EXPLICIT REAL }", "there is no type for REAL"),
            ("A ::= SEQUENCE { a [0] IMPLICIT [1] EXPLICIT CHOICE { b REAL } }", "no type for any alternative of this CHOICE"),
            ("A ::= SEQUENCE { a [0] IMPLICIT [1] EXPLICIT INSTANCE OF TYPE-IDENTIFIER }", "INSTANCE OF with its own tag"),
            ('A ::= SEQUENCE { a C DEFAULT g : "x" }\nC ::= CHOICE { n NULL, g GraphicString }', "names no alternative"),
            ("A ::= SEQUENCE { a R DEFAULT { } }\nR ::= SEQUENCE { b REAL }", "has no DEFAULT here"),
        ):
            with self.subTest(body):
                self.assertIn(problem, refusal(module_of(body)).problem)

    def test_a_default_of_a_choice_with_one_alternative_left(self) -> None:
        body = "A ::= SEQUENCE { a C DEFAULT n : 5 }\nC ::= CHOICE { g GraphicString, n INTEGER (0..255) }"
        self.assertEqual(grammar(body)["a"], "SEQUENCE (DEFAULT (tlv tags.Integer (natural_contents 5)) c end)")

    def test_a_search_ends(self) -> None:
        chain = "\n".join(f"S{i} ::= SET {{ a [0] S{i + 1}, b [1] S{i + 1} }}" for i in range(30))
        error = refusal(module_of(f"{chain}\nS30 ::= NULL"))
        self.assertIn("too many types stand within one another", error.problem)
