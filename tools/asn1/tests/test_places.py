"""The places of the fields of a SEQUENCE: which field is there, how it is read, and the way to it."""

from __future__ import annotations

import re
import tempfile
import unittest
from pathlib import Path

from ..crates import entries_of, places_of
from ..errors import AsnError
from ..writer.holders import hold_tagged
from ..writer.places import write_places
from ..writer.plan import Plan, Target
from ..writer.splitting import split_choices
from .helpers import module_of, resolved


def written(body: str, tags: str = "") -> dict[str, str]:
    """The files of the places of a module's types, with one space where there are more."""
    found, _ = resolved(module_of(body, tags))
    split_choices(found)
    hold_tagged(found)
    plan = Plan({found[0].name: Target("der_test", "test")})
    return {path: " ".join(text.split()) for path, text in write_places(plan, "der_test_places", found).items()}


class Fields(unittest.TestCase):
    """A field that is always there, one that may be absent, and one with a default."""

    BODY = """S ::= SEQUENCE {
            always INTEGER (0..255), any ANY, perhaps INTEGER (0..255) OPTIONAL,
            lent [1] IMPLICIT OCTET STRING OPTIONAL, held [2] EXPLICIT L OPTIONAL, flag [3] IMPLICIT BOOLEAN DEFAULT FALSE }
        L ::= """

    def setUp(self) -> None:
        self.files = written(f"{self.BODY} SEQUENCE {{ x BMPString }}")
        self.text = self.files["src/test/s.rt"]

    def test_there_is_a_file_for_each_struct_a_user_meets(self) -> None:
        self.assertEqual(sorted(self.files), ["src/test.rt", "src/test/l.rt", "src/test/s.rt"])
        self.assertIn("pub use s::SPlaces;", self.files["src/test.rt"])

    def test_the_walk_goes_from_field_to_field(self) -> None:
        for line in (
            "let always = next_place(octets, start, true);",
            "let any = next_place(octets, always, true);",
            "let perhaps = next_place(octets, any, is_some(self.perhaps()));",
            "let lent = next_place(octets, perhaps, is_there(self.lent()));",
            "let held = next_place(octets, lent, is_there(self.held()));",
            "let flag = next_place(octets, held, !is_default);",
        ):
            self.assertIn(line, self.text)

    def test_the_layout_has_each_field_with_its_tag(self) -> None:
        for part in (
            "field (⟦<u8 as Form>⟧.accepts Der (fields_of.always v))",
            "optional (⟦<u8 as Form>⟧.accepts Der) (fields_of.perhaps v)",
            "optional (λ x. ⟦<Implicit<OctetStringRef<'a>, 1> as Form>⟧.accepts Der (implicit x)) (fields_of.lent v)",
            "optional (λ x. ⟦<Explicit<L, 2> as Form>⟧.accepts Der (explicit x)) (fields_of.held v)",
            "unless (is_default ⟦<DefaultFalse as DefaultOf<Implicit<bool, 3>>>⟧.octets",
            "field (⟦<AnyRef<'a> as Form>⟧.accepts Der (fields_of.any v))",
        ):
            self.assertIn(part, self.text)

    def test_the_proof_names_each_tag(self) -> None:
        self.assertIn("is_encoding tags.Integer (lit< tt) field1.front field1.first.0 field1.first.1", self.text)
        self.assertIn("is_encoding (marker_tag 2 false 1) (marker_tag-in_range 2 false 1) o b.0 b.1", self.text)
        self.assertIn("(λ (x : Explicit2L). ⟦<Explicit<L, 2> as Form>⟧.accepts Der (explicit x.fields.list.first))", self.text)
        self.assertIn("is_encoding _ field2.first.0 field2.front _ field2.first.1", self.text)

    def test_another_crate_takes_the_words_from_the_library(self) -> None:
        self.assertIn("use der_places::{Place, Placed, is_some, is_there, next_place};", self.text)

    def test_each_place_says_when_it_has_no_octets(self) -> None:
        self.assertIn("/// `perhaps`, `INTEGER (0..255) OPTIONAL`; empty if it is absent. pub perhaps: Place,", self.text)
        self.assertIn("; empty if it has its default. pub flag: Place,", self.text)


class Defaults(unittest.TestCase):
    """A field with a default is there where its value is another, which is asked of the type that stands for the default."""

    BODY = """S ::= SEQUENCE {
            number INTEGER (0..999) DEFAULT 300, name UTF8String DEFAULT "x", mail [0] IMPLICIT IA5String DEFAULT "y",
            color [1] IMPLICIT Color DEFAULT red, part P DEFAULT {}, held [2] IMPLICIT P DEFAULT {} }
        Color ::= ENUMERATED { red }
        P ::= SEQUENCE { a OCTET STRING OPTIONAL }"""

    def setUp(self) -> None:
        self.text = written(self.BODY)["src/test/s.rt"]

    def test_a_value_is_given_by_reference(self) -> None:
        for line in (
            "let value = self.number(); let is_default = <Default300 as DefaultOf<u16>>::is_default(&value);",
            "let value = self.name(); let is_default = <DefaultOfSName as DefaultOf<Utf8StringRef<'a>>>::is_default(value);",
            "let value = self.part(); let is_default = <DefaultOfSPart as DefaultOf<P<'a>>>::is_default(value);",
        ):
            self.assertIn(line, self.text)

    def test_a_value_after_a_tag_is_copied(self) -> None:
        for line in (
            "let tagged: Implicit<Ia5StringRef<'a>, 0> = Implicit { value: *value };",
            "let tagged: Implicit<Enumerated<Color>, 1> = Implicit { value: Enumerated { value } };",
            "let tagged: Implicit<P<'a>, 2> = Implicit { value: copy_of(value) };",
        ):
            self.assertIn(line, self.text)

    def test_the_types_that_stand_for_defaults_are_those_of_the_module(self) -> None:
        self.assertRegex(self.text, r"use der_test::test::\{[^}]*Default300, DefaultOfSColor,[^}]*\};")


class Listed(unittest.TestCase):
    """A list stands after its tag, and in no struct that holds both."""

    def setUp(self) -> None:
        self.text = written(f"{Fields.BODY} SEQUENCE OF BOOLEAN")["src/test/s.rt"]

    def test_the_layout_has_the_list_with_its_tag(self) -> None:
        self.assertIn("optional (λ x. ⟦<Explicit<L<'a>, 2> as Form>⟧.accepts Der (explicit x)) (fields_of.held v)", self.text)

    def test_the_proof_goes_to_the_first_of_the_fields_after_the_tag(self) -> None:
        self.assertIn("(maybe (λ x. x.fields.first) (⟦<Explicit<L<'a>, 2> as Form>⟧.accepts Der)", self.text)
        self.assertNotIn("Explicit2L", self.text)

    def test_the_walk_is_the_same(self) -> None:
        held = written(f"{Fields.BODY} SEQUENCE {{ x BMPString }}")["src/test/s.rt"]
        walks = [re.findall(r"let (\w+) = (next_place\(.*?\));", text) for text in (self.text, held)]
        self.assertEqual(walks[0], walks[1])
        self.assertEqual(len(walks[0]), 6)

    def test_a_list_that_is_written_out(self) -> None:
        text = written("S ::= SEQUENCE { a SET OF NULL, b [0] IMPLICIT SEQUENCE SIZE (1..MAX) OF NULL OPTIONAL }")["src/test/s.rt"]
        self.assertIn("field (⟦<SetRef<'a, Null> as Form>⟧.accepts Der (fields_of.a v))", text)
        self.assertIn("⟦<Implicit<NonEmptyRef<ListRef<'a, Null>>, 0> as Form>⟧.accepts Der (implicit x)", text)
        self.assertIn("use der_lists::{ListRef, NonEmptyRef, SetRef};", text)


class Choices(unittest.TestCase):
    """A field that is a CHOICE with no tag before it is an encoding in each of its alternatives."""

    def test_each_alternative_is_told_by_its_depth(self) -> None:
        text = written("C ::= CHOICE { a BOOLEAN, b NULL, c [0] IMPLICIT NULL } S ::= SEQUENCE { c C, d C OPTIONAL }")["src/test/s.rt"]
        self.assertIn("c_of.A x ↦ λ o b. is_encoding tags.Boolean (lit< tt) o b.0.0.0 b.0.0.1", text)
        self.assertIn("c_of.C x ↦ λ o b. is_encoding (marker_tag 2 false 0) (marker_tag-in_range 2 false 0) o b.0.0 b.0.1", text)
        self.assertIn("is_c _ field1.front field1.first", text)
        self.assertIn("perhaps (⟦<C as Form>⟧.accepts Der) (λ x o b. is_c x o b)", text)

    def test_one_of_many_structs_is_refused(self) -> None:
        alternatives = ", ".join(f"a{n} [{n}] IMPLICIT SEQUENCE {{ b BOOLEAN }}" for n in range(6))
        with self.assertRaises(AsnError) as refused:
            written(f"C ::= CHOICE {{ {alternatives} }} S ::= SEQUENCE {{ c C }}")
        self.assertIn("the places of a field that is a 'C', a CHOICE of many structs, are not written", str(refused.exception))


class Lists(unittest.TestCase):
    """A line of the list names the crates that a crate has places of."""

    def test_such_a_line_is_no_entry(self) -> None:
        with tempfile.TemporaryDirectory() as folder:
            path = Path(folder) / "modules.txt"
            path.write_text("der_a: a=a.asn1\n# places\nder_p places: der_a der_b\n", encoding="utf-8")
            self.assertEqual([entry.crate for entry in entries_of(path)], ["der_a"])
            self.assertEqual(places_of(path), {"der_p": ["der_a", "der_b"]})
