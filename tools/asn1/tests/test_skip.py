"""`@skip`: the elements of a SEQUENCE that a module does not have are kept (X.680 7, 25)."""

from __future__ import annotations

import unittest
from unittest import mock

from ..errors import AsnError
from ..model import Struct
from ..properties import properties_of_definition
from ..resolver import definitions as resolver_definitions
from ..writer.fields import place_after
from .helpers import definitions, module_of, refusal, remarks
from .test_places import written as places
from .test_writer import grammar, written

BODY = "A ::= SEQUENCE { a NULL, b [0] BOOLEAN OPTIONAL, ... -- @skip\n }"


def source(body: str, name: str = "a") -> str:
    """The file of a type, with one space where there are more, and with its documentation in one line."""
    return " ".join(written(module_of(body))[f"src/test/{name}.rt"].replace("\n/// ", " ").split())


def struct(body: str) -> Struct:
    found = definitions(body)["A"]
    assert isinstance(found, Struct)
    return found


class Written(unittest.TestCase):
    """What stands in the place of the end of the list."""

    def test_the_list_ends_with_the_additions(self) -> None:
        text = source(BODY)
        self.assertIn("type Fields<'a> = Fields2<Null, Option<Explicit<bool, 0>>, Additions<'a>>;", text)
        self.assertIn("pub struct A<'a> {", text)
        self.assertIn("use der_additions::Additions;", text)

    def test_new_takes_them_and_a_call_gives_them(self) -> None:
        text = source(BODY)
        self.assertIn("additions: &Additions<'a>) -> A<'a>", text)
        self.assertIn("ensures additions { a_fields.additions result ≡ additions.now }", text)
        self.assertIn("; copy_of(additions)]", text)
        self.assertIn("pub fn additions(&self) -> &Additions<'a>", text)
        self.assertIn("&self.fields.list.rest.rest }", text)
        self.assertIn('.field("additions", self.additions())', text)

    def test_equality_ends_with_theirs(self) -> None:
        text = source(BODY)
        self.assertIn("additions_members)) };", text)
        self.assertNotIn("no_fields", text)

    def test_the_octets_are_those_of_the_fields_and_then_theirs(self) -> None:
        self.assertIn("≡ joined_before (octets_of (a_fields.additions v)) (", source(BODY))
        self.assertIn("one after another, and then the elements after them.", source(BODY))

    def test_the_page_of_the_fields_has_them(self) -> None:
        page = written(module_of(BODY))["specs/Test/A.antt"]
        self.assertIn("abbrev pub additions : A → Additions\nadditions v = v.fields.list.rest.rest", page)

    def test_the_grammar_says_additions(self) -> None:
        self.assertTrue(grammar(BODY)["a"].endswith("ADDITIONS))"))

    def test_the_documentation_says_that_they_are_kept(self) -> None:
        kept = "Elements after these are kept, not looked at, and written as they came."
        told = "A field that may be absent is told from what follows by its tag"
        self.assertIn(kept, source(BODY))
        self.assertIn(told, source(BODY))
        self.assertNotIn(told, source("A ::= SEQUENCE { a NULL, ... -- @skip\n }"))

    def test_nothing_is_said_to_be_refused(self) -> None:
        self.assertEqual(remarks(BODY), [])
        self.assertEqual(len(remarks(BODY.replace("-- @skip", ""))), 1)

    def test_a_value_that_owns_gives_them_among_its_parts(self) -> None:
        text = source("A ::= SEQUENCE { a BMPString, ... -- @skip\n }")
        self.assertIn("pub fn into_parts(self) -> (BmpString, Additions<'a>)", text)
        self.assertIn("ensures additions { a_fields.additions self.entry ≡ result.1 }", text)
        self.assertIn("let Field { first: a, rest: additions } = list;", text)
        self.assertIn("additions_copies)", text)

    def test_a_sequence_may_have_nothing_else(self) -> None:
        text = source("A ::= SEQUENCE { ... -- @skip\n }")
        self.assertIn("type Fields<'a> = Additions<'a>;", text)
        self.assertIn("pub fn new(additions: &Additions<'a>) -> A<'a>", text)
        self.assertIn("let fields = copy_of(additions);", text)
        self.assertIn("{ &self.fields }", text)
        self.assertTrue(grammar("A ::= SEQUENCE { ... -- @skip\n }")["a"].endswith("SEQUENCE ADDITIONS"))

    def test_a_value_borrows(self) -> None:
        self.assertTrue(properties_of_definition(struct(BODY)).borrows)
        self.assertFalse(properties_of_definition(struct(BODY.replace("-- @skip", ""))).borrows)


class Places(unittest.TestCase):
    """Where they stand after so many fields."""

    def body(self, count: int) -> str:
        fields = ", ".join(f"f{i} [{i}] NULL" for i in range(count))
        return f"A ::= SEQUENCE {{ {fields}, ... -- @skip\n }}"

    def test_they_stand_behind_the_last_field(self) -> None:
        self.assertEqual(place_after(0), "")
        self.assertEqual(place_after(1), ".list.rest")
        self.assertEqual(place_after(8), ".list" + ".rest" * 8)
        self.assertEqual(place_after(9), ".list" + ".rest" * 8 + ".list.rest")

    def test_a_long_list_has_them_in_its_last_part(self) -> None:
        text = source(self.body(8))
        self.assertIn(", Additions<'a>>;", text)
        self.assertIn(f"&self.fields.list{'.rest' * 8} }}", text)
        text = source(self.body(9))
        self.assertIn("Fields1<Explicit<Null, 8>, Additions<'a>>>;", text)
        self.assertIn("let list = field_list![tagged!(Explicit, f8); copy_of(additions)];", text)
        self.assertIn("; rest];", text)
        self.assertIn(f"let tail = &self.fields.list{'.rest' * 8}; &tail.list.rest }}", text)
        self.assertEqual(text.count("copy_of(additions)"), 1)


class Markers(unittest.TestCase):
    """Where the annotation stands."""

    def test_it_stands_after_the_marker_or_its_comma(self) -> None:
        for marker in ("... -- @skip\n", "..., -- @skip\n b [1] NULL OPTIONAL", "...! 5, -- @skip\n b [1] NULL OPTIONAL"):
            self.assertTrue(struct(f"A ::= SEQUENCE {{ a NULL, {marker} }}").has_additions, marker)

    def test_they_stand_after_the_additions_that_are_known(self) -> None:
        body = "A ::= SEQUENCE { a NULL, ..., -- @skip\n b [1] NULL OPTIONAL, ... }"
        self.assertEqual([part.name for part in struct(body).fields], ["a", "b"])
        self.assertTrue(struct(body).has_additions)
        self.assertTrue(struct(body.replace(" -- @skip\n", "").replace("... }", "... -- @skip\n }")).has_additions)

    def test_a_module_that_implies_markers_has_it_where_one_is_written(self) -> None:
        found = definitions("A ::= SEQUENCE { a NULL, ... -- @skip\n }\nB ::= SEQUENCE { a NULL }", "EXTENSIBILITY IMPLIED")
        self.assertEqual([getattr(found[name], "has_additions") for name in "AB"], [True, False])

    def test_components_of_takes_the_components_alone(self) -> None:
        found = definitions(f"{BODY}\nB ::= SEQUENCE {{ COMPONENTS OF A, c [3] NULL }}")["B"]
        assert isinstance(found, Struct)
        self.assertEqual([part.name for part in found.fields], ["a", "b", "c"])
        self.assertFalse(found.has_additions)

    def test_the_page_has_it_from_the_text_alone(self) -> None:
        with mock.patch.object(resolver_definitions, "has_additions", lambda type_: False):
            self.assertTrue(grammar(BODY)["a"].endswith("ADDITIONS))"))
            self.assertIn("Fields2<Null, Option<Explicit<bool, 0>>>;", source(BODY))


class Refused(unittest.TestCase):
    """Where it says nothing, or what cannot be."""

    ROWS = [
        ("A ::= SET { a NULL, ... -- @skip\n }", "2:28", "'@skip' is not taken in a SET"),
        ("A ::= CHOICE { a NULL, ... -- @skip\n }", "2:31", "'@skip' is not taken in a CHOICE"),
        ("A ::= CHOICE { a NULL, b BOOLEAN, ..., -- @skip\n c [1] NULL }", "2:43", "'@skip' is not taken in a CHOICE"),
        ("A ::= ENUMERATED { a, ... -- @skip\n }", "2:30", "'@skip' is not taken in an ENUMERATED"),
        ("A ::= ENUMERATED { a, ..., -- @skip\n b }", "2:31", "'@skip' is not taken in an ENUMERATED"),
        ("A ::= SEQUENCE { a NULL, ..., -- @skip\n ..., b [1] NULL }", "2:34", "components after a second '...'"),
        ("A ::= SEQUENCE { additions NULL, ... -- @skip\n }", "2:18", "are both 'additions' in Rattle"),
        ("A ::= SEQUENCE { a NULL, -- @skip\n b [1] NULL }", "2:29", "'@skip' says nothing of 'a'"),
        ("A ::= SEQUENCE { a NULL, ... } -- @skip", "2:35", "'@skip' says nothing of 'A'"),
        ("A ::= SEQUENCE { a NULL, ... -- @owned\n }", "2:33", "'@owned' says nothing of '...'"),
        ("A ::= SEQUENCE { a NULL, ... -- @skip(1)\n }", "2:33", "'@skip' has no argument"),
        ("A ::= SEQUENCE { a NULL, ... -- @skipp\n }", "2:33", "did you mean '@skip'?"),
        (f"{BODY}\nB ::= SEQUENCE {{ a A DEFAULT {{ a NULL }} }}", "4:30", "a SEQUENCE with '@skip' has no DEFAULT here"),
    ]

    def test_each(self) -> None:
        for body, place, said in self.ROWS:
            error = refusal(module_of(body))
            self.assertIn(said, f"{error}", body)
            self.assertEqual(f"{error.place.line}:{error.place.column}", place, body)

    def test_a_field_may_have_another_name(self) -> None:
        body = "A ::= SEQUENCE { additions NULL, -- @name(more)\n ... -- @skip\n }"
        self.assertEqual([part.rust for part in struct(body).fields], ["more"])

    def test_no_places_are_written(self) -> None:
        with self.assertRaises(AsnError) as raised:
            places(BODY)
        self.assertIn("the places of the fields of 'A'", f"{raised.exception}")


if __name__ == "__main__":
    unittest.main()
