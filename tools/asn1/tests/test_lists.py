"""Lists, which borrow the octets that they were read from; and the lines that say what is written where."""

from __future__ import annotations

import re
import tempfile
import unittest
from pathlib import Path
from unittest import mock

from .. import command
from ..crates import Entry, entries_of
from ..errors import AsnError
from ..model import List, Listed, Struct
from .helpers import definitions, module_of
from .test_writer import grammar, written

# What stands in a field, its type in Rattle, that in the logic, and its grammar.
FORMS = (
    ("SEQUENCE OF NULL", "ListRef<'a, Null>", "ListRef Null", "SEQUENCE_OF NULL"),
    ("SET OF ANY", "SetRef<'a, AnyRef<'a>>", "SetRef AnyRef", "SET_OF ANY"),
    ("SET OF NULL -- @any_order\n", "UnorderedSetRef<'a, Null>", "UnorderedSetRef Null", "SET_OF_ANY_ORDER NULL"),
    (
        "SEQUENCE SIZE (1..MAX) OF NULL",
        "NonEmptyRef<ListRef<'a, Null>>",
        "NonEmptyRef (ListRef Null)",
        "NOT_EMPTY (SEQUENCE_OF NULL)",
    ),
    (
        "SET SIZE (1..MAX) OF ANY",
        "NonEmptyRef<SetRef<'a, AnyRef<'a>>>",
        "NonEmptyRef (SetRef AnyRef)",
        "NOT_EMPTY (SET_OF ANY)",
    ),
    (
        "SET SIZE (1..MAX) OF NULL -- @any_order\n",
        "NonEmptyRef<UnorderedSetRef<'a, Null>>",
        "NonEmptyRef (UnorderedSetRef Null)",
        "NOT_EMPTY (SET_OF_ANY_ORDER NULL)",
    ),
    (
        "SEQUENCE SIZE (1..8) OF NULL",
        "Constrained<ListRef<'a, Null>, HasSize<1, 8>>",
        "Constrained (ListRef Null) (HasSize 1 8)",
        "ALLOWED (size_in_components 1 8) (SEQUENCE_OF NULL)",
    ),
    (
        "SET SIZE (2 | 4) OF ANY",
        "Constrained<SetRef<'a, AnyRef<'a>>, UnionOf<HasSize<2, 2>, HasSize<4, 4>>>",
        "Constrained (SetRef AnyRef) (UnionOf (HasSize 2 2) (HasSize 4 4))",
        "ALLOWED (union (size_in_components 2 2) (size_in_components 4 4)) (SET_OF ANY)",
    ),
    (
        "SET SIZE (0..2) OF NULL -- @any_order\n",
        "Constrained<UnorderedSetRef<'a, Null>, HasSize<0, 2>>",
        "Constrained (UnorderedSetRef Null) (HasSize 0 2)",
        "ALLOWED (size_in_components 0 2) (SET_OF_ANY_ORDER NULL)",
    ),
    ("SEQUENCE OF SET OF NULL", "ListRef<'a, SetRef<'a, Null>>", "ListRef (SetRef Null)", "SEQUENCE_OF (SET_OF NULL)"),
    ("SET OF B", "SetRef<'a, B<'a>>", "SetRef B", "SET_OF b"),
)
B = "B ::= CHOICE { x NULL, y UTF8String }"


def entries(*lines: str) -> list[Entry]:
    """What a list with these lines names."""
    with tempfile.TemporaryDirectory() as folder:
        path = Path(folder) / "modules.txt"
        path.write_text("\n".join(lines) + "\n", encoding="utf-8")
        return entries_of(path)


class Lines(unittest.TestCase):
    """A line names a crate and its modules."""

    def test_the_modules_of_each_line(self) -> None:
        found = entries("# lists", "der_a: a=a.asn1 b=b.asn1 C.asn1  # two", "der_b:\td=d.asn1", "der_p places: der_a")
        self.assertEqual([one.crate for one in found], ["der_a", "der_a", "der_a", "der_b"])
        self.assertEqual([one.module for one in found], ["a", "b", "", "d"])
        self.assertEqual([one.file.name for one in found], ["a.asn1", "b.asn1", "C.asn1", "d.asn1"])

    def test_a_wrong_word_is_an_error_with_its_place(self) -> None:
        for line in (
            "der_b owned: b=b.asn1",
            "der_b borrowed: b=b.asn1",
            "der_b b=b.asn1",
            "der_b: b=b=b.asn1",
            "der_b:",
            "der_b places:",
            "der_b lists: der_a",
            "der_b owned places: der_a",
            "der_b given: ",
            "der_b given places: der_a",
            "given: b=b.asn1 c=",
        ):
            with self.subTest(line), self.assertRaises(AsnError) as caught:
                entries("der_a: a=a.asn1", line)
            error = caught.exception
            self.assertEqual(error.problem, "this line names no crate and its modules")
            self.assertEqual((Path(error.place.file).name, error.place.line, error.place.column), ("modules.txt", 2, 1))
            self.assertEqual(error.instead, "write 'crate: module=file.asn1 ..', or 'crate given: module=file.asn1 ..' of one that is there")

    def test_the_command_writes_each_crate(self) -> None:
        with tempfile.TemporaryDirectory() as folder, mock.patch.object(command, "laid_out", lambda found: found):
            for name, item in (("One", "NULL"), ("Two", "BOOLEAN")):
                text = module_of(f"A ::= SEQUENCE {{ a SEQUENCE OF {item} }}", name=name)
                (Path(folder) / f"{name}.asn1").write_text(text, encoding="utf-8")
            path = Path(folder) / "modules.txt"
            path.write_text("der_a: one=One.asn1\nder_b: two=Two.asn1\n", encoding="utf-8")
            found = command.write_all(path, with_remarks=False)
        self.assertIn("Fields1<ListRef<'a, Null>>", found["der_a/src/one/a.rt"])
        self.assertIn("Fields1<ListRef<'a, bool>>", found["der_b/src/two/a.rt"])


class Fields(unittest.TestCase):
    """A list that is written out in a field is one of the library's types."""

    def test_the_type_of_each_form(self) -> None:
        for text, rust, logic, _ in FORMS:
            with self.subTest(text):
                files = written(module_of(f"A ::= SEQUENCE {{ a {text} }}\n{B}"))
                self.assertIn(f"Fields1<{rust}>;", files["src/test/a.rt"])
                self.assertIn(f"    pub fn new(a: &{rust}) -> A<'a>\n", files["src/test/a.rt"])
                self.assertIn(f"    pub fn a(&self) -> &{rust}\n", files["src/test/a.rt"])
                self.assertIn(f"abbrev pub a : A → {logic}\n", files["specs/Test/A.antt"])

    def test_each_is_taken_from_the_library(self) -> None:
        for text, rust, _, _ in FORMS:
            with self.subTest(text):
                source = written(module_of(f"A ::= SEQUENCE {{ a {text} }}\n{B}"))["src/test/a.rt"]
                taken = re.search(r"^use der_lists::\{?(.*?)\}?;$", source, re.M)
                assert taken is not None
                named = re.findall(r"\b(?:List|Set|UnorderedSet|NonEmpty)Ref\b", rust)
                self.assertEqual(taken[1].split(", "), sorted(set(named)))
                self.assertNotIn("der_nest", source)

    def test_the_grammar_of_each_form(self) -> None:
        for text, _, _, term in FORMS:
            with self.subTest(text):
                item = f"({term})"
                self.assertEqual(grammar(f"A ::= SEQUENCE {{ a {text} }}\n{B}")["a"], f"SEQUENCE (field {item} end)")

    def test_the_words_are_those_of_the_crate_of_lists(self) -> None:
        body = f"A ::= SEQUENCE {{ a SEQUENCE OF NULL, b SET OF NULL, c [0] SET SIZE (1..MAX) OF NULL -- @any_order\n }}\n{B}"
        page = written(module_of(body))["specs/Test/Grammar.antt"]
        self.assertIn("use Rattle.der_lists.specs.Asn1.{SEQUENCE_OF, SET_OF, SET_OF_ANY_ORDER}\n", page)
        self.assertRegex(page, r"use Rattle\.der_modules\.specs\.Asn1\.\{.*\bNOT_EMPTY\b.*\}\n")
        self.assertNotRegex(page, r"use Rattle\.der_modules\.specs\.Asn1\.\{.*_OF\b.*\}\n")

    def test_after_tags(self) -> None:
        for text, rust in (
            ("[0] SET OF NULL", "Implicit<SetRef<'a, Null>, 0>"),
            ("[0] EXPLICIT SET OF NULL -- @any_order\n", "Explicit<UnorderedSetRef<'a, Null>, 0>"),
            ("[1] SEQUENCE SIZE (1..MAX) OF NULL OPTIONAL", "Option<Implicit<NonEmptyRef<ListRef<'a, Null>>, 1>>"),
            ("[2] SET SIZE (2) OF NULL OPTIONAL", "Option<Implicit<Constrained<SetRef<'a, Null>, HasSize<2, 2>>, 2>>"),
        ):
            with self.subTest(text):
                source = written(module_of(f"A ::= SEQUENCE {{ a {text} }}", "IMPLICIT TAGS"))["src/test/a.rt"]
                self.assertIn(f"Fields1<{rust}>;", source)

    def test_values_are_equal_where_their_octets_are(self) -> None:
        source = written(module_of("A ::= SEQUENCE { a SET OF NULL, b SEQUENCE SIZE (1..MAX) OF NULL }"))["src/test/a.rt"]
        self.assertIn("(field ⟦<SetRef<'a, Null> as Member>⟧.member\n", source)
        self.assertIn("(field ⟦<NonEmptyRef<ListRef<'a, Null>> as Member>⟧.member\n", source)


class AnyOrder(unittest.TestCase):
    """`@any_order`: the items of a SET OF stand in the order in which they came."""

    def test_it_is_of_this_set_alone(self) -> None:
        found = definitions("A ::= SEQUENCE { a SET OF NULL, -- @any_order\n b SET OF NULL }\nB ::= SET OF NULL")
        assert isinstance(found["A"], Struct) and isinstance(found["B"], List)
        lists = [part.type for part in found["A"].fields if isinstance(part.type, Listed)]
        self.assertEqual([one.is_any_order for one in lists], [True, False])
        self.assertFalse(found["B"].is_any_order)

    def test_of_the_items_of_a_list(self) -> None:
        source = written(module_of("A ::= SEQUENCE { a SEQUENCE OF SET OF NULL -- @any_order\n }"))["src/test/a.rt"]
        self.assertIn("Fields1<ListRef<'a, UnorderedSetRef<'a, Null>>>;", source)

    def test_of_an_alternative_and_behind_a_tag(self) -> None:
        body = "A ::= CHOICE { a SET OF NULL, -- @any_order\n b NULL }\nB ::= [0] EXPLICIT SET OF NULL -- @any_order"
        files = written(module_of(body))
        self.assertIn("    A(UnorderedSetRef<'a, Null>),\n", files["src/test/a.rt"])
        self.assertIn("    items: UnorderedSetRef<'a, Null>,\n", files["src/test/b_value.rt"])
        self.assertEqual(grammar(body)["b"], "EXPLICIT context 0 b_value")

    def test_the_documentation_says_which_order(self) -> None:
        files = written(module_of("A ::= SET OF NULL\nB ::= SET OF NULL -- @any_order\nC ::= SEQUENCE OF NULL"))
        said = [" ".join(files[f"src/test/{name}.rt"].replace("///", "").split()) for name in "abc"]
        self.assertIn("The items stand in the order of their octets (X.690 11.6): others are refused", said[0])
        self.assertIn("The items stand in the order in which they came: BER asks for none.", said[1])
        self.assertNotIn("The items stand", said[2])

    def test_two_instances_that_differ_in_it_are_two_types(self) -> None:
        files = written(module_of("L{T} ::= SET OF T\nA ::= SEQUENCE { a L{NULL}, b L{NULL} -- @any_order\n }"))
        self.assertIn("type Fields<'a> = Fields2<AA<'a>, AB<'a>>;", files["src/test/a.rt"])
        self.assertIn("    items: SetRef<'a, Null>,\n", files["src/test/aa.rt"])
        self.assertIn("    items: UnorderedSetRef<'a, Null>,\n", files["src/test/ab.rt"])
        found = grammar("L{T} ::= SET OF T\nA ::= SEQUENCE { a L{NULL}, b L{NULL} -- @any_order\n }")
        self.assertEqual((found["aa"], found["ab"]), ("SET_OF NULL", "SET_OF_ANY_ORDER NULL"))


class Named(unittest.TestCase):
    """A list with a name is a struct that holds one."""

    def test_it_has_new_and_items(self) -> None:
        for text, held in (
            ("SEQUENCE OF NULL", "ListRef<'a, Null>"),
            ("SET OF NULL", "SetRef<'a, Null>"),
            ("SET OF NULL -- @any_order", "UnorderedSetRef<'a, Null>"),
        ):
            with self.subTest(text):
                files = written(module_of(f"A ::= {text}"))
                source, name = files["src/test/a.rt"], held.split("<")[0]
                self.assertIn(f"pub struct A<'a> {{\n    items: {held},\n}}", source)
                self.assertIn(f"    pub fn new(items: {held}) -> A<'a>\n", source)
                self.assertIn("        ensures { a.items_of result ≡ items.entry }\n", source)
                self.assertIn(f"    pub fn items(&self) -> &{held}\n", source)
                self.assertIn("        ensures { result.now ≡ a.items_of self.now }\n", source)
                self.assertIn(f"abbrev pub items_of : A → {name} Null\nitems_of v = v.items\n", files["specs/Test/A.antt"])
                self.assertEqual(re.findall(r"^    pub fn (\w+)", source, re.M), ["new", "items"])

    def test_one_that_has_an_item_gives_the_list(self) -> None:
        files = written(module_of("A ::= SEQUENCE SIZE (1..MAX) OF NULL"))
        source = files["src/test/a.rt"]
        self.assertIn("    pub fn new(items: NonEmptyRef<ListRef<'a, Null>>) -> A<'a>\n", source)
        self.assertIn("        ensures { a.items_of result ≡ list_of items.entry }\n", source)
        self.assertIn("    pub fn items(&self) -> &ListRef<'a, Null>\n", source)
        self.assertIn("        self.items.list()\n", source)
        self.assertIn("abbrev pub items_of : A → ListRef Null\nitems_of v = v.items.list\n", files["specs/Test/A.antt"])

    def test_one_of_some_sizes_gives_the_list(self) -> None:
        files = written(module_of("A ::= SET SIZE (2..4) OF NULL"))
        source = files["src/test/a.rt"]
        self.assertIn("    pub fn new(items: Constrained<SetRef<'a, Null>, HasSize<2, 4>>) -> A<'a>\n", source)
        self.assertIn("        ensures { a.items_of result ≡ value_of items.entry }\n", source)
        self.assertIn("    pub fn items(&self) -> &SetRef<'a, Null>\n", source)
        self.assertIn("        &self.items\n", source)
        self.assertIn("abbrev pub items_of : A → SetRef Null\nitems_of v = v.items.value\n", files["specs/Test/A.antt"])

    def test_its_name_is_no_word_of_the_clauses(self) -> None:
        source = written(module_of("ListOf ::= SEQUENCE SIZE (1..MAX) OF NULL"))["src/test/list_of.rt"]
        self.assertIn("ghost use Rattle.der_test.specs.Test.ListOf as list_of_;", source)
        self.assertIn("ensures { list_of_.items_of result ≡ list_of items.entry }", source)

    def test_it_is_copied(self) -> None:
        for item in ("NULL", "BMPString", "SEQUENCE { x BMPString }"):
            with self.subTest(item):
                source = written(module_of(f"A ::= SEQUENCE OF {item}"))["src/test/a.rt"]
                self.assertIn("#[derive(Clone, Copy, Debug, PartialEq, Eq)]\npub struct A<'a> {", source)
                self.assertIn("impl<'a> CopyIsDuplicate for A<'a> {}", source)
                self.assertNotIn("CopyLaws", source)
                self.assertNotIn("DuplicateValue", source)

    def test_it_takes_memory_where_its_items_do(self) -> None:
        for text, takes in (
            ("SEQUENCE OF NULL", "false"),
            ("SET SIZE (1..MAX) OF SEQUENCE OF UTF8String", "false"),
            ("SEQUENCE OF BMPString", "true"),
            ("SET OF BMPString -- @any_order", "true"),
            ("SET SIZE (1..MAX) OF OCTET STRING -- @owned", "true"),
        ):
            with self.subTest(text):
                source = written(module_of(f"A ::= {text}"))["src/test/a.rt"]
                self.assertIn(f"    ghost TAKES_MEMORY = {{ {takes} }};\n\n    const TAKES_MEMORY: bool = {takes};\n", source)
                self.assertEqual("where\n/// memory runs out" in source, takes == "true")

    def test_items_that_have_no_name(self) -> None:
        for item, held in (("SET OF NULL", "SetRef<'a, SetRef<'a, Null>>"), ("[0] NULL", "SetRef<'a, Implicit<Null, 0>>")):
            with self.subTest(item):
                source = written(module_of(f"A ::= SET OF {item}", "IMPLICIT TAGS"))["src/test/a.rt"]
                self.assertIn(f"    items: {held},\n", source)

    def test_a_struct_of_lists_is_copied(self) -> None:
        source = written(module_of("A ::= SEQUENCE { a B, b SET OF NULL }\nB ::= SEQUENCE OF BMPString"))["src/test/a.rt"]
        self.assertIn("#[derive(Clone, Copy, PartialEq, Eq)]\npub struct A<'a> {", source)
        self.assertNotIn("CopyLaws", source)

    def test_beside_a_field_that_owns_memory(self) -> None:
        """Such a struct is copied field by field, and a list in it is its own copy."""
        source = written(module_of("A ::= SEQUENCE { a SET OF NULL, b BMPString }"))["src/test/a.rt"]
        self.assertIn("#[derive(PartialEq, Eq, Drop)]\npub struct A<'a> {", source)
        self.assertIn("impl<'a> CopyLaws for A<'a> {", source)
        self.assertIn("(same_copies ⟦<SetRef<'a, Null> as FormValue>⟧.value.contents", source)
        self.assertIn("(λ v. (⟦<SetRef<'a, Null> as Member>⟧.member.equal v v tt).1 refl)", source)


class Together(unittest.TestCase):
    """A module may have lists of types of another, and types of another that are lists."""

    def test_the_types(self) -> None:
        one = module_of("IMPORTS B FROM Two;\nA ::= SEQUENCE OF B", name="One")
        files = written(one, module_of("B ::= SEQUENCE OF NULL", name="Two"))
        self.assertIn("    items: ListRef<'a, B<'a>>,\n", files["src/test/a.rt"])
        self.assertIn("    items: ListRef<'a, Null>,\n", files["src/module1/b.rt"])

    def test_an_instance_is_of_the_module_that_names_it(self) -> None:
        one = module_of("IMPORTS L FROM Two;\nA ::= L{NULL}", name="One")
        files = written(one, module_of("L{T} ::= SEQUENCE OF T\nB ::= L{BOOLEAN}", name="Two"))
        self.assertIn("    items: ListRef<'a, Null>,\n", files["src/test/a.rt"])
        self.assertIn("    items: ListRef<'a, bool>,\n", files["src/module1/b.rt"])


if __name__ == "__main__":
    unittest.main()
