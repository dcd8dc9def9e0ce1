"""What is written: its pieces, and that all of it is laid out by the kit's formatter."""

from __future__ import annotations

import io
import re
import tempfile
import unittest
from contextlib import redirect_stderr, redirect_stdout
from pathlib import Path

from ..command import main
from ..errors import AsnError
from ..layout import LayoutError, formatter
from ..model import ResolvedModule
from ..writer.aliases import contents
from ..writer.alternatives import at, depth
from ..writer.crate import files_of_crate
from ..writer.fields import places
from ..writer.grammar import GrammarPage
from ..writer.holders import hold_tagged
from ..writer.plan import Plan, Target
from ..writer.splitting import split_choices
from .helpers import module_of, resolved, standard


def written(*texts: str) -> dict[str, str]:
    """The files of modules, before they are laid out."""
    found, _ = resolved(*texts)
    split_choices(found)
    hold_tagged(found)
    targets = {module.name: Target("der_test", f"module{i}" if i else "test") for i, module in enumerate(found)}
    return files_of_crate(Plan(targets), found)


def grammar(body: str, tags: str = "") -> dict[str, str]:
    """The grammars of a module's page, by the names of types, each in one line."""
    found: list[ResolvedModule] = resolved(module_of(body, tags))[0]
    text = GrammarPage(Plan({found[0].name: Target("der_test", "test")}), found[0]).text()
    terms = re.findall(r"^(\w+) =\s+((?:.|\n )+)", text, re.M)
    return {name: " ".join(term.split()) for name, term in terms}


class Holders(unittest.TestCase):
    """A value after an explicit tag that is not copied is held by a struct of its own, which no user meets."""

    BODY = """S ::= SEQUENCE { a [3] EXPLICIT I OPTIONAL, b [4] EXPLICIT BOOLEAN, c [5] EXPLICIT I }
        T ::= SEQUENCE { a [3] EXPLICIT I }
        I ::= """

    def setUp(self) -> None:
        self.files = written(module_of(f"{self.BODY} SEQUENCE {{ x BMPString }}"))

    def test_the_text_of_a_type_after_a_tag_stands_at_the_type(self) -> None:
        text = written(module_of("T ::= [APPLICATION 1] SEQUENCE { a NULL }"))["src/test/t_value.rt"]
        self.assertIn("/// T ::= [APPLICATION 1] SEQUENCE { a NULL }", text)

    def test_there_is_one_for_a_tag_and_a_type(self) -> None:
        self.assertIn("Fields3<Option<Explicit3I>, Explicit<bool, 4>, Explicit5I>", self.files["src/test/s.rt"])
        self.assertIn("Fields1<Explicit3I>", self.files["src/test/t.rt"])
        held = [name for name in self.files if "explicit" in name]
        self.assertEqual(held, ["src/test/explicit3_i.rt", "src/test/explicit5_i.rt"])

    def test_it_has_the_tag_and_the_field_alone(self) -> None:
        text = self.files["src/test/explicit3_i.rt"]
        self.assertIn("type Marker = ExplicitTag<3>;", text)
        self.assertIn("type Fields = Fields1<I>;", text)
        self.assertIn("    pub(crate) fields: Fields,\n", text)
        self.assertIn("impl DuplicateValue for Explicit3I {", text)
        self.assertNotIn("pub fn", text)

    def test_it_has_no_name_outside(self) -> None:
        root = self.files["src/test.rt"]
        self.assertIn("mod explicit3_i;", root)
        for name in ("src/test/laws.rt", "specs/Test.antt", "specs/Test/Grammar.antt"):
            self.assertNotIn("Explicit3", self.files[name])
        self.assertNotIn("Explicit3", root)

    def test_what_users_see_stands_after_the_tag(self) -> None:
        text = self.files["src/test/s.rt"]
        self.assertIn("pub fn new(a: Option<I>, b: bool, c: I) -> S", text)
        self.assertIn("pub fn a(&self) -> Option<&I>", text)
        self.assertIn("pub fn c(&self) -> &I", text)
        self.assertIn("v.fields.list.rest.rest.first.fields.list.first", self.files["specs/Test/S.antt"])

    def test_what_is_copied_has_none(self) -> None:
        """A list is copied, whatever its items are."""
        for text in ("SEQUENCE OF BMPString", "SEQUENCE { x OCTET STRING }"):
            with self.subTest(text):
                files = written(module_of(self.BODY + text))
                listed = "Fields3<Option<Explicit<I<'a>, 3>>, Explicit<bool, 4>, Explicit<I<'a>, 5>>"
                self.assertIn(listed, files["src/test/s.rt"])
                self.assertIn("pub fn new(a: Option<&I<'a>>, b: bool, c: &I<'a>) -> S<'a>", files["src/test/s.rt"])
                self.assertIn("v.fields.list.rest.rest.first.fields.first", files["specs/Test/S.antt"])
                self.assertEqual([name for name in files if "explicit" in name], [])

    def test_what_owns_memory_has_one(self) -> None:
        for text, held in (
            ("SEQUENCE { x BMPString, y SET OF NULL }", "Explicit3I<'a>"),
            ("SEQUENCE { x OCTET STRING -- @owned\n }", "Explicit3I"),
            ("CHOICE { x UTF8String, y BMPString }", "Explicit3I<'a>"),
            ("BMPString", "Explicit3I"),
        ):
            with self.subTest(text):
                files = written(module_of(self.BODY + text))
                self.assertIn(f"Fields1<{held}>;", files["src/test/t.rt"])

    def test_what_has_no_name_has_none(self) -> None:
        files = written(module_of("S ::= SEQUENCE { a [3] EXPLICIT BMPString }"))
        self.assertIn("Fields1<Explicit<BmpString, 3>>;", files["src/test/s.rt"])


class Lists(unittest.TestCase):
    """A list that is written out in a long SEQUENCE is a struct of its own if its items are structs or enums."""

    def fields(self, count: int, last: str) -> str:
        body = ", ".join(f"n{number} [{number}] INTEGER (0..255)" for number in range(1, count))
        return f"S ::= SEQUENCE {{ {body}, last [{count}] {last} }} I ::= SEQUENCE {{ x NULL }} C ::= CHOICE {{ x NULL, y BOOLEAN }}"

    def test_a_long_sequence_names_its_lists(self) -> None:
        for last in ("SEQUENCE OF I", "SET OF I", "SEQUENCE OF C", "SEQUENCE SIZE (1..MAX) OF [0] I", "SEQUENCE OF SEQUENCE { x NULL }"):
            with self.subTest(last=last):
                self.assertIn("src/test/s_last.rt", written(module_of(self.fields(9, last))))

    def test_a_short_one_does_not(self) -> None:
        self.assertNotIn("src/test/s_last.rt", written(module_of(self.fields(8, "SEQUENCE OF I"))))

    def test_a_list_of_values_of_the_library_has_no_name(self) -> None:
        for last in ("SEQUENCE OF INTEGER (0..255)", "SET OF NULL", "SEQUENCE OF SEQUENCE OF NULL"):
            with self.subTest(last=last):
                self.assertNotIn("src/test/s_last.rt", written(module_of(self.fields(9, last))))

    def test_what_is_written_within_does_not_name_its_own(self) -> None:
        files = written(module_of(self.fields(9, "SEQUENCE OF SEQUENCE { x SEQUENCE OF I }")))
        self.assertEqual([name for name in files if "last" in name and name.startswith("src/")],
                         ["src/test/s_last.rt", "src/test/s_last_item.rt"])


class OctetsProofs(unittest.TestCase):
    """The law on the octets of a SEQUENCE has a proof if seven components or more are OPTIONAL."""

    PROOF = "proofs/test/s/octets_of_s/Answers.antt"

    def proof(self, count: int, last: str = "NULL") -> str | None:
        body = ", ".join(f"n{number} [{number}] INTEGER (0..255) OPTIONAL" for number in range(1, count))
        return written(module_of(f"S ::= SEQUENCE {{ {body}, last {last} OPTIONAL, all BOOLEAN }}")).get(self.PROOF)

    def test_few(self) -> None:
        self.assertIsNone(self.proof(6))

    def test_many(self) -> None:
        lines = (self.proof(7) or "").split("returns c v =\n")[1].splitlines()
        self.assertEqual(lines[0], "    before _ _ _ _ (present _ _ (λ x. x.fields.first) (λ x. refl) v.fields.list.first) (")
        self.assertEqual(lines[6:], ["    before _ _ _ _ (untagged _ v.fields.list.rest.rest.rest.rest.rest.rest.first) (",
                                     "    before _ _ _ _ refl (", "    refl))))))))"])

    def test_the_way_to_a_value_after_an_implicit_tag(self) -> None:
        self.assertIn("(present _ _ (λ x. x.value) (λ x. refl) v.fields", self.proof(7, "[9] IMPLICIT NULL") or "")

    def test_a_set_has_none(self) -> None:
        body = ", ".join(f"n{number} [{number}] NULL OPTIONAL" for number in range(1, 9))
        self.assertNotIn(self.PROOF, written(module_of(f"S ::= SET {{ {body} }}")))


class Pieces(unittest.TestCase):
    def test_places_of_fields(self) -> None:
        self.assertEqual(places(2), [".list.first", ".list.rest.first"])
        self.assertEqual(places(9)[8], ".list" + ".rest" * 8 + ".list.first")
        self.assertEqual(len(set(places(20))), 20)

    def test_places_of_alternatives(self) -> None:
        def wrap(side: str, inner: str) -> str:
            return f"{side}({inner})"

        found = [at(i, 3, wrap, "v") for i in range(3)]
        self.assertEqual(found, ["First(First(v))", "First(Other(v))", "Other(v)"])
        self.assertEqual([depth(i, 3) for i in range(3)], [2, 2, 1])

    def test_contents_octets_of_identifiers(self) -> None:
        self.assertEqual(contents((1, 2, 840, 113549, 1, 9, 16)), [0x2A, 0x86, 0x48, 0x86, 0xF7, 0x0D, 0x01, 0x09, 0x10])
        self.assertEqual(contents((2, 5, 4, 3)), [0x55, 0x04, 0x03])
        self.assertEqual(contents((2, 999, 3)), [0x88, 0x37, 0x03])


class Grammars(unittest.TestCase):
    def test_a_sequence(self) -> None:
        found = grammar("A ::= SEQUENCE { a NULL, b [0] BOOLEAN DEFAULT FALSE, c [1] A-B OPTIONAL }\nA-B ::= SET OF ANY")
        self.assertEqual(found["ab"], "SET_OF ANY")
        self.assertEqual(
            found["a"],
            "SEQUENCE (field NULL "
            "(DEFAULT (tlv (marker_tag context true 0) (tlv tags.Boolean (boolean_contents false))) (EXPLICIT context 0 BOOLEAN) "
            "(OPTIONAL (EXPLICIT context 1 ab) end)))",
        )

    def test_tags_are_those_of_the_text(self) -> None:
        body = "A ::= SEQUENCE { a [0] B, b [APPLICATION 1] NULL, c [2] EXPLICIT NULL }\nB ::= CHOICE { x NULL, y BOOLEAN }"
        self.assertEqual(
            grammar(body, "IMPLICIT TAGS")["a"],
            "SEQUENCE (field (IMPLICIT context 0 b) (field (IMPLICIT application 1 NULL) (field (EXPLICIT context 2 NULL) end)))",
        )

    def test_automatic_tags(self) -> None:
        found = grammar("A ::= SEQUENCE { a NULL, ..., b NULL OPTIONAL, ..., c NULL }", "AUTOMATIC TAGS")
        self.assertEqual(
            found["a"],
            "SEQUENCE (field (IMPLICIT context 0 NULL) "
            "(OPTIONAL (IMPLICIT context 2 NULL) (field (IMPLICIT context 1 NULL) end)))",
        )

    def test_a_choice_is_a_tree(self) -> None:
        found = grammar("A ::= CHOICE { a NULL, b BOOLEAN, c UTF8String }")
        self.assertEqual(found["a"], "CHOICE (CHOICE NULL BOOLEAN) UTF8_STRING")

    def test_a_set_stands_in_the_order_of_tags(self) -> None:
        found = grammar("A ::= SET { a [1] NULL, b BOOLEAN }")
        self.assertEqual(found["a"], "SET (field BOOLEAN (field (EXPLICIT context 1 NULL) end))")

    def test_types_of_the_library(self) -> None:
        found = grammar("A ::= INTEGER (0..65535)\nB ::= OBJECT IDENTIFIER -- @max(63)\nC ::= IA5String\nD ::= INTEGER (-1..0)")
        self.assertEqual(found["INTEGER_u16"], "one tags.Integer (parse_unsigned 2)")
        self.assertEqual(found["INTEGER_i8"], "one tags.Integer (parse_signed 1)")
        self.assertEqual(found["OBJECT_IDENTIFIER_63"], "one tags.ObjectIdentifier (parse_identifier 63)")
        self.assertEqual(found["IA5_STRING"], "one tags.Ia5String (parse_string 22)")


class Shapes(unittest.TestCase):
    """What stands in a field for each shape of type."""

    def field_of(self, body: str, tags: str = "IMPLICIT TAGS") -> str:
        """The first field of the type A, in its list."""
        text = written(module_of(body, tags))["src/test/a.rt"]
        found = re.search(r"^type Fields(?:<'a>)? = Fields1<(.*)>;$", text, re.M)
        assert found is not None
        return found[1]

    def test_lists_of_one_item_or_more(self) -> None:
        for text, held in (
            ("SEQUENCE SIZE (1..MAX) OF NULL", "NonEmptyRef<ListRef<'a, Null>>"),
            ("SET SIZE (1..MAX) OF ANY", "NonEmptyRef<SetRef<'a, AnyRef<'a>>>"),
        ):
            self.assertEqual(self.field_of(f"A ::= SEQUENCE {{ a {text} }}"), held)
        found = grammar("A ::= SEQUENCE SIZE (1..MAX) OF NULL\nB ::= SET SIZE (1..MAX) OF NULL")
        self.assertEqual((found["a"], found["b"]), ("NOT_EMPTY (SEQUENCE_OF NULL)", "NOT_EMPTY (SET_OF NULL)"))

    def test_names_of_numbers(self) -> None:
        body = "A ::= SEQUENCE { a B }\nB ::= ENUMERATED { x(0), y(-3) }"
        self.assertEqual(self.field_of(body), "Enumerated<B>")
        found = written(module_of(body))
        self.assertIn("    pub fn a(&self) -> B\n", found["src/test/a.rt"])
        self.assertIn("            -3 => Some(B::Y),\n", found["src/test/b.rt"])
        self.assertIn("number_of_b Y = negsuc 2", found["specs/Test/B.antt"])
        self.assertEqual(grammar(body)["b"], "NAMED number_of_b all_of_b tags.Enumerated")

    def test_names_of_bits(self) -> None:
        body = "A ::= SEQUENCE { a B }\nB ::= BIT STRING { x(0), y(2) }"
        aliases = written(module_of(body))["src/test/aliases.rt"]
        self.assertIn("pub type B<'a> = NamedBitsRef<'a>;", aliases)
        self.assertIn("pub const B_Y: usize = 2;", aliases)

    def test_a_type_that_a_crate_has(self) -> None:
        body = "A ::= SEQUENCE { a B }\nB ::= SEQUENCE { x NULL } -- @rust(der_b::files::own::Bee)"
        found = written(module_of(body))
        self.assertNotIn("src/test/b.rt", found)
        self.assertIn("use der_b::Bee;", found["src/test/a.rt"])
        self.assertIn("(field ⟦<Bee as Member>⟧.member\n", found["src/test/a.rt"])
        self.assertIn("use Rattle.der_b.specs.declared.files.own.Bee.{Bee}", found["specs/Test/A.antt"])
        self.assertIn("pub use der_b::Bee;", found["src/test/aliases.rt"])
        self.assertIn("pub fn grammar_of_bee()", found["src/test/aliases.rt"])
        self.assertEqual(grammar(body)["bee"], "SEQUENCE (field NULL end)")

    def test_no_components(self) -> None:
        """SEQUENCE { } and SET { } have one value, 30 00 and 31 00 (X.680 25.1, 27.1)."""
        for text, tag in (("SEQUENCE { }", "Sequence"), ("SET { }", "Set"), ("SEQUENCE { ... }", "Sequence")):
            with self.subTest(text):
                found = written(module_of(f"A ::= {text}"))
                self.assertIn("type Fields = End;", found["src/test/a.rt"])
                self.assertIn("pub fn new() -> A {", found["src/test/a.rt"])
                self.assertIn("joined (\n        [])", found["src/test/a.rt"])
                self.assertNotIn("specs/Test/A.antt", found)
                self.assertEqual(grammar(f"A ::= {text}")["a"], f"{tag.upper()} end")
        self.assertIn("Implicit<AB, 0>", written(module_of("A ::= SEQUENCE { b [0] SEQUENCE { } }", "IMPLICIT TAGS"))["src/test/a.rt"])

    def test_defaults_after_tags(self) -> None:
        body = "A ::= SEQUENCE { a [0] BOOLEAN DEFAULT FALSE }"
        self.assertEqual(self.field_of(body), "WithDefault<Implicit<bool, 0>, DefaultFalse>")
        self.assertEqual(self.field_of(body, ""), "WithDefault<Explicit<bool, 0>, DefaultFalse>")

    def test_a_type_stands_with_its_laws(self) -> None:
        found = written(module_of("A ::= SEQUENCE { a NULL }\nB ::= CHOICE { x NULL, y BOOLEAN }"))
        self.assertIn("pub fn grammar_of_a()", found["src/test/a.rt"])
        self.assertIn("pub fn octets_of_a()", found["src/test/a.rt"])
        self.assertIn("pub use crate::test::b::grammar_of_b;", found["src/test/laws.rt"])


    def test_a_struct_is_shown_by_its_names(self) -> None:
        found = written(module_of("A ::= SEQUENCE { a NULL, b INTEGER OPTIONAL, c OCTET STRING }"))["src/test/a.rt"]
        self.assertNotIn("Debug,", found)
        self.assertIn('.field("a", &self.a())\n            .field("b", &self.b())\n            .field("c", self.c())', found)

    def test_the_proof_of_an_order(self) -> None:
        found = written(module_of("A ::= CHOICE { x B, y NULL, z [0] B }\nB ::= SEQUENCE { x NULL }\nC ::= CHOICE { x NULL, y BOOLEAN }"))
        proofs = [path for path in found if path.startswith("proofs/")]
        self.assertEqual(proofs, ["proofs/test/a/ADerOrd/der_cmp/Answers.antt"])
        self.assertIn("pub returns-in-X-X : goal.returns-in-X-X", found[proofs[0]])
        self.assertNotIn("in-Z-Z", found[proofs[0]])
        self.assertIn("_ => cmp_headers(self, other),", found["src/test/a.rt"])


    def test_a_choice_of_many_structs_is_read_as_its_halves(self) -> None:
        alternatives = ", ".join(f"a{i} [{i}] B" for i in range(5))
        found = written(module_of(f"A ::= CHOICE {{ {alternatives} }}\nB ::= SEQUENCE {{ x NULL }}"))
        whole, page = found["src/test/a.rt"], found["specs/Test/A.antt"]
        self.assertIn("type Tree = OneOf<AFirst, AOther>;", whole)
        self.assertIn("Ok(OneOf::First(AFirst::A2(value))) => Ok(A::A2(value)),", whole)
        self.assertIn("Ok(OneOf::Other(AOther::A3(value))) => Ok(A::A3(value)),", whole)
        self.assertIn("tree_of (of.A4 v) = Other (a_other.A4 v)", page)
        self.assertIn("    A1(", found["src/test/a_first.rt"])
        self.assertNotIn("grammar_of", found["src/test/a_first.rt"])
        self.assertNotIn("a_first", found["specs/Test/Grammar.antt"])

    def test_a_choice_of_many_others_is_read_at_once(self) -> None:
        for count in (9, 10):
            alternatives = ", ".join(f"a{i} [{i}] NULL" for i in range(count))
            self.assertNotIn("src/test/a_first.rt", written(module_of(f"A ::= CHOICE {{ {alternatives} }}")))

    def test_a_choice_of_more_others_than_are_read_at_once_is_read_in_halves(self) -> None:
        for count, halves in ((11, {"a_first", "a_other"}), (21, {"a_first", "a_first_first", "a_first_other", "a_other"})):
            alternatives = ", ".join(f"a{i} [{i}] NULL" for i in range(count))
            found = written(module_of(f"A ::= CHOICE {{ {alternatives} }}"))
            self.assertEqual({name for name in found if "src/test/a_" in name}, {f"src/test/{name}.rt" for name in halves})
            self.assertIn("type Tree = OneOf<AFirst, AOther>;", found["src/test/a.rt"])


class Files(unittest.TestCase):
    def test_a_name_that_the_files_use_is_refused(self) -> None:
        with self.assertRaises(AsnError) as caught:
            written(module_of("Mark ::= SEQUENCE { a NULL } -- @name(Tag)"))
        self.assertIn("'Tag' is the name of something that the written file uses", caught.exception.problem)
        self.assertIn("src/test/my_tag.rt", written(module_of("Tag ::= SEQUENCE { a NULL } -- @name(MyTag)")))

    def test_each_file_says_who_made_it(self) -> None:
        for path, text in written(module_of("A ::= SEQUENCE { a NULL }\nB ::= NULL")).items():
            self.assertIn("Made by tools/asn1", "\n".join(text.split("\n")[:3]), path)

    def test_the_command(self) -> None:
        """It writes, compares, and removes what it would write no more."""
        try:
            formatter()
        except LayoutError as error:
            self.skipTest(str(error))
        with tempfile.TemporaryDirectory() as folder, redirect_stdout(io.StringIO()), redirect_stderr(io.StringIO()):
            top = Path(folder)
            (top / "asn1").mkdir()
            (top / "asn1" / "snmp.asn1").write_text(standard("SNMPv2-PDU"), encoding="utf-8")
            listed = str(top / "asn1" / "modules.txt")
            Path(listed).write_text("# what is written\nder_test: snmp=snmp.asn1\n", encoding="utf-8")
            self.assertEqual([main([listed]), main([listed, "--check"])], [0, 0])
            source = top / "crates" / "der_test" / "src"
            changed = source / "snmp" / "pdu.rt"
            changed.write_text(changed.read_text(encoding="utf-8").replace("request_id", "reply_id"), encoding="utf-8")
            self.assertEqual(main([listed, "--check"]), 1)
            (source / "snmp" / "old.rt").write_text("//! Old.\n//!\n//! Made by tools/asn1.\n", encoding="utf-8")
            (source / "lib.rt").write_text("//! By hand.\n", encoding="utf-8")
            self.assertEqual([main([listed]), main([listed, "--check"])], [0, 0])
            self.assertFalse((source / "snmp" / "old.rt").exists())
            self.assertEqual((source / "lib.rt").read_text(encoding="utf-8"), "//! By hand.\n")

    def test_a_list_that_is_not_understood(self) -> None:
        with tempfile.TemporaryDirectory() as folder, redirect_stderr(io.StringIO()) as said:
            listed = Path(folder) / "modules.txt"
            listed.write_text("der_test = snmp.asn1\n", encoding="utf-8")
            self.assertEqual(main([str(listed)]), 1)
            self.assertIn("modules.txt:1:1: error: this line names no crate and its modules", said.getvalue())
            (Path(folder) / "test.asn1").write_text(module_of("A ::= NULL"), encoding="utf-8")
            listed.write_text("der_test: test.asn1\n", encoding="utf-8")
            self.assertEqual(main([str(listed)]), 1)
            self.assertIn("the module 'Test' has no name in the crate 'der_test'", said.getvalue())
            listed.write_text("der_test: snmp=snmp.asn1\n", encoding="utf-8")
            self.assertEqual(main([str(listed)]), 1)
            self.assertIn("snmp.asn1: No such file or directory", said.getvalue())
