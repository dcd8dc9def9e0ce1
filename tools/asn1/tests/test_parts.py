"""The table of parts: the components of each type, with the octets that tell them."""

from __future__ import annotations

import io
import re
import tempfile
import unittest
from contextlib import redirect_stderr, redirect_stdout
from pathlib import Path

from ..command import main
from ..crates import entries_of, parts_of as crates_of, places_of
from ..errors import AsnError
from ..layout import LayoutError, formatter
from ..writer.parts import components, is_list, parts_of, variants, write_parts
from ..writer.plan import Plan, Target
from .helpers import module_of, resolved, standard
from .standards import WRITTEN

Shown = list[tuple[str, str, str]]


def parts(*texts: str, modules: list[str] | None = None) -> dict[str, Shown]:
    """The parts of modules, by their names: each component's name, octet and part."""
    found, _ = resolved(*texts)
    names = modules or [f"module{i}" for i in range(len(found))]
    plan = Plan({module.name: Target("der_test", name) for module, name in zip(found, names)})
    named = variants(plan, parts_of(found))
    return {
        name: [
            (one.name, "" if one.octet is None else f"{one.octet:02x}", named[one.part] if one.part else "Value")
            for one in components(part)
        ]
        for part, name in named.items()
    }


def written(*texts: str) -> dict[str, str]:
    """The files of the parts of modules, before they are laid out."""
    found, _ = resolved(*texts)
    plan = Plan({module.name: Target("der_test", f"module{i}") for i, module in enumerate(found)})
    return write_parts(plan, found)


class Components(unittest.TestCase):
    def test_of_a_sequence(self) -> None:
        body = "A ::= SEQUENCE { a B, b-c [1] NULL OPTIONAL, d BOOLEAN DEFAULT FALSE }\nB ::= SEQUENCE { x ANY }"
        found = parts(module_of(body, "IMPLICIT TAGS"))
        self.assertEqual(found["A"], [("a", "", "B"), ("b-c", "81", "Value"), ("d", "01", "Value")])
        self.assertEqual(found["B"], [("x", "", "Value")])

    def test_octets(self) -> None:
        body = (
            "A ::= SEQUENCE { a [APPLICATION 30] B OPTIONAL, b [PRIVATE 31] NULL OPTIONAL, c [2] EXPLICIT NULL OPTIONAL,"
            " d [3] C OPTIONAL, -- @unread\n e SET OF NULL OPTIONAL, f ENUMERATED { x(0) } OPTIONAL }\n"
            "B ::= [4] SEQUENCE { x NULL }\nC ::= SEQUENCE { x NULL }"
        )
        found = [octet for _, octet, _ in parts(module_of(body, "IMPLICIT TAGS"))["A"]]
        self.assertEqual(found, ["7e", "df", "a2", "a3", "31", "0a"])

    def test_an_open_type_has_no_octet(self) -> None:
        found = parts(module_of("A ::= SEQUENCE { a NULL, b ANY OPTIONAL }"))
        self.assertEqual(found["A"], [("a", "", "Value"), ("b", "", "Value")])

    def test_a_set_has_all_octets_in_their_order(self) -> None:
        found = parts(module_of("A ::= SET { a [1] EXPLICIT NULL, b BOOLEAN }"))
        self.assertEqual(found["A"], [("b", "01", "Value"), ("a", "a1", "Value")])

    def test_a_choice_stands_once_for_each_alternative(self) -> None:
        body = "A ::= SEQUENCE { a B, b SEQUENCE OF B, c [0] B }\nB ::= CHOICE { x C, y D }\n"
        body += "C ::= CHOICE { x NULL, y BOOLEAN }\nD ::= SEQUENCE { x NULL }"
        found = parts(module_of(body, "IMPLICIT TAGS"))
        self.assertEqual(found["A"][:3], [("a", "05", "Value"), ("a", "01", "Value"), ("a", "30", "D")])
        self.assertEqual(found["A"][3:], [("b", "", "SequenceOfB"), ("c", "", "ExplicitB")])
        self.assertEqual(found["SequenceOfB"], [("", "05", "Value"), ("", "01", "Value"), ("", "30", "D")])
        self.assertEqual(found["ExplicitB"], found["SequenceOfB"])
        self.assertNotIn("B", found)

    def test_a_choice_of_values_has_no_parts(self) -> None:
        body = "A ::= SEQUENCE { a [0] B, b SET OF B }\nB ::= CHOICE { x NULL, y BOOLEAN }"
        self.assertEqual(parts(module_of(body)), {"A": [("a", "", "Value"), ("b", "", "Value")]})

    def test_lists(self) -> None:
        body = "A ::= SEQUENCE { a SEQUENCE OF NULL, b SET OF B, c C }\nB ::= SEQUENCE { x NULL }\nC ::= SEQUENCE OF NULL"
        found = parts(module_of(body))
        self.assertEqual(found["A"], [("a", "", "Value"), ("b", "", "SetOfB"), ("c", "", "C")])
        self.assertEqual([found["SetOfB"], found["C"]], [[("", "", "B")], [("", "", "Value")]])
        self.assertEqual([is_list(part) for part in parts_of(resolved(module_of(body))[0])], [False, True, False, True])

    def test_explicit_tags(self) -> None:
        body = "A ::= SEQUENCE { a [0] B, b [1] SEQUENCE OF B, c [2] [3] B, d [4] NULL }\nB ::= SEQUENCE { x NULL }"
        found = parts(module_of(body))
        inner = [part for _, _, part in found["A"]]
        self.assertEqual(inner, ["ExplicitB", "ExplicitSequenceOfB", "ExplicitExplicitB", "Value"])
        self.assertEqual(found["ExplicitB"], [("", "", "B")])
        self.assertEqual(found["ExplicitExplicitB"], [("", "", "ExplicitB")])

    def test_a_tag_before_an_assignment(self) -> None:
        found = parts(module_of("A ::= [APPLICATION 1] SEQUENCE { a NULL }"))
        self.assertEqual(found, {"ExplicitAValue": [("", "", "AValue")], "AValue": [("a", "", "Value")]})

    def test_what_is_not_read(self) -> None:
        body = "A ::= SEQUENCE { a B, b B -- @unread\n }\nB ::= SEQUENCE { x NULL }"
        self.assertEqual(parts(module_of(body))["A"], [("a", "", "B"), ("b", "", "Value")])

    def test_a_type_that_is_not_written_has_its_text(self) -> None:
        body = "A ::= SEQUENCE { a B }\nB ::= SEQUENCE { x NULL } -- @rust(der_b::own::Bee)"
        found = parts(module_of(body))
        self.assertEqual(found["A"], [("a", "", "Bee")])
        self.assertEqual(found["Bee"], [("x", "", "Value")])


class Names(unittest.TestCase):
    def test_the_modules_name_stands_before_one_of_two_types(self) -> None:
        first = module_of("A ::= SEQUENCE { a NULL }\nC ::= SEQUENCE { a [0] A }", name="First")
        second = module_of("A ::= SEQUENCE { b NULL }", name="Second")
        found = parts(first, second, modules=["one", "two_more"])
        self.assertEqual(list(found), ["OneA", "C", "ExplicitOneA", "TwoMoreA"])

    def test_names_of_the_file_itself(self) -> None:
        names = ["Component", "Part", "Value"]
        body = "\n".join(f"{name} ::= SEQUENCE {{ a NULL }}" for name in names)
        self.assertEqual(list(parts(module_of(body))), [f"Module0{name}" for name in names])

    def test_two_parts_with_one_name_are_refused(self) -> None:
        body = "A ::= SEQUENCE { a [0] B }\nB ::= SEQUENCE { x NULL }\nExplicitB ::= SEQUENCE { x NULL }"
        with self.assertRaises(AsnError) as caught:
            parts(module_of(body))
        self.assertIn("'ExplicitB' is the name of two parts", caught.exception.problem)

    def test_a_type_of_another_crate_is_written_once(self) -> None:
        first = module_of("IMPORTS B FROM Other;\nA ::= SEQUENCE { a B }", name="First")
        second = module_of("IMPORTS B FROM Other;\nC ::= SEQUENCE { a SEQUENCE OF B }", name="Second")
        other = module_of("B ::= SEQUENCE { x NULL }", name="Other")
        found, _ = resolved(first, second, other)
        plan = Plan({name: Target(f"der_{name.lower()}", name.lower()) for name in ("First", "Second", "Other")})
        self.assertEqual(list(variants(plan, parts_of(found[:2])).values()), ["A", "B", "C", "SequenceOfB"])

    def test_types_of_a_crate_that_is_not_named_are_those_that_are_reached(self) -> None:
        own = module_of("IMPORTS B FROM Other;\nA ::= SEQUENCE { a B }", name="Own")
        other = module_of("B ::= SEQUENCE { x C }\nC ::= SEQUENCE { x NULL }\nD ::= SEQUENCE { x NULL }", name="Other")
        found, _ = resolved(own, other)
        plan = Plan({"Own": Target("der_own", "own"), "Other": Target("der_other", "other")})
        self.assertEqual(list(variants(plan, parts_of(found[:1])).values()), ["A", "B", "C"])


class Shapes(unittest.TestCase):
    """The parts of `asn1/shapes.asn1`, which has types of each shape."""

    def setUp(self) -> None:
        text = (WRITTEN / "shapes.asn1").read_text(encoding="utf-8")
        self.parts = parts(text)
        listed = re.search(r"matches!\(self, (.*)\)", written(text)["src/parts.rt"])
        self.listed = listed.group(1).replace(" |", ",") + "," if listed else ""

    def test_a_component_has_a_name(self) -> None:
        found = self.parts["Subtree"]
        self.assertEqual(found[0], ("base", "", "Value"))
        self.assertEqual(found[2], ("maximum", "81", "Value"))
        self.assertEqual(found[4], ("statuses", "a3", "Value"))
        self.assertEqual(len(found), 5)

    def test_a_component_of_a_set_has_its_octet(self) -> None:
        self.assertEqual(self.parts["Mixed"][0], ("first", "01", "Value"))
        self.assertEqual(self.parts["Mixed"][2], ("third", "81", "Value"))

    def test_an_item_has_no_name(self) -> None:
        self.assertEqual(self.parts["Numbers"][0], ("", "", "Value"))
        self.assertEqual(self.parts["Ordered"][0], ("", "", "Pair"))
        self.assertEqual(self.parts["SequenceOfNumbers"][0], ("", "", "Numbers"))
        # an item that is a CHOICE, once for each alternative
        self.assertEqual(self.parts["Unordered"][2], ("", "82", "Value"))
        self.assertEqual(len(self.parts["Unordered"]), 3)

    def test_a_component_is_a_list(self) -> None:
        found = self.parts["Lists"]
        self.assertEqual(found[0], ("numbers", "", "Numbers"))
        self.assertEqual(found[1], ("some", "", "SequenceOfNumbers"))
        self.assertEqual(found[2], ("ordered", "a0", "ExplicitOrdered"))
        self.assertEqual(found[3], ("unordered", "a1", "Unordered"))
        self.assertEqual(self.parts["ExplicitOrdered"], [("", "", "Ordered")])

    def test_lists_are_told_from_types(self) -> None:
        for name in ("Numbers", "Ordered", "Unordered", "SequenceOfNumbers"):
            self.assertIn(f"Part::{name},", self.listed)
        for name in ("Subtree", "Lists", "ExplicitOrdered", "Value"):
            self.assertNotIn(f"Part::{name},", self.listed)


class Files(unittest.TestCase):
    def test_the_files(self) -> None:
        first = module_of("A ::= SEQUENCE { a SEQUENCE OF B OPTIONAL }\nB ::= SEQUENCE { x NULL }", name="First")
        files = written(first, module_of("C ::= SEQUENCE { x NULL }", name="Second"))
        self.assertEqual(list(files), ["src/parts.rt", "src/parts/module0.rt", "src/parts/module1.rt"])
        for text in files.values():
            self.assertIn("//! Made by tools/asn1.", text)
        root, tables = files["src/parts.rt"], files["src/parts/module0.rt"]
        self.assertIn("mod module0;\nmod module1;\n", root)
        self.assertIn("    /// SEQUENCE OF `B`.\n    SequenceOfB,\n", root)
        self.assertIn("            Part::A => &module0::A,\n            Part::SequenceOfB => &module0::SEQUENCE_OF_B,\n", root)
        self.assertIn("matches!(self, Part::SequenceOfB)", root)
        self.assertIn('static A: [Component; 1] = [Component("a", Some(0x30), Part::SequenceOfB)];\n', tables)
        self.assertIn('static SEQUENCE_OF_B: [Component; 1] = [Component("", None, Part::B)];\n', tables)

    def test_modules_with_no_parts(self) -> None:
        files = written(module_of("A ::= INTEGER"))
        self.assertEqual(list(files), ["src/parts.rt"])
        root = files["src/parts.rt"]
        self.assertNotIn("mod ", root)
        self.assertIn("        match self {\n            Part::Value => &[],\n        }", root)
        self.assertIn("    pub fn is_list(self) -> bool {\n        false\n", root)

    def test_standards(self) -> None:
        found = parts(standard("PKIX1Explicit88"), standard("PKIX1Implicit88"))
        self.assertEqual(found["Certificate"][0], ("tbsCertificate", "", "TbsCertificate"))
        self.assertEqual(found["TbsCertificate"][-1], ("extensions", "a3", "ExplicitExtensions"))
        self.assertEqual([octet for _, octet, _ in found["Validity"]], ["17", "18", "17", "18"])
        self.assertEqual(parts(standard("SNMPv2-PDU"))["VarBindList"], [("", "", "VarBind")])


class Lists(unittest.TestCase):
    """A line of the list names the crates that a crate has parts of."""

    def test_such_a_line_is_no_entry(self) -> None:
        with tempfile.TemporaryDirectory() as folder:
            path = Path(folder) / "modules.txt"
            path.write_text("der_a: a=a.asn1\nshown parts: der_a der_b\nder_p places: der_a\n", encoding="utf-8")
            self.assertEqual([entry.crate for entry in entries_of(path)], ["der_a"])
            self.assertEqual(crates_of(path), {"shown": ["der_a", "der_b"]})
            self.assertEqual(places_of(path), {"der_p": ["der_a"]})

    def test_the_command(self) -> None:
        """It writes parts where a line asks for them, compares them, and leaves what it has not written."""
        try:
            formatter()
        except LayoutError as error:
            self.skipTest(str(error))
        with tempfile.TemporaryDirectory() as folder, redirect_stdout(io.StringIO()), redirect_stderr(io.StringIO()):
            top = Path(folder)
            (top / "asn1").mkdir()
            (top / "asn1" / "a.asn1").write_text(module_of("A ::= SEQUENCE { a NULL }"), encoding="utf-8")
            listed = top / "asn1" / "modules.txt"
            listed.write_text("der_a: a=a.asn1\n", encoding="utf-8")
            self.assertEqual(main([str(listed)]), 0)
            self.assertFalse(list(top.glob("crates/**/parts*")))
            by_hand = top / "crates" / "shown" / "src" / "lib.rt"
            by_hand.parent.mkdir(parents=True)
            by_hand.write_text("//! By hand.\nmod parts;\n", encoding="utf-8")
            listed.write_text("der_a: a=a.asn1\nshown parts: der_a\n", encoding="utf-8")
            self.assertEqual(main([str(listed), "--check"]), 1)
            self.assertEqual([main([str(listed)]), main([str(listed), "--check"])], [0, 0])
            self.assertEqual(by_hand.read_text(encoding="utf-8"), "//! By hand.\nmod parts;\n")
            table = by_hand.parent / "parts" / "a.rt"
            table.write_text(table.read_text(encoding="utf-8").replace("None", "Some(0x05)"), encoding="utf-8")
            self.assertEqual(main([str(listed), "--check"]), 1)
            (by_hand.parent / "parts" / "old.rt").write_text("//! Old.\n//!\n//! Made by tools/asn1.\n", encoding="utf-8")
            self.assertEqual([main([str(listed)]), main([str(listed), "--check"])], [0, 0])
            self.assertEqual([path.name for path in by_hand.parent.glob("parts/*")], ["a.rt"])
