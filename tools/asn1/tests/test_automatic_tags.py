"""Automatic tags (X.680 25.7 to 25.9, 29.2): they are implicit, of whatever module the components are."""

from __future__ import annotations

import re
import unittest

from ..model import Alias, Field, Resolved, Struct, Tag, Tagged
from .helpers import definitions, module_of, refusal, resolved
from .test_writer import grammar, written

OTHER = """B ::= SEQUENCE { x INTEGER, y CHOICE { u NULL, v BOOLEAN }, z [5] NULL }"""


def tags(type_: Resolved) -> str:
    """The tags before a type, each with what it is."""
    found = []
    while isinstance(type_, Tagged):
        found.append(f"{type_.tag}{'E' if type_.is_explicit else 'I'}")
        type_ = type_.of
    return " ".join(found)


def fields(body: str, default: str, of_other: str) -> dict[str, str]:
    """The tags of the fields of A, whose module has this tag default, and the one that it imports B from that one."""
    mine = module_of(f"IMPORTS B FROM Other;\n{body}", f"{default} TAGS")
    found, _ = resolved(mine, module_of(OTHER, f"{of_other} TAGS", "Other"))
    (struct,) = [one for one in found[0].definitions if one.name == "A"]
    assert isinstance(struct, Struct)
    return {part.name: tags(part.type) for part in struct.fields}


class ComponentsOf(unittest.TestCase):
    BODY = "A ::= SEQUENCE { a NULL, COMPONENTS OF B, b NULL }"

    def test_they_are_implicit_whatever_module_the_components_are_of(self) -> None:
        for of_other in ("EXPLICIT", "IMPLICIT", "AUTOMATIC"):
            with self.subTest(of_other):
                found = fields(self.BODY, "AUTOMATIC", of_other)
                inner = "[5]E" if of_other == "EXPLICIT" else "[5]I"
                expected = {"a": "[0]I", "x": "[1]I", "y": "[2]E", "z": f"[3]I {inner}", "b": "[4]I"}
                self.assertEqual(found, expected)

    def test_the_page_has_the_same(self) -> None:
        mine = module_of(f"IMPORTS B FROM Other;\n{self.BODY}", "AUTOMATIC TAGS")
        page = written(mine, module_of(OTHER, "EXPLICIT TAGS", "Other"))["specs/Test/Grammar.antt"]
        found = re.search(r"^a =\s+((?:.|\n )+)", page, re.M)
        assert found is not None
        self.assertEqual(re.findall(r"(IMPLICIT|EXPLICIT) context (\d)", found[1]), [
            ("IMPLICIT", "0"), ("IMPLICIT", "1"), ("IMPLICIT", "2"), ("IMPLICIT", "3"), ("EXPLICIT", "5"), ("IMPLICIT", "4"),
        ])  # fmt: skip

    def test_no_component_gets_one_where_the_text_has_a_tag(self) -> None:
        found = fields("A ::= SEQUENCE { a [9] NULL, COMPONENTS OF B }", "AUTOMATIC", "EXPLICIT")
        self.assertEqual(found, {"a": "[9]I", "x": "", "y": "", "z": "[5]E"})

    def test_after_a_marker_they_are_refused(self) -> None:
        error = refusal(module_of("A ::= SEQUENCE { a NULL, ..., COMPONENTS OF B }\nB ::= SEQUENCE { x NULL OPTIONAL }"))
        self.assertEqual(error.problem, "COMPONENTS OF stands after '...'")
        self.assertEqual((error.place.line, error.place.column), (2, 31))


class ChoiceOfOne(unittest.TestCase):
    def test_its_alternative_has_one(self) -> None:
        found = definitions("C ::= CHOICE { a NULL }", "AUTOMATIC TAGS")["C"]
        assert isinstance(found, Alias) and isinstance(found.type, Tagged)
        self.assertEqual((found.type.tag, found.type.is_explicit), (Tag(2, 0), False))
        self.assertEqual(grammar("C ::= CHOICE { a NULL }", "AUTOMATIC TAGS")["c"], "CHOICE_OF_ONE (IMPLICIT context 0 NULL)")

    def test_it_has_none_in_another_module(self) -> None:
        self.assertEqual(grammar("C ::= CHOICE { a NULL }", "IMPLICIT TAGS")["c"], "CHOICE_OF_ONE NULL")


if __name__ == "__main__":
    unittest.main()
