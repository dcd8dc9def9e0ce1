"""The files of a list: one with several modules (X.680 13.1), and the name that each has in the crate."""

from __future__ import annotations

import tempfile
import unittest
from pathlib import Path

from ..crates import entries_of
from ..errors import AsnError
from ..files import read
from ..parser import parse_modules
from .helpers import module_of, refusal, resolved
from .test_writer import written

FIRST = module_of("A ::= SEQUENCE { a INTEGER }", name="First-Definitions")
SECOND = module_of("IMPORTS A FROM First-Definitions;\nB ::= SEQUENCE { b A, c SEQUENCE OF A }", "AUTOMATIC TAGS", "SECOND")
HANDS_ON = module_of("EXPORTS A; IMPORTS A FROM First-Definitions;", name="Third")


def entries(line: str, **files: str) -> list[tuple[str, str, str]]:
    """The module, the crate and the name there of each module of a list with this line."""
    with tempfile.TemporaryDirectory() as folder:
        for name, text in files.items():
            (Path(folder) / f"{name}.asn1").write_text(text, encoding="utf-8")
        (Path(folder) / "modules.txt").write_text(f"{line}\n", encoding="utf-8")
        modules, found = read(entries_of(Path(folder) / "modules.txt"))
    return [(module.name, entry.crate, entry.module) for module, entry in zip(modules, found)]


class Several(unittest.TestCase):
    """A file with several modules."""

    def test_each_is_parsed_with_its_places(self) -> None:
        found = parse_modules("a.asn1", FIRST + SECOND)
        self.assertEqual([(one.name, str(one.place)) for one in found], [("First-Definitions", "a.asn1:1:1"), ("SECOND", "a.asn1:4:1")])
        self.assertEqual([one.tag_default.value for one in found], ["EXPLICIT", "AUTOMATIC"])

    def test_each_has_its_own_names_and_imports_from_others(self) -> None:
        modules, _ = resolved(SECOND + FIRST + module_of("A ::= NULL", name="Third"))
        self.assertEqual([[one.rust for one in module.definitions] for module in modules], [["B"], ["A"], ["A"]])
        self.assertIn("pub struct B", written(FIRST + SECOND)["src/module1/b.rt"])

    def test_what_follows_a_module_is_another(self) -> None:
        self.assertEqual(str(refusal(FIRST + "more").place), "test.asn1:4:1")
        self.assertIn("'First-Definitions' is given twice", refusal(FIRST + FIRST).problem)


class Names(unittest.TestCase):
    """The module of a crate that each becomes."""

    def test_each_of_several_has_its_own_name(self) -> None:
        found = entries("der_a: both.asn1", both=FIRST + SECOND + HANDS_ON)
        expected = [("First-Definitions", "der_a", "first_definitions"), ("SECOND", "der_a", "second"), ("Third", "der_a", "")]
        self.assertEqual(found, expected)

    def test_the_only_one_has_the_name_before_it(self) -> None:
        self.assertEqual(entries("der_a: x=one.asn1", one=FIRST), [("First-Definitions", "der_a", "x")])

    def test_one_name_for_several_is_an_error(self) -> None:
        with self.assertRaises(AsnError) as caught:
            entries("der_a: x=both.asn1", both=FIRST + SECOND)
        self.assertIn("'both.asn1' has several modules", caught.exception.problem)
        self.assertEqual(caught.exception.place.line, 1)

    def test_two_of_one_name_in_a_crate_are_an_error(self) -> None:
        for line in ("der_a: second=one.asn1 both.asn1", "der_a: both.asn1 second=one.asn1"):
            with self.assertRaises(AsnError) as caught:
                entries(line, one=module_of("A ::= NULL", name="Other"), both=FIRST + SECOND)
            self.assertIn("are both 'second' in the crate 'der_a'", caught.exception.problem)


if __name__ == "__main__":
    unittest.main()
