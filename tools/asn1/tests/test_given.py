"""Crates that are given: their modules are read, and their files stay as they are; and modules that nobody gave."""

from __future__ import annotations

import io
import tempfile
import unittest
from contextlib import redirect_stderr, redirect_stdout
from pathlib import Path
from unittest import mock

from .. import command
from ..errors import AsnError
from .helpers import module_of, refusal
from .test_lists import entries

OTHER = module_of("B ::= SEQUENCE { x BMPString (SIZE (2..3)) }", name="Other")
MINE = module_of("IMPORTS B FROM Other;\nA ::= SEQUENCE { b B, c BMPString (SIZE (3..4)) }", name="Mine")


def ran(folder: str, lines: str, *options: str, **texts: str) -> tuple[int, str, str]:
    """The status of the command over a list with these lines and modules, and what it says on both ways."""
    top = Path(folder) / "asn1"
    top.mkdir(exist_ok=True)
    (top / "modules.txt").write_text(lines, encoding="utf-8")
    for name, text in texts.items():
        (top / f"{name}.asn1").write_text(text, encoding="utf-8")
    with mock.patch.object(command, "laid_out", lambda found: found):
        with redirect_stdout(io.StringIO()) as said, redirect_stderr(io.StringIO()) as told:
            status = command.main([str(top / "modules.txt"), *options])
    return status, said.getvalue(), told.getvalue()


class Lines(unittest.TestCase):
    """A line with the word 'given' names a crate that is there."""

    def test_its_modules_are_given(self) -> None:
        found = entries("der_a given: a=a.asn1 A.asn1", "der_b: b=b.asn1")
        self.assertEqual([(one.crate, one.module, one.is_given) for one in found], [
            ("der_a", "a", True), ("der_a", "", True), ("der_b", "b", False),
        ])

    def test_a_crate_is_not_given_and_written(self) -> None:
        for lines in (("der_a given: a=a.asn1", "der_a: b=b.asn1"), ("der_a: b=b.asn1", "der_a given: a=a.asn1")):
            with self.subTest(lines), self.assertRaises(AsnError) as caught:
                entries(*lines)
            self.assertEqual(caught.exception.problem, "the crate 'der_a' is given by one line, and written by another")
            self.assertEqual(caught.exception.place.line, 2)


class Files(unittest.TestCase):
    """The files of a crate that is given are neither written nor compared nor removed."""

    LINES = "der_other given: other=other.asn1\nder_mine: mine=mine.asn1\n"

    def test_only_the_others_are_written(self) -> None:
        with tempfile.TemporaryDirectory() as folder:
            status, _, _ = ran(folder, self.LINES, other=OTHER, mine=MINE)
            written = sorted(path.name for path in (Path(folder) / "crates").iterdir())
            source = (Path(folder) / "crates/der_mine/src/mine/a.rt").read_text(encoding="utf-8")
        self.assertEqual((status, written), (0, ["der_mine"]))
        self.assertIn("use der_other::other::B;", source)

    def test_what_is_there_stays(self) -> None:
        with tempfile.TemporaryDirectory() as folder:
            there = Path(folder) / "crates/der_other/src/other/old.rt"
            there.parent.mkdir(parents=True)
            there.write_text("//! Old.\n//!\n//! Made by tools/asn1.\n", encoding="utf-8")
            self.assertEqual(ran(folder, self.LINES, other=OTHER, mine=MINE)[0], 0)
            self.assertEqual(ran(folder, self.LINES, "--check")[0], 0)
            self.assertEqual([path.name for path in (Path(folder) / "crates/der_other").rglob("*.rt")], ["old.rt"])

    def test_where_its_fields_stand_may_be_written(self) -> None:
        with tempfile.TemporaryDirectory() as folder:
            self.assertEqual(ran(folder, f"{self.LINES}der_p places: der_other\n", other=OTHER, mine=MINE)[0], 0)
            self.assertTrue((Path(folder) / "crates/der_p/src/other/b.rt").exists())
            self.assertFalse((Path(folder) / "crates/der_other").exists())

    def test_a_list_of_nothing_but_what_is_given(self) -> None:
        with tempfile.TemporaryDirectory() as folder:
            status, said, _ = ran(folder, "der_other given: other=other.asn1\n", other=OTHER)
            self.assertEqual((status, said), (0, "0 files, 0 lines\n"))

    def test_remarks_are_of_what_is_written(self) -> None:
        with tempfile.TemporaryDirectory() as folder:
            _, _, told = ran(folder, self.LINES, "--remarks", other=OTHER, mine=MINE)
        self.assertIn("SIZE (3..4) is not checked", told)
        self.assertNotIn("SIZE (2..3) is not checked", told)


class Lacking(unittest.TestCase):
    """A name of a module that nobody gave: the error tells all modules that are lacking."""

    def test_the_library_has_the_module(self) -> None:
        error = refusal(module_of("IMPORTS id-pe FROM PKIX1Explicit88;\na OBJECT IDENTIFIER ::= { id-pe 7 }"))
        self.assertEqual(error.problem, "'id-pe' is of the module 'PKIX1Explicit88', which is not given")
        self.assertEqual(
            error.instead,
            "'tools/vendor FOLDER der_extensions der_pkix' copies what is lacking, and writes its lines: "
            "PKIX1Explicit88 (PKIX1Explicit88.asn1 of der_extensions), PkixNames (name.asn1 of der_pkix), "
            "PkixCertificates (certificate.asn1 of der_pkix), PkixRevocation (crl.asn1 of der_pkix), "
            "PkixExtensions (extension.asn1 of der_extensions)",
        )

    def test_the_library_does_not_have_it(self) -> None:
        body = "IMPORTS B FROM One c FROM Two D FROM Three;\nA ::= SEQUENCE { b B, c INTEGER (0..c) }"
        self.assertEqual(
            refusal(module_of(body)).instead,
            "write 'crate: module=FILE' in the list, or 'crate given: module=FILE' of a crate that is there, for One, Two",
        )

    def test_both(self) -> None:
        body = "IMPORTS B FROM One Name FROM PkixNames;\nA ::= SEQUENCE { n Name, b B }"
        first, second = refusal(module_of(body)).instead.split("\n    ")
        self.assertEqual(
            first, "'tools/vendor FOLDER der_pkix' copies what is lacking, and writes its lines: PkixNames (name.asn1 of der_pkix)"
        )
        self.assertIn("for One", second)

    def test_what_is_given_is_not_lacking(self) -> None:
        names = module_of("Name ::= NULL", name="PkixNames")
        error = refusal(names, module_of("IMPORTS Name FROM PkixNames B FROM One;\nA ::= SEQUENCE { n Name, b B }"))
        self.assertNotIn("PkixNames", error.instead)
