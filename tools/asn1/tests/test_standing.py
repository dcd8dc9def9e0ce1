"""What is said of the files that are written: which of them changed, and what their crate's line in `crates.txt` lacks."""

from __future__ import annotations

import io
import tempfile
import unittest
from contextlib import redirect_stdout
from pathlib import Path

from ..folders import put
from ..standing import lines_of, lines_to_write, stands_on
from .helpers import MODULES, module_of
from .test_given import ran
from .test_writer import written

TOP = MODULES.parents[3]
KINDS = ("src/**/*.rt", "specs/**/*.antt", "proofs/**/*.antt")


class Standing(unittest.TestCase):
    """A crate stands on those that its files import from."""

    def test_of_a_module(self) -> None:
        files = {f"der_test/{name}": text for name, text in written(module_of("A ::= SEQUENCE { a NULL, b SET OF UTF8String }")).items()}
        self.assertEqual(
            stands_on("der_test", files), ["der_elem", "der_fields", "der_lists", "der_modules", "der_opaque", "der_text", "der_tlv"]
        )

    def test_of_the_crates_that_are_proved(self) -> None:
        lines = lines_of(TOP / "crates.txt")
        for crate in ("der_cms", "der_extensions"):
            paths = [path for kind in KINDS for path in (TOP / "crates" / crate).glob(kind)]
            files = {str(path.relative_to(TOP / "crates")): path.read_text(encoding="utf-8") for path in paths}
            self.assertEqual(stands_on(crate, files), sorted(lines[crate]))


class Lines(unittest.TestCase):
    """What `crates.txt` is to have."""

    FILES = {"a/src/lib.rt": "//! A.\nuse low::X;\nuse crate::b;\n", "a/specs/A.antt": "use Rattle.high.specs.Y.{Z}\nuse Rattle.a.specs.B\n"}

    def said(self, text: str | None) -> list[str]:
        with tempfile.TemporaryDirectory() as folder:
            path = Path(folder) / "crates.txt"
            if text is not None:
                path.write_text(text, encoding="utf-8")
            return lines_to_write(path, self.FILES)

    def test_a_new_crate(self) -> None:
        self.assertEqual(self.said(None), ["crates.txt has no line of a; it is 'a: high low'"])
        self.assertEqual(self.said("low:\nhigh: low\n"), ["crates.txt has no line of a; it is 'a: high low'"])

    def test_a_line_that_lacks_names(self) -> None:
        self.assertEqual(self.said("low:\nhigh: low\na: high # low\n"), ["crates.txt: the line of a lacks low"])

    def test_a_line_that_lacks_none(self) -> None:
        self.assertEqual(self.said("low:\nhigh: low\na may_wait=2: more low high\n"), [])

    def test_a_crate_that_is_not_there(self) -> None:
        self.assertEqual(
            self.said("low:\na: low high\n"), ["crates.txt has no line of high: 'tools/vendor FOLDER high' copies it"]
        )

    def test_the_command_says_it(self) -> None:
        with tempfile.TemporaryDirectory() as folder:
            for options in ((), ("--check",)):
                status, said, _ = ran(folder, "a: mine=mine.asn1\n", *options, mine=module_of("A ::= SEQUENCE { a NULL }", name="Mine"))
                self.assertEqual(status, 0)
                self.assertIn("crates.txt has no line of a; it is 'a: der_elem der_fields der_modules der_opaque der_tlv'\n", said)


class Changes(unittest.TestCase):
    """Of each crate that changed it says which files are new, changed and removed."""

    def test_what_became_of_each_file(self) -> None:
        files = {"a/src/x.rt": "x\n", "a/src/y.rt": "y\n", "b/src/x.rt": "x\n"}
        with tempfile.TemporaryDirectory() as folder:
            root = Path(folder)
            for name, text in {**files, "a/src/y.rt": "old\n", "a/src/old.rt": "//! Made by tools/asn1.\n"}.items():
                (root / name).parent.mkdir(parents=True, exist_ok=True)
                (root / name).write_text(text, encoding="utf-8")
            (root / "a/src/x.rt").unlink()
            with redirect_stdout(io.StringIO()) as said:
                put(root, files)
        self.assertEqual(
            said.getvalue(),
            "a: 1 new, 1 changed, 1 removed\n    removed  src/old.rt\n    new      src/x.rt\n    changed  src/y.rt\n3 files, 3 lines\n",
        )
