"""The measure of what the compiler takes: one construct that is refused hides no other, and each reason is counted."""

from __future__ import annotations

import tempfile
import unittest
from pathlib import Path

from . import coverage
from .coverage import Result

MODULE = """Test DEFINITIONS ::= BEGIN
IMPORTS Far FROM Elsewhere;
A ::= SEQUENCE { a INTEGER }
B ::= SEQUENCE { a SEQUENCE OF NULL DEFAULT { NULL } }
C ::= SEQUENCE { a B }
D ::= SEQUENCE { a Nowhere }
E_F ::= NULL
G ::= SEQUENCE { a Far }
h INTEGER ::= 5
I{T} ::= SEQUENCE { a T }
J ::= I{A}
K ::= REAL
END
"""


class Coverage(unittest.TestCase):
    def results(self, octets: bytes) -> list[Result]:
        """What becomes of the modules of a file."""
        with tempfile.TemporaryDirectory() as folder:
            (Path(folder) / "a.asn1").write_bytes(octets)
            return next(iter(coverage.results_of([coverage.source_of(Path(folder))]).values()))

    def test_a_refusal_hides_no_other(self) -> None:
        (result,) = self.results(MODULE.encode())
        self.assertEqual((result.types, result.taken, result.is_whole, result.has_imports), (8, 2, False, False))
        self.assertEqual(result.unwritten, 1)
        self.assertEqual(
            result.reasons,
            [
                ("DEFAULT that the library lacks", True),
                ("DEFAULT that the library lacks", False),
                ("assigned nowhere", True),
                ("lexical item", True),
                ("a module that is not there", True),
            ],
        )

    def test_a_module_that_is_taken_is_whole(self) -> None:
        (result,) = self.results(b"Test DEFINITIONS ::= BEGIN A ::= NULL b INTEGER ::= 5 END")
        self.assertEqual((result.types, result.taken, result.is_whole, result.has_imports), (1, 1, True, True))

    def test_folders_with_one_name_are_both_counted(self) -> None:
        with tempfile.TemporaryDirectory() as top:
            folders = [Path(top) / name for name in ("a/same", "b/same", "c/a/same")]
            for folder in folders:
                folder.mkdir(parents=True)
                (folder / "a.asn1").write_text("Test DEFINITIONS ::= BEGIN A ::= NULL END")
            found = coverage.results_of([coverage.source_of(folder) for folder in folders])
        self.assertEqual({name: len(results) for name, results in found.items()}, {"a/same": 2, "b/same": 1})

    def test_any_octets_are_read(self) -> None:
        for octets in (b"", b"\xff\xfe", b"A", b"BEGIN", b"A DEFINITIONS ::= BEGIN", b"A ::= {" * 50, b'"\'/*', b"a ::= BEGIN B ::= ["):
            with self.subTest(octets[:20]):
                self.assertFalse(any(result.is_whole and result.types for result in self.results(octets)))

    def test_the_table_counts(self) -> None:
        found = {"some": self.results(MODULE.encode())}
        self.assertEqual(coverage.table(found)[2], "| some | 1 | 1 | 0 (0.0 %) | 8 | 25.0 % | 0 | 0 (-) | 0 | - | 0 | 0 (-) | 5 | 40.0 % |")
        reasons = coverage.reasons(found)
        self.assertIn("| DEFAULT that the library lacks | 2 | 1 | 0 | 0 |", reasons)
        self.assertEqual(reasons[-1], "| not written, and said so: the layer lacks it | 1 | 1 | 0 | 0 |")


if __name__ == "__main__":
    unittest.main()
