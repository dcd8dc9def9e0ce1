"""A copy of the files that the tool reads and writes, in which a test changes one."""

from __future__ import annotations

import io
import shutil
import tempfile
import unittest
from contextlib import redirect_stderr, redirect_stdout
from pathlib import Path

from ..command import ROOT, main, parts
from ..comparing import findings, pages, rules, steps, structs
from ..regions import text_of
from ..tables.reading import structs_of
from ..tables.tables import CHECKS, RULES, STEPS, STRUCTS, Tables

FOLDERS = (structs.FOLDER, structs.PLACES, "crates/der_verify/src", "crates/der_verify/specs")
WRITTEN = parts(Tables([], [], structs_of(STRUCTS, text_of(ROOT / STRUCTS)), []))
OF_STEPS = (steps.WORDS, *steps.SOURCES.values(), *steps.DEFINITIONS.values(), *steps.DEFINED_NUMBERS.values())
FILES = (RULES, STEPS, STRUCTS, CHECKS, findings.FILE, pages.FILE, rules.BITS, *OF_STEPS, *WRITTEN)


class TreeTest(unittest.TestCase):
    """Has the copy as `root`. Each test begins with the files as they are in the repository."""

    def setUp(self) -> None:
        folder = tempfile.TemporaryDirectory()
        self.addCleanup(folder.cleanup)
        self.root = Path(folder.name)
        for name in FOLDERS:
            shutil.copytree(ROOT / name, self.root / name)
        for name in FILES:
            (self.root / name).parent.mkdir(parents=True, exist_ok=True)
            shutil.copy(ROOT / name, self.root / name)

    def text(self, file: str) -> str:
        return (self.root / file).read_text(encoding="utf-8")

    def change(self, file: str, old: str, new: str) -> int:
        """Replaces a text that stands once in a file, and returns its line."""
        text = self.text(file)
        self.assertEqual(text.count(old), 1, f"{file}: {old}")
        (self.root / file).write_text(text.replace(old, new), encoding="utf-8")
        return text[: text.index(old)].count("\n") + 1

    def run_tool(self, *arguments: str) -> tuple[int, list[str]]:
        """The status, and the lines of standard error."""
        said = io.StringIO()
        with redirect_stdout(io.StringIO()), redirect_stderr(said):
            status = main([*arguments, "--root", str(self.root)])
        return status, said.getvalue().splitlines()

    def told(self) -> list[str]:
        """What a comparison tells, which must be something."""
        status, lines = self.run_tool("--check")
        self.assertEqual(status, 1)
        self.assertTrue(lines)
        return lines

    def files_told(self) -> set[str]:
        return {line.split(":")[0] for line in self.told()}
