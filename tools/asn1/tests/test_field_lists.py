"""The lists of one to eight fields: which files there are, and what the list of three says of its fields."""

from __future__ import annotations

import contextlib
import io
import tempfile
import unittest
from pathlib import Path
from unittest import mock

from .. import command
from ..crates import entries_of, lists_of
from ..folders import check
from ..writer.field_lists import SIZES, write_field_lists

NAMES = {"src/fields.rt", *(f"src/fields/{size}.rt" for size in SIZES)}


class Lists(unittest.TestCase):
    def setUp(self) -> None:
        self.files = write_field_lists()
        self.three = " ".join(self.files["src/fields/three.rt"].split())

    def test_there_is_a_file_for_each_list(self) -> None:
        self.assertEqual(set(self.files), NAMES)
        for number, size in enumerate(SIZES, 1):
            self.assertIn(f"pub use {size}::Fields{number};\n", self.files["src/fields.rt"])
            self.assertIn(f"pub struct Fields{number}<", self.files[f"src/fields/{size}.rt"])

    def test_the_list_holds_its_fields_in_their_order(self) -> None:
        for line in (
            "pub struct Fields3<A, B, C, Rest = End> { /// The list. pub list: Field<A, Field<B, Field<C, Rest>>>, }",
            "pub fn new(first: A, second: B, third: C) -> Fields3<A, B, C>",
            "ensures { self.list ≡ field result.0 (field result.1 (field result.2 end)) }",
            "pub fn third(&self) -> &C ensures { result.now ≡ self.now.list.rest.rest.first }",
            "(field_list A.Form (field_list B.Form (field_list C.Form Rest.list)))",
        ):
            self.assertIn(line, self.three)


class Line(unittest.TestCase):
    """The line `lists:` has them written, and nothing else."""

    def setUp(self) -> None:
        folder = tempfile.TemporaryDirectory()
        self.addCleanup(folder.cleanup)
        self.top = Path(folder.name)
        self.path = self.top / "modules.txt"
        self.path.write_text("# lists\nder_f lists:\n", encoding="utf-8")

    def test_it_names_no_module(self) -> None:
        self.assertEqual((entries_of(self.path), lists_of(self.path)), ([], ["der_f"]))

    def test_the_command_compares_each_file(self) -> None:
        with mock.patch.object(command, "laid_out", lambda found: found):
            found = command.write_all(self.path, with_remarks=False)
        self.assertEqual(set(found), {f"der_f/{name}" for name in NAMES})
        for name, text in found.items():
            (self.top / name).parent.mkdir(parents=True, exist_ok=True)
            (self.top / name).write_text(text, encoding="utf-8")
        with contextlib.redirect_stdout(io.StringIO()), contextlib.redirect_stderr(io.StringIO()) as said:
            self.assertEqual(check(self.top, found), 0)
            (self.top / "der_f/src/fields/two.rt").write_text("pub struct Fields2;\n", encoding="utf-8")
            self.assertEqual(check(self.top, found), 1)
        self.assertEqual(said.getvalue(), "crates/der_f/src/fields/two.rt is not what tools/asn1 writes\n")
