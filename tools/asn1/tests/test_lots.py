"""The lots of the sample: which modules are drawn, with which files, and which are passed over."""

from __future__ import annotations

import tempfile
import unittest
from pathlib import Path

from .lots import Drawn, Lot
from .sample import Told, groups_of

TEXTS = {
    "one/a.asn1": "-- a comment\nA-1 { iso(1) -- one -- } DEFINITIONS ::= BEGIN IMPORTS B FROM Far C FROM Near; X ::= SEQUENCE { b B, c C } END",
    "one/near.asn1": "Near DEFINITIONS ::= BEGIN C ::= NULL END",
    "two/near.asn": "Near DEFINITIONS ::= BEGIN C ::= BOOLEAN END",
    "two/far.asn": "Far DEFINITIONS ::= BEGIN B ::= INTEGER END",
    "two/copy.asn": "Far DEFINITIONS ::= BEGIN B ::= INTEGER END",
    "two/refused.asn": "Refused DEFINITIONS ::= BEGIN A ::= SEQUENCE { a [0] EXPLICIT B } END",
    "two/lacking.asn": "Lacking DEFINITIONS ::= BEGIN IMPORTS B FROM Nowhere; A ::= SEQUENCE { b B } END",
    "two/values.asn": "Values DEFINITIONS ::= BEGIN a INTEGER ::= 5 END",
    "two/several.asn": "S-1 DEFINITIONS ::= BEGIN A ::= NULL END\nS-2 DEFINITIONS ::= BEGIN IMPORTS A FROM S-1; B ::= SEQUENCE { a A } END",
}


class Lots(unittest.TestCase):
    def setUp(self) -> None:
        held = tempfile.TemporaryDirectory()
        self.addCleanup(held.cleanup)
        self.folder = Path(held.name)
        for name, text in TEXTS.items():
            path = self.folder / name
            path.parent.mkdir(exist_ok=True)
            path.write_text(text, encoding="utf-8")

    def lot(self, most: int | None = None) -> Lot:
        return Lot([self.folder / "one", self.folder / "two"], most)

    def drawn(self, seed: int) -> dict[str, list[Drawn]]:
        found: dict[str, list[Drawn]] = {}
        for one in self.lot().drawn(seed):
            found.setdefault(one.ticket.name, []).append(one)
        return found

    def test_what_is_taken_whole_is_drawn_once_and_what_is_not_is_counted(self) -> None:
        lot = self.lot()
        names = sorted(one.ticket.name for one in lot.drawn(1))
        self.assertEqual((names, lot.refused), (["A-1", "Far", "Near", "Near", "S-1", "S-2"], 2))

    def test_a_lot_of_a_seed_is_the_same_again_and_of_another_another(self) -> None:
        orders = [[one.ticket.name for one in self.lot().drawn(seed)] for seed in (1, 1, 2, 3, 4)]
        self.assertEqual(orders[0], orders[1])
        self.assertGreater(len({str(order) for order in orders}), 1)

    def test_a_module_has_the_files_that_it_imports_from_those_of_its_folder_first(self) -> None:
        (one,) = self.drawn(1)["A-1"]
        self.assertEqual(
            [(name, str(path.relative_to(self.folder))) for name, path in one.crate.files],
            [("a_1", "one/a.asn1"), ("far", "two/copy.asn"), ("near", "one/near.asn1")],
        )
        self.assertEqual(one.crate.types, (("X", f"{one.crate.name}::a_1::X"),))

    def test_a_file_of_several_modules_has_no_name_in_the_list(self) -> None:
        (one,) = self.drawn(1)["S-2"]
        self.assertEqual([name for name, _ in one.crate.files], [""])
        self.assertEqual(one.crate.types, (("B", f"{one.crate.name}::s_2::B"),))

    def test_modules_of_more_types_are_passed_over_and_counted(self) -> None:
        lot = self.lot(2)
        self.assertNotIn("A-1", [one.ticket.name for one in lot.drawn(1)])
        self.assertEqual(lot.passed_over, 1)

    def test_a_group_has_so_many_lines_and_one_crate_at_least(self) -> None:
        (one,) = self.drawn(1)["A-1"]
        told = [Told(one, lines=lines) for lines in (50, 10, 30, 200, 60)]
        self.assertEqual([[it.lines for it in group] for group in groups_of(told, 100)], [[10, 30, 50], [60], [200]])


if __name__ == "__main__":
    unittest.main()
