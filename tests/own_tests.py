#!/usr/bin/env python3
"""Tests of what tests/edits.py, tests/proved_tests.py and tests/dearest.py do beside the prover: lots, the record, what stays of a
run that is cut off, and the longest chain.

    python3 tests/own_tests.py"""
import os
import sys
import tempfile
import types
import unittest

import dearest
import edits
from lib.edit_checks import Answer
from lib.edit_texts import Edit
from lib.kept_edits import Kept, Record, Refusal, refusal_of, sum_of_sources
from lib.lots import drawn, drawn_tests

SOURCE = "/// Adds one.\nfn one_more(n: u8) -> u8 {\n    n + 1\n}\n\nfn one_less(n: u8) -> u8 {\n    n - 1\n}\n"


def refusal(label, seconds=10, date="2026-11-01", sum="a" * 64, function="low::numbers::one_more", by="goal"):
    return Refusal(sum, label, date, seconds, function, by)


def record_of(**dates):
    """A record of ten edits of each of these crates, last tried on these days."""
    return {crate: [refusal(f"{crate}/{at}", at + 1, date) for at in range(10)] for crate, date in dates.items()}


class Lots(unittest.TestCase):
    known = record_of(old="2026-11-01", new="2026-11-02", newer="2026-11-03", last="2026-11-04")

    def test_another_seed_draws_another_lot_and_the_same_seed_the_same(self):
        lots = [drawn(self.known, 1 / 6, seed) for seed in range(40)]
        self.assertEqual(lots, [drawn(self.known, 1 / 6, seed) for seed in range(40)])
        self.assertGreater(len({tuple(it.label for it in lot) for lot in lots}), 30)

    def test_a_lot_has_its_share_of_the_seconds_and_hardly_more(self):
        whole = sum(it.seconds for found in self.known.values() for it in found)
        for seed in range(40):
            seconds = sum(it.seconds for it in drawn(self.known, 1 / 6, seed))
            self.assertTrue(whole / 6 <= seconds <= whole / 6 + 10)

    def test_half_of_a_lot_is_of_those_not_tried_for_longest_and_half_of_any(self):
        crates = [{it.label.split("/")[0] for it in drawn(self.known, 1 / 6, seed)} for seed in range(80)]
        self.assertTrue(all("old" in it for it in crates))
        self.assertEqual(set().union(*crates), set(self.known))

    def test_of_nothing_on_record_nothing_is_drawn(self):
        self.assertEqual(drawn({"low": []}, 1 / 6, 1), [])


class LotsOfTests(unittest.TestCase):
    tests = {"low": [f"low::{it}" for it in range(60)], "middle": [f"middle::{it}" for it in range(30)], "high": ["high::a", "high::b"],
             "wide": [f"wide::{it}" for it in range(45)]}

    def test_another_seed_draws_another_lot_and_the_same_seed_the_same(self):
        lots = [drawn_tests(self.tests, 1 / 20, seed) for seed in range(40)]
        self.assertEqual(lots, [drawn_tests(self.tests, 1 / 20, seed) for seed in range(40)])
        self.assertGreater(len({str(it) for it in lots}), 30)

    def test_a_lot_has_its_share_of_few_crates_and_each_crate_is_drawn(self):
        lots = [drawn_tests(self.tests, 1 / 20, seed, 2) for seed in range(200)]
        self.assertEqual({sum(map(len, it.values())) for it in lots}, {7})
        self.assertTrue(all(len(it) <= 2 for it in lots))
        self.assertEqual({name for it in lots for name in it}, set(self.tests))

    def test_more_crates_are_taken_where_few_have_not_enough(self):
        tests = {str(crate): [f"{crate}::{it}" for it in range(3)] for crate in range(9)}
        self.assertEqual(sum(map(len, drawn_tests(tests, 1 / 2, 1, 2).values())), 14)


class Records(unittest.TestCase):
    def setUp(self):
        self.folder = tempfile.TemporaryDirectory()
        self.addCleanup(self.folder.cleanup)
        self.file = f"{self.folder.name}/refused-edits"

    def test_a_line_reads_back(self):
        for it in (refusal("low/a"), refusal("low/b-c", by="names"), refusal("low/d", by="borrow")):
            self.assertEqual(refusal_of(it.line()), it)

    def test_a_line_with_a_sum_and_a_name_alone_counts_for_nothing(self):
        with open(self.file, "w", encoding="utf-8") as file:
            file.write(f"{'a' * 64} low/a\n{refusal('low/b').line()}\n{refusal('low/c').line()} more\n")
        self.assertEqual(list(Record(self.file).refusals), ["low/b"])

    def test_two_runs_write_into_one_record(self):
        one, other = Record(self.file), Record(self.file)
        one.put([refusal("low/a")])
        other.put([refusal("low/b")])
        one.put([], ["low/a"])
        self.assertEqual(list(Record(self.file).refusals), ["low/b"])

    def test_each_line_stands_in_the_log_of_its_run(self):
        one, other = refusal("low/a"), refusal("low/b")
        Record(self.file).put([one, other])
        record = Record(self.file)
        self.assertEqual(record.unlike([f"refused (1 of 2): {one.line()}\n", f"refused (2 of 2): {other.line()}\n"]), [])
        self.assertEqual(record.unlike([f"refused (1 of 2): {one.line()}\n{other.line()}\n"]), [other])
        self.assertEqual(record.unlike([f"refused (1 of 2): {one.line().replace('one_more', 'one_less')}\n"]), [one, other])


class SumsOfSources(unittest.TestCase):
    def sum_of(self, source, specs="-- A number.\nn : ℕ\n"):
        with tempfile.TemporaryDirectory() as folder:
            for name, text in (("src/lib.rt", source), ("specs/Lib.antt", specs)):
                os.makedirs(os.path.dirname(f"{folder}/{name}"))
                with open(f"{folder}/{name}", "w", encoding="utf-8") as file:
                    file.write(text)
            return sum_of_sources(folder)

    def test_comments_do_not_count(self):
        whole = self.sum_of(SOURCE)
        self.assertEqual(self.sum_of(SOURCE.replace("/// Adds one.", "//! One more.\n  // And none less.")), whole)
        self.assertEqual(self.sum_of(SOURCE, "n : ℕ\n  -- It is a number.\n"), whole)

    def test_each_line_of_code_counts(self):
        whole = self.sum_of(SOURCE)
        for source in (SOURCE.replace("n + 1", "n + 2"), SOURCE.replace("n + 1", "n + 1 // more"), SOURCE.replace("{\n", "{ ", 1), SOURCE + "-- a\n"):
            self.assertNotEqual(self.sum_of(source), whole)
        self.assertNotEqual(self.sum_of(SOURCE, "// A number.\nn : ℕ\n"), whole)


class Answers(unittest.TestCase):
    text = (
        "proofs/length/Length/decode/Answers.antt:3:5: error: `long` is not in scope\n"
        "proofs/header/Header/decode/Answers.antt:9:5: error: expected another type\n"
        "fn low::length::Length::decode: not proved\nfn low::header::Header::decode: not proved\nonly=low"
    )

    def test_names_alone_are_told_from_goals_of_another_function_with_that_name(self):
        answer = Answer(self.text, 1, 3)
        self.assertTrue(answer.only_names("low::length::Length::decode"))
        self.assertFalse(answer.only_names("low::header::Header::decode"))


class StandIn:
    """A crate of two functions, whose checks a test answers."""

    name, deps, root = "low", [], "src/lib.rt"
    builds = types.SimpleNamespace(are_of_sources=lambda crate: True)

    def __init__(self, folder):
        self.folder = folder
        os.makedirs(f"{folder}/src")
        with open(f"{folder}/src/numbers.rt", "w", encoding="utf-8") as file:
            file.write(SOURCE)

    def sum(self):
        return "sources"

    def mark(self):
        return []

    def below(self):
        return []

    def size(self):
        return 1


def answers(*texts):
    """Checks that answer so, one after another, in three seconds each; None is one at which the run is cut off."""
    left = list(texts)

    def check(*_):
        text = left.pop(0)
        if text is None:
            raise KeyboardInterrupt
        return Answer(f"{text}\nonly=low", 1 if "not proved" in text else 0, 3)

    return check


class Trials(unittest.TestCase):
    """Runs over a crate whose prover is a stand-in."""

    def setUp(self):
        self.folder = tempfile.TemporaryDirectory()
        self.addCleanup(self.folder.cleanup)
        at = self.folder.name
        os.makedirs(f"{at}/kit/kit")
        self.kept, self.record = Kept(f"{at}/kit/kit"), Record(f"{at}/refused-edits")
        self.crate = StandIn(f"{at}/low")
        self.said, edits.say = [], lambda text: self.said.append(text)

    def edit(self, name, old, new):
        file = f"{self.folder.name}/{name}.edit"
        with open(file, "w", encoding="utf-8") as it:
            it.write(f"file: src/numbers.rt\nold: {old}\nnew: {new}\n")
        return Edit(self.crate, file)

    def trial(self, *of):
        self.found = edits.Found(self.kept, self.record, True)
        return edits.Trial(self.crate, list(of), "kit", self.found)

    def both(self):
        return self.edit("two-more", "n + 1", "n + 2"), self.edit("two-less", "n - 1", "n - 2")

    def test_a_refusal_is_kept_and_on_record_as_it_is_told(self):
        self.crate.check = answers("", "fn low::numbers::one_more: not proved\nfn low::numbers::one_less: not proved")
        trial = self.trial(*self.both())
        trial.run()
        self.assertEqual([(it.function, it.by, it.seconds) for it in trial.refused.values()], [("low::numbers::one_more", "goal", 3), ("low::numbers::one_less", "goal", 3)])
        self.assertEqual(Record(self.record.file).unlike(["\n".join(self.said)]), [])
        self.assertEqual(self.trial(*self.both()).left, [])

    def test_what_was_tried_before_a_run_is_cut_off_stays(self):
        self.crate.check = answers("", "fn low::numbers::one_more: not proved\nfn low::numbers::one_less: no proof: callee", None)
        with self.assertRaises(KeyboardInterrupt):
            self.trial(*self.both()).run()
        self.assertEqual(list(Record(self.record.file).refusals), ["low/two-more"])
        self.assertEqual([it.label for it in self.trial(*self.both()).left], ["low/two-less"])

    def test_a_drawn_edit_has_to_be_refused_as_the_record_says(self):
        for function, by, right in (("low::numbers::one_more", "goal", True), ("low::numbers::one_less", "goal", False), ("low::numbers::one_more", "names", False)):
            edit = self.both()[0]
            self.kept.anew = True
            trial = self.trial(edit)
            told = refusal(edit.label, sum=trial.sums[edit], function=function, by=by)
            self.record.put([told])
            trial.take_record([told])
            self.crate.check = answers("", "fn low::numbers::one_more: not proved")
            trial.run()
            self.assertEqual(trial.faults == [], right, (function, by))

    def test_what_is_drawn_and_proved_is_no_more_on_record(self):
        edit = self.both()[0]
        trial = self.trial(edit)
        told = refusal(edit.label, sum=trial.sums[edit])
        self.record.put([told])
        trial.take_record([told])
        self.crate.check = answers("", "", "", "")
        trial.run()
        self.assertTrue(trial.faults[0][1].startswith("NOT REFUSED"))
        self.assertEqual(Record(self.record.file).refusals, {})

    def test_what_the_record_has_is_not_tried_but_for_the_lot(self):
        more, less = self.both()
        trial = self.trial(more, less)
        told = [refusal(it.label, sum=trial.sums[it]) for it in (more, less)]
        self.record.put(told)
        trial.take_record(told[:1])
        self.assertEqual(trial.left, [more])

    def test_an_edit_of_a_comment_is_none_whatever_the_record_says(self):
        edit = self.edit("comment", "/// Adds one.", "/// Adds two.")
        trial = self.trial(edit)
        self.assertEqual(trial.left, [])
        self.assertIn("comments alone", trial.faults[0][1])


class Chains(unittest.TestCase):
    LINES = ["one:", "two: one", "three staticlib: one two other", "four: one"]

    def test_the_longest_chain_is_that_of_the_most_seconds(self):
        seconds = {"one": 60, "two": 30, "three": 5, "four": 20}
        self.assertEqual(dearest.longest_chain(self.LINES, seconds), (95, ["one", "two", "three"]))
        self.assertEqual(dearest.longest_chain(self.LINES, {**seconds, "four": 40}), (100, ["one", "four"]))

    def test_no_crate_has_no_chain(self):
        self.assertEqual(dearest.longest_chain([], {}), (0, []))


if __name__ == "__main__":
    sys.exit(0 if unittest.main(exit=False, verbosity=0).result.wasSuccessful() else 1)
