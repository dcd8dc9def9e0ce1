#!/usr/bin/env python3
"""Tries the edits of crates/NAME/must-fail: each turns the meaning of a function, and the prover must refuse it.

    python3 tests/edits.py [--built TREE [--log FILE]] [--seed N] [--all | --anew] [--write] [NAME..]
    python3 tests/edits.py --compare LOG..

Edits of different functions are tried in one check: a function is proved from the contracts of those that it calls, and
not from their bodies. An edit is refused where the check says of the function that it changes that its own proof fails.
Where it says only that a callee has no proof, the edit is tried again with others, and last alone; there any function may
be the one that is refused, as under 'rt must-fail', and has to be proved without the edit. That all functions are proved as
they stand is for 'rt ci' to show; here it has to be so of one of each crate first, so that checks which could prove
nothing are found out.

TREE is a copy of the repository in which 'rt ci' builds the crates; without it, what 'rt check' has built is taken. FILE is
what that 'rt ci' prints, where it is still at work: the edits of a crate are tried as soon as those below it are proved, at
low priority, so that they fill what the proofs leave free; once it has ended they have the priority of this run. JOBS says
how many crates are tried at a time, of which half wait for the end of 'rt ci'. The dearest are tried first.

What is refused is kept on the machine (kept_edits.py), and not tried again until something changes that it stands on. What
the record tests/refused-edits has of the same sources and the same kit is not tried either, but for a sixth of its seconds: a
lot (lots.py) falls anew in each run, and '--seed' has the lot of another run fall again. What is tried has to be refused as
the record says. With --all, or for the crates of these names, nothing is taken from the record; with --anew nothing is taken
from what the machine has kept either.

A line is printed of each edit that is refused, which is its line of the record, and kept at once; with --write it is
written into the record at once. So a run that is cut off goes on where it was, and crates can be tried in several runs. With
--compare nothing is tried: each line of the record is looked for in the logs of these runs. The last line counts."""
import argparse
import glob
import math
import os
import shutil
import sys
import tempfile
import threading
import time
from concurrent.futures import ThreadPoolExecutor

from lib import ROOT
from lib.edit_checks import Builds, crates_of, kit_of_rt
from lib.edit_texts import Edit, group_of
from lib.kept_edits import PARTS, RULES, Kept, Record, Refusal, sum_of, sum_of_kit, sum_of_sources
from lib.lots import drawn, seed_of

# How many seconds the edits of a crate take for each of its bytes and of the crates that it stands on, where no run has told.
SECONDS = 1 / 2500
# The share of the record's seconds that is tried again.
BY_LOT = 1 / 6
printing = threading.Lock()


def say(text):
    with printing:
        print(text, flush=True)


class Found:
    """What a run has found out so far: how many edits it has tried, and where its refusals are kept."""

    def __init__(self, kept, record, writes):
        self.kept, self.record, self.writes = kept, record, writes
        self.to_try = self.tried = 0
        self.counting = threading.Lock()

    def add(self, refusal, stays):
        """Tells a refusal, and keeps it where it counts for the next run."""
        with self.counting:
            self.tried += 1
            say(f"refused ({self.tried} of {self.to_try}): {refusal.line()}")
            if stays:
                self.kept.keep(refusal)
            if stays and self.writes:
                self.record.put([refusal])

    def miss(self, edits, is_judged):
        """Counts edits that are not refused; where they were judged, the record has none of them any more."""
        with self.counting:
            self.tried += len(edits)
            if edits and is_judged and self.writes:
                self.record.put([], [it.label for it in edits])


class Trial:
    """The edits of a crate: those that are known to be refused, and those that are to be tried."""

    def __init__(self, crate, edits, kit_sum, found):
        self.crate, self.edits, self.kit_sum, self.found = crate, edits, kit_sum, found
        self.faults, self.sums, self.mark, self.took = [], self.sums_now(), None, 0
        self.refused = {it: one for it in edits if (one := found.kept.refusal(it.label, self.sums[it]))}
        self.left = [it for it in edits if it not in self.refused]
        # of those that are left, what the record says, and the seconds that each has taken so far
        self.expected, self.spent = {}, dict.fromkeys(edits, 0)
        self.fault([it for it in edits if it.alone and it.is_of_comments()], "BAD EDIT: it changes comments alone")

    def on_record(self):
        """What the record has of the edits that are left."""
        found = {it: self.found.record.refusal(it.label, self.sums[it]) for it in self.left}
        return {it: one for it, one in found.items() if one}

    def take_record(self, lot):
        """Takes what the record has of the edits that are left for known, but for those of the lot."""
        known = self.on_record()
        self.expected = {it: one for it, one in known.items() if one in lot}
        self.refused.update((it, one) for it, one in known.items() if one not in lot)
        self.left = [it for it in self.left if it not in self.refused]

    def sums_now(self):
        """A sum, for each edit, of all that its refusal stands on."""
        crate = self.crate.sum()
        return {it: sum_of(RULES, self.kit_sum, crate, it.label, it.text) for it in self.edits}

    def seconds(self):
        """How long the edits that are to be tried may take."""
        told = [it for edit in self.left if (it := self.found.record.seconds(edit.label))]
        if told:
            return sum(told) * len(self.left) / len(told)
        return self.crate.size() * (1 + len(self.crate.below())) * SECONDS * len(self.left) / len(self.edits)

    def run(self):
        """Tries the edits that are left."""
        begun = time.time()
        if self.crate.builds.are_of_sources(self.crate):
            self.sums, self.mark = self.sums_now(), self.crate.mark()
        else:
            say(f"{self.crate.name}: what is refused is not kept: a library below is not what 'rt check' builds of its sources")
        self.fault([it for it in self.left if not it.alone], "BAD EDIT: a text of it does not stand just once in its file")
        with tempfile.TemporaryDirectory(prefix="edits-") as work:
            self.try_sample(work)
            self.try_groups(work)
            for edit in list(self.left):
                self.try_alone(edit, work)
        self.took = time.time() - begun

    def check(self, edits, texts, work, names):
        """What a check says, whose seconds are those of these edits."""
        answer = self.crate.check(texts, work, names)
        for edit in edits:
            self.spent[edit] += answer.seconds / len(edits)
        return answer

    def refuse(self, edit, function, by):
        """Notes that an edit is refused, and keeps it if the libraries are still those that were there at the beginning."""
        self.left.remove(edit)
        date, seconds = time.strftime("%Y-%m-%d", time.gmtime()), math.ceil(self.spent[edit])
        said = self.refused[edit] = Refusal(self.sums[edit], edit.label, date, seconds, function, by)
        self.found.add(said, self.mark is not None and self.mark == self.crate.mark())
        expected = self.expected.get(edit)
        if expected and not expected.is_as(said):
            self.faults.append((edit, f"the record says that it is refused otherwise: {expected.line()}"))

    def fault(self, edits, why):
        """Notes why edits are not refused."""
        self.left = [it for it in self.left if it not in edits]
        self.faults += [(it, why) for it in edits]
        self.found.miss(edits, why.startswith(("NOT REFUSED", "BAD EDIT")))
        for edit in edits:
            self.refused.pop(edit, None)
            say(f"{edit.label}: {why}")

    def try_sample(self, work):
        """Has one of the functions that edits change proved as it stands."""
        if self.left:
            sample = min(self.left, key=lambda it: len(it.source)).names()
            if not self.check(self.left, {}, work, sample).proves():
                self.fault(self.left, f"NOT PROVED as it stands ({', '.join(sample)}), so the edit shows nothing")

    def try_groups(self, work):
        """Tries edits of different functions together, for as long as that tells of one."""
        spoilt = []
        taken, texts = group_of(self.left)
        while taken:
            answer = self.check(taken, texts, work, set().union(*(it.names() for it in taken)))
            refused = False
            for edit in taken:
                failing = sorted(it for it in edit.candidates(answer.said) if answer.fails(it))
                if answer.judged and failing and not answer.unread():
                    refused = True
                    self.refuse(edit, failing[0], "names" if answer.only_names(failing[0]) else "goal")
            # those in a file that does not compile are tried alone
            stopped = [] if answer.judged else [it for it in taken if it.path in answer.wrong_files()]
            spoilt += stopped
            taken, texts = group_of([it for it in self.left if it not in spoilt]) if refused or stopped else ([], {})

    def try_alone(self, edit, work):
        """Tries an edit by itself, in its module and then in the whole crate."""
        for only in ({edit.module}, set()) if edit.path != self.crate.root else (set(),):
            answer = self.check([edit], {edit.path: edit.alone}, work, only)
            if not answer.judged:
                if answer.status < 0:
                    return self.fault([edit], f"NOT TRIED: its check was ended by the signal {-answer.status}")
                if only:
                    continue
                return self.fault([edit], "BAD EDIT: it did not reach the prover: " + answer.text[:300])
            if answer.unread():
                return self.fault([edit], f"BAD EDIT: the prover cannot read the edited text: {answer.unread()[:200]}")
            function, by = refused_alone(edit, answer)
            if function:
                if not self.check([edit], {}, work, {function}).proves():
                    return self.fault([edit], f"NOT PROVED as it stands ({function}), so the edit shows nothing")
                return self.refuse(edit, function, by)
        return self.fault([edit], "NOT REFUSED: the crate is still proved with this edit")


def refused_alone(edit, answer):
    """The function that is refused where an edit is tried by itself, and what that is by: first those that it changes."""
    failing = sorted(it for it in answer.said if answer.fails(it))
    failing = sorted(edit.candidates(failing)) or failing
    if failing:
        return failing[0], "names" if answer.only_names(failing[0]) else "goal"
    uncovered = sorted(it for it in answer.said if answer.status == 1 and answer.uncovered(it))
    return (uncovered[0], "borrow") if uncovered else (None, None)


class Work:
    """The crates whose edits are to be tried, the dearest first."""

    def __init__(self, trials, builds, lanes):
        self.trials = sorted((it for it in trials if it.left), key=lambda it: -it.seconds())
        self.builds, self.begun, self.choosing = builds, time.time(), threading.Lock()
        builds.lanes, builds.to_come = lanes, len(self.trials)

    def next(self):
        """Takes the dearest crate whose libraries are built off the list; none where there is none yet."""
        with self.choosing:
            ready = next((it for it in self.trials if self.builds.has(it.crate)), None)
            if ready:
                self.trials.remove(ready)
            return ready

    def lane(self, waits):
        """Tries the edits of one crate after another, where it waits not before 'rt ci' has ended."""
        while self.trials:
            ended = self.builds.ended()
            ready = self.next() if ended or not waits else None
            if ready:
                say(f"{ready.crate.name}: {len(ready.left)} edits are tried, which may take {ready.seconds():.0f} seconds")
                ready.run()
                self.tell(ready)
            elif ended:
                return
            else:
                time.sleep(1)

    def tell(self, trial):
        with self.choosing:
            self.builds.to_come -= 1
            done, to_come = f"all {len(trial.edits)} edits are done", self.builds.to_come
        say(f"{trial.crate.name}: {done}; crates to come: {to_come}; {time.time() - self.begun:.0f} seconds so far")

    def run(self):
        lanes = self.builds.lanes
        with ThreadPoolExecutor(lanes) as pool:
            for it in [pool.submit(self.lane, at >= (lanes + 1) // 2) for at in range(lanes)]:
                it.result()
        why = "not tried: a library below is not built: see 'rt ci', or run 'rt all check' first"
        for it in self.trials:
            it.faults += [(edit, why) for edit in it.left]
            say(f"{it.crate.name}: its edits are {why}")


def copy_sources(room):
    """Copies the sources of each crate as they stand now, so that a change meanwhile has no part in what is tried."""
    for path in glob.glob(f"{ROOT}/crates/*"):
        for part in PARTS:
            if os.path.isdir(f"{path}/{part}"):
                shutil.copytree(f"{path}/{part}", f"{room}/{os.path.basename(path)}/{part}")


def edits_of(crate):
    return [Edit(crate, it) for it in sorted(glob.glob(f"{ROOT}/crates/{crate.name}/must-fail/*.edit"))]


def tell_other_sources(crates):
    """Says which crates have other sources in the tree: what is refused over those is no refusal over the sources here."""
    other = [it.name for it in crates.values() if os.path.isdir(it.built) and sum_of_sources(it.built) != sum_of_sources(it.folder)]
    if other:
        say(f"the tree has other sources than stand here of: {', '.join(other)}")


def take_record(trials, seed):
    """Takes what the record has for known, but for a lot."""
    known = {it.crate.name: list(it.on_record().values()) for it in trials}
    lot = drawn(known, BY_LOT, seed)
    for trial in trials:
        trial.take_record(lot)
    of_crates = [f"{name} {number}" for name, found in known.items() if (number := sum(it in lot for it in found))]
    seconds = [sum(it.seconds for it in found) for found in (lot, [one for found in known.values() for one in found])]
    say(f"of the record's {seconds[1]} seconds a lot of {seconds[0]}, by the seed {seed}: {', '.join(of_crates) or 'none'}")


def words_of(words):
    parser = argparse.ArgumentParser()
    parser.add_argument("--built", metavar="TREE", default=ROOT)
    parser.add_argument("--log", metavar="FILE")
    parser.add_argument("--seed", metavar="N")
    for name in ("--all", "--anew", "--write"):
        parser.add_argument(name, action="store_true")
    parser.add_argument("--compare", nargs="+", metavar="LOG")
    parser.add_argument("names", nargs="*", metavar="NAME")
    return parser.parse_args(words)


def compare(record, files):
    """Looks for each line of the record in these logs."""
    logs = [open(it, encoding="utf-8", errors="replace").read() for it in files]
    unlike = record.unlike(logs)
    for it in unlike:
        print(f"FAILED: no log has this line of the record: {it.line()}")
    print(f"{len(record.refusals) - len(unlike)} passed, {len(unlike)} failed")
    return 1 if unlike else 0


def tell(trials):
    """Says what took longest, what is refused by little, and what failed; gives how many edits failed."""
    dearest = sorted((it for it in trials if it.took), key=lambda it: -it.took)[:10]
    say("dearest crates, in seconds: " + (", ".join(f"{it.crate.name} {it.took:.0f}" for it in dearest) or "none"))
    for by, what in (("names", "names that the edit took away"), ("borrow", "what the borrow checker does not cover")):
        weak = sorted(one.label for it in trials for one in it.refused.values() if one.by == by)
        say(f"refused only because of {what}: {', '.join(weak) or 'none'}")
    faults = [(edit, why) for it in trials for edit, why in it.faults]
    for edit, why in faults:
        say(f"FAILED: {edit.label}: {why}")
    return len({edit for edit, _ in faults})


def main(words):
    said = words_of(words)
    record = Record(f"{ROOT}/tests/refused-edits")
    if said.compare:
        return compare(record, said.compare)
    kit = kit_of_rt()
    found, builds = Found(Kept(kit, said.anew), record, said.write), Builds(kit, said.built, said.log)
    if not found.kept.is_usable:
        say(f"{found.kept.at} cannot be written to, so nothing is kept for the next run")
    with tempfile.TemporaryDirectory(prefix="sources-") as room:
        copy_sources(room)
        crates, kit_sum = crates_of(ROOT, room, builds), sum_of_kit(kit)
        tell_other_sources(crates)
        edits = {it: edits_of(crates[it]) for it in (said.names or crates)}
        trials = [Trial(crates[it], of_crate, kit_sum, found) for it, of_crate in edits.items() if of_crate]
        if not (said.all or said.anew or said.names):
            take_record(trials, seed_of(said.seed))
        if said.write:
            there = {it.label for name in crates for it in edits_of(crates[name])}
            record.put([one for it in trials for one in it.refused.values()], set(record.refusals) - there)
        number, found.to_try = sum(len(it.edits) for it in trials), sum(len(it.left) for it in trials)
        found.tried = 0
        say(f"{number - found.to_try} of {number} edits are known to be refused, and nothing has changed that they stand on")
        Work(trials, builds, int(os.environ.get("JOBS") or len(os.sched_getaffinity(0)))).run()
    failed = tell(trials)
    print(f"{number - failed} passed, {failed} failed")
    return 1 if failed else 0


if __name__ == "__main__":
    sys.exit(main(sys.argv[1:]))
