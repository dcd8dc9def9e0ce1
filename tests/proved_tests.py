#!/usr/bin/env python3
"""Proves a twentieth of the test functions: that they are safe, return, and meet what the calls ask that they make. So it is seen
that a caller can meet the contracts. tests/unit.py runs all tests, and proves none.

    python3 tests/proved_tests.py [--built TREE] [--seed N] [--all] [NAME..]

A lot draws the functions, of few crates (lots.py). It falls anew in each run, since its seed is the time; the run prints the seed,
and '--seed' has the same lot fall again. With --all the tests of all crates are proved, or those of the crates of these names.
TREE is a copy of the repository in which 'rt ci' has built the libraries; without it, what 'rt check' has built is taken. JOBS
says how many crates are at work at a time. The last line counts."""
import argparse
import glob
import os
import re
import sys
import tempfile
from concurrent.futures import ThreadPoolExecutor

from lib import ROOT
from lib.edit_checks import Answer, Builds, crates_of, kit_of_rt, ran
from lib.lots import drawn_tests, seed_of

TEST = re.compile(r"^#\[test\]\n(?:#\[.*\]\n)*fn (\w+)", re.M)
SHARE = 1 / 20


def tests_of(crate):
    """The test functions of a crate, as a check names them."""
    found = []
    for file in sorted(glob.glob(f"{crate.folder}/src/**/*.rt", recursive=True)):
        path = os.path.relpath(file, f"{crate.folder}/src")[:-3]
        module = [] if path in ("lib", "main") else path.split("/")
        with open(file, encoding="utf-8") as text:
            found += ["::".join([crate.name, *module, it]) for it in TEST.findall(text.read())]
    return found


def prove(crate, tests):
    """Has these tests of a crate proved: what is said of each, and the processor seconds that this took."""
    if not crate.builds.has(crate):
        return dict.fromkeys(tests, "a library below is not built: see 'rt ci', or run 'rt all check' first"), 0
    with tempfile.TemporaryDirectory(prefix="tests-") as kept:
        text, status, seconds = ran([*crate.command(kept, tests), "--test"], crate.folder)
    answer = Answer(text, status, seconds)
    if not answer.judged:
        return dict.fromkeys(tests, f"status {status}: {text[-2000:]}"), seconds
    return {it: answer.said.get(it, "nothing is said of it") for it in tests}, seconds


def words_of(words):
    parser = argparse.ArgumentParser()
    parser.add_argument("--built", metavar="TREE", default=ROOT)
    parser.add_argument("--seed", metavar="N")
    parser.add_argument("--all", action="store_true")
    parser.add_argument("names", nargs="*", metavar="NAME")
    return parser.parse_args(words)


def main(words):
    said = words_of(words)
    crates = crates_of(ROOT, f"{ROOT}/crates", Builds(kit_of_rt(), said.built, None))
    tests = {it: found for it in (said.names or crates) if (found := tests_of(crates[it]))}
    number = sum(map(len, tests.values()))
    if not (said.all or said.names):
        seed = seed_of(said.seed)
        tests = drawn_tests(tests, SHARE, seed)
        print(f"of {number} tests a lot of {sum(map(len, tests.values()))}, by the seed {seed}", flush=True)
    passed = failed = 0
    with ThreadPoolExecutor(int(os.environ.get("JOBS") or len(os.sched_getaffinity(0)))) as pool:
        for name, (found, seconds) in zip(tests, pool.map(lambda it: prove(crates[it], tests[it]), tests)):
            # (a test is one that may abort, where an assertion fails)
            wrong = {it: why for it, why in found.items() if why not in ("proved", "proved, may abort")}
            passed, failed = passed + len(found) - len(wrong), failed + len(wrong)
            print(f"{name}: {len(found) - len(wrong)} of {len(found)} tests are proved, in {seconds:.0f} processor seconds", flush=True)
            for it, why in wrong.items():
                print(f"FAILED: {it}: {why}", flush=True)
    print(f"{passed} passed, {failed} failed")
    return 1 if failed else 0


if __name__ == "__main__":
    sys.exit(main(sys.argv[1:]))
