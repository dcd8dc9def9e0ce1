#!/usr/bin/env python3
"""Runs the tests of each crate that has any, as 'rt try' builds them: with no proof, and with checks that stop at an access
outside of memory and at a sum that does not fit.

    python3 tests/unit.py [NAME..]

JOBS says how many crates are at work at a time. The last line counts the tests; a crate whose tests did not run to their end
counts as one that failed. tests/proved_tests.py proves a part of them; 'rt ci' at the top and 'rt test' in a crate prove all."""
import glob
import os
import re
import subprocess
import sys
from concurrent.futures import ThreadPoolExecutor

from lib import ROOT

RESULT = re.compile(r"^test result: (\w+)\. (\d+) passed; (\d+) failed", re.M)


def has_tests(crate):
    for file in glob.glob(f"{ROOT}/crates/{crate}/src/**/*.rt", recursive=True):
        with open(file, encoding="utf-8") as text:
            if re.search(r"^\s*#\[test\]", text.read(), re.M):
                return True
    return False


def run(crate):
    """Runs the tests of a crate: how many passed and failed, and what is to be said."""
    how = {"stdin": subprocess.DEVNULL, "stdout": subprocess.PIPE, "stderr": subprocess.STDOUT}
    ran = subprocess.run(["rt", "try", "--test"], cwd=f"{ROOT}/crates/{crate}", errors="replace", **how)
    result = RESULT.search(ran.stdout)
    passed, failed = (int(result[2]), int(result[3])) if result else (0, 1)
    if ran.returncode and not failed:
        failed = 1
    if failed:
        return passed, failed, f"{ran.stdout[-6000:]}\nFAILED: the tests of {crate}"
    return passed, failed, f"{crate}: {passed} passed"


def main(names):
    crates = names or sorted(it for it in os.listdir(f"{ROOT}/crates") if has_tests(it))
    passed = failed = 0
    with ThreadPoolExecutor(int(os.environ.get("JOBS") or len(os.sched_getaffinity(0)))) as pool:
        for of_crate in pool.map(run, crates):
            passed, failed = passed + of_crate[0], failed + of_crate[1]
            print(of_crate[2], flush=True)
    print(f"{passed} passed, {failed} failed")
    return 1 if failed else 0


if __name__ == "__main__":
    sys.exit(main(sys.argv[1:]))
