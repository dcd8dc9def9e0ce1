#!/usr/bin/env python3
"""Tries the sources that must be refused, each as a crate of its own above those of the repository.

    python3 tests/refused.py [--built TREE]

A file of tests/refused must not compile; its first two lines have the crates that it stands on, and what the check must
say. A folder of tests/not-proved compiles, and the prover must refuse it: the file 'expects' has the crates that it stands
on, and what the check must say; the sources end in .txt, since 'rt ci' takes no others outside of crates/. TREE is a copy
of the repository in which 'rt ci' has built the crates; without it, what 'rt check' has built is taken."""
import glob
import os
import shutil
import sys
import tempfile

from lib import ROOT
from lib.edit_checks import Builds, Crate, crates_of, kit_of_rt


def copy_file(source, room):
    """Makes a crate of a file that must not compile; gives the crates that it stands on, and what the check must say."""
    with open(source, encoding="utf-8") as file:
        first, second, rest = file.read().split("\n", 2)
    os.makedirs(f"{room}/src")
    os.makedirs(f"{room}/specs")
    for path, text in (("src/lib.rt", rest), ("specs/Lib.antt", "")):
        with open(f"{room}/{path}", "w", encoding="utf-8") as file:
            file.write(text)
    return first.removeprefix("uses: ").split(), second.removeprefix("expects: ")


def copy_folder(source, room):
    """The same of a folder that must not be proved."""
    for path in glob.glob(f"{source}/*/*.txt"):
        to = f"{room}/{os.path.relpath(path, source)[:-4]}"
        os.makedirs(os.path.dirname(to), exist_ok=True)
        shutil.copy(path, to)
    with open(f"{source}/expects", encoding="utf-8") as file:
        said = dict(it.split(": ", 1) for it in file.read().splitlines())
    return said["uses"].split(), said["expects"]


def wrong(source, crates, builds):
    """What is wrong with the refusal of a source, or none."""
    is_folder = os.path.isdir(source)
    with tempfile.TemporaryDirectory(prefix="refused-") as room, tempfile.TemporaryDirectory(prefix="kept-") as kept:
        uses, expected = (copy_folder if is_folder else copy_file)(source, f"{room}/crate")
        crate = Crate(os.path.basename(source) if is_folder else "refused", uses, crates, f"{room}/crate", builds)
        if not builds.has(crate):
            return "a crate that it stands on is not built: run 'rt check' in the crates above that, or 'rt all check'"
        answer = crate.check({}, kept, set())
    if answer.proves():
        return "it is proved" if is_folder else "it compiles"
    if expected not in answer.text:
        return f"it is refused for another reason:\n{answer.text}"
    return None if answer.judged == is_folder else f"it is refused at another stage:\n{answer.text}"


def main(words):
    tree = words[1] if words[:1] == ["--built"] else ROOT
    builds = Builds(kit_of_rt(), tree, None)
    crates = crates_of(ROOT, f"{ROOT}/crates", builds)
    sources, found = sorted(glob.glob(f"{ROOT}/tests/refused/*.txt") + glob.glob(f"{ROOT}/tests/not-proved/*")), []
    for source in sources:
        why = wrong(source, crates, builds)
        found += [why] if why else []
        print(f"refused: {os.path.relpath(source, ROOT)}: {why or 'refused for its reason'}", flush=True)
    return 1 if found else 0


if __name__ == "__main__":
    sys.exit(main(sys.argv[1:]))
