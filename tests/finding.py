#!/usr/bin/env python3
"""Compares `find_path` of `der_path` with `lib/path_finder.py`: for the paths of NIST's Public Key Interoperability Test Suite (PKITS), whose
certificates are shuffled among others, and for random pools of certificates. Each path that is found in turn is compared, and the end.

    python3 tests/finding.py [--pools 500] [--seed N]

The program `finding/main.txt` reads the pools; building it needs a C compiler. Without PKITS (tests/paths.py says where it is) its rows are
named and left out. The last line counts."""

import argparse
import random
import subprocess
import sys
import tempfile

sys.dont_write_bytecode = True
from lib import chain_maker, path_finder, pkits, programs
from lib.trials import Trials

USES = "der_elem der_path der_pkix hex"
# Its end certificate begins in 1950, and the crates read no date before 1970 (docs/FORMAT.md).
BEFORE_1970 = "4.2.3 "
# So many paths of a pool are compared.
MOST = 6


def line_of(case, skip):
    anchors, certificates, settings, depth, limit = case
    flags = bytes([settings.mapping_inhibit, settings.explicit_policy, settings.any_policy_inhibit])
    numbers = [settings.moment.to_bytes(8, "big"), flags, *(it.to_bytes(4, "big") for it in (depth, limit, skip))]
    parts = [[*numbers, *sorted(settings.policies)], anchors, certificates]
    return " - ".join(" ".join(it.hex() for it in part) for part in parts)


def word_of(found, certificates):
    """The line of the program, but for the order of policies."""
    if isinstance(found, str):
        return found
    if isinstance(found, path_finder.Found):
        chain = " ".join(str(certificates.index(it)) for it in found.path)
        return f"found {found.anchor} {chain}", frozenset(it.hex() for it in found.policies)
    _, path, told = found
    chain = " ".join(str(certificates.index(it)) for it in path)
    why = f"refused {told[1] - 1} {told[2]}" if told[0] == "refused" else f"unread {told[1] - 1}"
    return f"{why} - {chain}"


def told_by(line):
    front, _, policies = line.partition(" -")
    return (front, frozenset(policies.split())) if front.startswith("found") else line


def wanted_of(case):
    """What the program has to say for the first path, the second, and so on, up to what ends the search."""
    anchors, certificates, settings, depth, limit = case
    words = []
    for found in path_finder.find(anchors, certificates, settings, depth, limit):
        words.append(word_of(found, certificates))
        if len(words) == MOST:
            break
    return words


def pkits_cases(trials):
    place = pkits.folder()
    if place is None:
        trials.left_out("PKITS", f"{pkits.PACKAGE} (or a folder that PKITS_DATA names)")
        return []
    files, rows, dice = pkits.Files(place), pkits.rows(), random.Random(5280)
    others = [it for row in rows for it in files.path(row)]
    cases = []
    for row in rows:
        path = files.path(row)
        pool = path[:-1] + dice.sample(others, 12) + path[:-1][:1]
        dice.shuffle(pool)
        cases.append((f"{row.number} {row.name}", row, ([files.anchor], [path[-1], *pool], row.settings, 8, 400)))
    return cases


def random_cases(seed, count):
    maker, dice = chain_maker.Maker(seed), random.Random(seed)
    made = [maker.chain() for _ in range(2 * count)]
    cases = []
    for at in range(count):
        own = made[at]
        pool = [it for chain in [own, *dice.sample(made, 5)] for it in chain.path[: dice.choice([1, 3, 6])]]
        pool += [*own.path[:-1], dice.choice(pool), pool[0][:-1]]
        dice.shuffle(pool)
        anchors = dice.choice([[own.anchor], [own.anchor] * 2, [made[at + 1].path[0], own.anchor], [own.path[0], own.anchor]])
        depth, limit = dice.choice([3, 6, 6, 6]), dice.choice([4, 300, 300, 300])
        cases.append((f"pool {at} of seed {seed}", None, (anchors, [own.path[-1], *pool], own.settings, depth, limit)))
    return cases


def answers(program, lines):
    ran = subprocess.run([program], input=("\n".join(lines) + "\n").encode(), stdout=subprocess.PIPE, check=True)
    return [told_by(it) for it in ran.stdout.decode().splitlines()]


def is_of(row, found):
    """Whether what was found first is the path of a row of PKITS, with its policies, or none where the row's is refused."""
    if row.path_answer and row.path_answer[0] == "valid":
        return isinstance(found, tuple) and found[1] == frozenset(it.hex() for it in row.policies)
    return True


def main(words):
    parser = argparse.ArgumentParser()
    parser.add_argument("--pools", type=int, default=500)
    parser.add_argument("--seed", type=int, default=4158)
    given = parser.parse_args(words)
    trials = Trials("finding")
    cases = pkits_cases(trials) + random_cases(given.seed, given.pools)
    wanted = []
    for name, row, case in cases:
        is_early = name.startswith(BEFORE_1970)
        words = ["not read"] if is_early else wanted_of(case)
        wanted += [(name, None if is_early else row, case, skip, want) for skip, want in enumerate(words)]
    with tempfile.TemporaryDirectory(prefix="finding-") as room:
        programs.build("finding", f"{room}/finding", f"{programs.TESTS}/finding", USES, refuses=False)
        found = answers(f"{room}/finding", [line_of(case, skip) for _, _, case, skip, _ in wanted])
    trials.tell("the number of answers", len(found) != len(wanted) and f"{len(found)}, not {len(wanted)}")
    for (name, row, _, skip, want), told in zip(wanted, found):
        trials.count(f"{name}, path {skip}", told != want and f"{told}, not {want}")
        if row and skip == 0:
            trials.count(f"{name}, the path of the document", not is_of(row, told))
    return trials.end()


if __name__ == "__main__":
    sys.exit(main(sys.argv[1:]))
