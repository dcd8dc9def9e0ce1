#!/usr/bin/env python3
"""Compares the oracles of path validation with others. They are programs in Python, no part of the crates: `lib/path_oracle.py` of the steps
of RFC 5280 section 6.1, `lib/path_signatures.py` of signatures, `lib/revocation_oracle.py` of lists of revoked certificates (6.3).

    python3 tests/path_oracles.py [--rest] [--chains 2000] [--seed N]

All answers of NIST's Public Key Interoperability Test Suite (PKITS) are to come out; --rest prints the tests that rest on a signature or on
lists, with the step. Random chains are compared with `openssl verify`: the answer, a failure for each of OpenSSL's errors, the policies.
OpenSSL reads some clauses otherwise (READINGS of `lib/path_peer.py`): a difference is to vanish with some of these readings, and is
counted by them.

PKITS is Debian's package python3-cryptography-vectors; signatures and random chains need python3-cryptography, and these openssl 3. What is
not there is named and left out. The last line counts."""

import argparse
import shutil
import sys
import tempfile
from collections import Counter
from concurrent.futures import ThreadPoolExecutor

sys.dont_write_bytecode = True
from lib import chain_maker, chain_parts, path_peer, pkits
from lib.path_certificate import Certificate
from lib.path_oracle import answer
from lib.trials import Trials

try:
    from lib import path_signatures, revocation_oracle
except ImportError:
    path_signatures = None
TESTS, SETTINGS = 224, 247
AT_ONCE = 2
# Each of these steps is to be the first that fails in some random chain.
STEPS = {"6.1.3 (a)(2)", "6.1.3 (a)(4)", "6.1.3 (b)", "6.1.3 (c)", "6.1.3 (f)", "6.1.4 (a)", "6.1.4 (k)", "6.1.4 (l)", "6.1.4 (n)", "6.1.4 (o)",
         "6.1.5 (f)", "6.1.5 (g)"}


def wrong_path(row, files):
    """What is wrong with the answer of 6.1, without signatures and lists."""
    found = answer(files.anchor, files.path(row), row.settings)
    if row.path_answer is not None:
        return found != row.path_answer and f"{found}, not {row.path_answer}"
    return found[0] != "valid" and f"{found}, not valid"


def wrong_signature(row, anchor, path):
    wanted = row.refused if row.step == pkits.SIGNATURE else None
    found = path_signatures.first_bad(anchor, path)
    return found != wanted and f"the signature of {found}, not of {wanted}"


def wrong_revocation(row, files, anchor, path):
    """What is wrong with the answer of 6.3: where the row rests on it, the certificate and the step, and else that none is refused, if
    the path is valid."""
    lists = [revocation_oracle.List(it) for it in files.lists(row)]
    certificates = [*path, *map(Certificate, files.others(row))]
    found = revocation_oracle.Checker(anchor, pkits.MOMENT, lists, certificates, row.number.startswith("4.15.")).first_bad(path)
    if row.step.startswith(pkits.REVOCATION):
        step = row.step.removeprefix(pkits.REVOCATION).strip()
        return (found is None or found[0] != row.refused or step not in found[1]) and f"{found}, not {row.refused} {step}"
    return row.is_valid and found and f"{found}, and the path is valid"


def try_pkits(trials, rows):
    place = pkits.folder()
    if place is None:
        trials.left_out("PKITS", f"{pkits.PACKAGE} (or a folder that PKITS_DATA names)")
        return
    if path_signatures is None:
        trials.left_out("signatures and lists of PKITS", "python3-cryptography")
    files = pkits.Files(place)
    anchor = Certificate(files.anchor)
    for row in rows:
        trials.count(f"{row.number} {row.name}", wrong_path(row, files))
        if path_signatures:
            path = [Certificate(it) for it in files.path(row)]
            trials.count(f"{row.number} {row.name}: signatures", wrong_signature(row, anchor, path))
            trials.count(f"{row.number} {row.name}: lists", wrong_revocation(row, files, anchor, path))


def try_random(trials, seed, count):
    """Random chains beside openssl."""
    if path_signatures is None or not shutil.which("openssl"):
        trials.left_out("random chains", "python3-cryptography or openssl")
        return
    chains, used, steps = chain_maker.chains(seed, count, chain_parts.Signer()), Counter(), Counter()
    with tempfile.TemporaryDirectory(prefix="chains-") as room, ThreadPoolExecutor(AT_ONCE) as pool:
        answers = list(pool.map(lambda it: path_peer.ask(it[1], f"{room}/{it[0]}"), enumerate(chains)))
    for number, (chain, theirs) in enumerate(zip(chains, answers)):
        found = answer(chain.anchor, chain.path, chain.settings)
        steps[found[2] if found[0] == "refused" else found[0]] += 1
        names = path_peer.readings_between(chain, theirs)
        used.update(names or ())
        trials.count(f"chain {number} of seed {seed} ({chain.about})", names is None and f"{found}; openssl: {theirs.is_valid}, {theirs.errors}, {theirs.policies}")
    for name in path_peer.READINGS:
        print(f"path oracles: OpenSSL differs in {used[name]} of {count} chains by {name}")
    print(f"path oracles: {count} chains, of which {steps['valid']} are valid, seed {seed}")
    if count >= chain_maker.ENOUGH:
        trials.tell("the steps of random chains", sorted(STEPS - set(steps)))


def main(words):
    parser = argparse.ArgumentParser()
    parser.add_argument("--rest", action="store_true")
    parser.add_argument("--chains", type=int, default=2000)
    parser.add_argument("--seed", type=int, default=9618)
    given = parser.parse_args(words)
    trials, rows = Trials("path oracles"), pkits.rows()
    tests = {".".join(row.number.split(".")[:3]) for row in rows}
    trials.tell("the rows of PKITS", (len(tests), len(rows)) != (TESTS, SETTINGS) and f"{len(tests)} tests, {len(rows)} settings")
    for row in rows:
        if given.rest and not row.is_of_path:
            print(f"{row.number} {row.name}: certificate {row.refused}, {row.step}")
    try_pkits(trials, rows)
    try_random(trials, given.seed, given.chains)
    return trials.end()


if __name__ == "__main__":
    sys.exit(main(sys.argv[1:]))
