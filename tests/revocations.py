#!/usr/bin/env python3
"""Compares `list_status`, `revocation_status` and `ocsp_status` of `der_path` with programs in Python by the text of the RFCs.

    python3 tests/revocations.py [--answers 3000] [--seed N]

Lists: each certificate of NIST's Public Key Interoperability Test Suite (PKITS) beside each list of its row, and beside all lists of its row, with and
without deltas, by `lib/revocation_oracle.py` without signatures and paths of issuers. That oracle gives PKITS' own answers (`path_oracles.py`). OCSP:
answers at random, by `lib/ocsp_oracle.py`.

The program `revocations/main.txt` reads the lines; building it needs a C compiler. PKITS is Debian's package python3-cryptography-vectors.
What is not there is named and left out. The last line counts."""

import argparse
import subprocess
import sys
import tempfile

sys.dont_write_bytecode = True
from lib import ocsp_maker, ocsp_oracle, pkits, programs
from lib.path_certificate import Certificate
from lib.trials import Trials

try:
    from lib import revocation_oracle
except ImportError:
    revocation_oracle = None
USES = "der_elem der_numbers der_ocsp der_path der_pkix hex"
# Their dates begin in 1950, and the crates read no date before 1970 (docs/FORMAT.md).
BEFORE_1970 = {"Validpre2000UTCnotBeforeDateTest3EE"}


class Unsigned(revocation_oracle.Checker if revocation_oracle else object):
    """The oracle without the steps of signatures: the key of an issuer verifies all."""

    def key_of_issuer(self, certificate, above, listed):
        return self

    def verifies(self, *signed):
        return True

    def status_by(self, certificate, above, point, listed, reasons):
        """Keeps the reasons that are known, and the list that was last asked."""
        self.known, self.last = reasons, listed
        return super().status_by(certificate, above, point, listed, reasons)

    def last_reason(self, certificate):
        """The reason that the list that was last asked has, or its delta."""
        delta = self.delta_for(self.last) if self.use_deltas else None
        found = delta.reason_for(certificate) if delta else None
        return self.last.reason_for(certificate) if found is None else found


def wanted_of_list(certificate, listed):
    checker, own = Unsigned(None, pkits.MOMENT, [listed], [], False), revocation_oracle.OwnPoint(certificate)
    try:
        step, reasons = checker.status_by(certificate, [], own, listed, set())
    except revocation_oracle.Refuses as refused:
        return f"refused {refused}"
    status = f"revoked {listed.reason_for(certificate)}" if step else "unrevoked"
    return " ".join([status, *(f"r{it}" for it in sorted(reasons))])


def wanted_of_lists(certificate, lists, use_deltas):
    checker = Unsigned(None, pkits.MOMENT, lists, [], use_deltas)
    steps = checker.status(certificate, [])
    if steps is None:
        return "unrevoked"
    if steps in ({"6.3.3 (i)"}, {"6.3.3 (j)"}):
        return f"revoked {checker.last_reason(certificate)}"
    return " ".join(["undetermined", *(f"r{it}" for it in sorted(checker.known))])


def line_of(kind, moment, *octets):
    return " ".join(it.hex() for it in (bytes([kind]), moment.to_bytes(8, "big"), *octets))


def list_cases(trials):
    """Each certificate of a row beside each list of the row, and beside all of them, once: a name, a line, and the answer to it."""
    place = pkits.folder()
    if place is None or revocation_oracle is None:
        trials.left_out("PKITS", f"{pkits.PACKAGE} (or a folder that PKITS_DATA names) or python3-cryptography")
        return []
    files = pkits.Files(place)
    pairs = {(certificate, name): None for row in pkits.rows() for certificate in row.certificates for name in row.lists}
    rows = {(certificate, tuple(row.lists), deltas): None for row in pkits.rows() for certificate in row.certificates for deltas in (False, True)}
    return [list_case(files, *pair) for pair in pairs] + [lists_case(files, *row) for row in rows]


def list_case(files, certificate, name):
    octets, listed = files.octets("crt", certificate), files.octets("crl", name)
    wanted = "no certificate" if certificate in BEFORE_1970 else wanted_of_list(Certificate(octets), revocation_oracle.List(listed))
    return f"{certificate} in {name}", line_of(0, pkits.MOMENT, octets, listed), wanted


def lists_case(files, certificate, names, use_deltas):
    octets, lists = files.octets("crt", certificate), [files.octets("crl", name) for name in names]
    read = [revocation_oracle.List(it) for it in lists]
    wanted = "no certificate" if certificate in BEFORE_1970 else wanted_of_lists(Certificate(octets), read, use_deltas)
    line = line_of(1, pkits.MOMENT, octets, bytes([use_deltas]), *lists)
    return f"{certificate} in {', '.join(names)} with{'' if use_deltas else 'out'} deltas", line, wanted


def ocsp_cases(seed, count):
    return [ocsp_case(f"answer {at} of seed {seed}", it) for at, it in enumerate(ocsp_maker.cases(seed, count))]


def ocsp_case(name, made):
    issuer = Certificate(made.issuer).subject
    wanted = ocsp_oracle.status(ocsp_oracle.Answer(made.answer), issuer, made.wanted, made.moment)
    return name, line_of(2, made.moment, made.issuer, made.answer, *made.wanted), wanted


def answers(program, cases):
    lines = "".join(f"{line}\n" for _, line, _ in cases)
    ran = subprocess.run([program], input=lines.encode(), stdout=subprocess.PIPE, check=True)
    return ran.stdout.decode().splitlines()


def main(words):
    parser = argparse.ArgumentParser()
    parser.add_argument("--answers", type=int, default=3000)
    parser.add_argument("--seed", type=int, default=6960)
    given = parser.parse_args(words)
    trials = Trials("revocations")
    cases = list_cases(trials) + ocsp_cases(given.seed, given.answers)
    with tempfile.TemporaryDirectory(prefix="revocations-") as room:
        programs.build("revocations", f"{room}/revocations", f"{programs.TESTS}/revocations", USES, refuses=False)
        told = answers(f"{room}/revocations", cases)
    trials.tell("the number of answers", len(told) != len(cases) and f"{len(told)}, not {len(cases)}")
    for (name, _, wanted), answer in zip(cases, told):
        trials.count(name, answer != wanted and f"{answer}, not {wanted}")
    return trials.end()


if __name__ == "__main__":
    sys.exit(main(sys.argv[1:]))
