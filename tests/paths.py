#!/usr/bin/env python3
"""Compares `check_path` of `der_path` with others: with the answers of NIST's Public Key Interoperability Test Suite (PKITS) that rest on
neither signatures nor lists, and with `lib/path_oracle.py` for all rows and for random chains, some with initial constraints of names. What
has to verify is compared with `lib/path_signatures.py`: each certificate's octets, and the key with the parameters that it inherits.

    python3 tests/paths.py [--chains 2000] [--seed N]

The program `paths/main.txt` reads the chains; building it needs a C compiler. PKITS is Debian's package python3-cryptography-vectors; random
chains need python3-cryptography. What is not there is named and left out. The last line counts."""

import argparse
import random
import subprocess
import sys
import tempfile

sys.dont_write_bytecode = True
from lib import chain_maker, chain_parts, pkits, programs
from lib.octets import integer, sequence, tlv
from lib.path_certificate import Certificate
from lib.path_oracle import answer
from lib.trials import Trials

try:
    from lib import path_signatures
except ImportError:
    path_signatures = None
USES = "der_elem der_extensions der_path der_pkix hex"
# Its first certificate begins in 1950, and the crates read no date before 1970 (docs/FORMAT.md).
BEFORE_1970 = "4.2.3 "
ALGORITHMS = [tlv(6, bytes.fromhex(it)) for it in ("2a864886f70d010101", "2a8648ce380401", "2a8648ce3d0201")]


class Keys(chain_parts.NoSigner):
    """Keys of some algorithms, with parameters, with NULL or with none."""

    def __init__(self, seed):
        self.random = random.Random(seed)

    def key(self, number):
        parameters = self.random.choice([b"", b"", b"\5\0", sequence(integer(number + 1))])
        return sequence(sequence(self.random.choice(ALGORITHMS), parameters), tlv(3, b"\0", bytes([number + 1]) * 64))


def line_of(anchor, path, settings):
    flags = bytes([settings.mapping_inhibit, settings.explicit_policy, settings.any_policy_inhibit])
    words = [settings.moment.to_bytes(8, "big"), flags, settings.constraints, *sorted(settings.policies)]
    return " ".join([*(it.hex() for it in words), "-", *(it.hex() for it in (anchor, *path))])


def wanted_for(found):
    """The line of the program for an answer of the oracle, but for the order of policies; the first certificate has the index 0."""
    if found[0] == "valid":
        return "valid", frozenset(it.hex() for it in found[1])
    if found[0] == "refused":
        return f"refused {found[1] - 1} {found[2]}", None
    return f"unread {found[1] - 1}", None


def to_verify(anchor, path):
    """What has to verify, in the words of the program: the octets of each certificate, and the key before it with its parameters."""
    certificates = [Certificate(it) for it in (anchor, *path)]
    listed = []
    for certificate, before, key in zip(certificates[1:], certificates, path_signatures.keys_of(certificates[0], certificates[1:])):
        words = [certificate.signed, certificate.signature[1:], certificate.algorithm, before.key.whole]
        listed.append([it.hex() for it in words + ([] if key.parameters in (None, b"\5\0") else [key.parameters])])
    return listed


def told_by(line):
    """The answer of the program, and what has to verify."""
    if line.startswith("not read "):
        return (f"unread {line.split()[2]}", None), None
    first, *listed = [it.split() for it in line.split(" - ")]
    return (("valid", frozenset(first[1:])), listed) if first[0] == "valid" else ((line, None), None)


def answers(program, cases):
    lines = "\n".join(line_of(*case) for case in cases) + "\n"
    ran = subprocess.run([program], input=lines.encode(), stdout=subprocess.PIPE, check=True)
    return [told_by(it) for it in ran.stdout.decode().splitlines()]


def pkits_cases(trials):
    place = pkits.folder()
    if place is None:
        trials.left_out("PKITS", f"{pkits.PACKAGE} (or a folder that PKITS_DATA names)")
        return []
    files = pkits.Files(place)
    return [(f"{row.number} {row.name}", row.path_answer, (files.anchor, files.path(row), row.settings)) for row in pkits.rows()]


def random_cases(trials, seed, count):
    if path_signatures is None:
        trials.left_out("random chains", "python3-cryptography")
        return []
    chains = chain_maker.chains(seed, count, Keys(seed), is_constrained=True)
    return [(f"chain {at} of seed {seed} ({it.about})", None, (it.anchor, it.path, it.settings)) for at, it in enumerate(chains)]


def main(words):
    parser = argparse.ArgumentParser()
    parser.add_argument("--chains", type=int, default=2000)
    parser.add_argument("--seed", type=int, default=9618)
    given = parser.parse_args(words)
    trials = Trials("paths")
    cases = pkits_cases(trials) + random_cases(trials, given.seed, given.chains)
    with tempfile.TemporaryDirectory(prefix="paths-") as room:
        programs.build("paths", f"{room}/paths", f"{programs.TESTS}/paths", USES, refuses=False)
        found = answers(f"{room}/paths", [case for _, _, case in cases])
    trials.tell("the number of answers", len(found) != len(cases) and f"{len(found)}, not {len(cases)}")
    for (name, known, case), (told, listed) in zip(cases, found):
        wanted = ("unread 1", None) if name.startswith(BEFORE_1970) else wanted_for(known or answer(*case))
        trials.count(name, told != wanted and f"{told}, not {wanted}")
        if listed is not None and path_signatures:
            trials.count(f"{name}: what has to verify", listed != to_verify(*case[:2]) and f"{listed}")
    return trials.end()


if __name__ == "__main__":
    sys.exit(main(sys.argv[1:]))
