#!/usr/bin/env python3
"""What certview --check says of real certificates and lists, beside the rules of RFC 5280 by its text (lib/rule_oracle.py).

    python3 tests/rules.py [--room FOLDER] [--least N]

The certificates and lists are those of the system, and of Debian's packages as corpus.py takes them (the room is the same).
certview is the program that `rt try` builds, or the one that CERTVIEW names. A message that certview refuses is passed over, and
counted. A difference needs a reason of REASONS. The last line counts; the status is 1 if a difference has no reason."""

import argparse
import collections
import glob
import os
import subprocess
import sys
import tempfile
from concurrent.futures import ThreadPoolExecutor

from lib import broken, programs, rule_oracle
from lib.corpus import gathered, packages
from lib.reader.octets import Refused

# The words of the rules that stand in broken.py as rows, by the section.
OLD_WORDS = {
    "signatureAlgorithm is not the algorithm of signature": "AlgorithmsAgree",
    "extensions stand in a version other than 3": "ExtensionsInVersion3",
    "version is not 2, and there are extensions": "ExtensionsInVersion2",
    "serialNumber is not positive": "SerialNumberIsPositive",
    "serialNumber has more than 20 octets": "SerialNumberHasAtMost20Octets",
    "issuer is empty": "IssuerIsNotEmpty",
    "subject is empty, and no subjectAltName is critical": "EmptySubjectHasCriticalAltName",
    "version is 1, and a unique identifier is there": "UniqueIdentifiersInVersion2",
    "extensions have one twice": "ExtensionsStandOnce",
    "crlExtensions have one twice": "ExtensionsStandOnce",
    "basicConstraints is not critical": "BasicConstraintsOfCaIsCritical",
    "nextUpdate is absent": "NextUpdateIsThere",
    "revokedCertificates has no entry": "EmptyListIsAbsent",
    "revokedCertificates has a critical reasonCode": "ReasonCodeIsNotCritical",
    "revokedCertificates has a critical invalidityDate": "InvalidityDateIsNotCritical",
    "revokedCertificates has a certificateIssuer that is not critical": "CertificateIssuerIsCritical",
    "version is not 2": "VersionIs2",
}
# Sources with more certificates than those of corpus.py.
MORE = "nodejs bouncycastle qtbase-opensource-src erlang heimdal krb5 xmlsec1 python3.11 libnet-ssleay-perl openjdk-17 golang-github-cloudflare-cfssl".split()
RULE_OF = {**{words: rule for rule, words in broken.WORDS.items()}, **OLD_WORDS}


def rule_of(line):
    """The rule of a line of certview."""
    words = line.split("breaks: RFC 5280 section ")[1].split(", ", 1)[1]
    if words in RULE_OF:
        return RULE_OF[words]
    field, _, rest = words.partition(" is ")
    if rest in ("critical", "not critical"):
        return f"{field[0].upper()}{field[1:]}Is{'Critical' if rest != 'critical' else 'NotCritical'}".replace("CRLNumber", "CrlNumber").replace(
            "FreshestCRL", "FreshestCrl").replace("DeltaCRLIndicator", "DeltaCrlIndicator")
    return next((rule for end, rule in RULE_OF.items() if words.endswith(end)), words)


def messages(room):
    """The certificates and lists: octets, and where they were found."""
    for file in sorted(glob.glob("/etc/ssl/certs/*.pem")):
        with open(file, "rb") as opened:
            for _, octets in gathered.messages_in(opened.read()):
                yield octets, file
    os.makedirs(room, exist_ok=True)
    for kind, octets, where in gathered.gather(packages.fetch(room, MORE)):
        if kind in (None, "Certificate", "CertificateList"):
            yield octets, where


def reads(octets):
    """The reading of octets that have the form of a certificate or of a list; nothing for others."""
    for read in (rule_oracle.broken_by_certificate, rule_oracle.broken_by_list):
        try:
            return read, read(octets)
        except (Refused, ValueError, IndexError):
            continue
    return None


def told(program, folder, number, octets):
    """What certview says: the rules, or nothing where it refuses the octets."""
    file = f"{folder}/{number}"
    with open(file, "wb") as opened:
        opened.write(octets)
    ran = subprocess.run([program, "--check", "--fields", "breaks", file], capture_output=True, timeout=120)
    if b"refused (" in ran.stdout + ran.stderr:
        return None
    return {rule_of(line) for line in ran.stdout.decode().splitlines() if "breaks: " in line}


def compare(program, folder, gathered_messages):
    """Each message's two answers; the tally of kinds, and the differences."""
    counts, differences, seen, work = collections.Counter(), [], set(), []
    for octets, where in gathered_messages:
        found = reads(octets) if octets not in seen else None
        seen.add(octets)
        if found:
            work.append((octets, where, *found))
    with ThreadPoolExecutor(int(os.environ.get("JOBS") or os.cpu_count())) as pool:
        answers = pool.map(lambda it: told(program, folder, it[0], it[1][0]), enumerate(work))
        for (octets, where, read, wanted), answer in zip(work, answers):
            kind = "certificates" if read is rule_oracle.broken_by_certificate else "lists"
            counts[kind if answer is not None else f"{kind} that certview refuses"] += 1
            if answer is not None:
                counts[f"words of {kind}"] += len(answer)
                differences += [(rule, rule in answer, where, octets) for rule in sorted(answer ^ wanted)]
    return counts, differences


def main():
    words = argparse.ArgumentParser()
    words.add_argument("--room", default=os.path.expanduser("~/.cache/der-corpus"))
    words.add_argument("--least", type=int, default=3000, help="how many certificates there must be")
    words = words.parse_args()
    with tempfile.TemporaryDirectory(prefix="der-rules-") as folder:
        program = programs.built_by_try("certview", folder, refuses=False)
        counts, differences = compare(program, folder, messages(words.room))
    for rule, is_told, where, octets in differences:
        print(f"rules: {rule} is {'' if is_told else 'not '}told of {where}: {octets.hex()[:4000]}")
    print("rules: " + ", ".join(f"{count} {what}" for what, count in counts.most_common()) + f"; {len(differences)} differences")
    return 1 if differences or counts["certificates"] < words.least else 0


if __name__ == "__main__":
    sys.exit(main())
