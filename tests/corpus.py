#!/usr/bin/env python3
"""Messages of Debian's packages: each member that the package derproved finds in them, beside asn1crypto and `cryptography`.

    python3 tests/corpus.py [--room FOLDER] [--derproved FOLDER]

The packages are those of tests/lib/corpus/packages.py, of Debian's release that it names; apt fetches them into the room,
~/.cache/der-corpus, and nothing is installed. A message is a PEM block, a file that is one SEQUENCE, or a message of S/MIME;
each is taken once. derproved is imported from the folder, as `setup.py build --build-lib` writes it, else as it is installed.
A difference needs a reason of tests/lib/corpus/reasons.py. The last line counts what was compared; the status is 1 if a
difference has no reason. It needs python3-asn1crypto and python3-cryptography."""

import argparse
import collections
import os
import sys
import warnings

# What is counted besides keys, also where it stands in another message: certificates, lists, OCSP, requests, CMS, PKCS #12.
COUNTED = {"Certificate", "CertificateList", "OcspRequest", "OcspResponse", "CertificationRequest", "ContentInfo", "Pfx"}
DEBIAN = "/usr/lib/python3/dist-packages"  # of python3-asn1crypto, for another python3


def words_of_run():
    words = argparse.ArgumentParser()
    words.add_argument("--room", default=os.path.expanduser("~/.cache/der-corpus"))
    words.add_argument("--derproved", help="a folder that has the package")
    words.add_argument("--least", type=int, default=5000, help="how many messages there must be that are no keys")
    words.add_argument("--show", type=int, default=3, help="how many differences without a reason are shown of each sort")
    return words.parse_args()


def compare_all(messages, tally, kinds):
    """Compares all messages; the number of each kind goes to `kinds`."""
    from lib.corpus import beside_asn1crypto, beside_cryptography
    from lib.corpus.kinds import kind_of

    first, second = beside_asn1crypto.Beside(tally), beside_cryptography.Beside(tally)
    for kind, octets, where in messages:
        kind = kind or kind_of(octets)
        kinds[kind or "no message for either reader"] += 1
        tally.found_in = where
        if kind:
            first.message(kind, octets, deep=True)
            second.message(kind, octets)


def tell_reasons(tally):
    """The differences by reason; answers those without one."""
    from lib.corpus.reasons import reason_of

    reasons, unexplained = collections.Counter(), collections.defaultdict(list)
    for it in tally.differences:
        reason = reason_of(it)
        reasons[reason] += 1
        if reason is None:
            unexplained[it.kind, it.peer, it.what].append(it)
    for reason, count in sorted(reasons.items(), key=lambda it: -it[1]):
        if reason:
            print(f"corpus: {count} times: {reason}")
    return unexplained


def tell_unexplained(unexplained, most):
    for (kind, peer, what), found in sorted(unexplained.items(), key=lambda it: -len(it[1])):
        print(f"corpus: NO REASON, {len(found)} times: {kind}, {what}, beside {peer}")
        for it in found[:most]:
            print(f"    here {str(it.here)[:200]}\n    there {str(it.there)[:200]}\n    {it.found_in}: {it.octets.hex()[:160]}")


def main():
    words = words_of_run()
    sys.path[:0] = [words.derproved] if words.derproved else []
    sys.path.append(DEBIAN)
    warnings.simplefilter("ignore")
    try:
        import asn1crypto
        import cryptography
        import derproved
        from lib.corpus import beside_asn1crypto, gathered, packages
        from lib.corpus.differences import Tally
    except ImportError as error:
        print(f"corpus: {error}: nothing was compared")
        return 1
    os.makedirs(words.room, exist_ok=True)
    archives = packages.fetch(words.room)
    print("corpus: the packages:", ", ".join(f"{name} {packages.version_of(files[0])}" for name, files in archives.items()))
    print(f"corpus: beside asn1crypto {asn1crypto.__version__} and cryptography {cryptography.__version__}")
    tally, kinds = Tally(), collections.Counter()
    compare_all(gathered.gather(archives), tally, kinds)
    unexplained = tell_reasons(tally)
    tell_unexplained(unexplained, words.show)
    for (kind, peer, answer), count in sorted(tally.answers.items()):
        print(f"corpus: {kind} beside {peer}: {count} {answer}")
    told = ", ".join(f"{count} {kind}" for kind, count in kinds.most_common())
    wrong = sum(map(len, unexplained.values()))
    counted = sum(count for (kind, peer, _), count in tally.answers.items() if kind in COUNTED and peer == beside_asn1crypto.PEER)
    print(f"corpus: {sum(kinds.values())} messages ({told}); with those within others {counted} that are no keys; "
          f"{sum(tally.members.values())} members compared; {len(tally.differences)} differences, {wrong} without a reason")
    return 1 if wrong or counted < words.least else 0


if __name__ == "__main__":
    sys.exit(main())
