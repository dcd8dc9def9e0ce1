"""The program path of c/examples on NIST's Public Key Interoperability Test Suite (PKITS): each answer is that of tests/pkits/ROWS, but for the
rows of tests/pkits/PATH_PROGRAM, which has the answer of the program and the reason."""

import subprocess

from . import pkits, text_of
from .path_peer import dotted

FLAGS = {"mapping_inhibit": "e", "explicit_policy": "f", "any_policy_inhibit": "g"}


def others():
    """The answers of the program that are not the document's, by the numbers of the rows."""
    lines = [line for line in text_of("tests/pkits/PATH_PROGRAM").splitlines() if not line.startswith("#")]
    rows = [line.split(" | ") for line in lines]
    return {number: answer for number, answer, _ in rows}


def wanted_of(row):
    """What the program is to print for a row: the policies in order, or the certificate and the step, without those of 6.3.3."""
    if row.is_valid:
        return " ".join(["valid", *sorted(map(dotted, row.policies))])
    step = next((it for it in (pkits.SIGNATURE, pkits.REVOCATION) if row.step.startswith(it)), row.step)
    return f"refused {row.refused} {step}"


def words_of(row, place):
    settings = row.settings
    flags = "".join(letter for name, letter in FLAGS.items() if getattr(settings, name)) or "-"
    policies = ",".join(sorted(map(dotted, settings.policies))) if settings.policies != {pkits.ANY_POLICY} else "-"
    certificates = [f"{place}/certs/{name}.crt" for name in (pkits.ANCHOR, *row.certificates)]
    lists, others = [f"{place}/crls/{name}.crl" for name in row.lists], [f"{place}/certs/{name}.crt" for name in row.others]
    return [str(settings.moment), flags, policies, *certificates, "-", *lists, "-", *others]


def told_by(program, words):
    """What the program prints, with the policies in order; and whether its status is that of the answer."""
    ran = subprocess.run([program, *words], text=True, capture_output=True)
    first, *policies = ran.stdout.split(" ") if ran.stdout.startswith("valid") else [ran.stdout]
    told = " ".join([first.strip(), *sorted(it.strip() for it in policies)])
    return told, ran.returncode == (0 if told.startswith("valid") else 1)


def try_pkits(trials, program):
    place = pkits.folder()
    if place is None:
        trials.left_out("the program path on PKITS", f"{pkits.PACKAGE} (or a folder that PKITS_DATA names)")
        return
    rows, instead = pkits.rows(), others()
    trials.tell("the rows of PATH_PROGRAM", sorted(set(instead) - {row.number for row in rows}))
    for row in rows:
        told, has_status = told_by(program, words_of(row, place))
        wanted = instead.get(row.number, wanted_of(row))
        trials.count(f"path: {row.number} {row.name}", (told != wanted or not has_status) and f"{told}, not {wanted}")
        trials.tell(f"path: {row.number} differs", row.number in instead and told == wanted_of(row) and "it does not")
    print(f"c: the program path on PKITS: {len(rows)} answers, of which {len(instead)} are not the document's", flush=True)
