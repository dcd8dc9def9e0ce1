"""The rows of tests/pkits/ROWS, and the files of NIST's Public Key Interoperability Test Suite, which Debian's package
python3-cryptography-vectors has. PKITS_DATA names another folder of them."""

import calendar
import importlib.util
import os
from dataclasses import dataclass

from . import text_of
from .path_oracle import ANY_POLICY, Settings

PACKAGE = "python3-cryptography-vectors"
DEBIAN = "/usr/lib/python3/dist-packages/cryptography_vectors"
MOMENT = calendar.timegm((2011, 4, 15, 12, 0, 0))
ANCHOR = "TrustAnchorRootCertificate"
POLICIES = {f"P{last}": bytes.fromhex(f"6086480165030201300{last}") for last in range(1, 7)} | {"any": ANY_POLICY}
SIGNATURE, REVOCATION = "6.1.3 (a)(1)", "6.1.3 (a)(3)"


@dataclass(frozen=True)
class Row:
    number: str
    name: str
    settings: Settings
    certificates: tuple
    lists: tuple
    others: tuple
    is_valid: bool
    policies: frozenset
    # the number of the certificate that is refused, and the steps
    refused: int
    step: str

    @property
    def is_of_path(self):
        """Whether the answer rests on nothing but the steps that path_oracle.py judges."""
        return not self.step.startswith((SIGNATURE, REVOCATION))

    @property
    def path_answer(self):
        """What path validation answers without signatures and lists; nothing where the row does not say with which policies."""
        if self.is_valid:
            return "valid", self.policies
        return ("refused", self.refused, self.step) if self.is_of_path else None


def settings_of(text):
    words = [] if text == "-" else text.split()
    named = [word.removeprefix("policies=") for word in words if word.startswith("policies=")]
    policies = frozenset(POLICIES[it] for it in named[0].split(",")) if named else frozenset([ANY_POLICY])
    flags = [word for word in words if not word.startswith("policies=")]
    known = ("explicit-policy", "mapping-inhibit", "any-policy-inhibit")
    if not set(flags) <= set(known) or len(named) > 1:
        raise ValueError(f"no settings: {text}")
    return Settings(MOMENT, policies, *(it in flags for it in known))


def row_of(line):
    number, name, settings, certificates, lists, others, answer, step = line.split(" | ")
    word, _, policies = answer.partition(" ")
    if word not in ("valid", "refused") or (word == "valid") != (step == "-"):
        raise ValueError(f"no answer: {line}")
    named = frozenset(POLICIES[it] for it in policies.split(",")) if policies not in ("", "-") else frozenset()
    at, _, step = step.partition(" ")
    files = (tuple(it.split()) if it != "-" else () for it in (certificates, lists, others))
    return Row(number, name, settings_of(settings), *files, word == "valid", named, int(at) if at != "-" else 0, step)


def rows():
    return [row_of(line) for line in text_of("tests/pkits/ROWS").splitlines() if not line.startswith("#")]


def folder():
    """The folder of the files, or nothing."""
    found = importlib.util.find_spec("cryptography_vectors")
    packages = list(found.submodule_search_locations) if found else []
    places = [os.environ.get("PKITS_DATA", ""), *(f"{it}/x509/PKITS_data" for it in [*packages, DEBIAN])]
    return next((it for it in places if os.path.isfile(f"{it}/certs/{ANCHOR}.crt")), None)


class Files:
    """The files of a folder."""

    def __init__(self, place):
        self.place = place

    def octets(self, kind, name):
        with open(f"{self.place}/{'certs' if kind == 'crt' else 'crls'}/{name}.{kind}", "rb") as file:
            return file.read()

    @property
    def anchor(self):
        return self.octets("crt", ANCHOR)

    def path(self, row):
        return [self.octets("crt", name) for name in row.certificates]

    def lists(self, row):
        return [self.octets("crl", name) for name in row.lists]

    def others(self, row):
        return [self.octets("crt", name) for name in row.others]

