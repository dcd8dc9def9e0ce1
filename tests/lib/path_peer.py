"""What `openssl verify` says of a chain, and where OpenSSL reads RFC 5280 otherwise than path_oracle.py: each reading has the clause, and what
stands in the oracle's place so that it answers as OpenSSL does. A difference that no readings make is an error of one of both."""

import base64
import contextlib
import itertools
import os
import re
import subprocess
from unittest import mock

from . import path_names, path_oracle
from .path_oracle import ANY_POLICY, Settings

DEPTH = re.compile(r"error (\d+) at (\d+) depth")
# The letters that an error of OpenSSL stands for (x509_vfy.h).
ERRORS = {
    9: ("6.1.3 (a)(2)",), 10: ("6.1.3 (a)(2)",), 20: ("6.1.3 (a)(4)",), 25: ("6.1.4 (l)",), 32: ("6.1.4 (n)",), 34: ("6.1.4 (o)", "6.1.5 (f)"),
    42: ("6.1.4 (a)",), 43: ("6.1.3 (f)", "6.1.5 (g)"), 47: ("6.1.3 (b)",), 48: ("6.1.3 (c)",), 79: ("6.1.4 (k)", "6.1.4 (n)"),
    **{it: ("6.1.3 (b)", "6.1.3 (c)") for it in (49, 50, 51, 52, 53)},
}
# Errors that OpenSSL has at the end certificate, or at the one with the pathLenConstraint, wherever the failure is.
OF_PATH = (25, 42, 43)


def pem(octets):
    return f"-----BEGIN CERTIFICATE-----\n{base64.encodebytes(octets).decode()}-----END CERTIFICATE-----\n"


def dotted(contents):
    """An OBJECT IDENTIFIER's contents octets as text (X.690 8.19)."""
    numbers, number = [], 0
    for octet in contents:
        number = number << 7 | octet & 127
        if octet < 128:
            numbers.append(number)
            number = 0
    first = min(numbers[0] // 40, 2)
    return ".".join(map(str, [first, numbers[0] - 40 * first, *numbers[1:]]))


def words_of(settings):
    words = ["-attime", str(settings.moment), "-policy_check", "-policy_print"]
    for policy in settings.policies:
        words += ["-policy", dotted(policy)]
    flags = ("-explicit_policy", settings.explicit_policy), ("-inhibit_map", settings.mapping_inhibit), ("-inhibit_any", settings.any_policy_inhibit)
    return words + [word for word, is_set in flags if is_set]


class Answer:
    """Whether OpenSSL takes a chain as valid, its errors with the numbers of certificates, and the policies of the user."""

    def __init__(self, ran, count):
        self.is_valid = ran.returncode == 0
        self.errors = [(int(number), count - int(depth)) for number, depth in DEPTH.findall(ran.stderr)]
        found = re.findall(r"^ +Policy: (.*)$", ran.stderr.rpartition("User Policies:")[2], re.M)
        self.policies = {"2.5.29.32.0" if "Any" in it else it for it in found}
        self.told = ran.stderr


def ask(chain, folder):
    """The answer of openssl, in a new folder."""
    os.mkdir(folder)
    for name, octets in (("anchor", [chain.anchor]), ("others", chain.path[:-1]), ("end", chain.path[-1:])):
        with open(f"{folder}/{name}", "w", encoding="ascii") as file:
            file.writelines(map(pem, octets))
    others = ["-untrusted", f"{folder}/others"] if len(chain.path) > 1 else []
    words = ["openssl", "verify", "-CAfile", f"{folder}/anchor", *others, *words_of(chain.settings), f"{folder}/end"]
    return Answer(subprocess.run(words, capture_output=True, text=True), len(chain.path))


# The readings: what stands in the place of a function of the oracle.
def last_second_is_late(certificate, moment):
    return certificate.first <= moment < certificate.last


def any_version(certificate):
    return certificate.basic_constraints is not None and certificate.basic_constraints[0]


def count_no_self_issued(state, certificate):
    if not certificate.is_self_issued:
        state.explicit_policy = max(state.explicit_policy - 1, 0)


def map_in_last(state, certificate, wrap_up=path_oracle.wrap_up):
    path_oracle.process_mappings(state, certificate)
    return wrap_up(state, certificate)


def map_beside_policies(state, certificate, process=path_oracle.process_mappings):
    """policyMappings of a certificate that has certificatePolicies."""
    if certificate.policies is not None:
        process(state, certificate)


def end_of_text(constraint, name):
    """A dNSName that ends with the constraint, at a period of either."""
    constraint, name = constraint.lower(), name.lower()
    at = len(name) - len(constraint)
    is_at_label = at <= 0 or not constraint or constraint.startswith(b".") or name[at - 1 : at] == b"."
    return path_names.inside_if(name.endswith(constraint) and is_at_label)


def masked(constraint, name):
    """An iPAddress under a mask of any bits."""
    half = len(constraint) // 2
    if len(constraint) not in (8, 32) or len(name) not in (4, 16):
        return path_names.UNDEFINED
    return path_names.inside_if(half == len(name) and all(not (a ^ x) & m for a, m, x in zip(constraint, constraint[half:], name)))


def any_mailbox(certificate, names_of=path_oracle.names_of):
    """Each emailAddress of the subject, also beside a subjectAltName."""
    found = names_of(certificate)
    if certificate.alternative_names is not None:
        found += [path_names.Named(path_names.MAIL, octets) for octets in certificate.subject.mail]
    return found


def at_host(constraint, name):
    """An rfc822Name by its text after the @: `@example.com` is of a host, too."""
    local, at, host = name.rpartition(b"@")
    given, given_at, place = constraint.rpartition(b"@")
    if not at:
        return path_names.UNDEFINED
    if not given_at and constraint.startswith(b"."):
        return path_names.inside_if(len(name) > len(constraint) and name.lower().endswith(constraint.lower()))
    return path_names.inside_if(given in (b"", local) and place.lower() == host.lower())


def up_to_slash(constraint, uri):
    """A uniformResourceIdentifier by its text from // to a colon or a slash, whatever that is."""
    found = re.match(rb"[^:]*://([^:/]+)", uri)
    if not found:
        return path_names.UNDEFINED
    host, constraint = found[1].lower(), constraint.lower()
    is_below = constraint.startswith(b".") and len(host) > len(constraint) and host.endswith(constraint)
    return path_names.inside_if(is_below or host == constraint)


def in_any(listed, named):
    """A name in one permitted subtree, whatever the others are."""
    found = [path_names.placement(it, named) for it in listed if it[0].tag == named.tag]
    return not found or path_names.INSIDE in found


def map_inhibited(state, certificate, is_last, basic=path_oracle.basic_processing):
    """Policies that are mapped beside anyPolicy, as if the certificate had them, also where anyPolicy is inhibited."""
    if certificate.mappings and ANY_POLICY in (certificate.policies or ()):
        certificate.policies += [issuer for issuer, _ in certificate.mappings if issuer not in certificate.policies]
    basic(state, certificate, is_last)


def octets_of_kind(kind, function):
    return mock.patch.dict(path_names.BY_OCTETS, {kind: function})


def instead(name, function):
    return mock.patch.object(path_oracle, name, function)


READINGS = {
    "4.1.2.5: the last second of a validity is not in it": lambda: instead("is_current", last_second_is_late),
    "6.1.4 (k): a certificate of version 1 or 2 with basicConstraints may issue others": lambda: instead("is_issuer", any_version),
    "6.1.4 (a), (b): policyMappings of the last certificate are processed": lambda: instead("wrap_up", map_in_last),
    "6.1.4 (a): policyMappings without certificatePolicies are not read": lambda: instead("process_mappings", map_beside_policies),
    "6.1.5 (a): a last certificate that is self-issued does not count": lambda: instead("count_last", count_no_self_issued),
    "4.2.1.10: dNSNames are compared as text, with empty labels": lambda: octets_of_kind(path_names.HOST, end_of_text),
    "4.2.1.10: a mask of iPAddress has any bits": lambda: octets_of_kind(path_names.ADDRESS, masked),
    "4.2.1.10: emailAddress is constrained beside a subjectAltName": lambda: instead("names_of", any_mailbox),
    "4.2.1.10: @example.com is a constraint of a host": lambda: octets_of_kind(path_names.MAIL, at_host),
    "4.2.1.10: the host of a URI ends at a colon or a slash, and need not be a name": lambda: octets_of_kind(path_names.URI, up_to_slash),
    "4.2.1.10: a constraint that cannot be processed does not count beside one that permits the name": lambda: instead("is_permitted", in_any),
    "6.1.4 (b)(1): policies are mapped beside an anyPolicy that is inhibited": lambda: instead("basic_processing", map_inhibited),
}


def shown(policies):
    """Policies as text: anyPolicy stands for all."""
    return {"2.5.29.32.0"} if ANY_POLICY in policies else {dotted(it) for it in policies}


def agrees(chain, theirs):
    """Whether the oracle answers as OpenSSL: valid with the same policies, or with a failure for each of OpenSSL's errors."""
    given: Settings = chain.settings
    found = path_oracle.answer(chain.anchor, chain.path, given)
    if theirs.is_valid or found[0] == "valid":
        return theirs.is_valid and found[0] == "valid" and shown(found[1]) == theirs.policies
    failures = path_oracle.failures(chain.anchor, chain.path, given)
    return all(is_failure(error, number, failures) for error, number in theirs.errors)


def is_failure(error, number, failures):
    letters = ERRORS.get(error, ())
    return any(letter in letters and (at == number or error in OF_PATH) for at, letter in failures)


def readings_between(chain, theirs):
    """The fewest readings with which the oracle answers as OpenSSL: none where it does so by itself, nothing where it never does."""
    for count in range(len(READINGS) + 1):
        for names in itertools.combinations(READINGS, count):
            with contextlib.ExitStack() as stack:
                for name in names:
                    stack.enter_context(READINGS[name]())
                if agrees(chain, theirs):
                    return names
    return None
