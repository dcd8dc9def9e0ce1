#!/usr/bin/env python3
"""The fields of certificates from Python: `derproved` beside `cryptography`, in turn, by the time of the thread.

    bench/fields.py FOLDER

FOLDER has the inputs that inputs.py makes: certificates, each after its length in four octets. Of each row the least time of
a candidate for one certificate is printed, and the share that the first takes, with its goal."""

import sys
import time
from pathlib import Path

import derproved
from cryptography import x509
from cryptography.hazmat.primitives.asymmetric import rsa
from cryptography.hazmat.primitives.serialization import Encoding, PublicFormat

ROUNDS = 25
GOAL = 0.7
# of what a client of TLS reads
PEER, PEER_GOAL = "what a client of TLS reads", 0.3
RSA = bytes.fromhex("2a864886f70d010101")


def messages(path):
    """The messages of a file."""
    rest, found = path.read_bytes(), []
    while rest:
        count = int.from_bytes(rest[:4], "big")
        found.append(rest[4 : 4 + count])
        rest = rest[4 + count :]
    return found


def read_here(octets):
    return derproved.Certificate(octets)


def read_cryptography(octets):
    return x509.load_der_x509_certificate(octets)


def fields_here(octets):
    one = derproved.Certificate(octets)
    return (bytes(one.tbs_certificate), one.not_before, one.not_after, one.version, bytes(one.issuer), bytes(one.subject),
            bytes(one.subject_public_key_info), int.from_bytes(derproved.contents(one.serial_number), signed=True))


def fields_cryptography(octets):
    one = x509.load_der_x509_certificate(octets)
    return (one.tbs_certificate_bytes, one.not_valid_before_utc, one.not_valid_after_utc, one.version.value + 1,
            one.issuer.public_bytes(), one.subject.public_bytes(),
            one.public_key().public_bytes(Encoding.DER, PublicFormat.SubjectPublicKeyInfo), one.serial_number)


def dates_here(octets):
    one = derproved.Certificate(octets)
    return one.not_before, one.not_after, bytes(one.tbs_certificate)


def dates_cryptography(octets):
    one = x509.load_der_x509_certificate(octets)
    return one.not_valid_before_utc, one.not_valid_after_utc, one.tbs_certificate_bytes


def extensions_here(octets):
    return [(len(one.identifier), one.is_critical) for one in derproved.Certificate(octets).extensions]


def extensions_cryptography(octets):
    return [(one.oid, one.critical) for one in x509.load_der_x509_certificate(octets).extensions]


def name_here(name):
    return [(one.identifier, bytes(one.value)) for one in derproved.name_attributes(name)]


def key_here(info):
    """The algorithm, and the numbers of a key of RSA, or the curve and the point."""
    key = derproved.SubjectPublicKeyInfo(info)
    algorithm, held = derproved.AlgorithmIdentifier(key.algorithm), derproved.contents(key.subject_public_key)[1:]
    if derproved.contents(algorithm.oid) != RSA:
        return bytes(algorithm.parameters), bytes(held)
    numbers = derproved.RsaPublicKey(held)
    return int.from_bytes(derproved.contents(numbers.modulus)), int.from_bytes(derproved.contents(numbers.public_exponent))


def constraints_here(octets):
    found = derproved.BasicConstraints(octets)
    most = found.path_len_constraint
    return found.ca is not None, None if most is None else derproved.unsigned_integer(most)


VALUES = {
    b"\x55\x1d\x0f": derproved.named_bits,
    b"\x55\x1d\x11": lambda octets: [(kind, bytes(value)) for kind, value in map(derproved.general_name, derproved.encodings(octets))],
    b"\x55\x1d\x13": constraints_here,
}


def peer_here(octets):
    """What a client of TLS reads: names, alternative names, usage, constraints and key."""
    one = derproved.Certificate(octets)
    values = [VALUES.get(it.identifier, len)(it.value) for it in one.extensions]
    return name_here(one.issuer), name_here(one.subject), values, key_here(one.subject_public_key_info)


def peer_cryptography(octets):
    one = x509.load_der_x509_certificate(octets)
    names = [[(it.oid, it.value) for it in name] for name in (one.issuer, one.subject)]
    numbers = one.public_key().public_numbers()
    values = []
    for it in one.extensions:
        value = it.value
        if isinstance(value, x509.SubjectAlternativeName):
            values.append([name.value for name in value])
        elif isinstance(value, x509.BasicConstraints):
            values.append((value.ca, value.path_length))
        elif isinstance(value, x509.KeyUsage):
            values.append((value.digital_signature, value.key_encipherment, value.key_cert_sign, value.crl_sign))
    return names, values, (numbers.n, numbers.e) if isinstance(numbers, rsa.RSAPublicNumbers) else (numbers.x, numbers.y)


ROWS = {
    "read": (read_here, read_cryptography),
    "dates and what is signed": (dates_here, dates_cryptography),
    "eight fields": (fields_here, fields_cryptography),
    "extensions": (extensions_here, extensions_cryptography),
    PEER: (peer_here, peer_cryptography),
}


def taken(call, all_octets):
    """Nanoseconds of one round for one certificate."""
    start = time.thread_time_ns()
    for octets in all_octets:
        call(octets)
    return (time.thread_time_ns() - start) / len(all_octets)


def readable(octets):
    """Whether both take a certificate with all of its fields."""
    try:
        fields_here(octets), fields_cryptography(octets), extensions_cryptography(octets), peer_here(octets), peer_cryptography(octets)
    except (ValueError, TypeError, x509.InvalidVersion, x509.DuplicateExtension):
        return False
    return True


def main(folder):
    for name in ("system", "leaves"):
        path = Path(folder) / name
        if not path.exists():
            print(f"not there: the input {name}")
            continue
        all_octets = [octets for octets in messages(path) if readable(octets)]
        for row, (here, other) in ROWS.items():
            least = [float("inf"), float("inf")]
            for _ in range(ROUNDS):
                least = [min(was, taken(call, all_octets)) for was, call in zip(least, (here, other))]
            share, goal = least[0] / least[1], PEER_GOAL if row == PEER else GOAL
            verdict = "met" if share <= goal else "not met"
            print(f"from Python, {row}, {name}: here {least[0]:.0f} ns, cryptography {least[1]:.0f} ns, {share:.2f}: goal {goal} {verdict}")


if __name__ == "__main__":
    sys.exit(main(sys.argv[1]))
