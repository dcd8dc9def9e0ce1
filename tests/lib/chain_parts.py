"""Parts of certificates for chains, in DER: names, times, extensions, and the whole, signed by `cryptography` or by nobody."""

import time
from dataclasses import dataclass, field

from .octets import integer, sequence, tlv
from .path_certificate import (AUTHORITY_KEY, BASIC_CONSTRAINTS, CERTIFICATE_POLICIES, DOMAIN_COMPONENT, EMAIL_ADDRESS, EXTENDED_KEY_USAGE, INHIBIT_ANY_POLICY, KEY_USAGE,
                               NAME_CONSTRAINTS, POLICY_CONSTRAINTS, POLICY_MAPPINGS, SUBJECT_ALT_NAME, SUBJECT_KEY)

KINDS = {"CN": b"\x55\x04\x03", "C": b"\x55\x04\x06", "O": b"\x55\x04\x0a", "OU": b"\x55\x04\x0b", "emailAddress": EMAIL_ADDRESS, "DC": DOMAIN_COMPONENT}
UTF8, PRINTABLE, IA5 = 0x0C, 0x13, 0x16
ECDSA = sequence(tlv(6, bytes.fromhex("2a8648ce3d040302")))
EC_P256 = sequence(tlv(6, bytes.fromhex("2a8648ce3d0201")), tlv(6, bytes.fromhex("2a8648ce3d030107")))
TAGS = {"mail": 0x81, "host": 0x82, "directory": 0xA4, "uri": 0x86, "address": 0x87}


def name(*attributes):
    """A Name of RDNs with one attribute each: a kind and a text, and the tag of the text if it is no UTF8String."""
    return sequence(*(tlv(0x31, attribute(*it)) for it in attributes))


def attribute(kind, text, tag=UTF8):
    return sequence(tlv(6, KINDS[kind]), tlv(tag, text.encode()))


def moment(seconds):
    """A Time (4.1.2.5)."""
    parts = time.gmtime(seconds)
    if 1950 <= parts.tm_year < 2050:
        return tlv(0x17, time.strftime("%y%m%d%H%M%SZ", parts).encode())
    return tlv(0x18, time.strftime("%Y%m%d%H%M%SZ", parts).encode())


def boolean():
    return tlv(1, b"\xff")


def extension(kind, value, critical=False):
    return sequence(tlv(6, kind), boolean() if critical else b"", tlv(4, value))


def basic_constraints(is_ca=True, length=None, critical=True):
    value = sequence(boolean() if is_ca else b"", b"" if length is None else integer(length))
    return extension(BASIC_CONSTRAINTS, value, critical)


def key_usage(*bits, critical=True):
    octets = bytearray(max(bits) // 8 + 1)
    for bit in bits:
        octets[bit // 8] |= 0x80 >> bit % 8
    unused = 7 - max(bits) % 8
    return extension(KEY_USAGE, tlv(3, bytes([unused]), bytes(octets)), critical)


def policies(*given, critical=False):
    return extension(CERTIFICATE_POLICIES, sequence(*(sequence(tlv(6, it)) for it in given)), critical)


def mappings(*pairs, critical=True):
    return extension(POLICY_MAPPINGS, sequence(*(sequence(tlv(6, a), tlv(6, b)) for a, b in pairs)), critical)


def policy_constraints(explicit=None, mapping=None, critical=True):
    parts = [b"" if it is None else tlv(tag, integer(it)[2:]) for tag, it in ((0x80, explicit), (0x81, mapping))]
    return extension(POLICY_CONSTRAINTS, sequence(*parts), critical)


def inhibit_any_policy(skip, critical=True):
    return extension(INHIBIT_ANY_POLICY, integer(skip), critical)


def general_name(kind, held):
    """A GeneralName; a directory name is explicitly tagged."""
    return tlv(TAGS[kind], held)


def alternative_names(*names, critical=False):
    return extension(SUBJECT_ALT_NAME, sequence(*names), critical)


def subtree(base, minimum=None, maximum=None):
    return sequence(base, *(b"" if it is None else tlv(tag, integer(it)[2:]) for tag, it in ((0x80, minimum), (0x81, maximum))))


def constraints(permitted=(), excluded=()):
    """A NameConstraints."""
    parts = [tlv(tag, *(it if it[:1] == b"\x30" else subtree(it) for it in listed)) for tag, listed in ((0xA0, permitted), (0xA1, excluded)) if listed]
    return sequence(*parts)


def name_constraints(permitted=(), excluded=(), critical=True):
    return extension(NAME_CONSTRAINTS, constraints(permitted, excluded), critical)


class NoSigner:
    """Keys and signatures that are none: a row of octets."""

    def key(self, number):
        return sequence(EC_P256, tlv(3, b"\0\4", bytes([number + 1]) * 64))

    def sign(self, number, octets):
        return sequence(integer(number + 1), integer(1))


class Signer:
    """Keys of P-256, by their numbers, which sign by `cryptography`."""

    def __init__(self):
        from cryptography.hazmat.primitives import hashes, serialization
        from cryptography.hazmat.primitives.asymmetric import ec

        self.how = ec.ECDSA(hashes.SHA256())
        self.form = serialization.Encoding.DER, serialization.PublicFormat.SubjectPublicKeyInfo
        self.make, self.keys, self.public = lambda number: ec.derive_private_key(5280 + number, ec.SECP256R1()), {}, {}

    def of(self, number):
        if number not in self.keys:
            self.keys[number] = self.make(number)
            self.public[number] = self.keys[number].public_key().public_bytes(*self.form)
        return self.keys[number]

    def key(self, number):
        self.of(number)
        return self.public[number]

    def sign(self, number, octets):
        return self.of(number).sign(octets, self.how)


@dataclass
class Plan:
    """A certificate to be made. Its key and its issuer's have numbers."""

    subject: bytes
    issuer: bytes
    key: int
    issuer_key: int
    first: int
    last: int
    extensions: list = field(default_factory=list)
    version: int = 3
    serial: int = 1
    has_identifiers: bool = True


def key_identifiers(plan):
    """Key identifiers, by which certificates of one subject are told apart."""
    own = extension(SUBJECT_KEY, tlv(4, b"key", bytes([plan.key])))
    return [own, extension(AUTHORITY_KEY, sequence(tlv(0x80, b"key", bytes([plan.issuer_key]))))]


def made(plan, signer):
    """The certificate."""
    version = b"" if plan.version == 1 else tlv(0xA0, integer(plan.version - 1))
    identifiers = key_identifiers(plan) if plan.version == 3 and plan.has_identifiers else []
    extensions = [*identifiers, *plan.extensions]
    validity = sequence(moment(plan.first), moment(plan.last))
    held = tlv(0xA3, sequence(*extensions)) if extensions else b""
    signed = sequence(version, integer(plan.serial), ECDSA, plan.issuer, validity, plan.subject, signer.key(plan.key), held)
    return sequence(signed, ECDSA, tlv(3, b"\0", signer.sign(plan.issuer_key, signed)))
