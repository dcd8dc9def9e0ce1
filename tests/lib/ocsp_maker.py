"""Answers of OCSP at random, in DER (RFC 6960 4.2.1), with signatures that are none."""

import random
import time
from dataclasses import dataclass

from . import chain_parts as parts
from .octets import integer, sequence, signed, tlv

SHA1, SHA256 = bytes.fromhex("2b0e03021a"), bytes.fromhex("608648016503040201")
OCSP_SIGNING, SERVER = bytes.fromhex("2b06010505070309"), bytes.fromhex("2b06010505070301")
EXTENDED_KEY_USAGE, UNKNOWN, NONCE = b"\x55\x1d\x25", b"\x55\x1d\x63", bytes.fromhex("2b0601050507300102")
NOW = 1_300_000_000
ISSUER, OTHER, RESPONDER = (parts.name(("C", "XY"), ("O", it)) for it in ("Issuer", "Other issuer", "Responder"))
SAME_ISSUER = parts.name(("C", "xy", parts.PRINTABLE), ("O", "  issuer "))


@dataclass
class Case:
    """An answer, the issuer's certificate, and what the caller asks for: algorithm, hashes and serial number."""

    answer: bytes
    issuer: bytes
    wanted: tuple
    moment: int


def general(seconds):
    return tlv(0x18, time.strftime("%Y%m%d%H%M%SZ", time.gmtime(seconds)).encode())


def near(chance):
    """A moment that is before, at or after the one that is asked for."""
    return NOW + chance.choice((-5000, -1, 0, 1, 5000))


def extensions(chance, tag):
    listed = [parts.extension(kind, b"\4\1\0", chance.random() < 0.1) for kind in (NONCE, UNKNOWN) if chance.random() < 0.3]
    return tlv(tag, sequence(*listed)) if listed else b""


def single(chance, wanted):
    algorithm, name, key, serial = (it if chance.random() < 0.97 else other for it, other in zip(wanted, (SHA256, b"n", b"k", b"\5")))
    named = sequence(sequence(tlv(6, algorithm), tlv(5) if chance.random() < 0.5 else b""), tlv(4, name), tlv(4, key), tlv(2, serial))
    reason = tlv(0xA0, tlv(10, bytes([chance.choice((0, 1, 6, 8, 10))])))
    status = chance.choice((tlv(0x80), tlv(0x82), tlv(0xA1, general(NOW - 99)), tlv(0xA1, general(NOW - 99), reason)))
    first = near(chance) if chance.random() < 0.3 else NOW - 9
    last = b"" if chance.random() < 0.3 else tlv(0xA0, general(near(chance) if chance.random() < 0.4 else NOW + 9))
    return sequence(named, status, general(first), last, extensions(chance, 0xA1))


def delegate(chance, number):
    usual = chance.random() < 0.7
    purposes = chance.choice(([OCSP_SIGNING], [SERVER, OCSP_SIGNING], [SERVER])) if not usual else [OCSP_SIGNING]
    held = [parts.extension(EXTENDED_KEY_USAGE, sequence(*(tlv(6, it) for it in purposes)), chance.random() < 0.5)]
    if chance.random() < 0.05:
        held *= chance.choice((0, 2))
    if chance.random() < 0.3:
        held.append(parts.key_usage(*chance.choice(((0,), (1,), (0, 5), (6,)))))
    if chance.random() < 0.1:
        held.append(parts.extension(UNKNOWN, b"\5\0", chance.random() < 0.5))
    first, last = (near(chance), near(chance)) if chance.random() < 0.2 else (NOW - 9, NOW + 9)
    issuer = ISSUER if usual else chance.choice((ISSUER, SAME_ISSUER, OTHER))
    subject = RESPONDER if usual else chance.choice((RESPONDER, ISSUER, OTHER))
    plan = parts.Plan(subject, issuer, number, 0, first, last, held, has_identifiers=False)
    return parts.made(plan, parts.NoSigner())


def case(chance):
    wanted = SHA1, b"name", b"key", signed(chance.choice((1, 77, 1 << 80)))
    names = chance.choice((ISSUER, SAME_ISSUER, RESPONDER, RESPONDER, RESPONDER, OTHER))
    responder = tlv(0xA1, names) if chance.random() < 0.6 else tlv(0xA2, tlv(4, b"hash of a key"))
    singles = sequence(*(single(chance, wanted) for _ in range(chance.choice((0, 1, 1, 1, 2, 3)))))
    version = b""
    data = sequence(version, responder, general(NOW), singles, extensions(chance, 0xA1))
    count = chance.choice((0, 1, 1, 2, 3))
    certs = tlv(0xA0, sequence(*(delegate(chance, number) for number in range(count)))) if count else b""
    answer = sequence(data, parts.ECDSA, tlv(3, b"\0", sequence(integer(1), integer(1))), certs)
    plan = parts.Plan(chance.choice((ISSUER, SAME_ISSUER)), ISSUER, 0, 0, NOW - 9, NOW + 9)
    return Case(answer, parts.made(plan, parts.NoSigner()), wanted, NOW)


def cases(seed, count):
    chance = random.Random(seed)
    return [case(chance) for _ in range(count)]
