"""Messages that are the same octets in each run: no key is made, and what stands as a signature is none."""

import os
import random
import sys

# (at the end: bench/ and tests/ have files of one name)
sys.path.append(os.path.join(os.path.dirname(os.path.dirname(os.path.abspath(__file__))), "tests"))

from lib import octets  # noqa: E402
from lib.octets import sequence, tlv  # noqa: E402

ALGORITHM = bytes.fromhex("300a06082a8648ce3d040302")
SHA256 = bytes.fromhex("300d06096086480165030402010500")
KEY = bytes.fromhex("301306072a8648ce3d020106082a8648ce3d030107")
BASIC_CONSTRAINTS, KEY_USAGE, EXT_KEY_USAGE, KEY_ID, AUTHORITY = "551d13", "551d0f", "551d25", "551d0e", "551d23"
POLICIES, POINTS, ALT_NAME, INFO = "551d20", "551d1f", "551d11", "2b06010505070101"
CRL_NUMBER, REASON = "551d14", "551d15"


def oid(digits):
    return tlv(6, bytes.fromhex(digits))


def integer(contents):
    """The INTEGER of these octets, the first of which keeps it positive and in its fewest octets."""
    return tlv(2, bytes([contents[0] & 0x7F | 0x40]), contents[1:])


def utf8(text):
    return tlv(0x0C, text.encode())


def utc_time(numbers):
    fields = (numbers.randint(1, 12), numbers.randint(1, 28), numbers.randrange(24), numbers.randrange(60))
    return tlv(0x17, b"26%02d%02d%02d%02d00Z" % fields)


def name(*parts):
    return sequence(*(tlv(0x31, sequence(oid(kind), text)) for kind, text in parts))


def extension(kind, value, critical=False):
    return sequence(oid(kind), tlv(1, b"\xff") if critical else b"", tlv(4, value))


def signature(numbers):
    return tlv(3, b"\0", sequence(integer(numbers.randbytes(32)), integer(numbers.randbytes(32))))


ISSUER = name(
    ("550406", tlv(0x13, b"DE")), ("55040a", utf8("Barley Trust Services GmbH")), ("550403", utf8("Barley Intermediate CA 7"))
)


def leaf(number):
    """A certificate of a server: five parts of a name, nine extensions."""
    numbers = random.Random(number)
    host = f"host{number}.example.org"
    subject = name(
        ("550406", tlv(0x13, b"DE")),
        ("550408", utf8("Hessen")),
        ("550407", utf8("Frankfurt am Main")),
        ("55040a", utf8(f"Example {number} AG")),
        ("550403", utf8(host)),
    )
    places = [("2b06010505073001", b"http://ocsp.barley.example"), ("2b06010505073002", b"http://certs.barley.example/i7.crt")]
    extensions = sequence(
        extension(BASIC_CONSTRAINTS, sequence(), True),
        extension(KEY_USAGE, tlv(3, b"\x07\x80"), True),
        extension(EXT_KEY_USAGE, sequence(oid("2b06010505070301"), oid("2b06010505070302"))),
        extension(KEY_ID, tlv(4, numbers.randbytes(20))),
        extension(AUTHORITY, sequence(tlv(0x80, numbers.randbytes(20)))),
        extension(POLICIES, sequence(sequence(oid("67810c010201")), sequence(oid("2b0601040182df13010101")))),
        extension(INFO, sequence(*(sequence(oid(kind), tlv(0x86, place)) for kind, place in places))),
        extension(POINTS, sequence(sequence(tlv(0xA0, tlv(0xA0, tlv(0x86, b"http://crl.barley.example/i7-%d.crl" % number)))))),
        extension(ALT_NAME, sequence(*(tlv(0x82, (before + host).encode()) for before in ("", "www.", "mail.")))),
    )
    validity = sequence(utc_time(numbers), tlv(0x18, b"20571231235959Z"))
    key = sequence(KEY, tlv(3, b"\0\x04", numbers.randbytes(64)))
    version = tlv(0xA0, tlv(2, b"\2"))
    serial = integer(numbers.randbytes(16))
    signed = sequence(version, serial, ALGORITHM, ISSUER, validity, subject, key, tlv(0xA3, extensions))
    return sequence(signed, ALGORITHM, signature(numbers))


def revoked(count):
    """A list of so many revoked certificates, of which about half have a reason."""
    numbers = random.Random(count)

    def entry():
        reason = tlv(10, bytes([numbers.choice([1, 4, 5])]))
        extensions = sequence(extension(REASON, reason)) if numbers.random() < 0.5 else b""
        return sequence(integer(numbers.randbytes(16)), utc_time(numbers), extensions)

    entries = sequence(*(entry() for _ in range(count)))
    extensions = sequence(
        extension(AUTHORITY, sequence(tlv(0x80, numbers.randbytes(20)))), extension(CRL_NUMBER, tlv(2, b"\x12\x34"))
    )
    times = tlv(0x17, b"261101000000Z"), tlv(0x17, b"261201000000Z")
    signed = sequence(tlv(2, b"\1"), ALGORITHM, ISSUER, *times, entries, tlv(0xA0, extensions))
    return sequence(signed, ALGORITHM, signature(numbers))


def signed_message(number):
    """A message with SignedData: one certificate, one signer, three signed attributes."""
    numbers = random.Random(number)
    certificate = leaf(number)
    attributes = tlv(
        0xA0,
        sequence(oid("2a864886f70d010903"), tlv(0x31, oid("2a864886f70d010701"))),
        sequence(oid("2a864886f70d010905"), tlv(0x31, utc_time(numbers))),
        sequence(oid("2a864886f70d010904"), tlv(0x31, tlv(4, numbers.randbytes(32)))),
    )
    value = tlv(4, sequence(integer(numbers.randbytes(32)), integer(numbers.randbytes(32))))
    signer = sequence(
        tlv(2, b"\1"), sequence(ISSUER, integer(numbers.randbytes(16))), SHA256, attributes, ALGORITHM, value
    )
    content = sequence(oid("2a864886f70d010701"), tlv(0xA0, tlv(4, b"barley, malt and hops\n")))
    signed = sequence(tlv(2, b"\1"), tlv(0x31, SHA256), content, tlv(0xA0, certificate), tlv(0x31, signer))
    return sequence(oid("2a864886f70d010702"), tlv(0xA0, signed))


def status_answer(number):
    """An answer that one certificate is good, with the certificate of who answers."""
    numbers = random.Random(number)
    time = tlv(0x18, b"20261127160409Z")
    hashes = tlv(4, numbers.randbytes(20)), tlv(4, numbers.randbytes(20))
    identifier = sequence(sequence(oid("2b0e03021a"), tlv(5)), *hashes, integer(numbers.randbytes(16)))
    single = sequence(identifier, tlv(0x80), time, tlv(0xA0, time))
    data = sequence(tlv(0xA2, tlv(4, numbers.randbytes(20))), time, sequence(single))
    basic = sequence(data, ALGORITHM, signature(numbers), tlv(0xA0, sequence(leaf(number))))
    return sequence(tlv(10, b"\0"), tlv(0xA0, sequence(oid("2b0601050507300101"), tlv(4, basic))))


def integers(count):
    """A SEQUENCE of so many INTEGERs of one to eight contents octets, each number of them as often."""
    numbers = random.Random(count)

    def one():
        count_of_octets = 1 + numbers.randrange(8)
        return octets.integer(numbers.randrange(1 << 8 * count_of_octets - 1) * numbers.choice([1, -1]))

    return sequence(*(one() for _ in range(count)))
