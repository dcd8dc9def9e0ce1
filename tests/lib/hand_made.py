"""Certificates and lists of revoked certificates that are built by hand. Nothing is signed: the signature is a row of zeros."""

from .octets import tlv


def algorithm(last):
    return tlv(0x30, b"\x06\x03\x2b\x65", bytes([last]))


def name(*values):
    return tlv(0x30, *(tlv(0x31, tlv(0x30, b"\x06\x03\x55\x04\x03", tlv(0x0C, value))) for value in values))


def extension(identifier, value, critical=False):
    return tlv(0x30, tlv(0x06, identifier), b"\x01\x01\xff" if critical else b"", tlv(0x04, value))


def of_ce(last, value, critical=False):
    """An extension of 2.5.29."""
    return extension(bytes([0x55, 0x1D, last]), value, critical)


BITS = b"\x03\x41" + bytes(65)
INNER, OUTER = algorithm(0x70), algorithm(0x71)
ISSUER, SUBJECT = name(b"the issuer"), name(b"the subject")
FIRST, LAST = b"\x17\x0d260102030405Z", b"\x17\x0d270102030405Z"
VALIDITY = tlv(0x30, FIRST, LAST)
KEY = tlv(0x30, INNER, b"\x03\x21" + bytes(33))
OTHER = of_ce(15, b"\x03\x02\x05\xa0", True)
NAMES = of_ce(17, b"\x30\x08\x82\x06barley", True)


def certificate(version=b"\xa0\x03\x02\x01\x02", serial=b"\x02\x01\x05", issuer=ISSUER, subject=SUBJECT, more=(), unique=b"", outer=INNER):
    """A certificate, and its list of extensions with the tag before it."""
    extensions = tlv(0xA3, tlv(0x30, *more)) if more else b""
    signed = tlv(0x30, version, serial, INNER, issuer, VALIDITY, subject, KEY, unique, extensions)
    return tlv(0x30, signed, outer, BITS), extensions


def revocation(version=b"\x02\x01\x01", issuer=ISSUER, then=LAST, entries=b"", more=(), outer=INNER):
    """A list of revoked certificates, in the same way."""
    extensions = tlv(0xA0, tlv(0x30, *more)) if more else b""
    signed = tlv(0x30, version, INNER, issuer, FIRST, then, entries, extensions)
    return tlv(0x30, signed, outer, BITS), extensions
