"""Encodings of values, which are fields of messages, or parts of fields."""

from __future__ import annotations

from collections.abc import Iterable, Sequence
from datetime import datetime, timedelta

from . import _der
from ._error import Error
from ._values import BEGIN, CertStatus, NameKind, Octets

__all__ = [
    "write_algorithm_identifier",
    "write_attribute",
    "write_bit_string",
    "write_boolean",
    "write_cert_status",
    "write_ed25519_key",
    "write_encoding",
    "write_enumerated",
    "write_explicit",
    "write_general_name",
    "write_generalized_time",
    "write_implicit",
    "write_implicit_sequence",
    "write_name",
    "write_name_attribute",
    "write_named_bits",
    "write_null",
    "write_object_identifier",
    "write_octet_string",
    "write_p256_key",
    "write_response_bytes",
    "write_rsa_key",
    "write_sequence",
    "write_set_of",
    "write_time",
    "write_unsigned_integer",
]

# The kinds of names whose contents octets are encodings.
CONSTRUCTED = (NameKind.OTHER_NAME, NameKind.X400_ADDRESS, NameKind.DIRECTORY_NAME, NameKind.EDI_PARTY_NAME)
OCSP_BASIC = "1.3.6.1.5.5.7.48.1.1"  # id-pkix-ocsp-basic (RFC 6960 4.2.1)
ABSENT_MOMENT = 0  # what stands for a date that is absent
TAG_NUMBER_INVALID, OID_MALFORMED = 6, 15  # of der.h


def written(name: str, fields: Sequence[Octets | None], numbers: tuple[int, ...]) -> bytes:
    """The message that a call writes from its fields; one that is None is absent."""
    octets = [bytes(memoryview(b"" if field is None else field)) for field in fields]
    return _der.write_message(name, b"".join(octets), tuple(map(len, octets)), numbers)


def items(listed: Iterable[Octets], *identifiers: int) -> bytes:
    """Items, one after another, within encodings with these identifier octets."""
    found = b"".join(listed)
    for identifier in identifiers:
        found = _der.write_encoding(identifier, found)
    return found


def optional_items(listed: Iterable[Octets], *identifiers: int) -> bytes | None:
    """The same; nothing of no items."""
    found = b"".join(listed)
    return items([found], *identifiers) if found else None


def set_(listed: Iterable[Octets], *identifiers: int) -> bytes:
    """The same in the order of DER (X.690 11.6)."""
    return items(sorted(map(bytes, listed)), *identifiers)


def seconds(moment: datetime) -> int:
    """The seconds of a date, as the calls take them; those of one before 1970 are refused as too many."""
    return (moment - BEGIN) // timedelta(seconds=1) & (1 << 64) - 1


def optional_seconds(moment: datetime | None) -> int:
    """The same of a date that may be absent; the first second of 1970, which would stand for that, is refused."""
    return ABSENT_MOMENT if moment is None else seconds(moment) or -1


def write_encoding(identifier: int, contents: Octets) -> bytes:
    """An encoding with an identifier octet, and these contents octets, which are not read."""
    return _der.write_encoding(identifier, contents)


def write_sequence(items_: Iterable[Octets]) -> bytes:
    """A SEQUENCE, or a SEQUENCE OF, of these encodings."""
    return items(items_, 0x30)


def write_set_of(items_: Iterable[Octets]) -> bytes:
    """A SET OF these encodings, in the order of DER."""
    return set_(items_, 0x31)


def _tagged(first: int, number: int, contents: Octets) -> bytes:
    if not 0 <= number <= 30:
        raise Error(TAG_NUMBER_INVALID, _der.number_text(TAG_NUMBER_INVALID), None)
    return _der.write_encoding(first + number, contents)


def write_explicit(number: int, encoding: Octets) -> bytes:
    """An encoding with the explicit tag [number] around it, up to 30."""
    return _tagged(0xA0, number, encoding)


def write_implicit(number: int, contents: Octets) -> bytes:
    """Contents octets that are no encodings, with the implicit tag [number], up to 30."""
    return _tagged(0x80, number, contents)


def write_implicit_sequence(number: int, items_: Iterable[Octets]) -> bytes:
    """A SEQUENCE or SEQUENCE OF of these encodings with the implicit tag [number], up to 30, such as `permittedSubtrees`."""
    return _tagged(0xA0, number, b"".join(items_))


def write_boolean(value: bool) -> bytes:
    """A BOOLEAN."""
    return _der.write_encoding(0x01, b"\xff" if value else b"\x00")


def write_enumerated(number: int) -> bytes:
    """An ENUMERATED that is not negative, such as a CRLReason."""
    return _der.write_encoding(0x0A, _der.contents(write_unsigned_integer(number)))


def write_null() -> bytes:
    """A NULL."""
    return _der.write_encoding(0x05, b"")


def write_octet_string(octets: Octets) -> bytes:
    """An OCTET STRING, such as the `extn_value` of an encoding."""
    return _der.write_encoding(0x04, octets)


def _subidentifier(number: int) -> bytes:
    """An arc, or the first two (X.690 8.19.2)."""
    groups = [number & 0x7F]
    while number := number >> 7:
        groups.append(number & 0x7F | 0x80)
    return bytes(reversed(groups))


def _identifier_contents(dotted: str) -> bytes:
    arcs = dotted.split(".")
    if len(arcs) < 2 or not all(arc.isascii() and arc.isdecimal() and (arc == "0" or arc[0] != "0") for arc in arcs):
        raise Error(OID_MALFORMED, _der.number_text(OID_MALFORMED), None)
    root, second, *rest = map(int, arcs)
    if root > 2 or (root < 2 and second > 39):
        raise Error(OID_MALFORMED, _der.number_text(OID_MALFORMED), None)
    return b"".join(map(_subidentifier, [40 * root + second, *rest]))


def write_object_identifier(dotted: str) -> bytes:
    """An OBJECT IDENTIFIER of its text, such as 2.5.29.17. Error has the number 15 where the text is that of none."""
    return _der.write_encoding(0x06, _identifier_contents(dotted))


def write_algorithm_identifier(dotted: str, parameters: Octets | None = None) -> bytes:
    """An AlgorithmIdentifier (RFC 5280 4.1.1.2), from the text of its identifier."""
    return write_sequence([write_object_identifier(dotted), b"" if parameters is None else parameters])


def write_attribute(dotted: str, values: Iterable[Octets]) -> bytes:
    """An Attribute (RFC 2986 4.1), from the text of its type and its values."""
    return write_sequence([write_object_identifier(dotted), write_set_of(values)])


def write_bit_string(octets: Octets) -> bytes:
    """A BIT STRING of all bits of these octets, such as a signature."""
    return _der.write_octets("bit_string", octets)


def write_named_bits(bits: int) -> bytes:
    """A BIT STRING with named bits, such as a KeyUsage: bit 0 as 1, bit 1 as 2, bit 2 as 4, and so on."""
    if bits < 0:
        raise ValueError("bits are not negative")
    octets = bytearray((bits.bit_length() + 7) // 8)
    for bit in range(bits.bit_length()):
        if bits >> bit & 1:
            octets[bit // 8] |= 0x80 >> bit % 8
    return _der.write_octets("named_bits", octets)


def write_unsigned_integer(number: int) -> bytes:
    """An INTEGER that is not negative."""
    return _der.write_octets("unsigned_integer", number.to_bytes(number.bit_length() // 8 + 1, "big"))


def write_time(moment: datetime) -> bytes:
    """A Time (RFC 5280 4.1.2.5) of a date with a time zone: a UTCTime until 2049, then a GeneralizedTime. A fraction of a
    second is left out."""
    return _der.write_seconds("time", seconds(moment))


def write_generalized_time(moment: datetime) -> bytes:
    """A GeneralizedTime of a date with a time zone. A fraction of a second is left out."""
    return _der.write_seconds("generalized_time", seconds(moment))


def write_ed25519_key(key: Octets) -> bytes:
    """A SubjectPublicKeyInfo of an Ed25519 key, of 32 octets (RFC 8410)."""
    return _der.write_octets("ed25519_key", key)


def write_p256_key(point: Octets) -> bytes:
    """A SubjectPublicKeyInfo of a P-256 key: 04 and both coordinates, or 02 or 03 and the first (RFC 5480). It is not tested
    whether the point is one of the curve."""
    return _der.write_octets("p256_key", point)


def write_rsa_key(key: Octets) -> bytes:
    """A SubjectPublicKeyInfo of an RSA key, from the encoding of its RSAPublicKey, which is not read."""
    return _der.write_octets("rsa_key", key)


def write_name_attribute(dotted: str, text: str) -> bytes:
    """An AttributeTypeAndValue, from the text of its type and its text: a PrintableString, an IA5String or a UTF8String, as
    RFC 5280 has it for the type. Error has the number 13 for a text that the type does not have."""
    return _der.write_name_attribute(_identifier_contents(dotted), text)


def write_name(attributes: Iterable[tuple[str, str]]) -> bytes:
    """A Name of attributes, each a part of its own, from the text of its type and its text: ("2.5.4.3", "mill") of CN=mill."""
    return write_sequence([write_set_of([write_name_attribute(dotted, text)]) for dotted, text in attributes])


def write_general_name(kind: NameKind, value: Octets) -> bytes:
    """A GeneralName (RFC 5280 4.2.1.6) of its kind and the contents octets of its value; of a directory name the encoding of
    a Name."""
    return _der.write_encoding((0xA0 if kind in CONSTRUCTED else 0x80) + kind, value)


def write_cert_status(status: CertStatus, revocation_time: datetime | None = None, reason: int | None = None) -> bytes:
    """The `cert_status` of a SingleResponse (RFC 6960 4.2.1). A revocation has a time, and may have a reason, a number of
    CRLReason (RFC 5280 5.3.1)."""
    if status is not CertStatus.REVOKED:
        return write_implicit(status.value, b"")
    if revocation_time is None:
        raise ValueError("a revocation has a time")
    parts = [write_generalized_time(revocation_time)]
    if reason is not None:
        parts.append(write_explicit(0, write_enumerated(reason)))
    return items(parts, 0xA1)


def write_response_bytes(basic: Octets) -> bytes:
    """The `response_bytes` of an OCSPResponse, with their explicit tag [0], from a BasicOCSPResponse (RFC 6960 4.2.1)."""
    return write_explicit(0, write_sequence([write_object_identifier(OCSP_BASIC), write_octet_string(basic)]))
