"""Values of one field."""

from __future__ import annotations

from collections.abc import Iterator
from datetime import datetime, timedelta, timezone
from enum import Enum, IntEnum, IntFlag

from . import _der

Octets = bytes | bytearray | memoryview
BEGIN = datetime(1970, 1, 1, tzinfo=timezone.utc)


def unsigned_integer(encoding: Octets) -> int:
    """The number of an INTEGER from 0 to 18446744073709551615."""
    return _der.unsigned_integer(encoding)


def time(encoding: Octets) -> datetime:
    """A time (Time, RFC 5280 4.1.2.5): a UTCTime, or a GeneralizedTime without a fraction of a second."""
    return BEGIN + timedelta(seconds=_der.seconds(encoding))


def fractional_time(encoding: Octets) -> datetime:
    """A GeneralizedTime that may have a fraction of a second, without the fraction."""
    return BEGIN + timedelta(seconds=_der.fractional_time(encoding))


class KeyUsage(IntFlag):
    """The bits of a KeyUsage (RFC 5280 4.2.1.3), as named_bits returns them."""

    DIGITAL_SIGNATURE = 1 << 0
    NON_REPUDIATION = 1 << 1
    KEY_ENCIPHERMENT = 1 << 2
    DATA_ENCIPHERMENT = 1 << 3
    KEY_AGREEMENT = 1 << 4
    KEY_CERT_SIGN = 1 << 5
    CRL_SIGN = 1 << 6
    ENCIPHER_ONLY = 1 << 7
    DECIPHER_ONLY = 1 << 8


def named_bits(encoding: Octets) -> int:
    """The bits 0 to 15 of a BIT STRING with named bits: bit 0 as 1, bit 1 as 2, bit 2 as 4, and so on."""
    return _der.named_bits(encoding)


class NameKind(IntEnum):
    """The kinds of a GeneralName (RFC 5280 4.2.1.6), with the numbers of their tags."""

    OTHER_NAME = 0
    RFC822_NAME = 1
    DNS_NAME = 2
    X400_ADDRESS = 3
    DIRECTORY_NAME = 4
    EDI_PARTY_NAME = 5
    URI = 6
    IP_ADDRESS = 7
    REGISTERED_ID = 8


KINDS = tuple(NameKind)


class CertStatus(Enum):
    """What is answered about a certificate."""

    GOOD = 0
    REVOKED = 1
    UNKNOWN = 2


def general_name(encoding: Octets) -> tuple[NameKind, memoryview]:
    """The kind of a GeneralName, and the contents octets of its value; of a directory name the encoding of a Name."""
    kind, value = _der.general_name(encoding)
    return KINDS[kind], value


def encodings(list_: Octets) -> Iterator[memoryview]:
    """The encodings, one after another, in the contents octets of a list, such as the names of a subjectAltName. If the
    octets are no list, it ends early."""
    return _der.encodings(list_)
