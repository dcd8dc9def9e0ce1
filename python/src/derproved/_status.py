"""The status of a certificate, by a list of revoked ones (RFC 5280 section 6.3.3) or an answer of OCSP (RFC 6960)."""

from __future__ import annotations

from collections.abc import Iterable
from dataclasses import dataclass
from datetime import datetime, timedelta
from enum import IntEnum, IntFlag

from . import _der
from ._error import Error
from ._values import BEGIN, CertStatus, Octets
from ._writing import seconds

__all__ = [
    "ListStatus",
    "ListStep",
    "OcspStatus",
    "OcspStep",
    "Reason",
    "Reasons",
    "RevocationStatus",
    "Revoked",
    "StatusError",
    "list_status",
    "ocsp_status",
    "revocation_status",
]

LIST_REFUSED, ANSWER_REFUSED = 107, 108  # of der.h
REVOKED, UNDETERMINED = 1, 2


class Reason(IntEnum):
    """Why a certificate is revoked (CRLReason, RFC 5280 5.3.1)."""

    UNSPECIFIED = 0
    """unspecified, or there is no reason."""
    KEY_COMPROMISE = 1
    CA_COMPROMISE = 2
    AFFILIATION_CHANGED = 3
    SUPERSEDED = 4
    CESSATION_OF_OPERATION = 5
    CERTIFICATE_HOLD = 6
    REMOVE_FROM_CRL = 8
    PRIVILEGE_WITHDRAWN = 9
    AA_COMPROMISE = 10


class Reasons(IntFlag):
    """A set of reasons (ReasonFlags, RFC 5280 4.2.1.13)."""

    KEY_COMPROMISE = 1 << 1
    CA_COMPROMISE = 1 << 2
    AFFILIATION_CHANGED = 1 << 3
    SUPERSEDED = 1 << 4
    CESSATION_OF_OPERATION = 1 << 5
    CERTIFICATE_HOLD = 1 << 6
    PRIVILEGE_WITHDRAWN = 1 << 7
    AA_COMPROMISE = 1 << 8
    ALL = 0x1FE


class ListStep(IntEnum):
    """The steps of RFC 5280 that refuse a list."""

    # written by tools/bindings: steps of lists
    DELTA = 1
    """5.2.4: the list is a delta."""
    UNKNOWN_EXTENSION = 2
    """5.2: a critical extension is not processed."""
    UNREAD_ENTRY = 3
    """5.3: an extension of an entry stands twice, or cannot be read."""
    UNKNOWN_ENTRY_EXTENSION = 4
    """5.3: a critical extension of an entry is not processed."""
    ISSUER = 5
    """6.3.3 (b)(1): the issuer is not that of the certificate."""
    POINT_NAME = 6
    """6.3.3 (b)(2)(i): the list is of other distribution points."""
    USER_CERTIFICATES = 7
    """6.3.3 (b)(2)(ii): the list has end entities alone, and the certificate is a CA's."""
    CA_CERTIFICATES = 8
    """6.3.3 (b)(2)(iii): the list has CAs alone, and the certificate is no CA's."""
    ATTRIBUTE_CERTIFICATES = 9
    """6.3.3 (b)(2)(iv): the list has attribute certificates alone."""
    THIS_UPDATE = 10
    """5.1.2.4: the list is issued after the moment."""
    NEXT_UPDATE = 11
    """6.3.3 (a)(1): the moment is after nextUpdate."""
    NO_NEW_REASONS = 12
    """6.3.3 (e): the list has no reason."""
    # end of steps of lists

    @property
    def section(self) -> str:
        """The section and the letter of RFC 5280, such as 6.3.3 (b)(1)."""
        return _der.list_step_text(self)


class OcspStep(IntEnum):
    """The steps of RFC 6960 that refuse an answer."""

    # written by tools/bindings: steps of answers
    CRITICAL_EXTENSION = 1
    """4.4: an extension of the answer, or of its part about the certificate, is critical."""
    NOT_ANSWERED = 2
    """3.2 (1): the answer is about other certificates."""
    THIS_UPDATE = 3
    """3.2 (5): the status is known to be correct only after the moment."""
    NEXT_UPDATE = 4
    """3.2 (6): newer information is available at the moment."""
    NO_RESPONDER = 5
    """3.2 (4): the answer names nobody who may sign it (4.2.2.2)."""
    # end of steps of answers

    @property
    def section(self) -> str:
        """The section and the number of RFC 6960, such as 3.2 (1)."""
        return _der.ocsp_step_text(self)


class StatusError(Error):
    """Why the status is not told. The number is 107 where a step refuses a list, 108 where one refuses an answer, 105 where an
    extension of the certificate that section 6.1 of RFC 5280 processes stands twice or cannot be read, and 109 where one of the
    list does; else that of the first fault of what is read, or of an input."""

    def __init__(self, number: int, words: str, position: None, step: ListStep | OcspStep | None) -> None:
        super().__init__(number, words, position)
        self.step = step
        """The step that refuses the list or the answer, if one does."""

    def __reduce__(self) -> tuple:
        return StatusError, (*self.args, self.step)

    def __str__(self) -> str:
        return super().__str__() if self.step is None else f"{self.step.section} refuses it"


@dataclass(frozen=True)
class Revoked:
    """Why and since when a certificate is revoked."""

    date: datetime
    """revocationDate."""
    reason: Reason
    """The reason; unspecified where the entry has none."""


@dataclass(frozen=True)
class ListStatus:
    """What a list says of a certificate."""

    reasons: Reasons
    """The reasons for which certificates stand in the list."""
    revoked: Revoked | None
    """Why and since when the certificate is revoked, if it is."""


@dataclass(frozen=True)
class RevocationStatus:
    """What lists say of a certificate."""

    is_determined: bool
    """Whether the lists tell the status."""
    revoked: Revoked | None
    """Why and since when the certificate is revoked, if it is."""
    reasons: Reasons
    """The reasons that are known where the lists do not tell; else none."""


@dataclass(frozen=True)
class OcspStatus:
    """What an answer says of a certificate."""

    status: CertStatus
    """The status."""
    revoked: Revoked | None
    """Why and since when the certificate is revoked, if it is."""
    this_update: datetime
    """thisUpdate."""
    next_update: datetime | None
    """nextUpdate, if it is there."""
    responders: list[bytes | None]
    """Who may have signed the answer (RFC 6960 4.2.2.2): the holder of a certificate of the answer, whose own signature has to
    verify with the issuer's key; None for the issuer of the certificate."""
    key_hash: bytes | None
    """What the SHA-1 hash value of the responder's key is, if the answer names its responder so."""


def _date(moment: int) -> datetime:
    return BEGIN + timedelta(seconds=moment)


def _refusal(number: int, step: int) -> StatusError:
    of = {LIST_REFUSED: ListStep, ANSWER_REFUSED: OcspStep}.get(number)
    return StatusError(number, _der.number_text(number), None, of(step) if of else None)


def _joined(inputs: tuple[Octets, ...]) -> tuple[bytes, tuple[int, ...]]:
    parts = [bytes(memoryview(it)) for it in inputs]
    return b"".join(parts), tuple(map(len, parts))


def list_status(certificate: Octets, crl: Octets, *, moment: datetime) -> ListStatus:
    """Says what a list of revoked certificates tells of a certificate at a moment, which has a time zone (RFC 5280 6.3.3). The
    list is the own one of the certificate's issuer: whole, no delta, and not indirect. A refusal raises StatusError.

    It holds if the signature of the list verifies with the key of its issuer, whose path is valid and whose keyUsage, if it is
    there, has cRLSign.
    """
    found = _der.list_status(*_joined((certificate, crl)), seconds(moment))
    if len(found) == 2:
        raise _refusal(*found)
    date, is_revoked, reason, reasons = found
    return ListStatus(Reasons(reasons), Revoked(_date(date), Reason(reason)) if is_revoked else None)


def revocation_status(
    certificate: Octets, crls: Iterable[Octets], *, moment: datetime, use_deltas: bool = True
) -> RevocationStatus:
    """Says what lists of revoked certificates tell of a certificate at a moment, which has a time zone, by the whole of RFC 5280
    6.3.3, with distribution points, indirect lists and deltas: complete lists and deltas, in any order. Those that 6.3.3 does
    not use say nothing. use_deltas is use-deltas (6.3.1 (b)). A refusal raises StatusError.

    It holds if the signature of each list verifies with the key of its issuer, whose path is valid and whose keyUsage, if it is
    there, has cRLSign.
    """
    found = _der.revocation_status(*_joined((certificate, *crls)), seconds(moment), use_deltas)
    if len(found) == 2:
        raise _refusal(*found)
    status, date, reason, reasons = found
    revoked = Revoked(_date(date), Reason(reason)) if status == REVOKED else None
    return RevocationStatus(status != UNDETERMINED, revoked, Reasons(reasons))


def ocsp_status(
    answer: Octets,
    *,
    moment: datetime,
    issuer: Octets,
    algorithm: Octets,
    name_hash: Octets,
    key_hash: Octets,
    serial_number: Octets,
) -> OcspStatus:
    """Says what an answer of OCSP, a BasicOCSPResponse, tells of a certificate (RFC 6960 3.2, 4.2.2.2). A refusal raises
    StatusError.

    moment: with a time zone.
    issuer: the Name of the certificate's issuer.
    algorithm: the identifier of the hash algorithm, an OBJECT IDENTIFIER.
    name_hash: the hash value of the issuer's name.
    key_hash: the hash value of the issuer's public key: of the octets of the BIT STRING subjectPublicKey.
    serial_number: the certificate's serial number, an INTEGER.

    It holds if the signature of the answer verifies with the key of one of the responders; and if the answer is recent enough,
    and the responder's certificate not revoked.
    """
    inputs = answer, issuer, _der.contents(algorithm), name_hash, key_hash, _der.contents(serial_number)
    found = _der.ocsp_status(*_joined(inputs), seconds(moment))
    if len(found) == 2:
        raise _refusal(*found)
    status, reason, revoked, this_update, next_update, indexes, hash_of_key = found
    return OcspStatus(
        CertStatus(status),
        Revoked(_date(revoked), Reason(reason)) if CertStatus(status) is CertStatus.REVOKED else None,
        _date(this_update),
        _date(next_update) if next_update else None,
        _responders(answer, indexes),
        hash_of_key,
    )


def _responders(answer: Octets, indexes: list[int]) -> list[bytes | None]:
    """The certificates of an answer that was read, by their indexes; None for -1."""
    fields = list(_der.encodings(answer))
    certificates = list(map(bytes, _der.encodings(_der.contents(fields[3])))) if len(fields) > 3 else []
    return [None if index < 0 else certificates[index] for index in indexes]
