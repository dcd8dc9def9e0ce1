"""Chains of certificates (RFC 5280 section 6.1)."""

from __future__ import annotations

from collections.abc import Iterable
from dataclasses import dataclass
from datetime import datetime
from enum import IntEnum

from . import _der
from ._error import Error
from ._inner import AlgorithmIdentifier
from ._values import Octets
from ._writing import seconds, write_sequence

__all__ = ["PathError", "Step", "ValidPath", "Verification", "check_path"]

STEP_REFUSES = 104  # of der.h


class Step(IntEnum):
    """The steps of RFC 5280 that refuse a certificate."""

    # written by tools/bindings: steps of certificates
    VALIDITY = 1
    """6.1.3 (a)(2): the moment is outside the validity."""
    ISSUER = 2
    """6.1.3 (a)(4): the issuer is not the subject before it, or the anchor."""
    PERMITTED = 3
    """6.1.3 (b): a name is not within the permitted subtrees."""
    EXCLUDED = 4
    """6.1.3 (c): a name is within an excluded subtree."""
    POLICIES = 5
    """6.1.3 (f): no policy is left, and one is required."""
    ANY_POLICY_IS_MAPPED = 6
    """6.1.4 (a): anyPolicy is mapped."""
    CA = 7
    """6.1.4 (k): not of version 3, or not a CA's."""
    PATH_LENGTH = 8
    """6.1.4 (l): the chain is longer than a pathLenConstraint allows."""
    KEY_USAGE = 9
    """6.1.4 (n): keyUsage does not have keyCertSign."""
    UNKNOWN_EXTENSION = 10
    """6.1.4 (o): a critical extension is not processed."""
    UNKNOWN_EXTENSION_AT_END = 11
    """6.1.5 (f): the same of the last certificate."""
    USER_POLICIES = 12
    """6.1.5 (g): no policy of the user is left, and one is required."""
    # end of steps of certificates

    @property
    def section(self) -> str:
        """The section and the letter of RFC 5280, such as 6.1.3 (a)(2)."""
        return _der.step_text(self)


class PathError(Error):
    """Why a chain is refused. The number is 104 where a step refuses a certificate, 105 where an extension that section 6.1
    processes stands twice or cannot be read, and 106 where there are no certificates; else that of the first fault of a
    certificate, from whose first octet the position counts, or of an input."""

    def __init__(self, number: int, words: str, position: int | None, index: int | None, step: Step | None) -> None:
        super().__init__(number, words, position)
        self.index = index
        """Which certificate is refused, from 0; None for an input."""
        self.step = step
        """The step that refuses it, if one does."""

    def __reduce__(self) -> tuple:
        return PathError, (*self.args, self.index, self.step)

    def __str__(self) -> str:
        what = super().__str__() if self.step is None else f"{self.step.section} refuses it"
        return what if self.index is None else f"certificate {self.index}: {what}"


@dataclass(frozen=True)
class Verification:
    """What has to verify of a certificate (6.1.3 (a)(1)): a signature by the key of the certificate before it, or of the trust
    anchor."""

    signed: bytes
    """What the signature covers: `tbsCertificate`."""
    algorithm: bytes
    """`signatureAlgorithm`, an AlgorithmIdentifier."""
    signature: bytes
    """`signatureValue`, a BIT STRING."""
    key: bytes
    """A SubjectPublicKeyInfo."""
    parameters: bytes | None
    """The key's own parameters, or those that it inherits (6.1.4 (d) to (f))."""

    @property
    def signature_octets(self) -> bytes:
        """The octets of the signature."""
        return bytes(_der.contents(self.signature))[1:]

    @property
    def working_key(self) -> bytes:
        """The key as a SubjectPublicKeyInfo with its parameters, also where it inherits them."""
        algorithm, key = _der.encodings(self.key)
        found = AlgorithmIdentifier(algorithm)
        if self.parameters is None or found.parameters == self.parameters:
            return self.key
        return write_sequence([write_sequence([found.oid, self.parameters]), key])


@dataclass(frozen=True)
class ValidPath:
    """What validation returns (6.1.6). The chain is valid if each signature verifies, and no certificate is revoked."""

    verifications: list[Verification]
    """What has to verify of each certificate, in their order."""
    policies: list[bytes]
    """The policies of the user that the chain is valid for, each an OBJECT IDENTIFIER."""


def _refusal(number: int, position: int | None, index: int, step: int, lengths: list[int]) -> PathError:
    """The refusal of a chain, of whose certificates the lengths follow those of the four inputs."""
    words = _der.number_text(number)
    if index >= len(lengths) - 4:
        return PathError(number, words, None, None, None)
    if position is not None:
        position -= sum(lengths[: 4 + index])
    return PathError(number, words, position, index, Step(step) if number == STEP_REFUSES else None)


def check_path(
    chain: Iterable[Octets],
    *,
    moment: datetime,
    anchor_name: Octets,
    anchor_key: Octets,
    policies: Iterable[Octets] = (),
    constraints: Octets | None = None,
    mapping_inhibit: bool = False,
    explicit_policy: bool = False,
    any_policy_inhibit: bool = False,
) -> ValidPath:
    """Validates a chain of certificates, from the one that the trust anchor issued to the end certificate (RFC 5280 6.1, with
    the policies of RFC 9618). The chain is valid if then each signature verifies, and no certificate is revoked. A refusal
    raises PathError. The inputs are those of 6.1.1:

    moment: (b), with a time zone.
    anchor_name: (d)(1), a Name, such as the subject of a certificate that is trusted.
    anchor_key: (d)(2) to (4), a SubjectPublicKeyInfo.
    policies: (c), each an OBJECT IDENTIFIER; any policy if there are none.
    constraints: (h) and (i), the names that are permitted and excluded at first, as a NameConstraints.
    mapping_inhibit: (e), initial-policy-mapping-inhibit.
    explicit_policy: (f), initial-explicit-policy.
    any_policy_inhibit: (g), initial-any-policy-inhibit.
    """
    inputs = [anchor_name, anchor_key, b"".join(policies), b"" if constraints is None else constraints]
    parts = [bytes(memoryview(part)) for part in (*inputs, *chain)]
    octets, lengths = b"".join(parts), list(map(len, parts))
    found = _der.check_path(octets, tuple(lengths), seconds(moment), mapping_inhibit, explicit_policy, any_policy_inhibit)
    if len(found) == 4:
        raise _refusal(*found, lengths)
    fields = [octets[offset : offset + length] for offset, length in found[0]]
    verifications = [
        Verification(*fields[at : at + 4], fields[at + 4] or None) for at in range(0, len(fields), 5)
    ]
    return ValidPath(verifications, list(map(bytes, _der.encodings(write_sequence([found[1]])))))
