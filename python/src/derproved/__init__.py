"""DER of certificates, lists of revoked ones, keys, requests, answers about the status of certificates and signed messages,
proved: which octets are taken, where each field stands, which rules of RFC 5280 are broken, and the canonical encoding by
the name of a type.

A value keeps the octets that it was read from, and a field is a memoryview of them: its whole encoding. Nothing of them is
copied but identifiers and by canonical. No signature is verified: check_path validates a chain of certificates, and returns
what has to verify; list_status, revocation_status and ocsp_status say whether a certificate is revoked. The code that reads
and writes is Barleypulley's der_c; this package, which calls it, is not proved.

A value is there once it was read, and does not change. What stands one behind another, as extensions, is an iterator, and
each is read when it is asked for. A copy, or what pickle writes, has the octets, and is read anew. A class that derives from
one of these has a __new__ of its own where it takes more than the octets.

    >>> import derproved
    >>> certificate = derproved.Certificate(octets)
    >>> certificate.not_after
    datetime.datetime(2036, 11, 20, 4, 38, 17, tzinfo=datetime.timezone.utc)
    >>> [extension.identifier for extension in certificate.extensions if extension.is_critical]
    [b'U\\x1d\\x13']

Two messages are equal if they are of one class and have equal octets. A message has a hash if nobody can write its octets.

A message is written by a function of its fields, such as write_certificate; write_name and others write values, which are
fields, or parts of fields. Each returns bytes.

Octets that are refused raise Error, a ValueError with the number of the first fault, its words, and its position. A date before
1970 is refused (13).
"""

from __future__ import annotations

from collections.abc import Iterator
from datetime import datetime
from enum import IntFlag

from . import _der, _fields, _inner, _path, _places, _status, _text, _writing
from ._error import Error
from ._fields import *
from ._inner import *
from ._path import *
from ._status import *
from ._values import (
    CertStatus,
    KeyUsage,
    NameKind,
    encodings,
    fractional_time,
    general_name,
    named_bits,
    time,
    unsigned_integer,
)
from ._writing import *

__all__ = [
    "Attribute",
    "AttributeTypeAndValue",
    "BasicOcspResponse",
    "CertStatus",
    "Certificate",
    "CertificateList",
    "CertificateRule",
    "CertificationRequest",
    "ContentInfo",
    "Error",
    "Extension",
    "KeyUsage",
    "ListRule",
    "NameKind",
    "OcspResponse",
    "PrivateKeyInfo",
    "RevokedCertificate",
    "SignedData",
    "SignerInfo",
    "SingleResponse",
    "SubjectPublicKeyInfo",
    "attributes",
    "canonical",
    "check_rfc5280",
    "check_rfc5280_list",
    "contents",
    "encodings",
    "fractional_time",
    "general_name",
    "name_attributes",
    "named_bits",
    "signed_octets",
    "time",
    "unsigned_integer",
]
__all__ += [*_inner.__all__, *_fields.__all__, *_path.__all__, *_status.__all__, *_writing.__all__]

Octets = bytes | bytearray | memoryview


def contents(encoding: Octets) -> memoryview:
    """The contents octets of an encoding that was read, as a field of a certificate: 05 of 02 01 05."""
    return _der.contents(encoding)


def signed_octets(message: Octets) -> memoryview:
    """The octets that the signature of a certificate covers, of a list, of a request or of an answer about the status
    of certificates: the first field."""
    return _der.signed_octets(message)


class Extension(_der.Extension):
    """An extension (RFC 5280 4.2), which stands at the front of the octets."""

    __slots__ = ()

    # written by tools/bindings: fields of Extension
    extn_id = _der.field(1, "`extnID`, an OBJECT IDENTIFIER.")
    extn_value = _der.field(3, "`extnValue`, an OCTET STRING.")
    # end of fields of Extension
    identifier = _der.identifier_field(_places.Extension.extn_id, "The contents octets of `extnID`: 55 1D 0F of keyUsage.")
    value = _der.contents_field(
        _places.Extension.extn_value, "The contents octets of `extnValue`: the encoding of what the extension says."
    )
    is_critical = _der.flag(_places.Extension.is_critical, "`critical`.")


class Certificate(_der.Certificate):
    """A certificate (RFC 5280 4.1), which all of the octets are."""

    __slots__ = ()

    # written by tools/bindings: fields of Certificate
    tbs_certificate = _der.field(0, "`tbsCertificate`, what the signature covers.")
    signature_algorithm = _der.field(1, "`signatureAlgorithm`, an AlgorithmIdentifier.")
    signature_value = _der.field(2, "`signatureValue`, a BIT STRING.")
    serial_number = _der.field(4, "`serialNumber` of `tbsCertificate`, an INTEGER.")
    signature = _der.field(5, "`signature` of `tbsCertificate`, an AlgorithmIdentifier.")
    issuer = _der.field(6, "`issuer` of `tbsCertificate`, a Name.")
    validity = _der.field(7, "`validity` of `tbsCertificate`, a SEQUENCE of both dates.")
    subject = _der.field(8, "`subject` of `tbsCertificate`, a Name.")
    subject_public_key_info = _der.field(9, "`subjectPublicKeyInfo` of `tbsCertificate`, a SubjectPublicKeyInfo.")
    issuer_unique_id = _der.optional(10, "`issuerUniqueID` of `tbsCertificate`, with its implicit tag [1].")
    subject_unique_id = _der.optional(11, "`subjectUniqueID` of `tbsCertificate`, with its implicit tag [2].")
    # end of fields of Certificate
    not_before = _der.moment(_places.Certificate.not_before, "`notBefore`.")
    not_after = _der.moment(_places.Certificate.not_after, "`notAfter`; the certificate is valid in this second too.")
    version = _der.number(
        _places.Certificate.version_number, "1, 2 or 3; the grammar accepts other versions up to 256.", 1
    )
    extensions = _der.items(_places.Certificate.extensions, "The extensions, in their order.", 2, Extension)

    def __repr__(self) -> str:
        serial = int.from_bytes(contents(self.serial_number), signed=True)
        return f"<Certificate {_name_text(self.subject)}, serial number {serial:#x}, until {self.not_after.isoformat()}>"


class RevokedCertificate(_der.RevokedCertificate):
    """An entry of a list of revoked certificates (RFC 5280 5.1.2.6), which stands at the front of the octets."""

    __slots__ = ()

    # written by tools/bindings: fields of RevokedCertificate
    user_certificate = _der.field(1, "`userCertificate`, an INTEGER.")
    crl_entry_extensions = _der.optional(3, "`crlEntryExtensions`, a SEQUENCE OF.")
    # end of fields of RevokedCertificate
    revocation_date = _der.moment(_places.RevokedCertificate.revocation_date_seconds, "`revocationDate`.")
    extensions = _der.items(
        _places.RevokedCertificate.crl_entry_extensions, "The extensions, in their order.", 1, Extension
    )


class CertificateList(_der.CertificateList):
    """A list of revoked certificates (RFC 5280 5.1), which all of the octets are."""

    __slots__ = ()

    # written by tools/bindings: fields of CertificateList
    tbs_cert_list = _der.field(0, "`tbsCertList`, what the signature covers.")
    signature_algorithm = _der.field(1, "`signatureAlgorithm`, an AlgorithmIdentifier.")
    signature_value = _der.field(2, "`signatureValue`, a BIT STRING.")
    signature = _der.field(4, "`signature` of `tbsCertList`, an AlgorithmIdentifier.")
    issuer = _der.field(5, "`issuer` of `tbsCertList`, a Name.")
    # end of fields of CertificateList
    this_update = _der.moment(_places.CertificateList.this_update_seconds, "`thisUpdate`.")
    next_update = _der.optional_moment(
        _places.CertificateList.next_update_seconds, "`nextUpdate`, if it is there.", _places.CertificateList.next_update
    )
    version = _der.number(_places.CertificateList.version_number, "1 or 2.", 1)
    revoked_certificates = _der.items(
        _places.CertificateList.revoked_certificates, "The entries, in their order.", 1, RevokedCertificate
    )
    extensions = _der.items(_places.CertificateList.crl_extensions, "The extensions, in their order.", 2, Extension)

    def __repr__(self) -> str:
        return f"<CertificateList of {_name_text(self.issuer)}, of {self.this_update.isoformat()}>"


class SubjectPublicKeyInfo(_der.SubjectPublicKeyInfo):
    """A SubjectPublicKeyInfo (RFC 5280 4.1.2.7), which all of the octets are."""

    __slots__ = ()

    # written by tools/bindings: fields of SubjectPublicKeyInfo
    algorithm = _der.field(0, "`algorithm`, an AlgorithmIdentifier.")
    subject_public_key = _der.field(1, "`subjectPublicKey`, a BIT STRING.")
    # end of fields of SubjectPublicKeyInfo


class PrivateKeyInfo(_der.PrivateKeyInfo):
    """A PrivateKeyInfo, which is a OneAsymmetricKey (RFC 5958 section 2), which all of the octets are."""

    __slots__ = ()

    # written by tools/bindings: fields of PrivateKeyInfo
    private_key_algorithm = _der.field(1, "`privateKeyAlgorithm`, an AlgorithmIdentifier.")
    private_key = _der.field(2, "`privateKey`, an OCTET STRING.")
    attributes = _der.optional(3, "`attributes`, with their implicit tag [0].")
    public_key = _der.optional(4, "`publicKey`, with its implicit tag [1].")
    # end of fields of PrivateKeyInfo
    version = _der.number(_places.PrivateKeyInfo.version_number, "1 or 2.", 1)


class AttributeTypeAndValue(_der.AttributeTypeAndValue):
    """An attribute of a name (RFC 5280 4.1.2.4), which stands at the front of the octets."""

    __slots__ = ()

    # written by tools/bindings: fields of AttributeTypeAndValue
    type = _der.field(1, "`type`, an OBJECT IDENTIFIER.")
    value = _der.field(2, "`value`, of any type.")
    # end of fields of AttributeTypeAndValue
    identifier = _der.identifier_field(
        _places.AttributeTypeAndValue.type, "The contents octets of `type`: 55 04 03 of commonName."
    )


    def __repr__(self) -> str:
        return f"<AttributeTypeAndValue {_attribute_text(self)}>"


def name_attributes(name: Octets) -> Iterator[AttributeTypeAndValue]:
    """The attributes of a name that was read, as the issuer of a certificate, in their order."""
    return _der.name_attributes(name, AttributeTypeAndValue)


def _attribute_text(attribute: AttributeTypeAndValue) -> str:
    value = _text.value_text(attribute.value[0], bytes(contents(attribute.value)))
    return f"{_text.type_text(attribute.identifier)}={value}"


def _name_text(name: Octets) -> str:
    """The attributes of a name for people, such as 'C=GB, CN=mill'."""
    return ", ".join(map(_attribute_text, name_attributes(name))) or "with an empty name"


class Attribute(_der.Attribute):
    """An attribute with a set of values (RFC 5652 5.3, RFC 2986 4.1), which stands at the front of the octets."""

    __slots__ = ()

    # written by tools/bindings: fields of Attribute
    type = _der.field(1, "`type`, an OBJECT IDENTIFIER.")
    values = _der.field(2, "`values`, a SET OF.")
    # end of fields of Attribute
    identifier = _der.identifier_field(
        _places.Attribute.type, "The contents octets of `type`: 2A 86 48 86 F7 0D 01 09 04 of messageDigest."
    )


def attributes(field: Octets | None) -> Iterator[Attribute]:
    """The attributes of a field that was read, as `attributes` of a private key, in their order; none of None."""
    return iter(()) if field is None else _der.items_of(field, Attribute)


class CertificationRequest(_der.CertificationRequest):
    """A CertificationRequest (RFC 2986 4.2), which all of the octets are."""

    __slots__ = ()

    # written by tools/bindings: fields of CertificationRequest
    certification_request_info = _der.field(0, "`certificationRequestInfo`, what the signature covers.")
    signature_algorithm = _der.field(1, "`signatureAlgorithm`, an AlgorithmIdentifier.")
    signature = _der.field(2, "`signature`, a BIT STRING.")
    subject = _der.field(4, "`subject` of `certificationRequestInfo`, a Name.")
    subject_pk_info = _der.field(5, "`subjectPKInfo` of `certificationRequestInfo`, a SubjectPublicKeyInfo.")
    # end of fields of CertificationRequest
    attributes = _der.items(_places.CertificationRequest.attributes, "The attributes, in their order.", 1, Attribute)

    def __repr__(self) -> str:
        return f"<CertificationRequest {_name_text(self.subject)}>"


class OcspResponse(_der.OcspResponse):
    """An OCSPResponse (RFC 6960 4.2.1), which all of the octets are."""

    __slots__ = ()

    # written by tools/bindings: fields of OCSPResponse
    response_type = _der.optional(2, "`responseType` of `responseBytes`, an OBJECT IDENTIFIER.")
    response = _der.optional(
        3, "`response` of `responseBytes`, an OCTET STRING; if responseType is id-pkix-ocsp-basic, a BasicOCSPResponse is to be read from its contents octets."
    )
    # end of fields of OCSPResponse
    response_status = _der.number(
        _places.OcspResponse.response_status_number, "`responseStatus`: 0 for successful, 1 to 3, 5 or 6."
    )


class SingleResponse(_der.SingleResponse):
    """The answer about one certificate (RFC 6960 4.2.1), which stands at the front of the octets."""

    __slots__ = ()

    # written by tools/bindings: fields of SingleResponse
    cert_id = _der.field(1, "`certID`, a CertID.")
    # end of fields of SingleResponse
    this_update = _der.moment(_places.SingleResponse.this_update_seconds, "`thisUpdate`.")
    next_update = _der.optional_moment(
        _places.SingleResponse.next_update_seconds, "`nextUpdate`, if it is there.", _places.SingleResponse.next_update
    )
    extensions = _der.items(_places.SingleResponse.single_extensions, "The extensions, in their order.", 2, Extension)
    _revocation_time = _der.moment(
        _places.SingleResponse.revocation_time_seconds, "0 seconds of a certificate that was not revoked."
    )
    _cert_status = _der.number(_places.SingleResponse.cert_status_number, "`certStatus` as a number.")

    @property
    def cert_status(self) -> CertStatus:
        """`certStatus`."""
        return CertStatus(self._cert_status)

    @property
    def revocation_time(self) -> datetime | None:
        """When the certificate was revoked, if it was."""
        return self._revocation_time if self.cert_status is CertStatus.REVOKED else None


class BasicOcspResponse(_der.BasicOcspResponse):
    """A BasicOCSPResponse (RFC 6960 4.2.1), which all of the octets are."""

    __slots__ = ()

    # written by tools/bindings: fields of BasicOCSPResponse
    tbs_response_data = _der.field(0, "`tbsResponseData`, what the signature covers.")
    signature_algorithm = _der.field(1, "`signatureAlgorithm`, an AlgorithmIdentifier.")
    signature = _der.field(2, "`signature`, a BIT STRING.")
    certs = _der.optional(3, "`certs`, with their explicit tag [0].")
    responder_id = _der.field(
        5, "`responderID` of `tbsResponseData`, a CHOICE: with the explicit tag [1] a Name, with the explicit tag [2] an OCTET STRING."
    )
    # end of fields of BasicOCSPResponse
    produced_at = _der.moment(_places.BasicOcspResponse.produced_at_seconds, "`producedAt`.")
    responses = _der.items(
        _places.BasicOcspResponse.responses, "The answers about single certificates, in their order.", 1, SingleResponse
    )
    extensions = _der.items(_places.BasicOcspResponse.response_extensions, "The extensions, in their order.", 2, Extension)


class ContentInfo(_der.ContentInfo):
    """A ContentInfo (RFC 5652 section 3), which all of the octets are."""

    __slots__ = ()

    # written by tools/bindings: fields of ContentInfo
    content_type = _der.field(0, "`contentType`, an OBJECT IDENTIFIER.")
    content = _der.field(
        1, "`content`, with its explicit tag [0]; if contentType is id-signedData, a SignedData is to be read from its contents octets."
    )
    # end of fields of ContentInfo


class SignerInfo(_der.SignerInfo):
    """A SignerInfo (RFC 5652 5.3), which stands at the front of the octets."""

    __slots__ = ()

    # written by tools/bindings: fields of SignerInfo
    sid = _der.field(
        2, "`sid`, a CHOICE: a SEQUENCE of issuer and serial number, or with its implicit tag [0] a key's identifier."
    )
    digest_algorithm = _der.field(3, "`digestAlgorithm`, an AlgorithmIdentifier.")
    signed_attrs = _der.optional(4, "`signedAttrs`, with their implicit tag [0].")
    signature_algorithm = _der.field(5, "`signatureAlgorithm`, an AlgorithmIdentifier.")
    signature = _der.field(6, "`signature`, an OCTET STRING.")
    unsigned_attrs = _der.optional(7, "`unsignedAttrs`, with their implicit tag [1].")
    # end of fields of SignerInfo
    version = _der.number(_places.SignerInfo.version_number, "`version`, 0 to 5.")
    signed_attributes = _der.items(_places.SignerInfo.signed_attrs, "The signed attributes, in their order.", 1, Attribute)
    unsigned_attributes = _der.items(
        _places.SignerInfo.unsigned_attrs, "The unsigned attributes, in their order.", 1, Attribute
    )


class SignedData(_der.SignedData):
    """A SignedData (RFC 5652 5.1), which all of the octets are."""

    __slots__ = ()

    # written by tools/bindings: fields of SignedData
    digest_algorithms = _der.field(1, "`digestAlgorithms`, a SET OF AlgorithmIdentifier.")
    certificates = _der.optional(3, "`certificates`, with their implicit tag [0].")
    crls = _der.optional(4, "`crls`, with their implicit tag [1].")
    e_content_type = _der.field(6, "`eContentType` of `encapContentInfo`, an OBJECT IDENTIFIER.")
    e_content = _der.optional(7, "`eContent` of `encapContentInfo`, an OCTET STRING with its explicit tag [0].")
    # end of fields of SignedData
    version = _der.number(_places.SignedData.version_number, "`version`, 0 to 5.")
    signer_infos = _der.items(_places.SignedData.signer_infos, "The signers, in their order.", 1, SignerInfo)


# written by tools/bindings: rules


class CertificateRule(IntFlag):
    """A rule of RFC 5280 for certificates that stands beyond the grammar."""

    ALGORITHMS_AGREE = 1 << 0
    """The algorithm within is the one outside (4.1.1.2, 4.1.2.3)."""
    EXTENSIONS_IN_VERSION_3 = 1 << 1
    """Extensions stand in version 3 alone (4.1.2.1)."""
    SERIAL_NUMBER_IS_POSITIVE = 1 << 2
    """The serial number is positive (4.1.2.2)."""
    SERIAL_NUMBER_HAS_AT_MOST_20_OCTETS = 1 << 3
    """The serial number has at most 20 octets (4.1.2.2)."""
    ISSUER_IS_NOT_EMPTY = 1 << 4
    """The issuer is not empty (4.1.2.4)."""
    EMPTY_SUBJECT_HAS_CRITICAL_ALT_NAME = 1 << 5
    """Beside an empty subject stands a subjectAltName that is critical (4.1.2.6)."""
    UNIQUE_IDENTIFIERS_IN_VERSION_2 = 1 << 6
    """Unique identifiers stand in version 2 and 3 alone (4.1.2.8)."""
    EXTENSIONS_STAND_ONCE = 1 << 7
    """Each extension stands once (4.2)."""
    AUTHORITY_KEY_IDENTIFIER_IS_NOT_CRITICAL = 1 << 8
    """authorityKeyIdentifier is not critical (4.2.1.1)."""
    SUBJECT_KEY_IDENTIFIER_IS_NOT_CRITICAL = 1 << 9
    """subjectKeyIdentifier is not critical (4.2.1.2)."""
    SUBJECT_DIRECTORY_ATTRIBUTES_IS_NOT_CRITICAL = 1 << 10
    """subjectDirectoryAttributes is not critical (4.2.1.8)."""
    FRESHEST_CRL_IS_NOT_CRITICAL = 1 << 11
    """freshestCRL is not critical (4.2.1.15)."""
    AUTHORITY_INFO_ACCESS_IS_NOT_CRITICAL = 1 << 12
    """authorityInfoAccess is not critical (4.2.2.1)."""
    SUBJECT_INFO_ACCESS_IS_NOT_CRITICAL = 1 << 13
    """subjectInfoAccess is not critical (4.2.2.2)."""
    BASIC_CONSTRAINTS_OF_CA_IS_CRITICAL = 1 << 14
    """basicConstraints of a CA is critical (4.2.1.9)."""
    NAME_CONSTRAINTS_IS_CRITICAL = 1 << 15
    """nameConstraints is critical (4.2.1.10)."""
    POLICY_CONSTRAINTS_IS_CRITICAL = 1 << 16
    """policyConstraints is critical (4.2.1.11)."""
    INHIBIT_ANY_POLICY_IS_CRITICAL = 1 << 17
    """inhibitAnyPolicy is critical (4.2.1.14)."""
    VERSION_IS_KNOWN = 1 << 18
    """The version is 1, 2 or 3 (4.1.2.1)."""
    VALIDITY_IS_NOT_EMPTY = 1 << 19
    """notAfter is not before notBefore (4.1.2.5)."""
    DATES_THROUGH_2049_ARE_UTC_TIMES = 1 << 20
    """Dates through 2049 are UTCTimes (4.1.2.5)."""
    SUBJECT_OF_CA_IS_NOT_EMPTY = 1 << 21
    """The subject of a CA is not empty (4.1.2.6)."""
    TEXTS_HAVE_SIZES = 1 << 22
    """The texts of issuer and subject have the sizes of A.1 (A.1)."""
    TEXTS_HAVE_STRING_TYPES = 1 << 23
    """The texts of issuer and subject have the string types of A.1 (A.1)."""
    PRINTABLE_STRINGS_HAVE_THEIR_CHARACTERS = 1 << 24
    """PrintableStrings in issuer and subject have only their characters (B)."""
    CURVES_HAVE_NO_PARAMETERS = 1 << 25
    """Ed25519, Ed448, X25519 and X448 have no parameters (RFC 8410 section 3) (4.1.1.2, 4.1.2.7)."""
    CA_HAS_SUBJECT_KEY_IDENTIFIER = 1 << 26
    """A CA has a subjectKeyIdentifier (4.2.1.2)."""
    AUTHORITY_HAS_KEY_IDENTIFIER = 1 << 27
    """authorityKeyIdentifier has a keyIdentifier, unless the issuer is the subject (4.2.1.1)."""
    AUTHORITY_ISSUER_HAS_SERIAL_NUMBER = 1 << 28
    """authorityCertIssuer and authorityCertSerialNumber stand together (A.2)."""
    CA_HAS_KEY_USAGE = 1 << 29
    """A CA has a keyUsage (4.2.1.3)."""
    KEY_USAGE_HAS_A_BIT = 1 << 30
    """keyUsage has a bit that is set (4.2.1.3)."""
    KEY_CERT_SIGN_ONLY_IN_CA = 1 << 31
    """keyCertSign is set for a CA alone (4.2.1.3, 4.2.1.9)."""
    PATH_LENGTH_ONLY_IN_CA = 1 << 32
    """pathLenConstraint stands beside cA and keyCertSign alone (4.2.1.9)."""
    NAME_CONSTRAINTS_ONLY_IN_CA = 1 << 33
    """nameConstraints stands in the certificate of a CA alone (4.2.1.10)."""
    NAME_CONSTRAINTS_IS_NOT_EMPTY = 1 << 34
    """nameConstraints is not empty (4.2.1.10)."""
    NAME_CONSTRAINTS_HAS_NO_DISTANCES = 1 << 35
    """The subtrees of nameConstraints have the minimum 0 and no maximum (4.2.1.10)."""
    CONSTRAINED_ADDRESSES_HAVE_8_OR_32_OCTETS = 1 << 36
    """The iPAddresses of nameConstraints have 8 or 32 octets (4.2.1.10)."""
    POLICY_CONSTRAINTS_IS_NOT_EMPTY = 1 << 37
    """policyConstraints is not empty (4.2.1.11)."""
    POLICIES_STAND_ONCE = 1 << 38
    """Each policy stands once (4.2.1.4)."""
    ANY_POLICY_IS_NOT_MAPPED = 1 << 39
    """anyPolicy is not mapped (4.2.1.5)."""
    DNS_NAMES_HAVE_SYNTAX = 1 << 40
    """A dNSName of an alternative name has the preferred name syntax (4.2.1.6, 4.2.1.7)."""
    MAILBOXES_HAVE_SYNTAX = 1 << 41
    """An rfc822Name of an alternative name is a mailbox (4.2.1.6, 4.2.1.7)."""
    URIS_HAVE_SCHEMES = 1 << 42
    """A URI of an alternative name has a scheme and a part after it (4.2.1.6, 4.2.1.7)."""
    ADDRESSES_HAVE_4_OR_16_OCTETS = 1 << 43
    """An iPAddress of an alternative name has 4 or 16 octets (4.2.1.6, 4.2.1.7)."""
    POINTS_HAVE_NAMES = 1 << 44
    """Each point of cRLDistributionPoints has a distributionPoint or a cRLIssuer (4.2.1.13)."""


class ListRule(IntFlag):
    """A rule of RFC 5280 for lists of revoked certificates."""

    ALGORITHMS_AGREE = 1 << 0
    """The algorithm within is the one outside (5.1.1.2, 5.1.2.2)."""
    EXTENSIONS_IN_VERSION_2 = 1 << 1
    """Extensions, of the list or of an entry, stand in version 2 alone (5.1.2.1)."""
    ISSUER_IS_NOT_EMPTY = 1 << 2
    """The issuer is not empty (5.1.2.3)."""
    NEXT_UPDATE_IS_THERE = 1 << 3
    """nextUpdate is there (5.1.2.5)."""
    EMPTY_LIST_IS_ABSENT = 1 << 4
    """A list of no revoked certificates is absent (5.1.2.6)."""
    EXTENSIONS_STAND_ONCE = 1 << 5
    """Each extension of the list stands once (5.2, 4.2)."""
    CRL_NUMBER_IS_NOT_CRITICAL = 1 << 6
    """cRLNumber is not critical (5.2.3)."""
    DELTA_CRL_INDICATOR_IS_CRITICAL = 1 << 7
    """deltaCRLIndicator is critical (5.2.4)."""
    ISSUING_DISTRIBUTION_POINT_IS_CRITICAL = 1 << 8
    """issuingDistributionPoint is critical (5.2.5)."""
    FRESHEST_CRL_IS_NOT_CRITICAL = 1 << 9
    """freshestCRL is not critical (5.2.6)."""
    AUTHORITY_INFO_ACCESS_IS_NOT_CRITICAL = 1 << 10
    """authorityInfoAccess is not critical (5.2.7)."""
    REASON_CODE_IS_NOT_CRITICAL = 1 << 11
    """reasonCode of an entry is not critical (5.3.1)."""
    INVALIDITY_DATE_IS_NOT_CRITICAL = 1 << 12
    """invalidityDate of an entry is not critical (5.3.2)."""
    CERTIFICATE_ISSUER_IS_CRITICAL = 1 << 13
    """certificateIssuer of an entry is critical (5.3.3)."""
    VERSION_IS_2 = 1 << 14
    """The version is 2 or absent (5.1.2.1)."""
    DATES_THROUGH_2049_ARE_UTC_TIMES = 1 << 15
    """Dates through 2049 are UTCTimes (5.1.2.4, 5.1.2.5, 5.1.2.6)."""
    AUTHORITY_HAS_KEY_IDENTIFIER = 1 << 16
    """authorityKeyIdentifier has a keyIdentifier (5.2.1)."""
    CRL_NUMBER_IS_THERE = 1 << 17
    """cRLNumber is there (5.2.3)."""
    CRL_NUMBER_HAS_AT_MOST_20_OCTETS = 1 << 18
    """cRLNumber is not negative, and has at most 20 octets (5.2.3)."""
    ISSUING_DISTRIBUTION_POINT_IS_NOT_EMPTY = 1 << 19
    """issuingDistributionPoint is not empty (5.2.5)."""
    ISSUING_DISTRIBUTION_POINT_HAS_ONE_KIND = 1 << 20
    """issuingDistributionPoint has at most one kind of certificates (5.2.5)."""
    ENTRY_EXTENSIONS_STAND_ONCE = 1 << 21
    """Each extension of an entry stands once (5.3, 4.2)."""
    REMOVE_FROM_CRL_ONLY_IN_DELTA = 1 << 22
    """removeFromCRL stands in a delta list alone (5.3.1)."""


# end of rules


def check_rfc5280(octets: Octets) -> CertificateRule:
    """The rules that a certificate breaks, which all of the octets are; 0 for none."""
    return CertificateRule(_der.check_rfc5280(octets))


def check_rfc5280_list(octets: Octets) -> ListRule:
    """The rules that a list of revoked certificates breaks, which all of the octets are; 0 for none."""
    return ListRule(_der.check_rfc5280_list(octets))


def canonical(name: str, octets: Octets) -> bytes:
    """The one encoding of the value that all of the octets are, as the type with a name: those of `certview lines`, as cert,
    and of `derview`, as i64. It is the octets that were read, but of the types of sets that are read in another order than
    DER's, and written in order.

    Error has the number 102 where no type has the name.
    """
    return _der.canonical(name, octets)
