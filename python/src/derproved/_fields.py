"""Messages that are written from their fields. A field is an encoding with its tag, as reading returns it; a list is given as
its items. Each is read by the grammar of its type before anything is written."""

from __future__ import annotations

from collections.abc import Iterable
from datetime import datetime

from ._values import Octets
from ._writing import items, optional_items, optional_seconds, seconds, set_, written

# written by tools/bindings: messages
__all__ = [
    "write_basic_ocsp_response",
    "write_cert_id",
    "write_certificate",
    "write_certificate_list",
    "write_certification_request",
    "write_certification_request_info",
    "write_extension",
    "write_ocsp_request",
    "write_ocsp_response",
    "write_request",
    "write_response_data",
    "write_revoked_certificate",
    "write_single_response",
    "write_tbs_cert_list",
    "write_tbs_certificate",
    "write_tbs_request",
]


def write_tbs_certificate(
    *,
    version: int,
    serial_number: Octets,
    signature: Octets,
    issuer: Octets,
    not_before: datetime,
    not_after: datetime,
    subject: Octets,
    subject_public_key_info: Octets,
    issuer_unique_id: Octets | None = None,
    subject_unique_id: Octets | None = None,
    extensions: Iterable[Octets] = (),
) -> bytes:
    """A body of a certificate, which is signed (TBSCertificate, RFC 5280 4.1.1.1).

    version: `version`: 1 for v1, 2 for v2 and so on.
    serial_number: `serialNumber`, an INTEGER.
    signature: `signature`, an AlgorithmIdentifier.
    issuer: `issuer`, a Name.
    not_before: `notBefore`, with a time zone; a fraction of a second is left out.
    not_after: `notAfter`, with a time zone; a fraction of a second is left out.
    subject: `subject`, a Name.
    subject_public_key_info: `subjectPublicKeyInfo`, a SubjectPublicKeyInfo.
    issuer_unique_id: `issuerUniqueID`, with its implicit tag [1].
    subject_unique_id: `subjectUniqueID`, with its implicit tag [2].
    extensions: `extensions`, the encodings of its items, in this order; absent if there are none.
    """
    fields = (
        None,
        None,
        None,
        None,
        serial_number,
        signature,
        issuer,
        None,
        subject,
        subject_public_key_info,
        issuer_unique_id,
        subject_unique_id,
        optional_items(extensions, 0x30, 0xA3),
    )
    numbers = (seconds(not_before), seconds(not_after), version - 1)
    return written("tbs_certificate", fields, numbers)


def write_certificate(
    *,
    tbs_certificate: Octets,
    signature_algorithm: Octets,
    signature_value: Octets,
) -> bytes:
    """A certificate (Certificate, RFC 5280 4.1).

    tbs_certificate: `tbsCertificate`, what the signature covers.
    signature_algorithm: `signatureAlgorithm`, an AlgorithmIdentifier.
    signature_value: `signatureValue`, a BIT STRING.
    """
    fields = (
        tbs_certificate,
        signature_algorithm,
        signature_value,
        None,
        None,
        None,
        None,
        None,
        None,
        None,
        None,
        None,
        None,
    )
    numbers = (0, 0, 0)
    return written("certificate", fields, numbers)


def write_extension(
    *,
    extn_id: Octets,
    is_critical: bool,
    extn_value: Octets,
) -> bytes:
    """An extension (Extension, RFC 5280 4.2).

    extn_id: `extnID`, an OBJECT IDENTIFIER.
    is_critical: `critical`.
    extn_value: `extnValue`, an OCTET STRING.
    """
    fields = (None, extn_id, None, extn_value)
    numbers = (is_critical,)
    return written("extension", fields, numbers)


def write_tbs_cert_list(
    *,
    version: int,
    signature: Octets,
    issuer: Octets,
    this_update: datetime,
    next_update: datetime | None = None,
    revoked_certificates: Iterable[Octets] = (),
    crl_extensions: Iterable[Octets] = (),
) -> bytes:
    """A body of a list of revoked certificates, which is signed (TBSCertList, RFC 5280 5.1.2).

    version: `version`: 1 for v1, 2 for v2 and so on.
    signature: `signature`, an AlgorithmIdentifier.
    issuer: `issuer`, a Name.
    this_update: `thisUpdate`, with a time zone; a fraction of a second is left out.
    next_update: `nextUpdate`, with a time zone; a fraction of a second is left out.
    revoked_certificates: `revokedCertificates`, the encodings of its items, in this order; absent if there are
        none.
    crl_extensions: `crlExtensions`, the encodings of its items, in this order; absent if there are none.
    """
    fields = (
        None,
        None,
        None,
        None,
        signature,
        issuer,
        None,
        None,
        optional_items(revoked_certificates, 0x30),
        optional_items(crl_extensions, 0x30, 0xA0),
    )
    numbers = (seconds(this_update), optional_seconds(next_update), version - 1)
    return written("tbs_cert_list", fields, numbers)


def write_certificate_list(
    *,
    tbs_cert_list: Octets,
    signature_algorithm: Octets,
    signature_value: Octets,
) -> bytes:
    """A list of revoked certificates (CertificateList, RFC 5280 5.1).

    tbs_cert_list: `tbsCertList`, what the signature covers.
    signature_algorithm: `signatureAlgorithm`, an AlgorithmIdentifier.
    signature_value: `signatureValue`, a BIT STRING.
    """
    fields = (tbs_cert_list, signature_algorithm, signature_value, None, None, None, None, None, None, None)
    numbers = (0, 0, 0)
    return written("certificate_list", fields, numbers)


def write_revoked_certificate(
    *,
    user_certificate: Octets,
    revocation_date: datetime,
    crl_entry_extensions: Iterable[Octets] = (),
) -> bytes:
    """An entry of a list of revoked certificates (RevokedCertificate, RFC 5280 5.1.2.6).

    user_certificate: `userCertificate`, an INTEGER.
    revocation_date: `revocationDate`, with a time zone; a fraction of a second is left out.
    crl_entry_extensions: `crlEntryExtensions`, the encodings of its items, in this order; absent if there are none.
    """
    fields = (None, user_certificate, None, optional_items(crl_entry_extensions, 0x30))
    numbers = (seconds(revocation_date),)
    return written("revoked_certificate", fields, numbers)


def write_certification_request_info(
    *,
    subject: Octets,
    subject_pk_info: Octets,
    attributes: Iterable[Octets],
) -> bytes:
    """A body of a request for a certificate, which is signed (CertificationRequestInfo, RFC 2986 4.1).

    subject: `subject`, a Name.
    subject_pk_info: `subjectPKInfo`, a SubjectPublicKeyInfo.
    attributes: `attributes`, the encodings of its items, in any order.
    """
    fields = (None, None, None, None, subject, subject_pk_info, set_(attributes, 0xA0))
    numbers = ()
    return written("certification_request_info", fields, numbers)


def write_certification_request(
    *,
    certification_request_info: Octets,
    signature_algorithm: Octets,
    signature: Octets,
) -> bytes:
    """A request for a certificate (CertificationRequest, RFC 2986 4.2).

    certification_request_info: `certificationRequestInfo`, what the signature covers.
    signature_algorithm: `signatureAlgorithm`, an AlgorithmIdentifier.
    signature: `signature`, a BIT STRING.
    """
    fields = (certification_request_info, signature_algorithm, signature, None, None, None, None)
    numbers = ()
    return written("certification_request", fields, numbers)


def write_ocsp_response(
    *,
    response_status: int,
    response_bytes: Octets | None = None,
) -> bytes:
    """An OCSP response (OCSPResponse, RFC 6960 4.2.1).

    response_status: `responseStatus`: 0 for successful, 1 to 3, 5 or 6.
    response_bytes: `responseBytes`, with their explicit tag [0].
    """
    fields = (None, response_bytes, None, None)
    numbers = (response_status,)
    return written("ocsp_response", fields, numbers)


def write_response_data(
    *,
    responder_id: Octets,
    produced_at: datetime,
    responses: Iterable[Octets],
    response_extensions: Iterable[Octets] = (),
) -> bytes:
    """A body of an OCSP response, which is signed (ResponseData, RFC 6960 4.2.1).

    responder_id: `responderID`, a CHOICE: with the explicit tag [1] a Name, with the explicit tag [2] an OCTET
        STRING.
    produced_at: `producedAt`, with a time zone; a fraction of a second is left out.
    responses: `responses`, the encodings of its items, in this order.
    response_extensions: `responseExtensions`, the encodings of its items, in this order; absent if there are none.
    """
    fields = (
        None,
        None,
        None,
        None,
        None,
        responder_id,
        None,
        items(responses, 0x30),
        optional_items(response_extensions, 0x30, 0xA1),
    )
    numbers = (seconds(produced_at),)
    return written("response_data", fields, numbers)


def write_basic_ocsp_response(
    *,
    tbs_response_data: Octets,
    signature_algorithm: Octets,
    signature: Octets,
    certs: Iterable[Octets] = (),
) -> bytes:
    """A signed OCSP response (BasicOCSPResponse, RFC 6960 4.2.1).

    tbs_response_data: `tbsResponseData`, what the signature covers.
    signature_algorithm: `signatureAlgorithm`, an AlgorithmIdentifier.
    signature: `signature`, a BIT STRING.
    certs: `certs`, the encodings of its items, in this order; absent if there are none.
    """
    fields = (
        tbs_response_data,
        signature_algorithm,
        signature,
        optional_items(certs, 0x30, 0xA0),
        None,
        None,
        None,
        None,
        None,
    )
    numbers = (0,)
    return written("basic_ocsp_response", fields, numbers)


def write_single_response(
    *,
    cert_id: Octets,
    cert_status: Octets,
    this_update: datetime,
    next_update: datetime | None = None,
    single_extensions: Iterable[Octets] = (),
) -> bytes:
    """A response about one certificate (SingleResponse, RFC 6960 4.2.1).

    cert_id: `certID`, a CertID.
    cert_status: `certStatus`, a CHOICE: with its implicit tag [0], [1] or [2].
    this_update: `thisUpdate`, with a time zone; a fraction of a second is left out.
    next_update: `nextUpdate`, with a time zone; a fraction of a second is left out.
    single_extensions: `singleExtensions`, the encodings of its items, in this order; absent if there are none.
    """
    fields = (None, cert_id, cert_status, None, None, optional_items(single_extensions, 0x30, 0xA1))
    numbers = (seconds(this_update), optional_seconds(next_update), 0, 0)
    return written("single_response", fields, numbers)


def write_ocsp_request(
    *,
    tbs_request: Octets,
    optional_signature: Octets | None = None,
) -> bytes:
    """An OCSP request (OCSPRequest, RFC 6960 4.1.1).

    tbs_request: `tbsRequest`, a TBSRequest.
    optional_signature: `optionalSignature`, a Signature, with the explicit tag [0].
    """
    fields = (tbs_request, optional_signature)
    numbers = ()
    return written("ocsp_request", fields, numbers)


def write_tbs_request(
    *,
    requestor_name: Octets | None = None,
    request_list: Iterable[Octets],
    request_extensions: Iterable[Octets] = (),
) -> bytes:
    """A body of an OCSP request (TBSRequest, RFC 6960 4.1.1).

    requestor_name: `requestorName`, a GeneralName, with the explicit tag [1].
    request_list: `requestList`, the encodings of its items, in this order.
    request_extensions: `requestExtensions`, the encodings of its items, in this order; absent if there are none.
    """
    fields = (None, requestor_name, items(request_list, 0x30), optional_items(request_extensions, 0x30, 0xA2))
    numbers = ()
    return written("tbs_request", fields, numbers)


def write_request(
    *,
    req_cert: Octets,
    single_request_extensions: Iterable[Octets] = (),
) -> bytes:
    """A request about one certificate (Request, RFC 6960 4.1.1).

    req_cert: `reqCert`, a CertID.
    single_request_extensions: `singleRequestExtensions`, the encodings of its items, in this order; absent if there
        are none.
    """
    fields = (req_cert, optional_items(single_request_extensions, 0x30, 0xA0))
    numbers = ()
    return written("request", fields, numbers)


def write_cert_id(
    *,
    hash_algorithm: Octets,
    issuer_name_hash: Octets,
    issuer_key_hash: Octets,
    serial_number: Octets,
) -> bytes:
    """A certificate's identifier in OCSP (CertID, RFC 6960 4.1.1).

    hash_algorithm: `hashAlgorithm`, an AlgorithmIdentifier.
    issuer_name_hash: `issuerNameHash`, an OCTET STRING.
    issuer_key_hash: `issuerKeyHash`, an OCTET STRING.
    serial_number: `serialNumber`, an INTEGER.
    """
    fields = (hash_algorithm, issuer_name_hash, issuer_key_hash, serial_number)
    numbers = ()
    return written("cert_id", fields, numbers)
# end of messages
