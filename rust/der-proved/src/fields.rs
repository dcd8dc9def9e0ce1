//! The fields of messages that are written. A field is an encoding with its tag, as reading returns it; a list is given
//! as its items. Each is read by the grammar of its type before anything is written.

use crate::room::{optional_moment, writes};
use der_proved_sys as sys;

// written by tools/bindings: messages
/// The fields of a body of a certificate, which is signed (TBSCertificate, RFC 5280 4.1.1.1).
#[derive(Clone, Copy, Debug, Default)]
pub struct TbsCertificateFields<'a> {
    /// `version`: 1 for v1, 2 for v2 and so on.
    pub version: u64,
    /// `serialNumber`, an INTEGER.
    pub serial_number: &'a [u8],
    /// `signature`, an AlgorithmIdentifier.
    pub signature: &'a [u8],
    /// `issuer`, a Name.
    pub issuer: &'a [u8],
    /// `notBefore`, in seconds from 1970-01-01T00:00:00Z.
    pub not_before: u64,
    /// `notAfter`, in seconds from 1970-01-01T00:00:00Z.
    pub not_after: u64,
    /// `subject`, a Name.
    pub subject: &'a [u8],
    /// `subjectPublicKeyInfo`, a SubjectPublicKeyInfo.
    pub subject_public_key_info: &'a [u8],
    /// `issuerUniqueID`, with its implicit tag \[1\].
    pub issuer_unique_id: Option<&'a [u8]>,
    /// `subjectUniqueID`, with its implicit tag \[2\].
    pub subject_unique_id: Option<&'a [u8]>,
    /// `extensions`: the encodings of its items, in this order; absent if there are none.
    pub extensions: &'a [&'a [u8]],
}

writes! {
    TbsCertificateFields, write_tbs_certificate, |it, room| sys::CertificateAt {
        serial_number: room.field(it.serial_number),
        signature: room.field(it.signature),
        issuer: room.field(it.issuer),
        subject: room.field(it.subject),
        subject_public_key_info: room.field(it.subject_public_key_info),
        issuer_unique_id: room.optional_field(it.issuer_unique_id),
        subject_unique_id: room.optional_field(it.subject_unique_id),
        extensions: room.optional_items(it.extensions, &[0x30, 0xa3]),
        not_before: it.not_before,
        not_after: it.not_after,
        version_number: it.version.wrapping_sub(1),
        ..sys::CertificateAt::default()
    }
}

/// The fields of a certificate (Certificate, RFC 5280 4.1).
#[derive(Clone, Copy, Debug, Default)]
pub struct CertificateFields<'a> {
    /// `tbsCertificate`, what the signature covers.
    pub tbs_certificate: &'a [u8],
    /// `signatureAlgorithm`, an AlgorithmIdentifier.
    pub signature_algorithm: &'a [u8],
    /// `signatureValue`, a BIT STRING.
    pub signature_value: &'a [u8],
}

writes! {
    CertificateFields, write_certificate, |it, room| sys::CertificateAt {
        tbs_certificate: room.field(it.tbs_certificate),
        signature_algorithm: room.field(it.signature_algorithm),
        signature_value: room.field(it.signature_value),
        ..sys::CertificateAt::default()
    }
}

/// The fields of an extension (Extension, RFC 5280 4.2).
#[derive(Clone, Copy, Debug, Default)]
pub struct ExtensionFields<'a> {
    /// `extnID`, an OBJECT IDENTIFIER.
    pub extn_id: &'a [u8],
    /// `critical`.
    pub is_critical: bool,
    /// `extnValue`, an OCTET STRING.
    pub extn_value: &'a [u8],
}

writes! {
    ExtensionFields, write_extension, |it, room| sys::ExtensionAt {
        extn_id: room.field(it.extn_id),
        extn_value: room.field(it.extn_value),
        is_critical: u32::from(it.is_critical),
        ..sys::ExtensionAt::default()
    }
}

/// The fields of a body of a list of revoked certificates, which is signed (TBSCertList, RFC 5280 5.1.2).
#[derive(Clone, Copy, Debug, Default)]
pub struct TbsCertListFields<'a> {
    /// `version`: 1 for v1, 2 for v2 and so on.
    pub version: u64,
    /// `signature`, an AlgorithmIdentifier.
    pub signature: &'a [u8],
    /// `issuer`, a Name.
    pub issuer: &'a [u8],
    /// `thisUpdate`, in seconds from 1970-01-01T00:00:00Z.
    pub this_update: u64,
    /// `nextUpdate`, in seconds from 1970-01-01T00:00:00Z.
    pub next_update: Option<u64>,
    /// `revokedCertificates`: the encodings of its items, in this order; absent if there are none.
    pub revoked_certificates: &'a [&'a [u8]],
    /// `crlExtensions`: the encodings of its items, in this order; absent if there are none.
    pub crl_extensions: &'a [&'a [u8]],
}

writes! {
    TbsCertListFields, write_tbs_cert_list, |it, room| sys::CertificateListAt {
        signature: room.field(it.signature),
        issuer: room.field(it.issuer),
        revoked_certificates: room.optional_items(it.revoked_certificates, &[0x30]),
        crl_extensions: room.optional_items(it.crl_extensions, &[0x30, 0xa0]),
        this_update_seconds: it.this_update,
        next_update_seconds: optional_moment(it.next_update),
        version_number: it.version.wrapping_sub(1),
        ..sys::CertificateListAt::default()
    }
}

/// The fields of a list of revoked certificates (CertificateList, RFC 5280 5.1).
#[derive(Clone, Copy, Debug, Default)]
pub struct CertificateListFields<'a> {
    /// `tbsCertList`, what the signature covers.
    pub tbs_cert_list: &'a [u8],
    /// `signatureAlgorithm`, an AlgorithmIdentifier.
    pub signature_algorithm: &'a [u8],
    /// `signatureValue`, a BIT STRING.
    pub signature_value: &'a [u8],
}

writes! {
    CertificateListFields, write_certificate_list, |it, room| sys::CertificateListAt {
        tbs_cert_list: room.field(it.tbs_cert_list),
        signature_algorithm: room.field(it.signature_algorithm),
        signature_value: room.field(it.signature_value),
        ..sys::CertificateListAt::default()
    }
}

/// The fields of an entry of a list of revoked certificates (RevokedCertificate, RFC 5280 5.1.2.6).
#[derive(Clone, Copy, Debug, Default)]
pub struct RevokedCertificateFields<'a> {
    /// `userCertificate`, an INTEGER.
    pub user_certificate: &'a [u8],
    /// `revocationDate`, in seconds from 1970-01-01T00:00:00Z.
    pub revocation_date: u64,
    /// `crlEntryExtensions`: the encodings of its items, in this order; absent if there are none.
    pub crl_entry_extensions: &'a [&'a [u8]],
}

writes! {
    RevokedCertificateFields, write_revoked_certificate, |it, room| sys::RevokedCertificateAt {
        user_certificate: room.field(it.user_certificate),
        crl_entry_extensions: room.optional_items(it.crl_entry_extensions, &[0x30]),
        revocation_date_seconds: it.revocation_date,
        ..sys::RevokedCertificateAt::default()
    }
}

/// The fields of a body of a request for a certificate, which is signed (CertificationRequestInfo, RFC 2986 4.1).
#[derive(Clone, Copy, Debug, Default)]
pub struct CertificationRequestInfoFields<'a> {
    /// `subject`, a Name.
    pub subject: &'a [u8],
    /// `subjectPKInfo`, a SubjectPublicKeyInfo.
    pub subject_pk_info: &'a [u8],
    /// `attributes`: the encodings of its items, in any order.
    pub attributes: &'a [&'a [u8]],
}

writes! {
    CertificationRequestInfoFields, write_certification_request_info, |it, room| sys::CertificationRequestAt {
        subject: room.field(it.subject),
        subject_pk_info: room.field(it.subject_pk_info),
        attributes: room.set(it.attributes, &[0xa0]),
        ..sys::CertificationRequestAt::default()
    }
}

/// The fields of a request for a certificate (CertificationRequest, RFC 2986 4.2).
#[derive(Clone, Copy, Debug, Default)]
pub struct CertificationRequestFields<'a> {
    /// `certificationRequestInfo`, what the signature covers.
    pub certification_request_info: &'a [u8],
    /// `signatureAlgorithm`, an AlgorithmIdentifier.
    pub signature_algorithm: &'a [u8],
    /// `signature`, a BIT STRING.
    pub signature: &'a [u8],
}

writes! {
    CertificationRequestFields, write_certification_request, |it, room| sys::CertificationRequestAt {
        certification_request_info: room.field(it.certification_request_info),
        signature_algorithm: room.field(it.signature_algorithm),
        signature: room.field(it.signature),
        ..sys::CertificationRequestAt::default()
    }
}

/// The fields of an OCSP response (OCSPResponse, RFC 6960 4.2.1).
#[derive(Clone, Copy, Debug, Default)]
pub struct OcspResponseFields<'a> {
    /// `responseStatus`: 0 for successful, 1 to 3, 5 or 6.
    pub response_status: i64,
    /// `responseBytes`, with their explicit tag \[0\].
    pub response_bytes: Option<&'a [u8]>,
}

writes! {
    OcspResponseFields, write_ocsp_response, |it, room| sys::OcspResponseAt {
        response_bytes: room.optional_field(it.response_bytes),
        response_status_number: it.response_status,
        ..sys::OcspResponseAt::default()
    }
}

/// The fields of a body of an OCSP response, which is signed (ResponseData, RFC 6960 4.2.1).
#[derive(Clone, Copy, Debug, Default)]
pub struct ResponseDataFields<'a> {
    /// `responderID`, a CHOICE: with the explicit tag \[1\] a Name, with the explicit tag \[2\] an OCTET STRING.
    pub responder_id: &'a [u8],
    /// `producedAt`, in seconds from 1970-01-01T00:00:00Z.
    pub produced_at: u64,
    /// `responses`: the encodings of its items, in this order.
    pub responses: &'a [&'a [u8]],
    /// `responseExtensions`: the encodings of its items, in this order; absent if there are none.
    pub response_extensions: &'a [&'a [u8]],
}

writes! {
    ResponseDataFields, write_response_data, |it, room| sys::BasicOcspResponseAt {
        responder_id: room.field(it.responder_id),
        responses: room.items(it.responses, &[0x30]),
        response_extensions: room.optional_items(it.response_extensions, &[0x30, 0xa1]),
        produced_at_seconds: it.produced_at,
        ..sys::BasicOcspResponseAt::default()
    }
}

/// The fields of a signed OCSP response (BasicOCSPResponse, RFC 6960 4.2.1).
#[derive(Clone, Copy, Debug, Default)]
pub struct BasicOcspResponseFields<'a> {
    /// `tbsResponseData`, what the signature covers.
    pub tbs_response_data: &'a [u8],
    /// `signatureAlgorithm`, an AlgorithmIdentifier.
    pub signature_algorithm: &'a [u8],
    /// `signature`, a BIT STRING.
    pub signature: &'a [u8],
    /// `certs`: the encodings of its items, in this order; absent if there are none.
    pub certs: &'a [&'a [u8]],
}

writes! {
    BasicOcspResponseFields, write_basic_ocsp_response, |it, room| sys::BasicOcspResponseAt {
        tbs_response_data: room.field(it.tbs_response_data),
        signature_algorithm: room.field(it.signature_algorithm),
        signature: room.field(it.signature),
        certs: room.optional_items(it.certs, &[0x30, 0xa0]),
        ..sys::BasicOcspResponseAt::default()
    }
}

/// The fields of a response about one certificate (SingleResponse, RFC 6960 4.2.1).
#[derive(Clone, Copy, Debug, Default)]
pub struct SingleResponseFields<'a> {
    /// `certID`, a CertID.
    pub cert_id: &'a [u8],
    /// `certStatus`, a CHOICE: with its implicit tag \[0\], \[1\] or \[2\].
    pub cert_status: &'a [u8],
    /// `thisUpdate`, in seconds from 1970-01-01T00:00:00Z.
    pub this_update: u64,
    /// `nextUpdate`, in seconds from 1970-01-01T00:00:00Z.
    pub next_update: Option<u64>,
    /// `singleExtensions`: the encodings of its items, in this order; absent if there are none.
    pub single_extensions: &'a [&'a [u8]],
}

writes! {
    SingleResponseFields, write_single_response, |it, room| sys::SingleResponseAt {
        cert_id: room.field(it.cert_id),
        cert_status: room.field(it.cert_status),
        single_extensions: room.optional_items(it.single_extensions, &[0x30, 0xa1]),
        this_update_seconds: it.this_update,
        next_update_seconds: optional_moment(it.next_update),
        ..sys::SingleResponseAt::default()
    }
}

/// The fields of an OCSP request (OCSPRequest, RFC 6960 4.1.1).
#[derive(Clone, Copy, Debug, Default)]
pub struct OcspRequestFields<'a> {
    /// `tbsRequest`, a TBSRequest.
    pub tbs_request: &'a [u8],
    /// `optionalSignature`, a Signature, with the explicit tag \[0\].
    pub optional_signature: Option<&'a [u8]>,
}

writes! {
    OcspRequestFields, write_ocsp_request, |it, room| sys::OcspRequestAt {
        tbs_request: room.field(it.tbs_request),
        optional_signature: room.optional_field(it.optional_signature),
    }
}

/// The fields of a body of an OCSP request (TBSRequest, RFC 6960 4.1.1).
#[derive(Clone, Copy, Debug, Default)]
pub struct TbsRequestFields<'a> {
    /// `requestorName`, a GeneralName, with the explicit tag \[1\].
    pub requestor_name: Option<&'a [u8]>,
    /// `requestList`: the encodings of its items, in this order.
    pub request_list: &'a [&'a [u8]],
    /// `requestExtensions`: the encodings of its items, in this order; absent if there are none.
    pub request_extensions: &'a [&'a [u8]],
}

writes! {
    TbsRequestFields, write_tbs_request, |it, room| sys::TbsRequestAt {
        requestor_name: room.optional_field(it.requestor_name),
        request_list: room.items(it.request_list, &[0x30]),
        request_extensions: room.optional_items(it.request_extensions, &[0x30, 0xa2]),
        ..sys::TbsRequestAt::default()
    }
}

/// The fields of a request about one certificate (Request, RFC 6960 4.1.1).
#[derive(Clone, Copy, Debug, Default)]
pub struct RequestFields<'a> {
    /// `reqCert`, a CertID.
    pub req_cert: &'a [u8],
    /// `singleRequestExtensions`: the encodings of its items, in this order; absent if there are none.
    pub single_request_extensions: &'a [&'a [u8]],
}

writes! {
    RequestFields, write_request, |it, room| sys::RequestAt {
        req_cert: room.field(it.req_cert),
        single_request_extensions: room.optional_items(it.single_request_extensions, &[0x30, 0xa0]),
    }
}

/// The fields of a certificate's identifier in OCSP (CertID, RFC 6960 4.1.1).
#[derive(Clone, Copy, Debug, Default)]
pub struct CertIdFields<'a> {
    /// `hashAlgorithm`, an AlgorithmIdentifier.
    pub hash_algorithm: &'a [u8],
    /// `issuerNameHash`, an OCTET STRING.
    pub issuer_name_hash: &'a [u8],
    /// `issuerKeyHash`, an OCTET STRING.
    pub issuer_key_hash: &'a [u8],
    /// `serialNumber`, an INTEGER.
    pub serial_number: &'a [u8],
}

writes! {
    CertIdFields, write_cert_id, |it, room| sys::CertIdAt {
        hash_algorithm: room.field(it.hash_algorithm),
        issuer_name_hash: room.field(it.issuer_name_hash),
        issuer_key_hash: room.field(it.issuer_key_hash),
        serial_number: room.field(it.serial_number),
    }
}
// end of messages
