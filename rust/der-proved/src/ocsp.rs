//! Answers about the status of certificates.

use crate::place::{fields, if_there, items, message, optional_fields};
use crate::Extensions;

message! {
    /// An OCSPResponse (RFC 6960 4.2.1).
    #[derive(Debug)]
    OcspResponse, ocsp_response, OcspResponseAt
}

impl<'a> OcspResponse<'a> {
    /// `responseStatus`: 0 for successful, 1 to 3, 5 or 6.
    pub fn response_status(&self) -> i64 {
        self.at.response_status_number
    }

    // written by tools/bindings: fields of OCSPResponse
    optional_fields! {
        /// `responseType` of `responseBytes`, an OBJECT IDENTIFIER.
        response_type
        /// `response` of `responseBytes`, an OCTET STRING; if responseType is id-pkix-ocsp-basic, a BasicOCSPResponse
        /// is to be read from its contents octets.
        response
    }
    // end of fields of OCSPResponse
}

message! {
    /// A BasicOCSPResponse (RFC 6960 4.2.1).
    #[derive(Debug)]
    BasicOcspResponse, basic_ocsp_response, BasicOcspResponseAt
}

impl<'a> BasicOcspResponse<'a> {
    // written by tools/bindings: fields of BasicOCSPResponse
    fields! {
        /// `tbsResponseData`, what the signature covers.
        tbs_response_data
        /// `signatureAlgorithm`, an AlgorithmIdentifier.
        signature_algorithm
        /// `signature`, a BIT STRING.
        signature
        /// `responderID` of `tbsResponseData`, a CHOICE: with the explicit tag \[1\] a Name, with the explicit tag
        /// \[2\] an OCTET STRING.
        responder_id
    }

    optional_fields! {
        /// `certs`, with their explicit tag \[0\].
        certs
    }
    // end of fields of BasicOCSPResponse

    /// `producedAt`, in seconds from 1970-01-01T00:00:00Z.
    pub fn produced_at(&self) -> u64 {
        self.at.produced_at_seconds
    }

    /// The answers about single certificates, in their order.
    pub fn responses(&self) -> SingleResponses<'a> {
        SingleResponses::listed(if_there(self.octets, self.at.responses))
    }

    /// The extensions, in their order.
    pub fn extensions(&self) -> Extensions<'a> {
        Extensions::after_tag(if_there(self.octets, self.at.response_extensions))
    }
}

/// What is answered about a certificate.
#[derive(Clone, Copy, Debug, PartialEq, Eq)]
pub enum CertStatus {
    /// It is not revoked.
    Good,
    /// It was revoked, at this second from 1970-01-01T00:00:00Z.
    Revoked(u64),
    /// It is not known.
    Unknown,
}

items! {
    /// Goes over the answers about single certificates.
    SingleResponses,
    /// The answer about one certificate (RFC 6960 4.2.1).
    SingleResponse, single_response, SingleResponseAt
}

impl<'a> SingleResponse<'a> {
    // written by tools/bindings: fields of SingleResponse
    fields! {
        /// `certID`, a CertID.
        cert_id
    }
    // end of fields of SingleResponse

    /// `certStatus`.
    pub fn cert_status(&self) -> CertStatus {
        match self.at.cert_status_number {
            0 => CertStatus::Good,
            1 => CertStatus::Revoked(self.at.revocation_time_seconds),
            _ => CertStatus::Unknown,
        }
    }

    /// `thisUpdate`, in seconds from 1970-01-01T00:00:00Z.
    pub fn this_update(&self) -> u64 {
        self.at.this_update_seconds
    }

    /// `nextUpdate`, in seconds from 1970-01-01T00:00:00Z, if it is there.
    pub fn next_update(&self) -> Option<u64> {
        (self.at.next_update.length > 0).then_some(self.at.next_update_seconds)
    }

    /// The extensions, in their order.
    pub fn extensions(&self) -> Extensions<'a> {
        Extensions::after_tag(if_there(self.octets, self.at.single_extensions))
    }
}

