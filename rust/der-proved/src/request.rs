//! Requests for certificates.

use crate::place::{fields, if_there, message};
use crate::{Attributes, Name};

message! {
    /// A CertificationRequest (RFC 2986 4.2).
    #[derive(Debug)]
    CertificationRequest, certification_request, CertificationRequestAt
}

impl<'a> CertificationRequest<'a> {
    // written by tools/bindings: fields of CertificationRequest
    fields! {
        /// `certificationRequestInfo`, what the signature covers.
        certification_request_info
        /// `signatureAlgorithm`, an AlgorithmIdentifier.
        signature_algorithm
        /// `signature`, a BIT STRING.
        signature
        /// `subject` of `certificationRequestInfo`, a Name.
        subject
        /// `subjectPKInfo` of `certificationRequestInfo`, a SubjectPublicKeyInfo.
        subject_pk_info
    }
    // end of fields of CertificationRequest

    /// The attributes of `subject`, in their order.
    pub fn subject_attributes(&self) -> Name<'a> {
        Name::of(self.subject())
    }

    /// The attributes, in their order.
    pub fn attributes(&self) -> Attributes<'a> {
        Attributes::listed(if_there(self.octets, self.at.attributes))
    }
}
