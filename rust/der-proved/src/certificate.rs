//! Certificates and their extensions.

use crate::place::{fields, if_there, items, message, optional_fields};
use crate::{contents, Name};

message! {
    /// A certificate (RFC 5280 4.1).
    #[derive(Debug)]
    Certificate, certificate, CertificateAt
}

impl<'a> Certificate<'a> {
    // written by tools/bindings: fields of Certificate
    fields! {
        /// `tbsCertificate`, what the signature covers.
        tbs_certificate
        /// `signatureAlgorithm`, an AlgorithmIdentifier.
        signature_algorithm
        /// `signatureValue`, a BIT STRING.
        signature_value
        /// `serialNumber` of `tbsCertificate`, an INTEGER.
        serial_number
        /// `signature` of `tbsCertificate`, an AlgorithmIdentifier.
        signature
        /// `issuer` of `tbsCertificate`, a Name.
        issuer
        /// `validity` of `tbsCertificate`, a SEQUENCE of both dates.
        validity
        /// `subject` of `tbsCertificate`, a Name.
        subject
        /// `subjectPublicKeyInfo` of `tbsCertificate`, a SubjectPublicKeyInfo.
        subject_public_key_info
    }

    optional_fields! {
        /// `issuerUniqueID` of `tbsCertificate`, with its implicit tag \[1\].
        issuer_unique_id
        /// `subjectUniqueID` of `tbsCertificate`, with its implicit tag \[2\].
        subject_unique_id
    }
    // end of fields of Certificate

    /// The attributes of `issuer`, in their order.
    pub fn issuer_attributes(&self) -> Name<'a> {
        Name::of(self.issuer())
    }

    /// The attributes of `subject`, in their order.
    pub fn subject_attributes(&self) -> Name<'a> {
        Name::of(self.subject())
    }

    /// 1, 2 or 3; one more than the number that stands in `version`.
    pub fn version(&self) -> u64 {
        self.at.version_number + 1
    }

    /// `notBefore`, in seconds from 1970-01-01T00:00:00Z.
    pub fn not_before(&self) -> u64 {
        self.at.not_before
    }

    /// `notAfter`, in seconds from 1970-01-01T00:00:00Z; the certificate is valid in this second too.
    pub fn not_after(&self) -> u64 {
        self.at.not_after
    }

    /// The extensions, in their order.
    pub fn extensions(&self) -> Extensions<'a> {
        Extensions::after_tag(if_there(self.octets, self.at.extensions))
    }
}

impl<'a> Extensions<'a> {
    /// Those of a field with an explicit tag.
    pub(crate) fn after_tag(field: Option<&'a [u8]>) -> Extensions<'a> {
        Extensions::listed(field.map(contents))
    }
}

items! {
    /// Goes over extensions.
    Extensions,
    /// An extension (RFC 5280 4.2).
    Extension, extension, ExtensionAt
}

impl<'a> Extension<'a> {
    // written by tools/bindings: fields of Extension
    fields! {
        /// `extnID`, an OBJECT IDENTIFIER.
        extn_id
        /// `extnValue`, an OCTET STRING.
        extn_value
    }
    // end of fields of Extension

    /// The contents octets of `extnID`: 55 1D 0F of keyUsage.
    pub fn identifier(&self) -> &'a [u8] {
        contents(self.extn_id())
    }

    /// The contents octets of `extnValue`: the encoding of what the extension says.
    pub fn value(&self) -> &'a [u8] {
        contents(self.extn_value())
    }

    /// `critical`.
    pub fn is_critical(&self) -> bool {
        self.at.is_critical == 1
    }
}
