//! Lists of revoked certificates and their entries.

use crate::place::{fields, if_there, items, message, optional_fields};
use crate::Extensions;

message! {
    /// A list of revoked certificates (RFC 5280 5.1).
    #[derive(Debug)]
    CertificateList, certificate_list, CertificateListAt
}

impl<'a> CertificateList<'a> {
    // written by tools/bindings: fields of CertificateList
    fields! {
        /// `tbsCertList`, what the signature covers.
        tbs_cert_list
        /// `signatureAlgorithm`, an AlgorithmIdentifier.
        signature_algorithm
        /// `signatureValue`, a BIT STRING.
        signature_value
        /// `signature` of `tbsCertList`, an AlgorithmIdentifier.
        signature
        /// `issuer` of `tbsCertList`, a Name.
        issuer
    }
    // end of fields of CertificateList

    /// 1 or 2; one more than the number that stands in `version`.
    pub fn version(&self) -> u64 {
        self.at.version_number + 1
    }

    /// `thisUpdate`, in seconds from 1970-01-01T00:00:00Z.
    pub fn this_update(&self) -> u64 {
        self.at.this_update_seconds
    }

    /// `nextUpdate`, in seconds from 1970-01-01T00:00:00Z, if it is there.
    pub fn next_update(&self) -> Option<u64> {
        (self.at.next_update.length > 0).then_some(self.at.next_update_seconds)
    }

    /// The entries, in their order.
    pub fn revoked_certificates(&self) -> RevokedCertificates<'a> {
        RevokedCertificates::listed(if_there(self.octets, self.at.revoked_certificates))
    }

    /// The extensions, in their order.
    pub fn extensions(&self) -> Extensions<'a> {
        Extensions::after_tag(if_there(self.octets, self.at.crl_extensions))
    }
}

items! {
    /// Goes over the entries of a list.
    RevokedCertificates,
    /// An entry of a list (RFC 5280 5.1.2.6).
    RevokedCertificate, revoked_certificate, RevokedCertificateAt
}

impl<'a> RevokedCertificate<'a> {
    // written by tools/bindings: fields of RevokedCertificate
    fields! {
        /// `userCertificate`, an INTEGER.
        user_certificate
    }

    optional_fields! {
        /// `crlEntryExtensions`, a SEQUENCE OF.
        crl_entry_extensions
    }
    // end of fields of RevokedCertificate

    /// `revocationDate`, in seconds from 1970-01-01T00:00:00Z.
    pub fn revocation_date(&self) -> u64 {
        self.at.revocation_date_seconds
    }

    /// The extensions, in their order.
    pub fn extensions(&self) -> Extensions<'a> {
        Extensions::listed(self.crl_entry_extensions())
    }
}
