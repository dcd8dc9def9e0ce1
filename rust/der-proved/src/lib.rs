//! DER of certificates, lists of revoked ones, keys, requests, answers about the status of certificates
//! and signed messages, proved: which octets are taken, where each field stands, which rules of RFC 5280
//! are broken, and the canonical encoding by the name of a type.
//!
//! A value borrows the octets that it was read from, and a field is a slice of them: its whole
//! encoding. Nothing of them is copied but by `canonical`. No signature is verified: `check_path`
//! validates a chain of certificates, and returns what has to verify; `list_status`,
//! `revocation_status` and `ocsp_status` say whether a certificate is revoked. A message is written from a struct of its fields, such as [`TbsCertificateFields`], with the values of the modules `encode` and
//! `write`. The code that reads and writes is Barleypulley's `der_c`, whose contracts `docs/C.md`
//! quotes; this crate, which calls it, is not proved.
//!
//! ```
//! # let octets: &[u8] = &[0x30, 0x03, 0x02, 0x01, 0x05];
//! match der_proved::Certificate::from_der(octets) {
//!     Ok(certificate) => {
//!         let _signed: &[u8] = certificate.tbs_certificate();
//!         for extension in certificate.extensions() {
//!             let extension = extension.expect("the extensions of a certificate are read");
//!             println!("{:02x?} {}", extension.identifier(), extension.is_critical());
//!         }
//!     }
//!     Err(error) => assert_eq!(error.number(), 4),
//! }
//! ```
#![no_std]
#![forbid(unsafe_code)]
#![warn(missing_docs)]

#[cfg(feature = "alloc")]
extern crate alloc;

#[cfg(all(doctest, feature = "alloc"))]
#[doc = include_str!("../README.md")]
struct ExampleOfReadme;

mod attribute;
mod canonical;
mod certificate;
mod certificate_list;
mod cms;
#[cfg(feature = "alloc")]
pub mod encode;
mod error;
mod fields;
mod inner;
mod key;
mod ocsp;
#[cfg(feature = "alloc")]
mod parts;
#[cfg(feature = "alloc")]
mod path;
mod place;
mod request;
mod room;
mod rules;
#[cfg(feature = "alloc")]
mod status;
#[cfg(feature = "alloc")]
mod steps;
mod values;
pub mod write;

pub use attribute::{Attribute, AttributeTypeAndValue, Attributes, Name};
pub use canonical::{canonical, CanonicalError};
pub use certificate::{Certificate, Extension, Extensions};
pub use certificate_list::{CertificateList, RevokedCertificate, RevokedCertificates};
pub use cms::{ContentInfo, SignedData, SignerInfo, SignerInfos};
pub use error::{Error, WriteError};
pub use fields::*;
pub use inner::*;
pub use key::{PrivateKeyInfo, SubjectPublicKeyInfo};
pub use ocsp::{BasicOcspResponse, CertStatus, OcspResponse, SingleResponse, SingleResponses};
#[cfg(feature = "alloc")]
pub use path::{check_path, PathError, PathInputs, Step, ValidPath, Verification};
pub use place::{contents, signed_octets};
pub use request::CertificationRequest;
pub use rules::{check_rfc5280, check_rfc5280_list, BrokenRules, CertificateRule, ListRule};
#[cfg(feature = "alloc")]
pub use status::{
    list_status, ocsp_status, revocation_status, ListStatus, ListStep, OcspInputs, OcspStatus, OcspStep, Reason, Reasons,
    Responder, RevocationStatus, Revoked, StatusError,
};
pub use values::{
    encodings, fractional_time, general_name, named_bits, time, unsigned_integer, Encodings, GeneralName,
};
