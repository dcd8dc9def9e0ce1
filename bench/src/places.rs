//! The rows of places: where the fields of a certificate stand, by the calls for C, as `der-proved` makes them.

use crate::calls::{mbedtls, octets as here};
use crate::messages::{Call, x509_cert, x509_parser};

/// The fields of a certificate.
#[cfg(feature = "here")]
fn certificate(octets: &[u8]) -> usize {
    usize::from(der_proved::Certificate::from_der(octets).is_ok())
}

/// The same, each extension by its iterator, and each attribute of the two names.
#[cfg(feature = "here")]
fn each_part(octets: &[u8]) -> usize {
    let Ok(certificate) = der_proved::Certificate::from_der(octets) else {
        return 0;
    };
    let are_read = certificate.extensions().all(|extension| extension.is_ok())
        && certificate.issuer_attributes().all(|attribute| attribute.is_ok())
        && certificate.subject_attributes().all(|attribute| attribute.is_ok());
    usize::from(are_read)
}

#[cfg(not(feature = "here"))]
fn certificate(_octets: &[u8]) -> usize {
    0
}

#[cfg(not(feature = "here"))]
fn each_part(_octets: &[u8]) -> usize {
    0
}

/// A walk over all headers, of which what is counted is that there are some.
fn headers(octets: &[u8]) -> usize {
    usize::from(here::walk_headers(octets) > 0)
}

pub const FIELDS: [(&str, Call); 5] = [
    ("here", certificate),
    ("here, headers", headers),
    ("mbedTLS 3.6", mbedtls::beside_mbedtls_certificate),
    ("x509-cert", x509_cert),
    ("x509-parser", x509_parser),
];

pub const EACH_PART: [(&str, Call); 5] = [
    ("here", each_part),
    ("here, headers", headers),
    ("mbedTLS 3.6", mbedtls::beside_mbedtls_certificate_names),
    ("x509-cert", x509_cert),
    ("x509-parser", x509_parser),
];
