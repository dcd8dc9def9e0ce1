//! Encodings of values, each a `Vec`. They are fields of messages, or parts of fields.

use crate::{contents, write, CertStatus, Error, GeneralName, WriteError};
use alloc::vec;
use alloc::vec::Vec;

type Encoding = Result<Vec<u8>, Error>;

/// id-pkix-ocsp-basic (RFC 6960 4.2.1).
const OCSP_BASIC: &str = "1.3.6.1.5.5.7.48.1.1";
/// `DER_TAG_NUMBER_INVALID` and `DER_OID_MALFORMED` of `der.h`.
const TAG_NUMBER_INVALID: u32 = 6;
const OID_MALFORMED: u32 = 15;

/// What is written to a buffer of so many octets, or of as many as are then asked for.
pub(crate) fn in_room(length: usize, put: impl Fn(&mut [u8]) -> Result<usize, WriteError>) -> Encoding {
    let mut buffer = vec![0; length];
    loop {
        match put(&mut buffer) {
            Ok(length) => {
                buffer.truncate(length);
                return Ok(buffer);
            }
            Err(WriteError::ShortBuffer(length)) => buffer.resize(length.max(2 * buffer.len()), 0),
            Err(WriteError::Refused(error)) => return Err(error),
        }
    }
}

/// An encoding with an identifier octet, and these contents octets, which are not read.
///
/// # Errors
/// Where the octet is that of no identifier.
pub fn encoding(identifier: u8, contents: &[u8]) -> Encoding {
    in_room(contents.len() + 8, |buffer| write::encoding(identifier, contents, buffer).map(<[u8]>::len))
}

/// A SEQUENCE, or a SEQUENCE OF, of these encodings.
///
/// # Errors
/// 9 where they have more than 4294967295 octets.
pub fn sequence(items: &[&[u8]]) -> Encoding {
    encoding(0x30, &items.concat())
}

/// A SET OF these encodings, in the order of DER.
///
/// # Errors
/// 9 where they have more than 4294967295 octets.
pub fn set_of(items: &[&[u8]]) -> Encoding {
    let mut items = items.to_vec();
    items.sort_unstable();
    encoding(0x31, &items.concat())
}

/// An encoding with a context-specific tag whose identifier octet is that of \[0\] and n.
fn tagged(first: u8, n: u8, contents: &[u8]) -> Encoding {
    if n > 30 {
        return Err(Error::numbered(TAG_NUMBER_INVALID));
    }
    encoding(first + n, contents)
}

/// An encoding with the explicit tag \[n\] around it.
///
/// # Errors
/// 6 where n is greater than 30.
pub fn explicit(n: u8, within: &[u8]) -> Encoding {
    tagged(0xa0, n, within)
}

/// Contents octets that are no encodings, with the implicit tag \[n\].
///
/// # Errors
/// 6 where n is greater than 30.
pub fn implicit(n: u8, contents: &[u8]) -> Encoding {
    tagged(0x80, n, contents)
}

/// A SEQUENCE or SEQUENCE OF of these encodings with the implicit tag \[n\], such as `permittedSubtrees`.
///
/// # Errors
/// 6 where n is greater than 30.
pub fn implicit_sequence(n: u8, items: &[&[u8]]) -> Encoding {
    tagged(0xa0, n, &items.concat())
}

/// A GeneralName (RFC 5280 4.2.1.6).
///
/// # Errors
/// 9 where it has more than 4294967295 octets.
pub fn general_name(name: &GeneralName<'_>) -> Encoding {
    match *name {
        GeneralName::OtherName(value) => explicit(0, value),
        GeneralName::Rfc822Name(value) => implicit(1, value),
        GeneralName::DnsName(value) => implicit(2, value),
        GeneralName::X400Address(value) => explicit(3, value),
        GeneralName::DirectoryName(value) => explicit(4, value),
        GeneralName::EdiPartyName(value) => explicit(5, value),
        GeneralName::Uri(value) => implicit(6, value),
        GeneralName::IpAddress(value) => implicit(7, value),
        GeneralName::RegisteredId(value) => implicit(8, value),
    }
}

/// A BOOLEAN.
///
/// # Errors
/// None.
pub fn boolean(value: bool) -> Encoding {
    encoding(0x01, &[if value { 0xff } else { 0 }])
}

/// An ENUMERATED from 0 to 255, such as a CRLReason.
///
/// # Errors
/// None.
pub fn enumerated(number: u8) -> Encoding {
    encoding(0x0a, contents(&unsigned_integer(&[number])?))
}

/// A NULL.
///
/// # Errors
/// None.
pub fn null() -> Encoding {
    encoding(0x05, &[])
}

/// An OCTET STRING, such as the `extnValue` of an encoding.
///
/// # Errors
/// 9 where it has more than 4294967295 octets.
pub fn octet_string(octets: &[u8]) -> Encoding {
    encoding(0x04, octets)
}

/// The subidentifier of an arc, or of the first two (X.690 8.19.2).
fn put_subidentifier(to: &mut Vec<u8>, number: u64) {
    let groups = (70 - number.leading_zeros()).max(7) / 7;
    for group in (0..groups).rev() {
        let bits = (number >> (7 * group)) as u8 & 0x7f;
        to.push(if group > 0 { bits | 0x80 } else { bits });
    }
}

/// The contents octets of an OBJECT IDENTIFIER.
fn identifier_contents(dotted: &str) -> Option<Vec<u8>> {
    let is_plain = |arc: &str| arc.bytes().all(|it| it.is_ascii_digit()) && (arc == "0" || !arc.starts_with('0'));
    let arcs = dotted.split('.').map(|arc| if is_plain(arc) { arc.parse().ok() } else { None });
    let arcs: Vec<u64> = arcs.collect::<Option<_>>()?;
    let (&root, &second) = (arcs.first()?, arcs.get(1)?);
    if root > 2 || (root < 2 && second > 39) {
        return None;
    }
    let mut found = Vec::new();
    put_subidentifier(&mut found, second.checked_add(40 * root)?);
    arcs[2..].iter().for_each(|arc| put_subidentifier(&mut found, *arc));
    Some(found)
}

/// An OBJECT IDENTIFIER of its text, such as `2.5.29.17`.
///
/// # Errors
/// 15 where the text is that of none, or an arc is greater than 18446744073709551615.
pub fn object_identifier(dotted: &str) -> Encoding {
    let contents = identifier_contents(dotted).ok_or(Error::numbered(OID_MALFORMED))?;
    encoding(0x06, &contents)
}

/// An AlgorithmIdentifier (RFC 5280 4.1.1.2), from the text of its identifier.
///
/// # Errors
/// 15 where the text is that of no identifier.
pub fn algorithm_identifier(dotted: &str, parameters: Option<&[u8]>) -> Encoding {
    sequence(&[&object_identifier(dotted)?, parameters.unwrap_or(&[])])
}

/// An Attribute (RFC 2986 4.1), from the text of its type and its values.
///
/// # Errors
/// 15 where the text is that of no identifier.
pub fn attribute(dotted: &str, values: &[&[u8]]) -> Encoding {
    sequence(&[&object_identifier(dotted)?, &set_of(values)?])
}

/// A BIT STRING of all bits of these octets, such as a signature.
///
/// # Errors
/// 9 where it has more than 4294967295 octets.
pub fn bit_string(octets: &[u8]) -> Encoding {
    in_room(octets.len() + 8, |buffer| write::bit_string(octets, buffer).map(<[u8]>::len))
}

/// A BIT STRING with the named bits 0 to 15, such as a KeyUsage: bit 0 as 1, bit 1 as 2, bit 2 as 4, and so on. 60 has
/// the bits 5 and 6, keyCertSign and cRLSign.
///
/// # Errors
/// None.
pub fn named_bits(bits: u16) -> Encoding {
    in_room(8, |buffer| write::named_bits(bits, buffer).map(<[u8]>::len))
}

/// An INTEGER that is not negative, from its octets, the most significant first.
///
/// # Errors
/// Where there are no octets.
pub fn unsigned_integer(octets: &[u8]) -> Encoding {
    in_room(octets.len() + 8, |buffer| write::unsigned_integer(octets, buffer).map(<[u8]>::len))
}

/// A Time (RFC 5280 4.1.2.5) of the seconds from 1970-01-01T00:00:00Z: a UTCTime until 2049, then a GeneralizedTime.
///
/// # Errors
/// 14 for a year after 9999.
pub fn time(seconds: u64) -> Encoding {
    in_room(17, |buffer| write::time(seconds, buffer).map(<[u8]>::len))
}

/// A GeneralizedTime of the seconds from 1970-01-01T00:00:00Z.
///
/// # Errors
/// 14 for a year after 9999.
pub fn generalized_time(seconds: u64) -> Encoding {
    in_room(17, |buffer| write::generalized_time(seconds, buffer).map(<[u8]>::len))
}

/// A SubjectPublicKeyInfo of an Ed25519 key, of 32 octets (RFC 8410).
///
/// # Errors
/// Where the key has another length.
pub fn ed25519_key(key: &[u8]) -> Encoding {
    in_room(44, |buffer| write::ed25519_key(key, buffer).map(<[u8]>::len))
}

/// A SubjectPublicKeyInfo of a P-256 key: 04 and both coordinates, or 02 or 03 and the first (RFC 5480). It is not
/// tested whether the point is one of the curve.
///
/// # Errors
/// Where the octets are no such point.
pub fn p256_key(point: &[u8]) -> Encoding {
    in_room(91, |buffer| write::p256_key(point, buffer).map(<[u8]>::len))
}

/// A SubjectPublicKeyInfo of an RSA key, from the encoding of its RSAPublicKey, which is not read.
///
/// # Errors
/// 9 where it has more than 4294967295 octets.
pub fn rsa_key(key: &[u8]) -> Encoding {
    in_room(key.len() + 32, |buffer| write::rsa_key(key, buffer).map(<[u8]>::len))
}

/// An AttributeTypeAndValue, from the text of its type and its text: `2.5.4.3` and `mill` of CN=mill.
///
/// # Errors
/// 15 where the text of the type is that of no identifier; 13 for a text that the type does not have.
pub fn name_attribute(dotted: &str, text: &str) -> Encoding {
    let type_ = object_identifier(dotted)?;
    let room = type_.len() + text.len() + 16;
    in_room(room, |buffer| write::name_attribute(contents(&type_), text, buffer).map(<[u8]>::len))
}

/// A Name of attributes, each a part of its own, from the text of its type and its text.
///
/// # Errors
/// Those of `name_attribute`.
pub fn name(attributes: &[(&str, &str)]) -> Encoding {
    let mut parts = Vec::new();
    for (dotted, text) in attributes {
        parts.extend(set_of(&[&name_attribute(dotted, text)?])?);
    }
    encoding(0x30, &parts)
}

/// The `certStatus` of a SingleResponse (RFC 6960 4.2.1). A revocation may have a reason, a number of CRLReason (RFC
/// 5280 5.3.1); of another status it is not looked at.
///
/// # Errors
/// 14 for a year after 9999.
pub fn cert_status(status: CertStatus, reason: Option<u8>) -> Encoding {
    match (status, reason) {
        (CertStatus::Good, _) => implicit(0, &[]),
        (CertStatus::Unknown, _) => implicit(2, &[]),
        (CertStatus::Revoked(seconds), None) => encoding(0xa1, &generalized_time(seconds)?),
        (CertStatus::Revoked(seconds), Some(reason)) => {
            let reason = explicit(0, &enumerated(reason)?)?;
            encoding(0xa1, &[generalized_time(seconds)?, reason].concat())
        }
    }
}

/// The `responseBytes` of an OCSPResponse, with their explicit tag \[0\], from a BasicOCSPResponse (RFC 6960 4.2.1).
///
/// # Errors
/// 9 where it has more than 4294967295 octets.
pub fn response_bytes(basic: &[u8]) -> Encoding {
    explicit(0, &sequence(&[&object_identifier(OCSP_BASIC)?, &octet_string(basic)?])?)
}
