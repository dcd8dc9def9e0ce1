//! Encodings of values, in buffers of the caller. They are fields of messages, or parts of fields. If a buffer is too
//! short, or a value is refused, the buffer is as it was.

use crate::room::answer;
use crate::WriteError;
use der_proved_sys as sys;

type Written<'b> = Result<&'b [u8], WriteError>;

/// What a call writes to a buffer.
fn written(
    buffer: &mut [u8],
    call: impl FnOnce(&mut [u8], &mut usize) -> Result<usize, sys::Fault>,
) -> Result<&[u8], WriteError> {
    let mut needed = 0;
    let result = call(buffer, &mut needed);
    let length = answer(result, needed)?;
    Ok(&buffer[..length])
}

/// An encoding with an identifier octet, and these contents octets, which are not read: 30 for a SEQUENCE, A0 + n for
/// the explicit tag \[n\], 80 + n for an implicit one of contents that are no encodings.
///
/// # Errors
/// Where the buffer is too short, or the octet is that of no identifier.
pub fn encoding<'b>(identifier: u8, contents: &[u8], buffer: &'b mut [u8]) -> Written<'b> {
    written(buffer, |to, needed| sys::safe::write_encoding(u32::from(identifier), contents, to, needed))
}

/// A BIT STRING of all bits of these octets, such as a signature.
///
/// # Errors
/// Where the buffer is too short.
pub fn bit_string<'b>(octets: &[u8], buffer: &'b mut [u8]) -> Written<'b> {
    written(buffer, |to, needed| sys::safe::write_bit_string(octets, to, needed))
}

/// A BIT STRING with the named bits 0 to 15, such as a KeyUsage: bit 0 as 1, bit 1 as 2, bit 2 as 4, and so on. 60 has
/// the bits 5 and 6, keyCertSign and cRLSign.
///
/// # Errors
/// Where the buffer is too short.
pub fn named_bits(bits: u16, buffer: &mut [u8]) -> Written<'_> {
    written(buffer, |to, needed| sys::safe::write_named_bits(&bits.reverse_bits().to_be_bytes(), to, needed))
}

/// An INTEGER that is not negative, from its octets, the most significant first.
///
/// # Errors
/// Where the buffer is too short, or there are no octets.
pub fn unsigned_integer<'b>(octets: &[u8], buffer: &'b mut [u8]) -> Written<'b> {
    written(buffer, |to, needed| sys::safe::write_unsigned_integer(octets, to, needed))
}

/// A Time (RFC 5280 4.1.2.5) of the seconds from 1970-01-01T00:00:00Z: a UTCTime until 2049, then a GeneralizedTime.
///
/// # Errors
/// Where the buffer is too short; 14 for a year after 9999.
pub fn time(seconds: u64, buffer: &mut [u8]) -> Written<'_> {
    written(buffer, |to, needed| sys::safe::write_time(seconds, to, needed))
}

/// A GeneralizedTime of the seconds from 1970-01-01T00:00:00Z.
///
/// # Errors
/// Where the buffer is too short; 14 for a year after 9999.
pub fn generalized_time(seconds: u64, buffer: &mut [u8]) -> Written<'_> {
    written(buffer, |to, needed| sys::safe::write_generalized_time(seconds, to, needed))
}

/// A SubjectPublicKeyInfo of an Ed25519 key, of 32 octets (RFC 8410).
///
/// # Errors
/// Where the buffer is too short, or the key has another length.
pub fn ed25519_key<'b>(key: &[u8], buffer: &'b mut [u8]) -> Written<'b> {
    written(buffer, |to, needed| sys::safe::write_ed25519_key(key, to, needed))
}

/// A SubjectPublicKeyInfo of a P-256 key: 04 and both coordinates, or 02 or 03 and the first (RFC 5480). It is not
/// tested whether the point is one of the curve.
///
/// # Errors
/// Where the buffer is too short, or the octets are no such point.
pub fn p256_key<'b>(point: &[u8], buffer: &'b mut [u8]) -> Written<'b> {
    written(buffer, |to, needed| sys::safe::write_p256_key(point, to, needed))
}

/// A SubjectPublicKeyInfo of an RSA key, from the encoding of its RSAPublicKey, which is not read.
///
/// # Errors
/// Where the buffer is too short.
pub fn rsa_key<'b>(key: &[u8], buffer: &'b mut [u8]) -> Written<'b> {
    written(buffer, |to, needed| sys::safe::write_rsa_key(key, to, needed))
}

/// An AttributeTypeAndValue, from the contents octets of its type and its text: a PrintableString, an IA5String or a
/// UTF8String, as RFC 5280 has it for the type.
///
/// # Errors
/// Where the buffer is too short; 13 for a text that the type does not have.
pub fn name_attribute<'b>(type_: &[u8], text: &str, buffer: &'b mut [u8]) -> Written<'b> {
    written(buffer, |to, needed| sys::safe::write_name_attribute(type_, text.as_bytes(), to, needed))
}
