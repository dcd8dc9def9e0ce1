//! Values of one field.

use crate::place::{at, read};
use crate::{contents, Error};
use der_proved_sys as sys;

/// An INTEGER from 0 to 18446744073709551615, which all octets encode.
///
/// # Errors
/// The first fault of the octets.
pub fn unsigned_integer(encoding: &[u8]) -> Result<u64, Error> {
    read(sys::safe::unsigned_integer, encoding)
}

/// The seconds from 1970-01-01T00:00:00Z of a time (Time, RFC 5280 4.1.2.5): a UTCTime, or a GeneralizedTime without a
/// fraction of a second.
///
/// # Errors
/// The first fault of the octets; 13 for an earlier time.
pub fn time(encoding: &[u8]) -> Result<u64, Error> {
    read(sys::safe::time, encoding)
}

/// The seconds from 1970-01-01T00:00:00Z of a GeneralizedTime that may have a fraction of a second, without the fraction.
///
/// # Errors
/// The first fault of the octets; 13 for an earlier time.
pub fn fractional_time(encoding: &[u8]) -> Result<u64, Error> {
    read(sys::safe::fractional_time, encoding)
}

/// The bits 0 to 15 of a BIT STRING with named bits, such as a KeyUsage: bit 0 as 1, bit 1 as 2, bit 2 as 4, and so on.
///
/// # Errors
/// The first fault of the octets.
pub fn named_bits(encoding: &[u8]) -> Result<u32, Error> {
    read(sys::safe::named_bits, encoding)
}

/// A GeneralName (RFC 5280 4.2.1.6), with the contents octets of its value; of a directory name the encoding of a Name.
#[derive(Clone, Copy, Debug, PartialEq, Eq)]
#[non_exhaustive]
pub enum GeneralName<'a> {
    /// `otherName`, the fields of an AnotherName.
    OtherName(&'a [u8]),
    /// `rfc822Name`, a mailbox.
    Rfc822Name(&'a [u8]),
    /// `dNSName`.
    DnsName(&'a [u8]),
    /// `x400Address`, the fields of an ORAddress.
    X400Address(&'a [u8]),
    /// `directoryName`, a Name.
    DirectoryName(&'a [u8]),
    /// `ediPartyName`, the fields of an EDIPartyName.
    EdiPartyName(&'a [u8]),
    /// `uniformResourceIdentifier`.
    Uri(&'a [u8]),
    /// `iPAddress`: 4 or 16 octets, in a name constraint 8 or 32.
    IpAddress(&'a [u8]),
    /// `registeredID`, an object identifier.
    RegisteredId(&'a [u8]),
}

/// The GeneralName that all octets encode.
///
/// # Errors
/// The first fault of the octets.
pub fn general_name(encoding: &[u8]) -> Result<GeneralName<'_>, Error> {
    let kind = read(sys::safe::general_name, encoding)?;
    let value = contents(encoding);
    Ok(match kind {
        0 => GeneralName::OtherName(value),
        1 => GeneralName::Rfc822Name(value),
        2 => GeneralName::DnsName(value),
        3 => GeneralName::X400Address(value),
        4 => GeneralName::DirectoryName(value),
        5 => GeneralName::EdiPartyName(value),
        6 => GeneralName::Uri(value),
        7 => GeneralName::IpAddress(value),
        _ => GeneralName::RegisteredId(value),
    })
}

/// The encodings, one after another, in the contents octets of a list, such as the names of a subjectAltName. If the
/// octets are no list, it ends early.
pub fn encodings(list: &[u8]) -> Encodings<'_> {
    Encodings { left: contents(list) }
}

/// Iterates over encodings.
#[derive(Clone, Debug)]
pub struct Encodings<'a> {
    left: &'a [u8],
}

impl<'a> Iterator for Encodings<'a> {
    type Item = &'a [u8];

    fn next(&mut self) -> Option<&'a [u8]> {
        let place = sys::safe::next_encoding(self.left, sys::Place::default());
        if place.offset != 0 || place.length == 0 {
            self.left = &[];
            return None;
        }
        let encoding = at(self.left, place);
        self.left = &self.left[encoding.len()..];
        Some(encoding)
    }
}

impl core::iter::FusedIterator for Encodings<'_> {}
