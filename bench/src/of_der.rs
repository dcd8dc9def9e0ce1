//! Messages by `der` 0.8 and its derive: the same fields, and the same borrowed types, as the library's.

use der::asn1::{AnyRef, BitStringRef, GeneralizedTime, IntRef, ObjectIdentifier, OctetStringRef, UtcTime};
use der::{Choice, Decode, Encode, Reader, Sequence, SliceReader, Tagged};

#[derive(Sequence)]
pub struct Algorithm<'a> {
    pub id: ObjectIdentifier,
    pub parameters: Option<AnyRef<'a>>,
}

#[derive(Sequence)]
pub struct KeyInfo<'a> {
    pub algorithm: Algorithm<'a>,
    pub key: BitStringRef<'a>,
}

fn no() -> bool {
    false
}

fn first() -> u8 {
    0
}

#[derive(Sequence)]
pub struct Extension<'a> {
    pub id: ObjectIdentifier,
    #[asn1(default = "no")]
    pub critical: bool,
    pub value: &'a OctetStringRef,
}

#[derive(Choice, Clone, Copy)]
pub enum Time {
    #[asn1(type = "UTCTime")]
    Utc(UtcTime),
    #[asn1(type = "GeneralizedTime")]
    Generalized(GeneralizedTime),
}

#[derive(Sequence)]
pub struct Validity {
    pub before: Time,
    pub after: Time,
}

#[derive(Sequence)]
pub struct Signed<'a> {
    #[asn1(context_specific = "0", default = "first")]
    pub version: u8,
    pub serial: IntRef<'a>,
    pub algorithm: Algorithm<'a>,
    pub issuer: AnyRef<'a>,
    pub validity: Validity,
    pub subject: AnyRef<'a>,
    pub key: KeyInfo<'a>,
    #[asn1(context_specific = "1", tag_mode = "IMPLICIT", optional = "true")]
    pub issuer_id: Option<BitStringRef<'a>>,
    #[asn1(context_specific = "2", tag_mode = "IMPLICIT", optional = "true")]
    pub subject_id: Option<BitStringRef<'a>>,
    #[asn1(context_specific = "3", optional = "true")]
    pub extensions: Option<Vec<Extension<'a>>>,
}

#[derive(Sequence)]
pub struct Certificate<'a> {
    pub signed: Signed<'a>,
    pub algorithm: Algorithm<'a>,
    pub signature: BitStringRef<'a>,
}

#[derive(Sequence)]
pub struct Revoked<'a> {
    pub serial: IntRef<'a>,
    pub date: Time,
    pub extensions: Option<Vec<Extension<'a>>>,
}

#[derive(Sequence)]
pub struct SignedList<'a> {
    pub version: Option<u8>,
    pub algorithm: Algorithm<'a>,
    pub issuer: AnyRef<'a>,
    pub this_update: Time,
    pub next_update: Option<Time>,
    pub revoked: Option<Vec<Revoked<'a>>>,
    #[asn1(context_specific = "0", optional = "true")]
    pub extensions: Option<Vec<Extension<'a>>>,
}

#[derive(Sequence)]
pub struct List<'a> {
    pub signed: SignedList<'a>,
    pub algorithm: Algorithm<'a>,
    pub signature: BitStringRef<'a>,
}

/// A certificate whose names are not looked into.
pub fn certificate(octets: &[u8]) -> usize {
    usize::from(Certificate::from_der(octets).is_ok())
}

pub fn rewritten(octets: &[u8]) -> usize {
    Certificate::from_der(octets).and_then(|certificate| certificate.to_der()).map_or(0, |octets| octets.len())
}

pub fn revoked(octets: &[u8]) -> usize {
    List::from_der(octets).map_or(0, |list| list.signed.revoked.map_or(0, |entries| entries.len()))
}

pub fn walk(octets: &[u8]) -> usize {
    let mut reader = SliceReader::new(octets).unwrap();
    let mut count = 0;
    while !reader.is_finished() {
        let Ok(value) = AnyRef::decode(&mut reader) else {
            return 0;
        };
        count += 1;
        if Tagged::tag(&value).is_constructed() {
            count += walk(value.value());
        }
    }
    count
}
