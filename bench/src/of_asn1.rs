//! Messages by `asn1` 0.24 and its derive. It checks all octets, makes no list of a SEQUENCE OF, and gives its items later.

// What is read stands in fields at which nothing looks.
#![allow(dead_code)]

use asn1::{
    Asn1Read, BigInt, BigUint, BitString, Enumerated, ObjectIdentifier, OctetStringEncoded, ParseError, SequenceOf, SetOf,
    SimpleAsn1Readable, Tlv, UtcTime, X509GeneralizedTime,
};
use std::hint::black_box;

#[derive(Asn1Read)]
pub struct Algorithm<'a> {
    pub id: ObjectIdentifier,
    pub parameters: Option<Tlv<'a>>,
}

#[derive(Asn1Read)]
pub struct KeyInfo<'a> {
    pub algorithm: Algorithm<'a>,
    pub key: BitString<'a>,
}

#[derive(Asn1Read)]
pub struct Extension<'a> {
    pub id: ObjectIdentifier,
    #[default(false)]
    pub critical: bool,
    pub value: &'a [u8],
}

#[derive(Asn1Read)]
pub enum Time {
    Utc(UtcTime),
    Generalized(X509GeneralizedTime),
}

#[derive(Asn1Read)]
pub struct Validity {
    pub before: Time,
    pub after: Time,
}

#[derive(Asn1Read)]
pub struct Attribute<'a> {
    pub id: ObjectIdentifier,
    pub value: Tlv<'a>,
}

pub type Name<'a> = SequenceOf<'a, SetOf<'a, Attribute<'a>>>;
pub type Extensions<'a> = SequenceOf<'a, Extension<'a>, 1>;

#[derive(Asn1Read)]
pub struct Signed<'a> {
    #[explicit(0)]
    #[default(0)]
    pub version: u8,
    pub serial: BigInt<'a>,
    pub algorithm: Algorithm<'a>,
    pub issuer: Name<'a>,
    pub validity: Validity,
    pub subject: Name<'a>,
    pub key: KeyInfo<'a>,
    #[implicit(1)]
    pub issuer_id: Option<BitString<'a>>,
    #[implicit(2)]
    pub subject_id: Option<BitString<'a>>,
    #[explicit(3)]
    pub extensions: Option<Extensions<'a>>,
}

#[derive(Asn1Read)]
pub struct Certificate<'a> {
    pub signed: Signed<'a>,
    pub algorithm: Algorithm<'a>,
    pub signature: BitString<'a>,
}

#[derive(Asn1Read)]
pub struct SignedNoNames<'a> {
    #[explicit(0)]
    #[default(0)]
    pub version: u8,
    pub serial: BigInt<'a>,
    pub algorithm: Algorithm<'a>,
    pub issuer: Tlv<'a>,
    pub validity: Validity,
    pub subject: Tlv<'a>,
    pub key: KeyInfo<'a>,
    #[implicit(1)]
    pub issuer_id: Option<BitString<'a>>,
    #[implicit(2)]
    pub subject_id: Option<BitString<'a>>,
    #[explicit(3)]
    pub extensions: Option<Extensions<'a>>,
}

#[derive(Asn1Read)]
pub struct CertificateNoNames<'a> {
    pub signed: SignedNoNames<'a>,
    pub algorithm: Algorithm<'a>,
    pub signature: BitString<'a>,
}

#[derive(Asn1Read)]
pub struct Revoked<'a> {
    pub serial: BigUint<'a>,
    pub date: Time,
    pub extensions: Option<Extensions<'a>>,
}

#[derive(Asn1Read)]
pub struct SignedList<'a> {
    pub version: Option<u8>,
    pub algorithm: Algorithm<'a>,
    pub issuer: Name<'a>,
    pub this_update: Time,
    pub next_update: Option<Time>,
    pub revoked: Option<SequenceOf<'a, Revoked<'a>>>,
    #[explicit(0)]
    pub extensions: Option<Extensions<'a>>,
}

#[derive(Asn1Read)]
pub struct List<'a> {
    pub signed: SignedList<'a>,
    pub algorithm: Algorithm<'a>,
    pub signature: BitString<'a>,
}

#[derive(Asn1Read)]
pub struct SignerAttribute<'a> {
    pub id: ObjectIdentifier,
    pub values: SetOf<'a, Tlv<'a>>,
}

#[derive(Asn1Read)]
pub struct IssuerAndSerial<'a> {
    pub issuer: Name<'a>,
    pub serial: BigInt<'a>,
}

#[derive(Asn1Read)]
pub struct Signer<'a> {
    pub version: u8,
    pub id: IssuerAndSerial<'a>,
    pub digest: Algorithm<'a>,
    #[implicit(0)]
    pub attributes: Option<SetOf<'a, SignerAttribute<'a>>>,
    pub algorithm: Algorithm<'a>,
    pub signature: &'a [u8],
    #[implicit(1)]
    pub others: Option<SetOf<'a, SignerAttribute<'a>>>,
}

#[derive(Asn1Read)]
pub struct Content<'a> {
    pub kind: ObjectIdentifier,
    #[explicit(0)]
    pub octets: Option<&'a [u8]>,
}

#[derive(Asn1Read)]
pub struct SignedData<'a> {
    pub version: u8,
    pub digests: SetOf<'a, Algorithm<'a>>,
    pub content: Content<'a>,
    #[implicit(0)]
    pub certificates: Option<SetOf<'a, Certificate<'a>>>,
    #[implicit(1)]
    pub lists: Option<SetOf<'a, List<'a>>>,
    pub signers: SetOf<'a, Signer<'a>>,
}

#[derive(Asn1Read)]
pub struct Message<'a> {
    pub kind: ObjectIdentifier,
    #[explicit(0)]
    pub signed: Option<SignedData<'a>>,
}

#[derive(Asn1Read)]
pub struct CertId<'a> {
    pub algorithm: Algorithm<'a>,
    pub name: &'a [u8],
    pub key: &'a [u8],
    pub serial: BigInt<'a>,
}

#[derive(Asn1Read)]
pub struct RevokedInfo {
    pub time: X509GeneralizedTime,
    #[explicit(0)]
    pub reason: Option<Enumerated>,
}

#[derive(Asn1Read)]
pub enum CertStatus {
    #[implicit(0)]
    Good(()),
    #[implicit(1)]
    Revoked(RevokedInfo),
    #[implicit(2)]
    Unknown(()),
}

#[derive(Asn1Read)]
pub struct Single<'a> {
    pub id: CertId<'a>,
    pub status: CertStatus,
    pub this_update: X509GeneralizedTime,
    #[explicit(0)]
    pub next_update: Option<X509GeneralizedTime>,
    #[explicit(1)]
    pub extensions: Option<Extensions<'a>>,
}

#[derive(Asn1Read)]
pub enum Responder<'a> {
    #[explicit(1)]
    ByName(Name<'a>),
    #[explicit(2)]
    ByKey(&'a [u8]),
}

#[derive(Asn1Read)]
pub struct ResponseData<'a> {
    #[explicit(0)]
    #[default(0)]
    pub version: u8,
    pub responder: Responder<'a>,
    pub produced_at: X509GeneralizedTime,
    pub responses: SequenceOf<'a, Single<'a>>,
    #[explicit(1)]
    pub extensions: Option<Extensions<'a>>,
}

#[derive(Asn1Read)]
pub struct Basic<'a> {
    pub data: ResponseData<'a>,
    pub algorithm: Algorithm<'a>,
    pub signature: BitString<'a>,
    #[explicit(0)]
    pub certificates: Option<SequenceOf<'a, Certificate<'a>>>,
}

#[derive(Asn1Read)]
pub struct ResponseBytes<'a> {
    pub kind: ObjectIdentifier,
    pub response: OctetStringEncoded<Basic<'a>>,
}

#[derive(Asn1Read)]
pub struct Response<'a> {
    pub status: Enumerated,
    #[explicit(0)]
    pub bytes: Option<ResponseBytes<'a>>,
}

fn is_read<'a, T: SimpleAsn1Readable<'a>>(octets: &'a [u8]) -> usize {
    usize::from(black_box(asn1::parse_single::<T>(octets)).is_ok())
}

/// A certificate, its names checked, and given item by item when they are asked for.
pub fn certificate(octets: &[u8]) -> usize {
    is_read::<Certificate<'_>>(octets)
}

/// A certificate, its names not looked into.
pub fn certificate_no_names(octets: &[u8]) -> usize {
    is_read::<CertificateNoNames<'_>>(octets)
}

fn go_through(name: Name<'_>) {
    for set in name {
        for attribute in set {
            black_box(attribute);
        }
    }
}

/// The same, and the names gone through item by item.
pub fn certificate_names(octets: &[u8]) -> usize {
    match asn1::parse_single::<Certificate<'_>>(octets) {
        Ok(certificate) => {
            go_through(certificate.signed.issuer.clone());
            go_through(certificate.signed.subject.clone());
            black_box(certificate);
            1
        }
        Err(_) => 0,
    }
}

/// A list of revoked certificates that is checked, and gives its entries when they are asked for.
pub fn revoked_checked(octets: &[u8]) -> usize {
    is_read::<List<'_>>(octets)
}

/// The same, with the entries gone through.
pub fn revoked(octets: &[u8]) -> usize {
    let entries = asn1::parse_single::<List<'_>>(octets).ok().and_then(|list| list.signed.revoked);
    entries.map_or(0, |entries| entries.map(black_box).count())
}

pub fn signed(octets: &[u8]) -> usize {
    is_read::<Message<'_>>(octets)
}

pub fn status(octets: &[u8]) -> usize {
    is_read::<Response<'_>>(octets)
}

pub fn walk(octets: &[u8]) -> usize {
    asn1::parse::<usize, ParseError, _>(octets, |parser| {
        let mut count = 0;
        while !parser.is_empty() {
            let value = parser.read_element::<Tlv<'_>>()?;
            count += 1;
            if value.full_data()[0] & 0x20 != 0 {
                count += walk(value.data());
            }
        }
        Ok(count)
    })
    .unwrap_or(0)
}
