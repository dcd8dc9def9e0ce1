//! Messages with changed octets, read for `DER_FUZZ_SECONDS` seconds: a call returns fields within the octets, or an error
//! with a number of `docs/FORMAT.md` and a position within them.

mod common;

use der_proved::{
    canonical, check_rfc5280, contents, signed_octets, BasicOcspResponse, Certificate, CertificateList, CertificationRequest,
    ContentInfo, Error, OcspResponse, PrivateKeyInfo, SignedData, SubjectPublicKeyInfo,
};
use std::time::{Duration, Instant};

/// Numbers by xorshift, the same in each run.
struct Numbers(u64);

impl Numbers {
    fn below(&mut self, end: usize) -> usize {
        self.0 ^= self.0 << 13;
        self.0 ^= self.0 >> 7;
        self.0 ^= self.0 << 17;
        (self.0 % end as u64) as usize
    }
}

/// Changes one to four octets, or cuts the octets, or doubles a part of them.
fn change(octets: &mut Vec<u8>, numbers: &mut Numbers) {
    for _ in 0..=numbers.below(4) {
        let at = numbers.below(octets.len());
        match numbers.below(8) {
            0 => octets.truncate(at + 1),
            1 => octets.extend_from_within(at..),
            2 => octets[at] ^= 1 << numbers.below(8),
            3 => octets[at] = octets[at].wrapping_add(1),
            _ => octets[at] = numbers.below(256) as u8,
        }
    }
}

fn is_within(octets: &[u8], field: &[u8]) -> bool {
    let (outer, inner) = (octets.as_ptr_range(), field.as_ptr_range());
    field.is_empty() || (outer.start <= inner.start && inner.end <= outer.end)
}

/// All fields and items of a certificate.
fn certificate(octets: &[u8]) -> Result<(), Error> {
    let it = Certificate::from_der(octets)?;
    for field in [it.tbs_certificate(), it.issuer(), it.subject(), it.subject_public_key_info(), it.signature_value()] {
        assert!(is_within(octets, field));
    }
    for extension in it.extensions() {
        assert!(is_within(octets, extension.expect("an extension of a certificate that was read").value()));
    }
    for attribute in it.subject_attributes() {
        assert!(is_within(octets, attribute.expect("an attribute of a name that was read").value()));
    }
    check_rfc5280(octets).map(|_| ())
}

fn list(octets: &[u8]) -> Result<(), Error> {
    let it = CertificateList::from_der(octets)?;
    for entry in it.revoked_certificates() {
        assert!(is_within(octets, entry.expect("an entry of a list that was read").user_certificate()));
    }
    Ok(())
}

fn messages(octets: &[u8]) -> [Result<(), Error>; 6] {
    [
        OcspResponse::from_der(octets).map(|it| assert!(it.response().map_or(true, |it| is_within(octets, it)))),
        BasicOcspResponse::from_der(octets).map(|it| assert!(it.responses().all(|it| it.is_ok()))),
        ContentInfo::from_der(octets).map(|it| {
            let _ = SignedData::from_der(contents(it.content())).map(|it| assert!(it.signer_infos().all(|it| it.is_ok())));
        }),
        CertificationRequest::from_der(octets).map(|it| assert!(it.attributes().all(|it| it.is_ok()))),
        PrivateKeyInfo::from_der(octets).map(|it| assert!(is_within(octets, it.private_key()))),
        SubjectPublicKeyInfo::from_der(octets).map(|it| assert!(is_within(octets, it.subject_public_key()))),
    ]
}

fn read(octets: &[u8]) {
    let mut results = vec![certificate(octets), list(octets)];
    results.extend(messages(octets));
    for error in results.into_iter().filter_map(Result::err) {
        assert!((2..=16).contains(&error.number()), "{error}");
        assert!(error.position().map_or(true, |position| position as usize <= octets.len()), "{error}");
    }
    assert!(is_within(octets, signed_octets(octets)) && is_within(octets, contents(octets)));
    let mut room = vec![0; octets.len()];
    if let Ok(written) = canonical("cert", octets, &mut room) {
        assert_eq!(written, octets);
    }
}

#[test]
fn changed_octets() {
    let seconds = std::env::var("DER_FUZZ_SECONDS").ok().and_then(|text| text.parse().ok()).unwrap_or(2);
    let seeds = common::messages();
    let end = Instant::now() + Duration::from_secs(seconds);
    let (mut numbers, mut count) = (Numbers(0x9e37_79b9_7f4a_7c15), 0);
    while !seeds.is_empty() && Instant::now() < end {
        let mut octets = seeds[numbers.below(seeds.len())].octets.clone();
        change(&mut octets, &mut numbers);
        read(&octets);
        count += 1;
    }
    println!("{count} changed messages of {}", seeds.len());
    assert!(seeds.is_empty() || count > 0);
}
