//! Canonical encodings by names, and rules of RFC 5280.

use der_proved::{canonical, check_rfc5280, check_rfc5280_list, signed_octets, Certificate, CanonicalError, CertificateRule, ListRule};

/// `openssl ca -selfsign -keyfile mill.key -in mill.csr -startdate 491231235959Z -enddate 20500101000000Z -extensions ext`,
/// where the section has basicConstraints, keyUsage, subjectKeyIdentifier and subjectAltName.
const CERTIFICATE: &str = "308201293081dca003020102020101300506032b6570300f310d300b06035504030c046d696c6c3020170d3439313233313233353935395a180f32303530303130313030303030305a300f310d300b06035504030c046d696c6c302a300506032b6570032100e96776c112e1bb8939860bdd34e9fa94ed769b579919d3918b7dea083a1fb847a35b3059300f0603551d130101ff040530030101ff300e0603551d0f0101ff040403020106301d0603551d0e04160414d40d52919d787be8dcfa38f0bf93c8e599eda0e430170603551d110410300e820c6d696c6c2e6578616d706c65300506032b65700341009df33684beadeb10aeb0fdf18ebf7d65a0efa75b1fa556260fa413243a1f3a5b9642822699661e90dc7f5ab6290c95488d8d8bff26c7276f18a3b4dacbc8ac00";

/// A list in version 1 with no entries and no nextUpdate.
const LIST: &str = "302c3022300306012a300c310a300806035504030c0161170d3236303130313030303030305a300306012a030100";

fn octets(digits: &str) -> Vec<u8> {
    (0..digits.len()).step_by(2).map(|i| u8::from_str_radix(&digits[i..i + 2], 16).unwrap()).collect()
}

#[test]
fn a_canonical_encoding_is_written() {
    let mut room = [0x5a; 8];
    assert_eq!(canonical("u16", &[2, 1, 5], &mut room), Ok(&[2, 1, 5][..]));
    assert_eq!(room, [2, 1, 5, 0x5a, 0x5a, 0x5a, 0x5a, 0x5a]);
    let in_order = [0x31, 6, 2, 1, 7, 2, 1, 8];
    assert_eq!(canonical("setvec-u16", &[0x31, 6, 2, 1, 8, 2, 1, 7], &mut room), Ok(&in_order[..]));
    let certificate = octets(CERTIFICATE);
    let mut room = vec![0; certificate.len()];
    assert_eq!(canonical("cert", &certificate, &mut room), Ok(&certificate[..]));
}

#[test]
fn nothing_is_written_of_what_is_refused() {
    let mut room = [0x5a; 2];
    assert_eq!(canonical("u16", &[2, 1, 5], &mut room), Err(CanonicalError::ShortBuffer(3)));
    assert_eq!(canonical("u16", &[2, 1, 5], &mut []), Err(CanonicalError::ShortBuffer(3)));
    assert_eq!(canonical("u17", &[2, 1, 5], &mut room), Err(CanonicalError::UnknownName));
    assert_eq!(canonical("", &[], &mut room), Err(CanonicalError::UnknownName));
    match canonical("u16", &[2, 0], &mut room) {
        Err(CanonicalError::Refused(error)) => assert_eq!(error.number(), 7),
        other => panic!("{other:?}"),
    }
    assert_eq!(room, [0x5a; 2]);
}

#[test]
fn rules_of_certificates() {
    let mut certificate = octets(CERTIFICATE);
    assert!(check_rfc5280(&certificate).unwrap().is_empty());
    let algorithm = 4 + signed_octets(&certificate).len() + 6;
    certificate[algorithm] ^= 1;
    let broken: Vec<_> = check_rfc5280(&certificate).unwrap().collect();
    assert_eq!(broken, [CertificateRule::AlgorithmsAgree]);
    assert_eq!(broken[0].section(), "4.1.1.2");
    certificate[algorithm] ^= 1;
    let serial = Certificate::from_der(&certificate).unwrap().serial_number().as_ptr() as usize - certificate.as_ptr() as usize;
    certificate[serial + 2] = 0;
    let broken: Vec<_> = check_rfc5280(&certificate).unwrap().collect();
    assert_eq!(broken, [CertificateRule::SerialNumberIsPositive]);
    assert_eq!(check_rfc5280_list(&certificate).unwrap_err().number(), 4);
}

#[test]
fn rules_of_lists() {
    let mut list = octets(LIST);
    let broken: Vec<_> = check_rfc5280_list(&list).unwrap().collect();
    let absent = [ListRule::NextUpdateIsThere, ListRule::AuthorityHasKeyIdentifier, ListRule::CrlNumberIsThere];
    assert_eq!(broken, absent);
    let last = list.len() - 4;
    list[last] = 43;
    let broken: Vec<_> = check_rfc5280_list(&list).unwrap().collect();
    assert_eq!(broken[0], ListRule::AlgorithmsAgree);
    assert_eq!(broken[1..], absent);
    assert_eq!(check_rfc5280(&list).unwrap_err().number(), 4);
    assert_eq!((CertificateRule::ALL.len(), ListRule::ALL.len()), (45, 23));
}
