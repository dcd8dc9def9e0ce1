//! What is refused, and the octets of what is read.

use der_proved::{contents, signed_octets, Certificate, CertificateList, PrivateKeyInfo, SubjectPublicKeyInfo};

/// A key of Ed25519 (RFC 8410 10.1).
const KEY: [u8; 44] = [
    0x30, 0x2a, 0x30, 0x05, 0x06, 0x03, 0x2b, 0x65, 0x70, 0x03, 0x21, 0x00, 0x19, 0xbf, 0x44, 0x09, 0x69, 0x84, 0xcd, 0xfe,
    0x85, 0x41, 0xba, 0xc1, 0x67, 0xdc, 0x3b, 0x96, 0xc8, 0x50, 0x86, 0xaa, 0x30, 0xb6, 0xb6, 0xcb, 0x0c, 0x5c, 0x38, 0xad,
    0x70, 0x31, 0x66, 0xe1,
];

#[test]
fn fields_of_a_key_are_slices_of_it() {
    let key = SubjectPublicKeyInfo::from_der(&KEY).unwrap();
    assert_eq!(key.algorithm(), &KEY[2..9]);
    assert_eq!(key.subject_public_key(), &KEY[9..]);
    assert_eq!(contents(key.subject_public_key()), &KEY[11..]);
}

#[test]
fn a_beginning_is_incomplete() {
    for count in 0..KEY.len() {
        let error = SubjectPublicKeyInfo::from_der(&KEY[..count]).unwrap_err();
        assert_eq!(error.number(), 2, "{error}");
        assert_eq!(SubjectPublicKeyInfo::from_der(&KEY[..count]).unwrap_err(), error);
    }
}

#[test]
fn another_message_is_refused() {
    assert_eq!(Certificate::from_der(&KEY).unwrap_err().number(), 4);
    assert_eq!(CertificateList::from_der(&KEY).unwrap_err().number(), 4);
    assert_eq!(PrivateKeyInfo::from_der(&KEY).unwrap_err().number(), 4);
}

#[test]
fn octets_of_any_kind_give_some_of_them() {
    assert_eq!(signed_octets(&KEY), &KEY[2..9]);
    for octets in [&[][..], &[0x30], &[0x30, 0x84, 0xff, 0xff, 0xff, 0xff], &[0xff; 9]] {
        assert!(contents(octets).len() <= octets.len());
        assert!(signed_octets(octets).len() <= octets.len());
    }
}

#[test]
fn an_error_says_where() {
    let error = Certificate::from_der(&[0x02, 0x01, 0x05]).unwrap_err();
    assert_eq!((error.number(), error.position()), (4, Some(2)));
    assert_eq!(error.to_string(), "another tag stands there than may stand there (4), after 2 octets");
}
