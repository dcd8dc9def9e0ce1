//! Messages that stand within others, on octets that were written by hand.

use der_proved::{contents, encodings, general_name, named_bits, time, unsigned_integer, GeneralName};

/// Octets from hexadecimal digits, with spaces between them.
fn octets(digits: &str) -> Vec<u8> {
    let digits: String = digits.split(' ').collect();
    (0..digits.len()).step_by(2).map(|at| u8::from_str_radix(&digits[at..at + 2], 16).unwrap()).collect()
}

#[test]
fn keys() {
    let key = octets("3007 020200ff 020103");
    let key = der_proved::RsaPublicKey::from_der(&key).unwrap();
    assert_eq!((contents(key.modulus()), unsigned_integer(key.public_exponent()).unwrap()), (&[0, 255][..], 3));
    let key = octets("3009 020101 04025a5a a000");
    assert_eq!(der_proved::EcPrivateKey::from_der(&key).unwrap_err().number(), 2);
    let key = octets("3007 020101 04025a5a");
    let read = der_proved::EcPrivateKey::from_der(&key).unwrap();
    assert_eq!(contents(read.private_key()), [0x5a, 0x5a]);
    assert!(!format!("{read:?}").contains("90"), "no octets are shown");
}

#[test]
fn names() {
    let list = octets("300d 8201 61 8704 7f000001 8802 2a03");
    let found: Vec<_> = encodings(&list).map(|it| general_name(it).unwrap()).collect();
    let expected =
        [GeneralName::DnsName(b"a"), GeneralName::IpAddress(&[127, 0, 0, 1]), GeneralName::RegisteredId(&[0x2a, 3])];
    assert_eq!(found, expected);
    assert_eq!(general_name(&[0x89, 0]).unwrap_err().number(), 4);
}

#[test]
fn values() {
    assert_eq!(named_bits(&octets("03020106")).unwrap(), 0b110_0000);
    assert_eq!(time(b"\x17\x0d700101000001Z").unwrap(), 1);
    assert_eq!(time(b"\x18\x1119700101000001.5Z").unwrap_err().number(), 13);
    assert_eq!(der_proved::fractional_time(b"\x18\x1119700101000001.5Z").unwrap(), 1);
    assert_eq!(unsigned_integer(&[2, 1, 0x80]).unwrap_err().number(), 13);
}

#[test]
fn extensions() {
    let none = octets("3000");
    let constraints = der_proved::BasicConstraints::from_der(&none).unwrap();
    assert_eq!((constraints.ca(), constraints.path_len_constraint()), (None, None));
    let some = octets("3006 0101ff 020103");
    let constraints = der_proved::BasicConstraints::from_der(&some).unwrap();
    assert_eq!(constraints.path_len_constraint().map(|it| unsigned_integer(it).unwrap()), Some(3));
    let written = octets("3003 010100");
    assert_eq!(der_proved::BasicConstraints::from_der(&written).unwrap_err().number(), 8);
}
