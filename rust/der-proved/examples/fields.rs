//! Prints the fields of certificates as hex, a line each: `fields FILE..`, of one certificate in DER a file.

use der_proved::{Certificate, SubjectPublicKeyInfo};
use std::error::Error;
use std::fmt::Write;

fn hex(octets: &[u8]) -> String {
    octets.iter().fold(String::new(), |mut text, octet| {
        let _ = write!(text, "{octet:02x}");
        text
    })
}

fn print_certificate(octets: &[u8]) -> Result<(), Box<dyn Error>> {
    let certificate = Certificate::from_der(octets)?;
    let key = SubjectPublicKeyInfo::from_der(certificate.subject_public_key_info())?;
    println!("version {}", certificate.version());
    println!("not before {}", certificate.not_before());
    println!("not after {}", certificate.not_after());
    for (name, field) in [
        ("signed", certificate.tbs_certificate()),
        ("serial number", certificate.serial_number()),
        ("issuer", certificate.issuer()),
        ("subject", certificate.subject()),
        ("key", certificate.subject_public_key_info()),
        ("algorithm of the key", key.algorithm()),
        ("signature", der_proved::contents(certificate.signature_value())),
    ] {
        println!("{name} {}", hex(field));
    }
    for extension in certificate.extensions() {
        let extension = extension?;
        let critical = if extension.is_critical() { "critical" } else { "other" };
        println!("extension {} {critical} {}", hex(extension.identifier()), hex(extension.value()));
    }
    Ok(())
}

fn main() -> Result<(), Box<dyn Error>> {
    for name in std::env::args().skip(1) {
        print_certificate(&std::fs::read(name)?)?;
    }
    Ok(())
}
