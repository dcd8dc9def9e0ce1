//! Messages that are signed by the command `openssl`.
#![allow(dead_code)]

use der_proved::{encode, CertIdFields, CertificateFields, Error, ExtensionFields, GeneralName, TbsCertificateFields};
use std::path::PathBuf;
use std::process::Command;
use std::{env, fs, process};

/// A folder with a key and what is signed by it, for the command `openssl`.
pub struct Signer {
    pub folder: PathBuf,
    pub algorithm: Vec<u8>,
    pub name: Vec<u8>,
    pub key: Vec<u8>,
}

pub const ECDSA_WITH_SHA256: &str = "1.2.840.10045.4.3.2";
pub const SHA1: &str = "1.3.14.3.2.26";
pub const BEGIN: u64 = 1_767_225_600;
pub const END: u64 = 2_556_144_000;

impl Signer {
    /// None where there is no command `openssl`.
    pub fn new(name: &str) -> Option<Signer> {
        let folder = env::temp_dir().join(format!("der-proved-{name}-{}", process::id()));
        fs::create_dir_all(&folder).unwrap();
        let mut signer = Signer { folder, algorithm: Vec::new(), name: Vec::new(), key: Vec::new() };
        signer.run("genpkey -algorithm EC -pkeyopt ec_paramgen_curve:P-256 -out key.pem")?;
        signer.run("pkey -in key.pem -pubout -outform DER -out key.der")?;
        let key = signer.read("key.der");
        signer.key = encode::p256_key(&key[key.len() - 65..]).unwrap();
        assert_eq!(signer.key, key);
        signer.algorithm = encode::algorithm_identifier(ECDSA_WITH_SHA256, None).unwrap();
        signer.name = encode::name(&[("2.5.4.6", "GB"), ("2.5.4.3", "mill")]).unwrap();
        Some(signer)
    }

    pub fn write(&self, name: &str, octets: &[u8]) {
        fs::write(self.folder.join(name), octets).unwrap();
    }

    pub fn read(&self, name: &str) -> Vec<u8> {
        fs::read(self.folder.join(name)).unwrap()
    }

    /// What `openssl` prints, which ends with the status 0.
    pub fn run(&self, words: &str) -> Option<String> {
        let ran = Command::new("openssl").args(words.split(' ')).current_dir(&self.folder).output().ok()?;
        let said = format!("{}{}", String::from_utf8_lossy(&ran.stdout), String::from_utf8_lossy(&ran.stderr));
        assert!(ran.status.success(), "openssl {words}: {said}");
        Some(said)
    }

    /// The BIT STRING of the signature of octets.
    pub fn sign(&self, octets: &[u8]) -> Vec<u8> {
        self.write("signed", octets);
        self.run("dgst -sha256 -sign key.pem -out signature signed");
        encode::bit_string(&self.read("signature")).unwrap()
    }

    /// The signer's own certificate, which `own.der` and `own.pem` have.
    pub fn own(&self) -> Result<Vec<u8>, Error> {
        let constraints = extension_of("2.5.29.19", true, &encode::sequence(&[&encode::boolean(true)?])?)?;
        let usage = extension_of("2.5.29.15", true, &encode::named_bits(1 << 5 | 1 << 6)?)?;
        let host = encode::general_name(&GeneralName::DnsName(b"mill.example"))?;
        let host = extension_of("2.5.29.17", false, &encode::sequence(&[&host])?)?;
        let body = TbsCertificateFields {
            version: 3,
            serial_number: &encode::unsigned_integer(&[0xc5, 7])?,
            signature: &self.algorithm,
            issuer: &self.name,
            not_before: BEGIN,
            not_after: END,
            subject: &self.name,
            subject_public_key_info: &self.key,
            extensions: &[&constraints, &usage, &host],
            ..TbsCertificateFields::default()
        }
        .to_der()?;
        let fields = CertificateFields {
            tbs_certificate: &body,
            signature_algorithm: &self.algorithm,
            signature_value: &self.sign(&body),
        };
        let own = fields.to_der()?;
        self.write("own.der", &own);
        self.run("x509 -inform DER -in own.der -out own.pem");
        Ok(own)
    }

    /// The identifier of the certificate with a serial number that the signer issued.
    pub fn cert_id(&self, serial: &[u8]) -> Result<Vec<u8>, Error> {
        self.write("name", &self.name);
        self.run("dgst -sha1 -binary -out name.hash name");
        self.write("octets", &self.key[self.key.len() - 65..]);
        self.run("dgst -sha1 -binary -out key.hash octets");
        let fields = CertIdFields {
            hash_algorithm: &encode::algorithm_identifier(SHA1, Some(&encode::null()?))?,
            issuer_name_hash: &encode::octet_string(&self.read("name.hash"))?,
            issuer_key_hash: &encode::octet_string(&self.read("key.hash"))?,
            serial_number: &encode::unsigned_integer(serial)?,
        };
        fields.to_der()
    }
}

impl Drop for Signer {
    fn drop(&mut self) {
        let _ = fs::remove_dir_all(&self.folder);
    }
}

pub fn extension_of(dotted: &str, is_critical: bool, value: &[u8]) -> Result<Vec<u8>, Error> {
    let (id, value) = (encode::object_identifier(dotted)?, encode::octet_string(value)?);
    ExtensionFields { extn_id: &id, is_critical, extn_value: &value }.to_der()
}
