//! Validates a chain of certificates, by the signatures of the command `openssl` (3.0 or later): `path SECONDS ANCHOR
//! CERTIFICATE..`, files in DER, from the certificate that is trusted to that of the end, at a moment in seconds from 1970.
//! Whether a certificate is revoked is not asked.

use der_proved::{check_path, encode, AlgorithmIdentifier, Certificate, PathError, PathInputs, Verification};
use std::error::Error;
use std::process::{exit, Command, Stdio};
use std::{env, fs, process};

/// The hash function of an algorithm for signatures, if it has one of its own.
const HASHES: [(&str, Option<&str>); 8] = [
    ("1.2.840.10045.4.3.2", Some("sha256")),
    ("1.2.840.10045.4.3.3", Some("sha384")),
    ("1.2.840.10045.4.3.4", Some("sha512")),
    ("1.2.840.113549.1.1.11", Some("sha256")),
    ("1.2.840.113549.1.1.12", Some("sha384")),
    ("1.2.840.113549.1.1.13", Some("sha512")),
    ("1.3.101.112", None),
    ("1.3.101.113", None),
];

/// Whether a signature verifies; an error if its algorithm is not known here.
fn verifies(one: &Verification) -> Result<bool, Box<dyn Error>> {
    let algorithm = AlgorithmIdentifier::from_der(one.algorithm)?;
    let known = HASHES.iter().find(|(dotted, _)| encode::object_identifier(dotted).is_ok_and(|it| it == algorithm.oid()));
    let Some((_, hash)) = known else { return Err("an algorithm that is not known here".into()) };
    let folder = env::temp_dir().join(format!("path-{}", process::id()));
    fs::create_dir_all(&folder)?;
    for (name, octets) in [("key", &one.working_key()?[..]), ("signed", one.signed), ("signature", one.signature_octets())] {
        fs::write(folder.join(name), octets)?;
    }
    let mut words = Command::new("openssl");
    words.args(["pkeyutl", "-verify", "-pubin", "-keyform", "DER", "-inkey", "key", "-rawin"]);
    words.args(["-in", "signed", "-sigfile", "signature"]);
    words.args(hash.map(|hash| ["-digest", hash]).into_iter().flatten());
    let ran = words.current_dir(&folder).stdout(Stdio::null()).stderr(Stdio::null()).status();
    fs::remove_dir_all(&folder)?;
    Ok(ran?.success())
}

/// What is said of a chain.
fn told(words: &[String]) -> Result<(bool, String), Box<dyn Error>> {
    let [moment, anchor, chain @ ..] = words else { return Err("path SECONDS ANCHOR CERTIFICATE..".into()) };
    let anchor = fs::read(anchor)?;
    let anchor = Certificate::from_der(&anchor)?;
    let chain = chain.iter().map(fs::read).collect::<Result<Vec<_>, _>>()?;
    let chain: Vec<&[u8]> = chain.iter().map(Vec::as_slice).collect();
    let inputs = PathInputs {
        moment: moment.parse()?,
        anchor_name: anchor.subject(),
        anchor_key: anchor.subject_public_key_info(),
        ..PathInputs::default()
    };
    let path = match check_path(&inputs, &chain) {
        Ok(path) => path,
        Err(PathError::Refused(index, step)) => return Ok((false, format!("refused {index} {}", step.section()))),
        Err(error) => return Ok((false, format!("refused: {error}"))),
    };
    for (index, one) in path.verifications.iter().enumerate() {
        if !verifies(one)? {
            return Ok((false, format!("refused {index} 6.1.3 (a)(1)")));
        }
    }
    Ok((true, "valid".to_string()))
}

fn main() -> Result<(), Box<dyn Error>> {
    let words: Vec<String> = env::args().skip(1).collect();
    let (is_valid, text) = told(&words)?;
    println!("{text}");
    exit(i32::from(!is_valid));
}
