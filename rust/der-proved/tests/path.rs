//! Chains of certificates that are written here, and whose signatures the command `openssl` makes and verifies.

mod common;

use common::signer::{extension_of, Signer, BEGIN, END};
use der_proved::{
    check_path, encode, Certificate, CertificateFields, Error, GeneralName, PathError, PathInputs, Step,
    TbsCertificateFields, Verification,
};

/// A certificate that a signer issues for another, with these extensions.
fn issue(by: &Signer, of: &Signer, extensions: &[&[u8]]) -> Result<Vec<u8>, Error> {
    let body = TbsCertificateFields {
        version: 3,
        serial_number: &encode::unsigned_integer(&[7])?,
        signature: &by.algorithm,
        issuer: &by.name,
        not_before: BEGIN,
        not_after: END,
        subject: &of.name,
        subject_public_key_info: &of.key,
        extensions,
        ..TbsCertificateFields::default()
    }
    .to_der()?;
    let signature = by.sign(&body);
    CertificateFields { tbs_certificate: &body, signature_algorithm: &by.algorithm, signature_value: &signature }.to_der()
}

fn signer(name: &str, folder: &str) -> Option<Signer> {
    let mut signer = Signer::new(&format!("{folder}-{name}"))?;
    signer.name = encode::name(&[("2.5.4.3", name)]).unwrap();
    Some(signer)
}

fn of_authority() -> Result<Vec<u8>, Error> {
    extension_of("2.5.29.19", true, &encode::sequence(&[&encode::boolean(true)?])?)
}

fn verifies(of: &Signer, one: &Verification) -> bool {
    for (name, octets) in [("key", &one.working_key().unwrap()[..]), ("octets", one.signed), ("made", one.signature_octets())] {
        of.write(name, octets);
    }
    let said = of.run("pkeyutl -verify -pubin -keyform DER -inkey key -rawin -digest sha256 -in octets -sigfile made");
    said.is_some_and(|said| said.contains("Signature Verified Successfully"))
}

#[test]
fn a_chain() -> Result<(), Error> {
    let (Some(root), Some(middle), Some(end)) = (signer("root", "a"), signer("middle", "a"), signer("end", "a")) else {
        return Ok(());
    };
    let chain = [issue(&root, &middle, &[&of_authority()?])?, issue(&middle, &end, &[])?];
    let chain: Vec<&[u8]> = chain.iter().map(Vec::as_slice).collect();
    let inputs = PathInputs { moment: END, anchor_name: &root.name, anchor_key: &root.key, ..PathInputs::default() };
    let path = check_path(&inputs, &chain).expect("a valid chain");
    assert_eq!(path.verifications.len(), 2);
    assert!(path.verifications.iter().all(|one| verifies(&root, one)));
    let keys: Vec<_> = path.verifications.iter().map(|one| one.key).collect();
    assert_eq!(keys, [&root.key[..], &middle.key]);
    let late = PathInputs { moment: END + 1, ..inputs };
    assert_eq!(check_path(&late, &chain), Err(PathError::Refused(0, Step::Validity)));
    let other = PathInputs { anchor_name: &end.name, ..inputs };
    assert_eq!(check_path(&other, &chain), Err(PathError::Refused(0, Step::Issuer)));
    assert_eq!(check_path(&inputs, &chain[1..]), Err(PathError::Refused(0, Step::Issuer)));
    assert_eq!(check_path(&inputs, &[]), Err(PathError::Empty));
    Ok(())
}

#[test]
fn what_is_no_chain() -> Result<(), Error> {
    let (Some(root), Some(end)) = (signer("root", "b"), signer("end", "b")) else { return Ok(()) };
    let plain = [issue(&root, &root, &[])?, issue(&root, &end, &[])?];
    let inputs = PathInputs { moment: BEGIN, anchor_name: &root.name, anchor_key: &root.key, ..PathInputs::default() };
    assert_eq!(check_path(&inputs, &[&plain[0], &plain[1]]), Err(PathError::Refused(0, Step::Ca)));
    let other = [0x30, 3, 2, 1, 5];
    let error = Certificate::from_der(&other).unwrap_err();
    let first = issue(&root, &end, &[&of_authority()?])?;
    assert_eq!(check_path(&inputs, &[&first, &other]), Err(PathError::NotRead(1, error)));
    match check_path(&PathInputs { anchor_key: &[5, 0], ..inputs }, &[&plain[1]]) {
        Err(PathError::Input(error)) => assert_eq!(error.number(), 4),
        other => panic!("{other:?}"),
    }
    assert_eq!(Step::UserPolicies.section(), "6.1.5 (g)");
    Ok(())
}

#[test]
fn policies_and_constraints() -> Result<(), Error> {
    let (Some(root), Some(end)) = (signer("root", "c"), signer("end", "c")) else { return Ok(()) };
    let policy = encode::object_identifier("2.5.29.32.1")?;
    let policies = encode::sequence(&[&encode::sequence(&[&policy])?])?;
    let host = encode::sequence(&[&encode::general_name(&GeneralName::DnsName(b"one.mill.example"))?])?;
    let extensions = [extension_of("2.5.29.32", false, &policies)?, extension_of("2.5.29.17", false, &host)?];
    let chain = [issue(&root, &end, &[&extensions[0], &extensions[1]])?];
    let inputs = PathInputs {
        moment: BEGIN,
        anchor_name: &root.name,
        anchor_key: &root.key,
        policies: &[&policy],
        explicit_policy: true,
        ..PathInputs::default()
    };
    let path = check_path(&inputs, &[&chain[0]]).expect("a valid chain");
    assert_eq!(path.policies, std::slice::from_ref(&policy));
    let other = encode::object_identifier("2.5.29.32.2")?;
    let wants_other = PathInputs { policies: &[&other], ..inputs };
    assert_eq!(check_path(&wants_other, &[&chain[0]]), Err(PathError::Refused(0, Step::UserPolicies)));
    for (name, answer) in [("mill.example", Ok(())), ("other.example", Err(PathError::Refused(0, Step::Permitted)))] {
        let base = encode::general_name(&GeneralName::DnsName(name.as_bytes()))?;
        let subtrees = encode::implicit_sequence(0, &[&encode::sequence(&[&base])?])?;
        let constraints = encode::sequence(&[&subtrees])?;
        let inputs = PathInputs { constraints: Some(&constraints), ..inputs };
        assert_eq!(check_path(&inputs, &[&chain[0]]).map(|_| ()), answer, "{name}");
    }
    Ok(())
}
