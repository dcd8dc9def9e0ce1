//! What lists and answers say of a certificate. All are written here, and no signature is verified.

use der_proved::{
    encode, encodings, list_status, ocsp_status, revocation_status, BasicOcspResponseFields, CertIdFields, CertStatus,
    Certificate, CertificateFields, CertificateListFields, Error, ExtensionFields, ListStep, OcspInputs, OcspStep, Reason,
    Reasons, ResponseDataFields, Responder, RevocationStatus, Revoked, RevokedCertificateFields, SingleResponseFields,
    StatusError, TbsCertListFields, TbsCertificateFields,
};

const NOW: u64 = 1_767_225_600;

/// The name of the issuer, the algorithm and the signature of all messages.
struct Issuer {
    name: Vec<u8>,
    algorithm: Vec<u8>,
    signature: Vec<u8>,
}

impl Issuer {
    fn new() -> Result<Issuer, Error> {
        let name = encode::name(&[("2.5.4.3", "mill")])?;
        let algorithm = encode::algorithm_identifier("1.3.101.112", None)?;
        Ok(Issuer { name, algorithm, signature: encode::bit_string(&[7; 64])? })
    }

    fn certificate(&self, serial: u8, extensions: &[&[u8]]) -> Result<Vec<u8>, Error> {
        let body = TbsCertificateFields {
            version: 3,
            serial_number: &encode::unsigned_integer(&[serial])?,
            signature: &self.algorithm,
            issuer: &self.name,
            not_before: NOW - 1000,
            not_after: NOW + 1000,
            subject: &encode::name(&[("2.5.4.3", "wheel")])?,
            subject_public_key_info: &encode::ed25519_key(&[9; 32])?,
            extensions,
            ..TbsCertificateFields::default()
        }
        .to_der()?;
        let (signature_algorithm, signature_value) = (&self.algorithm[..], &self.signature[..]);
        CertificateFields { tbs_certificate: &body, signature_algorithm, signature_value }.to_der()
    }

    /// A list with one entry, of the serial number 7.
    fn list(&self, entry_extensions: &[&[u8]]) -> Result<Vec<u8>, Error> {
        let entry = RevokedCertificateFields {
            user_certificate: &encode::unsigned_integer(&[7])?,
            revocation_date: NOW - 50,
            crl_entry_extensions: entry_extensions,
        }
        .to_der()?;
        let body = TbsCertListFields {
            version: 2,
            signature: &self.algorithm,
            issuer: &self.name,
            this_update: NOW - 10,
            next_update: Some(NOW + 10),
            revoked_certificates: &[&entry],
            crl_extensions: &[],
        }
        .to_der()?;
        let (signature_algorithm, signature_value) = (&self.algorithm[..], &self.signature[..]);
        CertificateListFields { tbs_cert_list: &body, signature_algorithm, signature_value }.to_der()
    }

    /// An answer about the serial number 7 by these certificates, which names its responder by a key.
    fn answer(&self, status: &[u8], certificates: &[&[u8]]) -> Result<Vec<u8>, Error> {
        let id = CertIdFields {
            hash_algorithm: &encode::algorithm_identifier("1.3.14.3.2.26", None)?,
            issuer_name_hash: &encode::octet_string(b"name")?,
            issuer_key_hash: &encode::octet_string(b"key")?,
            serial_number: &encode::unsigned_integer(&[7])?,
        }
        .to_der()?;
        let single = SingleResponseFields {
            cert_id: &id,
            cert_status: status,
            this_update: NOW - 10,
            next_update: None,
            single_extensions: &[],
        }
        .to_der()?;
        let body = ResponseDataFields {
            responder_id: &encode::explicit(2, &encode::octet_string(b"hash")?)?,
            produced_at: NOW,
            responses: &[&single],
            response_extensions: &[],
        }
        .to_der()?;
        BasicOcspResponseFields {
            tbs_response_data: &body,
            signature_algorithm: &self.algorithm,
            signature: &self.signature,
            certs: certificates,
        }
        .to_der()
    }
}

#[test]
fn a_list() -> Result<(), Error> {
    let issuer = Issuer::new()?;
    let (one, other) = (issuer.certificate(7, &[])?, issuer.certificate(8, &[])?);
    let list = issuer.list(&[])?;
    let revoked = Revoked { date: NOW - 50, reason: Reason::Unspecified };
    let told = list_status(&one, &list, NOW).expect("the list tells");
    assert_eq!((told.reasons, told.revoked), (Reasons::ALL, Some(revoked)));
    assert!(told.reasons.has(8) && !told.reasons.has(0));
    assert_eq!(list_status(&other, &list, NOW).map(|it| it.revoked), Ok(None));
    let (id, hold) = (encode::object_identifier("2.5.29.21")?, encode::octet_string(&encode::enumerated(6)?)?);
    let held = ExtensionFields { extn_id: &id, is_critical: false, extn_value: &hold }.to_der()?;
    let told = list_status(&one, &issuer.list(&[&held])?, NOW).expect("the list tells");
    assert_eq!(told.revoked.map(|it| it.reason), Some(Reason::CertificateHold));
    assert_eq!(list_status(&one, &list, NOW + 11), Err(StatusError::RefusedList(ListStep::NextUpdate)));
    assert_eq!(list_status(&one, &list, NOW - 11), Err(StatusError::RefusedList(ListStep::ThisUpdate)));
    assert_eq!(ListStep::NextUpdate.section(), "6.3.3 (a)(1)");
    let error = Certificate::from_der(&one[1..]).unwrap_err();
    assert_eq!(list_status(&one[1..], &list, NOW), Err(StatusError::Certificate(error)));
    assert!(matches!(list_status(&one, &one, NOW), Err(StatusError::List(_))));
    let twice = issuer.certificate(7, &[&held_as("2.5.29.19")?, &held_as("2.5.29.19")?])?;
    assert_eq!(list_status(&twice, &list, NOW), Err(StatusError::UnreadCertificate));
    Ok(())
}

#[test]
fn lists() -> Result<(), Error> {
    let issuer = Issuer::new()?;
    let (one, other, list) = (issuer.certificate(7, &[])?, issuer.certificate(8, &[])?, issuer.list(&[])?);
    let revoked = Revoked { date: NOW - 50, reason: Reason::Unspecified };
    assert_eq!(revocation_status(&one, &[&list], NOW, true), Ok(RevocationStatus::Revoked(revoked)));
    assert_eq!(revocation_status(&other, &[&list], NOW, true), Ok(RevocationStatus::Unrevoked));
    assert_eq!(revocation_status(&one, &[], NOW, true), Ok(RevocationStatus::Undetermined(Reasons(0))));
    assert_eq!(revocation_status(&one, &[&list], NOW + 11, false), Ok(RevocationStatus::Undetermined(Reasons(0))));
    assert!(matches!(revocation_status(&one, &[&list, &one], NOW, true), Err(StatusError::List(_))));
    Ok(())
}

/// An extension with this identifier, an empty SEQUENCE.
fn held_as(dotted: &str) -> Result<Vec<u8>, Error> {
    let (id, value) = (encode::object_identifier(dotted)?, encode::octet_string(&encode::sequence(&[])?)?);
    ExtensionFields { extn_id: &id, is_critical: false, extn_value: &value }.to_der()
}

#[test]
fn an_answer() -> Result<(), Error> {
    let issuer = Issuer::new()?;
    let purpose = encode::sequence(&[&encode::object_identifier("1.3.6.1.5.5.7.3.9")?])?;
    let (id, purpose) = (encode::object_identifier("2.5.29.37")?, encode::octet_string(&purpose)?);
    let purpose = ExtensionFields { extn_id: &id, is_critical: false, extn_value: &purpose }.to_der()?;
    let delegates = [issuer.certificate(20, &[])?, issuer.certificate(21, &[&purpose])?];
    let answer = issuer.answer(&encode::cert_status(CertStatus::Revoked(NOW), Some(1))?, &[&delegates[0], &delegates[1]])?;
    let (algorithm, serial) = (encode::object_identifier("1.3.14.3.2.26")?, encode::unsigned_integer(&[7])?);
    let inputs = OcspInputs {
        moment: NOW,
        answer: &answer,
        issuer: &issuer.name,
        algorithm: &algorithm,
        name_hash: b"name",
        key_hash: b"key",
        serial_number: &serial,
    };
    let told = ocsp_status(&inputs).expect("the answer tells");
    assert_eq!((told.status, told.reason), (CertStatus::Revoked(NOW), Reason::KeyCompromise));
    assert_eq!((told.this_update, told.next_update), (NOW - 10, None));
    assert_eq!(told.responders, [Responder::Issuer, Responder::Certificate(&delegates[1])]);
    assert_eq!(told.key_hash.as_deref(), Some(&b"hash"[..]));
    let other = OcspInputs { key_hash: b"other", ..inputs };
    assert_eq!(ocsp_status(&other), Err(StatusError::RefusedAnswer(OcspStep::NotAnswered)));
    let early = OcspInputs { moment: NOW - 11, ..inputs };
    assert_eq!(ocsp_status(&early), Err(StatusError::RefusedAnswer(OcspStep::ThisUpdate)));
    assert!(matches!(ocsp_status(&OcspInputs { answer: &serial, ..inputs }), Err(StatusError::Answer(_))));
    assert!(matches!(ocsp_status(&OcspInputs { issuer: &serial, ..inputs }), Err(StatusError::Input(_))));
    assert_eq!(encodings(&answer).count(), 4);
    Ok(())
}
