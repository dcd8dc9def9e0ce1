//! Messages that are written: those of PEM files again, from their fields; and others, which the command `openssl` reads.

mod common;

use common::signer::{extension_of, Signer, BEGIN, END};
use common::Message;
use der_proved::{
    contents, encode, encodings, write, BasicOcspResponse, BasicOcspResponseFields, CertId, CertStatus,
    Certificate, CertificateFields, CertificateList, CertificateListFields, CertificationRequest,
    CertificationRequestFields, CertificationRequestInfoFields, Error, Extension, ExtensionFields, Extensions, GeneralName,
    OcspRequestFields, OcspResponse, OcspResponseFields, RequestFields, ResponseDataFields, RevokedCertificateFields,
    SingleResponseFields, TbsCertListFields, TbsCertificateFields, TbsRequestFields, WriteError,
};

/// The octets of extensions, of which none is refused.
fn all(extensions: Extensions<'_>) -> Result<Vec<&[u8]>, Error> {
    extensions.map(|it| it.map(|it| it.as_bytes())).collect()
}

fn extension(it: &Extension) -> Result<(), Error> {
    let fields = ExtensionFields { extn_id: it.extn_id(), is_critical: it.is_critical(), extn_value: it.extn_value() };
    assert_eq!(fields.to_der()?, it.as_bytes());
    Ok(())
}

fn certificate(octets: &[u8]) -> Result<(), Error> {
    let it = Certificate::from_der(octets)?;
    it.extensions().try_for_each(|one| extension(&one?))?;
    let extensions = all(it.extensions())?;
    let fields = TbsCertificateFields {
        version: it.version(),
        serial_number: it.serial_number(),
        signature: it.signature(),
        issuer: it.issuer(),
        not_before: it.not_before(),
        not_after: it.not_after(),
        subject: it.subject(),
        subject_public_key_info: it.subject_public_key_info(),
        issuer_unique_id: it.issuer_unique_id(),
        subject_unique_id: it.subject_unique_id(),
        extensions: &extensions,
    };
    let body = fields.to_der()?;
    let dates = encode::sequence(&[&encode::time(it.not_before())?, &encode::time(it.not_after())?])?;
    // (some certificates have a GeneralizedTime of a date before 2050; RFC 5280 4.1.2.5)
    assert!(dates != it.validity() || body == it.tbs_certificate());
    let mut buffer = vec![0x5a; fields.room()];
    assert_eq!(fields.write(&mut buffer), Ok(&body[..]));
    assert_eq!(fields.write(&mut buffer[..body.len()]), Err(WriteError::ShortBuffer(fields.room())));
    let fields = CertificateFields {
        tbs_certificate: it.tbs_certificate(),
        signature_algorithm: it.signature_algorithm(),
        signature_value: it.signature_value(),
    };
    assert_eq!(fields.to_der()?, octets);
    Ok(())
}

fn list(octets: &[u8]) -> Result<(), Error> {
    let it = CertificateList::from_der(octets)?;
    let mut entries = Vec::new();
    for entry in it.revoked_certificates() {
        let entry = entry?;
        let extensions = all(entry.extensions())?;
        let fields = RevokedCertificateFields {
            user_certificate: entry.user_certificate(),
            revocation_date: entry.revocation_date(),
            crl_entry_extensions: &extensions,
        };
        assert_eq!(fields.to_der()?, entry.as_bytes());
        entries.push(entry.as_bytes());
    }
    let extensions = all(it.extensions())?;
    let fields = TbsCertListFields {
        version: it.version(),
        signature: it.signature(),
        issuer: it.issuer(),
        this_update: it.this_update(),
        next_update: it.next_update(),
        revoked_certificates: &entries,
        crl_extensions: &extensions,
    };
    assert_eq!(fields.to_der()?, it.tbs_cert_list());
    let fields = CertificateListFields {
        tbs_cert_list: it.tbs_cert_list(),
        signature_algorithm: it.signature_algorithm(),
        signature_value: it.signature_value(),
    };
    assert_eq!(fields.to_der()?, octets);
    Ok(())
}

fn request(octets: &[u8]) -> Result<(), Error> {
    let it = CertificationRequest::from_der(octets)?;
    let mut attributes: Vec<_> = it.attributes().map(|one| one.map(|it| it.as_bytes())).collect::<Result<_, _>>()?;
    attributes.reverse();
    let fields = CertificationRequestInfoFields {
        subject: it.subject(),
        subject_pk_info: it.subject_pk_info(),
        attributes: &attributes,
    };
    assert_eq!(fields.to_der()?, it.certification_request_info());
    let fields = CertificationRequestFields {
        certification_request_info: it.certification_request_info(),
        signature_algorithm: it.signature_algorithm(),
        signature: it.signature(),
    };
    assert_eq!(fields.to_der()?, octets);
    Ok(())
}

fn response(octets: &[u8]) -> Result<(), Error> {
    let it = OcspResponse::from_der(octets)?;
    let bytes = it.response().map(|response| encode::response_bytes(contents(response))).transpose()?;
    let fields = OcspResponseFields { response_status: it.response_status(), response_bytes: bytes.as_deref() };
    assert_eq!(fields.to_der()?, octets);
    let Some(octets) = it.response().map(contents) else { return Ok(()) };
    let it = BasicOcspResponse::from_der(octets)?;
    let mut responses = Vec::new();
    for single in it.responses() {
        let single = single?;
        let extensions = all(single.extensions())?;
        let fields = SingleResponseFields {
            cert_id: single.cert_id(),
            cert_status: encodings(single.as_bytes()).nth(1).expect("the status of a certificate"),
            this_update: single.this_update(),
            next_update: single.next_update(),
            single_extensions: &extensions,
        };
        assert_eq!(fields.to_der()?, single.as_bytes());
        responses.push(single.as_bytes());
    }
    let extensions = all(it.extensions())?;
    let fields = ResponseDataFields {
        responder_id: it.responder_id(),
        produced_at: it.produced_at(),
        responses: &responses,
        response_extensions: &extensions,
    };
    assert_eq!(fields.to_der()?, it.tbs_response_data());
    let certificates: Vec<_> = it.certs().map(|certs| encodings(contents(certs)).collect()).unwrap_or_default();
    let fields = BasicOcspResponseFields {
        tbs_response_data: it.tbs_response_data(),
        signature_algorithm: it.signature_algorithm(),
        signature: it.signature(),
        certs: &certificates,
    };
    assert_eq!(fields.to_der()?, octets);
    Ok(())
}

#[test]
fn what_is_read_is_written_again() {
    let mut count = 0;
    for Message { label, octets } in &common::messages() {
        let result = match label.as_str() {
            "CERTIFICATE" => certificate(octets),
            "X509 CRL" => list(octets),
            "CERTIFICATE REQUEST" => request(octets),
            "OCSP RESPONSE" => response(octets),
            _ => continue,
        };
        // (a date before 1970 is refused where it is read)
        assert!(result.map_or_else(|error| error.number() == 13, |()| true), "{label}: {result:?}");
        count += 1;
    }
    println!("{count} messages written again");
}

#[test]
fn openssl_reads_a_certificate_and_a_request() -> Result<(), Error> {
    let Some(signer) = Signer::new("certificate") else { return Ok(()) };
    let own = signer.own()?;
    assert_eq!(Certificate::from_der(&own)?.not_after(), END);
    signer.run("verify -check_ss_sig -CAfile own.pem own.pem");
    let said = signer.run("x509 -in own.pem -noout -subject -serial -dates -ext basicConstraints,keyUsage,subjectAltName");
    for text in ["C = GB, CN = mill", "=C507", "Jan  1 00:00:00 2026", "Jan  1 00:00:00 2051", "CA:TRUE", "Certificate Sign, CRL Sign", "DNS:mill.example"] {
        assert!(said.as_ref().is_some_and(|said| said.contains(text)), "{text}: {said:?}");
    }
    let host = encode::sequence(&[&encode::general_name(&GeneralName::DnsName(b"mill.example"))?])?;
    let asked = encode::sequence(&[&extension_of("2.5.29.17", false, &host)?])?;
    let info = CertificationRequestInfoFields {
        subject: &signer.name,
        subject_pk_info: &signer.key,
        attributes: &[&encode::attribute("1.2.840.113549.1.9.14", &[&asked])?],
    }
    .to_der()?;
    let fields = CertificationRequestFields {
        certification_request_info: &info,
        signature_algorithm: &signer.algorithm,
        signature: &signer.sign(&info),
    };
    signer.write("request.der", &fields.to_der()?);
    let said = signer.run("req -inform DER -in request.der -verify -noout -text");
    assert!(said.as_ref().is_some_and(|said| said.contains("DNS:mill.example")), "{said:?}");
    Ok(())
}

#[test]
fn openssl_reads_a_list() -> Result<(), Error> {
    let Some(signer) = Signer::new("list") else { return Ok(()) };
    signer.own()?;
    let entry = RevokedCertificateFields {
        user_certificate: &encode::unsigned_integer(&[9])?,
        revocation_date: BEGIN,
        crl_entry_extensions: &[&extension_of("2.5.29.21", false, &encode::enumerated(1)?)?],
    }
    .to_der()?;
    let body = TbsCertListFields {
        version: 2,
        signature: &signer.algorithm,
        issuer: &signer.name,
        this_update: BEGIN,
        next_update: Some(END),
        revoked_certificates: &[&entry],
        crl_extensions: &[&extension_of("2.5.29.20", false, &encode::unsigned_integer(&[3])?)?],
    }
    .to_der()?;
    let fields = CertificateListFields {
        tbs_cert_list: &body,
        signature_algorithm: &signer.algorithm,
        signature_value: &signer.sign(&body),
    };
    signer.write("list.der", &fields.to_der()?);
    let said = signer.run("crl -inform DER -in list.der -CAfile own.pem -noout -text");
    for text in ["verify OK", "Serial Number: 09", "Key Compromise", "Next Update: Jan  1 00:00:00 2051"] {
        assert!(said.as_ref().is_some_and(|said| said.contains(text)), "{text}: {said:?}");
    }
    Ok(())
}

#[test]
fn openssl_reads_a_request_and_a_response_of_ocsp() -> Result<(), Error> {
    let Some(signer) = Signer::new("ocsp") else { return Ok(()) };
    signer.own()?;
    let id = signer.cert_id(&[9])?;
    assert_eq!(contents(CertId::from_der(&id)?.serial_number()), [9]);
    let one = RequestFields { req_cert: &id, single_request_extensions: &[] }.to_der()?;
    let body = TbsRequestFields { request_list: &[&one], ..TbsRequestFields::default() }.to_der()?;
    signer.write("asked", &OcspRequestFields { tbs_request: &body, optional_signature: None }.to_der()?);
    let said = signer.run("ocsp -reqin asked -req_text");
    assert!(said.as_ref().is_some_and(|said| said.contains("Serial Number: 09")), "{said:?}");
    let single = SingleResponseFields {
        cert_id: &id,
        cert_status: &encode::cert_status(CertStatus::Revoked(BEGIN), Some(1))?,
        this_update: BEGIN,
        next_update: Some(END),
        single_extensions: &[],
    }
    .to_der()?;
    let body = ResponseDataFields {
        responder_id: &encode::explicit(1, &signer.name)?,
        produced_at: BEGIN,
        responses: &[&single],
        response_extensions: &[],
    }
    .to_der()?;
    let basic = BasicOcspResponseFields {
        tbs_response_data: &body,
        signature_algorithm: &signer.algorithm,
        signature: &signer.sign(&body),
        certs: &[],
    }
    .to_der()?;
    let bytes = encode::response_bytes(&basic)?;
    let fields = OcspResponseFields { response_status: 0, response_bytes: Some(&bytes) };
    signer.write("answer", &fields.to_der()?);
    let said = signer.run("ocsp -issuer own.pem -serial 9 -no_nonce -respin answer -VAfile own.pem -CAfile own.pem");
    for text in ["Response verify OK", "9: revoked", "Reason: keyCompromise"] {
        assert!(said.as_ref().is_some_and(|said| said.contains(text)), "{text}: {said:?}");
    }
    Ok(())
}

#[test]
fn values() {
    assert_eq!(encode::object_identifier("2.5.29.17").unwrap(), [6, 3, 0x55, 0x1d, 0x11]);
    assert_eq!(encode::object_identifier("0.9").unwrap(), [6, 1, 9]);
    assert_eq!(encode::object_identifier("2.999.128").unwrap(), [6, 4, 0x88, 0x37, 0x81, 0]);
    for text in ["", "2", "3.1", "1.40", "2.5.", "2.05", "2.+5", "2.5.18446744073709551616", "2.18446744073709551615"] {
        assert_eq!(encode::object_identifier(text).unwrap_err().number(), 15, "{text}");
    }
    assert_eq!(encode::named_bits(0b110_0000).unwrap(), [3, 2, 1, 6]);
    assert_eq!(encode::named_bits(1 << 8).unwrap(), [3, 3, 7, 0, 0x80]);
    assert_eq!(encode::named_bits(0).unwrap(), [3, 1, 0]);
    assert_eq!(encode::unsigned_integer(&[0, 0xc5]).unwrap(), [2, 2, 0, 0xc5]);
    assert_eq!(encode::set_of(&[&[2, 1, 8], &[2, 1, 7]]).unwrap(), [0x31, 6, 2, 1, 7, 2, 1, 8]);
    assert_eq!(encode::enumerated(128).unwrap(), [0x0a, 2, 0, 128]);
    assert_eq!(encode::implicit_sequence(1, &[&[2, 1, 8], &[5, 0]]).unwrap(), [0xa1, 5, 2, 1, 8, 5, 0]);
    assert_eq!(encode::explicit(31, &[]).unwrap_err().number(), 6);
    assert_eq!(encode::time(0).unwrap(), b"\x17\x0d700101000000Z");
    assert_eq!(encode::time(2_524_608_000).unwrap(), b"\x18\x0f20500101000000Z");
    assert_eq!(encode::time(u64::MAX).unwrap_err().number(), 14);
    let mut buffer = [0x5a; 5];
    assert_eq!(write::bit_string(&[6], &mut buffer), Ok(&[3, 2, 0, 6][..]));
    assert_eq!(buffer[4], 0x5a);
    assert_eq!(write::bit_string(&[6, 7, 8], &mut buffer), Err(WriteError::ShortBuffer(6)));
}

#[test]
fn what_is_refused() {
    let fields = CertificateFields { tbs_certificate: &[2, 1, 5], ..CertificateFields::default() };
    assert_eq!(fields.to_der().unwrap_err().number(), 4);
    assert_eq!(CertificateFields::default().to_der().unwrap_err().number(), 2);
    let fields = OcspResponseFields { response_status: 4, response_bytes: None };
    assert_eq!(fields.to_der().unwrap_err().number(), 13);
    let fields = OcspResponseFields { response_status: 6, response_bytes: None };
    assert_eq!(fields.to_der().unwrap(), [0x30, 3, 0x0a, 1, 6]);
    let list = TbsCertListFields { version: 0, ..TbsCertListFields::default() };
    assert_eq!(list.to_der().unwrap_err().number(), 13);
}
