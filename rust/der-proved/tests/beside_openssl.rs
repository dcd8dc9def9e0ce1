//! The fields of messages beside the elements that `openssl asn1parse` finds: each field is one of them, in their order.

mod common;

use common::Message;
use der_proved::{
    contents, BasicOcspResponse, Certificate, CertificateList, CertificationRequest, ContentInfo, Error, OcspResponse,
    PrivateKeyInfo, SignedData, SubjectPublicKeyInfo,
};
use std::io::Write;
use std::process::{Command, Stdio};

/// An element by `openssl asn1parse`: its offset, its depth, its whole length, and the text of a time.
#[derive(Debug)]
struct Element {
    offset: usize,
    depth: usize,
    length: usize,
    text: String,
}

/// The number after a word of a line such as `    4:d=1  hl=4 l= 384 cons: SEQUENCE`.
fn number_after(line: &str, word: &str) -> usize {
    let rest = line.split_once(word).expect("a line of asn1parse").1.trim_start();
    rest.split(|letter: char| !letter.is_ascii_digit()).next().unwrap().parse().expect("a number")
}

fn element(line: &str) -> Element {
    let offset = line.trim_start().split(':').next().unwrap().parse().expect("an offset");
    let length = number_after(line, "hl=") + number_after(line, " l=");
    let text = line.rsplit_once(":").map_or("", |(_, text)| text).to_string();
    Element { offset, depth: number_after(line, "d="), length, text }
}

/// The elements of octets; none if there is no command `openssl`.
fn elements(octets: &[u8]) -> Option<Vec<Element>> {
    let mut words = Command::new("openssl");
    words.args(["asn1parse", "-inform", "DER"]).stdin(Stdio::piped()).stdout(Stdio::piped()).stderr(Stdio::null());
    let mut ran = words.spawn().ok()?;
    ran.stdin.take()?.write_all(octets).ok()?;
    let said = String::from_utf8_lossy(&ran.wait_with_output().ok()?.stdout).into_owned();
    Some(said.lines().filter(|line| line.contains("hl=")).map(element).collect())
}

/// What is compared of a message: its octets, its elements, and how many fields were found.
struct Beside<'a> {
    octets: &'a [u8],
    elements: Vec<Element>,
    count: usize,
}

impl Beside<'_> {
    /// The elements right below the one at an offset.
    fn below(&self, offset: usize) -> Vec<&Element> {
        let at = self.elements.iter().position(|it| it.offset == offset).expect("the element of a field");
        let depth = self.elements[at].depth;
        self.elements[at + 1..].iter().take_while(|it| it.depth > depth).filter(|it| it.depth == depth + 1).collect()
    }

    fn offset(&self, field: &[u8]) -> usize {
        field.as_ptr() as usize - self.octets.as_ptr() as usize
    }

    /// The fields are elements right below a field, or below the message, in their order.
    fn fields(&mut self, of: &[u8], fields: &[&[u8]]) {
        let below = self.below(self.offset(of));
        let mut left = below.iter();
        for field in fields {
            let offset = self.offset(field);
            let found = left.find(|it| it.offset == offset);
            assert_eq!(found.map(|it| it.length), Some(field.len()), "{field:02x?} of {below:?}");
        }
        self.count += fields.len();
    }

    /// A date is that of the time at an index below a field.
    fn date(&mut self, of: &[u8], index: usize, seconds: u64) {
        let text = self.below(self.offset(of))[index].text.clone();
        assert_eq!(seconds, seconds_of(&text), "{text}");
        self.count += 1;
    }
}

/// The seconds of the text of a UTCTime or a GeneralizedTime, with the days of RFC 5280 4.1.2.5.1's century.
fn seconds_of(text: &str) -> u64 {
    let digits = text.trim_end_matches('Z');
    let (year, rest) = digits.split_at(digits.len() - 10);
    let year: i64 = match year.parse().expect("a year") {
        year if digits.len() > 12 => year,
        year if year >= 50 => 1900 + year,
        year => 2000 + year,
    };
    let part: Vec<i64> = (0..5).map(|at| rest[2 * at..2 * at + 2].parse().expect("two digits")).collect();
    let (years, month) = if part[0] > 2 { (year, part[0] - 3) } else { (year - 1, part[0] + 9) };
    let days = 365 * years + years / 4 - years / 100 + years / 400 + (153 * month + 2) / 5 + part[1] - 1 - 719_468;
    u64::try_from(((days * 24 + part[2]) * 60 + part[3]) * 60 + part[4]).expect("a date from 1970 on")
}

fn certificate(beside: &mut Beside, octets: &[u8]) -> Result<(), Error> {
    let it = Certificate::from_der(octets)?;
    beside.fields(octets, &[it.tbs_certificate(), it.signature_algorithm(), it.signature_value()]);
    let key = it.subject_public_key_info();
    beside.fields(it.tbs_certificate(), &[it.serial_number(), it.signature(), it.issuer(), it.validity(), it.subject(), key]);
    beside.date(it.validity(), 0, it.not_before());
    beside.date(it.validity(), 1, it.not_after());
    let key = SubjectPublicKeyInfo::from_der(key)?;
    beside.fields(it.subject_public_key_info(), &[key.algorithm(), key.subject_public_key()]);
    for extension in it.extensions() {
        let extension = extension?;
        beside.fields(extension.as_bytes(), &[extension.extn_id(), extension.extn_value()]);
    }
    for attribute in it.issuer_attributes().chain(it.subject_attributes()) {
        let attribute = attribute?;
        beside.fields(attribute.as_bytes(), &[attribute.type_(), attribute.value()]);
    }
    Ok(())
}

fn list(beside: &mut Beside, octets: &[u8]) -> Result<(), Error> {
    let it = CertificateList::from_der(octets)?;
    beside.fields(octets, &[it.tbs_cert_list(), it.signature_algorithm(), it.signature_value()]);
    beside.fields(it.tbs_cert_list(), &[it.signature(), it.issuer()]);
    let times = if it.version() == 2 { 3 } else { 2 };
    beside.date(it.tbs_cert_list(), times, it.this_update());
    if let Some(next_update) = it.next_update() {
        beside.date(it.tbs_cert_list(), times + 1, next_update);
    }
    for entry in it.revoked_certificates() {
        let entry = entry?;
        beside.fields(entry.as_bytes(), &[entry.user_certificate()]);
        beside.date(entry.as_bytes(), 1, entry.revocation_date());
        for extension in entry.extensions() {
            let extension = extension?;
            beside.fields(extension.as_bytes(), &[extension.extn_id(), extension.extn_value()]);
        }
    }
    Ok(())
}

fn request(beside: &mut Beside, octets: &[u8]) -> Result<(), Error> {
    let it = CertificationRequest::from_der(octets)?;
    beside.fields(octets, &[it.certification_request_info(), it.signature_algorithm(), it.signature()]);
    beside.fields(it.certification_request_info(), &[it.subject(), it.subject_pk_info()]);
    for attribute in it.attributes() {
        let attribute = attribute?;
        beside.fields(attribute.as_bytes(), &[attribute.type_(), attribute.values()]);
    }
    Ok(())
}

/// A response; the signed response within it is a message of its own.
fn response(beside: &mut Beside, octets: &[u8]) -> Result<(), Error> {
    let it = OcspResponse::from_der(octets)?;
    let Some(response) = it.response() else { return Ok(()) };
    let octets = contents(response);
    let elements = elements(octets).expect("openssl is there");
    let mut within = Beside { octets, elements, count: 0 };
    let it = BasicOcspResponse::from_der(octets)?;
    within.fields(octets, &[it.tbs_response_data(), it.signature_algorithm(), it.signature()]);
    within.fields(it.tbs_response_data(), &[it.responder_id()]);
    for single in it.responses() {
        let single = single?;
        within.fields(single.as_bytes(), &[single.cert_id()]);
        within.date(single.as_bytes(), 2, single.this_update());
    }
    beside.count += within.count;
    Ok(())
}

fn signed(beside: &mut Beside, octets: &[u8]) -> Result<(), Error> {
    let it = ContentInfo::from_der(octets)?;
    beside.fields(octets, &[it.content_type(), it.content()]);
    let whole = contents(it.content());
    let it = SignedData::from_der(whole)?;
    beside.fields(whole, &[it.digest_algorithms()]);
    for signer in it.signer_infos() {
        let signer = signer?;
        let fields = [signer.sid(), signer.digest_algorithm(), signer.signature_algorithm(), signer.signature()];
        beside.fields(signer.as_bytes(), &fields);
        for attribute in signer.signed_attributes() {
            let attribute = attribute?;
            beside.fields(attribute.as_bytes(), &[attribute.type_(), attribute.values()]);
        }
    }
    Ok(())
}

fn compare(beside: &mut Beside, label: &str) -> Option<Result<(), Error>> {
    let octets = beside.octets;
    Some(match label {
        "CERTIFICATE" => certificate(beside, octets),
        "X509 CRL" => list(beside, octets),
        "CERTIFICATE REQUEST" => request(beside, octets),
        "OCSP RESPONSE" => response(beside, octets),
        "CMS" => signed(beside, octets),
        "PRIVATE KEY" => {
            PrivateKeyInfo::from_der(octets).map(|it| beside.fields(octets, &[it.private_key_algorithm(), it.private_key()]))
        }
        _ => return None,
    })
}

/// The messages that `openssl asn1parse` reads, and that are refused here, with the clause.
const DIFFERENCES: &[(u32, &str)] = &[(13, "a UTCTime of 1950 to 1969 is refused (docs/FORMAT.md; RFC 5280 4.1.2.5.1)")];

#[test]
fn fields_beside_openssl() {
    let (mut messages, mut fields, mut refused) = (0, 0, 0);
    for Message { label, octets } in &common::messages() {
        let Some(elements) = elements(octets) else {
            println!("left out: there is no openssl");
            return;
        };
        let mut beside = Beside { octets, elements, count: 0 };
        let Some(result) = compare(&mut beside, label) else { continue };
        if let Err(error) = result {
            assert!(DIFFERENCES.iter().any(|(number, _)| *number == error.number()), "{label}: {error}");
            refused += 1;
        }
        (messages, fields) = (messages + 1, fields + beside.count);
    }
    println!("{messages} messages, {fields} fields, {refused} on the list of differences");
    assert!(messages == 0 || fields > messages);
}
