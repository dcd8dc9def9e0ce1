//! The rows of messages: certificates, lists of revoked ones, signed messages, answers of OCSP, each message by itself.

use crate::calls::{self, mbedtls, octets as here};
use crate::measure::{Candidate, Goal, Plan, Work, by};
use crate::peers::Peer;
use crate::{inputs, limit, of_asn1, of_der, places};
use std::path::{Path, PathBuf};

/// The messages of a file, each after its length in four octets.
struct Messages {
    path: PathBuf,
    octets: Vec<u8>,
}

impl Messages {
    /// None, and a line, where the file was not made.
    fn of(room: &Path, name: &str) -> Option<Messages> {
        let path = room.join("inputs").join(name);
        match std::fs::read(&path) {
            Ok(octets) if !octets.is_empty() => Some(Messages { path, octets }),
            _ => {
                println!("not there: the input {name}");
                None
            }
        }
    }

    fn all(&self) -> Vec<&[u8]> {
        let (mut rest, mut all) = (&self.octets[..], Vec::new());
        while let Some((len, octets)) = rest.split_first_chunk::<4>() {
            let (message, others) = octets.split_at(u32::from_be_bytes(*len) as usize);
            all.push(message);
            rest = others;
        }
        all
    }
}

pub type Call = fn(&[u8]) -> usize;

/// A row over the messages of a file. Its time is of one of so many items as stand in a message by `items`. Its candidates
/// are calls for a message, and the call that peers know by a name.
struct Row<'a> {
    name: &'a str,
    file: &'a str,
    items: Call,
    rounds: usize,
    goals: &'a [Goal],
    calls: &'a [(&'static str, Call)],
    of_peers: &'static str,
}

pub fn x509_cert(octets: &[u8]) -> usize {
    usize::from(<x509_cert::Certificate as x509_cert::der::Decode>::from_der(octets).is_ok())
}

fn x509_cert_rewritten(octets: &[u8]) -> usize {
    use x509_cert::der::{Decode, Encode};
    x509_cert::Certificate::from_der(octets).and_then(|certificate| certificate.to_der()).map_or(0, |octets| octets.len())
}

fn x509_cert_revoked(octets: &[u8]) -> usize {
    let list = <x509_cert::crl::CertificateList as x509_cert::der::Decode>::from_der(octets);
    list.map_or(0, |list| list.tbs_cert_list.revoked_certificates.map_or(0, |entries| entries.len()))
}

pub fn x509_parser(octets: &[u8]) -> usize {
    use x509_parser::nom::Parser;
    let mut parser = x509_parser::certificate::X509CertificateParser::new().with_deep_parse_extensions(false);
    usize::from(parser.parse(octets).is_ok())
}

fn x509_parser_revoked(octets: &[u8]) -> usize {
    use x509_parser::prelude::FromDer;
    let list = x509_parser::revocation_list::CertificateRevocationList::from_der(octets);
    list.map_or(0, |(_, list)| list.iter_revoked_certificates().count())
}

fn webpki(octets: &[u8]) -> usize {
    let octets = rustls_pki_types::CertificateDer::from(octets);
    usize::from(webpki::EndEntityCert::try_from(&octets).is_ok())
}

fn run(plan: &Plan, room: &Path, peers: &[Peer], row: &Row) {
    if !plan.has(row.name) {
        return;
    }
    let Some(messages) = Messages::of(room, row.file) else {
        return;
    };
    let all = messages.all();
    let items: usize = all.iter().map(|octets| (row.items)(octets)).sum();
    let mut candidates: Vec<Candidate> = Vec::new();
    for (name, call) in row.calls {
        let all = &all;
        candidates.push(by(name, move || all.iter().map(|octets| call(octets)).sum()));
    }
    for peer in peers {
        let work = Work::Peer(peer, row.of_peers, messages.path.clone());
        candidates.push(Candidate { name: peer.name, work });
    }
    plan.row(row.name, items.max(1), row.rounds, row.goals, candidates);
}

/// Whether the octets are a list of revoked certificates, for a row whose calls don't count the entries.
fn mbedtls_list(octets: &[u8]) -> usize {
    mbedtls::beside_mbedtls_revoked(octets).min(1)
}

// (the names are gone through item by item where they are no lists)
const WITH_NAMES: [(&str, Call); 6] = [
    ("here", here::read_certificate_names),
    ("limit", limit::certificate_names),
    ("mbedTLS 3.6", mbedtls::beside_mbedtls_certificate_names),
    ("asn1 0.24", of_asn1::certificate_names),
    ("x509-cert", x509_cert),
    ("x509-parser", x509_parser),
];

// (where a name says so, the names are not looked into)
const CERTIFICATE: [(&str, Call); 7] = [
    ("here", here::read_certificate),
    ("limit", limit::certificate),
    ("mbedTLS 3.6", mbedtls::beside_mbedtls_certificate),
    ("asn1 0.24", of_asn1::certificate),
    ("no names: asn1 0.24", of_asn1::certificate_no_names),
    ("no names: webpki", webpki),
    ("no names: der 0.8", of_der::certificate),
];

// (the entries are gone through one by one where they are no list)
const REVOKED: [(&str, Call); 7] = [
    ("here", here::read_revoked),
    ("limit", limit::revoked),
    ("mbedTLS 3.6", mbedtls::beside_mbedtls_revoked),
    ("asn1 0.24", of_asn1::revoked),
    ("der 0.8", of_der::revoked),
    ("x509-cert", x509_cert_revoked),
    ("x509-parser", x509_parser_revoked),
];

const REVOKED_CHECKED: [(&str, Call); 4] = [
    ("here", here::check_revoked),
    ("limit", limit::revoked_checked),
    ("mbedTLS 3.6", mbedtls_list),
    ("asn1 0.24", of_asn1::revoked_checked),
];

const WALK: [(&str, Call); 6] = [
    ("here", here::walk),
    ("here, headers", here::walk_headers),
    ("limit", limit::walk),
    ("mbedTLS 3.6", mbedtls::beside_mbedtls_walk),
    ("asn1 0.24", of_asn1::walk),
    ("der 0.8", of_der::walk),
];

const REWRITTEN: [(&str, Call); 3] =
    [("here", here::rewrite_certificate), ("der 0.8", of_der::rewritten), ("x509-cert", x509_cert_rewritten)];

const SIGNED: [(&str, Call); 3] = [("here", here::read_signed), ("limit", limit::signed), ("asn1 0.24", of_asn1::signed)];

const STATUS: [(&str, Call); 3] = [("here", here::read_status), ("limit", limit::status), ("asn1 0.24", of_asn1::status)];

/// Where the time is of a message.
fn one(_octets: &[u8]) -> usize {
    1
}

/// The rows whose goals are shares of the fastest peers.
pub fn rows(plan: &Plan, room: &Path, peers: &[Peer]) {
    let row_of = |name, file, items, rounds, goals, calls, of_peers| {
        run(plan, room, peers, &Row { name, file, items, rounds, goals, calls, of_peers });
    };
    let row = |name, file, goals, calls, of_peers| row_of(name, file, one, 25, goals, calls, of_peers);
    for (name, file) in [("certificate with names, system", "system"), ("certificate with names, leaf", "leaves")] {
        row(name, file, &[("mbedTLS 3.6", 0.9)], &WITH_NAMES, "certificate");
    }
    // (what the other libraries in C and Go read is in the rows above: it is certificates with their names)
    for (name, file) in [("certificate, system", "system"), ("certificate, leaf", "leaves")] {
        row(name, file, &[("asn1 0.24", 0.7)], &CERTIFICATE, "none");
    }
    // (where the fields stand, as C has them: a walk over the headers is what it cannot do without)
    let goals = &[("here, headers", 1.5), ("OpenSSL", 1.0), ("x509-cert", 1.0)];
    for (name, file) in [("places of the fields, system", "system"), ("places of the fields, leaf", "leaves")] {
        row(name, file, goals, &places::FIELDS, "certificate");
    }
    for (name, file) in [("places of each part, system", "system"), ("places of each part, leaf", "leaves")] {
        row(name, file, goals, &places::EACH_PART, "certificate");
    }
    let goals = &[("mbedTLS 3.6", 0.7)];
    for (name, checked, file, rounds) in [
        ("revoked entry, 1,000", "revoked entry checked, 1,000", "revoked-1000", 25),
        ("revoked entry, 10,000", "revoked entry checked, 10,000", "revoked-10000", 15),
        ("revoked entry, 100,000", "revoked entry checked, 100,000", "revoked-100000", 7),
        ("revoked entry, 1,000,000", "revoked entry checked, 1,000,000", "revoked-1000000", 3),
    ] {
        row_of(name, file, limit::revoked, rounds, goals, &REVOKED, "revoked");
        row_of(checked, file, limit::revoked, rounds, goals, &REVOKED_CHECKED, "none");
    }
    let goals = &[("mbedTLS 3.6", 1.0), ("OpenSSL", 0.55)];
    for (name, file) in [("walk one at a time, system", "system"), ("walk one at a time, leaf", "leaves")] {
        row_of(name, file, limit::walk, 25, goals, &WALK, "walk");
    }
    row("read and write a leaf certificate", "leaves", &[("der 0.8", 0.35)], &REWRITTEN, "rewritten");
    row("SignedData with one certificate", "signed", &[], &SIGNED, "signed");
    row("OCSP answer", "status", &[], &STATUS, "status");
}

/// The leaves of the rows of lists within lists, and how often they are written at each call.
const LEAVES: u32 = 20_000;
const WRITINGS: u32 = 20;

/// The same numbers written in one list, and in ten lists around it.
pub fn lists(plan: &Plan) {
    if !plan.has("writing behind 11 lists") || !calls::ARE_THERE {
        return;
    }
    let mut number = 0;
    let flat = inputs::sequence(LEAVES as usize, || {
        number += 1;
        inputs::integer(number)
    });
    let nested = (0..10).fold(flat.clone(), |inner, _| inputs::tlv(0x30, &inner));
    let octets = [calls::library_write_behind_1(&flat, 1), calls::library_write_behind_11(&nested, 1)];
    assert_eq!(octets, [flat.len(), nested.len()], "the octets that were read are written");
    // (ten headers of a SEQUENCE, each with a length of three octets)
    let deep = |rounds| calls::library_write_behind_11(&nested, rounds).saturating_sub(50);
    plan.row("writing behind 11 lists", (LEAVES * WRITINGS) as usize, 25, &[("behind 1", 1.2)], vec![
        by("here", || deep(WRITINGS)),
        by("behind 1", || calls::library_write_behind_1(&flat, WRITINGS)),
    ]);
}
