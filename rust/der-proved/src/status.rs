//! The status of a certificate, by a list of revoked ones (RFC 5280 section 6.3.3) or an answer of OCSP (RFC 6960).

use crate::parts::Parts;
use crate::steps::steps;
use crate::{contents, encodings, BasicOcspResponse, CertStatus, Certificate, CertificateList, Error};
use alloc::vec;
use alloc::vec::Vec;
use core::fmt;
use der_proved_sys as sys;
use sys::{Fault, ListStatusAt, OcspStatusAt, ResponderAt, RevocationStatusAt};

/// `DER_SHORT_BUFFER`, `DER_EXTENSION_UNREAD`, `DER_LIST_REFUSED`, `DER_ANSWER_REFUSED` and `DER_LIST_UNREAD` of `der.h`.
const SHORT_BUFFER: u32 = 103;
const EXTENSION_UNREAD: u32 = 105;
const LIST_REFUSED: u32 = 107;
const ANSWER_REFUSED: u32 = 108;
const LIST_UNREAD: u32 = 109;

/// Why a certificate is revoked (RFC 5280 5.3.1).
#[derive(Clone, Copy, Debug, PartialEq, Eq)]
#[non_exhaustive]
#[repr(u32)]
pub enum Reason {
    /// `unspecified`, or no reason stands in the entry.
    Unspecified = 0,
    /// `keyCompromise`.
    KeyCompromise = 1,
    /// `cACompromise`.
    CaCompromise = 2,
    /// `affiliationChanged`.
    AffiliationChanged = 3,
    /// `superseded`.
    Superseded = 4,
    /// `cessationOfOperation`.
    CessationOfOperation = 5,
    /// `certificateHold`.
    CertificateHold = 6,
    /// `removeFromCRL`.
    RemoveFromCrl = 8,
    /// `privilegeWithdrawn`.
    PrivilegeWithdrawn = 9,
    /// `aACompromise`.
    AaCompromise = 10,
}

impl Reason {
    const ALL: [Reason; 10] = [
        Reason::Unspecified,
        Reason::KeyCompromise,
        Reason::CaCompromise,
        Reason::AffiliationChanged,
        Reason::Superseded,
        Reason::CessationOfOperation,
        Reason::CertificateHold,
        Reason::RemoveFromCrl,
        Reason::PrivilegeWithdrawn,
        Reason::AaCompromise,
    ];

    /// The number of CRLReason.
    pub fn number(self) -> u32 {
        self as u32
    }

    fn of(number: u32) -> Reason {
        Reason::ALL.into_iter().find(|it| it.number() == number).unwrap_or(Reason::Unspecified)
    }
}

/// A set of reasons, as the bits of ReasonFlags (RFC 5280 4.2.1.13): bit 1 for `keyCompromise`, to bit 8 for
/// `aACompromise`.
#[derive(Clone, Copy, Debug, Default, PartialEq, Eq)]
pub struct Reasons(pub u32);

impl Reasons {
    /// All reasons.
    pub const ALL: Reasons = Reasons(0x1fe);

    /// Whether the set has the reason with this bit.
    pub fn has(self, bit: u32) -> bool {
        bit < 32 && self.0 >> bit & 1 == 1
    }
}

/// Why and since when a certificate is revoked.
#[derive(Clone, Copy, Debug, PartialEq, Eq)]
pub struct Revoked {
    /// In seconds from 1970-01-01T00:00:00Z.
    pub date: u64,
    /// The reason.
    pub reason: Reason,
}

/// What a list says of a certificate.
#[derive(Clone, Copy, Debug, PartialEq, Eq)]
pub struct ListStatus {
    /// The reasons for which certificates stand in the list.
    pub reasons: Reasons,
    /// Why and since when the certificate is revoked, if it is.
    pub revoked: Option<Revoked>,
}

steps! {
    /// The steps that refuse a list.
    ListStep {
        // written by tools/bindings: steps of lists
        /// 5.2.4: the list is a delta.
        Delta = 1,
        /// 5.2: a critical extension is not processed.
        UnknownExtension = 2,
        /// 5.3: an extension of an entry stands twice, or cannot be read.
        UnreadEntry = 3,
        /// 5.3: a critical extension of an entry is not processed.
        UnknownEntryExtension = 4,
        /// 6.3.3 (b)(1): the issuer is not that of the certificate.
        Issuer = 5,
        /// 6.3.3 (b)(2)(i): the list is of other distribution points.
        PointName = 6,
        /// 6.3.3 (b)(2)(ii): the list has end entities alone, and the certificate is a CA's.
        UserCertificates = 7,
        /// 6.3.3 (b)(2)(iii): the list has CAs alone, and the certificate is no CA's.
        CaCertificates = 8,
        /// 6.3.3 (b)(2)(iv): the list has attribute certificates alone.
        AttributeCertificates = 9,
        /// 5.1.2.4: the list is issued after the moment.
        ThisUpdate = 10,
        /// 6.3.3 (a)(1): the moment is after nextUpdate.
        NextUpdate = 11,
        /// 6.3.3 (e): the list has no reason.
        NoNewReasons = 12,
        // end of steps of lists
    }
}

impl ListStep {
    /// The section and the letter of RFC 5280, such as `6.3.3 (b)(1)`.
    pub fn section(self) -> &'static str {
        sys::safe::list_step_text(self.number())
    }
}

steps! {
    /// The steps that refuse an answer of OCSP.
    OcspStep {
        // written by tools/bindings: steps of answers
        /// 4.4: an extension of the answer, or of its part about the certificate, is critical.
        CriticalExtension = 1,
        /// 3.2 (1): the answer is about other certificates.
        NotAnswered = 2,
        /// 3.2 (5): the status is known to be correct only after the moment.
        ThisUpdate = 3,
        /// 3.2 (6): newer information is available at the moment.
        NextUpdate = 4,
        /// 3.2 (4): the answer names nobody who may sign it (4.2.2.2).
        NoResponder = 5,
        // end of steps of answers
    }
}

impl OcspStep {
    /// The section and the number of RFC 6960, such as `3.2 (1)`.
    pub fn section(self) -> &'static str {
        sys::safe::ocsp_step_text(self.number())
    }
}

/// Why the status is not told.
#[derive(Clone, Copy, Debug, PartialEq, Eq)]
#[non_exhaustive]
pub enum StatusError {
    /// The octets are no certificate.
    Certificate(Error),
    /// The octets are no list of revoked certificates.
    List(Error),
    /// The octets are no answer.
    Answer(Error),
    /// An extension of the certificate that RFC 5280 section 6.1 processes stands twice, or cannot be read.
    UnreadCertificate,
    /// An extension of the list that section 6.3.3 processes stands twice, or cannot be read.
    UnreadList,
    /// A step refuses the list.
    RefusedList(ListStep),
    /// A step refuses the answer.
    RefusedAnswer(OcspStep),
    /// Another input is refused, or memory ran out.
    Input(Error),
}

impl fmt::Display for StatusError {
    fn fmt(&self, f: &mut fmt::Formatter<'_>) -> fmt::Result {
        match self {
            StatusError::Certificate(error) => write!(f, "the certificate: {error}"),
            StatusError::List(error) => write!(f, "the list: {error}"),
            StatusError::Answer(error) => write!(f, "the answer: {error}"),
            StatusError::UnreadCertificate => f.write_str(sys::safe::number_text(EXTENSION_UNREAD)),
            StatusError::UnreadList => f.write_str(sys::safe::number_text(LIST_UNREAD)),
            StatusError::RefusedList(step) => write!(f, "the list: {} refuses it", step.section()),
            StatusError::RefusedAnswer(step) => write!(f, "the answer: {} refuses it", step.section()),
            StatusError::Input(error) => write!(f, "an input: {error}"),
        }
    }
}

impl core::error::Error for StatusError {}

/// The refusal of what has been read.
fn refusal(fault: Fault, step: u32) -> StatusError {
    match (fault.number, ListStep::of(step), OcspStep::of(step)) {
        (LIST_REFUSED, Some(step), _) => StatusError::RefusedList(step),
        (ANSWER_REFUSED, _, Some(step)) => StatusError::RefusedAnswer(step),
        (EXTENSION_UNREAD, _, _) => StatusError::UnreadCertificate,
        (LIST_UNREAD, _, _) => StatusError::UnreadList,
        _ => StatusError::Input(Error::of(Fault { is_placed: 0, ..fault })),
    }
}

/// Says what a list of revoked certificates tells of a certificate at a moment, in seconds from 1970-01-01T00:00:00Z (RFC
/// 5280 6.3.3). The list is the own one of the certificate's issuer: whole, no delta, and not indirect.
///
/// It holds if the signature of the list verifies with the key of its issuer, whose path is valid and whose keyUsage, if
/// it is there, has cRLSign.
///
/// # Errors
/// What cannot be read, or the step that refuses the list.
pub fn list_status(certificate: &[u8], list: &[u8], moment: u64) -> Result<ListStatus, StatusError> {
    Certificate::from_der(certificate).map_err(StatusError::Certificate)?;
    CertificateList::from_der(list).map_err(StatusError::List)?;
    let mut parts = Parts::default();
    let certificate = parts.add(certificate).map_err(StatusError::Input)?;
    let list = parts.add(list).map_err(StatusError::Input)?;
    let mut out = ListStatusAt::default();
    let told = sys::safe::list_status(&parts.octets, certificate, list, moment, &mut out);
    told.map_err(|fault| refusal(fault, out.step))?;
    let revoked = Revoked { date: out.revocation_date, reason: Reason::of(out.reason) };
    Ok(ListStatus { reasons: Reasons(out.reasons), revoked: (out.is_revoked == 1).then_some(revoked) })
}

/// What lists say of a certificate.
#[derive(Clone, Copy, Debug, PartialEq, Eq)]
pub enum RevocationStatus {
    /// The certificate is in none of the lists, and these have all reasons.
    Unrevoked,
    /// The certificate is revoked.
    Revoked(Revoked),
    /// The certificate is in none of the lists that are used, and these have no other reasons than these.
    Undetermined(Reasons),
}

/// Says what lists of revoked certificates tell of a certificate at a moment, in seconds from 1970-01-01T00:00:00Z, by the
/// whole of RFC 5280 6.3.3, with distribution points, indirect lists and deltas: complete lists and deltas, in any order.
/// Those that 6.3.3 does not use say nothing. `use_deltas` is use-deltas (6.3.1 (b)).
///
/// It holds if the signature of each list verifies with the key of its issuer, whose path is valid and whose keyUsage, if
/// it is there, has cRLSign.
///
/// # Errors
/// What cannot be read.
pub fn revocation_status(
    certificate: &[u8],
    lists: &[&[u8]],
    moment: u64,
    use_deltas: bool,
) -> Result<RevocationStatus, StatusError> {
    Certificate::from_der(certificate).map_err(StatusError::Certificate)?;
    for list in lists {
        CertificateList::from_der(list).map_err(StatusError::List)?;
    }
    let mut parts = Parts::default();
    let certificate = parts.add(certificate).map_err(StatusError::Input)?;
    let lists = lists.iter().map(|list| parts.add(list)).collect::<Result<Vec<_>, _>>().map_err(StatusError::Input)?;
    let mut out = RevocationStatusAt::default();
    let told = sys::safe::revocation_status(&parts.octets, certificate, &lists, moment, use_deltas, &mut out);
    told.map_err(|fault| refusal(fault, 0))?;
    Ok(match out.status {
        0 => RevocationStatus::Unrevoked,
        1 => RevocationStatus::Revoked(Revoked { date: out.revocation_date, reason: Reason::of(out.reason) }),
        _ => RevocationStatus::Undetermined(Reasons(out.reasons)),
    })
}

/// What is asked of an answer of OCSP (RFC 6960 3.2, 4.1.1). The caller computes the hash values.
#[derive(Clone, Copy, Debug, Default)]
pub struct OcspInputs<'a> {
    /// The moment, in seconds from 1970-01-01T00:00:00Z.
    pub moment: u64,
    /// The answer, a BasicOCSPResponse.
    pub answer: &'a [u8],
    /// The Name of the certificate's issuer.
    pub issuer: &'a [u8],
    /// The identifier of the hash algorithm, an OBJECT IDENTIFIER.
    pub algorithm: &'a [u8],
    /// The hash value of the issuer's name.
    pub name_hash: &'a [u8],
    /// The hash value of the issuer's public key: of the octets of the BIT STRING subjectPublicKey.
    pub key_hash: &'a [u8],
    /// The certificate's serial number, an INTEGER.
    pub serial_number: &'a [u8],
}

/// What an answer of OCSP says of a certificate.
#[derive(Clone, Debug, PartialEq, Eq)]
pub struct OcspStatus<'a> {
    /// The status.
    pub status: CertStatus,
    /// Why the certificate is revoked, if it is.
    pub reason: Reason,
    /// `thisUpdate`, in seconds from 1970-01-01T00:00:00Z.
    pub this_update: u64,
    /// `nextUpdate`, if it is there.
    pub next_update: Option<u64>,
    /// Who may have signed the answer.
    pub responders: Vec<Responder<'a>>,
    /// What the SHA-1 hash value of the responder's key is, if the answer names its responder so.
    pub key_hash: Option<Vec<u8>>,
}

/// Who may have signed an answer (RFC 6960 4.2.2.2).
#[derive(Clone, Copy, Debug, PartialEq, Eq)]
pub enum Responder<'a> {
    /// The issuer of the certificate.
    Issuer,
    /// The holder of this certificate of the answer, whose own signature has to verify with the issuer's key.
    Certificate(&'a [u8]),
}

/// A responder of an answer that was read.
fn responder<'a>(answer: &BasicOcspResponse<'a>, at: &ResponderAt) -> Responder<'a> {
    if at.is_issuer == 1 {
        return Responder::Issuer;
    }
    let certificates = answer.certs().map_or(&[][..], contents);
    Responder::Certificate(encodings(certificates).nth(at.index as usize).unwrap_or(&[]))
}

/// Says what an answer of OCSP tells of a certificate (RFC 6960 3.2, 4.2.2.2).
///
/// It holds if the signature of the answer verifies with the key of one of the responders; and if the answer is recent
/// enough, and the responder's certificate not revoked.
///
/// # Errors
/// What cannot be read, or the step that refuses the answer.
pub fn ocsp_status<'a>(inputs: &OcspInputs<'a>) -> Result<OcspStatus<'a>, StatusError> {
    let answer = BasicOcspResponse::from_der(inputs.answer).map_err(StatusError::Answer)?;
    let mut parts = Parts::default();
    let mut add = |octets| parts.add(octets).map_err(StatusError::Input);
    let at = sys::OcspInputs {
        moment: inputs.moment,
        answer: add(inputs.answer)?,
        issuer: add(inputs.issuer)?,
        algorithm: add(contents(inputs.algorithm))?,
        name_hash: add(inputs.name_hash)?,
        key_hash: add(inputs.key_hash)?,
        serial: add(contents(inputs.serial_number))?,
    };
    let (mut responders, mut key_hash) = (Vec::new(), Vec::new());
    let mut out = OcspStatusAt::default();
    loop {
        match sys::safe::ocsp_status(&parts.octets, &at, &mut responders, &mut key_hash, &mut out) {
            Ok(()) => break,
            Err(fault) if fault.number == SHORT_BUFFER && responders.is_empty() && key_hash.is_empty() => {
                responders = vec![ResponderAt::default(); out.responder_count as usize];
                key_hash = vec![0; out.key_hash_len as usize];
            }
            Err(fault) => return Err(refusal(fault, out.step)),
        }
    }
    let status = match out.status {
        0 => CertStatus::Good,
        1 => CertStatus::Revoked(out.revocation_time),
        _ => CertStatus::Unknown,
    };
    Ok(OcspStatus {
        status,
        reason: Reason::of(out.reason),
        this_update: out.this_update,
        next_update: (out.next_update > 0).then_some(out.next_update),
        responders: responders.iter().map(|at| responder(&answer, at)).collect(),
        key_hash: (out.has_key_hash == 1).then_some(key_hash),
    })
}
