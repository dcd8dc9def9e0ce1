//! Chains of certificates (RFC 5280 section 6.1).

use crate::parts::Parts;
use crate::steps::steps;
use crate::{contents, encode, encodings, AlgorithmIdentifier, Error, SubjectPublicKeyInfo};
use alloc::vec;
use alloc::vec::Vec;
use core::fmt;
use der_proved_sys as sys;
use sys::{Fault, PathAt, Place, VerificationAt};

/// `DER_SHORT_BUFFER`, `DER_STEP_REFUSES`, `DER_EXTENSION_UNREAD` and `DER_EMPTY_CHAIN` of `der.h`.
const SHORT_BUFFER: u32 = 103;
const STEP_REFUSES: u32 = 104;
const EXTENSION_UNREAD: u32 = 105;
const EMPTY_CHAIN: u32 = 106;

/// The inputs of the validation of a chain, beside the chain (RFC 5280 6.1.1).
#[derive(Clone, Copy, Debug, Default)]
pub struct PathInputs<'a> {
    /// (b): the moment, in seconds from 1970-01-01T00:00:00Z.
    pub moment: u64,
    /// (d)(1): the Name of the trust anchor, such as the subject of a certificate that is trusted.
    pub anchor_name: &'a [u8],
    /// (d)(2) to (4): its SubjectPublicKeyInfo.
    pub anchor_key: &'a [u8],
    /// (c): the policies of the user, each an OBJECT IDENTIFIER; none: any policy.
    pub policies: &'a [&'a [u8]],
    /// (h), (i): the names that are permitted and excluded at first, as a NameConstraints.
    pub constraints: Option<&'a [u8]>,
    /// (e): initial-policy-mapping-inhibit.
    pub mapping_inhibit: bool,
    /// (f): initial-explicit-policy.
    pub explicit_policy: bool,
    /// (g): initial-any-policy-inhibit.
    pub any_policy_inhibit: bool,
}

/// What has to verify of a certificate (RFC 5280 6.1.3 (a)(1)): a signature by the key of the certificate before it, or
/// of the trust anchor.
#[derive(Clone, Copy, Debug, PartialEq, Eq)]
pub struct Verification<'a> {
    /// What the signature covers: `tbsCertificate`.
    pub signed: &'a [u8],
    /// `signatureAlgorithm`, an AlgorithmIdentifier.
    pub algorithm: &'a [u8],
    /// `signatureValue`, a BIT STRING.
    pub signature: &'a [u8],
    /// A SubjectPublicKeyInfo.
    pub key: &'a [u8],
    /// The key's own parameters, or those that it inherits (6.1.4 (d) to (f)).
    pub parameters: Option<&'a [u8]>,
}

impl Verification<'_> {
    /// The key as a SubjectPublicKeyInfo with its parameters, also where it inherits them.
    ///
    /// # Errors
    /// None, if the fields are those of `check_path`.
    pub fn working_key(&self) -> Result<Vec<u8>, Error> {
        let key = SubjectPublicKeyInfo::from_der(self.key)?;
        let algorithm = AlgorithmIdentifier::from_der(key.algorithm())?;
        if algorithm.parameters() == self.parameters || self.parameters.is_none() {
            return Ok(self.key.to_vec());
        }
        let algorithm = encode::sequence(&[algorithm.oid(), self.parameters.unwrap_or(&[])])?;
        encode::sequence(&[&algorithm, key.subject_public_key()])
    }

    /// The octets of the signature.
    pub fn signature_octets(&self) -> &[u8] {
        contents(self.signature).get(1..).unwrap_or(&[])
    }
}

/// What validation returns (RFC 5280 6.1.6). The chain is valid if each signature verifies, and no certificate is
/// revoked.
#[derive(Clone, Debug, PartialEq, Eq)]
pub struct ValidPath<'a> {
    /// What has to verify of each certificate, in their order.
    pub verifications: Vec<Verification<'a>>,
    /// The policies of the user that the chain is valid for, each an OBJECT IDENTIFIER.
    pub policies: Vec<Vec<u8>>,
}

steps! {
    /// The steps of RFC 5280 that refuse a certificate.
    Step {
        // written by tools/bindings: steps of certificates
        /// 6.1.3 (a)(2): the moment is outside the validity.
        Validity = 1,
        /// 6.1.3 (a)(4): the issuer is not the subject before it, or the anchor.
        Issuer = 2,
        /// 6.1.3 (b): a name is not within the permitted subtrees.
        Permitted = 3,
        /// 6.1.3 (c): a name is within an excluded subtree.
        Excluded = 4,
        /// 6.1.3 (f): no policy is left, and one is required.
        Policies = 5,
        /// 6.1.4 (a): anyPolicy is mapped.
        AnyPolicyIsMapped = 6,
        /// 6.1.4 (k): not of version 3, or not a CA's.
        Ca = 7,
        /// 6.1.4 (l): the chain is longer than a pathLenConstraint allows.
        PathLength = 8,
        /// 6.1.4 (n): keyUsage does not have keyCertSign.
        KeyUsage = 9,
        /// 6.1.4 (o): a critical extension is not processed.
        UnknownExtension = 10,
        /// 6.1.5 (f): the same of the last certificate.
        UnknownExtensionAtEnd = 11,
        /// 6.1.5 (g): no policy of the user is left, and one is required.
        UserPolicies = 12,
        // end of steps of certificates
    }
}

impl Step {
    /// The section and the letter of RFC 5280, such as `6.1.3 (a)(2)`.
    pub fn section(self) -> &'static str {
        sys::safe::step_text(self.number())
    }
}

/// Why a chain is refused. A certificate is named by its index, from 0.
#[derive(Clone, Copy, Debug, PartialEq, Eq)]
#[non_exhaustive]
pub enum PathError {
    /// There are no certificates.
    Empty,
    /// A step refuses a certificate.
    Refused(usize, Step),
    /// An extension of a certificate that section 6.1 processes stands twice, or cannot be read.
    Unread(usize),
    /// The octets at an index are no certificate; the position counts from their first.
    NotRead(usize, Error),
    /// An input is refused, or memory ran out.
    Input(Error),
}

impl fmt::Display for PathError {
    fn fmt(&self, f: &mut fmt::Formatter<'_>) -> fmt::Result {
        match self {
            PathError::Empty => f.write_str(sys::safe::number_text(EMPTY_CHAIN)),
            PathError::Refused(index, step) => write!(f, "certificate {index}: {} refuses it", step.section()),
            PathError::Unread(index) => write!(f, "certificate {index}: {}", sys::safe::number_text(EXTENSION_UNREAD)),
            PathError::NotRead(index, error) => write!(f, "certificate {index}: {error}"),
            PathError::Input(error) => write!(f, "an input: {error}"),
        }
    }
}

impl core::error::Error for PathError {}

/// The caller's octets at the places of a verification.
fn verification<'a>(parts: &Parts<'a>, at: &VerificationAt) -> Verification<'a> {
    Verification {
        signed: parts.at(at.signed_octets),
        algorithm: parts.at(at.algorithm),
        signature: parts.at(at.signature),
        key: parts.at(at.key),
        parameters: (at.parameters.length > 0).then(|| parts.at(at.parameters)),
    }
}

/// The refusal of a chain.
fn refusal(fault: Fault, out: &PathAt, chain: &[Place]) -> PathError {
    let index = out.refused_index as usize;
    match (fault.number, Step::of(out.step), chain.get(index)) {
        (STEP_REFUSES, Some(step), _) => PathError::Refused(index, step),
        (EXTENSION_UNREAD, _, _) => PathError::Unread(index),
        (EMPTY_CHAIN, _, _) => PathError::Empty,
        (_, _, Some(one)) => {
            let position = fault.position.saturating_sub(one.offset);
            PathError::NotRead(index, Error::of(Fault { position, ..fault }))
        }
        _ => PathError::Input(Error::of(Fault { is_placed: 0, ..fault })),
    }
}

/// Validates a chain of certificates, from the one that the trust anchor issued to the end certificate (RFC 5280 6.1,
/// with the policies of RFC 9618). The chain is valid if then each signature verifies, and no certificate is revoked.
///
/// # Errors
/// The first step that refuses a certificate, or what cannot be read.
pub fn check_path<'a>(inputs: &PathInputs<'a>, chain: &[&'a [u8]]) -> Result<ValidPath<'a>, PathError> {
    let mut parts = Parts::default();
    let mut add = |octets| parts.add(octets).map_err(PathError::Input);
    let policies = inputs.policies.concat();
    let at = sys::PathInputs {
        moment: inputs.moment,
        anchor_name: add(inputs.anchor_name)?,
        anchor_key: add(inputs.anchor_key)?,
        constraints: inputs.constraints.map_or(Ok(Place::default()), &mut add)?,
        mapping_inhibit: u32::from(inputs.mapping_inhibit),
        explicit_policy: u32::from(inputs.explicit_policy),
        any_policy_inhibit: u32::from(inputs.any_policy_inhibit),
        ..sys::PathInputs::default()
    };
    let places = chain.iter().map(|one| add(one)).collect::<Result<Vec<_>, _>>()?;
    let (offset, length) = (parts.octets.len() as u32, policies.len() as u32);
    parts.octets.extend_from_slice(&policies);
    let at = sys::PathInputs { policies: Place { offset, length }, ..at };
    let mut verifications = vec![VerificationAt::default(); chain.len()];
    let (mut out, mut room) = (PathAt::default(), Vec::new());
    loop {
        match sys::safe::check_path(&parts.octets, &at, &places, &mut verifications, &mut room, &mut out) {
            Ok(()) => break,
            Err(fault) if fault.number == SHORT_BUFFER && room.len() < out.policies_len as usize => {
                room.resize(out.policies_len as usize, 0);
            }
            Err(fault) => return Err(refusal(fault, &out, &places)),
        }
    }
    let verifications = verifications.iter().map(|at| verification(&parts, at)).collect();
    let policies = encode::sequence(&[&room]).map_err(PathError::Input)?;
    Ok(ValidPath { verifications, policies: encodings(&policies).map(<[u8]>::to_vec).collect() })
}
