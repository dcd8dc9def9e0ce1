//! The rules of RFC 5280 that stand beyond the grammar.

use crate::place::read;
use crate::Error;
use der_proved_sys as sys;

/// Rules in the order of their bits, with the section of RFC 5280 that has each.
macro_rules! rules {
    ($(#[$doc:meta])* $name:ident { $($(#[$of:meta])* $rule:ident $section:literal)* }) => {
        $(#[$doc])*
        #[derive(Clone, Copy, Debug, PartialEq, Eq, Hash)]
        pub enum $name {
            $($(#[$of])* $rule,)*
        }

        impl $name {
            /// All rules.
            pub const ALL: &'static [$name] = &[$($name::$rule),*];

            /// The section of RFC 5280 that has the rule.
            pub fn section(self) -> &'static str {
                match self {
                    $($name::$rule => $section,)*
                }
            }
        }
    };
}

// written by tools/bindings: rules
rules! {
    /// A rule for certificates.
    CertificateRule {
        /// The algorithm within is the one outside (4.1.1.2, 4.1.2.3).
        AlgorithmsAgree "4.1.1.2"
        /// Extensions stand in version 3 alone (4.1.2.1).
        ExtensionsInVersion3 "4.1.2.1"
        /// The serial number is positive (4.1.2.2).
        SerialNumberIsPositive "4.1.2.2"
        /// The serial number has at most 20 octets (4.1.2.2).
        SerialNumberHasAtMost20Octets "4.1.2.2"
        /// The issuer is not empty (4.1.2.4).
        IssuerIsNotEmpty "4.1.2.4"
        /// Beside an empty subject stands a subjectAltName that is critical (4.1.2.6).
        EmptySubjectHasCriticalAltName "4.1.2.6"
        /// Unique identifiers stand in version 2 and 3 alone (4.1.2.8).
        UniqueIdentifiersInVersion2 "4.1.2.8"
        /// Each extension stands once (4.2).
        ExtensionsStandOnce "4.2"
        /// authorityKeyIdentifier is not critical (4.2.1.1).
        AuthorityKeyIdentifierIsNotCritical "4.2.1.1"
        /// subjectKeyIdentifier is not critical (4.2.1.2).
        SubjectKeyIdentifierIsNotCritical "4.2.1.2"
        /// subjectDirectoryAttributes is not critical (4.2.1.8).
        SubjectDirectoryAttributesIsNotCritical "4.2.1.8"
        /// freshestCRL is not critical (4.2.1.15).
        FreshestCrlIsNotCritical "4.2.1.15"
        /// authorityInfoAccess is not critical (4.2.2.1).
        AuthorityInfoAccessIsNotCritical "4.2.2.1"
        /// subjectInfoAccess is not critical (4.2.2.2).
        SubjectInfoAccessIsNotCritical "4.2.2.2"
        /// basicConstraints of a CA is critical (4.2.1.9).
        BasicConstraintsOfCaIsCritical "4.2.1.9"
        /// nameConstraints is critical (4.2.1.10).
        NameConstraintsIsCritical "4.2.1.10"
        /// policyConstraints is critical (4.2.1.11).
        PolicyConstraintsIsCritical "4.2.1.11"
        /// inhibitAnyPolicy is critical (4.2.1.14).
        InhibitAnyPolicyIsCritical "4.2.1.14"
        /// The version is 1, 2 or 3 (4.1.2.1).
        VersionIsKnown "4.1.2.1"
        /// notAfter is not before notBefore (4.1.2.5).
        ValidityIsNotEmpty "4.1.2.5"
        /// Dates through 2049 are UTCTimes (4.1.2.5).
        DatesThrough2049AreUtcTimes "4.1.2.5"
        /// The subject of a CA is not empty (4.1.2.6).
        SubjectOfCaIsNotEmpty "4.1.2.6"
        /// The texts of issuer and subject have the sizes of A.1 (A.1).
        TextsHaveSizes "A.1"
        /// The texts of issuer and subject have the string types of A.1 (A.1).
        TextsHaveStringTypes "A.1"
        /// PrintableStrings in issuer and subject have only their characters (B).
        PrintableStringsHaveTheirCharacters "B"
        /// Ed25519, Ed448, X25519 and X448 have no parameters (RFC 8410 section 3) (4.1.1.2, 4.1.2.7).
        CurvesHaveNoParameters "4.1.1.2"
        /// A CA has a subjectKeyIdentifier (4.2.1.2).
        CaHasSubjectKeyIdentifier "4.2.1.2"
        /// authorityKeyIdentifier has a keyIdentifier, unless the issuer is the subject (4.2.1.1).
        AuthorityHasKeyIdentifier "4.2.1.1"
        /// authorityCertIssuer and authorityCertSerialNumber stand together (A.2).
        AuthorityIssuerHasSerialNumber "A.2"
        /// A CA has a keyUsage (4.2.1.3).
        CaHasKeyUsage "4.2.1.3"
        /// keyUsage has a bit that is set (4.2.1.3).
        KeyUsageHasABit "4.2.1.3"
        /// keyCertSign is set for a CA alone (4.2.1.3, 4.2.1.9).
        KeyCertSignOnlyInCa "4.2.1.3"
        /// pathLenConstraint stands beside cA and keyCertSign alone (4.2.1.9).
        PathLengthOnlyInCa "4.2.1.9"
        /// nameConstraints stands in the certificate of a CA alone (4.2.1.10).
        NameConstraintsOnlyInCa "4.2.1.10"
        /// nameConstraints is not empty (4.2.1.10).
        NameConstraintsIsNotEmpty "4.2.1.10"
        /// The subtrees of nameConstraints have the minimum 0 and no maximum (4.2.1.10).
        NameConstraintsHasNoDistances "4.2.1.10"
        /// The iPAddresses of nameConstraints have 8 or 32 octets (4.2.1.10).
        ConstrainedAddressesHave8Or32Octets "4.2.1.10"
        /// policyConstraints is not empty (4.2.1.11).
        PolicyConstraintsIsNotEmpty "4.2.1.11"
        /// Each policy stands once (4.2.1.4).
        PoliciesStandOnce "4.2.1.4"
        /// anyPolicy is not mapped (4.2.1.5).
        AnyPolicyIsNotMapped "4.2.1.5"
        /// A dNSName of an alternative name has the preferred name syntax (4.2.1.6, 4.2.1.7).
        DnsNamesHaveSyntax "4.2.1.6"
        /// An rfc822Name of an alternative name is a mailbox (4.2.1.6, 4.2.1.7).
        MailboxesHaveSyntax "4.2.1.6"
        /// A URI of an alternative name has a scheme and a part after it (4.2.1.6, 4.2.1.7).
        UrisHaveSchemes "4.2.1.6"
        /// An iPAddress of an alternative name has 4 or 16 octets (4.2.1.6, 4.2.1.7).
        AddressesHave4Or16Octets "4.2.1.6"
        /// Each point of cRLDistributionPoints has a distributionPoint or a cRLIssuer (4.2.1.13).
        PointsHaveNames "4.2.1.13"
    }
}

rules! {
    /// A rule for lists of revoked certificates.
    ListRule {
        /// The algorithm within is the one outside (5.1.1.2, 5.1.2.2).
        AlgorithmsAgree "5.1.1.2"
        /// Extensions, of the list or of an entry, stand in version 2 alone (5.1.2.1).
        ExtensionsInVersion2 "5.1.2.1"
        /// The issuer is not empty (5.1.2.3).
        IssuerIsNotEmpty "5.1.2.3"
        /// nextUpdate is there (5.1.2.5).
        NextUpdateIsThere "5.1.2.5"
        /// A list of no revoked certificates is absent (5.1.2.6).
        EmptyListIsAbsent "5.1.2.6"
        /// Each extension of the list stands once (5.2, 4.2).
        ExtensionsStandOnce "5.2"
        /// cRLNumber is not critical (5.2.3).
        CrlNumberIsNotCritical "5.2.3"
        /// deltaCRLIndicator is critical (5.2.4).
        DeltaCrlIndicatorIsCritical "5.2.4"
        /// issuingDistributionPoint is critical (5.2.5).
        IssuingDistributionPointIsCritical "5.2.5"
        /// freshestCRL is not critical (5.2.6).
        FreshestCrlIsNotCritical "5.2.6"
        /// authorityInfoAccess is not critical (5.2.7).
        AuthorityInfoAccessIsNotCritical "5.2.7"
        /// reasonCode of an entry is not critical (5.3.1).
        ReasonCodeIsNotCritical "5.3.1"
        /// invalidityDate of an entry is not critical (5.3.2).
        InvalidityDateIsNotCritical "5.3.2"
        /// certificateIssuer of an entry is critical (5.3.3).
        CertificateIssuerIsCritical "5.3.3"
        /// The version is 2 or absent (5.1.2.1).
        VersionIs2 "5.1.2.1"
        /// Dates through 2049 are UTCTimes (5.1.2.4, 5.1.2.5, 5.1.2.6).
        DatesThrough2049AreUtcTimes "5.1.2.4"
        /// authorityKeyIdentifier has a keyIdentifier (5.2.1).
        AuthorityHasKeyIdentifier "5.2.1"
        /// cRLNumber is there (5.2.3).
        CrlNumberIsThere "5.2.3"
        /// cRLNumber is not negative, and has at most 20 octets (5.2.3).
        CrlNumberHasAtMost20Octets "5.2.3"
        /// issuingDistributionPoint is not empty (5.2.5).
        IssuingDistributionPointIsNotEmpty "5.2.5"
        /// issuingDistributionPoint has at most one kind of certificates (5.2.5).
        IssuingDistributionPointHasOneKind "5.2.5"
        /// Each extension of an entry stands once (5.3, 4.2).
        EntryExtensionsStandOnce "5.3"
        /// removeFromCRL stands in a delta list alone (5.3.1).
        RemoveFromCrlOnlyInDelta "5.3.1"
    }
}
// end of rules

/// The rules that are broken, in their order.
#[derive(Clone, Debug)]
pub struct BrokenRules<R: 'static> {
    bits: u64,
    left: &'static [R],
}

impl<R: Copy> BrokenRules<R> {
    /// Whether no rule is broken that is not told yet.
    pub fn is_empty(&self) -> bool {
        self.bits == 0
    }
}

impl<R: Copy> Iterator for BrokenRules<R> {
    type Item = R;

    fn next(&mut self) -> Option<R> {
        loop {
            let (rule, left) = self.left.split_first()?;
            let is_broken = self.bits & 1 == 1;
            (self.bits, self.left) = (self.bits >> 1, left);
            if is_broken {
                return Some(*rule);
            }
        }
    }
}

/// The rules that a certificate breaks, which all of the octets are.
///
/// # Errors
/// The first fault of the octets.
pub fn check_rfc5280(octets: &[u8]) -> Result<BrokenRules<CertificateRule>, Error> {
    let bits = read(sys::safe::check_rfc5280, octets)?;
    Ok(BrokenRules { bits, left: CertificateRule::ALL })
}

/// The rules that a list of revoked certificates breaks, which all of the octets are.
///
/// # Errors
/// The first fault of the octets.
pub fn check_rfc5280_list(octets: &[u8]) -> Result<BrokenRules<ListRule>, Error> {
    let bits = read(sys::safe::check_rfc5280_list, octets)?;
    Ok(BrokenRules { bits, left: ListRule::ALL })
}
