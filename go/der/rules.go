package der

// #include <barleypulley/der.h>
import "C"

// written by tools/bindings: rules

// CertificateRules are rules of RFC 5280 for certificates that stand beyond the grammar, as bits.
type CertificateRules uint64

const (
	// CertificateAlgorithmsAgree: the algorithm within is the one outside (4.1.1.2, 4.1.2.3).
	CertificateAlgorithmsAgree CertificateRules = 1 << iota
	// CertificateExtensionsInVersion3: extensions stand in version 3 alone (4.1.2.1).
	CertificateExtensionsInVersion3
	// CertificateSerialNumberIsPositive: the serial number is positive (4.1.2.2).
	CertificateSerialNumberIsPositive
	// CertificateSerialNumberHasAtMost20Octets: the serial number has at most 20 octets (4.1.2.2).
	CertificateSerialNumberHasAtMost20Octets
	// CertificateIssuerIsNotEmpty: the issuer is not empty (4.1.2.4).
	CertificateIssuerIsNotEmpty
	// CertificateEmptySubjectHasCriticalAltName: beside an empty subject stands a subjectAltName that is critical (4.1.2.6).
	CertificateEmptySubjectHasCriticalAltName
	// CertificateUniqueIdentifiersInVersion2: unique identifiers stand in version 2 and 3 alone (4.1.2.8).
	CertificateUniqueIdentifiersInVersion2
	// CertificateExtensionsStandOnce: each extension stands once (4.2).
	CertificateExtensionsStandOnce
	// CertificateAuthorityKeyIdentifierIsNotCritical: authorityKeyIdentifier is not critical (4.2.1.1).
	CertificateAuthorityKeyIdentifierIsNotCritical
	// CertificateSubjectKeyIdentifierIsNotCritical: subjectKeyIdentifier is not critical (4.2.1.2).
	CertificateSubjectKeyIdentifierIsNotCritical
	// CertificateSubjectDirectoryAttributesIsNotCritical: subjectDirectoryAttributes is not critical (4.2.1.8).
	CertificateSubjectDirectoryAttributesIsNotCritical
	// CertificateFreshestCrlIsNotCritical: freshestCRL is not critical (4.2.1.15).
	CertificateFreshestCrlIsNotCritical
	// CertificateAuthorityInfoAccessIsNotCritical: authorityInfoAccess is not critical (4.2.2.1).
	CertificateAuthorityInfoAccessIsNotCritical
	// CertificateSubjectInfoAccessIsNotCritical: subjectInfoAccess is not critical (4.2.2.2).
	CertificateSubjectInfoAccessIsNotCritical
	// CertificateBasicConstraintsOfCaIsCritical: basicConstraints of a CA is critical (4.2.1.9).
	CertificateBasicConstraintsOfCaIsCritical
	// CertificateNameConstraintsIsCritical: nameConstraints is critical (4.2.1.10).
	CertificateNameConstraintsIsCritical
	// CertificatePolicyConstraintsIsCritical: policyConstraints is critical (4.2.1.11).
	CertificatePolicyConstraintsIsCritical
	// CertificateInhibitAnyPolicyIsCritical: inhibitAnyPolicy is critical (4.2.1.14).
	CertificateInhibitAnyPolicyIsCritical
	// CertificateVersionIsKnown: the version is 1, 2 or 3 (4.1.2.1).
	CertificateVersionIsKnown
	// CertificateValidityIsNotEmpty: notAfter is not before notBefore (4.1.2.5).
	CertificateValidityIsNotEmpty
	// CertificateDatesThrough2049AreUtcTimes: dates through 2049 are UTCTimes (4.1.2.5).
	CertificateDatesThrough2049AreUtcTimes
	// CertificateSubjectOfCaIsNotEmpty: the subject of a CA is not empty (4.1.2.6).
	CertificateSubjectOfCaIsNotEmpty
	// CertificateTextsHaveSizes: the texts of issuer and subject have the sizes of A.1 (A.1).
	CertificateTextsHaveSizes
	// CertificateTextsHaveStringTypes: the texts of issuer and subject have the string types of A.1 (A.1).
	CertificateTextsHaveStringTypes
	// CertificatePrintableStringsHaveTheirCharacters: printableStrings in issuer and subject have only their characters (B).
	CertificatePrintableStringsHaveTheirCharacters
	// CertificateCurvesHaveNoParameters: ed25519, Ed448, X25519 and X448 have no parameters (RFC 8410 section 3) (4.1.1.2, 4.1.2.7).
	CertificateCurvesHaveNoParameters
	// CertificateCaHasSubjectKeyIdentifier: a CA has a subjectKeyIdentifier (4.2.1.2).
	CertificateCaHasSubjectKeyIdentifier
	// CertificateAuthorityHasKeyIdentifier: authorityKeyIdentifier has a keyIdentifier, unless the issuer is the subject (4.2.1.1).
	CertificateAuthorityHasKeyIdentifier
	// CertificateAuthorityIssuerHasSerialNumber: authorityCertIssuer and authorityCertSerialNumber stand together (A.2).
	CertificateAuthorityIssuerHasSerialNumber
	// CertificateCaHasKeyUsage: a CA has a keyUsage (4.2.1.3).
	CertificateCaHasKeyUsage
	// CertificateKeyUsageHasABit: keyUsage has a bit that is set (4.2.1.3).
	CertificateKeyUsageHasABit
	// CertificateKeyCertSignOnlyInCa: keyCertSign is set for a CA alone (4.2.1.3, 4.2.1.9).
	CertificateKeyCertSignOnlyInCa
	// CertificatePathLengthOnlyInCa: pathLenConstraint stands beside cA and keyCertSign alone (4.2.1.9).
	CertificatePathLengthOnlyInCa
	// CertificateNameConstraintsOnlyInCa: nameConstraints stands in the certificate of a CA alone (4.2.1.10).
	CertificateNameConstraintsOnlyInCa
	// CertificateNameConstraintsIsNotEmpty: nameConstraints is not empty (4.2.1.10).
	CertificateNameConstraintsIsNotEmpty
	// CertificateNameConstraintsHasNoDistances: the subtrees of nameConstraints have the minimum 0 and no maximum (4.2.1.10).
	CertificateNameConstraintsHasNoDistances
	// CertificateConstrainedAddressesHave8Or32Octets: the iPAddresses of nameConstraints have 8 or 32 octets (4.2.1.10).
	CertificateConstrainedAddressesHave8Or32Octets
	// CertificatePolicyConstraintsIsNotEmpty: policyConstraints is not empty (4.2.1.11).
	CertificatePolicyConstraintsIsNotEmpty
	// CertificatePoliciesStandOnce: each policy stands once (4.2.1.4).
	CertificatePoliciesStandOnce
	// CertificateAnyPolicyIsNotMapped: anyPolicy is not mapped (4.2.1.5).
	CertificateAnyPolicyIsNotMapped
	// CertificateDnsNamesHaveSyntax: a dNSName of an alternative name has the preferred name syntax (4.2.1.6, 4.2.1.7).
	CertificateDnsNamesHaveSyntax
	// CertificateMailboxesHaveSyntax: an rfc822Name of an alternative name is a mailbox (4.2.1.6, 4.2.1.7).
	CertificateMailboxesHaveSyntax
	// CertificateUrisHaveSchemes: a URI of an alternative name has a scheme and a part after it (4.2.1.6, 4.2.1.7).
	CertificateUrisHaveSchemes
	// CertificateAddressesHave4Or16Octets: an iPAddress of an alternative name has 4 or 16 octets (4.2.1.6, 4.2.1.7).
	CertificateAddressesHave4Or16Octets
	// CertificatePointsHaveNames: each point of cRLDistributionPoints has a distributionPoint or a cRLIssuer (4.2.1.13).
	CertificatePointsHaveNames
)

// ListRules are those for lists of revoked certificates.
type ListRules uint64

const (
	// ListAlgorithmsAgree: the algorithm within is the one outside (5.1.1.2, 5.1.2.2).
	ListAlgorithmsAgree ListRules = 1 << iota
	// ListExtensionsInVersion2: extensions, of the list or of an entry, stand in version 2 alone (5.1.2.1).
	ListExtensionsInVersion2
	// ListIssuerIsNotEmpty: the issuer is not empty (5.1.2.3).
	ListIssuerIsNotEmpty
	// ListNextUpdateIsThere: nextUpdate is there (5.1.2.5).
	ListNextUpdateIsThere
	// ListEmptyListIsAbsent: a list of no revoked certificates is absent (5.1.2.6).
	ListEmptyListIsAbsent
	// ListExtensionsStandOnce: each extension of the list stands once (5.2, 4.2).
	ListExtensionsStandOnce
	// ListCrlNumberIsNotCritical: cRLNumber is not critical (5.2.3).
	ListCrlNumberIsNotCritical
	// ListDeltaCrlIndicatorIsCritical: deltaCRLIndicator is critical (5.2.4).
	ListDeltaCrlIndicatorIsCritical
	// ListIssuingDistributionPointIsCritical: issuingDistributionPoint is critical (5.2.5).
	ListIssuingDistributionPointIsCritical
	// ListFreshestCrlIsNotCritical: freshestCRL is not critical (5.2.6).
	ListFreshestCrlIsNotCritical
	// ListAuthorityInfoAccessIsNotCritical: authorityInfoAccess is not critical (5.2.7).
	ListAuthorityInfoAccessIsNotCritical
	// ListReasonCodeIsNotCritical: reasonCode of an entry is not critical (5.3.1).
	ListReasonCodeIsNotCritical
	// ListInvalidityDateIsNotCritical: invalidityDate of an entry is not critical (5.3.2).
	ListInvalidityDateIsNotCritical
	// ListCertificateIssuerIsCritical: certificateIssuer of an entry is critical (5.3.3).
	ListCertificateIssuerIsCritical
	// ListVersionIs2: the version is 2 or absent (5.1.2.1).
	ListVersionIs2
	// ListDatesThrough2049AreUtcTimes: dates through 2049 are UTCTimes (5.1.2.4, 5.1.2.5, 5.1.2.6).
	ListDatesThrough2049AreUtcTimes
	// ListAuthorityHasKeyIdentifier: authorityKeyIdentifier has a keyIdentifier (5.2.1).
	ListAuthorityHasKeyIdentifier
	// ListCrlNumberIsThere: cRLNumber is there (5.2.3).
	ListCrlNumberIsThere
	// ListCrlNumberHasAtMost20Octets: cRLNumber is not negative, and has at most 20 octets (5.2.3).
	ListCrlNumberHasAtMost20Octets
	// ListIssuingDistributionPointIsNotEmpty: issuingDistributionPoint is not empty (5.2.5).
	ListIssuingDistributionPointIsNotEmpty
	// ListIssuingDistributionPointHasOneKind: issuingDistributionPoint has at most one kind of certificates (5.2.5).
	ListIssuingDistributionPointHasOneKind
	// ListEntryExtensionsStandOnce: each extension of an entry stands once (5.3, 4.2).
	ListEntryExtensionsStandOnce
	// ListRemoveFromCrlOnlyInDelta: removeFromCRL stands in a delta list alone (5.3.1).
	ListRemoveFromCrlOnlyInDelta
)

// end of rules

// CheckRFC5280 gives the rules that a certificate breaks, which all of the octets are; 0 for none.
func CheckRFC5280(octets []byte) (CertificateRules, error) {
	var broken C.uint64_t
	var fault C.der_fault
	address, count := first(octets)
	if err := answered(C.der_check_rfc5280(address, count, &broken, &fault), &fault); err != nil {
		return 0, err
	}
	return CertificateRules(broken), nil
}

// CheckRFC5280List gives the rules that a list of revoked certificates breaks, which all of the octets are; 0 for none.
func CheckRFC5280List(octets []byte) (ListRules, error) {
	var broken C.uint64_t
	var fault C.der_fault
	address, count := first(octets)
	if err := answered(C.der_check_rfc5280_list(address, count, &broken, &fault), &fault); err != nil {
		return 0, err
	}
	return ListRules(broken), nil
}
