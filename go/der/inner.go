package der

// #include <barleypulley/der.h>
import "C"

import (
	"fmt"
	"io"
)

// written by tools/bindings: messages

// AlgorithmIdentifier is an algorithm identifier (AlgorithmIdentifier, RFC 5280 4.1.1.2).
type AlgorithmIdentifier struct {
	octets []byte
	at     C.der_algorithm_identifier_at
}

// ReadAlgorithmIdentifier reads all octets as an algorithm identifier. They must not change as long as the result is
// used.
func ReadAlgorithmIdentifier(octets []byte) (*AlgorithmIdentifier, error) {
	read := reading[AlgorithmIdentifier]{it: AlgorithmIdentifier{octets: octets}}
	address, count := first(octets)
	if err := answered(C.der_algorithm_identifier(address, count, &read.it.at, &read.fault), &read.fault); err != nil {
		return nil, err
	}
	return &read.it, nil
}

// Oid returns oid, an OBJECT IDENTIFIER.
func (a *AlgorithmIdentifier) Oid() []byte { return at(a.octets, a.at.oid) }

// Parameters returns parameters, what the identifier defines; a NULL has the octets 05 00; nil if absent.
func (a *AlgorithmIdentifier) Parameters() []byte { return at(a.octets, a.at.parameters) }

// RSASSAPSSParams is a set of parameters of RSASSA-PSS (RSASSA-PSS-params, RFC 4055 3.1). An absent field has its
// default: SHA-1, MGF1 with SHA-1, 20 octets of salt, trailer field 1.
type RSASSAPSSParams struct {
	octets []byte
	at     C.der_rsassa_pss_params_at
}

// ReadRSASSAPSSParams reads all octets as a set of parameters of RSASSA-PSS. They must not change as long as the result
// is used.
func ReadRSASSAPSSParams(octets []byte) (*RSASSAPSSParams, error) {
	read := reading[RSASSAPSSParams]{it: RSASSAPSSParams{octets: octets}}
	address, count := first(octets)
	if err := answered(C.der_rsassa_pss_params(address, count, &read.it.at, &read.fault), &read.fault); err != nil {
		return nil, err
	}
	return &read.it, nil
}

// HashAlgorithm returns hashAlgorithm, an AlgorithmIdentifier, with the explicit tag [0]; nil if absent.
func (r *RSASSAPSSParams) HashAlgorithm() []byte { return at(r.octets, r.at.hash_algorithm) }

// MaskGenAlgorithm returns maskGenAlgorithm, an AlgorithmIdentifier, with the explicit tag [1]; nil if absent.
func (r *RSASSAPSSParams) MaskGenAlgorithm() []byte { return at(r.octets, r.at.mask_gen_algorithm) }

// SaltLength returns saltLength, an INTEGER, with the explicit tag [2]; nil if absent.
func (r *RSASSAPSSParams) SaltLength() []byte { return at(r.octets, r.at.salt_length) }

// TrailerField returns trailerField, an INTEGER, with the explicit tag [3]; absent where it is the default, 1; nil if
// absent.
func (r *RSASSAPSSParams) TrailerField() []byte { return at(r.octets, r.at.trailer_field) }

// ECDSASigValue is an ECDSA signature (ECDSA-Sig-Value, RFC 3279 2.2.3).
type ECDSASigValue struct {
	octets []byte
	at     C.der_ecdsa_sig_value_at
}

// ReadECDSASigValue reads all octets as an ECDSA signature. They must not change as long as the result is used.
func ReadECDSASigValue(octets []byte) (*ECDSASigValue, error) {
	read := reading[ECDSASigValue]{it: ECDSASigValue{octets: octets}}
	address, count := first(octets)
	if err := answered(C.der_ecdsa_sig_value(address, count, &read.it.at, &read.fault), &read.fault); err != nil {
		return nil, err
	}
	return &read.it, nil
}

// R returns r, an INTEGER.
func (e *ECDSASigValue) R() []byte { return at(e.octets, e.at.r) }

// S returns s, an INTEGER.
func (e *ECDSASigValue) S() []byte { return at(e.octets, e.at.s) }

// PBES2Params is a set of parameters of PBES2 (PBES2-params, RFC 8018 A.4).
type PBES2Params struct {
	octets []byte
	at     C.der_pbes2_params_at
}

// ReadPBES2Params reads all octets as a set of parameters of PBES2. They must not change as long as the result is used.
func ReadPBES2Params(octets []byte) (*PBES2Params, error) {
	read := reading[PBES2Params]{it: PBES2Params{octets: octets}}
	address, count := first(octets)
	if err := answered(C.der_pbes2_params(address, count, &read.it.at, &read.fault), &read.fault); err != nil {
		return nil, err
	}
	return &read.it, nil
}

// KeyDerivationFunc returns keyDerivationFunc, an AlgorithmIdentifier.
func (p *PBES2Params) KeyDerivationFunc() []byte { return at(p.octets, p.at.key_derivation_func) }

// EncryptionScheme returns encryptionScheme, an AlgorithmIdentifier.
func (p *PBES2Params) EncryptionScheme() []byte { return at(p.octets, p.at.encryption_scheme) }

// PBKDF2Params is a set of parameters of PBKDF2 (PBKDF2-params, RFC 8018 A.2).
type PBKDF2Params struct {
	octets []byte
	at     C.der_pbkdf2_params_at
}

// ReadPBKDF2Params reads all octets as a set of parameters of PBKDF2. They must not change as long as the result is
// used.
func ReadPBKDF2Params(octets []byte) (*PBKDF2Params, error) {
	read := reading[PBKDF2Params]{it: PBKDF2Params{octets: octets}}
	address, count := first(octets)
	if err := answered(C.der_pbkdf2_params(address, count, &read.it.at, &read.fault), &read.fault); err != nil {
		return nil, err
	}
	return &read.it, nil
}

// Salt returns salt, a CHOICE: an OCTET STRING, or an AlgorithmIdentifier.
func (p *PBKDF2Params) Salt() []byte { return at(p.octets, p.at.salt) }

// IterationCount returns iterationCount, an INTEGER.
func (p *PBKDF2Params) IterationCount() []byte { return at(p.octets, p.at.iteration_count) }

// KeyLength returns keyLength, an INTEGER; nil if absent.
func (p *PBKDF2Params) KeyLength() []byte { return at(p.octets, p.at.key_length) }

// Prf returns prf, an AlgorithmIdentifier; nil if absent.
func (p *PBKDF2Params) Prf() []byte { return at(p.octets, p.at.prf) }

// RSAPublicKey is a public key of RSA (RSAPublicKey, RFC 8017 A.1.1).
type RSAPublicKey struct {
	octets []byte
	at     C.der_rsa_public_key_at
}

// ReadRSAPublicKey reads all octets as a public key of RSA. They must not change as long as the result is used.
func ReadRSAPublicKey(octets []byte) (*RSAPublicKey, error) {
	read := reading[RSAPublicKey]{it: RSAPublicKey{octets: octets}}
	address, count := first(octets)
	if err := answered(C.der_rsa_public_key(address, count, &read.it.at, &read.fault), &read.fault); err != nil {
		return nil, err
	}
	return &read.it, nil
}

// Modulus returns modulus, an INTEGER.
func (r *RSAPublicKey) Modulus() []byte { return at(r.octets, r.at.modulus) }

// PublicExponent returns publicExponent, an INTEGER.
func (r *RSAPublicKey) PublicExponent() []byte { return at(r.octets, r.at.public_exponent) }

// RSAPrivateKey is a private key of RSA (RSAPrivateKey, RFC 8017 A.1.2).
type RSAPrivateKey struct {
	octets []byte
	at     C.der_rsa_private_key_at
}

// ReadRSAPrivateKey reads all octets as a private key of RSA. They must not change as long as the result is used.
func ReadRSAPrivateKey(octets []byte) (*RSAPrivateKey, error) {
	read := reading[RSAPrivateKey]{it: RSAPrivateKey{octets: octets}}
	address, count := first(octets)
	if err := answered(C.der_rsa_private_key(address, count, &read.it.at, &read.fault), &read.fault); err != nil {
		return nil, err
	}
	return &read.it, nil
}

// Version returns version, an INTEGER.
func (r *RSAPrivateKey) Version() []byte { return at(r.octets, r.at.version) }

// Modulus returns modulus, an INTEGER.
func (r *RSAPrivateKey) Modulus() []byte { return at(r.octets, r.at.modulus) }

// PublicExponent returns publicExponent, an INTEGER.
func (r *RSAPrivateKey) PublicExponent() []byte { return at(r.octets, r.at.public_exponent) }

// PrivateExponent returns privateExponent, an INTEGER.
func (r *RSAPrivateKey) PrivateExponent() []byte { return at(r.octets, r.at.private_exponent) }

// Prime1 returns prime1, an INTEGER.
func (r *RSAPrivateKey) Prime1() []byte { return at(r.octets, r.at.prime1) }

// Prime2 returns prime2, an INTEGER.
func (r *RSAPrivateKey) Prime2() []byte { return at(r.octets, r.at.prime2) }

// Exponent1 returns exponent1, an INTEGER.
func (r *RSAPrivateKey) Exponent1() []byte { return at(r.octets, r.at.exponent1) }

// Exponent2 returns exponent2, an INTEGER.
func (r *RSAPrivateKey) Exponent2() []byte { return at(r.octets, r.at.exponent2) }

// Coefficient returns coefficient, an INTEGER.
func (r *RSAPrivateKey) Coefficient() []byte { return at(r.octets, r.at.coefficient) }

// OtherPrimeInfos returns otherPrimeInfos, a SEQUENCE OF OtherPrimeInfo; nil if absent.
func (r *RSAPrivateKey) OtherPrimeInfos() []byte { return at(r.octets, r.at.other_prime_infos) }

// Format writes the name of the type, and nothing of the key.
func (r RSAPrivateKey) Format(state fmt.State, _ rune) {
	_, _ = io.WriteString(state, "der.RSAPrivateKey")
}

// ECPrivateKey is a private key of an elliptic curve (ECPrivateKey, RFC 5915 section 3).
type ECPrivateKey struct {
	octets []byte
	at     C.der_ec_private_key_at
}

// ReadECPrivateKey reads all octets as a private key of an elliptic curve. They must not change as long as the result
// is used.
func ReadECPrivateKey(octets []byte) (*ECPrivateKey, error) {
	read := reading[ECPrivateKey]{it: ECPrivateKey{octets: octets}}
	address, count := first(octets)
	if err := answered(C.der_ec_private_key(address, count, &read.it.at, &read.fault), &read.fault); err != nil {
		return nil, err
	}
	return &read.it, nil
}

// Version returns version, an INTEGER.
func (e *ECPrivateKey) Version() []byte { return at(e.octets, e.at.version) }

// PrivateKey returns privateKey, an OCTET STRING.
func (e *ECPrivateKey) PrivateKey() []byte { return at(e.octets, e.at.private_key) }

// Parameters returns parameters, a CHOICE: an OBJECT IDENTIFIER, which names the curve, a NULL, or the curve as a
// SEQUENCE, with the explicit tag [0]; nil if absent.
func (e *ECPrivateKey) Parameters() []byte { return at(e.octets, e.at.parameters) }

// PublicKey returns publicKey, a BIT STRING, with the explicit tag [1]; nil if absent.
func (e *ECPrivateKey) PublicKey() []byte { return at(e.octets, e.at.public_key) }

// Format writes the name of the type, and nothing of the key.
func (e ECPrivateKey) Format(state fmt.State, _ rune) {
	_, _ = io.WriteString(state, "der.ECPrivateKey")
}

// EncryptedPrivateKeyInfo is an encrypted private key (EncryptedPrivateKeyInfo, RFC 5958 section 3).
type EncryptedPrivateKeyInfo struct {
	octets []byte
	at     C.der_encrypted_private_key_info_at
}

// ReadEncryptedPrivateKeyInfo reads all octets as an encrypted private key. They must not change as long as the result
// is used.
func ReadEncryptedPrivateKeyInfo(octets []byte) (*EncryptedPrivateKeyInfo, error) {
	read := reading[EncryptedPrivateKeyInfo]{it: EncryptedPrivateKeyInfo{octets: octets}}
	address, count := first(octets)
	if err := answered(C.der_encrypted_private_key_info(address, count, &read.it.at, &read.fault), &read.fault); err != nil {
		return nil, err
	}
	return &read.it, nil
}

// EncryptionAlgorithm returns encryptionAlgorithm, an AlgorithmIdentifier.
func (e *EncryptedPrivateKeyInfo) EncryptionAlgorithm() []byte {
	return at(e.octets, e.at.encryption_algorithm)
}

// EncryptedData returns encryptedData, an OCTET STRING.
func (e *EncryptedPrivateKeyInfo) EncryptedData() []byte {
	return at(e.octets, e.at.encrypted_data)
}

// AuthorityKeyIdentifier is an authority key identifier (AuthorityKeyIdentifier, RFC 5280 4.2.1.1).
type AuthorityKeyIdentifier struct {
	octets []byte
	at     C.der_authority_key_identifier_at
}

// ReadAuthorityKeyIdentifier reads all octets as an authority key identifier. They must not change as long as the
// result is used.
func ReadAuthorityKeyIdentifier(octets []byte) (*AuthorityKeyIdentifier, error) {
	read := reading[AuthorityKeyIdentifier]{it: AuthorityKeyIdentifier{octets: octets}}
	address, count := first(octets)
	if err := answered(C.der_authority_key_identifier(address, count, &read.it.at, &read.fault), &read.fault); err != nil {
		return nil, err
	}
	return &read.it, nil
}

// KeyIdentifier returns keyIdentifier, an OCTET STRING, with the implicit tag [0]; nil if absent.
func (a *AuthorityKeyIdentifier) KeyIdentifier() []byte { return at(a.octets, a.at.key_identifier) }

// AuthorityCertIssuer returns authorityCertIssuer, a SEQUENCE OF GeneralName, with the implicit tag [1]; nil if absent.
func (a *AuthorityKeyIdentifier) AuthorityCertIssuer() []byte {
	return at(a.octets, a.at.authority_cert_issuer)
}

// AuthorityCertSerialNumber returns authorityCertSerialNumber, an INTEGER, with the implicit tag [2]; nil if absent.
func (a *AuthorityKeyIdentifier) AuthorityCertSerialNumber() []byte {
	return at(a.octets, a.at.authority_cert_serial_number)
}

// PolicyInformation is a certificate policy (PolicyInformation, RFC 5280 4.2.1.4).
type PolicyInformation struct {
	octets []byte
	at     C.der_policy_information_at
}

// ReadPolicyInformation reads all octets as a certificate policy. They must not change as long as the result is used.
func ReadPolicyInformation(octets []byte) (*PolicyInformation, error) {
	read := reading[PolicyInformation]{it: PolicyInformation{octets: octets}}
	address, count := first(octets)
	if err := answered(C.der_policy_information(address, count, &read.it.at, &read.fault), &read.fault); err != nil {
		return nil, err
	}
	return &read.it, nil
}

// PolicyIdentifier returns policyIdentifier, an OBJECT IDENTIFIER.
func (p *PolicyInformation) PolicyIdentifier() []byte {
	return at(p.octets, p.at.policy_identifier)
}

// PolicyQualifiers returns policyQualifiers, a SEQUENCE OF PolicyQualifierInfo; nil if absent.
func (p *PolicyInformation) PolicyQualifiers() []byte {
	return at(p.octets, p.at.policy_qualifiers)
}

// PolicyQualifierInfo is a policy qualifier (PolicyQualifierInfo, RFC 5280 4.2.1.4).
type PolicyQualifierInfo struct {
	octets []byte
	at     C.der_policy_qualifier_info_at
}

// ReadPolicyQualifierInfo reads all octets as a policy qualifier. They must not change as long as the result is used.
func ReadPolicyQualifierInfo(octets []byte) (*PolicyQualifierInfo, error) {
	read := reading[PolicyQualifierInfo]{it: PolicyQualifierInfo{octets: octets}}
	address, count := first(octets)
	if err := answered(C.der_policy_qualifier_info(address, count, &read.it.at, &read.fault), &read.fault); err != nil {
		return nil, err
	}
	return &read.it, nil
}

// PolicyQualifierId returns policyQualifierId, an OBJECT IDENTIFIER.
func (p *PolicyQualifierInfo) PolicyQualifierId() []byte {
	return at(p.octets, p.at.policy_qualifier_id)
}

// Qualifier returns qualifier, what policyQualifierId defines.
func (p *PolicyQualifierInfo) Qualifier() []byte { return at(p.octets, p.at.qualifier) }

// PolicyMapping is a policy mapping (PolicyMapping, RFC 5280 4.2.1.5).
type PolicyMapping struct {
	octets []byte
	at     C.der_policy_mapping_at
}

// ReadPolicyMapping reads all octets as a policy mapping. They must not change as long as the result is used.
func ReadPolicyMapping(octets []byte) (*PolicyMapping, error) {
	read := reading[PolicyMapping]{it: PolicyMapping{octets: octets}}
	address, count := first(octets)
	if err := answered(C.der_policy_mapping(address, count, &read.it.at, &read.fault), &read.fault); err != nil {
		return nil, err
	}
	return &read.it, nil
}

// IssuerDomainPolicy returns issuerDomainPolicy, an OBJECT IDENTIFIER.
func (p *PolicyMapping) IssuerDomainPolicy() []byte {
	return at(p.octets, p.at.issuer_domain_policy)
}

// SubjectDomainPolicy returns subjectDomainPolicy, an OBJECT IDENTIFIER.
func (p *PolicyMapping) SubjectDomainPolicy() []byte {
	return at(p.octets, p.at.subject_domain_policy)
}

// BasicConstraints is a set of basic constraints (BasicConstraints, RFC 5280 4.2.1.9).
type BasicConstraints struct {
	octets []byte
	at     C.der_basic_constraints_at
}

// ReadBasicConstraints reads all octets as a set of basic constraints. They must not change as long as the result is
// used.
func ReadBasicConstraints(octets []byte) (*BasicConstraints, error) {
	read := reading[BasicConstraints]{it: BasicConstraints{octets: octets}}
	address, count := first(octets)
	if err := answered(C.der_basic_constraints(address, count, &read.it.at, &read.fault), &read.fault); err != nil {
		return nil, err
	}
	return &read.it, nil
}

// CA returns cA, a BOOLEAN; absent where it is the default, FALSE; nil if absent.
func (b *BasicConstraints) CA() []byte { return at(b.octets, b.at.ca) }

// PathLenConstraint returns pathLenConstraint, an INTEGER; nil if absent.
func (b *BasicConstraints) PathLenConstraint() []byte {
	return at(b.octets, b.at.path_len_constraint)
}

// NameConstraints is a set of name constraints (NameConstraints, RFC 5280 4.2.1.10).
type NameConstraints struct {
	octets []byte
	at     C.der_name_constraints_at
}

// ReadNameConstraints reads all octets as a set of name constraints. They must not change as long as the result is
// used.
func ReadNameConstraints(octets []byte) (*NameConstraints, error) {
	read := reading[NameConstraints]{it: NameConstraints{octets: octets}}
	address, count := first(octets)
	if err := answered(C.der_name_constraints(address, count, &read.it.at, &read.fault), &read.fault); err != nil {
		return nil, err
	}
	return &read.it, nil
}

// PermittedSubtrees returns permittedSubtrees, a SEQUENCE OF GeneralSubtree, with the implicit tag [0]; nil if absent.
func (n *NameConstraints) PermittedSubtrees() []byte {
	return at(n.octets, n.at.permitted_subtrees)
}

// ExcludedSubtrees returns excludedSubtrees, a SEQUENCE OF GeneralSubtree, with the implicit tag [1]; nil if absent.
func (n *NameConstraints) ExcludedSubtrees() []byte { return at(n.octets, n.at.excluded_subtrees) }

// GeneralSubtree is a subtree of names (GeneralSubtree, RFC 5280 4.2.1.10).
type GeneralSubtree struct {
	octets []byte
	at     C.der_general_subtree_at
}

// ReadGeneralSubtree reads all octets as a subtree of names. They must not change as long as the result is used.
func ReadGeneralSubtree(octets []byte) (*GeneralSubtree, error) {
	read := reading[GeneralSubtree]{it: GeneralSubtree{octets: octets}}
	address, count := first(octets)
	if err := answered(C.der_general_subtree(address, count, &read.it.at, &read.fault), &read.fault); err != nil {
		return nil, err
	}
	return &read.it, nil
}

// Base returns base, a GeneralName.
func (g *GeneralSubtree) Base() []byte { return at(g.octets, g.at.base) }

// Minimum returns minimum, an INTEGER, with the implicit tag [0]; absent where it is the default, 0; nil if absent.
func (g *GeneralSubtree) Minimum() []byte { return at(g.octets, g.at.minimum) }

// Maximum returns maximum, an INTEGER, with the implicit tag [1]; nil if absent.
func (g *GeneralSubtree) Maximum() []byte { return at(g.octets, g.at.maximum) }

// PolicyConstraints is a set of policy constraints (PolicyConstraints, RFC 5280 4.2.1.11).
type PolicyConstraints struct {
	octets []byte
	at     C.der_policy_constraints_at
}

// ReadPolicyConstraints reads all octets as a set of policy constraints. They must not change as long as the result is
// used.
func ReadPolicyConstraints(octets []byte) (*PolicyConstraints, error) {
	read := reading[PolicyConstraints]{it: PolicyConstraints{octets: octets}}
	address, count := first(octets)
	if err := answered(C.der_policy_constraints(address, count, &read.it.at, &read.fault), &read.fault); err != nil {
		return nil, err
	}
	return &read.it, nil
}

// RequireExplicitPolicy returns requireExplicitPolicy, an INTEGER, with the implicit tag [0]; nil if absent.
func (p *PolicyConstraints) RequireExplicitPolicy() []byte {
	return at(p.octets, p.at.require_explicit_policy)
}

// InhibitPolicyMapping returns inhibitPolicyMapping, an INTEGER, with the implicit tag [1]; nil if absent.
func (p *PolicyConstraints) InhibitPolicyMapping() []byte {
	return at(p.octets, p.at.inhibit_policy_mapping)
}

// DistributionPoint is a distribution point (DistributionPoint, RFC 5280 4.2.1.13).
type DistributionPoint struct {
	octets []byte
	at     C.der_distribution_point_at
}

// ReadDistributionPoint reads all octets as a distribution point. They must not change as long as the result is used.
func ReadDistributionPoint(octets []byte) (*DistributionPoint, error) {
	read := reading[DistributionPoint]{it: DistributionPoint{octets: octets}}
	address, count := first(octets)
	if err := answered(C.der_distribution_point(address, count, &read.it.at, &read.fault), &read.fault); err != nil {
		return nil, err
	}
	return &read.it, nil
}

// DistributionPoint returns distributionPoint, a CHOICE of fullName, with the implicit tag [0], and
// nameRelativeToCRLIssuer, with [1], with the explicit tag [0]; nil if absent.
func (d *DistributionPoint) DistributionPoint() []byte {
	return at(d.octets, d.at.distribution_point)
}

// Reasons returns reasons, a BIT STRING, with the implicit tag [1]; nil if absent.
func (d *DistributionPoint) Reasons() []byte { return at(d.octets, d.at.reasons) }

// CRLIssuer returns cRLIssuer, a SEQUENCE OF GeneralName, with the implicit tag [2]; nil if absent.
func (d *DistributionPoint) CRLIssuer() []byte { return at(d.octets, d.at.crl_issuer) }

// AccessDescription is an access description (AccessDescription, RFC 5280 4.2.2.1).
type AccessDescription struct {
	octets []byte
	at     C.der_access_description_at
}

// ReadAccessDescription reads all octets as an access description. They must not change as long as the result is used.
func ReadAccessDescription(octets []byte) (*AccessDescription, error) {
	read := reading[AccessDescription]{it: AccessDescription{octets: octets}}
	address, count := first(octets)
	if err := answered(C.der_access_description(address, count, &read.it.at, &read.fault), &read.fault); err != nil {
		return nil, err
	}
	return &read.it, nil
}

// AccessMethod returns accessMethod, an OBJECT IDENTIFIER.
func (a *AccessDescription) AccessMethod() []byte { return at(a.octets, a.at.access_method) }

// AccessLocation returns accessLocation, a GeneralName.
func (a *AccessDescription) AccessLocation() []byte { return at(a.octets, a.at.access_location) }

// IssuingDistributionPoint is an issuing distribution point (IssuingDistributionPoint, RFC 5280 5.2.5).
type IssuingDistributionPoint struct {
	octets []byte
	at     C.der_issuing_distribution_point_at
}

// ReadIssuingDistributionPoint reads all octets as an issuing distribution point. They must not change as long as the
// result is used.
func ReadIssuingDistributionPoint(octets []byte) (*IssuingDistributionPoint, error) {
	read := reading[IssuingDistributionPoint]{it: IssuingDistributionPoint{octets: octets}}
	address, count := first(octets)
	if err := answered(C.der_issuing_distribution_point(address, count, &read.it.at, &read.fault), &read.fault); err != nil {
		return nil, err
	}
	return &read.it, nil
}

// DistributionPoint returns distributionPoint, a CHOICE of fullName, with the implicit tag [0], and
// nameRelativeToCRLIssuer, with [1], with the explicit tag [0]; nil if absent.
func (i *IssuingDistributionPoint) DistributionPoint() []byte {
	return at(i.octets, i.at.distribution_point)
}

// OnlyContainsUserCerts returns onlyContainsUserCerts, a BOOLEAN, with the implicit tag [1]; absent where it is the
// default, FALSE; nil if absent.
func (i *IssuingDistributionPoint) OnlyContainsUserCerts() []byte {
	return at(i.octets, i.at.only_contains_user_certs)
}

// OnlyContainsCACerts returns onlyContainsCACerts, a BOOLEAN, with the implicit tag [2]; absent where it is the
// default, FALSE; nil if absent.
func (i *IssuingDistributionPoint) OnlyContainsCACerts() []byte {
	return at(i.octets, i.at.only_contains_ca_certs)
}

// OnlySomeReasons returns onlySomeReasons, a BIT STRING, with the implicit tag [3]; nil if absent.
func (i *IssuingDistributionPoint) OnlySomeReasons() []byte {
	return at(i.octets, i.at.only_some_reasons)
}

// IndirectCRL returns indirectCRL, a BOOLEAN, with the implicit tag [4]; absent where it is the default, FALSE; nil if
// absent.
func (i *IssuingDistributionPoint) IndirectCRL() []byte { return at(i.octets, i.at.indirect_crl) }

// OnlyContainsAttributeCerts returns onlyContainsAttributeCerts, a BOOLEAN, with the implicit tag [5]; absent where it
// is the default, FALSE; nil if absent.
func (i *IssuingDistributionPoint) OnlyContainsAttributeCerts() []byte {
	return at(i.octets, i.at.only_contains_attribute_certs)
}

// OCSPRequest is an OCSP request (OCSPRequest, RFC 6960 4.1.1).
type OCSPRequest struct {
	octets []byte
	at     C.der_ocsp_request_at
}

// ReadOCSPRequest reads all octets as an OCSP request. They must not change as long as the result is used.
func ReadOCSPRequest(octets []byte) (*OCSPRequest, error) {
	read := reading[OCSPRequest]{it: OCSPRequest{octets: octets}}
	address, count := first(octets)
	if err := answered(C.der_ocsp_request(address, count, &read.it.at, &read.fault), &read.fault); err != nil {
		return nil, err
	}
	return &read.it, nil
}

// TBSRequest returns tbsRequest, a TBSRequest.
func (o *OCSPRequest) TBSRequest() []byte { return at(o.octets, o.at.tbs_request) }

// OptionalSignature returns optionalSignature, a Signature, with the explicit tag [0]; nil if absent.
func (o *OCSPRequest) OptionalSignature() []byte { return at(o.octets, o.at.optional_signature) }

// TBSRequest is a body of an OCSP request (TBSRequest, RFC 6960 4.1.1).
type TBSRequest struct {
	octets []byte
	at     C.der_tbs_request_at
}

// ReadTBSRequest reads all octets as a body of an OCSP request. They must not change as long as the result is used.
func ReadTBSRequest(octets []byte) (*TBSRequest, error) {
	read := reading[TBSRequest]{it: TBSRequest{octets: octets}}
	address, count := first(octets)
	if err := answered(C.der_tbs_request(address, count, &read.it.at, &read.fault), &read.fault); err != nil {
		return nil, err
	}
	return &read.it, nil
}

// Version returns version, an INTEGER, with the explicit tag [0]; absent where it is the default, v1; nil if absent.
func (t *TBSRequest) Version() []byte { return at(t.octets, t.at.version) }

// RequestorName returns requestorName, a GeneralName, with the explicit tag [1]; nil if absent.
func (t *TBSRequest) RequestorName() []byte { return at(t.octets, t.at.requestor_name) }

// RequestList returns requestList, a SEQUENCE OF Request.
func (t *TBSRequest) RequestList() []byte { return at(t.octets, t.at.request_list) }

// RequestExtensions returns requestExtensions, a SEQUENCE OF Extension, with the explicit tag [2]; nil if absent.
func (t *TBSRequest) RequestExtensions() []byte { return at(t.octets, t.at.request_extensions) }

// Request is a request about one certificate (Request, RFC 6960 4.1.1).
type Request struct {
	octets []byte
	at     C.der_request_at
}

// ReadRequest reads all octets as a request about one certificate. They must not change as long as the result is used.
func ReadRequest(octets []byte) (*Request, error) {
	read := reading[Request]{it: Request{octets: octets}}
	address, count := first(octets)
	if err := answered(C.der_request(address, count, &read.it.at, &read.fault), &read.fault); err != nil {
		return nil, err
	}
	return &read.it, nil
}

// ReqCert returns reqCert, a CertID.
func (r *Request) ReqCert() []byte { return at(r.octets, r.at.req_cert) }

// SingleRequestExtensions returns singleRequestExtensions, a SEQUENCE OF Extension, with the explicit tag [0]; nil if
// absent.
func (r *Request) SingleRequestExtensions() []byte {
	return at(r.octets, r.at.single_request_extensions)
}

// CertID is a certificate's identifier in OCSP (CertID, RFC 6960 4.1.1).
type CertID struct {
	octets []byte
	at     C.der_cert_id_at
}

// ReadCertID reads all octets as a certificate's identifier in OCSP. They must not change as long as the result is
// used.
func ReadCertID(octets []byte) (*CertID, error) {
	read := reading[CertID]{it: CertID{octets: octets}}
	address, count := first(octets)
	if err := answered(C.der_cert_id(address, count, &read.it.at, &read.fault), &read.fault); err != nil {
		return nil, err
	}
	return &read.it, nil
}

// HashAlgorithm returns hashAlgorithm, an AlgorithmIdentifier.
func (c *CertID) HashAlgorithm() []byte { return at(c.octets, c.at.hash_algorithm) }

// IssuerNameHash returns issuerNameHash, an OCTET STRING.
func (c *CertID) IssuerNameHash() []byte { return at(c.octets, c.at.issuer_name_hash) }

// IssuerKeyHash returns issuerKeyHash, an OCTET STRING.
func (c *CertID) IssuerKeyHash() []byte { return at(c.octets, c.at.issuer_key_hash) }

// SerialNumber returns serialNumber, an INTEGER.
func (c *CertID) SerialNumber() []byte { return at(c.octets, c.at.serial_number) }

// IssuerAndSerialNumber is an issuer and serial number (IssuerAndSerialNumber, RFC 5652 10.2.4).
type IssuerAndSerialNumber struct {
	octets []byte
	at     C.der_issuer_and_serial_number_at
}

// ReadIssuerAndSerialNumber reads all octets as an issuer and serial number. They must not change as long as the result
// is used.
func ReadIssuerAndSerialNumber(octets []byte) (*IssuerAndSerialNumber, error) {
	read := reading[IssuerAndSerialNumber]{it: IssuerAndSerialNumber{octets: octets}}
	address, count := first(octets)
	if err := answered(C.der_issuer_and_serial_number(address, count, &read.it.at, &read.fault), &read.fault); err != nil {
		return nil, err
	}
	return &read.it, nil
}

// Issuer returns issuer, a Name.
func (i *IssuerAndSerialNumber) Issuer() []byte { return at(i.octets, i.at.issuer) }

// SerialNumber returns serialNumber, an INTEGER.
func (i *IssuerAndSerialNumber) SerialNumber() []byte { return at(i.octets, i.at.serial_number) }

// EnvelopedData is an enveloped message (EnvelopedData, RFC 5652 6.1).
type EnvelopedData struct {
	octets []byte
	at     C.der_enveloped_data_at
}

// ReadEnvelopedData reads all octets as an enveloped message. They must not change as long as the result is used.
func ReadEnvelopedData(octets []byte) (*EnvelopedData, error) {
	read := reading[EnvelopedData]{it: EnvelopedData{octets: octets}}
	address, count := first(octets)
	if err := answered(C.der_enveloped_data(address, count, &read.it.at, &read.fault), &read.fault); err != nil {
		return nil, err
	}
	return &read.it, nil
}

// Version returns version, an INTEGER.
func (e *EnvelopedData) Version() []byte { return at(e.octets, e.at.version) }

// OriginatorInfo returns originatorInfo, an OriginatorInfo, with the implicit tag [0]; nil if absent.
func (e *EnvelopedData) OriginatorInfo() []byte { return at(e.octets, e.at.originator_info) }

// RecipientInfos returns recipientInfos, a SET OF RecipientInfo.
func (e *EnvelopedData) RecipientInfos() []byte { return at(e.octets, e.at.recipient_infos) }

// EncryptedContentInfo returns encryptedContentInfo, an EncryptedContentInfo.
func (e *EnvelopedData) EncryptedContentInfo() []byte {
	return at(e.octets, e.at.encrypted_content_info)
}

// UnprotectedAttrs returns unprotectedAttrs, a SET OF Attribute, with the implicit tag [1]; nil if absent.
func (e *EnvelopedData) UnprotectedAttrs() []byte { return at(e.octets, e.at.unprotected_attrs) }

// EncryptedContentInfo is an encrypted content (EncryptedContentInfo, RFC 5652 6.1).
type EncryptedContentInfo struct {
	octets []byte
	at     C.der_encrypted_content_info_at
}

// ReadEncryptedContentInfo reads all octets as an encrypted content. They must not change as long as the result is
// used.
func ReadEncryptedContentInfo(octets []byte) (*EncryptedContentInfo, error) {
	read := reading[EncryptedContentInfo]{it: EncryptedContentInfo{octets: octets}}
	address, count := first(octets)
	if err := answered(C.der_encrypted_content_info(address, count, &read.it.at, &read.fault), &read.fault); err != nil {
		return nil, err
	}
	return &read.it, nil
}

// ContentType returns contentType, an OBJECT IDENTIFIER.
func (e *EncryptedContentInfo) ContentType() []byte { return at(e.octets, e.at.content_type) }

// ContentEncryptionAlgorithm returns contentEncryptionAlgorithm, an AlgorithmIdentifier.
func (e *EncryptedContentInfo) ContentEncryptionAlgorithm() []byte {
	return at(e.octets, e.at.content_encryption_algorithm)
}

// EncryptedContent returns encryptedContent, an OCTET STRING, with the implicit tag [0]; nil if absent.
func (e *EncryptedContentInfo) EncryptedContent() []byte {
	return at(e.octets, e.at.encrypted_content)
}

// KeyTransRecipientInfo is a recipient with a key that is transported (KeyTransRecipientInfo, RFC 5652 6.2.1).
type KeyTransRecipientInfo struct {
	octets []byte
	at     C.der_key_trans_recipient_info_at
}

// ReadKeyTransRecipientInfo reads all octets as a recipient with a key that is transported. They must not change as
// long as the result is used.
func ReadKeyTransRecipientInfo(octets []byte) (*KeyTransRecipientInfo, error) {
	read := reading[KeyTransRecipientInfo]{it: KeyTransRecipientInfo{octets: octets}}
	address, count := first(octets)
	if err := answered(C.der_key_trans_recipient_info(address, count, &read.it.at, &read.fault), &read.fault); err != nil {
		return nil, err
	}
	return &read.it, nil
}

// Version returns version, an INTEGER.
func (k *KeyTransRecipientInfo) Version() []byte { return at(k.octets, k.at.version) }

// Rid returns rid, a CHOICE: an IssuerAndSerialNumber, or with its implicit tag [0] a key identifier.
func (k *KeyTransRecipientInfo) Rid() []byte { return at(k.octets, k.at.rid) }

// KeyEncryptionAlgorithm returns keyEncryptionAlgorithm, an AlgorithmIdentifier.
func (k *KeyTransRecipientInfo) KeyEncryptionAlgorithm() []byte {
	return at(k.octets, k.at.key_encryption_algorithm)
}

// EncryptedKey returns encryptedKey, an OCTET STRING.
func (k *KeyTransRecipientInfo) EncryptedKey() []byte { return at(k.octets, k.at.encrypted_key) }

// EncryptedData is an encrypted message (EncryptedData, RFC 5652 section 8).
type EncryptedData struct {
	octets []byte
	at     C.der_encrypted_data_at
}

// ReadEncryptedData reads all octets as an encrypted message. They must not change as long as the result is used.
func ReadEncryptedData(octets []byte) (*EncryptedData, error) {
	read := reading[EncryptedData]{it: EncryptedData{octets: octets}}
	address, count := first(octets)
	if err := answered(C.der_encrypted_data(address, count, &read.it.at, &read.fault), &read.fault); err != nil {
		return nil, err
	}
	return &read.it, nil
}

// Version returns version, an INTEGER.
func (e *EncryptedData) Version() []byte { return at(e.octets, e.at.version) }

// EncryptedContentInfo returns encryptedContentInfo, an EncryptedContentInfo.
func (e *EncryptedData) EncryptedContentInfo() []byte {
	return at(e.octets, e.at.encrypted_content_info)
}

// UnprotectedAttrs returns unprotectedAttrs, a SET OF Attribute, with the implicit tag [1]; nil if absent.
func (e *EncryptedData) UnprotectedAttrs() []byte { return at(e.octets, e.at.unprotected_attrs) }

// SigningCertificateV2 is a list of the certificates of a signer (SigningCertificateV2, RFC 5035 section 3).
type SigningCertificateV2 struct {
	octets []byte
	at     C.der_signing_certificate_v2_at
}

// ReadSigningCertificateV2 reads all octets as a list of the certificates of a signer. They must not change as long as
// the result is used.
func ReadSigningCertificateV2(octets []byte) (*SigningCertificateV2, error) {
	read := reading[SigningCertificateV2]{it: SigningCertificateV2{octets: octets}}
	address, count := first(octets)
	if err := answered(C.der_signing_certificate_v2(address, count, &read.it.at, &read.fault), &read.fault); err != nil {
		return nil, err
	}
	return &read.it, nil
}

// Certs returns certs, a SEQUENCE OF ESSCertIDv2.
func (s *SigningCertificateV2) Certs() []byte { return at(s.octets, s.at.certs) }

// Policies returns policies, a SEQUENCE OF PolicyInformation; nil if absent.
func (s *SigningCertificateV2) Policies() []byte { return at(s.octets, s.at.policies) }

// ESSCertIDv2 is a certificate's hash value (ESSCertIDv2, RFC 5035 section 4).
type ESSCertIDv2 struct {
	octets []byte
	at     C.der_ess_cert_idv2_at
}

// ReadESSCertIDv2 reads all octets as a certificate's hash value. They must not change as long as the result is used.
func ReadESSCertIDv2(octets []byte) (*ESSCertIDv2, error) {
	read := reading[ESSCertIDv2]{it: ESSCertIDv2{octets: octets}}
	address, count := first(octets)
	if err := answered(C.der_ess_cert_idv2(address, count, &read.it.at, &read.fault), &read.fault); err != nil {
		return nil, err
	}
	return &read.it, nil
}

// HashAlgorithm returns hashAlgorithm, an AlgorithmIdentifier; nil if absent.
func (e *ESSCertIDv2) HashAlgorithm() []byte { return at(e.octets, e.at.hash_algorithm) }

// CertHash returns certHash, an OCTET STRING.
func (e *ESSCertIDv2) CertHash() []byte { return at(e.octets, e.at.cert_hash) }

// IssuerSerial returns issuerSerial, an IssuerSerial; nil if absent.
func (e *ESSCertIDv2) IssuerSerial() []byte { return at(e.octets, e.at.issuer_serial) }

// TimeStampReq is a request for a time stamp (TimeStampReq, RFC 3161 2.4.1).
type TimeStampReq struct {
	octets []byte
	at     C.der_time_stamp_req_at
}

// ReadTimeStampReq reads all octets as a request for a time stamp. They must not change as long as the result is used.
func ReadTimeStampReq(octets []byte) (*TimeStampReq, error) {
	read := reading[TimeStampReq]{it: TimeStampReq{octets: octets}}
	address, count := first(octets)
	if err := answered(C.der_time_stamp_req(address, count, &read.it.at, &read.fault), &read.fault); err != nil {
		return nil, err
	}
	return &read.it, nil
}

// Version returns version, an INTEGER.
func (t *TimeStampReq) Version() []byte { return at(t.octets, t.at.version) }

// MessageImprint returns messageImprint, a MessageImprint.
func (t *TimeStampReq) MessageImprint() []byte { return at(t.octets, t.at.message_imprint) }

// ReqPolicy returns reqPolicy, an OBJECT IDENTIFIER; nil if absent.
func (t *TimeStampReq) ReqPolicy() []byte { return at(t.octets, t.at.req_policy) }

// Nonce returns nonce, an INTEGER; nil if absent.
func (t *TimeStampReq) Nonce() []byte { return at(t.octets, t.at.nonce) }

// CertReq returns certReq, a BOOLEAN; absent where it is the default, FALSE; nil if absent.
func (t *TimeStampReq) CertReq() []byte { return at(t.octets, t.at.cert_req) }

// Extensions returns extensions, a SEQUENCE OF Extension, with the implicit tag [0]; nil if absent.
func (t *TimeStampReq) Extensions() []byte { return at(t.octets, t.at.extensions) }

// MessageImprint is a hash value of what is stamped (MessageImprint, RFC 3161 2.4.1).
type MessageImprint struct {
	octets []byte
	at     C.der_message_imprint_at
}

// ReadMessageImprint reads all octets as a hash value of what is stamped. They must not change as long as the result is
// used.
func ReadMessageImprint(octets []byte) (*MessageImprint, error) {
	read := reading[MessageImprint]{it: MessageImprint{octets: octets}}
	address, count := first(octets)
	if err := answered(C.der_message_imprint(address, count, &read.it.at, &read.fault), &read.fault); err != nil {
		return nil, err
	}
	return &read.it, nil
}

// HashAlgorithm returns hashAlgorithm, an AlgorithmIdentifier.
func (m *MessageImprint) HashAlgorithm() []byte { return at(m.octets, m.at.hash_algorithm) }

// HashedMessage returns hashedMessage, an OCTET STRING.
func (m *MessageImprint) HashedMessage() []byte { return at(m.octets, m.at.hashed_message) }

// TimeStampResp is a response with a time stamp (TimeStampResp, RFC 3161 2.4.2).
type TimeStampResp struct {
	octets []byte
	at     C.der_time_stamp_resp_at
}

// ReadTimeStampResp reads all octets as a response with a time stamp. They must not change as long as the result is
// used.
func ReadTimeStampResp(octets []byte) (*TimeStampResp, error) {
	read := reading[TimeStampResp]{it: TimeStampResp{octets: octets}}
	address, count := first(octets)
	if err := answered(C.der_time_stamp_resp(address, count, &read.it.at, &read.fault), &read.fault); err != nil {
		return nil, err
	}
	return &read.it, nil
}

// Status returns status, a PKIStatusInfo.
func (t *TimeStampResp) Status() []byte { return at(t.octets, t.at.status) }

// TimeStampToken returns timeStampToken, a ContentInfo; nil if absent.
func (t *TimeStampResp) TimeStampToken() []byte { return at(t.octets, t.at.time_stamp_token) }

// PKIStatusInfo is a status of a response (PKIStatusInfo, RFC 3161 2.4.2).
type PKIStatusInfo struct {
	octets []byte
	at     C.der_pki_status_info_at
}

// ReadPKIStatusInfo reads all octets as a status of a response. They must not change as long as the result is used.
func ReadPKIStatusInfo(octets []byte) (*PKIStatusInfo, error) {
	read := reading[PKIStatusInfo]{it: PKIStatusInfo{octets: octets}}
	address, count := first(octets)
	if err := answered(C.der_pki_status_info(address, count, &read.it.at, &read.fault), &read.fault); err != nil {
		return nil, err
	}
	return &read.it, nil
}

// Status returns status, an INTEGER.
func (p *PKIStatusInfo) Status() []byte { return at(p.octets, p.at.status) }

// StatusString returns statusString, a SEQUENCE OF UTF8String; nil if absent.
func (p *PKIStatusInfo) StatusString() []byte { return at(p.octets, p.at.status_string) }

// FailInfo returns failInfo, a BIT STRING; nil if absent.
func (p *PKIStatusInfo) FailInfo() []byte { return at(p.octets, p.at.fail_info) }

// TSTInfo is a time stamp (TSTInfo, RFC 3161 2.4.2).
type TSTInfo struct {
	octets []byte
	at     C.der_tst_info_at
}

// ReadTSTInfo reads all octets as a time stamp. They must not change as long as the result is used.
func ReadTSTInfo(octets []byte) (*TSTInfo, error) {
	read := reading[TSTInfo]{it: TSTInfo{octets: octets}}
	address, count := first(octets)
	if err := answered(C.der_tst_info(address, count, &read.it.at, &read.fault), &read.fault); err != nil {
		return nil, err
	}
	return &read.it, nil
}

// Version returns version, an INTEGER.
func (t *TSTInfo) Version() []byte { return at(t.octets, t.at.version) }

// Policy returns policy, an OBJECT IDENTIFIER.
func (t *TSTInfo) Policy() []byte { return at(t.octets, t.at.policy) }

// MessageImprint returns messageImprint, a MessageImprint.
func (t *TSTInfo) MessageImprint() []byte { return at(t.octets, t.at.message_imprint) }

// SerialNumber returns serialNumber, an INTEGER.
func (t *TSTInfo) SerialNumber() []byte { return at(t.octets, t.at.serial_number) }

// GenTime returns genTime, a GeneralizedTime.
func (t *TSTInfo) GenTime() []byte { return at(t.octets, t.at.gen_time) }

// Accuracy returns accuracy, an Accuracy; nil if absent.
func (t *TSTInfo) Accuracy() []byte { return at(t.octets, t.at.accuracy) }

// Ordering returns ordering, a BOOLEAN; absent where it is the default, FALSE; nil if absent.
func (t *TSTInfo) Ordering() []byte { return at(t.octets, t.at.ordering) }

// Nonce returns nonce, an INTEGER; nil if absent.
func (t *TSTInfo) Nonce() []byte { return at(t.octets, t.at.nonce) }

// Tsa returns tsa, a GeneralName, with the explicit tag [0]; nil if absent.
func (t *TSTInfo) Tsa() []byte { return at(t.octets, t.at.tsa) }

// Extensions returns extensions, a SEQUENCE OF Extension, with the implicit tag [1]; nil if absent.
func (t *TSTInfo) Extensions() []byte { return at(t.octets, t.at.extensions) }

// Accuracy is an accuracy of a time (Accuracy, RFC 3161 2.4.2).
type Accuracy struct {
	octets []byte
	at     C.der_accuracy_at
}

// ReadAccuracy reads all octets as an accuracy of a time. They must not change as long as the result is used.
func ReadAccuracy(octets []byte) (*Accuracy, error) {
	read := reading[Accuracy]{it: Accuracy{octets: octets}}
	address, count := first(octets)
	if err := answered(C.der_accuracy(address, count, &read.it.at, &read.fault), &read.fault); err != nil {
		return nil, err
	}
	return &read.it, nil
}

// Seconds returns seconds, an INTEGER; nil if absent.
func (a *Accuracy) Seconds() []byte { return at(a.octets, a.at.seconds) }

// Millis returns millis, an INTEGER, with the implicit tag [0]; nil if absent.
func (a *Accuracy) Millis() []byte { return at(a.octets, a.at.millis) }

// Micros returns micros, an INTEGER, with the implicit tag [1]; nil if absent.
func (a *Accuracy) Micros() []byte { return at(a.octets, a.at.micros) }

// PFX is a PKCS 12 file (PFX, RFC 7292 section 4).
type PFX struct {
	octets []byte
	at     C.der_pfx_at
}

// ReadPFX reads all octets as a PKCS 12 file. They must not change as long as the result is used.
func ReadPFX(octets []byte) (*PFX, error) {
	read := reading[PFX]{it: PFX{octets: octets}}
	address, count := first(octets)
	if err := answered(C.der_pfx(address, count, &read.it.at, &read.fault), &read.fault); err != nil {
		return nil, err
	}
	return &read.it, nil
}

// Version returns version, an INTEGER.
func (p *PFX) Version() []byte { return at(p.octets, p.at.version) }

// AuthSafe returns authSafe, a ContentInfo of RFC 2315 section 7, whose content may be absent.
func (p *PFX) AuthSafe() []byte { return at(p.octets, p.at.auth_safe) }

// MacData returns macData, a MacData; nil if absent.
func (p *PFX) MacData() []byte { return at(p.octets, p.at.mac_data) }

// MacData is a MAC of a PKCS 12 file (MacData, RFC 7292 section 4).
type MacData struct {
	octets []byte
	at     C.der_mac_data_at
}

// ReadMacData reads all octets as a MAC of a PKCS 12 file. They must not change as long as the result is used.
func ReadMacData(octets []byte) (*MacData, error) {
	read := reading[MacData]{it: MacData{octets: octets}}
	address, count := first(octets)
	if err := answered(C.der_mac_data(address, count, &read.it.at, &read.fault), &read.fault); err != nil {
		return nil, err
	}
	return &read.it, nil
}

// Mac returns mac, a DigestInfo.
func (m *MacData) Mac() []byte { return at(m.octets, m.at.mac) }

// MacSalt returns macSalt, an OCTET STRING.
func (m *MacData) MacSalt() []byte { return at(m.octets, m.at.mac_salt) }

// Iterations returns iterations, an INTEGER; nil if absent.
func (m *MacData) Iterations() []byte { return at(m.octets, m.at.iterations) }

// DigestInfo is a hash value with its algorithm (DigestInfo, RFC 8017 9.2).
type DigestInfo struct {
	octets []byte
	at     C.der_digest_info_at
}

// ReadDigestInfo reads all octets as a hash value with its algorithm. They must not change as long as the result is
// used.
func ReadDigestInfo(octets []byte) (*DigestInfo, error) {
	read := reading[DigestInfo]{it: DigestInfo{octets: octets}}
	address, count := first(octets)
	if err := answered(C.der_digest_info(address, count, &read.it.at, &read.fault), &read.fault); err != nil {
		return nil, err
	}
	return &read.it, nil
}

// DigestAlgorithm returns digestAlgorithm, an AlgorithmIdentifier.
func (d *DigestInfo) DigestAlgorithm() []byte { return at(d.octets, d.at.digest_algorithm) }

// Digest returns digest, an OCTET STRING.
func (d *DigestInfo) Digest() []byte { return at(d.octets, d.at.digest) }

// SafeBag is a bag of a PKCS 12 file (SafeBag, RFC 7292 4.2).
type SafeBag struct {
	octets []byte
	at     C.der_safe_bag_at
}

// ReadSafeBag reads all octets as a bag of a PKCS 12 file. They must not change as long as the result is used.
func ReadSafeBag(octets []byte) (*SafeBag, error) {
	read := reading[SafeBag]{it: SafeBag{octets: octets}}
	address, count := first(octets)
	if err := answered(C.der_safe_bag(address, count, &read.it.at, &read.fault), &read.fault); err != nil {
		return nil, err
	}
	return &read.it, nil
}

// BagId returns bagId, an OBJECT IDENTIFIER.
func (s *SafeBag) BagId() []byte { return at(s.octets, s.at.bag_id) }

// BagValue returns bagValue, what bagId defines, with the explicit tag [0].
func (s *SafeBag) BagValue() []byte { return at(s.octets, s.at.bag_value) }

// BagAttributes returns bagAttributes, a SET OF Attribute; nil if absent.
func (s *SafeBag) BagAttributes() []byte { return at(s.octets, s.at.bag_attributes) }

// CertBag is a certificate in a bag (CertBag, RFC 7292 4.2.3).
type CertBag struct {
	octets []byte
	at     C.der_cert_bag_at
}

// ReadCertBag reads all octets as a certificate in a bag. They must not change as long as the result is used.
func ReadCertBag(octets []byte) (*CertBag, error) {
	read := reading[CertBag]{it: CertBag{octets: octets}}
	address, count := first(octets)
	if err := answered(C.der_cert_bag(address, count, &read.it.at, &read.fault), &read.fault); err != nil {
		return nil, err
	}
	return &read.it, nil
}

// CertId returns certId, an OBJECT IDENTIFIER.
func (c *CertBag) CertId() []byte { return at(c.octets, c.at.cert_id) }

// CertValue returns certValue, what certId defines, with the explicit tag [0].
func (c *CertBag) CertValue() []byte { return at(c.octets, c.at.cert_value) }

// end of messages
