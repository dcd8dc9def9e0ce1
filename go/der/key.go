package der

// #include <barleypulley/der.h>
import "C"

import (
	"fmt"
	"io"
)

// SubjectPublicKeyInfo is a public key (RFC 5280 4.1.2.7).
type SubjectPublicKeyInfo struct {
	octets []byte
	at     C.der_subject_public_key_info_at
}

// ReadSubjectPublicKeyInfo reads octets as a SubjectPublicKeyInfo, all of them. They must not change as long as the answer is
// used.
func ReadSubjectPublicKeyInfo(octets []byte) (*SubjectPublicKeyInfo, error) {
	read := reading[SubjectPublicKeyInfo]{it: SubjectPublicKeyInfo{octets: octets}}
	address, count := first(octets)
	if err := answered(C.der_subject_public_key_info(address, count, &read.it.at, &read.fault), &read.fault); err != nil {
		return nil, err
	}
	return &read.it, nil
}

// written by tools/bindings: fields of SubjectPublicKeyInfo

// Algorithm returns algorithm, an AlgorithmIdentifier.
func (s *SubjectPublicKeyInfo) Algorithm() []byte { return at(s.octets, s.at.algorithm) }

// SubjectPublicKey returns subjectPublicKey, a BIT STRING.
func (s *SubjectPublicKeyInfo) SubjectPublicKey() []byte {
	return at(s.octets, s.at.subject_public_key)
}

// end of fields of SubjectPublicKeyInfo

// PrivateKeyInfo is a private key, which is a OneAsymmetricKey (RFC 5958 section 2). What fmt prints of it shows no octets.
type PrivateKeyInfo struct {
	octets []byte
	at     C.der_private_key_info_at
}

// ReadPrivateKeyInfo reads octets as a PrivateKeyInfo, all of them; the key itself is not read. They must not change as long
// as the answer is used.
func ReadPrivateKeyInfo(octets []byte) (*PrivateKeyInfo, error) {
	read := reading[PrivateKeyInfo]{it: PrivateKeyInfo{octets: octets}}
	address, count := first(octets)
	if err := answered(C.der_private_key_info(address, count, &read.it.at, &read.fault), &read.fault); err != nil {
		return nil, err
	}
	return &read.it, nil
}

// written by tools/bindings: fields of PrivateKeyInfo

// PrivateKeyAlgorithm returns privateKeyAlgorithm, an AlgorithmIdentifier.
func (p *PrivateKeyInfo) PrivateKeyAlgorithm() []byte {
	return at(p.octets, p.at.private_key_algorithm)
}

// PrivateKey returns privateKey, an OCTET STRING.
func (p *PrivateKeyInfo) PrivateKey() []byte { return at(p.octets, p.at.private_key) }

// Attributes returns attributes, with their implicit tag [0]; nil if absent.
func (p *PrivateKeyInfo) Attributes() []byte { return at(p.octets, p.at.attributes) }

// PublicKey returns publicKey, with its implicit tag [1]; nil if absent.
func (p *PrivateKeyInfo) PublicKey() []byte { return at(p.octets, p.at.public_key) }

// end of fields of PrivateKeyInfo

// Version is 1 or 2: one more than the number that stands in version.
func (p *PrivateKeyInfo) Version() int { return int(p.at.version_number) + 1 }

// Format writes the name of the type, and nothing of the key.
func (p PrivateKeyInfo) Format(state fmt.State, _ rune) {
	_, _ = io.WriteString(state, "der.PrivateKeyInfo")
}
