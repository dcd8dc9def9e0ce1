package der

// #include <barleypulley/der.h>
import "C"

import (
	"bytes"
	"fmt"
	"math"
	"time"
	"unsafe"
)

// PathInputs has the inputs of the validation of a chain, beside the chain (RFC 5280 6.1.1).
type PathInputs struct {
	// Moment is (b).
	Moment time.Time
	// AnchorName is (d)(1): a Name, such as the subject of a certificate that is trusted.
	AnchorName []byte
	// AnchorKey is (d)(2) to (4): a SubjectPublicKeyInfo.
	AnchorKey []byte
	// Policies is (c): the policies of the user, each an OBJECT IDENTIFIER; any policy if there are none.
	Policies [][]byte
	// Constraints is (h) and (i): the names that are permitted and excluded at first, as a NameConstraints; nil if absent.
	Constraints []byte
	// MappingInhibit is (e): initial-policy-mapping-inhibit.
	MappingInhibit bool
	// ExplicitPolicy is (f): initial-explicit-policy.
	ExplicitPolicy bool
	// AnyPolicyInhibit is (g): initial-any-policy-inhibit.
	AnyPolicyInhibit bool
}

// Verification is what has to verify of a certificate (RFC 5280 6.1.3 (a)(1)): a signature by the key of the certificate before
// it, or of the trust anchor.
type Verification struct {
	// Signed is what the signature covers: tbsCertificate.
	Signed []byte
	// Algorithm is signatureAlgorithm, an AlgorithmIdentifier.
	Algorithm []byte
	// Signature is signatureValue, a BIT STRING.
	Signature []byte
	// Key is a SubjectPublicKeyInfo.
	Key []byte
	// Parameters has the key's own parameters, or those that it inherits (6.1.4 (d) to (f)); nil if there are none.
	Parameters []byte
}

// SignatureOctets gives the octets of the signature.
func (v *Verification) SignatureOctets() []byte {
	octets := Contents(v.Signature)
	if len(octets) == 0 {
		return nil
	}
	return octets[1:]
}

// WorkingKey gives the key as a SubjectPublicKeyInfo with its parameters, also where it inherits them.
func (v *Verification) WorkingKey() ([]byte, error) {
	key, err := ReadSubjectPublicKeyInfo(v.Key)
	if err != nil {
		return nil, err
	}
	algorithm, err := ReadAlgorithmIdentifier(key.Algorithm())
	if err != nil {
		return nil, err
	}
	if v.Parameters == nil || bytes.Equal(algorithm.Parameters(), v.Parameters) {
		return v.Key, nil
	}
	var w Writer
	whole := w.Sequence(w.Sequence(algorithm.Oid(), v.Parameters), key.SubjectPublicKey())
	return whole, w.Err()
}

// ValidPath is what validation returns (RFC 5280 6.1.6). The chain is valid if each signature verifies, and no certificate is
// revoked.
type ValidPath struct {
	// Verifications has what has to verify of each certificate, in their order.
	Verifications []Verification
	// Policies has the policies of the user that the chain is valid for, each an OBJECT IDENTIFIER.
	Policies [][]byte
}

// Step is a step of RFC 5280 that refuses a certificate.
type Step uint32

// The steps, with the numbers of der.h.
const (
	// written by tools/bindings: steps of certificates

	// StepValidity is 6.1.3 (a)(2): the moment is outside the validity.
	StepValidity Step = 1
	// StepIssuer is 6.1.3 (a)(4): the issuer is not the subject before it, or the anchor.
	StepIssuer Step = 2
	// StepPermitted is 6.1.3 (b): a name is not within the permitted subtrees.
	StepPermitted Step = 3
	// StepExcluded is 6.1.3 (c): a name is within an excluded subtree.
	StepExcluded Step = 4
	// StepPolicies is 6.1.3 (f): no policy is left, and one is required.
	StepPolicies Step = 5
	// StepAnyPolicyIsMapped is 6.1.4 (a): anyPolicy is mapped.
	StepAnyPolicyIsMapped Step = 6
	// StepCA is 6.1.4 (k): not of version 3, or not a CA's.
	StepCA Step = 7
	// StepPathLength is 6.1.4 (l): the chain is longer than a pathLenConstraint allows.
	StepPathLength Step = 8
	// StepKeyUsage is 6.1.4 (n): keyUsage does not have keyCertSign.
	StepKeyUsage Step = 9
	// StepUnknownExtension is 6.1.4 (o): a critical extension is not processed.
	StepUnknownExtension Step = 10
	// StepUnknownExtensionAtEnd is 6.1.5 (f): the same of the last certificate.
	StepUnknownExtensionAtEnd Step = 11
	// StepUserPolicies is 6.1.5 (g): no policy of the user is left, and one is required.
	StepUserPolicies Step = 12

	// end of steps of certificates
)

// String is the section and the letter of RFC 5280, such as "6.1.3 (a)(2)".
func (s Step) String() string { return C.GoString(C.der_step_text(C.uint32_t(s))) }

// PathError says why a chain is refused.
type PathError struct {
	// Index says which certificate is refused, from 0; -1 for an input.
	Index int
	// Step is the one that refuses it, or 0.
	Step Step
	// Err has the number: 104 where a step refuses a certificate, 105 where an extension that section 6.1 processes stands
	// twice or cannot be read, and 106 where there are no certificates; else that of the first fault of a certificate, from
	// whose first octet the position counts, or of an input.
	Err *Error
}

// Unwrap gives Err.
func (p *PathError) Unwrap() error { return p.Err }

// Error has the index, and the step or the fault.
func (p *PathError) Error() string {
	if p.Index < 0 {
		return p.Err.Error()
	}
	if p.Step != 0 {
		return fmt.Sprintf("certificate %d: der: %s refuses it", p.Index, p.Step)
	}
	return fmt.Sprintf("certificate %d: %v", p.Index, p.Err)
}

// flags returns the inputs that are no octets.
func (p *PathInputs) flags() C.der_path_inputs {
	return C.der_path_inputs{
		moment:             moment(p.Moment),
		mapping_inhibit:    flag(p.MappingInhibit),
		explicit_policy:    flag(p.ExplicitPolicy),
		any_policy_inhibit: flag(p.AnyPolicyInhibit),
	}
}

// path is what a call is given, and what it writes.
type path struct {
	inputs        C.der_path_inputs
	put           parts
	chain         []C.der_place
	verifications []C.der_verification_at
	policies      []byte
	out           C.der_path_at
	fault         C.der_fault
}

// check calls the library.
func (p *path) check() C.uint32_t {
	octets, count := first(p.put.octets)
	policies, size := first(p.policies)
	var chain *C.der_place
	var verifications *C.der_verification_at
	if len(p.chain) > 0 {
		chain = (*C.der_place)(unsafe.Pointer(&p.chain[0]))
		verifications = (*C.der_verification_at)(unsafe.Pointer(&p.verifications[0]))
	}
	length := C.size_t(len(p.chain))
	return C.der_check_path(octets, count, &p.inputs, chain, length, verifications, length, policies, size, &p.out, &p.fault)
}

// refusal is why the chain is refused.
func (p *path) refusal() error {
	err := Error{uint32(p.fault.number), p.fault.is_placed == 1, uint32(p.fault.position)}
	if uint64(p.out.refused_index) >= uint64(len(p.chain)) {
		err.IsPlaced, err.Position = false, 0
		return &PathError{Index: -1, Err: &err}
	}
	index := int(p.out.refused_index)
	if err.IsPlaced {
		err.Position -= uint32(p.chain[index].offset)
	}
	return &PathError{Index: index, Step: Step(p.out.step), Err: &err}
}

// verification has the octets at the places of one.
func (p *path) verification(places C.der_verification_at) Verification {
	octets := p.put.octets
	return Verification{
		Signed:     at(octets, places.signed_octets),
		Algorithm:  at(octets, places.algorithm),
		Signature:  at(octets, places.signature),
		Key:        at(octets, places.key),
		Parameters: at(octets, places.parameters),
	}
}

// CheckPath validates a chain of certificates, from the one that the trust anchor issued to the end certificate (RFC 5280 6.1,
// with the policies of RFC 9618). The chain is valid if then each signature verifies, and no certificate is revoked. A refusal
// is a *PathError. The result has a copy of the octets.
func CheckPath(inputs PathInputs, chain [][]byte) (*ValidPath, error) {
	p := path{inputs: inputs.flags(), verifications: make([]C.der_verification_at, len(chain))}
	p.inputs.anchor_name = p.put.field(inputs.AnchorName)
	p.inputs.anchor_key = p.put.field(inputs.AnchorKey)
	p.inputs.constraints = p.put.field(inputs.Constraints)
	p.inputs.policies = p.put.field(bytes.Join(inputs.Policies, nil))
	for _, one := range chain {
		p.chain = append(p.chain, p.put.field(one))
	}
	number := p.check()
	if number == C.DER_SHORT_BUFFER && p.out.policies_len <= math.MaxInt32 {
		p.policies = make([]byte, p.out.policies_len)
		number = p.check()
	}
	if number != 0 {
		return nil, p.refusal()
	}
	var found ValidPath
	for _, places := range p.verifications {
		found.Verifications = append(found.Verifications, p.verification(places))
	}
	for left := p.policies[:p.out.policies_len]; len(left) > 0; {
		one := firstEncoding(left)
		if len(one) == 0 {
			break
		}
		found.Policies = append(found.Policies, one)
		left = left[len(one):]
	}
	return &found, nil
}
