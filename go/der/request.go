package der

// #include <barleypulley/der.h>
import "C"

// CertificationRequest is a request for a certificate (RFC 2986 4.2).
type CertificationRequest struct {
	octets []byte
	at     C.der_certification_request_at
}

// ReadCertificationRequest reads octets as a CertificationRequest, all of them. They must not change as long as the answer is
// used.
func ReadCertificationRequest(octets []byte) (*CertificationRequest, error) {
	read := reading[CertificationRequest]{it: CertificationRequest{octets: octets}}
	address, count := first(octets)
	if err := answered(C.der_certification_request(address, count, &read.it.at, &read.fault), &read.fault); err != nil {
		return nil, err
	}
	return &read.it, nil
}

// written by tools/bindings: fields of CertificationRequest

// CertificationRequestInfo returns certificationRequestInfo, what the signature covers.
func (c *CertificationRequest) CertificationRequestInfo() []byte {
	return at(c.octets, c.at.certification_request_info)
}

// SignatureAlgorithm returns signatureAlgorithm, an AlgorithmIdentifier.
func (c *CertificationRequest) SignatureAlgorithm() []byte {
	return at(c.octets, c.at.signature_algorithm)
}

// Signature returns signature, a BIT STRING.
func (c *CertificationRequest) Signature() []byte { return at(c.octets, c.at.signature) }

// Subject returns subject of certificationRequestInfo, a Name.
func (c *CertificationRequest) Subject() []byte { return at(c.octets, c.at.subject) }

// SubjectPKInfo returns subjectPKInfo of certificationRequestInfo, a SubjectPublicKeyInfo.
func (c *CertificationRequest) SubjectPKInfo() []byte { return at(c.octets, c.at.subject_pk_info) }

// end of fields of CertificationRequest

// Attributes goes over the attributes, in their order.
func (c *CertificationRequest) Attributes() *Items[Attribute] {
	return Attributes(at(c.octets, c.at.attributes))
}
