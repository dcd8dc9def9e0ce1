package der

// #include <barleypulley/der.h>
import "C"

import "time"

// OCSPResponse is an answer about the status of certificates (RFC 6960 4.2.1).
type OCSPResponse struct {
	octets []byte
	at     C.der_ocsp_response_at
}

// ReadOCSPResponse reads octets as an OCSPResponse, all of them. They must not change as long as the answer is used.
func ReadOCSPResponse(octets []byte) (*OCSPResponse, error) {
	read := reading[OCSPResponse]{it: OCSPResponse{octets: octets}}
	address, count := first(octets)
	if err := answered(C.der_ocsp_response(address, count, &read.it.at, &read.fault), &read.fault); err != nil {
		return nil, err
	}
	return &read.it, nil
}

// ResponseStatus gives responseStatus: 0 for successful, 1 to 3, 5 or 6.
func (o *OCSPResponse) ResponseStatus() int { return int(o.at.response_status_number) }

// written by tools/bindings: fields of OCSPResponse

// ResponseType returns responseType of responseBytes, an OBJECT IDENTIFIER; nil if absent.
func (o *OCSPResponse) ResponseType() []byte { return at(o.octets, o.at.response_type) }

// Response returns response of responseBytes, an OCTET STRING; if responseType is id-pkix-ocsp-basic, a
// BasicOCSPResponse is to be read from its contents octets; nil if absent.
func (o *OCSPResponse) Response() []byte { return at(o.octets, o.at.response) }

// end of fields of OCSPResponse

// BasicOCSPResponse is a signed answer (RFC 6960 4.2.1).
type BasicOCSPResponse struct {
	octets []byte
	at     C.der_basic_ocsp_response_at
}

// ReadBasicOCSPResponse reads octets as a BasicOCSPResponse, all of them. They must not change as long as the answer is used.
func ReadBasicOCSPResponse(octets []byte) (*BasicOCSPResponse, error) {
	read := reading[BasicOCSPResponse]{it: BasicOCSPResponse{octets: octets}}
	address, count := first(octets)
	if err := answered(C.der_basic_ocsp_response(address, count, &read.it.at, &read.fault), &read.fault); err != nil {
		return nil, err
	}
	return &read.it, nil
}

// written by tools/bindings: fields of BasicOCSPResponse

// TBSResponseData returns tbsResponseData, what the signature covers.
func (b *BasicOCSPResponse) TBSResponseData() []byte { return at(b.octets, b.at.tbs_response_data) }

// SignatureAlgorithm returns signatureAlgorithm, an AlgorithmIdentifier.
func (b *BasicOCSPResponse) SignatureAlgorithm() []byte {
	return at(b.octets, b.at.signature_algorithm)
}

// Signature returns signature, a BIT STRING.
func (b *BasicOCSPResponse) Signature() []byte { return at(b.octets, b.at.signature) }

// Certs returns certs, with their explicit tag [0]; nil if absent.
func (b *BasicOCSPResponse) Certs() []byte { return at(b.octets, b.at.certs) }

// ResponderID returns responderID of tbsResponseData, a CHOICE: with the explicit tag [1] a Name, with the explicit tag
// [2] an OCTET STRING.
func (b *BasicOCSPResponse) ResponderID() []byte { return at(b.octets, b.at.responder_id) }

// end of fields of BasicOCSPResponse

// ProducedAt gives producedAt.
func (b *BasicOCSPResponse) ProducedAt() time.Time { return seconds(b.at.produced_at_seconds) }

// Responses goes over the answers about single certificates, in their order.
func (b *BasicOCSPResponse) Responses() *Items[SingleResponse] {
	return &Items[SingleResponse]{left: Contents(at(b.octets, b.at.responses)), read: readSingleResponse}
}

// Extensions goes over the extensions, in their order.
func (b *BasicOCSPResponse) Extensions() *Items[Extension] {
	return extensions(Contents(at(b.octets, b.at.response_extensions)))
}

// CertStatus is what is answered about a certificate.
type CertStatus int

// What is answered about a certificate.
const (
	Good CertStatus = iota
	Revoked
	Unknown
)

// SingleResponse is the answer about one certificate (RFC 6960 4.2.1).
type SingleResponse struct {
	octets []byte
	at     C.der_single_response_at
}

// readSingleResponse reads the answer at the front of octets, and says how many it has.
func readSingleResponse(octets []byte, to *SingleResponse, fault *C.der_fault) (int, error) {
	address, count := first(octets)
	if err := answered(C.der_single_response(address, count, &to.at, fault), fault); err != nil {
		return 0, err
	}
	to.octets = at(octets, to.at.whole)
	return len(to.octets), nil
}

// Octets gives the whole answer.
func (s SingleResponse) Octets() []byte { return s.octets }

// written by tools/bindings: fields of SingleResponse

// CertID returns certID, a CertID.
func (s SingleResponse) CertID() []byte { return at(s.octets, s.at.cert_id) }

// end of fields of SingleResponse

// CertStatus gives certStatus.
func (s SingleResponse) CertStatus() CertStatus { return CertStatus(s.at.cert_status_number) }

// RevocationTime gives when the certificate was revoked, and whether it was.
func (s SingleResponse) RevocationTime() (time.Time, bool) {
	if s.CertStatus() != Revoked {
		return time.Time{}, false
	}
	return seconds(s.at.revocation_time_seconds), true
}

// ThisUpdate gives thisUpdate.
func (s SingleResponse) ThisUpdate() time.Time { return seconds(s.at.this_update_seconds) }

// NextUpdate gives nextUpdate, and whether it is there.
func (s SingleResponse) NextUpdate() (time.Time, bool) {
	if s.at.next_update.length == 0 {
		return time.Time{}, false
	}
	return seconds(s.at.next_update_seconds), true
}

// Extensions goes over the extensions, in their order.
func (s SingleResponse) Extensions() *Items[Extension] {
	return extensions(Contents(at(s.octets, s.at.single_extensions)))
}
