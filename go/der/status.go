package der

// #include <barleypulley/der.h>
import "C"

import (
	"fmt"
	"time"
	"unsafe"
)

// Reason says why a certificate is revoked: a number of CRLReason (RFC 5280 5.3.1).
type Reason uint32

// The reasons. Unspecified stands also where there is no reason.
const (
	Unspecified          Reason = 0
	KeyCompromise        Reason = 1
	CACompromise         Reason = 2
	AffiliationChanged   Reason = 3
	Superseded           Reason = 4
	CessationOfOperation Reason = 5
	CertificateHold      Reason = 6
	RemoveFromCRL        Reason = 8
	PrivilegeWithdrawn   Reason = 9
	AACompromise         Reason = 10
)

// Reasons is a set of reasons: the bits of ReasonFlags (RFC 5280 4.2.1.13), bit 1 for keyCompromise to bit 8 for aACompromise.
type Reasons uint32

// AllReasons has all reasons.
const AllReasons Reasons = 0x1fe

// Revocation says why and since when a certificate is revoked.
type Revocation struct {
	// Date is revocationDate or revocationTime.
	Date time.Time
	// Reason is the reason.
	Reason Reason
}

// ListStatus is what a list says of a certificate.
type ListStatus struct {
	// Reasons has the reasons for which certificates stand in the list.
	Reasons Reasons
	// Revocation says why and since when the certificate is revoked; nil if it is not.
	Revocation *Revocation
}

// OCSPStatus is what an answer of OCSP says of a certificate.
type OCSPStatus struct {
	// Status is the status.
	Status CertStatus
	// Revocation says why and since when the certificate is revoked; nil if it is not.
	Revocation *Revocation
	// ThisUpdate is thisUpdate.
	ThisUpdate time.Time
	// NextUpdate is nextUpdate; the zero Time if absent.
	NextUpdate time.Time
	// Responders says who may have signed the answer (RFC 6960 4.2.2.2): the holder of a certificate of the answer, whose own
	// signature has to verify with the issuer's key; nil for the issuer of the certificate.
	Responders [][]byte
	// HasKeyHash says whether the answer names its responder by a key.
	HasKeyHash bool
	// KeyHash is then what the SHA-1 hash value of the responder's key is.
	KeyHash []byte
}

// RevocationStatus is what lists say of a certificate.
type RevocationStatus struct {
	// IsDetermined says whether the lists tell the status.
	IsDetermined bool
	// Revocation says why and since when the certificate is revoked; nil if it is not.
	Revocation *Revocation
	// Reasons has the reasons that are known where the lists do not tell.
	Reasons Reasons
}

// ListStep is a step of RFC 5280 that refuses a list.
type ListStep uint32

// The steps, with the numbers of der.h.
const (
	// written by tools/bindings: steps of lists

	// ListStepDelta is 5.2.4: the list is a delta.
	ListStepDelta ListStep = 1
	// ListStepUnknownExtension is 5.2: a critical extension is not processed.
	ListStepUnknownExtension ListStep = 2
	// ListStepUnreadEntry is 5.3: an extension of an entry stands twice, or cannot be read.
	ListStepUnreadEntry ListStep = 3
	// ListStepUnknownEntryExtension is 5.3: a critical extension of an entry is not processed.
	ListStepUnknownEntryExtension ListStep = 4
	// ListStepIssuer is 6.3.3 (b)(1): the issuer is not that of the certificate.
	ListStepIssuer ListStep = 5
	// ListStepPointName is 6.3.3 (b)(2)(i): the list is of other distribution points.
	ListStepPointName ListStep = 6
	// ListStepUserCertificates is 6.3.3 (b)(2)(ii): the list has end entities alone, and the certificate is a CA's.
	ListStepUserCertificates ListStep = 7
	// ListStepCACertificates is 6.3.3 (b)(2)(iii): the list has CAs alone, and the certificate is no CA's.
	ListStepCACertificates ListStep = 8
	// ListStepAttributeCertificates is 6.3.3 (b)(2)(iv): the list has attribute certificates alone.
	ListStepAttributeCertificates ListStep = 9
	// ListStepThisUpdate is 5.1.2.4: the list is issued after the moment.
	ListStepThisUpdate ListStep = 10
	// ListStepNextUpdate is 6.3.3 (a)(1): the moment is after nextUpdate.
	ListStepNextUpdate ListStep = 11
	// ListStepNoNewReasons is 6.3.3 (e): the list has no reason.
	ListStepNoNewReasons ListStep = 12

	// end of steps of lists
)

// String is the section and the letter of RFC 5280, such as "6.3.3 (b)(1)".
func (s ListStep) String() string { return C.GoString(C.der_list_step_text(C.uint32_t(s))) }

// OCSPStep is a step of RFC 6960 that refuses an answer.
type OCSPStep uint32

// The steps, with the numbers of der.h.
const (
	// written by tools/bindings: steps of answers

	// OCSPStepCriticalExtension is 4.4: an extension of the answer, or of its part about the certificate, is critical.
	OCSPStepCriticalExtension OCSPStep = 1
	// OCSPStepNotAnswered is 3.2 (1): the answer is about other certificates.
	OCSPStepNotAnswered OCSPStep = 2
	// OCSPStepThisUpdate is 3.2 (5): the status is known to be correct only after the moment.
	OCSPStepThisUpdate OCSPStep = 3
	// OCSPStepNextUpdate is 3.2 (6): newer information is available at the moment.
	OCSPStepNextUpdate OCSPStep = 4
	// OCSPStepNoResponder is 3.2 (4): the answer names nobody who may sign it (4.2.2.2).
	OCSPStepNoResponder OCSPStep = 5

	// end of steps of answers
)

// String is the section and the number of RFC 6960, such as "3.2 (1)".
func (s OCSPStep) String() string { return C.GoString(C.der_ocsp_step_text(C.uint32_t(s))) }

// StatusError says why the status is not told.
type StatusError struct {
	// ListStep is the step that refuses the list, or 0.
	ListStep ListStep
	// OCSPStep is the step that refuses the answer, or 0.
	OCSPStep OCSPStep
	// Err has the number: 107 where a step refuses a list, 108 where one refuses an answer, 105 where an extension of the
	// certificate that section 6.1 of RFC 5280 processes stands twice or cannot be read, and 109 where one of the list does;
	// else that of the first fault of what is read.
	Err *Error
}

// Unwrap gives Err.
func (s *StatusError) Unwrap() error { return s.Err }

// Error has the step or the fault.
func (s *StatusError) Error() string {
	switch {
	case s.ListStep != 0:
		return fmt.Sprintf("der: %s refuses the list", s.ListStep)
	case s.OCSPStep != 0:
		return fmt.Sprintf("der: %s refuses the answer", s.OCSPStep)
	}
	return s.Err.Error()
}

// listStatus is what a call about a list is given, and what it writes.
type listStatus struct {
	put               parts
	certificate, list C.der_place
	out               C.der_list_status_at
	fault             C.der_fault
}

// GetListStatus says what a list of revoked certificates tells of a certificate at a moment (RFC 5280 6.3.3). The list is the own
// one of the certificate's issuer: whole, no delta, and not indirect. It holds if the signature of the list verifies with the key
// of its issuer, whose path is valid and whose keyUsage, if it is there, has cRLSign. A refusal is a *StatusError.
func GetListStatus(certificate, list []byte, at time.Time) (*ListStatus, error) {
	var s listStatus
	s.certificate = s.put.field(certificate)
	s.list = s.put.field(list)
	octets, count := first(s.put.octets)
	number := C.der_list_status(octets, count, &s.certificate, &s.list, moment(at), &s.out, &s.fault)
	if number != 0 {
		return nil, &StatusError{ListStep: ListStep(s.out.step), Err: &Error{Number: uint32(number)}}
	}
	found := ListStatus{Reasons: Reasons(s.out.reasons)}
	if s.out.is_revoked == 1 {
		found.Revocation = &Revocation{seconds(s.out.revocation_date_seconds), Reason(s.out.reason)}
	}
	return &found, nil
}

// revocationStatus is what a call about lists is given, and what it writes.
type revocationStatus struct {
	put         parts
	certificate C.der_place
	lists       []C.der_place
	out         C.der_revocation_status_at
	fault       C.der_fault
}

// GetRevocationStatus says what lists of revoked certificates tell of a certificate at a moment by the whole of RFC 5280 6.3.3,
// with distribution points, indirect lists and deltas: complete lists and deltas, in any order. Those that 6.3.3 does not use say
// nothing. useDeltas is use-deltas (6.3.1 (b)). It holds if the signature of each list verifies with the key of its issuer, whose
// path is valid and whose keyUsage, if it is there, has cRLSign. A refusal is a *StatusError.
func GetRevocationStatus(certificate []byte, lists [][]byte, at time.Time, useDeltas bool) (*RevocationStatus, error) {
	var s revocationStatus
	s.certificate = s.put.field(certificate)
	for _, list := range lists {
		s.lists = append(s.lists, s.put.field(list))
	}
	octets, count := first(s.put.octets)
	var places *C.der_place
	if len(s.lists) > 0 {
		places = (*C.der_place)(unsafe.Pointer(&s.lists[0]))
	}
	length := C.size_t(len(s.lists))
	number := C.der_revocation_status(octets, count, &s.certificate, places, length, moment(at), flag(useDeltas), &s.out, &s.fault)
	if number != 0 {
		return nil, &StatusError{Err: &Error{Number: uint32(number)}}
	}
	found := RevocationStatus{IsDetermined: s.out.status != C.DER_UNDETERMINED, Reasons: Reasons(s.out.reasons)}
	if s.out.status == C.DER_REVOKED {
		found.Revocation = &Revocation{seconds(s.out.revocation_date_seconds), Reason(s.out.reason)}
	}
	return &found, nil
}

// OCSPInputs is what is asked of an answer of OCSP (RFC 6960 3.2, 4.1.1). The caller computes the hash values.
type OCSPInputs struct {
	// Moment is the moment.
	Moment time.Time
	// Answer is the answer, a BasicOCSPResponse.
	Answer []byte
	// Issuer is the Name of the certificate's issuer.
	Issuer []byte
	// Algorithm is the identifier of the hash algorithm, an OBJECT IDENTIFIER.
	Algorithm []byte
	// NameHash is the hash value of the issuer's name.
	NameHash []byte
	// KeyHash is the hash value of the issuer's public key: of the octets of the BIT STRING subjectPublicKey.
	KeyHash []byte
	// SerialNumber is the certificate's serial number, an INTEGER.
	SerialNumber []byte
}

// ocspStatus is what a call about an answer is given, and what it writes.
type ocspStatus struct {
	put        parts
	inputs     C.der_ocsp_inputs
	responders []C.der_responder_at
	keyHash    []byte
	out        C.der_ocsp_status_at
	fault      C.der_fault
}

// ask calls the library.
func (s *ocspStatus) ask() C.uint32_t {
	octets, count := first(s.put.octets)
	hash, size := first(s.keyHash)
	var responders *C.der_responder_at
	if len(s.responders) > 0 {
		responders = (*C.der_responder_at)(unsafe.Pointer(&s.responders[0]))
	}
	room := C.size_t(len(s.responders))
	return C.der_ocsp_status(octets, count, &s.inputs, responders, room, hash, size, &s.out, &s.fault)
}

// certificatesOf gives those of an answer that was read, one after another.
func certificatesOf(answer []byte) [][]byte {
	left := Contents(answer)
	for index := 0; index < 3; index++ {
		left = left[len(firstEncoding(left)):]
	}
	var found [][]byte
	for left = Contents(Contents(left)); len(left) > 0; {
		one := firstEncoding(left)
		if len(one) == 0 {
			break
		}
		found = append(found, one)
		left = left[len(one):]
	}
	return found
}

// GetOCSPStatus says what an answer of OCSP tells of a certificate (RFC 6960 3.2, 4.2.2.2). It holds if the signature of the
// answer verifies with the key of one of the responders; and if the answer is recent enough, and the responder's certificate not
// revoked. A refusal is a *StatusError.
func GetOCSPStatus(inputs OCSPInputs) (*OCSPStatus, error) {
	s := ocspStatus{inputs: C.der_ocsp_inputs{moment: moment(inputs.Moment)}}
	s.inputs.answer = s.put.field(inputs.Answer)
	s.inputs.issuer = s.put.field(inputs.Issuer)
	s.inputs.algorithm = s.put.field(Contents(inputs.Algorithm))
	s.inputs.name_hash = s.put.field(inputs.NameHash)
	s.inputs.key_hash = s.put.field(inputs.KeyHash)
	s.inputs.serial = s.put.field(Contents(inputs.SerialNumber))
	number := s.ask()
	if number == C.DER_SHORT_BUFFER {
		s.responders = make([]C.der_responder_at, s.out.responder_count)
		s.keyHash = make([]byte, s.out.key_hash_len)
		number = s.ask()
	}
	if number != 0 {
		return nil, &StatusError{OCSPStep: OCSPStep(s.out.step), Err: &Error{Number: uint32(number)}}
	}
	found := OCSPStatus{
		Status:     CertStatus(s.out.cert_status_number),
		ThisUpdate: seconds(s.out.this_update_seconds),
		HasKeyHash: s.out.has_key_hash == 1,
		KeyHash:    s.keyHash,
	}
	if s.out.next_update_seconds > 0 {
		found.NextUpdate = seconds(s.out.next_update_seconds)
	}
	if found.Status == Revoked {
		found.Revocation = &Revocation{seconds(s.out.revocation_time_seconds), Reason(s.out.reason)}
	}
	all := certificatesOf(inputs.Answer)
	for _, one := range s.responders {
		if one.is_issuer == 1 {
			found.Responders = append(found.Responders, nil)
		} else {
			found.Responders = append(found.Responders, all[one.index])
		}
	}
	return &found, nil
}
