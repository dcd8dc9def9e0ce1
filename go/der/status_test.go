package der

import (
	"bytes"
	"errors"
	"testing"
	"time"
)

// list writes a list with an entry of the serial number 7.
func (s *issuing) list(t *testing.T, at time.Time, extensions ...[]byte) []byte {
	entry := s.RevokedCertificate(RevokedCertificateFields{
		UserCertificate:    s.UnsignedInteger([]byte{7}),
		RevocationDate:     at,
		CRLEntryExtensions: extensions,
	})
	body := s.TBSCertList(TBSCertListFields{
		Version:             2,
		Signature:           s.how,
		Issuer:              s.name,
		ThisUpdate:          at,
		NextUpdate:          at.Add(time.Hour),
		RevokedCertificates: [][]byte{entry},
	})
	list := s.CertificateList(CertificateListFields{TBSCertList: body, SignatureAlgorithm: s.how, SignatureValue: s.sign(t, body)})
	well(t, &s.Writer)
	return list
}

// answer writes an answer about the serial number 7, which names its responder by a key.
func (s *issuing) answer(t *testing.T, at time.Time, certificates ...[]byte) []byte {
	id := s.CertID(CertIDFields{
		HashAlgorithm:  s.AlgorithmIdentifier("1.3.14.3.2.26", nil),
		IssuerNameHash: s.OctetString([]byte("name")),
		IssuerKeyHash:  s.OctetString([]byte("key")),
		SerialNumber:   s.UnsignedInteger([]byte{7}),
	})
	single := s.SingleResponse(SingleResponseFields{CertID: id, CertStatus: []byte{0x80, 0}, ThisUpdate: at})
	body := s.ResponseData(ResponseDataFields{
		ResponderID: s.Explicit(2, s.OctetString([]byte("hash"))),
		ProducedAt:  at,
		Responses:   [][]byte{single},
	})
	answer := s.BasicOCSPResponse(BasicOCSPResponseFields{
		TBSResponseData:    body,
		SignatureAlgorithm: s.how,
		Signature:          s.sign(t, body),
		Certs:              certificates,
	})
	well(t, &s.Writer)
	return answer
}

func TestAList(t *testing.T) {
	root, last := newAuthority(t, "root"), newAuthority(t, "end")
	one, at := root.issue(t, last), begin.Add(time.Hour)
	told, err := GetListStatus(one, root.list(t, at), at)
	if err != nil || told.Reasons != AllReasons || told.Revocation == nil || *told.Revocation != (Revocation{at, Unspecified}) {
		t.Fatalf("%+v, %v", told, err)
	}
	hold := root.extension("2.5.29.21", false, root.Encoding(0x0a, []byte{6}))
	told, err = GetListStatus(one, root.list(t, at, hold), at)
	if err != nil || told.Revocation == nil || told.Revocation.Reason != CertificateHold {
		t.Fatalf("%+v, %v", told, err)
	}
	var refused *StatusError
	_, err = GetListStatus(one, root.list(t, at), at.Add(2*time.Hour))
	if !errors.As(err, &refused) || refused.ListStep != ListStepNextUpdate || refused.Err.Number != 107 {
		t.Fatalf("%v", err)
	}
	if err.Error() != "der: 6.3.3 (a)(1) refuses the list" {
		t.Fatalf("%v", err)
	}
	_, err = GetListStatus(one, last.list(t, at), at)
	if !errors.As(err, &refused) || refused.ListStep != ListStepIssuer {
		t.Fatalf("%v", err)
	}
	_, err = GetListStatus(one, one, at)
	if !errors.As(err, &refused) || refused.ListStep != 0 || refused.Err.Number > 17 {
		t.Fatalf("%v", err)
	}
}

func TestLists(t *testing.T) {
	root, last := newAuthority(t, "root"), newAuthority(t, "end")
	one, at := root.issue(t, last), begin.Add(time.Hour)
	list := root.list(t, at)
	told, err := GetRevocationStatus(one, [][]byte{last.list(t, at), list}, at, true)
	if err != nil || !told.IsDetermined || told.Revocation == nil || *told.Revocation != (Revocation{at, Unspecified}) {
		t.Fatalf("%+v, %v", told, err)
	}
	told, err = GetRevocationStatus(last.issue(t, root), [][]byte{list}, at, true)
	if err != nil || told.IsDetermined || told.Revocation != nil || told.Reasons != 0 {
		t.Fatalf("%+v, %v", told, err)
	}
	var refused *StatusError
	_, err = GetRevocationStatus(one, [][]byte{list, one}, at, true)
	if !errors.As(err, &refused) || refused.Err.Number > 17 {
		t.Fatalf("%v", err)
	}
}

func TestAnAnswer(t *testing.T) {
	root, last := newAuthority(t, "root"), newAuthority(t, "end")
	at := begin.Add(time.Hour)
	purpose := root.extension("2.5.29.37", false, root.Sequence(root.ObjectIdentifier("1.3.6.1.5.5.7.3.9")))
	delegate := root.issue(t, last, purpose)
	inputs := OCSPInputs{
		Moment:       at,
		Answer:       root.answer(t, at, root.issue(t, last), delegate),
		Issuer:       root.name,
		Algorithm:    root.ObjectIdentifier("1.3.14.3.2.26"),
		NameHash:     []byte("name"),
		KeyHash:      []byte("key"),
		SerialNumber: root.UnsignedInteger([]byte{7}),
	}
	told, err := GetOCSPStatus(inputs)
	if err != nil {
		t.Fatal(err)
	}
	if told.Status != Good || told.Revocation != nil || !told.ThisUpdate.Equal(at) || !told.NextUpdate.IsZero() {
		t.Errorf("%+v", told)
	}
	if len(told.Responders) != 2 || told.Responders[0] != nil || !bytes.Equal(told.Responders[1], delegate) {
		t.Errorf("%x", told.Responders)
	}
	if !told.HasKeyHash || string(told.KeyHash) != "hash" {
		t.Errorf("%x", told.KeyHash)
	}
	inputs.KeyHash = []byte("other")
	_, err = GetOCSPStatus(inputs)
	var refused *StatusError
	if !errors.As(err, &refused) || refused.OCSPStep != OCSPStepNotAnswered || refused.Err.Number != 108 {
		t.Fatalf("%v", err)
	}
	if err.Error() != "der: 3.2 (1) refuses the answer" {
		t.Fatalf("%v", err)
	}
}
