package der

import (
	"bytes"
	"crypto"
	"crypto/ecdsa"
	"crypto/ed25519"
	"crypto/elliptic"
	"crypto/rand"
	"crypto/rsa"
	"crypto/sha1"
	"crypto/sha256"
	"crypto/x509"
	"encoding/hex"
	"testing"
	"time"
)

var begin, end = time.Date(2026, 1, 1, 0, 0, 0, 0, time.UTC), time.Date(2051, 1, 1, 0, 0, 0, 0, time.UTC)

// octetsOf gives the octets of the items, of which none is refused.
func octetsOf[T interface{ Octets() []byte }](t *testing.T, items *Items[T]) (found [][]byte) {
	for items.Next() {
		found = append(found, items.Item().Octets())
	}
	if items.Err() != nil {
		t.Error(items.Err())
	}
	return found
}

func well(t *testing.T, w *Writer) {
	t.Helper()
	if w.Err() != nil {
		t.Fatal(w.Err())
	}
}

func TestCertificatesAreWrittenAgain(t *testing.T) {
	found, _ := certificates(t)
	for _, one := range found {
		var w Writer
		for it := one.Extensions(); it.Next(); {
			again := it.Item()
			fields := ExtensionFields{ExtnID: again.ExtnID(), IsCritical: again.IsCritical(), ExtnValue: again.ExtnValue()}
			same(t, "an extension", w.Extension(fields), again.Octets())
		}
		body := w.TBSCertificate(TBSCertificateFields{
			Version:              one.Version(),
			SerialNumber:         one.SerialNumber(),
			Signature:            one.Signature(),
			Issuer:               one.Issuer(),
			NotBefore:            one.NotBefore(),
			NotAfter:             one.NotAfter(),
			Subject:              one.Subject(),
			SubjectPublicKeyInfo: one.SubjectPublicKeyInfo(),
			IssuerUniqueID:       one.IssuerUniqueID(),
			SubjectUniqueID:      one.SubjectUniqueID(),
			Extensions:           octetsOf(t, one.Extensions()),
		})
		// (some certificates have a GeneralizedTime of a date before 2050; RFC 5280 4.1.2.5)
		if bytes.Equal(w.Sequence(w.Time(one.NotBefore()), w.Time(one.NotAfter())), one.Validity()) {
			same(t, "tbsCertificate", body, one.TBSCertificate())
		}
		same(t, "the certificate", w.Certificate(CertificateFields{
			TBSCertificate:     one.TBSCertificate(),
			SignatureAlgorithm: one.SignatureAlgorithm(),
			SignatureValue:     one.SignatureValue(),
		}), one.Octets())
		well(t, &w)
	}
}

func TestListsAreWrittenAgain(t *testing.T) {
	for _, octets := range blocks(t, "X509 CRL") {
		one, err := ReadCertificateList(octets)
		if err != nil {
			t.Fatal(err)
		}
		var w Writer
		for it := one.RevokedCertificates(); it.Next(); {
			again := it.Item()
			same(t, "an entry", w.RevokedCertificate(RevokedCertificateFields{
				UserCertificate:    again.UserCertificate(),
				RevocationDate:     again.RevocationDate(),
				CRLEntryExtensions: octetsOf(t, again.Extensions()),
			}), again.Octets())
		}
		next, _ := one.NextUpdate()
		same(t, "tbsCertList", w.TBSCertList(TBSCertListFields{
			Version:             one.Version(),
			Signature:           one.Signature(),
			Issuer:              one.Issuer(),
			ThisUpdate:          one.ThisUpdate(),
			NextUpdate:          next,
			RevokedCertificates: octetsOf(t, one.RevokedCertificates()),
			CRLExtensions:       octetsOf(t, one.Extensions()),
		}), one.TBSCertList())
		same(t, "the list", w.CertificateList(CertificateListFields{
			TBSCertList:        one.TBSCertList(),
			SignatureAlgorithm: one.SignatureAlgorithm(),
			SignatureValue:     one.SignatureValue(),
		}), octets)
		well(t, &w)
	}
}

func TestRequestsAreWrittenAgain(t *testing.T) {
	for _, octets := range blocks(t, "CERTIFICATE REQUEST") {
		one, err := ReadCertificationRequest(octets)
		if err != nil {
			t.Fatal(err)
		}
		var w Writer
		attributes := octetsOf(t, one.Attributes())
		for i, j := 0, len(attributes)-1; i < j; i, j = i+1, j-1 {
			attributes[i], attributes[j] = attributes[j], attributes[i]
		}
		same(t, "certificationRequestInfo", w.CertificationRequestInfo(CertificationRequestInfoFields{
			Subject:       one.Subject(),
			SubjectPKInfo: one.SubjectPKInfo(),
			Attributes:    attributes,
		}), one.CertificationRequestInfo())
		same(t, "the request", w.CertificationRequest(CertificationRequestFields{
			CertificationRequestInfo: one.CertificationRequestInfo(),
			SignatureAlgorithm:       one.SignatureAlgorithm(),
			Signature:                one.Signature(),
		}), octets)
		well(t, &w)
	}
}

func TestResponsesAreWrittenAgain(t *testing.T) {
	for _, octets := range blocks(t, "OCSP RESPONSE") {
		one, err := ReadOCSPResponse(octets)
		if err != nil {
			t.Fatal(err)
		}
		var w Writer
		fields := OCSPResponseFields{ResponseStatus: int64(one.ResponseStatus())}
		if one.Response() != nil {
			fields.ResponseBytes = w.ResponseBytes(Contents(one.Response()))
			basicIsWrittenAgain(t, Contents(one.Response()))
		}
		same(t, "the response", w.OCSPResponse(fields), octets)
		well(t, &w)
	}
}

func basicIsWrittenAgain(t *testing.T, octets []byte) {
	one, err := ReadBasicOCSPResponse(octets)
	if err != nil {
		t.Fatal(err)
	}
	var w Writer
	for it := one.Responses(); it.Next(); {
		again := it.Item()
		next, _ := again.NextUpdate()
		same(t, "a response about one certificate", w.SingleResponse(SingleResponseFields{
			CertID:           again.CertID(),
			CertStatus:       Encodings(again.Octets())[1],
			ThisUpdate:       again.ThisUpdate(),
			NextUpdate:       next,
			SingleExtensions: octetsOf(t, again.Extensions()),
		}), again.Octets())
	}
	same(t, "tbsResponseData", w.ResponseData(ResponseDataFields{
		ResponderID:        one.ResponderID(),
		ProducedAt:         one.ProducedAt(),
		Responses:          octetsOf(t, one.Responses()),
		ResponseExtensions: octetsOf(t, one.Extensions()),
	}), one.TBSResponseData())
	same(t, "the signed response", w.BasicOCSPResponse(BasicOCSPResponseFields{
		TBSResponseData:    one.TBSResponseData(),
		SignatureAlgorithm: one.SignatureAlgorithm(),
		Signature:          one.Signature(),
		Certs:              Encodings(Contents(one.Certs())),
	}), octets)
	well(t, &w)
}

// issuing has a key, and writes what is signed by it.
type issuing struct {
	Writer
	key                    *ecdsa.PrivateKey
	point, info, name, how []byte
}

func newIssuing(t *testing.T) *issuing {
	key, err := ecdsa.GenerateKey(elliptic.P256(), rand.Reader)
	if err != nil {
		t.Fatal(err)
	}
	s := issuing{key: key, point: elliptic.Marshal(key.Curve, key.X, key.Y)}
	s.info = s.P256Key(s.point)
	s.name = s.Name(NameText{"2.5.4.6", "GB"}, NameText{"2.5.4.3", "mill"})
	s.how = s.AlgorithmIdentifier("1.2.840.10045.4.3.2", nil)
	return &s
}

func (s *issuing) sign(t *testing.T, octets []byte) []byte {
	hash := sha256.Sum256(octets)
	signature, err := s.key.Sign(rand.Reader, hash[:], crypto.SHA256)
	if err != nil {
		t.Fatal(err)
	}
	return s.BitString(signature)
}

func (s *issuing) extension(dotted string, isCritical bool, value []byte) []byte {
	fields := ExtensionFields{ExtnID: s.ObjectIdentifier(dotted), IsCritical: isCritical, ExtnValue: s.OctetString(value)}
	return s.Extension(fields)
}

func (s *issuing) own(t *testing.T) []byte {
	body := s.TBSCertificate(TBSCertificateFields{
		Version:              3,
		SerialNumber:         s.UnsignedInteger([]byte{0xc5, 7}),
		Signature:            s.how,
		Issuer:               s.name,
		NotBefore:            begin,
		NotAfter:             end,
		Subject:              s.name,
		SubjectPublicKeyInfo: s.info,
		Extensions: [][]byte{
			s.extension("2.5.29.19", true, s.Sequence(s.Boolean(true))),
			s.extension("2.5.29.15", true, s.NamedBits(1<<5|1<<6)),
			s.extension("2.5.29.17", false, s.Sequence(s.GeneralName(DNSName, []byte("mill.example")))),
		},
	})
	return s.Certificate(CertificateFields{TBSCertificate: body, SignatureAlgorithm: s.how, SignatureValue: s.sign(t, body)})
}

func TestX509ReadsACertificate(t *testing.T) {
	s := newIssuing(t)
	found, err := x509.ParseCertificate(s.own(t))
	well(t, &s.Writer)
	if err != nil {
		t.Fatal(err)
	}
	if err := found.CheckSignatureFrom(found); err != nil {
		t.Error(err)
	}
	sameTime(t, "notBefore", begin, found.NotBefore)
	sameTime(t, "notAfter", end, found.NotAfter)
	if found.Subject.String() != "CN=mill,C=GB" || found.SerialNumber.Int64() != 0xc507 || found.Version != 3 {
		t.Errorf("%v %v %v", found.Subject, found.SerialNumber, found.Version)
	}
	if !found.IsCA || found.KeyUsage != x509.KeyUsageCertSign|x509.KeyUsageCRLSign || found.DNSNames[0] != "mill.example" {
		t.Errorf("%v %v %v", found.IsCA, found.KeyUsage, found.DNSNames)
	}
	if !s.key.PublicKey.Equal(found.PublicKey) {
		t.Error("another key")
	}
}

func TestX509ReadsARequest(t *testing.T) {
	s := newIssuing(t)
	asked := s.Sequence(s.extension("2.5.29.17", false, s.Sequence(s.GeneralName(DNSName, []byte("mill.example")))))
	info := s.CertificationRequestInfo(CertificationRequestInfoFields{
		Subject:       s.name,
		SubjectPKInfo: s.info,
		Attributes:    [][]byte{s.Attribute("1.2.840.113549.1.9.14", asked)},
	})
	found, err := x509.ParseCertificateRequest(s.CertificationRequest(CertificationRequestFields{
		CertificationRequestInfo: info,
		SignatureAlgorithm:       s.how,
		Signature:                s.sign(t, info),
	}))
	well(t, &s.Writer)
	if err != nil {
		t.Fatal(err)
	}
	if err := found.CheckSignature(); err != nil || found.DNSNames[0] != "mill.example" {
		t.Errorf("%v %v", err, found.DNSNames)
	}
}

func TestX509ReadsAList(t *testing.T) {
	s := newIssuing(t)
	entry := s.RevokedCertificate(RevokedCertificateFields{
		UserCertificate:    s.UnsignedInteger([]byte{9}),
		RevocationDate:     begin,
		CRLEntryExtensions: [][]byte{s.extension("2.5.29.21", false, s.Enumerated(1))},
	})
	body := s.TBSCertList(TBSCertListFields{
		Version:             2,
		Signature:           s.how,
		Issuer:              s.name,
		ThisUpdate:          begin,
		NextUpdate:          end,
		RevokedCertificates: [][]byte{entry},
		CRLExtensions: [][]byte{
			s.extension("2.5.29.35", false, s.Sequence(s.Implicit(0, []byte{1, 2, 3}))),
			s.extension("2.5.29.20", false, s.UnsignedInteger([]byte{3})),
		},
	})
	list := s.CertificateList(CertificateListFields{TBSCertList: body, SignatureAlgorithm: s.how, SignatureValue: s.sign(t, body)})
	found, err := x509.ParseRevocationList(list)
	well(t, &s.Writer)
	if err != nil {
		t.Fatal(err)
	}
	own, err := x509.ParseCertificate(s.own(t))
	if err != nil {
		t.Fatal(err)
	}
	if err := found.CheckSignatureFrom(own); err != nil {
		t.Error(err)
	}
	sameTime(t, "nextUpdate", end, found.NextUpdate)
	if found.Number.Int64() != 3 || found.RevokedCertificates[0].SerialNumber.Int64() != 9 {
		t.Errorf("%v %v", found.Number, found.RevokedCertificates)
	}
}

func (s *issuing) certID() []byte {
	name, key := sha1.Sum(s.name), sha1.Sum(s.point)
	return s.CertID(CertIDFields{
		HashAlgorithm:  s.AlgorithmIdentifier("1.3.14.3.2.26", s.Null()),
		IssuerNameHash: s.OctetString(name[:]),
		IssuerKeyHash:  s.OctetString(key[:]),
		SerialNumber:   s.UnsignedInteger([]byte{9}),
	})
}

func TestARequestOfOCSP(t *testing.T) {
	s := newIssuing(t)
	one := s.Request(RequestFields{ReqCert: s.certID()})
	body := s.TBSRequest(TBSRequestFields{RequestList: [][]byte{one}})
	asked, err := ReadOCSPRequest(s.OCSPRequest(OCSPRequestFields{TBSRequest: body}))
	well(t, &s.Writer)
	if err != nil {
		t.Fatal(err)
	}
	found, err := ReadTBSRequest(asked.TBSRequest())
	if err != nil {
		t.Fatal(err)
	}
	same(t, "the request", Encodings(found.RequestList())[0], one)
}

func TestAResponseOfOCSP(t *testing.T) {
	s := newIssuing(t)
	for status, octets := range map[CertStatus][]byte{Good: s.Good(), Unknown: s.Unknown(), Revoked: s.Revoked(begin, 1)} {
		single := s.SingleResponse(SingleResponseFields{CertID: s.certID(), CertStatus: octets, ThisUpdate: begin, NextUpdate: end})
		data := s.ResponseData(ResponseDataFields{
			ResponderID: s.Explicit(1, s.name),
			ProducedAt:  begin,
			Responses:   [][]byte{single},
		})
		basic := s.BasicOCSPResponse(BasicOCSPResponseFields{
			TBSResponseData:    data,
			SignatureAlgorithm: s.how,
			Signature:          s.sign(t, data),
			Certs:              [][]byte{s.own(t)},
		})
		answer, err := ReadOCSPResponse(s.OCSPResponse(OCSPResponseFields{ResponseBytes: s.ResponseBytes(basic)}))
		well(t, &s.Writer)
		if err != nil {
			t.Fatal(err)
		}
		found, err := ReadBasicOCSPResponse(Contents(answer.Response()))
		if err != nil {
			t.Fatal(err)
		}
		hash := sha256.Sum256(found.TBSResponseData())
		if !ecdsa.VerifyASN1(&s.key.PublicKey, hash[:], Contents(found.Signature())[1:]) {
			t.Error("the signature is wrong")
		}
		responses := found.Responses()
		if !responses.Next() || responses.Item().CertStatus() != status {
			t.Errorf("%v, not %v", responses.Item(), status)
		}
		if date, is := responses.Item().RevocationTime(); is != (status == Revoked) || is && !date.Equal(begin) {
			t.Errorf("%v %v", date, is)
		}
	}
}

func TestKeysThatAreWritten(t *testing.T) {
	var w Writer
	short, _, err := ed25519.GenerateKey(rand.Reader)
	if err != nil {
		t.Fatal(err)
	}
	long, err := rsa.GenerateKey(rand.Reader, 1024)
	if err != nil {
		t.Fatal(err)
	}
	for _, row := range []struct {
		key   interface{}
		found []byte
	}{{short, w.Ed25519Key(short)}, {&long.PublicKey, w.RSAKey(x509.MarshalPKCS1PublicKey(&long.PublicKey))}} {
		want, err := x509.MarshalPKIXPublicKey(row.key)
		if err != nil {
			t.Fatal(err)
		}
		same(t, "the key", row.found, want)
	}
}

func TestValuesThatAreWritten(t *testing.T) {
	rows := []struct {
		write func(w *Writer) []byte
		want  string
		error uint32
	}{
		{func(w *Writer) []byte { return w.ObjectIdentifier("2.5.29.17") }, "0603551d11", 0},
		{func(w *Writer) []byte { return w.ObjectIdentifier("0.9") }, "060109", 0},
		{func(w *Writer) []byte { return w.ObjectIdentifier("2.999.128") }, "060488378100", 0},
		{func(w *Writer) []byte { return w.ObjectIdentifier("2.18446744073709551535") }, "060a81ffffffffffffffff7f", 0},
		{func(w *Writer) []byte { return w.ObjectIdentifier("2.18446744073709551536") }, "", 15},
		{func(w *Writer) []byte { return w.ObjectIdentifier("") }, "", 15},
		{func(w *Writer) []byte { return w.ObjectIdentifier("1.40") }, "", 15},
		{func(w *Writer) []byte { return w.ObjectIdentifier("2.05") }, "", 15},
		{func(w *Writer) []byte { return w.NamedBits(0) }, "030100", 0},
		{func(w *Writer) []byte { return w.NamedBits(1 << 8) }, "0303070080", 0},
		{func(w *Writer) []byte { return w.UnsignedInteger([]byte{0, 0xc5}) }, "020200c5", 0},
		{func(w *Writer) []byte { return w.SetOf([]byte{2, 1, 8}, []byte{2, 1, 7}) }, "3106020107020108", 0},
		{func(w *Writer) []byte { return w.Enumerated(128) }, "0a020080", 0},
		{func(w *Writer) []byte { return w.ImplicitSequence(1, []byte{2, 1, 8}, []byte{5, 0}) }, "a1050201080500", 0},
		{func(w *Writer) []byte { return w.Explicit(31, nil) }, "", 6},
		{func(w *Writer) []byte { return w.Implicit(-1, nil) }, "", 6},
		{func(w *Writer) []byte { return w.Time(end) }, "180f32303531303130313030303030305a", 0},
		{func(w *Writer) []byte { return w.Time(time.Unix(-1, 0)) }, "", 14},
		{func(w *Writer) []byte { return w.NameAttribute("2.5.4.6", "long") }, "", 13},
		{func(w *Writer) []byte { return w.OCSPResponse(OCSPResponseFields{ResponseStatus: 6}) }, "30030a0106", 0},
		{func(w *Writer) []byte { return w.OCSPResponse(OCSPResponseFields{ResponseStatus: 4}) }, "", 13},
		{func(w *Writer) []byte { return w.Request(RequestFields{ReqCert: []byte{2, 1, 5}}) }, "", 4},
		{func(w *Writer) []byte { return w.Request(RequestFields{}) }, "", 2},
		{func(w *Writer) []byte { return w.TBSCertList(TBSCertListFields{}) }, "", 13},
	}
	for number, row := range rows {
		var w Writer
		found := row.write(&w)
		if hex.EncodeToString(found) != row.want || numberOf(w.Err()) != row.error {
			t.Errorf("%d: %x, %v", number, found, w.Err())
		}
		if w.Err() != nil && (w.Null() != nil || numberOf(w.Err()) != row.error) {
			t.Errorf("%d: an encoding after an error", number)
		}
	}
}

func TestTheFirstSecondIsNoAbsentDate(t *testing.T) {
	var w Writer
	fields := TBSCertListFields{
		Version:    2,
		Signature:  w.AlgorithmIdentifier("1.3.101.112", nil),
		Issuer:     w.Name(),
		ThisUpdate: time.Unix(0, 0),
	}
	if list := w.TBSCertList(fields); !bytes.HasSuffix(list, []byte("700101000000Z")) {
		t.Errorf("%x, %v", list, w.Err())
	}
	fields.NextUpdate = time.Unix(0, 0)
	if list := w.TBSCertList(fields); list != nil || numberOf(w.Err()) != 14 {
		t.Errorf("%x, %v", list, w.Err())
	}
}
