package der

import (
	"bytes"
	"crypto/x509"
	"encoding/asn1"
	"encoding/hex"
	"encoding/pem"
	"errors"
	"fmt"
	"math/big"
	"os"
	"path/filepath"
	"strings"
	"testing"
	"time"
)

// The certificates are those of the system, and of the PEM files that DER_TEST_FILES names.
const system = "/etc/ssl/certs/ca-certificates.crt"

// a key of Ed25519 (RFC 8410 10.1)
const keyText = "302a300506032b657003210019bf44096984cdfe8541bac167dc3b96c85086aa30b6b6cb0c5c38ad703166e1"

func key(t *testing.T) []byte {
	octets, err := hex.DecodeString(keyText)
	if err != nil {
		t.Fatal(err)
	}
	return octets
}

// the blocks of all PEM files that have this label
func blocks(t testing.TB, label string) [][]byte {
	var found [][]byte
	for _, name := range append(filepath.SplitList(os.Getenv("DER_TEST_FILES")), system) {
		text, err := os.ReadFile(name)
		if err != nil {
			if name != system {
				t.Fatal(err)
			}
			continue
		}
		for block, rest := pem.Decode(text); block != nil; block, rest = pem.Decode(rest) {
			if block.Type == label {
				found = append(found, block.Bytes)
			}
		}
	}
	return found
}

// What package x509 refuses and is read here, by the beginning of its error, with the clause.
var refusedByX509 = map[string]string{
	"x509: negative serial number":         "RFC 5280 4.1.2.2: a serial number is positive; the grammar has any INTEGER, and CheckRFC5280 tells the rule",
	"x509: unsupported elliptic curve":     "RFC 5480 2.1.1.1: any curve may be named; the key itself is not read here",
	"x509: serial number too long":         "RFC 5280 4.1.2.2: at most 20 octets; CheckRFC5280 tells the rule",
	"x509: invalid basic constraints":      "RFC 5280 4.2: the values of extensions are not read here",
	"x509: certificate contains duplicate": "RFC 5280 4.2: each extension stands once; CheckRFC5280 tells the rule",
}

// certificates are those that are read here, with those of package x509, or nil; each difference is on a list.
func certificates(t *testing.T) (found []*Certificate, wanted []*x509.Certificate) {
	for _, octets := range blocks(t, "CERTIFICATE") {
		one, err := ReadCertificate(octets)
		want, other := x509.ParseCertificate(octets)
		switch {
		case err == nil:
			found, wanted = append(found, one), append(wanted, want)
			if other != nil && !isOnList(other) {
				t.Errorf("refused by x509 alone: %v", other)
			}
		case other == nil && (numberOf(err) != 13 || want.NotBefore.Year() >= 1970):
			// (RFC 5280 4.1.2.5.1: UTCTime has years from 1950 on, and package der from 1970 on)
			t.Errorf("refused here alone: %v", err)
		}
	}
	return found, wanted
}

func isOnList(err error) bool {
	for beginning := range refusedByX509 {
		if strings.HasPrefix(err.Error(), beginning) {
			return true
		}
	}
	return false
}

func same(t *testing.T, name string, is, want []byte) {
	t.Helper()
	if !bytes.Equal(is, want) {
		t.Errorf("%s is %x, not %x", name, is, want)
	}
}

func sameTime(t *testing.T, name string, is, want time.Time) {
	t.Helper()
	if !is.Equal(want) {
		t.Errorf("%s is %v, not %v", name, is, want)
	}
}

func sameNumber(t *testing.T, name string, integer []byte, want *big.Int) {
	t.Helper()
	var is *big.Int
	if rest, err := asn1.Unmarshal(integer, &is); err != nil || len(rest) != 0 || is.Cmp(want) != 0 {
		t.Errorf("%s is %x, not %v", name, integer, want)
	}
}

type extension struct {
	ID       asn1.ObjectIdentifier
	Critical bool `asn1:"optional"`
	Value    []byte
}

func sameExtensions(t *testing.T, found *Items[Extension], want []extension) {
	t.Helper()
	count := 0
	for ; found.Next(); count++ {
		var id asn1.ObjectIdentifier
		one := found.Item()
		if _, err := asn1.Unmarshal(one.ExtnID(), &id); err != nil || count >= len(want) || !id.Equal(want[count].ID) {
			t.Fatalf("extension %d is %x", count, one.Octets())
		}
		if one.IsCritical() != want[count].Critical {
			t.Errorf("extension %d: critical is %t", count, one.IsCritical())
		}
		same(t, "extnValue", one.Value(), want[count].Value)
	}
	if found.Err() != nil || count != len(want) {
		t.Errorf("%d extensions of %d, then %v", count, len(want), found.Err())
	}
}

func TestCertificatesBesideX509(t *testing.T) {
	found, wanted := certificates(t)
	count := 0
	for at, one := range found {
		want := wanted[at]
		if want == nil {
			continue
		}
		count++
		same(t, "the whole", one.Octets(), want.Raw)
		same(t, "tbsCertificate", one.TBSCertificate(), want.RawTBSCertificate)
		same(t, "signed octets", SignedOctets(one.Octets()), want.RawTBSCertificate)
		same(t, "signature", Contents(one.SignatureValue())[1:], want.Signature)
		same(t, "the two algorithms", one.Signature(), one.SignatureAlgorithm())
		sameNumber(t, "serialNumber", one.SerialNumber(), want.SerialNumber)
		same(t, "issuer", one.Issuer(), want.RawIssuer)
		same(t, "subject", one.Subject(), want.RawSubject)
		same(t, "subjectPublicKeyInfo", one.SubjectPublicKeyInfo(), want.RawSubjectPublicKeyInfo)
		sameTime(t, "notBefore", one.NotBefore(), want.NotBefore)
		sameTime(t, "notAfter", one.NotAfter(), want.NotAfter)
		if one.Version() != want.Version {
			t.Errorf("version is %d, not %d", one.Version(), want.Version)
		}
		if text := one.String(); !strings.Contains(text, want.Subject.ToRDNSequence().String()) && len(want.Subject.Names) < 2 {
			t.Errorf("the text is %s", text)
		}
		var extensions []extension
		for _, each := range want.Extensions {
			extensions = append(extensions, extension{each.Id, each.Critical, each.Value})
		}
		sameExtensions(t, one.Extensions(), extensions)
	}
	if count == 0 {
		t.Fatal("no certificate was compared")
	}
	t.Logf("%d certificates", count)
}

func TestListsBesideX509(t *testing.T) {
	for _, octets := range blocks(t, "X509 CRL") {
		want, err := x509.ParseRevocationList(octets)
		if err != nil {
			t.Fatal(err)
		}
		one, err := ReadCertificateList(octets)
		if err != nil {
			t.Fatal(err)
		}
		same(t, "tbsCertList", one.TBSCertList(), want.RawTBSRevocationList)
		same(t, "signature", Contents(one.SignatureValue())[1:], want.Signature)
		same(t, "issuer", one.Issuer(), want.RawIssuer)
		sameTime(t, "thisUpdate", one.ThisUpdate(), want.ThisUpdate)
		next, _ := one.NextUpdate()
		sameTime(t, "nextUpdate", next, want.NextUpdate)
		entries, count := one.RevokedCertificates(), 0
		for ; entries.Next(); count++ {
			entry := entries.Item()
			sameNumber(t, "userCertificate", entry.UserCertificate(), want.RevokedCertificates[count].SerialNumber)
			sameTime(t, "revocationDate", entry.RevocationDate(), want.RevokedCertificates[count].RevocationTime)
			var extensions []extension
			for _, each := range want.RevokedCertificates[count].Extensions {
				extensions = append(extensions, extension{each.Id, each.Critical, each.Value})
			}
			sameExtensions(t, entry.Extensions(), extensions)
		}
		if entries.Err() != nil || count != len(want.RevokedCertificates) {
			t.Errorf("%d entries, then %v", count, entries.Err())
		}
		var extensions []extension
		for _, each := range want.Extensions {
			extensions = append(extensions, extension{each.Id, each.Critical, each.Value})
		}
		sameExtensions(t, one.Extensions(), extensions)
	}
}

func TestPrivateKeysBesideAsn1(t *testing.T) {
	for _, octets := range blocks(t, "PRIVATE KEY") {
		var want struct {
			Version   int
			Algorithm asn1.RawValue
			Key       asn1.RawValue
		}
		if _, err := asn1.Unmarshal(octets, &want); err != nil {
			t.Fatal(err)
		}
		one, err := ReadPrivateKeyInfo(octets)
		if err != nil {
			t.Fatal(err)
		}
		same(t, "privateKeyAlgorithm", one.PrivateKeyAlgorithm(), want.Algorithm.FullBytes)
		same(t, "privateKey", one.PrivateKey(), want.Key.FullBytes)
		if one.Version() != want.Version+1 || one.Attributes() != nil || one.PublicKey() != nil {
			t.Errorf("version %d, attributes %x, publicKey %x", one.Version(), one.Attributes(), one.PublicKey())
		}
		for _, text := range []string{fmt.Sprint(one), fmt.Sprintf("%+v %#v %x", *one, one, one)} {
			if strings.TrimSpace(strings.ReplaceAll(text, "der.PrivateKeyInfo", "")) != "" {
				t.Errorf("a key is shown as %s", text)
			}
		}
	}
}

func TestFieldsAreSlicesOfTheOctets(t *testing.T) {
	octets := key(t)
	one, err := ReadSubjectPublicKeyInfo(octets)
	if err != nil {
		t.Fatal(err)
	}
	same(t, "algorithm", one.Algorithm(), octets[2:9])
	octets[43] ^= 1
	same(t, "subjectPublicKey", one.SubjectPublicKey(), octets[9:])
	if cap(one.Algorithm()) != 7 {
		t.Errorf("there is room behind a field: %d", cap(one.Algorithm()))
	}
}

func TestRefused(t *testing.T) {
	octets := key(t)
	for count := range octets {
		var fault *Error
		_, err := ReadSubjectPublicKeyInfo(octets[:count])
		if !errors.As(err, &fault) || fault.Number != 2 || fault.Words() != "the octets end too soon" {
			t.Errorf("of %d octets: %v", count, err)
		}
	}
	_, first := ReadCertificate(octets)
	_, second := ReadCertificateList(octets)
	_, third := ReadPrivateKeyInfo(octets)
	for _, err := range []error{first, second, third} {
		var fault *Error
		if !errors.As(err, &fault) || fault.Number != 4 || !fault.IsPlaced {
			t.Errorf("another message: %v", err)
		}
	}
	_, err := ReadCertificate([]byte{2, 1, 5})
	if text := "der: another tag stands there than may stand there (4), after 2 octets"; err == nil || err.Error() != text {
		t.Errorf("an error says %v", err)
	}
}

// contentsBesideASN1 compares each encoding with what package asn1 finds, and those in its contents octets.
func contentsBesideASN1(t *testing.T, octets []byte) {
	for len(octets) > 0 {
		var want asn1.RawValue
		rest, err := asn1.Unmarshal(octets, &want)
		if err != nil {
			t.Fatal(err)
		}
		same(t, "encoding", firstEncoding(octets), want.FullBytes)
		same(t, "contents", Contents(octets), want.Bytes)
		if want.IsCompound {
			contentsBesideASN1(t, want.Bytes)
		}
		octets = rest
	}
}

func TestContentsBesideASN1(t *testing.T) {
	certificates, _ := certificates(t)
	for _, one := range certificates {
		contentsBesideASN1(t, one.Octets())
	}
	for _, octets := range [][]byte{{0x1f, 0x81, 0x01, 0x00}, {0x30, 0x82, 0x00, 0x01, 0x05}, {0x9f, 0x81, 0x00, 0x01, 0x07}} {
		if _, end := header(octets); end != len(octets) {
			t.Errorf("%x: %d octets", octets, end)
		}
	}
	for _, octets := range [][]byte{{}, {0x30}, {0x1f}, {0x1f, 0x81}, {0x30, 0x80}, {0x30, 0x85, 0, 0, 0, 0, 0}, {0x30, 0x82, 1}, {0x30, 0x01}, {0x30, 0x84, 0xff, 0xff, 0xff, 0xff}} {
		if start, end := header(octets); start != 0 || end != 0 {
			t.Errorf("%x has no encoding, and not one to %d", octets, end)
		}
	}
}

func TestAnyOctetsHaveSomeContents(t *testing.T) {
	for _, octets := range [][]byte{nil, {}, {0x30}, {0x30, 0x84, 255, 255, 255, 255}, bytes.Repeat([]byte{255}, 9)} {
		if len(Contents(octets)) > len(octets) || len(SignedOctets(octets)) > len(octets) {
			t.Errorf("of %x more is answered", octets)
		}
	}
	items := &Items[Extension]{left: []byte{2, 1, 5}, read: readExtension}
	if items.Next() || items.Next() || items.Err() == nil {
		t.Error("an INTEGER is no extension")
	}
}
