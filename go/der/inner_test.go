package der

import (
	"bytes"
	"crypto/ecdsa"
	"crypto/elliptic"
	"crypto/rand"
	"crypto/rsa"
	"crypto/x509"
	"crypto/x509/pkix"
	"fmt"
	"math/big"
	"net"
	"net/url"
	"testing"
	"time"
)

// values gives the values of the extensions of a certificate that package x509 writes, by the text of their identifiers.
func values(t *testing.T) map[string][]byte {
	key, err := ecdsa.GenerateKey(elliptic.P256(), rand.Reader)
	if err != nil {
		t.Fatal(err)
	}
	address := &url.URL{Scheme: "http", Host: "a"}
	template := &x509.Certificate{
		SerialNumber: big.NewInt(7), Subject: pkix.Name{CommonName: "one"}, NotBefore: time.Unix(0, 0), NotAfter: time.Unix(1, 0),
		DNSNames: []string{"a.example", "*.b.example"}, EmailAddresses: []string{"a@example"}, IPAddresses: []net.IP{{127, 0, 0, 1}},
		URIs: []*url.URL{address}, KeyUsage: x509.KeyUsageCertSign | x509.KeyUsageDecipherOnly, BasicConstraintsValid: true, IsCA: true,
		MaxPathLen: 3, SubjectKeyId: []byte{1, 2}, AuthorityKeyId: []byte{3, 4}, OCSPServer: []string{"http://o"},
		CRLDistributionPoints: []string{"http://c"}, PermittedDNSDomains: []string{"example"}, ExcludedDNSDomains: []string{"x.example"},
	}
	parent := &x509.Certificate{Subject: pkix.Name{CommonName: "two"}, SubjectKeyId: []byte{3, 4}}
	octets, err := x509.CreateCertificate(rand.Reader, template, parent, key.Public(), key)
	if err != nil {
		t.Fatal(err)
	}
	certificate, err := ReadCertificate(octets)
	if err != nil {
		t.Fatal(err)
	}
	found := map[string][]byte{}
	items := certificate.Extensions()
	for items.Next() {
		found[identifierText(items.Item().ExtnID())] = items.Item().Value()
	}
	return found
}

func read[T any](t *testing.T, of func([]byte) (T, error), octets []byte) T {
	t.Helper()
	value, err := of(octets)
	if err != nil {
		t.Fatalf("%x: %v", octets, err)
	}
	return value
}

func equal(t *testing.T, is, want any) {
	t.Helper()
	if fmt.Sprint(is) != fmt.Sprint(want) {
		t.Errorf("%v, not %v", is, want)
	}
}

func TestExtensionValues(t *testing.T) {
	found := values(t)
	equal(t, read(t, NamedBits, found["2.5.29.15"]), 1<<5|1<<8)
	constraints := read(t, ReadBasicConstraints, found["2.5.29.19"])
	equal(t, constraints.CA() != nil, true)
	equal(t, read(t, UnsignedInteger, constraints.PathLenConstraint()), 3)
	equal(t, Contents(read(t, ReadAuthorityKeyIdentifier, found["2.5.29.35"]).KeyIdentifier()), []byte{3, 4})
	limits := read(t, ReadNameConstraints, found["2.5.29.30"])
	tree := read(t, ReadGeneralSubtree, Encodings(limits.ExcludedSubtrees())[0])
	_, name, _ := GeneralName(tree.Base())
	equal(t, string(name), "x.example")
	point := read(t, ReadDistributionPoint, Encodings(found["2.5.29.31"])[0])
	_, name, _ = GeneralName(Encodings(Contents(point.DistributionPoint()))[0])
	equal(t, string(name), "http://c")
	access := read(t, ReadAccessDescription, Encodings(found["1.3.6.1.5.5.7.1.1"])[0])
	_, name, _ = GeneralName(access.AccessLocation())
	equal(t, string(name), "http://o")
}

func TestNames(t *testing.T) {
	var told []string
	for _, encoding := range Encodings(values(t)["2.5.29.17"]) {
		kind, value, err := GeneralName(encoding)
		if err != nil {
			t.Fatal(err)
		}
		told = append(told, fmt.Sprintf("%d %x", kind, value))
	}
	equal(t, told, []string{fmt.Sprintf("%d %x", DNSName, "a.example"), fmt.Sprintf("%d %x", DNSName, "*.b.example"),
		fmt.Sprintf("%d %x", RFC822Name, "a@example"), fmt.Sprintf("%d 7f000001", IPAddress), fmt.Sprintf("%d %x", URI, "http://a")})
}

func TestKeysWithinKeys(t *testing.T) {
	key, err := rsa.GenerateKey(rand.Reader, 2048)
	if err != nil {
		t.Fatal(err)
	}
	public := read(t, ReadRSAPublicKey, x509.MarshalPKCS1PublicKey(&key.PublicKey))
	equal(t, new(big.Int).SetBytes(Contents(public.Modulus())), key.N)
	equal(t, read(t, UnsignedInteger, public.PublicExponent()), key.E)
	private := read(t, ReadRSAPrivateKey, x509.MarshalPKCS1PrivateKey(key))
	equal(t, new(big.Int).SetBytes(Contents(private.PrivateExponent())), key.D)
	equal(t, fmt.Sprintf("%v %+v", *private, *private), "der.RSAPrivateKey der.RSAPrivateKey")
}

func TestTimes(t *testing.T) {
	equal(t, read(t, Time, append([]byte{0x17, 13}, "260102030405Z"...)), time.Date(2026, 1, 2, 3, 4, 5, 0, time.UTC))
	fraction := append([]byte{0x18, 19}, "20260102030405.125Z"...)
	equal(t, read(t, FractionalTime, fraction), time.Date(2026, 1, 2, 3, 4, 5, 0, time.UTC))
	_, err := Time(fraction)
	equal(t, err.(*Error).Number, 13)
}

func TestEncodingsOfNoList(t *testing.T) {
	equal(t, len(Encodings(nil)), 0)
	found := Encodings([]byte{0x30, 5, 5, 0, 5, 0, 2})
	equal(t, len(found) == 2 && bytes.Equal(found[1], []byte{5, 0}), true)
}
