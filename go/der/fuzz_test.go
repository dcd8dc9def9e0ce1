package der

import (
	"errors"
	"fmt"
	"testing"
)

// within fails where a field is not some of the octets of a message.
func within(t *testing.T, octets, field []byte) {
	t.Helper()
	if len(field) == 0 {
		return
	}
	for at := range octets {
		if &octets[at] == &field[0] {
			if at+len(field) > len(octets) {
				t.Errorf("a field ends after the octets: %d and %d of %d", at, len(field), len(octets))
			}
			return
		}
	}
	t.Errorf("a field is a copy: %x", field)
}

// items reads all items of a message that was read: none of them is refused.
func items[T fmt.Stringer](t *testing.T, found *Items[T]) {
	t.Helper()
	for found.Next() {
		if found.Item().String() == "" {
			t.Error("an item has no text")
		}
	}
	if found.Err() != nil {
		t.Errorf("an item of a message that was read: %v", found.Err())
	}
}

// try reads octets as a message. A message that is read has a text, and is used; a refusal has a number, and a position within.
func try[T fmt.Stringer](t *testing.T, octets []byte, read func([]byte) (T, error), use func(T)) {
	t.Helper()
	var fault *Error
	one, err := read(octets)
	if err == nil {
		use(one)
		if one.String() == "" {
			t.Errorf("%T has no text", one)
		}
	} else if !errors.As(err, &fault) || fault.Number < 2 || fault.Number > 16 || int(fault.Position) > len(octets) {
		t.Errorf("%T is refused with %v", one, err)
	}
}

// readAll reads octets as each message.
func readAll(t *testing.T, octets []byte) {
	try(t, octets, ReadCertificate, func(one *Certificate) {
		within(t, octets, one.SubjectPublicKeyInfo())
		items(t, one.Extensions())
		if _, err := NameAttributes(one.Subject()); err != nil {
			t.Errorf("the name of a certificate: %v", err)
		}
	})
	try(t, octets, ReadCertificateList, func(one *CertificateList) {
		within(t, octets, one.TBSCertList())
		items(t, one.RevokedCertificates())
		items(t, one.Extensions())
	})
	try(t, octets, ReadCertificationRequest, func(one *CertificationRequest) {
		within(t, octets, one.SubjectPKInfo())
		items(t, one.Attributes())
	})
	try(t, octets, ReadOCSPResponse, func(one *OCSPResponse) {
		within(t, octets, one.Response())
		try(t, Contents(one.Response()), ReadBasicOCSPResponse, func(basic *BasicOCSPResponse) { items(t, basic.Responses()) })
	})
	try(t, octets, ReadContentInfo, func(one *ContentInfo) {
		try(t, Contents(one.Content()), ReadSignedData, func(data *SignedData) {
			within(t, octets, data.EContent())
			items(t, data.SignerInfos())
		})
	})
	try(t, octets, ReadSubjectPublicKeyInfo, func(one *SubjectPublicKeyInfo) { within(t, octets, one.SubjectPublicKey()) })
	within(t, octets, SignedOctets(octets))
	within(t, octets, Contents(octets))
}

// FuzzRead reads any octets as each message: `go test -fuzz FuzzRead ./der`.
func FuzzRead(f *testing.F) {
	for _, label := range []string{"CERTIFICATE", "X509 CRL", "CERTIFICATE REQUEST", "OCSP RESPONSE", "CMS", "PUBLIC KEY"} {
		for at, octets := range blocks(f, label) {
			if at%20 == 0 {
				f.Add(octets)
			}
		}
	}
	f.Fuzz(readAll)
}
