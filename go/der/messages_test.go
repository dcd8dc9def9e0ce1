package der

import (
	"bytes"
	"crypto/ecdsa"
	"crypto/sha256"
	"crypto/x509"
	"crypto/x509/pkix"
	"encoding/asn1"
	"testing"
	"time"
)

func TestNamesBesideX509(t *testing.T) {
	certificates, _ := certificates(t)
	for _, one := range certificates {
		var want pkix.RDNSequence
		if _, err := asn1.Unmarshal(one.Subject(), &want); err != nil {
			continue
		}
		found, err := NameAttributes(one.Subject())
		if err != nil {
			t.Fatal(err)
		}
		count := 0
		for _, part := range want {
			for _, attribute := range part {
				var id asn1.ObjectIdentifier
				if _, err := asn1.Unmarshal(found[count].Type(), &id); err != nil || !id.Equal(attribute.Type) {
					t.Errorf("type is %v, not %v", id, attribute.Type)
				}
				if text, is := attribute.Value.(string); is && found[count].Value()[0] == asn1.TagUTF8String {
					same(t, "value", Contents(found[count].Value()), []byte(text))
				}
				count++
			}
		}
		if count != len(found) {
			t.Errorf("%d attributes, not %d", len(found), count)
		}
	}
}

func TestRequestsBesideX509(t *testing.T) {
	for _, octets := range blocks(t, "CERTIFICATE REQUEST") {
		want, err := x509.ParseCertificateRequest(octets)
		if err != nil {
			t.Fatal(err)
		}
		one, err := ReadCertificationRequest(octets)
		if err != nil {
			t.Fatal(err)
		}
		same(t, "certificationRequestInfo", one.CertificationRequestInfo(), want.RawTBSCertificateRequest)
		same(t, "signed octets", SignedOctets(octets), want.RawTBSCertificateRequest)
		same(t, "signature", Contents(one.Signature())[1:], want.Signature)
		same(t, "subject", one.Subject(), want.RawSubject)
		same(t, "subjectPKInfo", one.SubjectPKInfo(), want.RawSubjectPublicKeyInfo)
		var info struct {
			Version      int
			Subject, Key asn1.RawValue
			Attributes   []asn1.RawValue `asn1:"tag:0,set"`
		}
		if _, err := asn1.Unmarshal(want.RawTBSCertificateRequest, &info); err != nil {
			t.Fatal(err)
		}
		found, count, extensions := one.Attributes(), 0, 0
		for ; found.Next(); count++ {
			same(t, "attribute", found.Item().Octets(), info.Attributes[count].FullBytes)
			if bytes.Equal(found.Item().Identifier(), []byte{0x2a, 0x86, 0x48, 0x86, 0xf7, 0x0d, 1, 9, 14}) {
				extensions++
			}
		}
		if found.Err() != nil || count != len(info.Attributes) || (extensions == 0) != (len(want.Extensions) == 0) {
			t.Errorf("%d attributes, then %v", count, found.Err())
		}
	}
}

type singleResponse struct {
	CertID  asn1.RawValue
	Status  asn1.RawValue
	Updated asn1.RawValue
	Next    asn1.RawValue `asn1:"optional,explicit,tag:0"`
}

func TestAnswersBesideAsn1(t *testing.T) {
	for _, octets := range blocks(t, "OCSP RESPONSE") {
		one, err := ReadOCSPResponse(octets)
		if err != nil {
			t.Fatal(err)
		}
		if (one.Response() == nil) != (one.ResponseStatus() != 0) || (one.ResponseType() == nil) != (one.Response() == nil) {
			t.Fatalf("status %d, response %x", one.ResponseStatus(), one.Response())
		}
		if one.Response() == nil {
			continue
		}
		same(t, "responseType", Contents(one.ResponseType()), []byte{0x2b, 6, 1, 5, 5, 7, 0x30, 1, 1})
		basic, err := ReadBasicOCSPResponse(Contents(one.Response()))
		if err != nil {
			t.Fatal(err)
		}
		var all []singleResponse
		list := at(basic.octets, basic.at.responses)
		if _, err := asn1.Unmarshal(list, &all); err != nil {
			t.Fatal(err)
		}
		found, count := basic.Responses(), 0
		for ; found.Next(); count++ {
			same(t, "certID", found.Item().CertID(), all[count].CertID.FullBytes)
			if int(found.Item().CertStatus()) != all[count].Status.Tag {
				t.Errorf("status is %d, not %d", found.Item().CertStatus(), all[count].Status.Tag)
			}
			var want time.Time
			if _, err := asn1.Unmarshal(all[count].Status.Bytes, &want); all[count].Status.Tag == 1 && err != nil {
				t.Fatal(err)
			}
			if revoked, is := found.Item().RevocationTime(); is != (all[count].Status.Tag == 1) || !revoked.Equal(want) {
				t.Errorf("revoked at %v, not %v", revoked, want)
			}
		}
		if found.Err() != nil || count != len(all) {
			t.Errorf("%d answers, then %v", count, found.Err())
		}
	}
}

// the key that signed the messages
func signer(t *testing.T) *ecdsa.PublicKey {
	for _, octets := range blocks(t, "PRIVATE KEY") {
		key, err := x509.ParsePKCS8PrivateKey(octets)
		if err != nil {
			t.Fatal(err)
		}
		if key, is := key.(*ecdsa.PrivateKey); is {
			return &key.PublicKey
		}
	}
	t.Skip("no message was named")
	return nil
}

func TestSignaturesOfMessages(t *testing.T) {
	key := signer(t)
	for _, octets := range blocks(t, "CMS") {
		message, err := ReadContentInfo(octets)
		if err != nil {
			t.Fatal(err)
		}
		data, err := ReadSignedData(Contents(message.Content()))
		if err != nil {
			t.Fatal(err)
		}
		signers := data.SignerInfos()
		if !signers.Next() {
			t.Fatal(signers.Err())
		}
		one := signers.Item()
		signed := append([]byte{0x31}, one.SignedAttrs()[1:]...)
		digest := sha256.Sum256(signed)
		if !ecdsa.VerifyASN1(key, digest[:], Contents(one.Signature())) {
			t.Error("the signature does not cover the signed attributes")
		}
		content := sha256.Sum256(Contents(Contents(data.EContent())))
		for found := one.SignedAttributes(); found.Next(); {
			identifier := found.Item().Identifier()
			if data.EContent() != nil && identifier[len(identifier)-1] == 4 {
				same(t, "messageDigest", Contents(Contents(found.Item().Values())), content[:])
			}
		}
		if signers.Next() || signers.Err() != nil {
			t.Errorf("a second signer, or %v", signers.Err())
		}
	}
}

func TestWhatIsNoNameIsRefused(t *testing.T) {
	rows := map[string]uint32{"\x30\x02\x31\x00": 2, "\x30\x04\x31\x02\x30\x00": 2, "\x30\x04\x31\x02\x05\x00": 4, "\x30\x01\xff": 2}
	for octets, number := range rows {
		found, err := NameAttributes([]byte(octets))
		if fault, is := err.(*Error); !is || fault.Number != number || found != nil {
			t.Errorf("%x is answered with %v", octets, err)
		}
	}
	if found, err := NameAttributes([]byte{0x30, 0}); err != nil || len(found) != 0 {
		t.Errorf("a name with no part is answered with %v", err)
	}
	if !bytes.Equal(firstEncoding([]byte{5, 0, 1}), []byte{5, 0}) {
		t.Error("NULL is not found")
	}
}
