package der

import (
	"crypto/x509/pkix"
	"encoding/asn1"
	"fmt"
	"time"
)

// nameText is a name for people, by package pkix; in hex if that does not read it.
func nameText(name []byte) string {
	var parts pkix.RDNSequence
	if _, err := asn1.Unmarshal(name, &parts); err != nil {
		return fmt.Sprintf("%x", name)
	}
	return parts.String()
}

// identifierText is an OBJECT IDENTIFIER with dots; in hex if an arc is greater than package asn1 takes.
func identifierText(encoding []byte) string {
	var identifier asn1.ObjectIdentifier
	if _, err := asn1.Unmarshal(encoding, &identifier); err != nil {
		return fmt.Sprintf("%x", encoding)
	}
	return identifier.String()
}

// String has the subject, the serial number and the last second.
func (c *Certificate) String() string {
	name, serial := nameText(c.Subject()), Contents(c.SerialNumber())
	return fmt.Sprintf("Certificate %s, serial number %x, until %s", name, serial, c.NotAfter().Format(time.RFC3339))
}

// String names the extension, and says whether it is critical.
func (e Extension) String() string {
	if e.IsCritical() {
		return fmt.Sprintf("Extension %s, critical", identifierText(e.ExtnID()))
	}
	return fmt.Sprintf("Extension %s", identifierText(e.ExtnID()))
}

// String has the issuer and the date.
func (c *CertificateList) String() string {
	return fmt.Sprintf("CertificateList of %s, of %s", nameText(c.Issuer()), c.ThisUpdate().Format(time.RFC3339))
}

// String says the serial number, and when the certificate was revoked.
func (r RevokedCertificate) String() string {
	return fmt.Sprintf("RevokedCertificate %x, at %s", Contents(r.UserCertificate()), r.RevocationDate().Format(time.RFC3339))
}

// String names the algorithm of the key.
func (s *SubjectPublicKeyInfo) String() string {
	return fmt.Sprintf("SubjectPublicKeyInfo of %s", identifierText(Contents(s.Algorithm())))
}

// String has the subject.
func (c *CertificationRequest) String() string {
	return fmt.Sprintf("CertificationRequest of %s", nameText(c.Subject()))
}

// String says the status.
func (o *OCSPResponse) String() string {
	return fmt.Sprintf("OCSPResponse with status %d", o.ResponseStatus())
}

// String says when the response was made.
func (b *BasicOCSPResponse) String() string {
	return fmt.Sprintf("BasicOCSPResponse of %s", b.ProducedAt().Format(time.RFC3339))
}

// String is good, revoked or unknown.
func (c CertStatus) String() string {
	if c < Good || c > Unknown {
		return fmt.Sprintf("CertStatus(%d)", int(c))
	}
	return [...]string{"good", "revoked", "unknown"}[c]
}

// String says the status of the certificate, and since when it is known.
func (s SingleResponse) String() string {
	return fmt.Sprintf("SingleResponse %s, of %s", s.CertStatus(), s.ThisUpdate().Format(time.RFC3339))
}

// String says the type of the content.
func (c *ContentInfo) String() string {
	return fmt.Sprintf("ContentInfo of %s", identifierText(c.ContentType()))
}

// String says the version, and the type of the content.
func (s *SignedData) String() string {
	return fmt.Sprintf("SignedData of version %d, of %s", s.Version(), identifierText(s.EContentType()))
}

// String says the version, and the algorithm of the signature.
func (s SignerInfo) String() string {
	return fmt.Sprintf("SignerInfo of version %d, by %s", s.Version(), identifierText(Contents(s.SignatureAlgorithm())))
}

// String says the type, and the value in hex.
func (a AttributeTypeAndValue) String() string {
	return fmt.Sprintf("AttributeTypeAndValue %s %x", identifierText(a.Type()), a.Value())
}

// String says the type.
func (a Attribute) String() string { return fmt.Sprintf("Attribute %s", identifierText(a.Type())) }
