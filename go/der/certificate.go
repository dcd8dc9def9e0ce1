package der

// #include <barleypulley/der.h>
import "C"

import "time"

// Certificate is a certificate (RFC 5280 4.1).
type Certificate struct {
	octets []byte
	at     C.der_certificate_at
}

// ReadCertificate reads octets as a certificate, all of them. They must not change as long as the answer is used.
func ReadCertificate(octets []byte) (*Certificate, error) {
	read := reading[Certificate]{it: Certificate{octets: octets}}
	address, count := first(octets)
	if err := answered(C.der_certificate(address, count, &read.it.at, &read.fault), &read.fault); err != nil {
		return nil, err
	}
	return &read.it, nil
}

// Octets gives the whole certificate.
func (c *Certificate) Octets() []byte { return c.octets }

// written by tools/bindings: fields of Certificate

// TBSCertificate returns tbsCertificate, what the signature covers.
func (c *Certificate) TBSCertificate() []byte { return at(c.octets, c.at.tbs_certificate) }

// SignatureAlgorithm returns signatureAlgorithm, an AlgorithmIdentifier.
func (c *Certificate) SignatureAlgorithm() []byte { return at(c.octets, c.at.signature_algorithm) }

// SignatureValue returns signatureValue, a BIT STRING.
func (c *Certificate) SignatureValue() []byte { return at(c.octets, c.at.signature_value) }

// SerialNumber returns serialNumber of tbsCertificate, an INTEGER.
func (c *Certificate) SerialNumber() []byte { return at(c.octets, c.at.serial_number) }

// Signature returns signature of tbsCertificate, an AlgorithmIdentifier.
func (c *Certificate) Signature() []byte { return at(c.octets, c.at.signature) }

// Issuer returns issuer of tbsCertificate, a Name.
func (c *Certificate) Issuer() []byte { return at(c.octets, c.at.issuer) }

// Validity returns validity of tbsCertificate, a SEQUENCE of both dates.
func (c *Certificate) Validity() []byte { return at(c.octets, c.at.validity) }

// Subject returns subject of tbsCertificate, a Name.
func (c *Certificate) Subject() []byte { return at(c.octets, c.at.subject) }

// SubjectPublicKeyInfo returns subjectPublicKeyInfo of tbsCertificate, a SubjectPublicKeyInfo.
func (c *Certificate) SubjectPublicKeyInfo() []byte {
	return at(c.octets, c.at.subject_public_key_info)
}

// IssuerUniqueID returns issuerUniqueID of tbsCertificate, with its implicit tag [1]; nil if absent.
func (c *Certificate) IssuerUniqueID() []byte { return at(c.octets, c.at.issuer_unique_id) }

// SubjectUniqueID returns subjectUniqueID of tbsCertificate, with its implicit tag [2]; nil if absent.
func (c *Certificate) SubjectUniqueID() []byte { return at(c.octets, c.at.subject_unique_id) }

// end of fields of Certificate

// Version is 1, 2 or 3: one more than the number that stands in version.
func (c *Certificate) Version() int { return int(c.at.version_number) + 1 }

// NotBefore gives notBefore.
func (c *Certificate) NotBefore() time.Time { return seconds(c.at.not_before) }

// NotAfter gives notAfter; the certificate is valid in this second too.
func (c *Certificate) NotAfter() time.Time { return seconds(c.at.not_after) }

// Extensions goes over the extensions, in their order.
func (c *Certificate) Extensions() *Items[Extension] {
	return extensions(Contents(at(c.octets, c.at.extensions)))
}

// Extension is an extension (RFC 5280 4.2).
type Extension struct {
	octets []byte
	at     C.der_extension_at
}

// Octets gives the whole extension.
func (e Extension) Octets() []byte { return e.octets }

// written by tools/bindings: fields of Extension

// ExtnID returns extnID, an OBJECT IDENTIFIER.
func (e Extension) ExtnID() []byte { return at(e.octets, e.at.extn_id) }

// ExtnValue returns extnValue, an OCTET STRING.
func (e Extension) ExtnValue() []byte { return at(e.octets, e.at.extn_value) }

// end of fields of Extension

// Identifier gives the contents octets of extnID: 55 1D 0F of keyUsage.
func (e Extension) Identifier() []byte { return Contents(e.ExtnID()) }

// Value gives the contents octets of extnValue: the encoding of what the extension says.
func (e Extension) Value() []byte { return Contents(e.ExtnValue()) }

// IsCritical gives critical.
func (e Extension) IsCritical() bool { return e.at.is_critical == 1 }

// readExtension reads the extension at the front of octets, and says how many it has.
func readExtension(octets []byte, to *Extension, fault *C.der_fault) (int, error) {
	address, count := first(octets)
	if err := answered(C.der_extension(address, count, &to.at, fault), fault); err != nil {
		return 0, err
	}
	to.octets = at(octets, to.at.whole)
	return len(to.octets), nil
}

// extensions goes over those of a list.
func extensions(list []byte) *Items[Extension] {
	return &Items[Extension]{left: Contents(list), read: readExtension}
}
