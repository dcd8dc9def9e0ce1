package der

// #include <barleypulley/der.h>
import "C"

import "time"

// CertificateList is a list of revoked certificates (RFC 5280 5.1).
type CertificateList struct {
	octets []byte
	at     C.der_certificate_list_at
}

// ReadCertificateList reads octets as a list of revoked certificates, all of them. They must not change as long as the answer
// is used.
func ReadCertificateList(octets []byte) (*CertificateList, error) {
	read := reading[CertificateList]{it: CertificateList{octets: octets}}
	address, count := first(octets)
	if err := answered(C.der_certificate_list(address, count, &read.it.at, &read.fault), &read.fault); err != nil {
		return nil, err
	}
	return &read.it, nil
}

// Octets gives the whole list.
func (c *CertificateList) Octets() []byte { return c.octets }

// written by tools/bindings: fields of CertificateList

// TBSCertList returns tbsCertList, what the signature covers.
func (c *CertificateList) TBSCertList() []byte { return at(c.octets, c.at.tbs_cert_list) }

// SignatureAlgorithm returns signatureAlgorithm, an AlgorithmIdentifier.
func (c *CertificateList) SignatureAlgorithm() []byte {
	return at(c.octets, c.at.signature_algorithm)
}

// SignatureValue returns signatureValue, a BIT STRING.
func (c *CertificateList) SignatureValue() []byte { return at(c.octets, c.at.signature_value) }

// Signature returns signature of tbsCertList, an AlgorithmIdentifier.
func (c *CertificateList) Signature() []byte { return at(c.octets, c.at.signature) }

// Issuer returns issuer of tbsCertList, a Name.
func (c *CertificateList) Issuer() []byte { return at(c.octets, c.at.issuer) }

// end of fields of CertificateList

// Version is 1 or 2: one more than the number that stands in version.
func (c *CertificateList) Version() int { return int(c.at.version_number) + 1 }

// ThisUpdate gives thisUpdate.
func (c *CertificateList) ThisUpdate() time.Time { return seconds(c.at.this_update_seconds) }

// NextUpdate gives nextUpdate, and whether it is there.
func (c *CertificateList) NextUpdate() (time.Time, bool) {
	if c.at.next_update.length == 0 {
		return time.Time{}, false
	}
	return seconds(c.at.next_update_seconds), true
}

// RevokedCertificates goes over the entries, in their order.
func (c *CertificateList) RevokedCertificates() *Items[RevokedCertificate] {
	list := at(c.octets, c.at.revoked_certificates)
	return &Items[RevokedCertificate]{left: Contents(list), read: readRevokedCertificate}
}

// Extensions goes over the extensions, in their order.
func (c *CertificateList) Extensions() *Items[Extension] {
	return extensions(Contents(at(c.octets, c.at.crl_extensions)))
}

// RevokedCertificate is an entry of a list (RFC 5280 5.1.2.6).
type RevokedCertificate struct {
	octets []byte
	at     C.der_revoked_certificate_at
}

// Octets gives the whole entry.
func (r RevokedCertificate) Octets() []byte { return r.octets }

// written by tools/bindings: fields of RevokedCertificate

// UserCertificate returns userCertificate, an INTEGER.
func (r RevokedCertificate) UserCertificate() []byte { return at(r.octets, r.at.user_certificate) }

// CRLEntryExtensions returns crlEntryExtensions, a SEQUENCE OF; nil if absent.
func (r RevokedCertificate) CRLEntryExtensions() []byte {
	return at(r.octets, r.at.crl_entry_extensions)
}

// end of fields of RevokedCertificate

// RevocationDate gives revocationDate.
func (r RevokedCertificate) RevocationDate() time.Time { return seconds(r.at.revocation_date_seconds) }

// Extensions goes over the extensions, in their order.
func (r RevokedCertificate) Extensions() *Items[Extension] {
	return extensions(at(r.octets, r.at.crl_entry_extensions))
}

// readRevokedCertificate reads the entry at the front of octets, and says how many it has.
func readRevokedCertificate(octets []byte, to *RevokedCertificate, fault *C.der_fault) (int, error) {
	address, count := first(octets)
	if err := answered(C.der_revoked_certificate(address, count, &to.at, fault), fault); err != nil {
		return 0, err
	}
	to.octets = at(octets, to.at.whole)
	return len(to.octets), nil
}
