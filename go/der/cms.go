package der

// #include <barleypulley/der.h>
import "C"

// ContentInfo is a message with its type (RFC 5652 section 3).
type ContentInfo struct {
	octets []byte
	at     C.der_content_info_at
}

// ReadContentInfo reads octets as a ContentInfo, all of them. They must not change as long as the answer is used.
func ReadContentInfo(octets []byte) (*ContentInfo, error) {
	read := reading[ContentInfo]{it: ContentInfo{octets: octets}}
	address, count := first(octets)
	if err := answered(C.der_content_info(address, count, &read.it.at, &read.fault), &read.fault); err != nil {
		return nil, err
	}
	return &read.it, nil
}

// written by tools/bindings: fields of ContentInfo

// ContentType returns contentType, an OBJECT IDENTIFIER.
func (c *ContentInfo) ContentType() []byte { return at(c.octets, c.at.content_type) }

// Content returns content, with its explicit tag [0]; if contentType is id-signedData, a SignedData is to be read from
// its contents octets.
func (c *ContentInfo) Content() []byte { return at(c.octets, c.at.content) }

// end of fields of ContentInfo

// SignedData is a signed message (RFC 5652 5.1).
type SignedData struct {
	octets []byte
	at     C.der_signed_data_at
}

// ReadSignedData reads octets as a SignedData, all of them. They must not change as long as the answer is used.
func ReadSignedData(octets []byte) (*SignedData, error) {
	read := reading[SignedData]{it: SignedData{octets: octets}}
	address, count := first(octets)
	if err := answered(C.der_signed_data(address, count, &read.it.at, &read.fault), &read.fault); err != nil {
		return nil, err
	}
	return &read.it, nil
}

// written by tools/bindings: fields of SignedData

// DigestAlgorithms returns digestAlgorithms, a SET OF AlgorithmIdentifier.
func (s *SignedData) DigestAlgorithms() []byte { return at(s.octets, s.at.digest_algorithms) }

// Certificates returns certificates, with their implicit tag [0]; nil if absent.
func (s *SignedData) Certificates() []byte { return at(s.octets, s.at.certificates) }

// CRLs returns crls, with their implicit tag [1]; nil if absent.
func (s *SignedData) CRLs() []byte { return at(s.octets, s.at.crls) }

// EContentType returns eContentType of encapContentInfo, an OBJECT IDENTIFIER.
func (s *SignedData) EContentType() []byte { return at(s.octets, s.at.e_content_type) }

// EContent returns eContent of encapContentInfo, an OCTET STRING with its explicit tag [0]; nil if absent.
func (s *SignedData) EContent() []byte { return at(s.octets, s.at.e_content) }

// end of fields of SignedData

// Version gives version, 0 to 5.
func (s *SignedData) Version() int { return int(s.at.version_number) }

// SignerInfos goes over the signers, in their order.
func (s *SignedData) SignerInfos() *Items[SignerInfo] {
	return &Items[SignerInfo]{left: Contents(at(s.octets, s.at.signer_infos)), read: readSignerInfo}
}

// SignerInfo is a signer (RFC 5652 5.3).
type SignerInfo struct {
	octets []byte
	at     C.der_signer_info_at
}

// readSignerInfo reads the signer at the front of octets, and says how many it has.
func readSignerInfo(octets []byte, to *SignerInfo, fault *C.der_fault) (int, error) {
	address, count := first(octets)
	if err := answered(C.der_signer_info(address, count, &to.at, fault), fault); err != nil {
		return 0, err
	}
	to.octets = at(octets, to.at.whole)
	return len(to.octets), nil
}

// Octets gives the whole SignerInfo.
func (s SignerInfo) Octets() []byte { return s.octets }

// written by tools/bindings: fields of SignerInfo

// SID returns sid, a CHOICE: a SEQUENCE of issuer and serial number, or with its implicit tag [0] a key's identifier.
func (s SignerInfo) SID() []byte { return at(s.octets, s.at.sid) }

// DigestAlgorithm returns digestAlgorithm, an AlgorithmIdentifier.
func (s SignerInfo) DigestAlgorithm() []byte { return at(s.octets, s.at.digest_algorithm) }

// SignedAttrs returns signedAttrs, with their implicit tag [0]; nil if absent.
func (s SignerInfo) SignedAttrs() []byte { return at(s.octets, s.at.signed_attrs) }

// SignatureAlgorithm returns signatureAlgorithm, an AlgorithmIdentifier.
func (s SignerInfo) SignatureAlgorithm() []byte { return at(s.octets, s.at.signature_algorithm) }

// Signature returns signature, an OCTET STRING.
func (s SignerInfo) Signature() []byte { return at(s.octets, s.at.signature) }

// UnsignedAttrs returns unsignedAttrs, with their implicit tag [1]; nil if absent.
func (s SignerInfo) UnsignedAttrs() []byte { return at(s.octets, s.at.unsigned_attrs) }

// end of fields of SignerInfo

// Version gives version, 0 to 5.
func (s SignerInfo) Version() int { return int(s.at.version_number) }

// SignedAttributes goes over the signed attributes, in their order.
func (s SignerInfo) SignedAttributes() *Items[Attribute] { return Attributes(s.SignedAttrs()) }

// UnsignedAttributes goes over the unsigned attributes, in their order.
func (s SignerInfo) UnsignedAttributes() *Items[Attribute] { return Attributes(s.UnsignedAttrs()) }
