package der

// #include <barleypulley/der.h>
import "C"

import "time"

// written by tools/bindings: messages

// TBSCertificateFields has the fields of a body of a certificate, which is signed (TBSCertificate, RFC 5280 4.1.1.1).
type TBSCertificateFields struct {
	// Version is version: 1 for v1, 2 for v2 and so on.
	Version int
	// SerialNumber is serialNumber, an INTEGER.
	SerialNumber []byte
	// Signature is signature, an AlgorithmIdentifier.
	Signature []byte
	// Issuer is issuer, a Name.
	Issuer []byte
	// NotBefore is notBefore; a fraction of a second is left out.
	NotBefore time.Time
	// NotAfter is notAfter; a fraction of a second is left out.
	NotAfter time.Time
	// Subject is subject, a Name.
	Subject []byte
	// SubjectPublicKeyInfo is subjectPublicKeyInfo, a SubjectPublicKeyInfo.
	SubjectPublicKeyInfo []byte
	// IssuerUniqueID is issuerUniqueID, with its implicit tag [1]; nil if absent.
	IssuerUniqueID []byte
	// SubjectUniqueID is subjectUniqueID, with its implicit tag [2]; nil if absent.
	SubjectUniqueID []byte
	// Extensions is extensions: the encodings of its items, in this order; absent if there are none.
	Extensions [][]byte
}

// TBSCertificate writes a body of a certificate, which is signed.
func (w *Writer) TBSCertificate(fields TBSCertificateFields) []byte {
	var at C.der_certificate_at
	var put parts
	at.version_number = C.uint64_t(fields.Version - 1)
	at.serial_number = put.field(fields.SerialNumber)
	at.signature = put.field(fields.Signature)
	at.issuer = put.field(fields.Issuer)
	at.not_before = moment(fields.NotBefore)
	at.not_after = moment(fields.NotAfter)
	at.subject = put.field(fields.Subject)
	at.subject_public_key_info = put.field(fields.SubjectPublicKeyInfo)
	at.issuer_unique_id = put.field(fields.IssuerUniqueID)
	at.subject_unique_id = put.field(fields.SubjectUniqueID)
	at.extensions = w.optionalItems(&put, fields.Extensions, 0x30, 0xa3)
	return w.written("TBSCertificate", put.octets, func(octets []byte, to *target) C.uint32_t {
		address, count := first(octets)
		buffer, size := first(to.buffer)
		return C.der_write_tbs_certificate(address, count, &at, buffer, size, &to.written, &to.fault)
	})
}

// CertificateFields has the fields of a certificate (Certificate, RFC 5280 4.1).
type CertificateFields struct {
	// TBSCertificate is tbsCertificate, what the signature covers.
	TBSCertificate []byte
	// SignatureAlgorithm is signatureAlgorithm, an AlgorithmIdentifier.
	SignatureAlgorithm []byte
	// SignatureValue is signatureValue, a BIT STRING.
	SignatureValue []byte
}

// Certificate writes a certificate.
func (w *Writer) Certificate(fields CertificateFields) []byte {
	var at C.der_certificate_at
	var put parts
	at.tbs_certificate = put.field(fields.TBSCertificate)
	at.signature_algorithm = put.field(fields.SignatureAlgorithm)
	at.signature_value = put.field(fields.SignatureValue)
	return w.written("Certificate", put.octets, func(octets []byte, to *target) C.uint32_t {
		address, count := first(octets)
		buffer, size := first(to.buffer)
		return C.der_write_certificate(address, count, &at, buffer, size, &to.written, &to.fault)
	})
}

// ExtensionFields has the fields of an extension (Extension, RFC 5280 4.2).
type ExtensionFields struct {
	// ExtnID is extnID, an OBJECT IDENTIFIER.
	ExtnID []byte
	// IsCritical is critical.
	IsCritical bool
	// ExtnValue is extnValue, an OCTET STRING.
	ExtnValue []byte
}

// Extension writes an extension.
func (w *Writer) Extension(fields ExtensionFields) []byte {
	var at C.der_extension_at
	var put parts
	at.extn_id = put.field(fields.ExtnID)
	at.is_critical = flag(fields.IsCritical)
	at.extn_value = put.field(fields.ExtnValue)
	return w.written("Extension", put.octets, func(octets []byte, to *target) C.uint32_t {
		address, count := first(octets)
		buffer, size := first(to.buffer)
		return C.der_write_extension(address, count, &at, buffer, size, &to.written, &to.fault)
	})
}

// TBSCertListFields has the fields of a body of a list of revoked certificates, which is signed (TBSCertList, RFC 5280
// 5.1.2).
type TBSCertListFields struct {
	// Version is version: 1 for v1, 2 for v2 and so on.
	Version int
	// Signature is signature, an AlgorithmIdentifier.
	Signature []byte
	// Issuer is issuer, a Name.
	Issuer []byte
	// ThisUpdate is thisUpdate; a fraction of a second is left out.
	ThisUpdate time.Time
	// NextUpdate is nextUpdate; a fraction of a second is left out; the zero Time if absent.
	NextUpdate time.Time
	// RevokedCertificates is revokedCertificates: the encodings of its items, in this order; absent if there are none.
	RevokedCertificates [][]byte
	// CRLExtensions is crlExtensions: the encodings of its items, in this order; absent if there are none.
	CRLExtensions [][]byte
}

// TBSCertList writes a body of a list of revoked certificates, which is signed.
func (w *Writer) TBSCertList(fields TBSCertListFields) []byte {
	var at C.der_certificate_list_at
	var put parts
	at.version_number = C.uint64_t(fields.Version - 1)
	at.signature = put.field(fields.Signature)
	at.issuer = put.field(fields.Issuer)
	at.this_update_seconds = moment(fields.ThisUpdate)
	at.next_update_seconds = optionalMoment(fields.NextUpdate)
	at.revoked_certificates = w.optionalItems(&put, fields.RevokedCertificates, 0x30)
	at.crl_extensions = w.optionalItems(&put, fields.CRLExtensions, 0x30, 0xa0)
	return w.written("TBSCertList", put.octets, func(octets []byte, to *target) C.uint32_t {
		address, count := first(octets)
		buffer, size := first(to.buffer)
		return C.der_write_tbs_cert_list(address, count, &at, buffer, size, &to.written, &to.fault)
	})
}

// CertificateListFields has the fields of a list of revoked certificates (CertificateList, RFC 5280 5.1).
type CertificateListFields struct {
	// TBSCertList is tbsCertList, what the signature covers.
	TBSCertList []byte
	// SignatureAlgorithm is signatureAlgorithm, an AlgorithmIdentifier.
	SignatureAlgorithm []byte
	// SignatureValue is signatureValue, a BIT STRING.
	SignatureValue []byte
}

// CertificateList writes a list of revoked certificates.
func (w *Writer) CertificateList(fields CertificateListFields) []byte {
	var at C.der_certificate_list_at
	var put parts
	at.tbs_cert_list = put.field(fields.TBSCertList)
	at.signature_algorithm = put.field(fields.SignatureAlgorithm)
	at.signature_value = put.field(fields.SignatureValue)
	return w.written("CertificateList", put.octets, func(octets []byte, to *target) C.uint32_t {
		address, count := first(octets)
		buffer, size := first(to.buffer)
		return C.der_write_certificate_list(address, count, &at, buffer, size, &to.written, &to.fault)
	})
}

// RevokedCertificateFields has the fields of an entry of a list of revoked certificates (RevokedCertificate, RFC 5280
// 5.1.2.6).
type RevokedCertificateFields struct {
	// UserCertificate is userCertificate, an INTEGER.
	UserCertificate []byte
	// RevocationDate is revocationDate; a fraction of a second is left out.
	RevocationDate time.Time
	// CRLEntryExtensions is crlEntryExtensions: the encodings of its items, in this order; absent if there are none.
	CRLEntryExtensions [][]byte
}

// RevokedCertificate writes an entry of a list of revoked certificates.
func (w *Writer) RevokedCertificate(fields RevokedCertificateFields) []byte {
	var at C.der_revoked_certificate_at
	var put parts
	at.user_certificate = put.field(fields.UserCertificate)
	at.revocation_date_seconds = moment(fields.RevocationDate)
	at.crl_entry_extensions = w.optionalItems(&put, fields.CRLEntryExtensions, 0x30)
	return w.written("RevokedCertificate", put.octets, func(octets []byte, to *target) C.uint32_t {
		address, count := first(octets)
		buffer, size := first(to.buffer)
		return C.der_write_revoked_certificate(address, count, &at, buffer, size, &to.written, &to.fault)
	})
}

// CertificationRequestInfoFields has the fields of a body of a request for a certificate, which is signed
// (CertificationRequestInfo, RFC 2986 4.1).
type CertificationRequestInfoFields struct {
	// Subject is subject, a Name.
	Subject []byte
	// SubjectPKInfo is subjectPKInfo, a SubjectPublicKeyInfo.
	SubjectPKInfo []byte
	// Attributes is attributes: the encodings of its items, in any order.
	Attributes [][]byte
}

// CertificationRequestInfo writes a body of a request for a certificate, which is signed.
func (w *Writer) CertificationRequestInfo(fields CertificationRequestInfoFields) []byte {
	var at C.der_certification_request_at
	var put parts
	at.subject = put.field(fields.Subject)
	at.subject_pk_info = put.field(fields.SubjectPKInfo)
	at.attributes = w.set(&put, fields.Attributes, 0xa0)
	return w.written("CertificationRequestInfo", put.octets, func(octets []byte, to *target) C.uint32_t {
		address, count := first(octets)
		buffer, size := first(to.buffer)
		return C.der_write_certification_request_info(address, count, &at, buffer, size, &to.written, &to.fault)
	})
}

// CertificationRequestFields has the fields of a request for a certificate (CertificationRequest, RFC 2986 4.2).
type CertificationRequestFields struct {
	// CertificationRequestInfo is certificationRequestInfo, what the signature covers.
	CertificationRequestInfo []byte
	// SignatureAlgorithm is signatureAlgorithm, an AlgorithmIdentifier.
	SignatureAlgorithm []byte
	// Signature is signature, a BIT STRING.
	Signature []byte
}

// CertificationRequest writes a request for a certificate.
func (w *Writer) CertificationRequest(fields CertificationRequestFields) []byte {
	var at C.der_certification_request_at
	var put parts
	at.certification_request_info = put.field(fields.CertificationRequestInfo)
	at.signature_algorithm = put.field(fields.SignatureAlgorithm)
	at.signature = put.field(fields.Signature)
	return w.written("CertificationRequest", put.octets, func(octets []byte, to *target) C.uint32_t {
		address, count := first(octets)
		buffer, size := first(to.buffer)
		return C.der_write_certification_request(address, count, &at, buffer, size, &to.written, &to.fault)
	})
}

// OCSPResponseFields has the fields of an OCSP response (OCSPResponse, RFC 6960 4.2.1).
type OCSPResponseFields struct {
	// ResponseStatus is responseStatus: 0 for successful, 1 to 3, 5 or 6.
	ResponseStatus int64
	// ResponseBytes is responseBytes, with their explicit tag [0]; nil if absent.
	ResponseBytes []byte
}

// OCSPResponse writes an OCSP response.
func (w *Writer) OCSPResponse(fields OCSPResponseFields) []byte {
	var at C.der_ocsp_response_at
	var put parts
	at.response_status_number = C.int64_t(fields.ResponseStatus)
	at.response_bytes = put.field(fields.ResponseBytes)
	return w.written("OCSPResponse", put.octets, func(octets []byte, to *target) C.uint32_t {
		address, count := first(octets)
		buffer, size := first(to.buffer)
		return C.der_write_ocsp_response(address, count, &at, buffer, size, &to.written, &to.fault)
	})
}

// ResponseDataFields has the fields of a body of an OCSP response, which is signed (ResponseData, RFC 6960 4.2.1).
type ResponseDataFields struct {
	// ResponderID is responderID, a CHOICE: with the explicit tag [1] a Name, with the explicit tag [2] an OCTET
	// STRING.
	ResponderID []byte
	// ProducedAt is producedAt; a fraction of a second is left out.
	ProducedAt time.Time
	// Responses is responses: the encodings of its items, in this order.
	Responses [][]byte
	// ResponseExtensions is responseExtensions: the encodings of its items, in this order; absent if there are none.
	ResponseExtensions [][]byte
}

// ResponseData writes a body of an OCSP response, which is signed.
func (w *Writer) ResponseData(fields ResponseDataFields) []byte {
	var at C.der_basic_ocsp_response_at
	var put parts
	at.responder_id = put.field(fields.ResponderID)
	at.produced_at_seconds = moment(fields.ProducedAt)
	at.responses = w.items(&put, fields.Responses, 0x30)
	at.response_extensions = w.optionalItems(&put, fields.ResponseExtensions, 0x30, 0xa1)
	return w.written("ResponseData", put.octets, func(octets []byte, to *target) C.uint32_t {
		address, count := first(octets)
		buffer, size := first(to.buffer)
		return C.der_write_response_data(address, count, &at, buffer, size, &to.written, &to.fault)
	})
}

// BasicOCSPResponseFields has the fields of a signed OCSP response (BasicOCSPResponse, RFC 6960 4.2.1).
type BasicOCSPResponseFields struct {
	// TBSResponseData is tbsResponseData, what the signature covers.
	TBSResponseData []byte
	// SignatureAlgorithm is signatureAlgorithm, an AlgorithmIdentifier.
	SignatureAlgorithm []byte
	// Signature is signature, a BIT STRING.
	Signature []byte
	// Certs is certs: the encodings of its items, in this order; absent if there are none.
	Certs [][]byte
}

// BasicOCSPResponse writes a signed OCSP response.
func (w *Writer) BasicOCSPResponse(fields BasicOCSPResponseFields) []byte {
	var at C.der_basic_ocsp_response_at
	var put parts
	at.tbs_response_data = put.field(fields.TBSResponseData)
	at.signature_algorithm = put.field(fields.SignatureAlgorithm)
	at.signature = put.field(fields.Signature)
	at.certs = w.optionalItems(&put, fields.Certs, 0x30, 0xa0)
	return w.written("BasicOCSPResponse", put.octets, func(octets []byte, to *target) C.uint32_t {
		address, count := first(octets)
		buffer, size := first(to.buffer)
		return C.der_write_basic_ocsp_response(address, count, &at, buffer, size, &to.written, &to.fault)
	})
}

// SingleResponseFields has the fields of a response about one certificate (SingleResponse, RFC 6960 4.2.1).
type SingleResponseFields struct {
	// CertID is certID, a CertID.
	CertID []byte
	// CertStatus is certStatus, a CHOICE: with its implicit tag [0], [1] or [2].
	CertStatus []byte
	// ThisUpdate is thisUpdate; a fraction of a second is left out.
	ThisUpdate time.Time
	// NextUpdate is nextUpdate; a fraction of a second is left out; the zero Time if absent.
	NextUpdate time.Time
	// SingleExtensions is singleExtensions: the encodings of its items, in this order; absent if there are none.
	SingleExtensions [][]byte
}

// SingleResponse writes a response about one certificate.
func (w *Writer) SingleResponse(fields SingleResponseFields) []byte {
	var at C.der_single_response_at
	var put parts
	at.cert_id = put.field(fields.CertID)
	at.cert_status = put.field(fields.CertStatus)
	at.this_update_seconds = moment(fields.ThisUpdate)
	at.next_update_seconds = optionalMoment(fields.NextUpdate)
	at.single_extensions = w.optionalItems(&put, fields.SingleExtensions, 0x30, 0xa1)
	return w.written("SingleResponse", put.octets, func(octets []byte, to *target) C.uint32_t {
		address, count := first(octets)
		buffer, size := first(to.buffer)
		return C.der_write_single_response(address, count, &at, buffer, size, &to.written, &to.fault)
	})
}

// OCSPRequestFields has the fields of an OCSP request (OCSPRequest, RFC 6960 4.1.1).
type OCSPRequestFields struct {
	// TBSRequest is tbsRequest, a TBSRequest.
	TBSRequest []byte
	// OptionalSignature is optionalSignature, a Signature, with the explicit tag [0]; nil if absent.
	OptionalSignature []byte
}

// OCSPRequest writes an OCSP request.
func (w *Writer) OCSPRequest(fields OCSPRequestFields) []byte {
	var at C.der_ocsp_request_at
	var put parts
	at.tbs_request = put.field(fields.TBSRequest)
	at.optional_signature = put.field(fields.OptionalSignature)
	return w.written("OCSPRequest", put.octets, func(octets []byte, to *target) C.uint32_t {
		address, count := first(octets)
		buffer, size := first(to.buffer)
		return C.der_write_ocsp_request(address, count, &at, buffer, size, &to.written, &to.fault)
	})
}

// TBSRequestFields has the fields of a body of an OCSP request (TBSRequest, RFC 6960 4.1.1).
type TBSRequestFields struct {
	// RequestorName is requestorName, a GeneralName, with the explicit tag [1]; nil if absent.
	RequestorName []byte
	// RequestList is requestList: the encodings of its items, in this order.
	RequestList [][]byte
	// RequestExtensions is requestExtensions: the encodings of its items, in this order; absent if there are none.
	RequestExtensions [][]byte
}

// TBSRequest writes a body of an OCSP request.
func (w *Writer) TBSRequest(fields TBSRequestFields) []byte {
	var at C.der_tbs_request_at
	var put parts
	at.requestor_name = put.field(fields.RequestorName)
	at.request_list = w.items(&put, fields.RequestList, 0x30)
	at.request_extensions = w.optionalItems(&put, fields.RequestExtensions, 0x30, 0xa2)
	return w.written("TBSRequest", put.octets, func(octets []byte, to *target) C.uint32_t {
		address, count := first(octets)
		buffer, size := first(to.buffer)
		return C.der_write_tbs_request(address, count, &at, buffer, size, &to.written, &to.fault)
	})
}

// RequestFields has the fields of a request about one certificate (Request, RFC 6960 4.1.1).
type RequestFields struct {
	// ReqCert is reqCert, a CertID.
	ReqCert []byte
	// SingleRequestExtensions is singleRequestExtensions: the encodings of its items, in this order; absent if there
	// are none.
	SingleRequestExtensions [][]byte
}

// Request writes a request about one certificate.
func (w *Writer) Request(fields RequestFields) []byte {
	var at C.der_request_at
	var put parts
	at.req_cert = put.field(fields.ReqCert)
	at.single_request_extensions = w.optionalItems(&put, fields.SingleRequestExtensions, 0x30, 0xa0)
	return w.written("Request", put.octets, func(octets []byte, to *target) C.uint32_t {
		address, count := first(octets)
		buffer, size := first(to.buffer)
		return C.der_write_request(address, count, &at, buffer, size, &to.written, &to.fault)
	})
}

// CertIDFields has the fields of a certificate's identifier in OCSP (CertID, RFC 6960 4.1.1).
type CertIDFields struct {
	// HashAlgorithm is hashAlgorithm, an AlgorithmIdentifier.
	HashAlgorithm []byte
	// IssuerNameHash is issuerNameHash, an OCTET STRING.
	IssuerNameHash []byte
	// IssuerKeyHash is issuerKeyHash, an OCTET STRING.
	IssuerKeyHash []byte
	// SerialNumber is serialNumber, an INTEGER.
	SerialNumber []byte
}

// CertID writes a certificate's identifier in OCSP.
func (w *Writer) CertID(fields CertIDFields) []byte {
	var at C.der_cert_id_at
	var put parts
	at.hash_algorithm = put.field(fields.HashAlgorithm)
	at.issuer_name_hash = put.field(fields.IssuerNameHash)
	at.issuer_key_hash = put.field(fields.IssuerKeyHash)
	at.serial_number = put.field(fields.SerialNumber)
	return w.written("CertID", put.octets, func(octets []byte, to *target) C.uint32_t {
		address, count := first(octets)
		buffer, size := first(to.buffer)
		return C.der_write_cert_id(address, count, &at, buffer, size, &to.written, &to.fault)
	})
}

// end of messages
