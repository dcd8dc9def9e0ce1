//! The calls of `libder_c`, as `barleypulley/der.h` documents them, and safe calls over slices in [`safe`]. The crate
//! `der-proved` has a type for each message.
#![no_std]
#![warn(missing_docs)]

pub mod safe;

/// The version of the library's interface, `DER_ABI_VERSION`.
pub const ABI_VERSION: u32 = 2;

/// Where an encoding stands. A field that is absent has the place of no octets.
#[repr(C)]
#[derive(Clone, Copy, Debug, Default, PartialEq, Eq)]
pub struct Place {
    /// How many octets are before it.
    pub offset: u32,
    /// How many it has.
    pub length: u32,
}

/// Why octets are refused, and where.
#[repr(C)]
#[derive(Clone, Copy, Debug, Default, PartialEq, Eq)]
pub struct Fault {
    /// The number of the kind.
    pub number: u32,
    /// 1 where the position is known, else 0.
    pub is_placed: u32,
    /// How many octets had been read.
    pub position: u32,
}

// written by tools/bindings: structs
/// Places in a certificate: `der_certificate_at`.
#[repr(C)]
#[derive(Clone, Copy, Debug, Default, PartialEq, Eq)]
pub struct CertificateAt {
    /// What the signature covers.
    pub tbs_certificate: Place,
    /// An AlgorithmIdentifier.
    pub signature_algorithm: Place,
    /// A BIT STRING.
    pub signature_value: Place,
    /// With its explicit tag \[0\]; absent where it is the default, v1.
    pub version: Place,
    /// An INTEGER.
    pub serial_number: Place,
    /// An AlgorithmIdentifier.
    pub signature: Place,
    /// A Name.
    pub issuer: Place,
    /// A SEQUENCE of both dates.
    pub validity: Place,
    /// A Name.
    pub subject: Place,
    /// A SubjectPublicKeyInfo.
    pub subject_public_key_info: Place,
    /// With its implicit tag \[1\].
    pub issuer_unique_id: Place,
    /// With its implicit tag \[2\].
    pub subject_unique_id: Place,
    /// With their explicit tag \[3\].
    pub extensions: Place,
    /// In seconds from 1970-01-01T00:00:00Z, with no leap seconds; an earlier date is refused (13).
    pub not_before: u64,
    /// The last second in which the certificate is valid; a date before 1970 is refused (13).
    pub not_after: u64,
    /// 0 for v1, 1 for v2, 2 for v3; numbers up to 255 are accepted.
    pub version_number: u64,
}

/// Places in an extension: `der_extension_at`.
#[repr(C)]
#[derive(Clone, Copy, Debug, Default, PartialEq, Eq)]
pub struct ExtensionAt {
    /// The whole extension; the next one begins after it.
    pub whole: Place,
    /// An OBJECT IDENTIFIER.
    pub extn_id: Place,
    /// A BOOLEAN; absent where it is the default, FALSE.
    pub critical: Place,
    /// An OCTET STRING.
    pub extn_value: Place,
    /// 1 or 0.
    pub is_critical: u32,
}

/// Places in a list of revoked certificates: `der_certificate_list_at`.
#[repr(C)]
#[derive(Clone, Copy, Debug, Default, PartialEq, Eq)]
pub struct CertificateListAt {
    /// What the signature covers.
    pub tbs_cert_list: Place,
    /// An AlgorithmIdentifier.
    pub signature_algorithm: Place,
    /// A BIT STRING.
    pub signature_value: Place,
    /// An INTEGER.
    pub version: Place,
    /// An AlgorithmIdentifier.
    pub signature: Place,
    /// A Name.
    pub issuer: Place,
    /// A Time.
    pub this_update: Place,
    /// A Time.
    pub next_update: Place,
    /// A SEQUENCE OF.
    pub revoked_certificates: Place,
    /// With their explicit tag \[0\].
    pub crl_extensions: Place,
    /// In seconds from 1970-01-01T00:00:00Z; an earlier date is refused (13).
    pub this_update_seconds: u64,
    /// In such seconds, 0 if the field is absent; a date before 1970 is refused (13).
    pub next_update_seconds: u64,
    /// 0 for v1, where the field is absent; 1 for v2; numbers up to 255 are accepted.
    pub version_number: u64,
}

/// Places in an entry of a list of revoked certificates: `der_revoked_certificate_at`.
#[repr(C)]
#[derive(Clone, Copy, Debug, Default, PartialEq, Eq)]
pub struct RevokedCertificateAt {
    /// The whole entry; the next one begins after it.
    pub whole: Place,
    /// An INTEGER.
    pub user_certificate: Place,
    /// A Time.
    pub revocation_date: Place,
    /// A SEQUENCE OF.
    pub crl_entry_extensions: Place,
    /// In seconds from 1970-01-01T00:00:00Z; an earlier date is refused (13).
    pub revocation_date_seconds: u64,
}

/// Places in a public key: `der_subject_public_key_info_at`.
#[repr(C)]
#[derive(Clone, Copy, Debug, Default, PartialEq, Eq)]
pub struct SubjectPublicKeyInfoAt {
    /// An AlgorithmIdentifier.
    pub algorithm: Place,
    /// A BIT STRING.
    pub subject_public_key: Place,
}

/// Places in a private key: `der_private_key_info_at`.
#[repr(C)]
#[derive(Clone, Copy, Debug, Default, PartialEq, Eq)]
pub struct PrivateKeyInfoAt {
    /// An INTEGER.
    pub version: Place,
    /// An AlgorithmIdentifier.
    pub private_key_algorithm: Place,
    /// An OCTET STRING.
    pub private_key: Place,
    /// With their implicit tag \[0\].
    pub attributes: Place,
    /// With its implicit tag \[1\].
    pub public_key: Place,
    /// 0 for v1, 1 for v2.
    pub version_number: u64,
}

/// Places in a request for a certificate: `der_certification_request_at`.
#[repr(C)]
#[derive(Clone, Copy, Debug, Default, PartialEq, Eq)]
pub struct CertificationRequestAt {
    /// What the signature covers.
    pub certification_request_info: Place,
    /// An AlgorithmIdentifier.
    pub signature_algorithm: Place,
    /// A BIT STRING.
    pub signature: Place,
    /// An INTEGER, which is 0.
    pub version: Place,
    /// A Name.
    pub subject: Place,
    /// A SubjectPublicKeyInfo.
    pub subject_pk_info: Place,
    /// With their implicit tag \[0\].
    pub attributes: Place,
}

/// Places in an OCSP response: `der_ocsp_response_at`.
#[repr(C)]
#[derive(Clone, Copy, Debug, Default, PartialEq, Eq)]
pub struct OcspResponseAt {
    /// An ENUMERATED.
    pub response_status: Place,
    /// With their explicit tag \[0\].
    pub response_bytes: Place,
    /// An OBJECT IDENTIFIER.
    pub response_type: Place,
    /// An OCTET STRING; if responseType is id-pkix-ocsp-basic, a BasicOCSPResponse is to be read from its contents octets.
    pub response: Place,
    /// 0 for successful, 1 to 3, 5 or 6.
    pub response_status_number: i64,
}

/// Places in a signed OCSP response: `der_basic_ocsp_response_at`.
#[repr(C)]
#[derive(Clone, Copy, Debug, Default, PartialEq, Eq)]
pub struct BasicOcspResponseAt {
    /// What the signature covers.
    pub tbs_response_data: Place,
    /// An AlgorithmIdentifier.
    pub signature_algorithm: Place,
    /// A BIT STRING.
    pub signature: Place,
    /// With their explicit tag \[0\].
    pub certs: Place,
    /// With its explicit tag \[0\]; absent where it is the default, v1.
    pub version: Place,
    /// A CHOICE: with the explicit tag \[1\] a Name, with the explicit tag \[2\] an OCTET STRING.
    pub responder_id: Place,
    /// A GeneralizedTime.
    pub produced_at: Place,
    /// A SEQUENCE OF SingleResponse.
    pub responses: Place,
    /// With their explicit tag \[1\].
    pub response_extensions: Place,
    /// In seconds from 1970-01-01T00:00:00Z; an earlier date is refused (13).
    pub produced_at_seconds: u64,
}

/// Places in a response about one certificate: `der_single_response_at`.
#[repr(C)]
#[derive(Clone, Copy, Debug, Default, PartialEq, Eq)]
pub struct SingleResponseAt {
    /// The whole response; the next one begins after it.
    pub whole: Place,
    /// A CertID.
    pub cert_id: Place,
    /// A CHOICE: with its implicit tag \[0\], \[1\] or \[2\].
    pub cert_status: Place,
    /// A GeneralizedTime.
    pub this_update: Place,
    /// With its explicit tag \[0\].
    pub next_update: Place,
    /// With their explicit tag \[1\].
    pub single_extensions: Place,
    /// In seconds from 1970-01-01T00:00:00Z; an earlier date is refused (13).
    pub this_update_seconds: u64,
    /// In such seconds, 0 if the field is absent; a date before 1970 is refused (13).
    pub next_update_seconds: u64,
    /// In such seconds, 0 if it is not revoked; a date before 1970 is refused (13).
    pub revocation_time_seconds: u64,
    /// 0 for good, 1 for revoked, 2 for unknown.
    pub cert_status_number: u64,
}

/// Places in a message with its type: `der_content_info_at`.
#[repr(C)]
#[derive(Clone, Copy, Debug, Default, PartialEq, Eq)]
pub struct ContentInfoAt {
    /// An OBJECT IDENTIFIER.
    pub content_type: Place,
    /// With its explicit tag \[0\]; if contentType is id-signedData, a SignedData is to be read from its contents octets.
    pub content: Place,
}

/// Places in a signed message: `der_signed_data_at`.
#[repr(C)]
#[derive(Clone, Copy, Debug, Default, PartialEq, Eq)]
pub struct SignedDataAt {
    /// An INTEGER.
    pub version: Place,
    /// A SET OF AlgorithmIdentifier.
    pub digest_algorithms: Place,
    /// A SEQUENCE.
    pub encap_content_info: Place,
    /// With their implicit tag \[0\].
    pub certificates: Place,
    /// With their implicit tag \[1\].
    pub crls: Place,
    /// A SET OF SignerInfo.
    pub signer_infos: Place,
    /// An OBJECT IDENTIFIER.
    pub e_content_type: Place,
    /// An OCTET STRING with its explicit tag \[0\].
    pub e_content: Place,
    /// 0 to 5.
    pub version_number: u64,
}

/// Places in a signer: `der_signer_info_at`.
#[repr(C)]
#[derive(Clone, Copy, Debug, Default, PartialEq, Eq)]
pub struct SignerInfoAt {
    /// The whole signer; the next one begins after it.
    pub whole: Place,
    /// An INTEGER.
    pub version: Place,
    /// A CHOICE: a SEQUENCE of issuer and serial number, or with its implicit tag \[0\] a key's identifier.
    pub sid: Place,
    /// An AlgorithmIdentifier.
    pub digest_algorithm: Place,
    /// With their implicit tag \[0\].
    pub signed_attrs: Place,
    /// An AlgorithmIdentifier.
    pub signature_algorithm: Place,
    /// An OCTET STRING.
    pub signature: Place,
    /// With their implicit tag \[1\].
    pub unsigned_attrs: Place,
    /// 0 to 5.
    pub version_number: u64,
}

/// Places in an attribute of a name: `der_attribute_type_and_value_at`.
#[repr(C)]
#[derive(Clone, Copy, Debug, Default, PartialEq, Eq)]
pub struct AttributeTypeAndValueAt {
    /// The whole attribute; the next one of the same part begins after it.
    pub whole: Place,
    /// An OBJECT IDENTIFIER.
    pub type_: Place,
    /// Of any type.
    pub value: Place,
}

/// Places in an attribute of a signer, a request or a private key: `der_attribute_at`.
#[repr(C)]
#[derive(Clone, Copy, Debug, Default, PartialEq, Eq)]
pub struct AttributeAt {
    /// The whole attribute; the next one begins after it.
    pub whole: Place,
    /// An OBJECT IDENTIFIER.
    pub type_: Place,
    /// A SET OF.
    pub values: Place,
}

/// Places in an algorithm identifier: `der_algorithm_identifier_at`.
#[repr(C)]
#[derive(Clone, Copy, Debug, Default, PartialEq, Eq)]
pub struct AlgorithmIdentifierAt {
    /// An OBJECT IDENTIFIER.
    pub oid: Place,
    /// What the identifier defines; a NULL has the octets 05 00.
    pub parameters: Place,
}

/// Places in a set of parameters of RSASSA-PSS: `der_rsassa_pss_params_at`.
#[repr(C)]
#[derive(Clone, Copy, Debug, Default, PartialEq, Eq)]
pub struct RsassaPssParamsAt {
    /// An AlgorithmIdentifier, with the explicit tag \[0\].
    pub hash_algorithm: Place,
    /// An AlgorithmIdentifier, with the explicit tag \[1\].
    pub mask_gen_algorithm: Place,
    /// An INTEGER, with the explicit tag \[2\].
    pub salt_length: Place,
    /// An INTEGER, with the explicit tag \[3\]; absent where it is the default, 1.
    pub trailer_field: Place,
}

/// Places in an ECDSA signature: `der_ecdsa_sig_value_at`.
#[repr(C)]
#[derive(Clone, Copy, Debug, Default, PartialEq, Eq)]
pub struct EcdsaSigValueAt {
    /// An INTEGER.
    pub r: Place,
    /// An INTEGER.
    pub s: Place,
}

/// Places in a set of parameters of PBES2: `der_pbes2_params_at`.
#[repr(C)]
#[derive(Clone, Copy, Debug, Default, PartialEq, Eq)]
pub struct Pbes2ParamsAt {
    /// An AlgorithmIdentifier.
    pub key_derivation_func: Place,
    /// An AlgorithmIdentifier.
    pub encryption_scheme: Place,
}

/// Places in a set of parameters of PBKDF2: `der_pbkdf2_params_at`.
#[repr(C)]
#[derive(Clone, Copy, Debug, Default, PartialEq, Eq)]
pub struct Pbkdf2ParamsAt {
    /// A CHOICE: an OCTET STRING, or an AlgorithmIdentifier.
    pub salt: Place,
    /// An INTEGER.
    pub iteration_count: Place,
    /// An INTEGER.
    pub key_length: Place,
    /// An AlgorithmIdentifier.
    pub prf: Place,
}

/// Places in a public key of RSA: `der_rsa_public_key_at`.
#[repr(C)]
#[derive(Clone, Copy, Debug, Default, PartialEq, Eq)]
pub struct RsaPublicKeyAt {
    /// An INTEGER.
    pub modulus: Place,
    /// An INTEGER.
    pub public_exponent: Place,
}

/// Places in a private key of RSA: `der_rsa_private_key_at`.
#[repr(C)]
#[derive(Clone, Copy, Debug, Default, PartialEq, Eq)]
pub struct RsaPrivateKeyAt {
    /// An INTEGER.
    pub version: Place,
    /// An INTEGER.
    pub modulus: Place,
    /// An INTEGER.
    pub public_exponent: Place,
    /// An INTEGER.
    pub private_exponent: Place,
    /// An INTEGER.
    pub prime1: Place,
    /// An INTEGER.
    pub prime2: Place,
    /// An INTEGER.
    pub exponent1: Place,
    /// An INTEGER.
    pub exponent2: Place,
    /// An INTEGER.
    pub coefficient: Place,
    /// A SEQUENCE OF OtherPrimeInfo.
    pub other_prime_infos: Place,
}

/// Places in a private key of an elliptic curve: `der_ec_private_key_at`.
#[repr(C)]
#[derive(Clone, Copy, Debug, Default, PartialEq, Eq)]
pub struct EcPrivateKeyAt {
    /// An INTEGER.
    pub version: Place,
    /// An OCTET STRING.
    pub private_key: Place,
    /// A CHOICE: an OBJECT IDENTIFIER, which names the curve, a NULL, or the curve as a SEQUENCE, with the explicit tag \[0\].
    pub parameters: Place,
    /// A BIT STRING, with the explicit tag \[1\].
    pub public_key: Place,
}

/// Places in an encrypted private key: `der_encrypted_private_key_info_at`.
#[repr(C)]
#[derive(Clone, Copy, Debug, Default, PartialEq, Eq)]
pub struct EncryptedPrivateKeyInfoAt {
    /// An AlgorithmIdentifier.
    pub encryption_algorithm: Place,
    /// An OCTET STRING.
    pub encrypted_data: Place,
}

/// Places in an authority key identifier: `der_authority_key_identifier_at`.
#[repr(C)]
#[derive(Clone, Copy, Debug, Default, PartialEq, Eq)]
pub struct AuthorityKeyIdentifierAt {
    /// An OCTET STRING, with the implicit tag \[0\].
    pub key_identifier: Place,
    /// A SEQUENCE OF GeneralName, with the implicit tag \[1\].
    pub authority_cert_issuer: Place,
    /// An INTEGER, with the implicit tag \[2\].
    pub authority_cert_serial_number: Place,
}

/// Places in a certificate policy: `der_policy_information_at`.
#[repr(C)]
#[derive(Clone, Copy, Debug, Default, PartialEq, Eq)]
pub struct PolicyInformationAt {
    /// An OBJECT IDENTIFIER.
    pub policy_identifier: Place,
    /// A SEQUENCE OF PolicyQualifierInfo.
    pub policy_qualifiers: Place,
}

/// Places in a policy qualifier: `der_policy_qualifier_info_at`.
#[repr(C)]
#[derive(Clone, Copy, Debug, Default, PartialEq, Eq)]
pub struct PolicyQualifierInfoAt {
    /// An OBJECT IDENTIFIER.
    pub policy_qualifier_id: Place,
    /// What `policyQualifierId` defines.
    pub qualifier: Place,
}

/// Places in a policy mapping: `der_policy_mapping_at`.
#[repr(C)]
#[derive(Clone, Copy, Debug, Default, PartialEq, Eq)]
pub struct PolicyMappingAt {
    /// An OBJECT IDENTIFIER.
    pub issuer_domain_policy: Place,
    /// An OBJECT IDENTIFIER.
    pub subject_domain_policy: Place,
}

/// Places in a set of basic constraints: `der_basic_constraints_at`.
#[repr(C)]
#[derive(Clone, Copy, Debug, Default, PartialEq, Eq)]
pub struct BasicConstraintsAt {
    /// A BOOLEAN; absent where it is the default, FALSE.
    pub ca: Place,
    /// An INTEGER.
    pub path_len_constraint: Place,
}

/// Places in a set of name constraints: `der_name_constraints_at`.
#[repr(C)]
#[derive(Clone, Copy, Debug, Default, PartialEq, Eq)]
pub struct NameConstraintsAt {
    /// A SEQUENCE OF GeneralSubtree, with the implicit tag \[0\].
    pub permitted_subtrees: Place,
    /// A SEQUENCE OF GeneralSubtree, with the implicit tag \[1\].
    pub excluded_subtrees: Place,
}

/// Places in a subtree of names: `der_general_subtree_at`.
#[repr(C)]
#[derive(Clone, Copy, Debug, Default, PartialEq, Eq)]
pub struct GeneralSubtreeAt {
    /// A GeneralName.
    pub base: Place,
    /// An INTEGER, with the implicit tag \[0\]; absent where it is the default, 0.
    pub minimum: Place,
    /// An INTEGER, with the implicit tag \[1\].
    pub maximum: Place,
}

/// Places in a set of policy constraints: `der_policy_constraints_at`.
#[repr(C)]
#[derive(Clone, Copy, Debug, Default, PartialEq, Eq)]
pub struct PolicyConstraintsAt {
    /// An INTEGER, with the implicit tag \[0\].
    pub require_explicit_policy: Place,
    /// An INTEGER, with the implicit tag \[1\].
    pub inhibit_policy_mapping: Place,
}

/// Places in a distribution point: `der_distribution_point_at`.
#[repr(C)]
#[derive(Clone, Copy, Debug, Default, PartialEq, Eq)]
pub struct DistributionPointAt {
    /// A CHOICE of `fullName`, with the implicit tag \[0\], and `nameRelativeToCRLIssuer`, with \[1\], with the explicit tag \[0\].
    pub distribution_point: Place,
    /// A BIT STRING, with the implicit tag \[1\].
    pub reasons: Place,
    /// A SEQUENCE OF GeneralName, with the implicit tag \[2\].
    pub crl_issuer: Place,
}

/// Places in an access description: `der_access_description_at`.
#[repr(C)]
#[derive(Clone, Copy, Debug, Default, PartialEq, Eq)]
pub struct AccessDescriptionAt {
    /// An OBJECT IDENTIFIER.
    pub access_method: Place,
    /// A GeneralName.
    pub access_location: Place,
}

/// Places in an issuing distribution point: `der_issuing_distribution_point_at`.
#[repr(C)]
#[derive(Clone, Copy, Debug, Default, PartialEq, Eq)]
pub struct IssuingDistributionPointAt {
    /// A CHOICE of `fullName`, with the implicit tag \[0\], and `nameRelativeToCRLIssuer`, with \[1\], with the explicit tag \[0\].
    pub distribution_point: Place,
    /// A BOOLEAN, with the implicit tag \[1\]; absent where it is the default, FALSE.
    pub only_contains_user_certs: Place,
    /// A BOOLEAN, with the implicit tag \[2\]; absent where it is the default, FALSE.
    pub only_contains_ca_certs: Place,
    /// A BIT STRING, with the implicit tag \[3\].
    pub only_some_reasons: Place,
    /// A BOOLEAN, with the implicit tag \[4\]; absent where it is the default, FALSE.
    pub indirect_crl: Place,
    /// A BOOLEAN, with the implicit tag \[5\]; absent where it is the default, FALSE.
    pub only_contains_attribute_certs: Place,
}

/// Places in an OCSP request: `der_ocsp_request_at`.
#[repr(C)]
#[derive(Clone, Copy, Debug, Default, PartialEq, Eq)]
pub struct OcspRequestAt {
    /// A TBSRequest.
    pub tbs_request: Place,
    /// A Signature, with the explicit tag \[0\].
    pub optional_signature: Place,
}

/// Places in a body of an OCSP request: `der_tbs_request_at`.
#[repr(C)]
#[derive(Clone, Copy, Debug, Default, PartialEq, Eq)]
pub struct TbsRequestAt {
    /// An INTEGER, with the explicit tag \[0\]; absent where it is the default, v1.
    pub version: Place,
    /// A GeneralName, with the explicit tag \[1\].
    pub requestor_name: Place,
    /// A SEQUENCE OF Request.
    pub request_list: Place,
    /// A SEQUENCE OF Extension, with the explicit tag \[2\].
    pub request_extensions: Place,
}

/// Places in a request about one certificate: `der_request_at`.
#[repr(C)]
#[derive(Clone, Copy, Debug, Default, PartialEq, Eq)]
pub struct RequestAt {
    /// A CertID.
    pub req_cert: Place,
    /// A SEQUENCE OF Extension, with the explicit tag \[0\].
    pub single_request_extensions: Place,
}

/// Places in a certificate's identifier in OCSP: `der_cert_id_at`.
#[repr(C)]
#[derive(Clone, Copy, Debug, Default, PartialEq, Eq)]
pub struct CertIdAt {
    /// An AlgorithmIdentifier.
    pub hash_algorithm: Place,
    /// An OCTET STRING.
    pub issuer_name_hash: Place,
    /// An OCTET STRING.
    pub issuer_key_hash: Place,
    /// An INTEGER.
    pub serial_number: Place,
}

/// Places in an issuer and serial number: `der_issuer_and_serial_number_at`.
#[repr(C)]
#[derive(Clone, Copy, Debug, Default, PartialEq, Eq)]
pub struct IssuerAndSerialNumberAt {
    /// A Name.
    pub issuer: Place,
    /// An INTEGER.
    pub serial_number: Place,
}

/// Places in an enveloped message: `der_enveloped_data_at`.
#[repr(C)]
#[derive(Clone, Copy, Debug, Default, PartialEq, Eq)]
pub struct EnvelopedDataAt {
    /// An INTEGER.
    pub version: Place,
    /// An OriginatorInfo, with the implicit tag \[0\].
    pub originator_info: Place,
    /// A SET OF RecipientInfo.
    pub recipient_infos: Place,
    /// An EncryptedContentInfo.
    pub encrypted_content_info: Place,
    /// A SET OF Attribute, with the implicit tag \[1\].
    pub unprotected_attrs: Place,
}

/// Places in an encrypted content: `der_encrypted_content_info_at`.
#[repr(C)]
#[derive(Clone, Copy, Debug, Default, PartialEq, Eq)]
pub struct EncryptedContentInfoAt {
    /// An OBJECT IDENTIFIER.
    pub content_type: Place,
    /// An AlgorithmIdentifier.
    pub content_encryption_algorithm: Place,
    /// An OCTET STRING, with the implicit tag \[0\].
    pub encrypted_content: Place,
}

/// Places in a recipient with a key that is transported: `der_key_trans_recipient_info_at`.
#[repr(C)]
#[derive(Clone, Copy, Debug, Default, PartialEq, Eq)]
pub struct KeyTransRecipientInfoAt {
    /// An INTEGER.
    pub version: Place,
    /// A CHOICE: an IssuerAndSerialNumber, or with its implicit tag \[0\] a key identifier.
    pub rid: Place,
    /// An AlgorithmIdentifier.
    pub key_encryption_algorithm: Place,
    /// An OCTET STRING.
    pub encrypted_key: Place,
}

/// Places in an encrypted message: `der_encrypted_data_at`.
#[repr(C)]
#[derive(Clone, Copy, Debug, Default, PartialEq, Eq)]
pub struct EncryptedDataAt {
    /// An INTEGER.
    pub version: Place,
    /// An EncryptedContentInfo.
    pub encrypted_content_info: Place,
    /// A SET OF Attribute, with the implicit tag \[1\].
    pub unprotected_attrs: Place,
}

/// Places in a list of the certificates of a signer: `der_signing_certificate_v2_at`.
#[repr(C)]
#[derive(Clone, Copy, Debug, Default, PartialEq, Eq)]
pub struct SigningCertificateV2At {
    /// A SEQUENCE OF ESSCertIDv2.
    pub certs: Place,
    /// A SEQUENCE OF PolicyInformation.
    pub policies: Place,
}

/// Places in a certificate's hash value: `der_ess_cert_idv2_at`.
#[repr(C)]
#[derive(Clone, Copy, Debug, Default, PartialEq, Eq)]
pub struct EssCertIdv2At {
    /// An AlgorithmIdentifier.
    pub hash_algorithm: Place,
    /// An OCTET STRING.
    pub cert_hash: Place,
    /// An IssuerSerial.
    pub issuer_serial: Place,
}

/// Places in a request for a time stamp: `der_time_stamp_req_at`.
#[repr(C)]
#[derive(Clone, Copy, Debug, Default, PartialEq, Eq)]
pub struct TimeStampReqAt {
    /// An INTEGER.
    pub version: Place,
    /// A MessageImprint.
    pub message_imprint: Place,
    /// An OBJECT IDENTIFIER.
    pub req_policy: Place,
    /// An INTEGER.
    pub nonce: Place,
    /// A BOOLEAN; absent where it is the default, FALSE.
    pub cert_req: Place,
    /// A SEQUENCE OF Extension, with the implicit tag \[0\].
    pub extensions: Place,
}

/// Places in a hash value of what is stamped: `der_message_imprint_at`.
#[repr(C)]
#[derive(Clone, Copy, Debug, Default, PartialEq, Eq)]
pub struct MessageImprintAt {
    /// An AlgorithmIdentifier.
    pub hash_algorithm: Place,
    /// An OCTET STRING.
    pub hashed_message: Place,
}

/// Places in a response with a time stamp: `der_time_stamp_resp_at`.
#[repr(C)]
#[derive(Clone, Copy, Debug, Default, PartialEq, Eq)]
pub struct TimeStampRespAt {
    /// A PKIStatusInfo.
    pub status: Place,
    /// A ContentInfo.
    pub time_stamp_token: Place,
}

/// Places in a status of a response: `der_pki_status_info_at`.
#[repr(C)]
#[derive(Clone, Copy, Debug, Default, PartialEq, Eq)]
pub struct PkiStatusInfoAt {
    /// An INTEGER.
    pub status: Place,
    /// A SEQUENCE OF UTF8String.
    pub status_string: Place,
    /// A BIT STRING.
    pub fail_info: Place,
}

/// Places in a time stamp: `der_tst_info_at`.
#[repr(C)]
#[derive(Clone, Copy, Debug, Default, PartialEq, Eq)]
pub struct TstInfoAt {
    /// An INTEGER.
    pub version: Place,
    /// An OBJECT IDENTIFIER.
    pub policy: Place,
    /// A MessageImprint.
    pub message_imprint: Place,
    /// An INTEGER.
    pub serial_number: Place,
    /// A GeneralizedTime.
    pub gen_time: Place,
    /// An Accuracy.
    pub accuracy: Place,
    /// A BOOLEAN; absent where it is the default, FALSE.
    pub ordering: Place,
    /// An INTEGER.
    pub nonce: Place,
    /// A GeneralName, with the explicit tag \[0\].
    pub tsa: Place,
    /// A SEQUENCE OF Extension, with the implicit tag \[1\].
    pub extensions: Place,
}

/// Places in an accuracy of a time: `der_accuracy_at`.
#[repr(C)]
#[derive(Clone, Copy, Debug, Default, PartialEq, Eq)]
pub struct AccuracyAt {
    /// An INTEGER.
    pub seconds: Place,
    /// An INTEGER, with the implicit tag \[0\].
    pub millis: Place,
    /// An INTEGER, with the implicit tag \[1\].
    pub micros: Place,
}

/// Places in a PKCS 12 file: `der_pfx_at`.
#[repr(C)]
#[derive(Clone, Copy, Debug, Default, PartialEq, Eq)]
pub struct PfxAt {
    /// An INTEGER.
    pub version: Place,
    /// A ContentInfo of RFC 2315 section 7, whose content may be absent.
    pub auth_safe: Place,
    /// A MacData.
    pub mac_data: Place,
}

/// Places in a MAC of a PKCS 12 file: `der_mac_data_at`.
#[repr(C)]
#[derive(Clone, Copy, Debug, Default, PartialEq, Eq)]
pub struct MacDataAt {
    /// A DigestInfo.
    pub mac: Place,
    /// An OCTET STRING.
    pub mac_salt: Place,
    /// An INTEGER.
    pub iterations: Place,
}

/// Places in a hash value with its algorithm: `der_digest_info_at`.
#[repr(C)]
#[derive(Clone, Copy, Debug, Default, PartialEq, Eq)]
pub struct DigestInfoAt {
    /// An AlgorithmIdentifier.
    pub digest_algorithm: Place,
    /// An OCTET STRING.
    pub digest: Place,
}

/// Places in a bag of a PKCS 12 file: `der_safe_bag_at`.
#[repr(C)]
#[derive(Clone, Copy, Debug, Default, PartialEq, Eq)]
pub struct SafeBagAt {
    /// An OBJECT IDENTIFIER.
    pub bag_id: Place,
    /// What `bagId` defines, with the explicit tag \[0\].
    pub bag_value: Place,
    /// A SET OF Attribute.
    pub bag_attributes: Place,
}

/// Places in a certificate in a bag: `der_cert_bag_at`.
#[repr(C)]
#[derive(Clone, Copy, Debug, Default, PartialEq, Eq)]
pub struct CertBagAt {
    /// An OBJECT IDENTIFIER.
    pub cert_id: Place,
    /// What `certId` defines, with the explicit tag \[0\].
    pub cert_value: Place,
}
// end of structs

// written by tools/bindings: structs of checks
/// The inputs of the validation of a chain beside the chain, with places within the octets (RFC 5280 6.1.1): `der_path_inputs`.
#[repr(C)]
#[derive(Clone, Copy, Debug, Default, PartialEq, Eq)]
pub struct PathInputs {
    /// (b), in seconds from 1970-01-01T00:00:00Z.
    pub moment: u64,
    /// (d)(1): a Name, such as the subject of a certificate that is trusted.
    pub anchor_name: Place,
    /// (d)(2) to (4): a SubjectPublicKeyInfo.
    pub anchor_key: Place,
    /// (c): encodings of OBJECT IDENTIFIERs, one after another; of length 0: any policy.
    pub policies: Place,
    /// (h), (i): a NameConstraints; of length 0: each name is permitted, and none excluded.
    pub constraints: Place,
    /// (e); a number other than 0 is true.
    pub mapping_inhibit: u32,
    /// (f); a number other than 0 is true.
    pub explicit_policy: u32,
    /// (g); a number other than 0 is true.
    pub any_policy_inhibit: u32,
    /// 0.
    pub reserved: u32,
}

/// What has to verify of a certificate (RFC 5280 6.1.3 (a)(1)): `der_verification_at`.
#[repr(C)]
#[derive(Clone, Copy, Debug, Default, PartialEq, Eq)]
pub struct VerificationAt {
    /// What the signature covers: tbsCertificate of the certificate.
    pub signed_octets: Place,
    /// Its signatureAlgorithm, an AlgorithmIdentifier.
    pub algorithm: Place,
    /// Its signatureValue, a BIT STRING.
    pub signature: Place,
    /// A SubjectPublicKeyInfo: that of the certificate before it, or of the anchor.
    pub key: Place,
    /// The key's own parameters, or those that it inherits (6.1.4 (d) to (f)); of length 0: none.
    pub parameters: Place,
}

/// What is said of a chain: `der_path_at`.
#[repr(C)]
#[derive(Clone, Copy, Debug, Default, PartialEq, Eq)]
pub struct PathAt {
    /// Which certificate is refused, from 0; the number of certificates where none of them is.
    pub refused_index: u64,
    /// How many policies user_constrained_policy_set has (6.1.6).
    pub policy_count: u64,
    /// How many octets they have.
    pub policies_len: u64,
    /// The step that refuses (der_step), where the result is 104; else 0.
    pub step: u32,
    /// 0.
    pub reserved: u32,
}

/// What a list says of a certificate (RFC 5280 6.3.3): `der_list_status_at`.
#[repr(C)]
#[derive(Clone, Copy, Debug, Default, PartialEq, Eq)]
pub struct ListStatusAt {
    /// When, in seconds from 1970-01-01T00:00:00Z; 0 if the certificate is not revoked.
    pub revocation_date: u64,
    /// 1 or 0.
    pub is_revoked: u32,
    /// One of der_reason: why it is revoked; unspecified where the entry has no reason.
    pub reason: u32,
    /// The reasons for which certificates stand in the list, as bits of ReasonFlags.
    pub reasons: u32,
    /// The step that refuses (der_list_step), where the result is 107; else 0.
    pub step: u32,
}

/// What lists say of a certificate (RFC 5280 6.3.3): `der_revocation_status_at`.
#[repr(C)]
#[derive(Clone, Copy, Debug, Default, PartialEq, Eq)]
pub struct RevocationStatusAt {
    /// When, in seconds from 1970-01-01T00:00:00Z; 0 if the certificate is not revoked.
    pub revocation_date: u64,
    /// Which list is not read, from 0; the number of lists where each is.
    pub refused_index: u64,
    /// 0: not revoked, 1: revoked, 2: the lists do not tell; one of der_revocation.
    pub status: u32,
    /// One of der_reason: why it is revoked; unspecified where the entry has no reason.
    pub reason: u32,
    /// Known reasons, as bits of ReasonFlags, where the lists do not tell; else 0.
    pub reasons: u32,
    /// 0.
    pub reserved: u32,
}

/// What is asked of an answer of OCSP, with places within the octets (RFC 6960 3.2, 4.1.1): `der_ocsp_inputs`.
#[repr(C)]
#[derive(Clone, Copy, Debug, Default, PartialEq, Eq)]
pub struct OcspInputs {
    /// In seconds from 1970-01-01T00:00:00Z.
    pub moment: u64,
    /// A BasicOCSPResponse.
    pub answer: Place,
    /// The Name of the certificate's issuer.
    pub issuer: Place,
    /// The contents octets of the hash algorithm's identifier: 2B 0E 03 02 1A for SHA-1.
    pub algorithm: Place,
    /// The hash value of the issuer's name, by this algorithm.
    pub name_hash: Place,
    /// The hash value of the issuer's public key: of the octets of the BIT STRING subjectPublicKey.
    pub key_hash: Place,
    /// The contents octets of the certificate's serial number.
    pub serial: Place,
}

/// Who may have signed an answer (RFC 6960 4.2.2.2): `der_responder_at`.
#[repr(C)]
#[derive(Clone, Copy, Debug, Default, PartialEq, Eq)]
pub struct ResponderAt {
    /// Which certificate of the answer, from 0; 0 for the issuer.
    pub index: u64,
    /// 1: the issuer of the certificate; 0: the holder of a certificate of the answer.
    pub is_issuer: u32,
    /// 0.
    pub reserved: u32,
}

/// What an answer says of a certificate: `der_ocsp_status_at`.
#[repr(C)]
#[derive(Clone, Copy, Debug, Default, PartialEq, Eq)]
pub struct OcspStatusAt {
    /// In seconds from 1970-01-01T00:00:00Z.
    pub this_update: u64,
    /// 0 if it is absent.
    pub next_update: u64,
    /// 0 if the certificate is not revoked.
    pub revocation_time: u64,
    /// How many may have signed the answer.
    pub responder_count: u64,
    /// How many octets the hash value of the responder's key has.
    pub key_hash_len: u64,
    /// 0: good, 1: revoked, 2: unknown.
    pub status: u32,
    /// One of der_reason: why it is revoked; unspecified where there is no reason.
    pub reason: u32,
    /// 1: the answer names its responder by the hash value of a key; 0: by a name.
    pub has_key_hash: u32,
    /// The step that refuses (der_ocsp_step), where the result is 108; else 0.
    pub step: u32,
}

const _: () = assert!(
    core::mem::size_of::<PathInputs>() == 56
        && core::mem::size_of::<VerificationAt>() == 40
        && core::mem::size_of::<PathAt>() == 32
        && core::mem::size_of::<ListStatusAt>() == 24
        && core::mem::size_of::<RevocationStatusAt>() == 32
        && core::mem::size_of::<OcspInputs>() == 56
        && core::mem::size_of::<ResponderAt>() == 16
        && core::mem::size_of::<OcspStatusAt>() == 56,
    "the structs of der.h"
);
// end of structs of checks

#[allow(missing_docs)]
extern "C" {
    pub fn der_abi_version() -> u32;
    pub fn der_number_text(number: u32) -> *const core::ffi::c_char;
    // written by tools/bindings: calls
    pub fn der_certificate(octets: *const u8, len: usize, out: *mut CertificateAt, fault: *mut Fault) -> u32;
    pub fn der_extension(octets: *const u8, len: usize, out: *mut ExtensionAt, fault: *mut Fault) -> u32;
    pub fn der_certificate_list(octets: *const u8, len: usize, out: *mut CertificateListAt, fault: *mut Fault) -> u32;
    pub fn der_revoked_certificate(
        octets: *const u8,
        len: usize,
        out: *mut RevokedCertificateAt,
        fault: *mut Fault,
    ) -> u32;
    pub fn der_subject_public_key_info(
        octets: *const u8,
        len: usize,
        out: *mut SubjectPublicKeyInfoAt,
        fault: *mut Fault,
    ) -> u32;
    pub fn der_private_key_info(octets: *const u8, len: usize, out: *mut PrivateKeyInfoAt, fault: *mut Fault) -> u32;
    pub fn der_certification_request(
        octets: *const u8,
        len: usize,
        out: *mut CertificationRequestAt,
        fault: *mut Fault,
    ) -> u32;
    pub fn der_ocsp_response(octets: *const u8, len: usize, out: *mut OcspResponseAt, fault: *mut Fault) -> u32;
    pub fn der_basic_ocsp_response(
        octets: *const u8,
        len: usize,
        out: *mut BasicOcspResponseAt,
        fault: *mut Fault,
    ) -> u32;
    pub fn der_single_response(octets: *const u8, len: usize, out: *mut SingleResponseAt, fault: *mut Fault) -> u32;
    pub fn der_content_info(octets: *const u8, len: usize, out: *mut ContentInfoAt, fault: *mut Fault) -> u32;
    pub fn der_signed_data(octets: *const u8, len: usize, out: *mut SignedDataAt, fault: *mut Fault) -> u32;
    pub fn der_signer_info(octets: *const u8, len: usize, out: *mut SignerInfoAt, fault: *mut Fault) -> u32;
    pub fn der_attribute_type_and_value(
        octets: *const u8,
        len: usize,
        out: *mut AttributeTypeAndValueAt,
        fault: *mut Fault,
    ) -> u32;
    pub fn der_attribute(octets: *const u8, len: usize, out: *mut AttributeAt, fault: *mut Fault) -> u32;
    pub fn der_algorithm_identifier(
        octets: *const u8,
        len: usize,
        out: *mut AlgorithmIdentifierAt,
        fault: *mut Fault,
    ) -> u32;
    pub fn der_rsassa_pss_params(octets: *const u8, len: usize, out: *mut RsassaPssParamsAt, fault: *mut Fault) -> u32;
    pub fn der_ecdsa_sig_value(octets: *const u8, len: usize, out: *mut EcdsaSigValueAt, fault: *mut Fault) -> u32;
    pub fn der_pbes2_params(octets: *const u8, len: usize, out: *mut Pbes2ParamsAt, fault: *mut Fault) -> u32;
    pub fn der_pbkdf2_params(octets: *const u8, len: usize, out: *mut Pbkdf2ParamsAt, fault: *mut Fault) -> u32;
    pub fn der_rsa_public_key(octets: *const u8, len: usize, out: *mut RsaPublicKeyAt, fault: *mut Fault) -> u32;
    pub fn der_rsa_private_key(octets: *const u8, len: usize, out: *mut RsaPrivateKeyAt, fault: *mut Fault) -> u32;
    pub fn der_ec_private_key(octets: *const u8, len: usize, out: *mut EcPrivateKeyAt, fault: *mut Fault) -> u32;
    pub fn der_encrypted_private_key_info(
        octets: *const u8,
        len: usize,
        out: *mut EncryptedPrivateKeyInfoAt,
        fault: *mut Fault,
    ) -> u32;
    pub fn der_authority_key_identifier(
        octets: *const u8,
        len: usize,
        out: *mut AuthorityKeyIdentifierAt,
        fault: *mut Fault,
    ) -> u32;
    pub fn der_policy_information(
        octets: *const u8,
        len: usize,
        out: *mut PolicyInformationAt,
        fault: *mut Fault,
    ) -> u32;
    pub fn der_policy_qualifier_info(
        octets: *const u8,
        len: usize,
        out: *mut PolicyQualifierInfoAt,
        fault: *mut Fault,
    ) -> u32;
    pub fn der_policy_mapping(octets: *const u8, len: usize, out: *mut PolicyMappingAt, fault: *mut Fault) -> u32;
    pub fn der_basic_constraints(octets: *const u8, len: usize, out: *mut BasicConstraintsAt, fault: *mut Fault) -> u32;
    pub fn der_name_constraints(octets: *const u8, len: usize, out: *mut NameConstraintsAt, fault: *mut Fault) -> u32;
    pub fn der_general_subtree(octets: *const u8, len: usize, out: *mut GeneralSubtreeAt, fault: *mut Fault) -> u32;
    pub fn der_policy_constraints(
        octets: *const u8,
        len: usize,
        out: *mut PolicyConstraintsAt,
        fault: *mut Fault,
    ) -> u32;
    pub fn der_distribution_point(
        octets: *const u8,
        len: usize,
        out: *mut DistributionPointAt,
        fault: *mut Fault,
    ) -> u32;
    pub fn der_access_description(
        octets: *const u8,
        len: usize,
        out: *mut AccessDescriptionAt,
        fault: *mut Fault,
    ) -> u32;
    pub fn der_issuing_distribution_point(
        octets: *const u8,
        len: usize,
        out: *mut IssuingDistributionPointAt,
        fault: *mut Fault,
    ) -> u32;
    pub fn der_ocsp_request(octets: *const u8, len: usize, out: *mut OcspRequestAt, fault: *mut Fault) -> u32;
    pub fn der_tbs_request(octets: *const u8, len: usize, out: *mut TbsRequestAt, fault: *mut Fault) -> u32;
    pub fn der_request(octets: *const u8, len: usize, out: *mut RequestAt, fault: *mut Fault) -> u32;
    pub fn der_cert_id(octets: *const u8, len: usize, out: *mut CertIdAt, fault: *mut Fault) -> u32;
    pub fn der_issuer_and_serial_number(
        octets: *const u8,
        len: usize,
        out: *mut IssuerAndSerialNumberAt,
        fault: *mut Fault,
    ) -> u32;
    pub fn der_enveloped_data(octets: *const u8, len: usize, out: *mut EnvelopedDataAt, fault: *mut Fault) -> u32;
    pub fn der_encrypted_content_info(
        octets: *const u8,
        len: usize,
        out: *mut EncryptedContentInfoAt,
        fault: *mut Fault,
    ) -> u32;
    pub fn der_key_trans_recipient_info(
        octets: *const u8,
        len: usize,
        out: *mut KeyTransRecipientInfoAt,
        fault: *mut Fault,
    ) -> u32;
    pub fn der_encrypted_data(octets: *const u8, len: usize, out: *mut EncryptedDataAt, fault: *mut Fault) -> u32;
    pub fn der_signing_certificate_v2(
        octets: *const u8,
        len: usize,
        out: *mut SigningCertificateV2At,
        fault: *mut Fault,
    ) -> u32;
    pub fn der_ess_cert_idv2(octets: *const u8, len: usize, out: *mut EssCertIdv2At, fault: *mut Fault) -> u32;
    pub fn der_time_stamp_req(octets: *const u8, len: usize, out: *mut TimeStampReqAt, fault: *mut Fault) -> u32;
    pub fn der_message_imprint(octets: *const u8, len: usize, out: *mut MessageImprintAt, fault: *mut Fault) -> u32;
    pub fn der_time_stamp_resp(octets: *const u8, len: usize, out: *mut TimeStampRespAt, fault: *mut Fault) -> u32;
    pub fn der_pki_status_info(octets: *const u8, len: usize, out: *mut PkiStatusInfoAt, fault: *mut Fault) -> u32;
    pub fn der_tst_info(octets: *const u8, len: usize, out: *mut TstInfoAt, fault: *mut Fault) -> u32;
    pub fn der_accuracy(octets: *const u8, len: usize, out: *mut AccuracyAt, fault: *mut Fault) -> u32;
    pub fn der_pfx(octets: *const u8, len: usize, out: *mut PfxAt, fault: *mut Fault) -> u32;
    pub fn der_mac_data(octets: *const u8, len: usize, out: *mut MacDataAt, fault: *mut Fault) -> u32;
    pub fn der_digest_info(octets: *const u8, len: usize, out: *mut DigestInfoAt, fault: *mut Fault) -> u32;
    pub fn der_safe_bag(octets: *const u8, len: usize, out: *mut SafeBagAt, fault: *mut Fault) -> u32;
    pub fn der_cert_bag(octets: *const u8, len: usize, out: *mut CertBagAt, fault: *mut Fault) -> u32;
    // end of calls
    pub fn der_unsigned_integer(octets: *const u8, len: usize, out: *mut u64, fault: *mut Fault) -> u32;
    pub fn der_time(octets: *const u8, len: usize, out: *mut u64, fault: *mut Fault) -> u32;
    pub fn der_fractional_time(octets: *const u8, len: usize, out: *mut u64, fault: *mut Fault) -> u32;
    pub fn der_named_bits(octets: *const u8, len: usize, out: *mut u32, fault: *mut Fault) -> u32;
    pub fn der_general_name(octets: *const u8, len: usize, out: *mut u32, fault: *mut Fault) -> u32;
    pub fn der_check_rfc5280(octets: *const u8, len: usize, broken: *mut u64, fault: *mut Fault) -> u32;
    pub fn der_check_rfc5280_list(octets: *const u8, len: usize, broken: *mut u64, fault: *mut Fault) -> u32;
    pub fn der_canonical(
        name: *const u8,
        name_len: usize,
        octets: *const u8,
        len: usize,
        buffer: *mut u8,
        buffer_len: usize,
        written: *mut usize,
        fault: *mut Fault,
    ) -> u32;
    pub fn der_next_encoding(octets: *const u8, len: usize, last: *const Place) -> Place;
    pub fn der_contents(octets: *const u8, len: usize, place: *const Place) -> Place;
    pub fn der_signed_octets(octets: *const u8, len: usize) -> Place;
    pub fn der_check_path(
        octets: *const u8,
        len: usize,
        inputs: *const PathInputs,
        chain: *const Place,
        count: usize,
        verifications: *mut VerificationAt,
        room: usize,
        policies: *mut u8,
        policies_size: usize,
        out: *mut PathAt,
        fault: *mut Fault,
    ) -> u32;
    pub fn der_step_text(step: u32) -> *const core::ffi::c_char;
    pub fn der_list_status(
        octets: *const u8,
        len: usize,
        certificate: *const Place,
        list: *const Place,
        moment: u64,
        out: *mut ListStatusAt,
        fault: *mut Fault,
    ) -> u32;
    pub fn der_revocation_status(
        octets: *const u8,
        len: usize,
        certificate: *const Place,
        lists: *const Place,
        count: usize,
        moment: u64,
        use_deltas: u32,
        out: *mut RevocationStatusAt,
        fault: *mut Fault,
    ) -> u32;
    pub fn der_ocsp_status(
        octets: *const u8,
        len: usize,
        inputs: *const OcspInputs,
        responders: *mut ResponderAt,
        room: usize,
        key_hash: *mut u8,
        key_hash_size: usize,
        out: *mut OcspStatusAt,
        fault: *mut Fault,
    ) -> u32;
    pub fn der_list_step_text(step: u32) -> *const core::ffi::c_char;
    pub fn der_ocsp_step_text(step: u32) -> *const core::ffi::c_char;
    // written by tools/bindings: writing calls
    pub fn der_write_tbs_certificate(
        octets: *const u8,
        len: usize,
        at: *const CertificateAt,
        buffer: *mut u8,
        buffer_len: usize,
        written: *mut usize,
        fault: *mut Fault,
    ) -> u32;
    pub fn der_write_certificate(
        octets: *const u8,
        len: usize,
        at: *const CertificateAt,
        buffer: *mut u8,
        buffer_len: usize,
        written: *mut usize,
        fault: *mut Fault,
    ) -> u32;
    pub fn der_write_extension(
        octets: *const u8,
        len: usize,
        at: *const ExtensionAt,
        buffer: *mut u8,
        buffer_len: usize,
        written: *mut usize,
        fault: *mut Fault,
    ) -> u32;
    pub fn der_write_tbs_cert_list(
        octets: *const u8,
        len: usize,
        at: *const CertificateListAt,
        buffer: *mut u8,
        buffer_len: usize,
        written: *mut usize,
        fault: *mut Fault,
    ) -> u32;
    pub fn der_write_certificate_list(
        octets: *const u8,
        len: usize,
        at: *const CertificateListAt,
        buffer: *mut u8,
        buffer_len: usize,
        written: *mut usize,
        fault: *mut Fault,
    ) -> u32;
    pub fn der_write_revoked_certificate(
        octets: *const u8,
        len: usize,
        at: *const RevokedCertificateAt,
        buffer: *mut u8,
        buffer_len: usize,
        written: *mut usize,
        fault: *mut Fault,
    ) -> u32;
    pub fn der_write_certification_request_info(
        octets: *const u8,
        len: usize,
        at: *const CertificationRequestAt,
        buffer: *mut u8,
        buffer_len: usize,
        written: *mut usize,
        fault: *mut Fault,
    ) -> u32;
    pub fn der_write_certification_request(
        octets: *const u8,
        len: usize,
        at: *const CertificationRequestAt,
        buffer: *mut u8,
        buffer_len: usize,
        written: *mut usize,
        fault: *mut Fault,
    ) -> u32;
    pub fn der_write_ocsp_response(
        octets: *const u8,
        len: usize,
        at: *const OcspResponseAt,
        buffer: *mut u8,
        buffer_len: usize,
        written: *mut usize,
        fault: *mut Fault,
    ) -> u32;
    pub fn der_write_response_data(
        octets: *const u8,
        len: usize,
        at: *const BasicOcspResponseAt,
        buffer: *mut u8,
        buffer_len: usize,
        written: *mut usize,
        fault: *mut Fault,
    ) -> u32;
    pub fn der_write_basic_ocsp_response(
        octets: *const u8,
        len: usize,
        at: *const BasicOcspResponseAt,
        buffer: *mut u8,
        buffer_len: usize,
        written: *mut usize,
        fault: *mut Fault,
    ) -> u32;
    pub fn der_write_single_response(
        octets: *const u8,
        len: usize,
        at: *const SingleResponseAt,
        buffer: *mut u8,
        buffer_len: usize,
        written: *mut usize,
        fault: *mut Fault,
    ) -> u32;
    pub fn der_write_ocsp_request(
        octets: *const u8,
        len: usize,
        at: *const OcspRequestAt,
        buffer: *mut u8,
        buffer_len: usize,
        written: *mut usize,
        fault: *mut Fault,
    ) -> u32;
    pub fn der_write_tbs_request(
        octets: *const u8,
        len: usize,
        at: *const TbsRequestAt,
        buffer: *mut u8,
        buffer_len: usize,
        written: *mut usize,
        fault: *mut Fault,
    ) -> u32;
    pub fn der_write_request(
        octets: *const u8,
        len: usize,
        at: *const RequestAt,
        buffer: *mut u8,
        buffer_len: usize,
        written: *mut usize,
        fault: *mut Fault,
    ) -> u32;
    pub fn der_write_cert_id(
        octets: *const u8,
        len: usize,
        at: *const CertIdAt,
        buffer: *mut u8,
        buffer_len: usize,
        written: *mut usize,
        fault: *mut Fault,
    ) -> u32;
    // end of writing calls
    pub fn der_write_encoding(
        identifier: u32,
        contents: *const u8,
        len: usize,
        buffer: *mut u8,
        buffer_len: usize,
        written: *mut usize,
        fault: *mut Fault,
    ) -> u32;
    pub fn der_write_bit_string(
        octets: *const u8,
        len: usize,
        buffer: *mut u8,
        buffer_len: usize,
        written: *mut usize,
        fault: *mut Fault,
    ) -> u32;
    pub fn der_write_named_bits(
        octets: *const u8,
        len: usize,
        buffer: *mut u8,
        buffer_len: usize,
        written: *mut usize,
        fault: *mut Fault,
    ) -> u32;
    pub fn der_write_unsigned_integer(
        octets: *const u8,
        len: usize,
        buffer: *mut u8,
        buffer_len: usize,
        written: *mut usize,
        fault: *mut Fault,
    ) -> u32;
    pub fn der_write_ed25519_key(
        octets: *const u8,
        len: usize,
        buffer: *mut u8,
        buffer_len: usize,
        written: *mut usize,
        fault: *mut Fault,
    ) -> u32;
    pub fn der_write_p256_key(
        octets: *const u8,
        len: usize,
        buffer: *mut u8,
        buffer_len: usize,
        written: *mut usize,
        fault: *mut Fault,
    ) -> u32;
    pub fn der_write_rsa_key(
        octets: *const u8,
        len: usize,
        buffer: *mut u8,
        buffer_len: usize,
        written: *mut usize,
        fault: *mut Fault,
    ) -> u32;
    pub fn der_write_name_attribute(
        type_: *const u8,
        type_len: usize,
        text: *const u8,
        text_len: usize,
        buffer: *mut u8,
        buffer_len: usize,
        written: *mut usize,
        fault: *mut Fault,
    ) -> u32;
    pub fn der_write_time(
        seconds: u64,
        buffer: *mut u8,
        buffer_len: usize,
        written: *mut usize,
        fault: *mut Fault,
    ) -> u32;
    pub fn der_write_generalized_time(
        seconds: u64,
        buffer: *mut u8,
        buffer_len: usize,
        written: *mut usize,
        fault: *mut Fault,
    ) -> u32;
}
