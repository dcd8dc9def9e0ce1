"""The index of each place of a message, and of each number, by the names of the structs in der.h."""

from types import SimpleNamespace


def _indices(places: str, numbers: str = "") -> SimpleNamespace:
    """The indices of these names, among the places and among the numbers."""
    found = [*enumerate(places.split()), *enumerate(numbers.split())]
    return SimpleNamespace(**{name: index for index, name in found})


# written by tools/bindings: indices
Certificate = _indices(
    "tbs_certificate signature_algorithm signature_value version serial_number signature issuer validity subject "
    "subject_public_key_info issuer_unique_id subject_unique_id extensions",
    "not_before not_after version_number",
)
Extension = _indices("whole extn_id critical extn_value", "is_critical")
CertificateList = _indices(
    "tbs_cert_list signature_algorithm signature_value version signature issuer this_update next_update "
    "revoked_certificates crl_extensions",
    "this_update_seconds next_update_seconds version_number",
)
RevokedCertificate = _indices("whole user_certificate revocation_date crl_entry_extensions", "revocation_date_seconds")
SubjectPublicKeyInfo = _indices("algorithm subject_public_key")
PrivateKeyInfo = _indices("version private_key_algorithm private_key attributes public_key", "version_number")
CertificationRequest = _indices(
    "certification_request_info signature_algorithm signature version subject subject_pk_info attributes",
)
OcspResponse = _indices("response_status response_bytes response_type response", "response_status_number")
BasicOcspResponse = _indices(
    "tbs_response_data signature_algorithm signature certs version responder_id produced_at responses "
    "response_extensions",
    "produced_at_seconds",
)
SingleResponse = _indices(
    "whole cert_id cert_status this_update next_update single_extensions",
    "this_update_seconds next_update_seconds revocation_time_seconds cert_status_number",
)
ContentInfo = _indices("content_type content")
SignedData = _indices(
    "version digest_algorithms encap_content_info certificates crls signer_infos e_content_type e_content",
    "version_number",
)
SignerInfo = _indices(
    "whole version sid digest_algorithm signed_attrs signature_algorithm signature unsigned_attrs",
    "version_number",
)
AttributeTypeAndValue = _indices("whole type value")
Attribute = _indices("whole type values")
AlgorithmIdentifier = _indices("oid parameters")
RsassaPssParams = _indices("hash_algorithm mask_gen_algorithm salt_length trailer_field")
EcdsaSigValue = _indices("r s")
Pbes2Params = _indices("key_derivation_func encryption_scheme")
Pbkdf2Params = _indices("salt iteration_count key_length prf")
RsaPublicKey = _indices("modulus public_exponent")
RsaPrivateKey = _indices(
    "version modulus public_exponent private_exponent prime1 prime2 exponent1 exponent2 coefficient other_prime_infos",
)
EcPrivateKey = _indices("version private_key parameters public_key")
EncryptedPrivateKeyInfo = _indices("encryption_algorithm encrypted_data")
AuthorityKeyIdentifier = _indices("key_identifier authority_cert_issuer authority_cert_serial_number")
PolicyInformation = _indices("policy_identifier policy_qualifiers")
PolicyQualifierInfo = _indices("policy_qualifier_id qualifier")
PolicyMapping = _indices("issuer_domain_policy subject_domain_policy")
BasicConstraints = _indices("ca path_len_constraint")
NameConstraints = _indices("permitted_subtrees excluded_subtrees")
GeneralSubtree = _indices("base minimum maximum")
PolicyConstraints = _indices("require_explicit_policy inhibit_policy_mapping")
DistributionPoint = _indices("distribution_point reasons crl_issuer")
AccessDescription = _indices("access_method access_location")
IssuingDistributionPoint = _indices(
    "distribution_point only_contains_user_certs only_contains_ca_certs only_some_reasons indirect_crl "
    "only_contains_attribute_certs",
)
OcspRequest = _indices("tbs_request optional_signature")
TbsRequest = _indices("version requestor_name request_list request_extensions")
Request = _indices("req_cert single_request_extensions")
CertId = _indices("hash_algorithm issuer_name_hash issuer_key_hash serial_number")
IssuerAndSerialNumber = _indices("issuer serial_number")
EnvelopedData = _indices("version originator_info recipient_infos encrypted_content_info unprotected_attrs")
EncryptedContentInfo = _indices("content_type content_encryption_algorithm encrypted_content")
KeyTransRecipientInfo = _indices("version rid key_encryption_algorithm encrypted_key")
EncryptedData = _indices("version encrypted_content_info unprotected_attrs")
SigningCertificateV2 = _indices("certs policies")
EssCertIdv2 = _indices("hash_algorithm cert_hash issuer_serial")
TimeStampReq = _indices("version message_imprint req_policy nonce cert_req extensions")
MessageImprint = _indices("hash_algorithm hashed_message")
TimeStampResp = _indices("status time_stamp_token")
PkiStatusInfo = _indices("status status_string fail_info")
TstInfo = _indices("version policy message_imprint serial_number gen_time accuracy ordering nonce tsa extensions")
Accuracy = _indices("seconds millis micros")
Pfx = _indices("version auth_safe mac_data")
MacData = _indices("mac mac_salt iterations")
DigestInfo = _indices("digest_algorithm digest")
SafeBag = _indices("bag_id bag_value bag_attributes")
CertBag = _indices("cert_id cert_value")
# end of indices
