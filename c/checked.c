/* The calls that have a proved function below them. The Makefile gives the proved functions the names proved_*, which the
 * library does not export. Here a null pointer with a length is refused, and `fault` may be NULL. */
#include "refuse.h"

#include <string.h>

#define CHECKED(name, type)                                                                     \
    uint32_t proved_##name(const uint8_t *octets, size_t len, type *out, der_fault *fault);     \
    uint32_t der_##name(const uint8_t *octets, size_t len, type *out, der_fault *fault)         \
    {                                                                                           \
        der_fault unasked;                                                                      \
        fault = asked(fault, &unasked);                                                         \
        if (is_null(octets, len))                                                               \
            return refuse(DER_NULL_POINTER, fault);                                             \
        return proved_##name(octets, len, out, fault);                                          \
    }

/* written by tools/bindings: checked calls */
CHECKED(certificate, der_certificate_at)
CHECKED(extension, der_extension_at)
CHECKED(certificate_list, der_certificate_list_at)
CHECKED(revoked_certificate, der_revoked_certificate_at)
CHECKED(subject_public_key_info, der_subject_public_key_info_at)
CHECKED(private_key_info, der_private_key_info_at)
CHECKED(certification_request, der_certification_request_at)
CHECKED(ocsp_response, der_ocsp_response_at)
CHECKED(basic_ocsp_response, der_basic_ocsp_response_at)
CHECKED(single_response, der_single_response_at)
CHECKED(content_info, der_content_info_at)
CHECKED(signed_data, der_signed_data_at)
CHECKED(signer_info, der_signer_info_at)
CHECKED(attribute_type_and_value, der_attribute_type_and_value_at)
CHECKED(attribute, der_attribute_at)
CHECKED(algorithm_identifier, der_algorithm_identifier_at)
CHECKED(rsassa_pss_params, der_rsassa_pss_params_at)
CHECKED(ecdsa_sig_value, der_ecdsa_sig_value_at)
CHECKED(pbes2_params, der_pbes2_params_at)
CHECKED(pbkdf2_params, der_pbkdf2_params_at)
CHECKED(rsa_public_key, der_rsa_public_key_at)
CHECKED(rsa_private_key, der_rsa_private_key_at)
CHECKED(ec_private_key, der_ec_private_key_at)
CHECKED(encrypted_private_key_info, der_encrypted_private_key_info_at)
CHECKED(authority_key_identifier, der_authority_key_identifier_at)
CHECKED(policy_information, der_policy_information_at)
CHECKED(policy_qualifier_info, der_policy_qualifier_info_at)
CHECKED(policy_mapping, der_policy_mapping_at)
CHECKED(basic_constraints, der_basic_constraints_at)
CHECKED(name_constraints, der_name_constraints_at)
CHECKED(general_subtree, der_general_subtree_at)
CHECKED(policy_constraints, der_policy_constraints_at)
CHECKED(distribution_point, der_distribution_point_at)
CHECKED(access_description, der_access_description_at)
CHECKED(issuing_distribution_point, der_issuing_distribution_point_at)
CHECKED(ocsp_request, der_ocsp_request_at)
CHECKED(tbs_request, der_tbs_request_at)
CHECKED(request, der_request_at)
CHECKED(cert_id, der_cert_id_at)
CHECKED(issuer_and_serial_number, der_issuer_and_serial_number_at)
CHECKED(enveloped_data, der_enveloped_data_at)
CHECKED(encrypted_content_info, der_encrypted_content_info_at)
CHECKED(key_trans_recipient_info, der_key_trans_recipient_info_at)
CHECKED(encrypted_data, der_encrypted_data_at)
CHECKED(signing_certificate_v2, der_signing_certificate_v2_at)
CHECKED(ess_cert_idv2, der_ess_cert_idv2_at)
CHECKED(time_stamp_req, der_time_stamp_req_at)
CHECKED(message_imprint, der_message_imprint_at)
CHECKED(time_stamp_resp, der_time_stamp_resp_at)
CHECKED(pki_status_info, der_pki_status_info_at)
CHECKED(tst_info, der_tst_info_at)
CHECKED(accuracy, der_accuracy_at)
CHECKED(pfx, der_pfx_at)
CHECKED(mac_data, der_mac_data_at)
CHECKED(digest_info, der_digest_info_at)
CHECKED(safe_bag, der_safe_bag_at)
CHECKED(cert_bag, der_cert_bag_at)
/* end of checked calls */

CHECKED(unsigned_integer, uint64_t)
CHECKED(time, uint64_t)
CHECKED(fractional_time, uint64_t)
CHECKED(named_bits, uint32_t)
CHECKED(general_name, uint32_t)
CHECKED(check_rfc5280, uint64_t)
CHECKED(check_rfc5280_list, uint64_t)

#define CHECKED_NEXT(name, type)                                                                             \
    uint32_t proved_next_##name(const uint8_t *octets, size_t len, der_place *left, type *out, der_fault *fault); \
    uint32_t der_next_##name(const uint8_t *octets, size_t len, der_place *left, type *out, der_fault *fault)     \
    {                                                                                                        \
        der_fault unasked;                                                                                   \
        fault = asked(fault, &unasked);                                                                      \
        if (is_null(octets, len))                                                                            \
            return refuse(DER_NULL_POINTER, fault);                                                          \
        return proved_next_##name(octets, len, left, out, fault);                                            \
    }

/* written by tools/bindings: next calls */
CHECKED_NEXT(extension, der_extension_at)
CHECKED_NEXT(revoked_certificate, der_revoked_certificate_at)
CHECKED_NEXT(single_response, der_single_response_at)
CHECKED_NEXT(signer_info, der_signer_info_at)
CHECKED_NEXT(attribute, der_attribute_at)
CHECKED_NEXT(policy_information, der_policy_information_at)
CHECKED_NEXT(policy_qualifier_info, der_policy_qualifier_info_at)
CHECKED_NEXT(policy_mapping, der_policy_mapping_at)
CHECKED_NEXT(general_subtree, der_general_subtree_at)
CHECKED_NEXT(distribution_point, der_distribution_point_at)
CHECKED_NEXT(access_description, der_access_description_at)
CHECKED_NEXT(request, der_request_at)
CHECKED_NEXT(ess_cert_idv2, der_ess_cert_idv2_at)
CHECKED_NEXT(safe_bag, der_safe_bag_at)
/* end of next calls */

#define CHECKED_WITH(name, type)                                                                                       \
    uint32_t proved_##name(const uint8_t *octets, size_t len, const uint8_t *other, size_t other_len, type *out,       \
                           der_fault *fault);                                                                          \
    uint32_t der_##name(const uint8_t *octets, size_t len, const uint8_t *other, size_t other_len, type *out,          \
                        der_fault *fault)                                                                              \
    {                                                                                                                  \
        der_fault unasked;                                                                                             \
        fault = asked(fault, &unasked);                                                                                \
        if (is_null(octets, len) || is_null(other, other_len))                                                         \
            return refuse(DER_NULL_POINTER, fault);                                                                    \
        return proved_##name(octets, len, other, other_len, out, fault);                                               \
    }

CHECKED_WITH(names_match, uint32_t)
CHECKED_WITH(issuer_and_serial_number_is, uint32_t)
CHECKED_WITH(names_host, uint32_t)
CHECKED_WITH(names_address, uint32_t)
CHECKED_WITH(find_revoked, der_revoked_certificate_at)

uint32_t proved_signed_attributes(const uint8_t *octets, size_t len, const der_place *signed_attrs, uint8_t *buffer,
                                  size_t buffer_len, size_t *written, der_fault *fault);
uint32_t der_signed_attributes(const uint8_t *octets, size_t len, const der_place *signed_attrs, uint8_t *buffer,
                               size_t buffer_len, size_t *written, der_fault *fault)
{
    der_fault unasked;
    fault = asked(fault, &unasked);
    if (is_null(octets, len) || is_null(buffer, buffer_len))
        return refuse(DER_NULL_POINTER, fault);
    return proved_signed_attributes(octets, len, signed_attrs, buffer, buffer_len, written, fault);
}

uint32_t proved_cert_id_is(const uint8_t *octets, size_t len, const uint8_t *name_hash, size_t name_len,
                           const uint8_t *key_hash, size_t key_len, const uint8_t *serial, size_t serial_len, uint32_t *out,
                           der_fault *fault);
uint32_t der_cert_id_is(const uint8_t *octets, size_t len, const der_cert_id_hashes *hashes, const uint8_t *serial,
                        size_t serial_len, uint32_t *out, der_fault *fault)
{
    der_fault unasked;
    fault = asked(fault, &unasked);
    if (is_null(octets, len) || is_null(serial, serial_len) || is_null(hashes->name, hashes->len)
        || is_null(hashes->key, hashes->len))
        return refuse(DER_NULL_POINTER, fault);
    return proved_cert_id_is(octets, len, hashes->name, hashes->len, hashes->key, hashes->len, serial, serial_len, out,
                             fault);
}

#define WRITES(name, type)                                                                                                \
    uint32_t proved_write_##name(const uint8_t *octets, size_t len, const type *at, uint8_t *buffer, size_t buffer_len,  \
                                 size_t *written, der_fault *fault);                                                     \
    uint32_t der_write_##name(const uint8_t *octets, size_t len, const type *at, uint8_t *buffer, size_t buffer_len,     \
                              size_t *written, der_fault *fault)                                                         \
    {                                                                                                                     \
        der_fault unasked;                                                                                                \
        fault = asked(fault, &unasked);                                                                                   \
        if (is_null(octets, len) || is_null(buffer, buffer_len))                                                          \
            return refuse(DER_NULL_POINTER, fault);                                                                       \
        return proved_write_##name(octets, len, at, buffer, buffer_len, written, fault);                                  \
    }

/* written by tools/bindings: writing calls */
WRITES(tbs_certificate, der_certificate_at)
WRITES(certificate, der_certificate_at)
WRITES(extension, der_extension_at)
WRITES(tbs_cert_list, der_certificate_list_at)
WRITES(certificate_list, der_certificate_list_at)
WRITES(revoked_certificate, der_revoked_certificate_at)
WRITES(certification_request_info, der_certification_request_at)
WRITES(certification_request, der_certification_request_at)
WRITES(ocsp_response, der_ocsp_response_at)
WRITES(response_data, der_basic_ocsp_response_at)
WRITES(basic_ocsp_response, der_basic_ocsp_response_at)
WRITES(single_response, der_single_response_at)
WRITES(ocsp_request, der_ocsp_request_at)
WRITES(tbs_request, der_tbs_request_at)
WRITES(request, der_request_at)
WRITES(cert_id, der_cert_id_at)
/* end of writing calls */

#define WRITES_OCTETS(name)                                                                                               \
    uint32_t proved_write_##name(const uint8_t *octets, size_t len, uint8_t *buffer, size_t buffer_len, size_t *written, \
                                 der_fault *fault);                                                                       \
    uint32_t der_write_##name(const uint8_t *octets, size_t len, uint8_t *buffer, size_t buffer_len, size_t *written,    \
                              der_fault *fault)                                                                           \
    {                                                                                                                     \
        der_fault unasked;                                                                                                \
        fault = asked(fault, &unasked);                                                                                   \
        if (is_null(octets, len) || is_null(buffer, buffer_len))                                                          \
            return refuse(DER_NULL_POINTER, fault);                                                                       \
        return proved_write_##name(octets, len, buffer, buffer_len, written, fault);                                      \
    }

WRITES_OCTETS(bit_string)
WRITES_OCTETS(named_bits)
WRITES_OCTETS(unsigned_integer)
WRITES_OCTETS(ed25519_key)
WRITES_OCTETS(p256_key)
WRITES_OCTETS(rsa_key)

#define WRITES_SECONDS(name)                                                                                              \
    uint32_t proved_write_##name(uint64_t seconds, uint8_t *buffer, size_t buffer_len, size_t *written,                   \
                                 der_fault *fault);                                                                       \
    uint32_t der_write_##name(uint64_t seconds, uint8_t *buffer, size_t buffer_len, size_t *written, der_fault *fault)    \
    {                                                                                                                     \
        der_fault unasked;                                                                                                \
        fault = asked(fault, &unasked);                                                                                   \
        if (is_null(buffer, buffer_len))                                                                                  \
            return refuse(DER_NULL_POINTER, fault);                                                                       \
        return proved_write_##name(seconds, buffer, buffer_len, written, fault);                                          \
    }

WRITES_SECONDS(time)
WRITES_SECONDS(generalized_time)

uint32_t proved_write_encoding(uint32_t identifier, const uint8_t *contents, size_t len, uint8_t *buffer, size_t buffer_len,
                               size_t *written, der_fault *fault);
uint32_t der_write_encoding(uint32_t identifier, const uint8_t *contents, size_t len, uint8_t *buffer, size_t buffer_len,
                            size_t *written, der_fault *fault)
{
    der_fault unasked;
    fault = asked(fault, &unasked);
    if (is_null(contents, len) || is_null(buffer, buffer_len))
        return refuse(DER_NULL_POINTER, fault);
    return proved_write_encoding(identifier, contents, len, buffer, buffer_len, written, fault);
}

uint32_t proved_write_name_attribute(const uint8_t *type, size_t type_len, const uint8_t *text, size_t text_len,
                                     uint8_t *buffer, size_t buffer_len, size_t *written, der_fault *fault);
uint32_t der_write_name_attribute(const uint8_t *type, size_t type_len, const uint8_t *text, size_t text_len,
                                  uint8_t *buffer, size_t buffer_len, size_t *written, der_fault *fault)
{
    der_fault unasked;
    fault = asked(fault, &unasked);
    if (is_null(type, type_len) || is_null(text, text_len) || is_null(buffer, buffer_len))
        return refuse(DER_NULL_POINTER, fault);
    return proved_write_name_attribute(type, type_len, text, text_len, buffer, buffer_len, written, fault);
}

/* A null pointer has no octets for the calls that return no number of a fault. */
static size_t there(const uint8_t *octets, size_t len)
{
    return octets != NULL ? len : 0;
}

uint32_t proved_name_is_of_host(const uint8_t *name, size_t name_len, const uint8_t *host, size_t host_len);
uint32_t der_name_is_of_host(const uint8_t *name, size_t name_len, const uint8_t *host, size_t host_len)
{
    return proved_name_is_of_host(name, there(name, name_len), host, there(host, host_len));
}

uint32_t proved_name_text(const uint8_t *octets, size_t len, uint8_t *buffer, size_t size, size_t *length, der_fault *fault);
uint32_t der_name_text(const uint8_t *octets, size_t len, char *buffer, size_t size, size_t *length, der_fault *fault)
{
    der_fault unasked;
    uint8_t *room = (uint8_t *)buffer;
    fault = asked(fault, &unasked);
    if (is_null(octets, len) || is_null(room, size))
        return refuse(DER_NULL_POINTER, fault);
    return proved_name_text(octets, len, room, size, length, fault);
}

size_t proved_object_identifier_text(const uint8_t *contents, size_t len, uint8_t *buffer, size_t size);
size_t der_object_identifier_text(const uint8_t *contents, size_t len, char *buffer, size_t size)
{
    uint8_t *room = (uint8_t *)buffer;
    return proved_object_identifier_text(contents, there(contents, len), room, there(room, size));
}

uint32_t proved_object_identifier_is(const uint8_t *contents, size_t len, const uint8_t *text, size_t text_len);
int der_object_identifier_is(const uint8_t *contents, size_t len, const char *dotted)
{
    return (int)proved_object_identifier_is(contents, there(contents, len), (const uint8_t *)dotted, strlen(dotted));
}

uint32_t proved_canonical(const uint8_t *name, size_t name_len, const uint8_t *octets, size_t len, uint8_t *buffer,
                          size_t buffer_len, size_t *written, der_fault *fault);
uint32_t der_canonical(const uint8_t *name, size_t name_len, const uint8_t *octets, size_t len, uint8_t *buffer,
                       size_t buffer_len, size_t *written, der_fault *fault)
{
    der_fault unasked;
    fault = asked(fault, &unasked);
    if (is_null(name, name_len) || is_null(octets, len) || is_null(buffer, buffer_len))
        return refuse(DER_NULL_POINTER, fault);
    return proved_canonical(name, name_len, octets, len, buffer, buffer_len, written, fault);
}

uint32_t der_canonical_named(const char *name, const uint8_t *octets, size_t len, uint8_t *buffer, size_t buffer_len,
                             size_t *written, der_fault *fault)
{
    der_fault unasked;
    if (name == NULL)
        return refuse(DER_NULL_POINTER, asked(fault, &unasked));
    return der_canonical((const uint8_t *)name, strlen(name), octets, len, buffer, buffer_len, written, fault);
}

uint32_t proved_check_path(const uint8_t *octets, size_t len, const der_path_inputs *inputs, const der_place *chain,
                           size_t count, der_verification_at *verifications, size_t room, uint8_t *policies,
                           size_t policies_size, der_path_at *out, der_fault *fault);
uint32_t der_check_path(const uint8_t *octets, size_t len, const der_path_inputs *inputs, const der_place *chain, size_t count,
                        der_verification_at *verifications, size_t room, uint8_t *policies, size_t policies_size,
                        der_path_at *out, der_fault *fault)
{
    der_fault unasked;
    fault = asked(fault, &unasked);
    if (is_null(octets, len) || (chain == NULL && count != 0) || (verifications == NULL && room != 0)
        || is_null(policies, policies_size))
        return refuse(DER_NULL_POINTER, fault);
    return proved_check_path(octets, len, inputs, chain, count, verifications, room, policies, policies_size, out, fault);
}

uint32_t proved_list_status(const uint8_t *octets, size_t len, const der_place *certificate, const der_place *list,
                            uint64_t moment, der_list_status_at *out, der_fault *fault);
uint32_t der_list_status(const uint8_t *octets, size_t len, const der_place *certificate, const der_place *list, uint64_t moment,
                         der_list_status_at *out, der_fault *fault)
{
    der_fault unasked;
    fault = asked(fault, &unasked);
    if (is_null(octets, len))
        return refuse(DER_NULL_POINTER, fault);
    return proved_list_status(octets, len, certificate, list, moment, out, fault);
}

uint32_t proved_revocation_status(const uint8_t *octets, size_t len, const der_place *certificate, const der_place *lists,
                                  size_t count, uint64_t moment, uint32_t use_deltas, der_revocation_status_at *out,
                                  der_fault *fault);
uint32_t der_revocation_status(const uint8_t *octets, size_t len, const der_place *certificate, const der_place *lists,
                               size_t count, uint64_t moment, uint32_t use_deltas, der_revocation_status_at *out,
                               der_fault *fault)
{
    der_fault unasked;
    fault = asked(fault, &unasked);
    if (is_null(octets, len) || (lists == NULL && count != 0))
        return refuse(DER_NULL_POINTER, fault);
    return proved_revocation_status(octets, len, certificate, lists, count, moment, use_deltas, out, fault);
}

uint32_t proved_ocsp_status(const uint8_t *octets, size_t len, const der_ocsp_inputs *inputs, der_responder_at *responders,
                            size_t room, uint8_t *key_hash, size_t key_hash_size, der_ocsp_status_at *out, der_fault *fault);
uint32_t der_ocsp_status(const uint8_t *octets, size_t len, const der_ocsp_inputs *inputs, der_responder_at *responders,
                         size_t room, uint8_t *key_hash, size_t key_hash_size, der_ocsp_status_at *out, der_fault *fault)
{
    der_fault unasked;
    fault = asked(fault, &unasked);
    if (is_null(octets, len) || (responders == NULL && room != 0) || is_null(key_hash, key_hash_size))
        return refuse(DER_NULL_POINTER, fault);
    return proved_ocsp_status(octets, len, inputs, responders, room, key_hash, key_hash_size, out, fault);
}

#define CHECKED_PLACE(name)                                                               \
    der_place proved_##name(const uint8_t *octets, size_t len, const der_place *place);    \
    der_place der_##name(const uint8_t *octets, size_t len, const der_place *place)        \
    {                                                                                      \
        return proved_##name(octets, there(octets, len), place);                           \
    }

CHECKED_PLACE(next_encoding)
CHECKED_PLACE(contents)
CHECKED_PLACE(items)
CHECKED_PLACE(extensions)
CHECKED_PLACE(bit_string_octets)

der_place proved_signed_octets(const uint8_t *octets, size_t len);
der_place der_signed_octets(const uint8_t *octets, size_t len)
{
    return proved_signed_octets(octets, there(octets, len));
}

void proved_name(const uint8_t *octets, size_t len, const der_place *name, der_name_left *out);
der_name_left der_name(const uint8_t *octets, size_t len, const der_place *name)
{
    der_name_left left;
    proved_name(octets, there(octets, len), name, &left);
    return left;
}

uint32_t proved_has_attribute(const der_name_left *left);
int der_has_attribute(const der_name_left *left)
{
    return (int)proved_has_attribute(left);
}

uint32_t proved_next_name_attribute(const uint8_t *octets, size_t len, der_name_left *left,
                                    der_attribute_type_and_value_at *out, der_fault *fault);
uint32_t der_next_name_attribute(const uint8_t *octets, size_t len, der_name_left *left,
                                 der_attribute_type_and_value_at *out, der_fault *fault)
{
    der_fault unasked;
    fault = asked(fault, &unasked);
    if (is_null(octets, len))
        return refuse(DER_NULL_POINTER, fault);
    return proved_next_name_attribute(octets, len, left, out, fault);
}

uint32_t proved_abi_version(void);
uint32_t der_abi_version(void)
{
    return proved_abi_version();
}
