/* The fuzzer's calls (fuzz.c) for messages within others, values, texts and comparisons, each on one encoding. */
#include "fuzz.h"

/* a message of places alone, which fill it */
#define INNER(name, type)                                                           \
    do {                                                                            \
        ASK(type, der_##name, o, size);                                             \
        if (answer == 0)                                                            \
            walk(o, all, (const der_place *)&s.at, sizeof s.at / sizeof(der_place)); \
    } while (0)

static void messages(const uint8_t *o, uint32_t size)
{
    der_place all = {0, size};
    /* written by tools/bindings: fuzzed calls */
    INNER(algorithm_identifier, der_algorithm_identifier_at);
    INNER(rsassa_pss_params, der_rsassa_pss_params_at);
    INNER(ecdsa_sig_value, der_ecdsa_sig_value_at);
    INNER(pbes2_params, der_pbes2_params_at);
    INNER(pbkdf2_params, der_pbkdf2_params_at);
    INNER(rsa_public_key, der_rsa_public_key_at);
    INNER(rsa_private_key, der_rsa_private_key_at);
    INNER(ec_private_key, der_ec_private_key_at);
    INNER(encrypted_private_key_info, der_encrypted_private_key_info_at);
    INNER(authority_key_identifier, der_authority_key_identifier_at);
    INNER(policy_information, der_policy_information_at);
    INNER(policy_qualifier_info, der_policy_qualifier_info_at);
    INNER(policy_mapping, der_policy_mapping_at);
    INNER(basic_constraints, der_basic_constraints_at);
    INNER(name_constraints, der_name_constraints_at);
    INNER(general_subtree, der_general_subtree_at);
    INNER(policy_constraints, der_policy_constraints_at);
    INNER(distribution_point, der_distribution_point_at);
    INNER(access_description, der_access_description_at);
    INNER(issuing_distribution_point, der_issuing_distribution_point_at);
    INNER(ocsp_request, der_ocsp_request_at);
    INNER(tbs_request, der_tbs_request_at);
    INNER(request, der_request_at);
    INNER(cert_id, der_cert_id_at);
    INNER(issuer_and_serial_number, der_issuer_and_serial_number_at);
    INNER(enveloped_data, der_enveloped_data_at);
    INNER(encrypted_content_info, der_encrypted_content_info_at);
    INNER(key_trans_recipient_info, der_key_trans_recipient_info_at);
    INNER(encrypted_data, der_encrypted_data_at);
    INNER(signing_certificate_v2, der_signing_certificate_v2_at);
    INNER(ess_cert_idv2, der_ess_cert_idv2_at);
    INNER(time_stamp_req, der_time_stamp_req_at);
    INNER(message_imprint, der_message_imprint_at);
    INNER(time_stamp_resp, der_time_stamp_resp_at);
    INNER(pki_status_info, der_pki_status_info_at);
    INNER(tst_info, der_tst_info_at);
    INNER(accuracy, der_accuracy_at);
    INNER(pfx, der_pfx_at);
    INNER(mac_data, der_mac_data_at);
    INNER(digest_info, der_digest_info_at);
    INNER(safe_bag, der_safe_bag_at);
    INNER(cert_bag, der_cert_bag_at);
    /* end of fuzzed calls */
}

/* items one after another: each refusal leaves what is left, and each item is at the front of it */
#define ITEMS(call, type)                                                                                        \
    do {                                                                                                         \
        der_place left = list, before = list;                                                                    \
        der_fault fault;                                                                                         \
        uint32_t answer = 0;                                                                                     \
        type at;                                                                                                 \
        for (; left.length > 0 && answer == 0; calls++) {                                                        \
            before = left;                                                                                       \
            answer = call(o, size, &left, &at, &fault);                                                          \
            CHECK(answer != 0 || left.offset > before.offset);                                                   \
        }                                                                                                        \
        CHECK(answer == 0 || (answer == fault.number && answer <= 17 && memcmp(&left, &before, sizeof left) == 0)); \
        CHECK(is_within(size, left) && left.offset + left.length == size);                                       \
    } while (0)

static void lists(const uint8_t *o, uint32_t size, der_place list)
{
    /* written by tools/bindings: fuzzed lists */
    ITEMS(der_next_extension, der_extension_at);
    ITEMS(der_next_revoked_certificate, der_revoked_certificate_at);
    ITEMS(der_next_single_response, der_single_response_at);
    ITEMS(der_next_signer_info, der_signer_info_at);
    ITEMS(der_next_attribute, der_attribute_at);
    ITEMS(der_next_policy_information, der_policy_information_at);
    ITEMS(der_next_policy_qualifier_info, der_policy_qualifier_info_at);
    ITEMS(der_next_policy_mapping, der_policy_mapping_at);
    ITEMS(der_next_general_subtree, der_general_subtree_at);
    ITEMS(der_next_distribution_point, der_distribution_point_at);
    ITEMS(der_next_access_description, der_access_description_at);
    ITEMS(der_next_request, der_request_at);
    ITEMS(der_next_ess_cert_idv2, der_ess_cert_idv2_at);
    ITEMS(der_next_safe_bag, der_safe_bag_at);
    /* end of fuzzed lists */
}

static void number(const uint8_t *o, uint32_t size, uint32_t header)
{
    uint64_t value = 0;
    CALL(uint64_t, der_unsigned_integer, o, size);
    for (; header < size; header++)
        value = value << 8 | o[header];
    CHECK(s.at == value);
}

#define VALUE(type, call, is_one)              \
    do {                                       \
        ASK(type, call, o, size);              \
        CHECK(answer != 0 || (is_one(s.at)));  \
    } while (0)
#define IS_TIME(value) ((value) <= 253402300799u)
#define IS_BITS(value) ((value) <= 0xffff)
#define IS_KIND(value) ((value) <= 8 && (value) == (o[0] & 31u))

static void values(const uint8_t *o, uint32_t size, uint32_t header)
{
    number(o, size, header);
    VALUE(uint64_t, der_time, IS_TIME);
    VALUE(uint64_t, der_fractional_time, IS_TIME);
    VALUE(uint32_t, der_named_bits, IS_BITS);
    VALUE(uint32_t, der_general_name, IS_KIND);
}

/* a name as text: into a buffer that is long enough, and one that is too short by one; and it matches itself */
static void name(const uint8_t *o, uint32_t size)
{
    size_t length = SIZE_MAX, again = SIZE_MAX;
    uint32_t matches = 7, answer;
    der_fault fault;
    char none = 'x', *text;
    answer = der_name_text(o, size, &none, 0, &length, &fault);
    CHECK(answer != 0 && answer == fault.number && none == 'x');
    CHECK(der_names_match(o, size, o, size, &matches, &fault) == (answer == DER_SHORT_BUFFER ? 0 : answer));
    calls += 2;
    if (answer != DER_SHORT_BUFFER)
        return;
    CHECK(matches == 1);
    text = malloc(length + 1);
    CHECK(text != NULL && der_name_text(o, size, text, length, &again, &fault) == DER_SHORT_BUFFER && again == length);
    CHECK(der_name_text(o, size, text, length + 1, &again, &fault) == 0 && again == length && strlen(text) == length);
    calls += 2;
    free(text);
}

static void identifier(const uint8_t *contents, uint32_t size)
{
    size_t length = der_object_identifier_text(contents, size, NULL, 0);
    char *text = malloc(length + 1);
    CHECK(text != NULL && der_object_identifier_text(contents, size, text, length + 1) == length && strlen(text) == length);
    CHECK(der_object_identifier_is(contents, size, text) == (length > 0));
    calls += 3;
    free(text);
}

/* whether a name is that of a host, where the last octets are the host's */
static void hosts(const uint8_t *o, uint32_t size, uint32_t header)
{
    uint32_t host_len = size < 9 ? size : 9, out = 7, answer;
    const uint8_t *host = o + size - host_len;
    der_fault fault;
    answer = der_names_host(o, size, host, host_len, &out, &fault);
    CHECK(answer == 0 ? out <= 1 : out == 7 && answer == fault.number);
    out = 7;
    CHECK(der_names_address(o, size, host, host_len < 4 ? host_len : 4, &out, &fault) == answer);
    CHECK(answer == 0 ? out <= 1 : out == 7);
    CHECK(der_name_is_of_host(o + header, size - header, host, host_len) <= 1);
    calls += 3;
}

static void requests(const uint8_t *o, uint32_t size)
{
    der_place all = {0, size};
    der_ocsp_request_at whole;
    der_tbs_request_at tbs;
    der_request_at one;
    if (der_ocsp_request(o, size, &whole, NULL) == 0)
        AGAIN(ocsp_request, o, size, &whole, all);
    if (der_tbs_request(o, size, &tbs, NULL) == 0)
        AGAIN(tbs_request, o, size, &tbs, all);
    if (der_request(o, size, &one, NULL) == 0)
        AGAIN(request, o, size, &one, all);
    calls += 3;
}

/* a CertID is that of its own hash values and serial number */
static void cert_id(const uint8_t *o, uint32_t size)
{
    uint32_t out = 7;
    der_place name, key, serial;
    der_cert_id_hashes hashes;
    CALL(der_cert_id_at, der_cert_id, o, size);
    name = der_contents(o, size, &s.at.issuer_name_hash);
    key = der_contents(o, size, &s.at.issuer_key_hash);
    serial = der_contents(o, size, &s.at.serial_number);
    hashes.name = o + name.offset;
    hashes.key = o + key.offset;
    hashes.len = key.length;
    CHECK(der_cert_id_is(o, size, &hashes, o + serial.offset, serial.length, &out, &s.fault) == 0);
    CHECK(out == (name.length == key.length));
    AGAIN(cert_id, o, size, &s.at, ((der_place){0, size}));
    calls++;
}

static void others(const uint8_t *o, uint32_t size)
{
    der_place all = {0, size};
    size_t written = SIZE_MAX;
    uint8_t *buffer = malloc(size);
    der_fault fault;
    uint32_t out = 7, answer = der_issuer_and_serial_number_is(o, size, o, size, &out, &fault);
    CHECK(answer != 0 && answer <= 17 && out == 7);
    CHECK(buffer != NULL && der_signed_attributes(o, size, &all, buffer, size - 1, &written, &fault) == DER_SHORT_BUFFER);
    CHECK(der_signed_attributes(o, size, &all, buffer, size, &written, &fault) == 0 && written == size && buffer[0] == 0x31);
    CHECK(memcmp(buffer + 1, o + 1, size - 1) == 0);
    calls += 3;
    free(buffer);
}

/* a certificate as a chain of its own, with its own key for the anchor's */
static void chain(const uint8_t *o, uint32_t size)
{
    der_path_inputs inputs = {0};
    der_place whole = {0, size};
    der_certificate_at certificate;
    der_verification_at at;
    der_path_at out;
    der_fault fault = {0, 0, 0};
    uint8_t policies[1 << 12];
    uint32_t answer, read = der_certificate(o, size, &certificate, NULL);
    if (read == 0) {
        inputs.moment = certificate.not_before;
        inputs.anchor_name = certificate.issuer;
        inputs.anchor_key = certificate.subject_public_key_info;
    }
    answer = der_check_path(o, size, &inputs, &whole, 1, &at, 1, policies, sizeof policies, &out, &fault);
    CHECK(answer == fault.number && (answer != 0 || read == 0) && out.refused_index <= 1);
    CHECK((out.step != 0) == (answer == DER_STEP_REFUSES) && out.step <= DER_STEP_USER_POLICIES);
    if (answer == 0) {
        CHECK(at.signed_octets.offset == certificate.tbs_certificate.offset && is_within(size, at.parameters));
        CHECK(at.signature.length == certificate.signature_value.length && out.policies_len >= 2 * out.policy_count);
    }
    calls++;
}

/* the octets as a certificate and its list, and as an answer about a certificate of themselves */
static void statuses(const uint8_t *o, uint32_t size)
{
    const der_place whole = {0, size};
    const der_ocsp_inputs inputs = {0, whole, whole, whole, whole, whole, whole};
    der_list_status_at told;
    der_responder_at responders[2];
    der_ocsp_status_at said;
    der_fault fault = {0, 0, 0};
    uint8_t key_hash[64];
    uint32_t answer = der_list_status(o, size, &whole, &whole, 0, &told, &fault);
    CHECK(answer != 0 && answer <= 17 && answer == fault.number && told.step == 0 && told.is_revoked == 0);
    answer = der_ocsp_status(o, size, &inputs, responders, 2, key_hash, sizeof key_hash, &said, &fault);
    CHECK(answer != 0 && answer <= 17 && answer == fault.number && said.step == 0 && said.responder_count == 0);
    calls += 2;
}

void inner_calls(const uint8_t *o, uint32_t size, uint32_t header)
{
    der_place contents = {header, size - header};
    messages(o, size);
    lists(o, size, contents);
    values(o, size, header);
    name(o, size);
    identifier(o + header, size - header);
    hosts(o, size, header);
    cert_id(o, size);
    requests(o, size);
    others(o, size);
    chain(o, size);
    statuses(o, size);
}
