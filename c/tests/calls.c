/* What a caller may hand over: wrong lengths, null pointers, places outside, cut and spoilt octets, and several threads at
 * once. calls FILE, of one certificate in DER. The last line counts what was tried. */
#include "check.h"

#include <pthread.h>

static void refused(const uint8_t *octets, size_t len, uint32_t number, const char *what)
{
    der_certificate_at out;
    der_fault fault;
    FILL(out);
    FILL(fault);
    check(der_certificate(octets, len, &out, &fault) == number && fault.number == number, what);
    IS_FILLED(out, der_certificate_at);
}

/* a call refuses octets with a number, and writes no more than the fault */
#define REFUSES(type, call)                                                                    \
    do {                                                                                       \
        type at;                                                                               \
        der_fault fault;                                                                       \
        FILL(at);                                                                              \
        FILL(fault);                                                                           \
        check(call(octets, len, &at, &fault) == number && fault.number == number, #call);      \
        check(fault.is_placed <= 1 && (fault.is_placed == 1 || fault.position == 0), "a fault"); \
        check(call(octets, len, &at, NULL) == number, #call " with no fault");                 \
        IS_FILLED(at, type);                                                                   \
    } while (0)

static void all_refuse(const uint8_t *octets, size_t len, uint32_t number)
{
    /* written by tools/bindings: refusing calls */
    REFUSES(der_certificate_at, der_certificate);
    REFUSES(der_extension_at, der_extension);
    REFUSES(der_certificate_list_at, der_certificate_list);
    REFUSES(der_revoked_certificate_at, der_revoked_certificate);
    REFUSES(der_subject_public_key_info_at, der_subject_public_key_info);
    REFUSES(der_private_key_info_at, der_private_key_info);
    REFUSES(der_certification_request_at, der_certification_request);
    REFUSES(der_ocsp_response_at, der_ocsp_response);
    REFUSES(der_basic_ocsp_response_at, der_basic_ocsp_response);
    REFUSES(der_single_response_at, der_single_response);
    REFUSES(der_content_info_at, der_content_info);
    REFUSES(der_signed_data_at, der_signed_data);
    REFUSES(der_signer_info_at, der_signer_info);
    REFUSES(der_attribute_type_and_value_at, der_attribute_type_and_value);
    REFUSES(der_attribute_at, der_attribute);
    REFUSES(der_algorithm_identifier_at, der_algorithm_identifier);
    REFUSES(der_rsassa_pss_params_at, der_rsassa_pss_params);
    REFUSES(der_ecdsa_sig_value_at, der_ecdsa_sig_value);
    REFUSES(der_pbes2_params_at, der_pbes2_params);
    REFUSES(der_pbkdf2_params_at, der_pbkdf2_params);
    REFUSES(der_rsa_public_key_at, der_rsa_public_key);
    REFUSES(der_rsa_private_key_at, der_rsa_private_key);
    REFUSES(der_ec_private_key_at, der_ec_private_key);
    REFUSES(der_encrypted_private_key_info_at, der_encrypted_private_key_info);
    REFUSES(der_authority_key_identifier_at, der_authority_key_identifier);
    REFUSES(der_policy_information_at, der_policy_information);
    REFUSES(der_policy_qualifier_info_at, der_policy_qualifier_info);
    REFUSES(der_policy_mapping_at, der_policy_mapping);
    REFUSES(der_basic_constraints_at, der_basic_constraints);
    REFUSES(der_name_constraints_at, der_name_constraints);
    REFUSES(der_general_subtree_at, der_general_subtree);
    REFUSES(der_policy_constraints_at, der_policy_constraints);
    REFUSES(der_distribution_point_at, der_distribution_point);
    REFUSES(der_access_description_at, der_access_description);
    REFUSES(der_issuing_distribution_point_at, der_issuing_distribution_point);
    REFUSES(der_ocsp_request_at, der_ocsp_request);
    REFUSES(der_tbs_request_at, der_tbs_request);
    REFUSES(der_request_at, der_request);
    REFUSES(der_cert_id_at, der_cert_id);
    REFUSES(der_issuer_and_serial_number_at, der_issuer_and_serial_number);
    REFUSES(der_enveloped_data_at, der_enveloped_data);
    REFUSES(der_encrypted_content_info_at, der_encrypted_content_info);
    REFUSES(der_key_trans_recipient_info_at, der_key_trans_recipient_info);
    REFUSES(der_encrypted_data_at, der_encrypted_data);
    REFUSES(der_signing_certificate_v2_at, der_signing_certificate_v2);
    REFUSES(der_ess_cert_idv2_at, der_ess_cert_idv2);
    REFUSES(der_time_stamp_req_at, der_time_stamp_req);
    REFUSES(der_message_imprint_at, der_message_imprint);
    REFUSES(der_time_stamp_resp_at, der_time_stamp_resp);
    REFUSES(der_pki_status_info_at, der_pki_status_info);
    REFUSES(der_tst_info_at, der_tst_info);
    REFUSES(der_accuracy_at, der_accuracy);
    REFUSES(der_pfx_at, der_pfx);
    REFUSES(der_mac_data_at, der_mac_data);
    REFUSES(der_digest_info_at, der_digest_info);
    REFUSES(der_safe_bag_at, der_safe_bag);
    REFUSES(der_cert_bag_at, der_cert_bag);
    /* end of refusing calls */
    REFUSES(uint64_t, der_check_rfc5280);
    REFUSES(uint64_t, der_check_rfc5280_list);
}

static void lengths(void)
{
    static const uint8_t few[4] = {0x30, 0x82, 0x01, 0x00};
    all_refuse(NULL, 0, DER_INCOMPLETE);
    all_refuse(few, 0, DER_INCOMPLETE);
    all_refuse(few, 4, DER_INCOMPLETE);
    /* nothing is read of these */
    all_refuse(NULL, 1, DER_NULL_POINTER);
    all_refuse(NULL, SIZE_MAX, DER_NULL_POINTER);
    all_refuse(few, (size_t)1 << 32, DER_OVERFLOW);
    all_refuse(few, SIZE_MAX >> 1, DER_OVERFLOW);
    all_refuse(few, SIZE_MAX, DER_OVERFLOW);
}

/* the calls that read one value refuse these octets, and write no more than the fault */
static void values(void)
{
    static const struct {
        uint8_t octets[8];
        size_t len;
        uint32_t number, time;
    } rows[] = {{{0x02, 1, 5, 0}, 4, DER_TRAILING_DATA, DER_TAG_UNEXPECTED},
                {{0x02, 2, 0, 5}, 4, DER_NONCANONICAL, DER_TAG_UNEXPECTED},
                {{0x02, 1, 0x80}, 3, DER_VALUE, DER_TAG_UNEXPECTED},
                {{0x02, 2, 5}, 3, DER_INCOMPLETE, DER_TAG_UNEXPECTED},
                {{0x17, 1, 0x5a}, 3, DER_TAG_UNEXPECTED, DER_VALUE}};
    size_t i;
    for (i = 0; i < sizeof rows / sizeof rows[0]; i++) {
        const uint8_t *octets = rows[i].octets;
        size_t len = rows[i].len;
        uint32_t number = rows[i].number;
        REFUSES(uint64_t, der_unsigned_integer);
        number = rows[i].time;
        REFUSES(uint64_t, der_time);
        number = DER_TAG_UNEXPECTED;
        REFUSES(uint64_t, der_fractional_time);
        REFUSES(uint32_t, der_named_bits);
        REFUSES(uint32_t, der_general_name);
    }
}

/* what they write */
static void written_values(void)
{
    static const uint8_t number[] = {0x02, 9, 0, 255, 255, 255, 255, 255, 255, 255, 255};
    static const uint8_t utc[] = "\x17\x0d" "700101000001Z", general[] = "\x18\x0f" "20380119031408Z";
    static const uint8_t fraction[] = "\x18\x12" "19910506234540.25Z";
    static const uint8_t usage[] = {0x03, 2, 1, 0x06}, all[] = {0x03, 3, 0, 0xff, 0xff}, none[] = {0x03, 1, 0};
    static const uint8_t host[] = {0x82, 1, 'a'}, address[] = {0x87, 4, 127, 0, 0, 1}, directory[] = {0xa4, 2, 0x30, 0};
    uint64_t wide = 0;
    uint32_t bits = 0;
    check(der_unsigned_integer(number, sizeof number, &wide, NULL) == 0 && wide == UINT64_MAX, "the greatest number");
    check(der_time(utc, sizeof utc - 1, &wide, NULL) == 0 && wide == 1, "a UTCTime");
    check(der_time(general, sizeof general - 1, &wide, NULL) == 0 && wide == 2147483648u, "a GeneralizedTime");
    check(der_time(fraction, sizeof fraction - 1, &wide, NULL) == DER_VALUE, "no fraction of a second");
    check(der_fractional_time(fraction, sizeof fraction - 1, &wide, NULL) == 0 && wide == 673573540, "a fraction of a second");
    check(der_named_bits(usage, sizeof usage, &bits, NULL) == 0 && bits == (DER_KEY_CERT_SIGN | DER_CRL_SIGN), "a KeyUsage");
    check(der_named_bits(all, sizeof all, &bits, NULL) == 0 && bits == 0xffff, "16 bits");
    check(der_named_bits(none, sizeof none, &bits, NULL) == 0 && bits == 0, "no bits");
    check(der_general_name(host, sizeof host, &bits, NULL) == 0 && bits == DER_DNS_NAME, "a dNSName");
    check(der_general_name(address, sizeof address, &bits, NULL) == 0 && bits == DER_IP_ADDRESS, "an iPAddress");
    check(der_general_name(directory, sizeof directory, &bits, NULL) == 0 && bits == DER_DIRECTORY_NAME, "a directoryName");
}

/* a call that takes the next of what is left refuses a place outside, and leaves it */
#define LEAVES(type, call)                                                                          \
    do {                                                                                            \
        type at;                                                                                    \
        der_place rest = left;                                                                      \
        FILL(at);                                                                                   \
        check(call(octets, 2, &rest, &at, &fault) == DER_BAD_PLACE && fault.number == DER_BAD_PLACE, #call); \
        check(call(octets, 2, &rest, &at, NULL) == DER_BAD_PLACE, #call " with no fault");          \
        check(rest.offset == left.offset && rest.length == left.length, "what is left is as it was"); \
        IS_FILLED(at, type);                                                                        \
    } while (0)

static void place_outside(const uint8_t *octets, size_t len, der_place left)
{
    der_fault fault;
    der_attribute_type_and_value_at attribute;
    der_name_left name = {left, {0, 0}};
    check(is_within(2, der_contents(octets, 2, &left)), "contents within two octets");
    check(is_within(len, der_contents(octets, len, &left)), "contents within the octets");
    check(is_within(2, der_bit_string_octets(octets, 2, &left)), "octets of bits within two octets");
    check(is_within(len, der_bit_string_octets(octets, len, &left)), "octets of bits within the octets");
    check(is_within(2, der_next_encoding(octets, 2, &left)), "an encoding within two octets");
    check(is_within(len, der_next_encoding(octets, len, &left)), "an encoding within the octets");
    /* written by tools/bindings: next calls */
    LEAVES(der_extension_at, der_next_extension);
    LEAVES(der_revoked_certificate_at, der_next_revoked_certificate);
    LEAVES(der_single_response_at, der_next_single_response);
    LEAVES(der_signer_info_at, der_next_signer_info);
    LEAVES(der_attribute_at, der_next_attribute);
    LEAVES(der_policy_information_at, der_next_policy_information);
    LEAVES(der_policy_qualifier_info_at, der_next_policy_qualifier_info);
    LEAVES(der_policy_mapping_at, der_next_policy_mapping);
    LEAVES(der_general_subtree_at, der_next_general_subtree);
    LEAVES(der_distribution_point_at, der_next_distribution_point);
    LEAVES(der_access_description_at, der_next_access_description);
    LEAVES(der_request_at, der_next_request);
    LEAVES(der_ess_cert_idv2_at, der_next_ess_cert_idv2);
    LEAVES(der_safe_bag_at, der_next_safe_bag);
    /* end of next calls */
    check(der_next_name_attribute(octets, 2, &name, &attribute, &fault) == DER_BAD_PLACE, "no attribute outside");
    check(memcmp(&name.parts, &left, sizeof left) == 0 && name.attributes.length == 0, "the name is as it was");
}

static void places_outside(const uint8_t *octets, size_t len)
{
    static const der_place places[] = {{3, 1}, {0, 4294967295u}, {4294967295u, 4294967295u}, {4294967295u, 1}};
    size_t i;
    for (i = 0; i < sizeof places / sizeof places[0]; i++)
        place_outside(octets, len, places[i]);
}

/* a null pointer with a length: a number, or the place of no octets */
static void null_pointers(void)
{
    der_place place = {0, 2}, left = {1, 3};
    der_place none = {0, 0};
    der_place found[4];
    der_extension_at extension;
    der_attribute_type_and_value_at attribute;
    der_name_left name = {{1, 3}, {0, 0}};
    der_fault fault;
    size_t i;
    found[0] = der_contents(NULL, 4, &place);
    found[1] = der_next_encoding(NULL, 4, &place);
    found[2] = der_signed_octets(NULL, 4);
    found[3] = der_bit_string_octets(NULL, 4, &place);
    for (i = 0; i < 4; i++)
        check(memcmp(&found[i], &none, sizeof none) == 0, "no octets at a null pointer");
    check(der_next_extension(NULL, 4, &left, &extension, &fault) == DER_NULL_POINTER, "no extension at a null pointer");
    check(der_next_name_attribute(NULL, 4, &name, &attribute, &fault) == DER_NULL_POINTER, "no attribute there");
}

/* what is no name is refused as one, and is left as it was */
static void no_names(void)
{
    static const struct {
        uint8_t octets[8];
        uint32_t len, number;
    } rows[] = {{{0x30, 2, 0x31, 0}, 4, DER_INCOMPLETE},          /* a part with no attribute */
                {{0x30, 2, 0x31, 1, 0}, 4, DER_BAD_PLACE},        /* a part that is longer than the name */
                {{0x30, 4, 0x31, 2, 0x30, 0}, 6, DER_INCOMPLETE}, /* an attribute with no type */
                {{0x30, 4, 0x31, 2, 0x05, 0}, 6, DER_TAG_UNEXPECTED}};
    size_t i;
    for (i = 0; i < sizeof rows / sizeof rows[0]; i++) {
        der_place all = {0, rows[i].len};
        der_name_left left = der_name(rows[i].octets, rows[i].len, &all), before = left;
        der_attribute_type_and_value_at attribute;
        der_fault fault;
        check(der_has_attribute(&left), "there is something in the name");
        check(der_next_name_attribute(rows[i].octets, rows[i].len, &left, &attribute, &fault) == rows[i].number, "no name");
        check(fault.number == rows[i].number, "the fault has the number");
        check(der_next_name_attribute(rows[i].octets, rows[i].len, &left, &attribute, NULL) == rows[i].number, "with no fault");
        check(memcmp(&left, &before, sizeof left) == 0, "the name is as it was");
    }
}

/* each beginning of a certificate is refused, and so is it with an octet behind it */
static void cut(const uint8_t *octets, size_t len)
{
    size_t n;
    for (n = 0; n < len; n++) {
        /* in room of their own, so that valgrind sees a read behind them */
        uint8_t *copy = malloc(n);
        if (n > 0)
            memcpy(copy, octets, n);
        refused(copy, n, DER_INCOMPLETE, "a beginning is refused");
        check(is_within(n, der_signed_octets(copy, n)), "signed octets within a beginning");
        free(copy);
    }
    refused(octets, len + 1, DER_TRAILING_DATA, "an octet is left over");
}

/* with any one octet changed the answer is a number, and all places are within the octets */
static void spoilt(const uint8_t *octets, size_t len)
{
    uint8_t *copy = malloc(len);
    size_t n;
    memcpy(copy, octets, len);
    for (n = 0; n < len; n++) {
        der_certificate_at out;
        der_fault fault;
        uint32_t answer;
        copy[n] ^= 0xff;
        answer = der_certificate(copy, len, &out, &fault);
        check(answer <= 17, "a number of FORMAT.md");
        check(answer != 0 || (is_within(len, out.extensions) && is_within(len, out.signature_value)),
              "places within the octets");
        copy[n] ^= 0xff;
    }
    free(copy);
}

struct task {
    const uint8_t *octets;
    size_t len;
    der_certificate_at out;
    int agrees;
};

static void *read_often(void *argument)
{
    struct task *task = argument;
    int i;
    task->agrees = 1;
    for (i = 0; i < 2000; i++) {
        der_certificate_at out;
        der_fault fault;
        task->agrees &= der_certificate(task->octets, task->len, &out, &fault) == 0
                        && memcmp(&out, &task->out, sizeof out) == 0;
    }
    return NULL;
}

static void threads(const uint8_t *octets, size_t len, const der_certificate_at *out)
{
    pthread_t thread[4];
    struct task task[4];
    int i;
    for (i = 0; i < 4; i++) {
        struct task one = {octets, len, *out, 0};
        task[i] = one;
        check(pthread_create(&thread[i], NULL, read_often, &task[i]) == 0, "a thread");
    }
    for (i = 0; i < 4; i++) {
        pthread_join(thread[i], NULL);
        check(task[i].agrees, "four threads read the same");
    }
}

static void texts(void)
{
    uint32_t number;
    for (number = 0; number <= 17; number++)
        check(strcmp(der_number_text(number), "no such number") != 0, "each number has words");
    check(strcmp(der_number_text(18), "no such number") == 0, "18 is no number");
    check(strcmp(der_number_text(DER_BAD_PLACE), "no such number") != 0, "100 is one");
    check(strcmp(der_number_text(DER_NULL_POINTER), "no such number") != 0, "101 is one");
    check(strcmp(der_number_text(DER_UNKNOWN_NAME), "no such number") != 0, "102 is one");
    check(strcmp(der_number_text(DER_SHORT_BUFFER), "no such number") != 0, "103 is one");
    for (number = 104; number <= 109; number++)
        check(strcmp(der_number_text(number), "no such number") != 0, "a refusal of a chain or a status has words");
    check(strcmp(der_number_text(110), "no such number") == 0, "110 is none");
    check(strcmp(der_number_text(4294967295u), "no such number") == 0, "nor is the greatest");
    for (number = DER_STEP_VALIDITY; number <= DER_STEP_USER_POLICIES; number++)
        check(strncmp(der_step_text(number), "6.1.", 4) == 0, "each step has a letter");
    check(strcmp(der_step_text(DER_STEP_KEY_USAGE), "6.1.4 (n)") == 0, "its own");
    check(strcmp(der_step_text(0), "no step") == 0 && strcmp(der_step_text(13), "no step") == 0, "0 and 13 are no steps");
}

int main(int argc, char **argv)
{
    static uint8_t octets[1 << 16];
    size_t len = read_file(argv[argc - 1], octets, argc == 2 ? sizeof octets - 1 : 0);
    der_certificate_at out;
    der_fault fault;
    if (len == 0) {
        fprintf(stderr, "calls FILE, of one certificate in DER\n");
        return 2;
    }
    FILL(fault);
    check(der_abi_version() == DER_ABI_VERSION, "the version of the library is that of the header");
    check(der_certificate(octets, len, &out, &fault) == 0, "the certificate is read");
    IS_FILLED(fault, der_fault);
    texts();
    lengths();
    values();
    written_values();
    places_outside(octets, len);
    null_pointers();
    no_names();
    cut(octets, len);
    spoilt(octets, len);
    threads(octets, len, &out);
    return end_of_tests();
}
