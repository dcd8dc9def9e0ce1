/* The calls that write messages from parts. build FILE.., each a message in DER: what was read is written again, and the octets
 * are those of the file. The last line counts what was tried. */
#include "check.h"

static uint8_t message[1 << 20], written[1 << 20], room[1 << 20];

/* whether a call wrote these octets, and leaves buffers that are too short as they are */
#define WRITES(call, at, expected, expected_len)                                                                   \
    do {                                                                                                           \
        size_t count = 7, size;                                                                                    \
        der_fault fault;                                                                                           \
        FILL(fault);                                                                                               \
        memset(room, 0x5a, (expected_len) + 2);                                                                    \
        check(der_write_##call(octets, len, at, room, (expected_len) + 1, &count, &fault) == 0, #call);            \
        check(count == (expected_len) && memcmp(room, expected, count) == 0, #call " writes the same octets");     \
        check(room[expected_len] == 0x5a, "the octet behind them is as it was");                                   \
        IS_FILLED(fault, der_fault);                                                                               \
        for (size = 0; size < (expected_len); size += 1 + (expected_len) / 8) {                                    \
            memset(room, 0x5a, size + 1);                                                                          \
            count = 7;                                                                                             \
            check(der_write_##call(octets, len, at, room, size, &count, NULL) == DER_SHORT_BUFFER, #call ": short"); \
            check(count == (expected_len) && is_unwritten(size + 1), #call ": the buffer is as it was");           \
        }                                                                                                          \
        check(der_write_##call(octets, len, at, NULL, 0, &count, NULL) == DER_SHORT_BUFFER, #call ": no buffer");  \
        check(der_write_##call(NULL, len, at, room, 1, &count, NULL) == DER_NULL_POINTER, #call ": no octets");    \
        check(der_write_##call(octets, len, at, NULL, 1, &count, NULL) == DER_NULL_POINTER, #call ": null");       \
    } while (0)

static int is_unwritten(size_t size)
{
    size_t i;
    for (i = 0; i < size; i++)
        if (room[i] != 0x5a)
            return 0;
    return 1;
}

/* whether a call refuses with this number, and leaves the buffer and the count as they are */
#define REFUSES(wanted, call)                                                                                      \
    do {                                                                                                           \
        size_t count = 7;                                                                                          \
        der_fault fault = {0, 9, 9};                                                                               \
        memset(room, 0x5a, 64);                                                                                    \
        check((call) == (wanted) && fault.number == (wanted) && count == 7 && is_unwritten(64), #call);            \
    } while (0)

static void extensions(const uint8_t *octets, size_t len, const der_place *field)
{
    der_place left = der_extensions(octets, len, field);
    der_extension_at at;
    while (left.length > 0 && der_next_extension(octets, len, &left, &at, NULL) == 0)
        WRITES(extension, &at, octets + at.whole.offset, at.whole.length);
}

static int certificate(const uint8_t *octets, size_t len)
{
    der_certificate_at at, other;
    if (der_certificate(octets, len, &at, NULL) != 0)
        return 0;
    WRITES(tbs_certificate, &at, octets + at.tbs_certificate.offset, at.tbs_certificate.length);
    WRITES(certificate, &at, octets, len);
    extensions(octets, len, &at.extensions);
    other = at;
    other.issuer = at.serial_number;
    REFUSES(DER_TAG_UNEXPECTED, der_write_tbs_certificate(octets, len, &other, room, sizeof room, &count, &fault));
    other.serial_number.offset = (uint32_t)len;
    REFUSES(DER_BAD_PLACE, der_write_tbs_certificate(octets, len, &other, room, sizeof room, &count, &fault));
    other.serial_number.length = 0;
    REFUSES(DER_INCOMPLETE, der_write_tbs_certificate(octets, len, &other, room, sizeof room, &count, &fault));
    other.not_after = 253402300800;
    REFUSES(DER_DATE_TIME, der_write_tbs_certificate(octets, len, &other, room, sizeof room, &count, &fault));
    other.version_number = 256;
    REFUSES(DER_VALUE, der_write_tbs_certificate(octets, len, &other, room, sizeof room, &count, &fault));
    return 1;
}

static int list(const uint8_t *octets, size_t len)
{
    der_certificate_list_at at;
    der_revoked_certificate_at entry;
    der_place left;
    if (der_certificate_list(octets, len, &at, NULL) != 0)
        return 0;
    WRITES(tbs_cert_list, &at, octets + at.tbs_cert_list.offset, at.tbs_cert_list.length);
    WRITES(certificate_list, &at, octets, len);
    extensions(octets, len, &at.crl_extensions);
    left = der_items(octets, len, &at.revoked_certificates);
    while (left.length > 0 && der_next_revoked_certificate(octets, len, &left, &entry, NULL) == 0)
        WRITES(revoked_certificate, &entry, octets + entry.whole.offset, entry.whole.length);
    return 1;
}

static int request(const uint8_t *octets, size_t len)
{
    der_certification_request_at at;
    if (der_certification_request(octets, len, &at, NULL) != 0)
        return 0;
    WRITES(certification_request_info, &at, octets + at.certification_request_info.offset,
           at.certification_request_info.length);
    WRITES(certification_request, &at, octets, len);
    at.attributes.length = 0;
    REFUSES(DER_INCOMPLETE, der_write_certification_request_info(octets, len, &at, room, sizeof room, &count, &fault));
    return 1;
}

static int ocsp_request(const uint8_t *octets, size_t len)
{
    der_ocsp_request_at at;
    der_tbs_request_at tbs;
    der_request_at one;
    der_cert_id_at id;
    der_place place;
    if (der_ocsp_request(octets, len, &at, NULL) != 0)
        return 0;
    WRITES(ocsp_request, &at, octets, len);
    octets += at.tbs_request.offset;
    len = at.tbs_request.length;
    check(der_tbs_request(octets, len, &tbs, NULL) == 0, "der_tbs_request");
    WRITES(tbs_request, &tbs, octets, len);
    place = der_items(octets, len, &tbs.request_list);
    place.length = 0;
    place = der_next_encoding(octets, len, &place);
    octets += place.offset;
    len = place.length;
    check(der_request(octets, len, &one, NULL) == 0, "der_request");
    WRITES(request, &one, octets, len);
    octets += one.req_cert.offset;
    len = one.req_cert.length;
    check(der_cert_id(octets, len, &id, NULL) == 0, "der_cert_id");
    WRITES(cert_id, &id, octets, len);
    return 1;
}

static int ocsp_response(const uint8_t *octets, size_t len)
{
    der_ocsp_response_at at;
    der_basic_ocsp_response_at basic;
    der_single_response_at single;
    der_place left;
    if (der_ocsp_response(octets, len, &at, NULL) != 0)
        return 0;
    WRITES(ocsp_response, &at, octets, len);
    at.response_status_number = 4;
    REFUSES(DER_VALUE, der_write_ocsp_response(octets, len, &at, room, sizeof room, &count, &fault));
    left = der_contents(octets, len, &at.response);
    octets += left.offset;
    len = left.length;
    if (der_basic_ocsp_response(octets, len, &basic, NULL) != 0)
        return 1;
    WRITES(response_data, &basic, octets + basic.tbs_response_data.offset, basic.tbs_response_data.length);
    WRITES(basic_ocsp_response, &basic, octets, len);
    left = der_items(octets, len, &basic.responses);
    while (left.length > 0 && der_next_single_response(octets, len, &left, &single, NULL) == 0)
        WRITES(single_response, &single, octets + single.whole.offset, single.whole.length);
    return 1;
}

/* whether a call wrote these octets */
#define GIVES(call, ...)                                                                     \
    do {                                                                                     \
        static const uint8_t expected[] = {__VA_ARGS__};                                     \
        size_t count = 0;                                                                    \
        memset(written, 0x5a, sizeof expected + 1);                                          \
        check((call) == 0 && count == sizeof expected, #call);                               \
        check(memcmp(written, expected, sizeof expected) == 0, #call);                       \
        check(written[sizeof expected] == 0x5a, #call);                                      \
    } while (0)
#define OUT_OF(count) written, sizeof written, &count, NULL
#define OUT OUT_OF(count)
#define REFUSED room, sizeof room, &count, &fault

static void values(void)
{
    static const uint8_t common_name[] = {0x55, 4, 3}, country[] = {0x55, 4, 6}, text[] = {'m', 'i', 'l', 'l', 0xff};
    static const uint8_t key[65] = {4};
    der_subject_public_key_info_at info;
    size_t length = 0;
    static const uint8_t five[] = {2, 1, 5}, high[] = {0, 0, 0xc5}, none[] = {0}, signs[] = {6, 0};
    GIVES(der_write_encoding(0x30, five, sizeof five, OUT), 0x30, 3, 2, 1, 5);
    GIVES(der_write_encoding(0xa0, NULL, 0, OUT), 0xa0, 0);
    GIVES(der_write_bit_string(five, sizeof five, OUT), 3, 4, 0, 2, 1, 5);
    GIVES(der_write_bit_string(NULL, 0, OUT), 3, 1, 0);
    GIVES(der_write_named_bits(signs, sizeof signs, OUT), 3, 2, 1, 6);
    GIVES(der_write_named_bits(none, sizeof none, OUT), 3, 1, 0);
    GIVES(der_write_unsigned_integer(high, sizeof high, OUT), 2, 2, 0, 0xc5);
    GIVES(der_write_unsigned_integer(none, sizeof none, OUT), 2, 1, 0);
    GIVES(der_write_time(0, OUT), 0x17, 13, '7', '0', '0', '1', '0', '1', '0', '0', '0', '0', '0', '0', 'Z');
    GIVES(der_write_time(2524607999, OUT), 0x17, 13, '4', '9', '1', '2', '3', '1', '2', '3', '5', '9', '5', '9', 'Z');
    GIVES(der_write_time(2524608000, OUT), 0x18, 15, '2', '0', '5', '0', '0', '1', '0', '1', '0', '0', '0', '0', '0', '0', 'Z');
    GIVES(der_write_generalized_time(1, OUT), 0x18, 15, '1', '9', '7', '0', '0', '1', '0', '1', '0', '0', '0', '0', '0', '1',
          'Z');
    GIVES(der_write_name_attribute(common_name, 3, text, 4, OUT), 0x30, 11, 6, 3, 0x55, 4, 3, 0x0c, 4, 'm', 'i', 'l', 'l');
    GIVES(der_write_name_attribute(country, 3, text, 2, OUT), 0x30, 9, 6, 3, 0x55, 4, 6, 0x13, 2, 'm', 'i');
    REFUSES(DER_VALUE, der_write_name_attribute(country, 3, text, 4, REFUSED));
    REFUSES(DER_UTF8, der_write_name_attribute(common_name, 3, text, 5, REFUSED));
    REFUSES(DER_OID_MALFORMED, der_write_name_attribute(NULL, 0, text, 4, REFUSED));
    GIVES(der_write_ed25519_key(key, 32, OUT), 0x30, 0x2a, 0x30, 5, 6, 3, 0x2b, 0x65, 0x70, 3, 0x21, 0, 4, 0, 0, 0, 0, 0, 0, 0, 0, 0,
          0, 0, 0, 0, 0, 0, 0, 0, 0, 0, 0, 0, 0, 0, 0, 0, 0, 0, 0, 0, 0, 0);
    REFUSES(DER_LENGTH, der_write_ed25519_key(key, 33, REFUSED));
    REFUSES(DER_VALUE, der_write_p256_key(key, 64, REFUSED));
    GIVES(der_write_rsa_key(five, sizeof five, OUT), 0x30, 0x15, 0x30, 13, 6, 9, 0x2a, 0x86, 0x48, 0x86, 0xf7, 0x0d, 1, 1, 1, 5, 0,
          3, 4, 0, 2, 1, 5);
    check(der_write_p256_key(key, 65, OUT_OF(length)) == 0 && length == 91, "a key of P-256");
    check(der_subject_public_key_info(written, length, &info, NULL) == 0, "it is read");
    REFUSES(DER_TAG_UNKNOWN, der_write_encoding(0x0e, five, sizeof five, REFUSED));
    REFUSES(DER_INCOMPLETE, der_write_encoding(0x1f, five, sizeof five, REFUSED));
    REFUSES(DER_NONCANONICAL, der_write_encoding(0x24, five, sizeof five, REFUSED));
    REFUSES(DER_TAG_NUMBER_INVALID, der_write_encoding(256, five, sizeof five, REFUSED));
    REFUSES(DER_LENGTH, der_write_unsigned_integer(NULL, 0, REFUSED));
    REFUSES(DER_DATE_TIME, der_write_time(253402300800, REFUSED));
    REFUSES(DER_DATE_TIME, der_write_generalized_time(UINT64_MAX, REFUSED));
    REFUSES(DER_NULL_POINTER, der_write_bit_string(NULL, 1, REFUSED));
}

int main(int argc, char **argv)
{
    int i;
    values();
    for (i = 1; i < argc; i++) {
        size_t len = read_file(argv[i], message, sizeof message);
        check(certificate(message, len) || list(message, len) || request(message, len) || ocsp_response(message, len) ||
                  ocsp_request(message, len),
              argv[i]);
    }
    return end_of_tests();
}
