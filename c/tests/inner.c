/* The calls that compare messages, and those that write text, on examples. inner FILE, of one certificate in DER. The last
 * line counts what was tried. */
#include "check.h"

/* names, and their texts: the first six are those of RFC 4514 section 4 */
static const struct {
    uint8_t octets[96];
    size_t len;
    const char *text;
} names[] = {
    {{0x30, 0x46, 0x31, 0x13, 0x30, 0x11, 0x06, 0x0a, 0x09, 0x92, 0x26, 0x89, 0x93, 0xf2, 0x2c, 0x64, 0x01, 0x19,
     0x16, 0x03, 0x6e, 0x65, 0x74, 0x31, 0x17, 0x30, 0x15, 0x06, 0x0a, 0x09, 0x92, 0x26, 0x89, 0x93, 0xf2, 0x2c, 0x64,
     0x01, 0x19, 0x16, 0x07, 0x65, 0x78, 0x61, 0x6d, 0x70, 0x6c, 0x65, 0x31, 0x16, 0x30, 0x14, 0x06, 0x0a, 0x09, 0x92,
     0x26, 0x89, 0x93, 0xf2, 0x2c, 0x64, 0x01, 0x01, 0x0c, 0x06, 0x6a, 0x73, 0x6d, 0x69, 0x74, 0x68},
     72, "UID=jsmith,DC=example,DC=net"},
    {{0x30, 0x50, 0x31, 0x13, 0x30, 0x11, 0x06, 0x0a, 0x09, 0x92, 0x26, 0x89, 0x93, 0xf2, 0x2c, 0x64, 0x01, 0x19,
     0x16, 0x03, 0x6e, 0x65, 0x74, 0x31, 0x17, 0x30, 0x15, 0x06, 0x0a, 0x09, 0x92, 0x26, 0x89, 0x93, 0xf2, 0x2c, 0x64,
     0x01, 0x19, 0x16, 0x07, 0x65, 0x78, 0x61, 0x6d, 0x70, 0x6c, 0x65, 0x31, 0x20, 0x30, 0x0c, 0x06, 0x03, 0x55, 0x04,
     0x0b, 0x0c, 0x05, 0x53, 0x61, 0x6c, 0x65, 0x73, 0x30, 0x10, 0x06, 0x03, 0x55, 0x04, 0x03, 0x0c, 0x09, 0x4a, 0x2e,
     0x20, 0x20, 0x53, 0x6d, 0x69, 0x74, 0x68},
     82, "OU=Sales+CN=J.  Smith,DC=example,DC=net"},
    {{0x30, 0x4f, 0x31, 0x13, 0x30, 0x11, 0x06, 0x0a, 0x09, 0x92, 0x26, 0x89, 0x93, 0xf2, 0x2c, 0x64, 0x01, 0x19,
     0x16, 0x03, 0x6e, 0x65, 0x74, 0x31, 0x17, 0x30, 0x15, 0x06, 0x0a, 0x09, 0x92, 0x26, 0x89, 0x93, 0xf2, 0x2c, 0x64,
     0x01, 0x19, 0x16, 0x07, 0x65, 0x78, 0x61, 0x6d, 0x70, 0x6c, 0x65, 0x31, 0x1f, 0x30, 0x1d, 0x06, 0x03, 0x55, 0x04,
     0x03, 0x0c, 0x16, 0x4a, 0x61, 0x6d, 0x65, 0x73, 0x20, 0x22, 0x4a, 0x69, 0x6d, 0x22, 0x20, 0x53, 0x6d, 0x69, 0x74,
     0x68, 0x2c, 0x20, 0x49, 0x49, 0x49},
     81, "CN=James \\\"Jim\\\" Smith\\, III,DC=example,DC=net"},
    {{0x30, 0x45, 0x31, 0x13, 0x30, 0x11, 0x06, 0x0a, 0x09, 0x92, 0x26, 0x89, 0x93, 0xf2, 0x2c, 0x64, 0x01, 0x19,
     0x16, 0x03, 0x6e, 0x65, 0x74, 0x31, 0x17, 0x30, 0x15, 0x06, 0x0a, 0x09, 0x92, 0x26, 0x89, 0x93, 0xf2, 0x2c, 0x64,
     0x01, 0x19, 0x16, 0x07, 0x65, 0x78, 0x61, 0x6d, 0x70, 0x6c, 0x65, 0x31, 0x15, 0x30, 0x13, 0x06, 0x03, 0x55, 0x04,
     0x03, 0x0c, 0x0c, 0x42, 0x65, 0x66, 0x6f, 0x72, 0x65, 0x0d, 0x41, 0x66, 0x74, 0x65, 0x72},
     71, "CN=Before\\0DAfter,DC=example,DC=net"},
    {{0x30, 0x12, 0x31, 0x10, 0x30, 0x0e, 0x06, 0x08, 0x2b, 0x06, 0x01, 0x04, 0x01, 0x8b, 0x3a, 0x00, 0x04, 0x02,
     0x48, 0x69},
     20, "1.3.6.1.4.1.1466.0=#04024869"},
    {{0x30, 0x12, 0x31, 0x10, 0x30, 0x0e, 0x06, 0x03, 0x55, 0x04, 0x03, 0x0c, 0x07, 0x4c, 0x75, 0xc4, 0x8d, 0x69,
     0xc4, 0x87},
     20, "CN=Lučić"},
    {{0x30, 0x0f, 0x31, 0x0d, 0x30, 0x0b, 0x06, 0x03, 0x55, 0x04, 0x03, 0x0c, 0x04, 0x20, 0x23, 0x61, 0x20},
     17, "CN=\\ #a\\ "},
    {{0x30, 0x0d, 0x31, 0x0b, 0x30, 0x09, 0x06, 0x03, 0x55, 0x04, 0x03, 0x0c, 0x02, 0x23, 0x61},
     15, "CN=\\#a"},
    {{0x30, 0x0d, 0x31, 0x0b, 0x30, 0x09, 0x06, 0x03, 0x55, 0x04, 0x0a, 0x1e, 0x02, 0x00, 0x61},
     15, "O=#1E020061"},
    {{0x30, 0x0c, 0x31, 0x0a, 0x30, 0x08, 0x06, 0x03, 0x55, 0x04, 0x0a, 0x13, 0x01, 0xe9},
     14, "O=#1301E9"},
    {{0x30, 0x0b, 0x31, 0x09, 0x30, 0x07, 0x06, 0x03, 0x55, 0x04, 0x03, 0x0c, 0x00},
     13, "CN="},
    {{0x30, 0x00},
     2, ""},
};

static void name_texts(void)
{
    size_t i, size, length;
    for (i = 0; i < sizeof names / sizeof names[0]; i++) {
        char found[128];
        size_t wanted = strlen(names[i].text);
        check(der_name_text(names[i].octets, names[i].len, found, sizeof found, &length, NULL) == 0, names[i].text);
        check(length == wanted && strcmp(found, names[i].text) == 0, names[i].text);
        for (size = 0; size <= wanted; size++) {
            char *room = malloc(size + 1);
            memset(room, 'x', size + 1);
            check(der_name_text(names[i].octets, names[i].len, room, size, &length, NULL) == DER_SHORT_BUFFER, "a short buffer");
            check(length == wanted && room[0] == 'x' && room[size] == 'x', "the buffer is as it was");
            free(room);
        }
        check(der_name_text(names[i].octets, names[i].len - 1, found, sizeof found, &length, NULL) == DER_INCOMPLETE, "cut");
    }
}

static void names_that_match(void)
{
    static const uint8_t mill[] = {0x30, 15, 0x31, 13, 0x30, 11, 6, 3, 0x55, 4, 3, 0x13, 4, 'M', 'I', 'L', 'L'};
    static const uint8_t small[] = {0x30, 16, 0x31, 14, 0x30, 12, 6, 3, 0x55, 4, 3, 0x0c, 5, ' ', 'm', 'i', 'l', 'l'};
    static const uint8_t other[] = {0x30, 15, 0x31, 13, 0x30, 11, 6, 3, 0x55, 4, 3, 0x13, 4, 'M', 'I', 'L', 'K'};
    uint32_t out = 7;
    der_fault fault;
    check(der_names_match(mill, sizeof mill, small, sizeof small, &out, &fault) == 0 && out == 1, "they match");
    check(der_names_match(mill, sizeof mill, other, sizeof other, &out, &fault) == 0 && out == 0, "they do not");
    out = 7;
    check(der_names_match(mill, 5, small, 4, &out, &fault) == DER_INCOMPLETE && out == 7, "the first is refused");
    check(der_names_match(mill, sizeof mill, other, 0, &out, &fault) == DER_INCOMPLETE && out == 7, "the second is refused");
    check(der_names_match(mill, sizeof mill, NULL, 1, &out, NULL) == DER_NULL_POINTER && out == 7, "there is no second");
}

static void identifiers(void)
{
    static const struct {
        uint8_t octets[12];
        size_t len;
        const char *text;
    } rows[] = {{{0x55, 0x1d, 0x11}, 3, "2.5.29.17"}, {{0x2a, 0x86, 0x48, 0x86, 0xf7, 0x0d}, 6, "1.2.840.113549"},
                {{0x00}, 1, "0.0"}, {{0x27}, 1, "0.39"}, {{0x28}, 1, "1.0"}, {{0x4f}, 1, "1.39"}, {{0x50}, 1, "2.0"},
                {{0x88, 0x37, 0x03}, 3, "2.999.3"}, {{0x81, 0xff, 0xff, 0xff, 0xff, 0xff, 0xff, 0xff, 0xff, 0x7f}, 10, "2.18446744073709551535"},
                {{0x82, 0x80, 0x80, 0x80, 0x80, 0x80, 0x80, 0x80, 0x80, 0x00}, 10, ""}, {{0x80, 0x01}, 2, ""}, {{0x55, 0x80, 0x01}, 3, ""},
                {{0x55, 0x81}, 2, ""}, {{0}, 0, ""}};
    size_t i;
    for (i = 0; i < sizeof rows / sizeof rows[0]; i++) {
        char found[32] = "x", little[4] = "xxx";
        size_t length = strlen(rows[i].text), fits = length < 3 ? length : 3;
        check(der_object_identifier_text(rows[i].octets, rows[i].len, found, sizeof found) == length, rows[i].text);
        check(strcmp(found, rows[i].text) == 0, rows[i].text);
        check(der_object_identifier_text(rows[i].octets, rows[i].len, NULL, 0) == length, "the length alone");
        check(der_object_identifier_text(rows[i].octets, rows[i].len, little, sizeof little) == length, "as far as it fits");
        check(strncmp(little, rows[i].text, fits) == 0 && little[fits] == 0, "as far as it fits, with a zero");
        check(der_object_identifier_is(rows[i].octets, rows[i].len, rows[i].text) == (length > 0), "it is the text");
        check(!der_object_identifier_is(rows[i].octets, rows[i].len, "2.5.29.170"), "it is no other");
    }
}

static void hosts(void)
{
    static const uint8_t list[] = {0x30, 21, 0x82, 3, 'a', '.', 'b', 0x82, 5, '*', '.', 'c', '.', 'd', 0x87, 4, 127, 0, 0, 1, 0x82, 1, 'e'};
    static const struct {
        const char *host;
        uint32_t is_named;
    } rows[] = {{"a.b", 1}, {"A.B", 1}, {"x.c.d", 1}, {"c.d", 0}, {"x.y.c.d", 0}, {"e", 1}, {"b", 0}, {"", 0}};
    static const uint8_t octets[5] = {127, 0, 0, 1, 0}, other[4] = {127, 0, 0, 2};
    uint8_t spoilt[sizeof list];
    size_t i;
    uint32_t out;
    der_fault fault;
    for (i = 0; i < sizeof rows / sizeof rows[0]; i++) {
        out = 7;
        check(der_names_host(list, sizeof list, (const uint8_t *)rows[i].host, strlen(rows[i].host), &out, &fault) == 0, rows[i].host);
        check(out == rows[i].is_named, rows[i].host);
    }
    check(der_names_address(list, sizeof list, octets, 4, &out, &fault) == 0 && out == 1, "the address");
    check(der_names_address(list, sizeof list, octets, 5, &out, &fault) == 0 && out == 0, "no address has five octets");
    check(der_names_address(list, sizeof list, other, 4, &out, &fault) == 0 && out == 0, "another address");
    out = 7;
    for (i = 0; i < sizeof list; i++)
        check(der_names_host(list, i, (const uint8_t *)"a.b", 3, &out, &fault) == DER_INCOMPLETE && out == 7, "a beginning");
    memcpy(spoilt, list, sizeof list);
    spoilt[0] = 0x31;
    check(der_names_host(spoilt, sizeof spoilt, (const uint8_t *)"a.b", 3, &out, &fault) == DER_TAG_UNEXPECTED && out == 7, "no SEQUENCE");
    spoilt[0] = 0x30;
    spoilt[1] = 5;
    check(der_names_host(spoilt, sizeof spoilt, (const uint8_t *)"a.b", 3, &out, &fault) == DER_TRAILING_DATA && out == 7, "octets are left");
    spoilt[1] = 21;
    spoilt[20] = 0x8a;
    check(der_names_host(spoilt, sizeof spoilt, (const uint8_t *)"a.b", 3, &out, &fault) == DER_TAG_UNEXPECTED && out == 7, "no name");
    check(der_names_host(NULL, 1, (const uint8_t *)"a.b", 3, &out, NULL) == DER_NULL_POINTER && out == 7, "no octets");
    check(der_names_host(list, sizeof list, NULL, 3, &out, NULL) == DER_NULL_POINTER && out == 7, "no host");
    check(der_name_is_of_host(NULL, 1, NULL, 1) == 0, "a null pointer names no host");
}

/* an IssuerAndSerialNumber of the certificate, and one that differs in the last octet of the serial number */
static void issuer_and_serial_number(const uint8_t *octets, size_t len, const der_certificate_at *at)
{
    static uint8_t named[1 << 16];
    size_t size = (size_t)at->issuer.length + at->serial_number.length;
    uint32_t out = 7;
    der_fault fault;
    if (size > 127 + 4)
        return;
    named[0] = 0x30;
    named[1] = (uint8_t)(size < 128 ? size : 0x81);
    named[2] = (uint8_t)size;
    size = size < 128 ? 2 : 3;
    memcpy(named + size, octets + at->issuer.offset, at->issuer.length);
    size += at->issuer.length;
    memcpy(named + size, octets + at->serial_number.offset, at->serial_number.length);
    size += at->serial_number.length;
    check(der_issuer_and_serial_number_is(named, size, octets, len, &out, &fault) == 0 && out == 1, "it names the certificate");
    named[size - 1] ^= 1;
    check(der_issuer_and_serial_number_is(named, size, octets, len, &out, &fault) == 0 && out == 0, "it names another");
    out = 7;
    check(der_issuer_and_serial_number_is(named, size - 1, octets, len, &out, &fault) == DER_INCOMPLETE && out == 7, "cut");
    check(der_issuer_and_serial_number_is(named, size, octets, len - 1, &out, &fault) == DER_INCOMPLETE && out == 7, "cut");
}

static void cert_ids(void)
{
    static const uint8_t octets[] = {0x30, 24, 0x30, 9, 6, 5, 0x2b, 0x0e, 3, 2, 0x1a, 5, 0, 4, 3, 1, 2, 3, 4, 3, 4, 5, 6, 2, 1, 9};
    static const uint8_t name[] = {1, 2, 3}, key[] = {4, 5, 6}, serial[] = {9, 9};
    der_cert_id_hashes hashes = {name, key, 3}, exchanged = {key, name, 3}, little = {name, key, 2};
    uint32_t out = 7;
    der_fault fault;
    check(der_cert_id_is(octets, sizeof octets - 1, &hashes, serial, 1, &out, &fault) == DER_INCOMPLETE && out == 7, "cut");
    check(der_cert_id_is(octets, sizeof octets, &hashes, serial, 1, &out, &fault) == 0 && out == 1, "it is of the certificate");
    check(der_cert_id_is(octets, sizeof octets, &exchanged, serial, 1, &out, &fault) == 0 && out == 0, "other hash values");
    check(der_cert_id_is(octets, sizeof octets, &little, serial, 1, &out, &fault) == 0 && out == 0, "shorter hash values");
    check(der_cert_id_is(octets, sizeof octets, &hashes, serial, 2, &out, &fault) == 0 && out == 0, "another serial number");
    check(der_cert_id_is(octets, sizeof octets, &hashes, NULL, 1, &out, NULL) == DER_NULL_POINTER, "no serial number");
}

static void signed_attributes(void)
{
    static const uint8_t octets[] = {5, 0, 0xa0, 3, 0x30, 1, 0};
    static const der_place place = {2, 5}, outside = {3, 5}, none = {2, 0};
    uint8_t buffer[6];
    size_t written = 0;
    der_fault fault;
    FILL(buffer);
    check(der_signed_attributes(octets, 7, &place, buffer, 4, &written, &fault) == DER_SHORT_BUFFER && written == 5, "a short buffer");
    check(buffer[0] == 0x5a, "which is as it was");
    check(der_signed_attributes(octets, 7, &place, buffer, 6, &written, &fault) == 0 && written == 5, "the attributes");
    check(buffer[0] == 0x31 && memcmp(buffer + 1, octets + 3, 4) == 0 && buffer[5] == 0x5a, "with the tag of a SET OF");
    check(der_signed_attributes(octets, 7, &outside, buffer, 6, &written, &fault) == DER_BAD_PLACE, "a place outside");
    check(der_signed_attributes(octets, 7, &none, buffer, 6, &written, NULL) == DER_BAD_PLACE, "attributes that are absent");
}

/* the octets of a BIT STRING: none of one that has unused bits, no bits, or is absent */
static void bit_strings(void)
{
    static const uint8_t octets[] = {5, 0, 3, 3, 0, 7, 8, 3, 2, 1, 8, 3, 1, 0};
    static const der_place whole = {2, 5}, unused = {7, 4}, empty = {11, 3}, absent = {11, 0};
    der_place found = der_bit_string_octets(octets, sizeof octets, &whole);
    check(found.offset == 5 && found.length == 2, "the octets of a BIT STRING");
    check(der_bit_string_octets(octets, sizeof octets, &unused).length == 0, "a bit is unused");
    check(der_bit_string_octets(octets, sizeof octets, &empty).length == 0, "no bits");
    check(der_bit_string_octets(octets, sizeof octets, &absent).length == 0, "no BIT STRING");
}

static void revoked(void)
{
    static const uint8_t serial[] = {1};
    der_revoked_certificate_at out;
    der_fault fault;
    FILL(out);
    check(der_find_revoked(serial, 1, serial, 1, &out, &fault) == DER_INCOMPLETE, "no list");
    IS_FILLED(out, der_revoked_certificate_at);
    check(der_find_revoked(serial, 1, NULL, 1, &out, NULL) == DER_NULL_POINTER, "no serial number");
}

int main(int argc, char **argv)
{
    static uint8_t octets[1 << 16];
    size_t len = read_file(argv[argc - 1], octets, argc == 2 ? sizeof octets : 0);
    der_certificate_at at;
    der_fault fault;
    if (len == 0) {
        fprintf(stderr, "inner FILE, of one certificate in DER\n");
        return 2;
    }
    check(der_certificate(octets, len, &at, &fault) == 0, "the certificate is read");
    name_texts();
    names_that_match();
    identifiers();
    hosts();
    issuer_and_serial_number(octets, len, &at);
    cert_ids();
    signed_attributes();
    bit_strings();
    revoked();
    return end_of_tests();
}
