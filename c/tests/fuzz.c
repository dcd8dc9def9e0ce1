/* The calls under libFuzzer. The octets stand right before a page that cannot be read, so that a read behind them faults
 * although the proved functions have no instrumentation. What is passed to be filled stands between canaries. `walk` finds
 * places anew by the headers alone: it is instrumented, and so guides the fuzzer. The last line counts the calls. */
#define _DEFAULT_SOURCE
#include "fuzz.h"

#include <sys/mman.h>

enum { ROOM = 1 << 16, PAGE = 4096 };
unsigned long long calls;

static void extension(const uint8_t *o, uint32_t size)
{
    CALL(der_extension_at, der_extension, o, size);
    CHECK(s.at.whole.offset == 0 && s.at.is_critical <= 1 && s.at.critical.length == 3 * s.at.is_critical);
    walk(o, s.at.whole, &s.at.extn_id, 3);
    AGAIN(extension, o, size, &s.at, s.at.whole);
}

static void entry(const uint8_t *o, uint32_t size)
{
    CALL(der_revoked_certificate_at, der_revoked_certificate, o, size);
    walk(o, s.at.whole, &s.at.user_certificate, 3);
    AGAIN(revoked_certificate, o, size, &s.at, s.at.whole);
}

/* a name that was read has attributes, one behind another, and all of them are read */
static void name(const uint8_t *o, uint32_t size, der_place place)
{
    der_name_left left = der_name(o, size, &place);
    der_attribute_type_and_value_at at;
    der_fault fault;
    while (der_has_attribute(&left)) {
        CHECK(der_next_name_attribute(o, size, &left, &at, &fault) == 0);
        calls++;
        walk(o, at.whole, &at.type, 2);
    }
    CHECK(left.parts.offset == place.offset + place.length);
}

static void certificate(const uint8_t *o, uint32_t size)
{
    der_place all = {0, size}, left;
    der_extension_at at;
    der_fault fault;
    CALL(der_certificate_at, der_certificate, o, size);
    walk(o, all, &s.at.tbs_certificate, 3);
    walk(o, s.at.tbs_certificate, &s.at.version, 10);
    AGAIN(certificate, o, size, &s.at, all);
    AGAIN(tbs_certificate, o, size, &s.at, s.at.tbs_certificate);
    all = der_signed_octets(o, size);
    CHECK(memcmp(&all, &s.at.tbs_certificate, sizeof all) == 0);
    for (left = der_extensions(o, size, &s.at.extensions); left.length > 0;)
        CHECK(der_next_extension(o, size, &left, &at, &fault) == 0);
    CHECK(left.offset == s.at.extensions.offset + s.at.extensions.length);
    name(o, size, s.at.issuer);
    name(o, size, s.at.subject);
}

/* the serial number of an entry is found, in this entry or one before it */
static void find_again(const uint8_t *o, uint32_t size, der_place serial)
{
    der_place value = der_contents(o, size, &serial), found;
    der_revoked_certificate_at at;
    der_fault fault;
    CHECK(der_find_revoked(o, size, o + value.offset, value.length, &at, &fault) == 0);
    calls++;
    found = der_contents(o, size, &at.user_certificate);
    CHECK(at.whole.length > 0 && at.whole.offset <= serial.offset && found.length == value.length
          && memcmp(o + found.offset, o + value.offset, value.length) == 0);
}

static void list(const uint8_t *o, uint32_t size)
{
    der_place all = {0, size}, left;
    der_revoked_certificate_at at;
    der_fault fault;
    CALL(der_certificate_list_at, der_certificate_list, o, size);
    walk(o, all, &s.at.tbs_cert_list, 3);
    walk(o, s.at.tbs_cert_list, &s.at.version, 7);
    AGAIN(certificate_list, o, size, &s.at, all);
    AGAIN(tbs_cert_list, o, size, &s.at, s.at.tbs_cert_list);
    for (left = der_items(o, size, &s.at.revoked_certificates); left.length > 0;)
        CHECK(der_next_revoked_certificate(o, size, &left, &at, &fault) == 0);
    CHECK(left.offset == s.at.revoked_certificates.offset + s.at.revoked_certificates.length);
    if (s.at.revoked_certificates.length > 0)
        find_again(o, size, at.user_certificate);
}

static void key(const uint8_t *o, uint32_t size)
{
    der_place all = {0, size};
    CALL(der_subject_public_key_info_at, der_subject_public_key_info, o, size);
    walk(o, all, &s.at.algorithm, 2);
}

static void attributes(const uint8_t *o, uint32_t size, der_place list)
{
    der_place left = der_items(o, size, &list);
    der_attribute_at at;
    der_fault fault;
    while (left.length > 0) {
        CHECK(der_next_attribute(o, size, &left, &at, &fault) == 0);
        walk(o, at.whole, &at.type, 2);
    }
    CHECK(left.offset == list.offset + list.length);
}

static void private_key(const uint8_t *o, uint32_t size)
{
    der_place all = {0, size};
    CALL(der_private_key_info_at, der_private_key_info, o, size);
    walk(o, all, &s.at.version, 5);
    attributes(o, size, s.at.attributes);
}

static void request(const uint8_t *o, uint32_t size)
{
    der_place all = {0, size};
    CALL(der_certification_request_at, der_certification_request, o, size);
    walk(o, all, &s.at.certification_request_info, 3);
    walk(o, s.at.certification_request_info, &s.at.version, 4);
    AGAIN(certification_request, o, size, &s.at, all);
    /* (the version that is written is 0) */
    if (s.at.version.length == 3 && o[s.at.version.offset + 2] == 0)
        AGAIN(certification_request_info, o, size, &s.at, s.at.certification_request_info);
    name(o, size, s.at.subject);
    attributes(o, size, s.at.attributes);
}

static void status(const uint8_t *o, uint32_t size)
{
    der_place all = {0, size};
    CALL(der_ocsp_response_at, der_ocsp_response, o, size);
    CHECK(s.at.response_status_number >= 0 && s.at.response_status_number <= 6);
    walk(o, all, &s.at.response_status, 2);
    AGAIN(ocsp_response, o, size, &s.at, all);
    if (s.at.response_bytes.length > 0)
        walk(o, der_contents(o, size, &s.at.response_bytes), &s.at.response_type, 2);
    else
        CHECK(s.at.response_type.length == 0 && s.at.response.length == 0);
}

static void basic(const uint8_t *o, uint32_t size)
{
    der_place all = {0, size}, left;
    der_single_response_at at;
    der_fault fault;
    CALL(der_basic_ocsp_response_at, der_basic_ocsp_response, o, size);
    walk(o, all, &s.at.tbs_response_data, 4);
    walk(o, s.at.tbs_response_data, &s.at.version, 5);
    AGAIN(basic_ocsp_response, o, size, &s.at, all);
    AGAIN(response_data, o, size, &s.at, s.at.tbs_response_data);
    for (left = der_items(o, size, &s.at.responses); left.length > 0;)
        CHECK(der_next_single_response(o, size, &left, &at, &fault) == 0);
    CHECK(left.offset == s.at.responses.offset + s.at.responses.length);
}

static void single(const uint8_t *o, uint32_t size)
{
    CALL(der_single_response_at, der_single_response, o, size);
    CHECK(s.at.cert_status_number <= 2);
    walk(o, s.at.whole, &s.at.cert_id, 5);
    AGAIN(single_response, o, size, &s.at, s.at.whole);
}

static void content_info(const uint8_t *o, uint32_t size)
{
    der_place all = {0, size};
    CALL(der_content_info_at, der_content_info, o, size);
    walk(o, all, &s.at.content_type, 2);
}

static void signed_data(const uint8_t *o, uint32_t size)
{
    der_place all = {0, size}, left;
    der_signer_info_at at;
    der_fault fault;
    CALL(der_signed_data_at, der_signed_data, o, size);
    walk(o, all, &s.at.version, 6);
    walk(o, s.at.encap_content_info, &s.at.e_content_type, 2);
    for (left = der_items(o, size, &s.at.signer_infos); left.length > 0;)
        CHECK(der_next_signer_info(o, size, &left, &at, &fault) == 0);
    CHECK(left.offset == s.at.signer_infos.offset + s.at.signer_infos.length);
}

static void signer(const uint8_t *o, uint32_t size)
{
    CALL(der_signer_info_at, der_signer_info, o, size);
    walk(o, s.at.whole, &s.at.version, 7);
    attributes(o, size, s.at.signed_attrs);
    attributes(o, size, s.at.unsigned_attrs);
}

/* the canonical encoding by a name, between canaries, into a room that may be too short: of what is read all octets are written,
 * and else none */
static void canonical(const char *name, const uint8_t *o, uint32_t size, uint32_t room_len)
{
    static uint8_t room[ROOM + 32];
    size_t written = SIZE_MAX;
    der_fault fault;
    uint32_t answer, i;
    memset(room, 0x5a, room_len + 16);
    answer = der_canonical_named(name, o, size, room + 8, room_len, &written, &fault);
    calls++;
    if (answer == 0)
        CHECK(written == size && written <= room_len);
    else if (answer == DER_SHORT_BUFFER)
        CHECK(written == size && written > room_len && fault.number == answer);
    else
        CHECK(answer <= 17 && answer == fault.number && written == SIZE_MAX);
    for (i = 0; i < 8; i++)
        CHECK(room[i] == 0x5a && room[8 + (answer == 0 ? written : 0) + i] == 0x5a);
}

/* a certificate is checked where it is read, and is the encoding that is written where no set is out of order */
static void checked(const uint8_t *o, uint32_t size)
{
    der_certificate_at at;
    der_fault fault, other;
    uint64_t broken = 0x5a5a5a5a;
    uint32_t answer = der_certificate(o, size, &at, &fault);
    CHECK(der_check_rfc5280(o, size, &broken, &other) == answer);
    calls += 3;
    CHECK(answer == 0 ? broken < (uint64_t)1 << 45 : broken == 0x5a5a5a5a && other.number == answer);
    broken = 0x5a5a5a5a;
    answer = der_check_rfc5280_list(o, size, &broken, &other);
    CHECK(answer == 0 ? broken < (uint64_t)1 << 23 : broken == 0x5a5a5a5a && other.number == answer);
    canonical("cert", o, size, size);
    canonical("pkcs8", o, size, size / 2);
    canonical("name", o, size, size + 8);
}

/* each encoding within, as every message that it might be */
static void guide(const uint8_t *o, uint32_t size)
{
    uint32_t header, at = 0, length;
    int i;
    for (i = 0; i < 200 && at < size; i++) {
        length = encoding_at(o, at, size, &header);
        if (length == 0)
            break;
        extension(o + at, size - at);
        entry(o + at, size - at);
        key(o + at, length);
        single(o + at, size - at);
        signer(o + at, size - at);
        basic(o + at, length);
        signed_data(o + at, length);
        canonical("ext", o + at, length, length);
        canonical("intref", o + at, length, length);
        inner_calls(o + at, length, header);
        at += (o[at] & 0x20) != 0 ? header : length;
    }
}

static void any_place(const uint8_t *o, uint32_t size)
{
    der_place place, found;
    if (size < 8)
        return;
    memcpy(&place, o, sizeof place);
    found = der_contents(o, size, &place);
    CHECK(is_within(size, found));
    found = der_next_encoding(o, size, &place);
    CHECK(is_within(size, found));
    found = der_bit_string_octets(o, size, &place);
    CHECK(found.length == 0 || is_within(size, found));
    place.offset %= size;
    place.length %= size;
    found = der_contents(o, size, &place);
    CHECK(is_within(size, found));
    found = der_next_encoding(o, size, &place);
    CHECK(is_within(size, found));
    found = der_bit_string_octets(o, size, &place);
    CHECK(found.length == 0 || is_within(size, found));
    calls += 6;
}

static void tell(void)
{
    fprintf(stderr, "%llu calls\n", calls);
}

int LLVMFuzzerTestOneInput(const uint8_t *data, size_t size)
{
    static uint8_t *room;
    uint8_t *o;
    if (room == NULL) {
        room = mmap(NULL, ROOM + PAGE, PROT_READ | PROT_WRITE, MAP_PRIVATE | MAP_ANONYMOUS, -1, 0);
        CHECK(room != MAP_FAILED && mprotect(room + ROOM, PAGE, PROT_NONE) == 0 && atexit(tell) == 0);
    }
    if (size > ROOM)
        return 0;
    o = room + ROOM - size;
    memcpy(o, data, size);
    certificate(o, (uint32_t)size);
    list(o, (uint32_t)size);
    private_key(o, (uint32_t)size);
    request(o, (uint32_t)size);
    status(o, (uint32_t)size);
    basic(o, (uint32_t)size);
    content_info(o, (uint32_t)size);
    checked(o, (uint32_t)size);
    guide(o, (uint32_t)size);
    any_place(o, (uint32_t)size);
    CHECK(is_within(size, der_signed_octets(o, size)));
    CHECK(memcmp(o, data, size) == 0);
    return 0;
}
