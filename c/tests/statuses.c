/* What lists and answers say of a certificate: statuses FILE, a certificate in DER. The lists and the answers are written here,
 * and no signature is verified. The last line counts what was tried. */
#include "check.h"

enum { BEFORE = 5, YEAR = 365 * 86400 };

/* The octets: five that are no message, the certificate, and what is written behind it. */
static uint8_t octets[1 << 16];
static size_t len;
static der_certificate_at certificate;
static der_place whole;
static der_fault fault;

/* The place of octets behind the others. */
static der_place put(const uint8_t *from, size_t count)
{
    der_place place = {(uint32_t)len, (uint32_t)count};
    memmove(octets + len, from, count);
    len += count;
    return place;
}

/* The place of what a call writes behind the octets. */
static der_place put_written(uint32_t result, const uint8_t *from, size_t count)
{
    check(result == 0, "it is written");
    return put(from, result == 0 ? count : 0);
}

#define WRITTEN(call, at)                                                                              \
    written(der_write_##call(octets, len, at, room, sizeof room, &count, NULL), &count)

static uint8_t room[1 << 15];
static size_t count;

static der_place written(uint32_t result, const size_t *length)
{
    return put_written(result, room, *length);
}

static der_place encoded(uint32_t identifier, der_place contents)
{
    return written(der_write_encoding(identifier, octets + contents.offset, contents.length, room, sizeof room, &count, NULL),
                   &count);
}

static der_place behind(der_place place)
{
    place.offset += BEFORE;
    return place;
}

static der_place contents(der_place place)
{
    return der_items(octets, len, &place);
}

/* A list of the certificate's issuer, with an entry where a date is given, and these extensions. */
static der_place put_list(uint64_t date, der_place entry_extensions, der_place extensions)
{
    der_certificate_list_at at = {0};
    der_revoked_certificate_at entry = {0};
    at.version_number = 1;
    at.this_update_seconds = certificate.not_before + 10;
    at.next_update_seconds = certificate.not_before + 20;
    at.issuer = behind(certificate.issuer);
    at.signature = at.signature_algorithm = behind(certificate.signature_algorithm);
    at.signature_value = behind(certificate.signature_value);
    at.crl_extensions = extensions;
    entry.user_certificate = behind(certificate.serial_number);
    entry.revocation_date_seconds = date;
    entry.crl_entry_extensions = entry_extensions;
    if (date > 0)
        at.revoked_certificates = encoded(0x30, WRITTEN(revoked_certificate, &entry));
    at.tbs_cert_list = WRITTEN(tbs_cert_list, &at);
    return WRITTEN(certificate_list, &at);
}

/* Extensions of one: its identifier 2.5.29.`last`, and the octets of its value. */
static der_place put_extensions(uint8_t last, int is_critical, const uint8_t *value, size_t length)
{
    const uint8_t identifier[] = {6, 3, 0x55, 0x1d, last};
    der_extension_at at = {0};
    at.extn_id = put(identifier, sizeof identifier);
    at.is_critical = (uint32_t)is_critical;
    at.extn_value = encoded(4, put(value, length));
    return encoded(0x30, WRITTEN(extension, &at));
}

static der_list_status_at told;

/* Asks a list; what the call may write is filled before. */
static uint32_t ask(der_place list, uint64_t moment)
{
    FILL(told);
    FILL(fault);
    return der_list_status(octets, len, &whole, &list, moment, &told, &fault);
}

/* a refusal writes a number and a step, and 0 else */
static void refuses(uint32_t number, uint32_t step, const char *what, uint32_t result)
{
    check(result == number && fault.number == number && told.step == step, what);
    check(told.is_revoked == 0 && told.reason == 0 && told.reasons == 0 && told.revocation_date_seconds == 0, what);
}

static void lists(void)
{
    static const uint8_t held[] = {0x0a, 1, 6}, some[] = {0x30, 4, 0x83, 2, 5, 0x60}, users[] = {0x30, 3, 0x81, 1, 0xff},
                         number[] = {2, 1, 1}, none[] = {5, 0};
    const der_place no = {0, 0};
    const uint64_t now = certificate.not_before + 15;
    der_place empty = put_list(0, no, no), full = put_list(now - YEAR, no, no), list;
    check(ask(empty, now) == 0 && told.is_revoked == 0 && told.reasons == 0x1fe && told.step == 0, "a list without entries");
    check(told.reason == 0 && told.revocation_date_seconds == 0, "no reason");
    IS_FILLED(fault, der_fault);
    check(ask(full, now) == 0 && told.is_revoked == 1 && told.revocation_date_seconds == now - YEAR, "a list with an entry");
    check(told.reason == DER_UNSPECIFIED, "without a reason");
    list = put_list(now, put_extensions(21, 0, held, sizeof held), no);
    check(ask(list, now) == 0 && told.is_revoked == 1 && told.reason == DER_CERTIFICATE_HOLD, "a reason");
    list = put_list(0, no, encoded(0xa0, put_extensions(28, 1, some, sizeof some)));
    check(ask(list, now) == 0 && told.reasons == 6, "a list of two reasons");
    refuses(DER_LIST_REFUSED, DER_LIST_NEXT_UPDATE, "a moment behind it", ask(empty, certificate.not_before + 21));
    refuses(DER_LIST_REFUSED, DER_LIST_THIS_UPDATE, "a moment before it", ask(empty, certificate.not_before + 9));
    list = put_list(0, no, encoded(0xa0, put_extensions(27, 1, number, sizeof number)));
    refuses(DER_LIST_REFUSED, DER_LIST_DELTA, "a delta", ask(list, now));
    list = put_list(0, no, encoded(0xa0, put_extensions(99, 1, none, sizeof none)));
    refuses(DER_LIST_REFUSED, DER_LIST_UNKNOWN_EXTENSION, "an unknown extension", ask(list, now));
    list = put_list(0, no, encoded(0xa0, put_extensions(28, 1, none, sizeof none)));
    refuses(DER_LIST_UNREAD, 0, "an extension that is not read", ask(list, now));
    list = put_list(0, no, encoded(0xa0, put_extensions(28, 1, users, sizeof users)));
    check(ask(list, now) == 0 || told.step == DER_LIST_USER_CERTIFICATES, "a list of end entities");
    list = empty;
    list.length--;
    refuses(DER_INCOMPLETE, 0, "a list that is cut", ask(list, now));
    check(fault.is_placed == 1 && fault.position > empty.offset, "with its position");
    list.offset = (uint32_t)len;
    refuses(DER_BAD_PLACE, 0, "a list outside", ask(list, now));
    check(der_list_status(NULL, len, &whole, &empty, now, &told, NULL) == DER_NULL_POINTER, "no octets");
    check(strcmp(der_list_step_text(DER_LIST_ISSUER), "6.3.3 (b)(1)") == 0, "a step as text");
    check(strcmp(der_list_step_text(99), "no step") == 0 && strcmp(der_ocsp_step_text(0), "no step") == 0, "no step");
}

static der_revocation_status_at status;

static uint32_t ask_lists(const der_place *given, size_t many, uint64_t moment)
{
    FILL(status);
    FILL(fault);
    return der_revocation_status(octets, len, &whole, given, many, moment, 1, &status, &fault);
}

/* lists that tell whatever the points of the certificate are: the issuer's own */
static void several(void)
{
    static const uint8_t some[] = {0x30, 4, 0x83, 2, 5, 0x60}, others[] = {0x30, 5, 0x83, 3, 7, 0x1f, 0x80};
    const der_place no = {0, 0};
    const uint64_t now = certificate.not_before + 15;
    der_place lists[3];
    lists[0] = put_list(0, no, encoded(0xa0, put_extensions(28, 1, some, sizeof some)));
    lists[1] = put_list(0, no, encoded(0xa0, put_extensions(28, 1, others, sizeof others)));
    lists[2] = put_list(now, no, no);
    check(ask_lists(lists, 0, now) == 0 && status.status == DER_UNDETERMINED && status.reasons == 0, "no list");
    check(ask_lists(lists, 1, now) == 0 && status.status == DER_UNDETERMINED && status.reasons == 6, "two reasons");
    check(status.refused_index == 1 && status.reserved == 0 && status.revocation_date_seconds == 0, "no list is refused");
    IS_FILLED(fault, der_fault);
    check(ask_lists(lists, 2, now) == 0 && status.status == DER_UNREVOKED && status.reasons == 0, "all reasons");
    check(ask_lists(lists + 2, 1, now) == 0 && status.status == DER_REVOKED, "an entry");
    check(status.revocation_date_seconds == now && status.reason == DER_UNSPECIFIED, "its date");
    check(ask_lists(lists, 3, now + 10) == 0 && status.status == DER_UNDETERMINED, "a moment behind them");
    lists[1].length--;
    check(ask_lists(lists, 3, now) == DER_INCOMPLETE && fault.number == DER_INCOMPLETE, "a list that is cut");
    check(status.refused_index == 1 && status.status == 0, "which it is");
    check(der_revocation_status(octets, len, &whole, NULL, 1, now, 1, &status, NULL) == DER_NULL_POINTER, "no places");
}

/* A SingleResponse about the certificate, with hash values of one octet each. */
static der_place put_single(uint8_t hash, der_place status)
{
    const uint8_t algorithm[] = {0x30, 7, 6, 5, 0x2b, 0x0e, 3, 2, 0x1a}, name[] = {4, 1, 0x11}, key[] = {4, 1, hash};
    der_cert_id_at id = {0};
    der_single_response_at at = {0};
    id.hash_algorithm = put(algorithm, sizeof algorithm);
    id.issuer_name_hash = put(name, sizeof name);
    id.issuer_key_hash = put(key, sizeof key);
    id.serial_number = behind(certificate.serial_number);
    at.cert_id = WRITTEN(cert_id, &id);
    at.cert_status = status;
    at.this_update_seconds = certificate.not_before + 10;
    at.next_update_seconds = certificate.not_before + 20;
    return WRITTEN(single_response, &at);
}

/* An answer about the certificate, whose responder is named by a key or by the issuer's name. */
static der_place put_answer(der_place single, int is_by_key)
{
    static const uint8_t by_key[] = {0xa2, 5, 4, 3, 7, 8, 9};
    der_basic_ocsp_response_at at = {0};
    at.responder_id = is_by_key ? put(by_key, sizeof by_key) : encoded(0xa1, behind(certificate.issuer));
    at.produced_at_seconds = certificate.not_before + 10;
    at.responses = encoded(0x30, single);
    at.signature_algorithm = behind(certificate.signature_algorithm);
    at.signature = behind(certificate.signature_value);
    at.tbs_response_data = WRITTEN(response_data, &at);
    return WRITTEN(basic_ocsp_response, &at);
}

typedef der_responder_at two[2];
typedef uint8_t buffer[8];
static two responders;
static buffer key_hash;
static der_ocsp_inputs inputs;
static der_ocsp_status_at said;

static uint32_t ask_answer(size_t room_for, size_t size)
{
    FILL(responders);
    FILL(key_hash);
    FILL(said);
    FILL(fault);
    return der_ocsp_status(octets, len, &inputs, responders, room_for, key_hash, size, &said, &fault);
}

static void refuses_answer(uint32_t number, uint32_t step, const char *what)
{
    check(ask_answer(2, sizeof key_hash) == number && fault.number == number && said.step == step, what);
    check(said.responder_count == 0 && said.key_hash_len == 0 && said.this_update_seconds == 0, what);
    IS_FILLED(responders, two);
    IS_FILLED(key_hash, buffer);
}

static void answers(void)
{
    static const uint8_t good[] = {0x80, 0}, sha1[] = {0x2b, 0x0e, 3, 2, 0x1a}, one[] = {0x11}, other[] = {0x12};
    static const uint8_t hold[] = {0x0a, 1, 6};
    der_place is_good = put(good, sizeof good), reason = put(hold, sizeof hold), revoked, answer;
    inputs.moment = certificate.not_before + 15;
    inputs.issuer = behind(certificate.issuer);
    inputs.algorithm = put(sha1, sizeof sha1);
    inputs.name_hash = inputs.key_hash = put(one, 1);
    inputs.serial = contents(behind(certificate.serial_number));
    answer = inputs.answer = put_answer(put_single(0x11, is_good), 0);
    check(ask_answer(2, sizeof key_hash) == 0 && said.cert_status_number == 0 && said.step == 0, "a good certificate");
    check(said.responder_count == 1 && responders[0].is_issuer == 1 && responders[0].index == 0, "the issuer answers");
    check(said.has_key_hash == 0 && said.key_hash_len == 0 && key_hash[0] == 0x5a, "by its name");
    check(said.this_update_seconds == certificate.not_before + 10, "thisUpdate");
    check(said.next_update_seconds == certificate.not_before + 20, "nextUpdate");
    IS_FILLED(fault, der_fault);
    check(ask_answer(0, sizeof key_hash) == DER_SHORT_BUFFER && said.responder_count == 1, "no room");
    IS_FILLED(responders, two);
    inputs.answer = put_answer(put_single(0x11, is_good), 1);
    check(ask_answer(2, 3) == 0 && said.has_key_hash == 1 && said.key_hash_len == 3, "an answer by a key");
    check(key_hash[0] == 7 && key_hash[2] == 9 && key_hash[3] == 0x5a, "its hash value");
    check(ask_answer(2, 2) == DER_SHORT_BUFFER && said.key_hash_len == 3 && key_hash[0] == 0x5a, "no room for it");
    revoked = written(der_write_generalized_time(inputs.moment, room, sizeof room, &count, NULL), &count);
    revoked.length += encoded(0xa0, reason).length;
    inputs.answer = put_answer(put_single(0x11, encoded(0xa1, revoked)), 0);
    check(ask_answer(2, 0) == 0 && said.cert_status_number == 1, "a revoked certificate");
    check(said.reason == DER_CERTIFICATE_HOLD, "a reason");
    check(said.revocation_time_seconds == inputs.moment, "since when");
    inputs.answer = answer;
    inputs.key_hash = put(other, 1);
    refuses_answer(DER_ANSWER_REFUSED, DER_OCSP_NOT_ANSWERED, "another key");
    inputs.key_hash = inputs.name_hash;
    inputs.moment += 10;
    refuses_answer(DER_ANSWER_REFUSED, DER_OCSP_NEXT_UPDATE, "a moment behind it");
    inputs.moment -= 20;
    refuses_answer(DER_ANSWER_REFUSED, DER_OCSP_THIS_UPDATE, "a moment before it");
    inputs.moment += 10;
    inputs.answer.length--;
    refuses_answer(DER_INCOMPLETE, 0, "an answer that is cut");
    inputs.answer = answer;
    inputs.serial.offset = (uint32_t)len;
    refuses_answer(DER_BAD_PLACE, 0, "a serial number outside");
    check(der_ocsp_status(octets, len, &inputs, NULL, 1, key_hash, 8, &said, NULL) == DER_NULL_POINTER, "no array");
    check(der_ocsp_status(octets, len, &inputs, responders, 2, NULL, 8, &said, NULL) == DER_NULL_POINTER, "no buffer");
    check(strcmp(der_ocsp_step_text(DER_OCSP_NOT_ANSWERED), "3.2 (1)") == 0, "a step as text");
}

int main(int argc, char **argv)
{
    size_t size = read_file(argv[argc - 1], octets + BEFORE, argc == 2 ? 1 << 14 : 0);
    if (size == 0) {
        fprintf(stderr, "statuses FILE, a certificate in DER\n");
        return 2;
    }
    len = BEFORE + size;
    whole.offset = BEFORE;
    whole.length = (uint32_t)size;
    check(der_certificate(octets + BEFORE, size, &certificate, NULL) == 0, "the certificate is read");
    lists();
    several();
    answers();
    return end_of_tests();
}
