/* What the fuzzer's files share (fuzz.c): checks, calls between canaries, and a walk by the headers alone. */
#ifndef FUZZ_H
#define FUZZ_H
#include <barleypulley/der.h>

#include <stdio.h>
#include <stdlib.h>
#include <string.h>

#define CHECK(e)                                                 \
    do {                                                         \
        if (!(e)) {                                              \
            fprintf(stderr, "not so: %s, line %d\n", #e, __LINE__); \
            abort();                                             \
        }                                                        \
    } while (0)

static const uint64_t CANARY = 0x5a5a5a5a5a5a5a5a;

/* how many calls were made */
extern unsigned long long calls;

/* each call for a message within another, a value, a text or a comparison, on one encoding */
void inner_calls(const uint8_t *o, uint32_t size, uint32_t header);

/* whether a place is within so many octets */
static inline int is_within(size_t len, der_place place)
{
    return place.offset <= len && place.length <= len - place.offset;
}

/* how many octets the tag at an offset has; 0 where none stands there */
static inline uint32_t tag_at(const uint8_t *o, uint32_t at, uint32_t end)
{
    uint32_t count = 1;
    if (at == end || (o[at] & 31) != 31)
        return at < end;
    while (at + count < end && (o[at + count] & 128) != 0)
        count++;
    return at + count < end ? count + 1 : 0;
}

/* how many octets the encoding at an offset has, and its header; 0 where none stands there */
static inline uint32_t encoding_at(const uint8_t *o, uint32_t at, uint32_t end, uint32_t *header)
{
    uint32_t i, count, octets, tag = tag_at(o, at, end), rest = end - at - tag;
    if (tag == 0 || rest == 0)
        return 0;
    octets = o[at + tag];
    count = octets < 128 ? 0 : octets & 127;
    if ((octets >= 128 && count == 0) || count > 4 || rest < 1 + count)
        return 0;
    for (i = 0, octets = count == 0 ? octets : 0; i < count; i++)
        octets = octets << 8 | o[at + tag + 1 + i];
    *header = tag + 1 + count;
    return octets > end - at - *header ? 0 : *header + octets;
}

/* places of fields stand one behind another, fill an encoding from its header on, and each is an encoding or absent */
static inline void walk(const uint8_t *o, der_place whole, const der_place *fields, size_t count)
{
    uint32_t header, at = whole.offset, end = at + whole.length;
    size_t i;
    CHECK(encoding_at(o, at, end, &header) == whole.length);
    at += header;
    for (i = 0; i < count; i++) {
        CHECK(fields[i].offset == at && fields[i].length <= end - at);
        if (fields[i].length > 0)
            CHECK(encoding_at(o, at, end, &header) == fields[i].length);
        at += fields[i].length;
    }
    CHECK(at == end);
}

/* A call between canaries: after a refusal `at` is as it was, and else `fault` is. */
#define ASK(type, call, o, size)                                                                                \
    struct {                                                                                                    \
        uint64_t first;                                                                                         \
        type at;                                                                                                \
        uint64_t second;                                                                                        \
        der_fault fault;                                                                                        \
        uint64_t third;                                                                                         \
    } s, filled;                                                                                                \
    uint32_t answer;                                                                                            \
    memset(&filled, 0x5a, sizeof filled);                                                                       \
    memset(&s, 0x5a, sizeof s);                                                                                 \
    answer = call((size) != 0 ? (o) : NULL, (size), &s.at, &s.fault);                                           \
    calls++;                                                                                                    \
    CHECK(s.first == CANARY && s.second == CANARY && s.third == CANARY);                                        \
    if (answer != 0) {                                                                                          \
        CHECK(answer == s.fault.number && answer <= 17 && s.fault.is_placed <= 1 && s.fault.position <= (size)); \
        CHECK(memcmp(&s.at, &filled.at, sizeof s.at) == 0);                                                     \
    } else                                                                                                      \
        CHECK(memcmp(&s.fault, &filled.fault, sizeof s.fault) == 0)

/* the same in a function that is done after a refusal */
#define CALL(type, call, o, size) \
    ASK(type, call, o, size);     \
    if (answer != 0)              \
    return

/* What was read from a place is written again: the same octets, or fewer where a date had another form, or may be absent and
 * was the first second of 1970. */
#define AGAIN(call, o, size, at, place)                                                                  \
    do {                                                                                                 \
        size_t written = SIZE_MAX, length = (place).length;                                              \
        uint8_t *buffer = malloc(length);                                                                \
        der_fault fault;                                                                                 \
        CHECK(buffer != NULL && der_write_##call(o, size, at, buffer, length, &written, &fault) == 0);   \
        CHECK(written < length || (written == length && memcmp(buffer, (o) + (place).offset, length) == 0)); \
        calls++;                                                                                         \
        free(buffer);                                                                                    \
    } while (0)
#endif
