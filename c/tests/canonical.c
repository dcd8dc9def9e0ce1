/* The canonical encoding by the name of a type: names, rooms that are too short, null pointers and great lengths.
 * canonical FILE, of one certificate in DER. The last line counts what was tried. */
#include "check.h"

enum { ROOM = 1 << 16 };

/* A call over a room of so many octets, which ends where what is lent for it does, so that valgrind sees a write behind it:
 * the answer, with what is written or as it was. */
static void named(const char *name, const uint8_t *octets, size_t len, size_t room_len, uint32_t number, const uint8_t *want,
                  size_t wanted)
{
    uint8_t *room = malloc(room_len), *before = malloc(room_len);
    size_t written = 77;
    der_fault fault;
    uint32_t answer;
    FILL(fault);
    memset(before, 0x5a, room_len);
    memset(room, 0x5a, room_len);
    answer = der_canonical_named(name, octets, len, room_len != 0 ? room : NULL, room_len, &written, &fault);
    check(answer == number, name);
    if (number == 0) {
        check(written == wanted && memcmp(room, want, wanted) == 0, "the encoding is written");
        check(memcmp(room + wanted, before + wanted, room_len - wanted) == 0, "what is behind it is as it was");
        IS_FILLED(fault, der_fault);
    } else {
        check(memcmp(room, before, room_len) == 0, "the room is as it was");
        check(written == (number == DER_SHORT_BUFFER ? wanted : 77), "how many are written");
        check(fault.number == number, "the fault has the number");
        check(number <= 17 || (fault.is_placed == 0 && fault.position == 0), "no place of what is of the call itself");
    }
    free(room);
    free(before);
}

/* octets that are the one encoding of a value: rooms of each length */
static void own_encoding(const char *name, const uint8_t *octets, size_t len)
{
    named(name, octets, len, len + 3, 0, octets, len);
    named(name, octets, len, len, 0, octets, len);
    named(name, octets, len, len - 1, DER_SHORT_BUFFER, octets, len);
    named(name, octets, len, 0, DER_SHORT_BUFFER, octets, len);
}

static void names(void)
{
    static const uint8_t number[] = {2, 1, 5}, usage[] = {3, 2, 5, 0xa0}, algorithm[] = {0x30, 3, 6, 1, 42};
    static const uint8_t set[] = {0x31, 6, 2, 1, 8, 2, 1, 7}, in_order[] = {0x31, 6, 2, 1, 7, 2, 1, 8};
    own_encoding("u16", number, sizeof number);
    own_encoding("intref", number, sizeof number);
    own_encoding("keyusage", usage, sizeof usage);
    own_encoding("algid", algorithm, sizeof algorithm);
    own_encoding("setvec-u16", in_order, sizeof in_order);
    named("setvec-u16", set, sizeof set, 8, 0, in_order, sizeof in_order);
    named("opt-u8", set, 0, 0, 0, set, 0);
    named("u16", usage, sizeof usage, 8, DER_TAG_UNEXPECTED, NULL, 0);
    named("u16", number, 2, 8, DER_INCOMPLETE, NULL, 0);
    named("u16", set, sizeof set, 0, DER_TAG_UNEXPECTED, NULL, 0);
    named("", number, sizeof number, 8, DER_UNKNOWN_NAME, NULL, 0);
    named("u1", number, sizeof number, 8, DER_UNKNOWN_NAME, NULL, 0);
    named("u166", number, sizeof number, 8, DER_UNKNOWN_NAME, NULL, 0);
    named("U16", number, sizeof number, 0, DER_UNKNOWN_NAME, NULL, 0);
}

static void great_lengths(void)
{
    static const uint8_t few[] = {2, 1, 5};
    static const size_t lengths[] = {(size_t)1 << 32, (size_t)1 << 33, SIZE_MAX >> 1, SIZE_MAX};
    size_t i;
    for (i = 0; i < sizeof lengths / sizeof lengths[0]; i++) {
        named("u16", few, lengths[i], 8, DER_OVERFLOW, NULL, 0);
        named("cert", few, lengths[i], 8, DER_OVERFLOW, NULL, 0);
        named("no such", few, lengths[i], 8, DER_UNKNOWN_NAME, NULL, 0);
    }
}

static void null_pointers(void)
{
    static const uint8_t number[] = {2, 1, 5}, name[] = {'u', '1', '6'};
    static const struct {
        int has_name, has_octets, has_room;
    } rows[] = {{0, 1, 1}, {1, 0, 1}, {1, 1, 0}, {0, 0, 0}};
    uint8_t room[3];
    size_t written, i;
    der_fault fault;
    for (i = 0; i < sizeof rows / sizeof rows[0]; i++) {
        uint32_t answer;
        FILL(written);
        FILL(room);
        answer = der_canonical(rows[i].has_name ? name : NULL, 3, rows[i].has_octets ? number : NULL, 3,
                               rows[i].has_room ? room : NULL, 3, &written, &fault);
        check(answer == DER_NULL_POINTER && fault.number == answer, "a null pointer with a length");
        IS_FILLED(written, size_t);
        check(room[0] == 0x5a && room[2] == 0x5a, "the room is as it was");
    }
    check(der_canonical(NULL, 0, NULL, 0, NULL, 0, &written, &fault) == DER_UNKNOWN_NAME, "no name is no name of a type");
    check(der_canonical(name, 3, NULL, 0, NULL, 0, &written, &fault) == DER_INCOMPLETE, "no octets are no number");
    check(der_canonical_named(NULL, number, 3, room, 3, &written, &fault) == DER_NULL_POINTER, "no name at a null pointer");
    check(der_canonical_named(NULL, number, 3, room, 3, &written, NULL) == DER_NULL_POINTER, "no name and no fault");
    check(der_canonical(name, 3, NULL, 3, room, 3, &written, NULL) == DER_NULL_POINTER, "no octets and no fault");
    check(der_canonical(name, 3, number, 2, room, 3, &written, NULL) == DER_INCOMPLETE, "octets that are refused, and no fault");
}

int main(int argc, char **argv)
{
    static uint8_t octets[ROOM];
    size_t len = read_file(argv[argc - 1], octets, argc == 2 ? sizeof octets - 1 : 0), n;
    if (len == 0) {
        fprintf(stderr, "canonical FILE, of one certificate in DER\n");
        return 2;
    }
    names();
    great_lengths();
    null_pointers();
    own_encoding("cert", octets, len);
    named("cert", octets, len + 1, len, DER_TRAILING_DATA, NULL, 0);
    named("crl", octets, len, len, DER_TAG_UNEXPECTED, NULL, 0);
    for (n = 1; n < len; n++)
        named("cert", octets, n, len, DER_INCOMPLETE, NULL, 0);
    return end_of_tests();
}
