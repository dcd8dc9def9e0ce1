/* What a program that writes a message has: a buffer for its parts. */
#ifndef WRITING_H
#define WRITING_H
#include "crypto.h"

/* The parts of a message, one after another. A part that is refused has no octets, so the message is refused too. */
static uint8_t parts[1 << 16];
static size_t used;

/* The place of what a call has written behind the parts. */
static inline der_place added(uint32_t result, size_t length)
{
    der_place place = {(uint32_t)used, result == 0 ? (uint32_t)length : 0};
    used += place.length;
    return place;
}

static inline der_place add(octets it)
{
    int fits = it.len <= sizeof parts - used;
    if (fits)
        memcpy(parts + used, it.at, it.len);
    return added(!fits, it.len);
}

static inline octets at_place(der_place place)
{
    octets all = {parts, used};
    return part(all, place);
}

static inline der_place add_encoding(uint32_t identifier, octets contents)
{
    size_t length = 0;
    uint32_t result = der_write_encoding(identifier, contents.at, contents.len, parts + used, sizeof parts - used, &length,
                                         NULL);
    return added(result, length);
}

static inline der_place add_number(const char *hexadecimal)
{
    long len = 0;
    size_t length = 0;
    uint8_t *number = OPENSSL_hexstr2buf(hexadecimal, &len);
    uint32_t result = der_write_unsigned_integer(number, (size_t)len, parts + used, sizeof parts - used, &length, NULL);
    OPENSSL_free(number);
    return added(result, length);
}
#endif
