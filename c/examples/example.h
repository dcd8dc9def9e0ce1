/* What the programs of this folder share: files, parts of messages, and certificates. What says whether something is so says
 * no of octets that the library refuses. */
#ifndef EXAMPLE_H
#define EXAMPLE_H
#include <barleypulley/der.h>

#include <stdio.h>
#include <stdlib.h>
#include <string.h>
#include <time.h>

typedef struct octets {
    const uint8_t *at;
    size_t len;
} octets;

typedef struct certificate {
    octets whole;
    der_certificate_at at;
} certificate;

static inline int refused(const char *why)
{
    fprintf(stderr, "refused: %s\n", why);
    return 1;
}

/* Room for octets that live as long as the program. */
static uint8_t room[1 << 24];
static size_t taken;

/* So many octets of the room; NULL where they are not left. */
static inline uint8_t *room_for(size_t len)
{
    uint8_t *at = room + taken;
    if (len > sizeof room - taken)
        return NULL;
    taken += len;
    return at;
}

static inline octets read_file(const char *name)
{
    octets all = {room + taken, 0};
    FILE *file = fopen(name, "rb");
    if (file == NULL) {
        perror(name);
        exit(2);
    }
    all.len = fread(room + taken, 1, sizeof room - taken, file);
    taken += all.len;
    fclose(file);
    return all;
}

/* The place of octets of the room within the room. */
static inline der_place place_in_room(octets it)
{
    der_place place = {it.len > 0 ? (uint32_t)(it.at - room) : 0, (uint32_t)it.len};
    return place;
}

/* A moment in seconds from 1970: that of a word, or now where there is none. */
static inline uint64_t moment(const char *word)
{
    return word != NULL ? strtoull(word, NULL, 10) : (uint64_t)time(NULL);
}

static inline octets part(octets of, der_place place)
{
    octets it = {of.at + place.offset, place.length};
    return it;
}

static inline der_place whole_of(octets it)
{
    der_place place = {0, (uint32_t)it.len};
    return place;
}

/* The contents octets of a field; none where it is absent. */
static inline octets contents(octets of, der_place field)
{
    return part(of, der_items(of.at, of.len, &field));
}

/* The contents octets of the encoding at the front. */
static inline octets inside(octets of)
{
    der_place none = {0, 0};
    return contents(of, der_next_encoding(of.at, of.len, &none));
}

/* The octets of a BIT STRING, such as a key or a signature. */
static inline octets bits(octets of, der_place place)
{
    return part(of, der_bit_string_octets(of.at, of.len, &place));
}

static inline int are_equal(octets one, octets other)
{
    return one.len == other.len && (one.len == 0 || memcmp(one.at, other.at, one.len) == 0);
}

static inline int names_match(octets one, octets other)
{
    uint32_t answer;
    return der_names_match(one.at, one.len, other.at, other.len, &answer, NULL) == 0 && answer;
}

/* Whether all octets are a value of the type with this name of docs/FORMAT.md. */
static inline int is_a(const char *type, octets it)
{
    size_t length;
    return der_canonical_named(type, it.at, it.len, NULL, 0, &length, NULL) == DER_SHORT_BUFFER;
}

/* Moves to the next item of a list; says no where none is left. At first `item` has no octets. */
static inline int next_item(octets list, der_place *item)
{
    if (item->offset + item->length >= list.len)
        return 0;
    *item = der_next_encoding(list.at, list.len, item);
    return item->length > 0;
}

/* The item with an index of a list; none where it has fewer. */
static inline octets item_at(octets list, uint64_t index)
{
    octets none = {NULL, 0};
    der_place item = {0, 0};
    uint64_t at = 0;
    while (next_item(list, &item))
        if (at++ == index)
            return part(list, item);
    return none;
}

static inline int is_identifier(octets of, der_place identifier, const char *dotted)
{
    octets it = contents(of, identifier);
    return der_object_identifier_is(it.at, it.len, dotted);
}

/* Finds the value of an extension among those that are left. */
static inline int find_extension(octets of, der_place left, const char *dotted, octets *value)
{
    der_extension_at at;
    while (left.length > 0 && der_next_extension(of.at, of.len, &left, &at, NULL) == 0) {
        *value = contents(of, at.extn_value);
        if (is_identifier(of, at.extn_id, dotted))
            return 1;
    }
    return 0;
}

static inline int read_certificate(octets whole, certificate *out)
{
    out->whole = whole;
    return der_certificate(whole.at, whole.len, &out->at, NULL) == 0;
}

static inline int is_valid_at(const certificate *it, uint64_t seconds)
{
    return it->at.not_before <= seconds && seconds <= it->at.not_after;
}

static inline octets key_of(const certificate *it)
{
    return part(it->whole, it->at.subject_public_key_info);
}

static inline octets subject_of(const certificate *it)
{
    return part(it->whole, it->at.subject);
}

/* Whether a certificate has the name of the issuer of another. */
static inline int is_named(const certificate *it, const certificate *other)
{
    return names_match(subject_of(it), part(other->whole, other->at.issuer));
}

static inline int has_extension(const certificate *it, const char *dotted, octets *value)
{
    return find_extension(it->whole, der_extensions(it->whole.at, it->whole.len, &it->at.extensions), dotted, value);
}

/* Whether the key of a certificate has one of these uses: there is no keyUsage, or it says so (RFC 5280 4.2.1.3). */
static inline int has_use(const certificate *it, uint32_t uses)
{
    octets value;
    uint32_t usage;
    if (!has_extension(it, "2.5.29.15", &value))
        return 1;
    return der_named_bits(value.at, value.len, &usage, NULL) == 0 && (usage & uses) != 0;
}

/* Whether the extKeyUsage of a certificate has a purpose (RFC 5280 4.2.1.12). */
static inline int has_purpose(const certificate *it, const char *dotted)
{
    octets value, list;
    der_place item = {0, 0};
    if (!has_extension(it, "2.5.29.37", &value) || !is_a("extkeyusage", value))
        return 0;
    for (list = inside(value); next_item(list, &item);)
        if (is_identifier(list, item, dotted))
            return 1;
    return 0;
}
#endif
