/* What the comparisons with OpenSSL share: the octets of one message, and what differs. */
#include <barleypulley/der.h>

#include <openssl/pem.h>
#include <openssl/x509.h>
#include <openssl/x509v3.h>
#include <stdio.h>
#include <stdlib.h>
#include <string.h>

static long messages, fields, differ;
static const uint8_t *octets;
static size_t len;

static void same(const char *name, der_place place, const uint8_t *want, long wanted)
{
    fields++;
    if (wanted != (long)place.length || place.offset > len || place.length > len - place.offset
        || (wanted > 0 && memcmp(octets + place.offset, want, (size_t)wanted) != 0)) {
        differ++;
        fprintf(stderr, "message %ld: %s differs\n", messages, name);
    }
}

static void same_number(const char *name, uint64_t is, uint64_t want)
{
    fields++;
    if (is != want) {
        differ++;
        fprintf(stderr, "message %ld: %s is %llu, not %llu\n", messages, name, (unsigned long long)is,
                (unsigned long long)want);
    }
}

static inline void absent(const char *name, der_place place, int is_absent)
{
    same_number(name, place.length == 0, is_absent != 0);
}

/* what OpenSSL writes of a value, in memory of its own */
#define SAME(name, place, i2d, value)                \
    do {                                             \
        unsigned char *written = NULL;               \
        int length = i2d((value), &written);         \
        same((name), (place), written, length);      \
        OPENSSL_free(written);                       \
    } while (0)

/* the octets are the one encoding of a value */
static void compare_canonical(const char *name)
{
    uint8_t *room = malloc(len);
    size_t written = 0;
    der_fault fault;
    der_place all = {0, (uint32_t)len};
    same_number("answer by a name", der_canonical_named(name, octets, len, room, len, &written, &fault), 0);
    same(name, all, room, (long)written);
    free(room);
}

static inline uint64_t seconds(const ASN1_TIME *time)
{
    int days = 0, rest = 0;
    ASN1_TIME *start = ASN1_TIME_set(NULL, 0);
    ASN1_TIME_diff(&days, &rest, start, time);
    ASN1_TIME_free(start);
    return (uint64_t)days * 86400 + (uint64_t)rest;
}

/* Whether the octets are a certificate with a date that OpenSSL reads (RFC 5280 4.1.2.5.1) and der.h refuses, since it is
 * before 1970; then the refusal is compared. */
static inline int is_early(const char *name)
{
    const unsigned char *p = octets;
    X509 *x = strcmp(name, "CERTIFICATE") == 0 ? d2i_X509(NULL, &p, (long)len) : NULL;
    ASN1_TIME *start = ASN1_TIME_set(NULL, 0);
    int answer = x != NULL
                 && (ASN1_TIME_compare(X509_get0_notBefore(x), start) == -1 || ASN1_TIME_compare(X509_get0_notAfter(x), start) == -1);
    der_certificate_at at;
    if (answer)
        same_number("answer for a date before 1970", der_certificate(octets, len, &at, NULL), DER_VALUE);
    ASN1_TIME_free(start);
    X509_free(x);
    return answer;
}

/* a message, by what stands between the hyphens of its first line */
static void compare(const char *name);

/* compares all messages of PEM files */
static int compare_files(int count, char **names)
{
    int i;
    for (i = 0; i < count; i++) {
        char *name, *header;
        unsigned char *read;
        long length;
        FILE *file = fopen(names[i], "rb");
        while (file != NULL && PEM_read(file, &name, &header, &read, &length)) {
            octets = read;
            len = (size_t)length;
            if (!is_early(name))
                compare(name);
            OPENSSL_free(name), OPENSSL_free(header), OPENSSL_free(read);
        }
        if (file != NULL)
            fclose(file);
    }
    printf("%ld messages, %ld fields, %ld differ\n", messages, fields, differ);
    return messages == 0 || differ != 0;
}
