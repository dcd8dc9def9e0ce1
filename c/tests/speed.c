/* How long a certificate takes, in nanoseconds: the least of many rounds over the certificates of a PEM file, by the time
 * of the thread. speed FILE [ROUNDS]. With -DMBEDTLS also mbedTLS's parse, which reads a certificate with what is inside. */
#define _POSIX_C_SOURCE 200809L
#include <barleypulley/der.h>

#include <openssl/pem.h>
#include <openssl/x509.h>
#include <stdio.h>
#include <stdlib.h>
#include <string.h>
#include <time.h>
#ifdef MBEDTLS
#include <mbedtls/x509_crt.h>
#endif

enum { MOST = 4096 };
static const uint8_t *octets[MOST];
static size_t lens[MOST];
static int count;

static void read_certificates(const char *path)
{
    char *name, *header;
    unsigned char *read;
    long len;
    FILE *file = fopen(path, "rb");
    while (file != NULL && count < MOST && PEM_read(file, &name, &header, &read, &len)) {
        if (strcmp(name, "CERTIFICATE") == 0) {
            octets[count] = read;
            lens[count++] = (size_t)len;
        }
    }
    if (file != NULL)
        fclose(file);
}

static uint64_t certificate(const uint8_t *o, size_t len)
{
    der_certificate_at at;
    der_fault fault;
    return der_certificate(o, len, &at, &fault) + at.not_after;
}

static uint64_t with_extensions(const uint8_t *o, size_t len)
{
    der_certificate_at at;
    der_extension_at extension;
    der_fault fault;
    uint64_t sum = der_certificate(o, len, &at, &fault);
    der_place left = der_extensions(o, len, &at.extensions);
    while (left.length > 0 && der_next_extension(o, len, &left, &extension, &fault) == 0)
        sum += extension.extn_value.offset;
    return sum;
}

/* The attributes of a name. */
static uint64_t name(const uint8_t *o, size_t len, const der_place *at)
{
    der_attribute_type_and_value_at attribute;
    der_name_left left = der_name(o, len, at);
    uint64_t sum = 0;
    while (der_has_attribute(&left) && der_next_name_attribute(o, len, &left, &attribute, NULL) == 0)
        sum += attribute.value.length;
    return sum;
}

/* The kind and the value of each name of a subjectAltName. */
static uint64_t alternative_names(const uint8_t *o, size_t len)
{
    der_place all = {0, (uint32_t)len}, inside = der_contents(o, len, &all), next = {inside.offset, 0};
    uint64_t sum = 0;
    while (next.offset + next.length < len) {
        uint32_t kind;
        next = der_next_encoding(o, len, &next);
        if (der_general_name(o + next.offset, next.length, &kind, NULL) != 0)
            break;
        sum += kind + der_contents(o, len, &next).length;
    }
    return sum;
}

static uint64_t basic_constraints(const uint8_t *o, size_t len)
{
    der_basic_constraints_at at;
    uint64_t most = 0;
    if (der_basic_constraints(o, len, &at, NULL) == 0 && at.path_len_constraint.length > 0)
        der_unsigned_integer(o + at.path_len_constraint.offset, at.path_len_constraint.length, &most, NULL);
    return most + at.ca.length;
}

/* What an extension says: subjectAltName, keyUsage and basicConstraints. */
static uint64_t value_of(const uint8_t *o, size_t len, const der_extension_at *extension)
{
    der_place value = der_contents(o, len, &extension->extn_value);
    const uint8_t *id = o + extension->extn_id.offset;
    uint32_t bits = 0;
    if (extension->extn_id.length != 5 || memcmp(id, "\x06\x03\x55\x1d", 4) != 0)
        return value.length;
    if (id[4] == 17)
        return alternative_names(o + value.offset, value.length);
    if (id[4] == 19)
        return basic_constraints(o + value.offset, value.length);
    return id[4] == 15 ? der_named_bits(o + value.offset, value.length, &bits, NULL) + bits : value.length;
}

/* The algorithm of a key, and the numbers of one of RSA. */
static uint64_t key(const uint8_t *o, size_t len)
{
    der_subject_public_key_info_at at;
    der_algorithm_identifier_at algorithm;
    der_rsa_public_key_at numbers = {{0, 0}, {0, 0}};
    der_place bits;
    if (der_subject_public_key_info(o, len, &at, NULL) != 0)
        return 0;
    der_algorithm_identifier(o + at.algorithm.offset, at.algorithm.length, &algorithm, NULL);
    bits = der_contents(o, len, &at.subject_public_key);
    if (algorithm.oid.length == 11 && memcmp(o + at.algorithm.offset + algorithm.oid.offset, "\x06\x09\x2a\x86\x48\x86\xf7\x0d\x01\x01\x01", 11) == 0)
        der_rsa_public_key(o + bits.offset + 1, bits.length - 1, &numbers, NULL);
    return algorithm.parameters.length + numbers.modulus.length;
}

/* What a client of TLS reads in a certificate: names, alternative names, usage, constraints and key. */
static uint64_t with_what_is_inside(const uint8_t *o, size_t len)
{
    der_certificate_at at;
    der_extension_at extension;
    uint64_t sum = der_certificate(o, len, &at, NULL);
    der_place left = der_extensions(o, len, &at.extensions);
    while (left.length > 0 && der_next_extension(o, len, &left, &extension, NULL) == 0)
        sum += value_of(o, len, &extension);
    return sum + name(o, len, &at.issuer) + name(o, len, &at.subject)
         + key(o + at.subject_public_key_info.offset, at.subject_public_key_info.length);
}

#ifdef MBEDTLS
static uint64_t mbedtls_copied(const uint8_t *o, size_t len)
{
    mbedtls_x509_crt value;
    int failed;
    mbedtls_x509_crt_init(&value);
    failed = mbedtls_x509_crt_parse_der(&value, o, len);
    mbedtls_x509_crt_free(&value);
    return failed == 0;
}

static uint64_t mbedtls_in_place(const uint8_t *o, size_t len)
{
    mbedtls_x509_crt value;
    int failed;
    mbedtls_x509_crt_init(&value);
    failed = mbedtls_x509_crt_parse_der_nocopy(&value, o, len);
    mbedtls_x509_crt_free(&value);
    return failed == 0;
}

/* Leaves out what mbedTLS refuses, so that both read the same certificates. */
static void keep_those_of_mbedtls(void)
{
    int i, kept = 0;
    for (i = 0; i < count; i++) {
        if (mbedtls_copied(octets[i], lens[i]) == 1) {
            octets[kept] = octets[i];
            lens[kept++] = lens[i];
        }
    }
    printf("%8d  certificates of %d that mbedTLS reads\n", kept, count);
    count = kept;
}
#endif

static uint64_t signed_octets(const uint8_t *o, size_t len)
{
    return der_signed_octets(o, len).length;
}

static uint64_t openssl(const uint8_t *o, size_t len)
{
    const unsigned char *p = o;
    X509 *x = d2i_X509(NULL, &p, (long)len);
    X509_free(x);
    return x != NULL;
}

static double now(void)
{
    struct timespec time;
    clock_gettime(CLOCK_THREAD_CPUTIME_ID, &time);
    return (double)time.tv_sec * 1e9 + (double)time.tv_nsec;
}

static void measure(const char *name, uint64_t (*call)(const uint8_t *, size_t), int rounds)
{
    static volatile uint64_t kept;
    double least = 1e18;
    int i, round;
    for (round = 0; round < rounds; round++) {
        double start = now(), took;
        for (i = 0; i < count; i++)
            kept += call(octets[i], lens[i]);
        took = (now() - start) / count;
        least = took < least ? took : least;
    }
    printf("%8.0f  %s\n", least, name);
}

int main(int argc, char **argv)
{
    int rounds = argc > 2 ? atoi(argv[2]) : 200;
    if (argc > 1)
        read_certificates(argv[1]);
    if (count == 0) {
        fprintf(stderr, "speed FILE [ROUNDS], of certificates in PEM text\n");
        return 2;
    }
#ifdef MBEDTLS
    keep_those_of_mbedtls();
    measure("mbedtls_x509_crt_parse_der and _free", mbedtls_copied, rounds);
    measure("the same, nocopy", mbedtls_in_place, rounds);
#endif
    measure("der_certificate and what is inside", with_what_is_inside, rounds);
    measure("der_signed_octets", signed_octets, rounds);
    measure("der_certificate", certificate, rounds);
    measure("der_certificate and each extension", with_extensions, rounds);
    measure("OpenSSL's d2i_X509 and X509_free", openssl, rounds / 10 + 1);
    return 0;
}
