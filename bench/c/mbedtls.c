/* mbedTLS 3.6, for the program of the rows: its certificates point into the octets ("nocopy"); an entry of a list takes
 * memory. Each call answers as those of peer.h. It reads no SignedData with signed attributes. */
#include <stddef.h>
#include <stdint.h>

#include <mbedtls/asn1.h>
#include <mbedtls/x509_crl.h>
#include <mbedtls/x509_crt.h>

size_t beside_mbedtls_certificate(const uint8_t *octets, size_t len) {
    mbedtls_x509_crt value;
    mbedtls_x509_crt_init(&value);
    int failed = mbedtls_x509_crt_parse_der_nocopy(&value, octets, len);
    mbedtls_x509_crt_free(&value);
    return !failed;
}

/* How many parts of a name have a value. */
static size_t parts(const mbedtls_x509_name *name) {
    size_t count = 0;
    for (; name; name = name->next)
        count += name->val.p != NULL;
    return count;
}

/* The same, and goes through the two names. */
size_t beside_mbedtls_certificate_names(const uint8_t *octets, size_t len) {
    mbedtls_x509_crt value;
    mbedtls_x509_crt_init(&value);
    int failed = mbedtls_x509_crt_parse_der_nocopy(&value, octets, len);
    if (!failed) {
        volatile size_t count = parts(&value.issuer) + parts(&value.subject);
        (void)count;
    }
    mbedtls_x509_crt_free(&value);
    return !failed;
}

size_t beside_mbedtls_revoked(const uint8_t *octets, size_t len) {
    mbedtls_x509_crl value;
    size_t count = 0;
    mbedtls_x509_crl_init(&value);
    if (!mbedtls_x509_crl_parse_der(&value, octets, len))
        for (const mbedtls_x509_crl_entry *it = &value.entry; it; it = it->next)
            count++;
    mbedtls_x509_crl_free(&value);
    return count;
}

size_t beside_mbedtls_walk(const uint8_t *octets, size_t len) {
    unsigned char *at = (unsigned char *)octets;
    const unsigned char *end = octets + len;
    size_t count = 0;
    while (at < end) {
        size_t contents;
        int tag = *at++;
        if (mbedtls_asn1_get_len(&at, end, &contents))
            return 0;
        count++;
        if (tag & MBEDTLS_ASN1_CONSTRUCTED)
            count += beside_mbedtls_walk(at, contents);
        at += contents;
    }
    return count;
}
