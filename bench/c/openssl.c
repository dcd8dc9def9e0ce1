/* OpenSSL, and BoringSSL where BORINGSSL is defined. */
#include "peer.h"

#include <openssl/asn1.h>
#include <openssl/crypto.h>
#include <openssl/x509.h>
#ifdef BORINGSSL
#include <openssl/bytestring.h>
#include <openssl/mem.h>
#else
#include <openssl/cms.h>
#include <openssl/ocsp.h>
#endif

static size_t certificate(const uint8_t *octets, size_t len) {
    const unsigned char *at = octets;
    X509 *value = d2i_X509(NULL, &at, (long)len);
    X509_free(value);
    return value != NULL;
}

static size_t rewritten(const uint8_t *octets, size_t len) {
    const unsigned char *at = octets;
    X509 *value = d2i_X509(NULL, &at, (long)len);
    unsigned char *written = NULL;
    int count = value ? i2d_X509(value, &written) : 0;
    OPENSSL_free(written);
    X509_free(value);
    return count > 0 ? (size_t)count : 0;
}

static size_t revoked(const uint8_t *octets, size_t len) {
    const unsigned char *at = octets;
    X509_CRL *value = d2i_X509_CRL(NULL, &at, (long)len);
    size_t count = value ? (size_t)sk_X509_REVOKED_num(X509_CRL_get_REVOKED(value)) : 0;
    X509_CRL_free(value);
    return count;
}

#ifdef BORINGSSL
static size_t walked(CBS *all) {
    size_t count = 0;
    while (CBS_len(all)) {
        CBS value;
        unsigned tag;
        size_t header;
        if (!CBS_get_any_asn1_element(all, &value, &tag, &header))
            return 0;
        count++;
        if (tag & CBS_ASN1_CONSTRUCTED) {
            CBS_skip(&value, header);
            count += walked(&value);
        }
    }
    return count;
}

static size_t walk(const uint8_t *octets, size_t len) {
    CBS all;
    CBS_init(&all, octets, len);
    return walked(&all);
}
#else
static size_t walk(const uint8_t *octets, size_t len) {
    const unsigned char *at = octets, *end = octets + len;
    size_t count = 0;
    while (at < end) {
        long contents;
        int tag, class;
        int form = ASN1_get_object(&at, &contents, &tag, &class, end - at);
        if (form & 0x80)
            return 0;
        count++;
        if (form & V_ASN1_CONSTRUCTED)
            count += walk(at, (size_t)contents);
        at += contents;
    }
    return count;
}

static size_t signed_message(const uint8_t *octets, size_t len) {
    const unsigned char *at = octets;
    CMS_ContentInfo *value = d2i_CMS_ContentInfo(NULL, &at, (long)len);
    CMS_ContentInfo_free(value);
    return value != NULL;
}

static size_t status_answer(const uint8_t *octets, size_t len) {
    const unsigned char *at = octets;
    OCSP_RESPONSE *value = d2i_OCSP_RESPONSE(NULL, &at, (long)len);
    OCSP_BASICRESP *basic = value ? OCSP_response_get1_basic(value) : NULL;
    OCSP_BASICRESP_free(basic);
    OCSP_RESPONSE_free(value);
    return basic != NULL;
}
#endif

const struct peer_does peer_does_all[] = {
    {"certificate", certificate},
    {"rewritten", rewritten},
    {"revoked", revoked},
    {"walk", walk},
#ifndef BORINGSSL
    {"signed", signed_message},
    {"status", status_answer},
#endif
    {NULL, NULL},
};
