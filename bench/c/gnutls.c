/* GnuTLS. */
#include "peer.h"

#include <gnutls/gnutls.h>
#include <gnutls/ocsp.h>
#include <gnutls/pkcs7.h>
#include <gnutls/x509.h>

static gnutls_datum_t datum(const uint8_t *octets, size_t len) {
    return (gnutls_datum_t){(unsigned char *)octets, (unsigned)len};
}

static size_t certificate(const uint8_t *octets, size_t len) {
    gnutls_datum_t all = datum(octets, len);
    gnutls_x509_crt_t value;
    gnutls_x509_crt_init(&value);
    int failed = gnutls_x509_crt_import(value, &all, GNUTLS_X509_FMT_DER);
    gnutls_x509_crt_deinit(value);
    return !failed;
}

static size_t signed_message(const uint8_t *octets, size_t len) {
    gnutls_datum_t all = datum(octets, len);
    gnutls_pkcs7_t value;
    gnutls_pkcs7_init(&value);
    int failed = gnutls_pkcs7_import(value, &all, GNUTLS_X509_FMT_DER);
    gnutls_pkcs7_deinit(value);
    return !failed;
}

static size_t status_answer(const uint8_t *octets, size_t len) {
    gnutls_datum_t all = datum(octets, len);
    gnutls_ocsp_resp_t value;
    gnutls_ocsp_resp_init(&value);
    int failed = gnutls_ocsp_resp_import(value, &all);
    gnutls_ocsp_resp_deinit(value);
    return !failed;
}

/* (its lists of revoked certificates are left out: their time grows as the square of the entries) */
const struct peer_does peer_does_all[] = {
    {"certificate", certificate},
    {"signed", signed_message},
    {"status", status_answer},
    {NULL, NULL},
};
