/* wolfSSL. */
#include "peer.h"

#include <wolfssl/options.h>

#include <wolfssl/wolfcrypt/asn.h>
#include <wolfssl/wolfcrypt/asn_public.h>

static size_t certificate(const uint8_t *octets, size_t len) {
    /* (more room than the struct takes, whose size the library may have been built with other options for) */
    static _Alignas(16) char room[65536];
    struct DecodedCert *value = (struct DecodedCert *)room;
    wc_InitDecodedCert(value, octets, (word32)len, NULL);
    int failed = wc_ParseCert(value, CERT_TYPE, NO_VERIFY, NULL);
    wc_FreeDecodedCert(value);
    return !failed;
}

const struct peer_does peer_does_all[] = {
    {"certificate", certificate},
    {NULL, NULL},
};
