/* NSS: the decoder that its own QuickDER is, over the template of a certificate, and its list of revoked ones. */
#include "peer.h"

#include <string.h>

#include <nss.h>
#include <cert.h>
#include <secasn1.h>
#include <secder.h>

extern const SEC_ASN1Template SEC_SignedCertificateTemplate[];
extern SECStatus SEC_DestroyCrl(CERTSignedCrl *);

__attribute__((constructor)) static void prepare(void) {
    NSS_NoDB_Init(".");
}

static size_t certificate(const uint8_t *octets, size_t len) {
    static PLArenaPool *arena;
    if (!arena)
        arena = PORT_NewArena(4096);
    CERTCertificate value;
    memset(&value, 0, sizeof value);
    SECItem all = {siBuffer, (unsigned char *)octets, (unsigned)len};
    void *mark = PORT_ArenaMark(arena);
    SECStatus status = SEC_QuickDERDecodeItem(arena, &value, SEC_SignedCertificateTemplate, &all);
    PORT_ArenaRelease(arena, mark);
    return status == SECSuccess;
}

static size_t revoked(const uint8_t *octets, size_t len) {
    SECItem all = {siBuffer, (unsigned char *)octets, (unsigned)len};
    CERTSignedCrl *value =
        CERT_DecodeDERCrlWithFlags(NULL, &all, SEC_CRL_TYPE, CRL_DECODE_DONT_COPY_DER | CRL_DECODE_KEEP_BAD_CRL);
    size_t count = 0;
    if (value) {
        if (value->crl.entries)
            while (value->crl.entries[count])
                count++;
        SEC_DestroyCrl(value);
    }
    return count;
}

const struct peer_does peer_does_all[] = {
    {"certificate", certificate},
    {"revoked", revoked},
    {NULL, NULL},
};
