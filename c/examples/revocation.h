/* Lists of revoked certificates, and who signs them (RFC 5280 5, 6.3.3 (f), (g)). */
#ifndef REVOCATION_H
#define REVOCATION_H
#include "crypto.h"

typedef struct list {
    octets whole;
    der_certificate_list_at at;
} list;

static inline int read_list(octets whole, list *out)
{
    out->whole = whole;
    return der_certificate_list(whole.at, whole.len, &out->at, NULL) == 0;
}

/* Why a list is not signed by a certificate: it has the name of the list's issuer, may sign lists, and has this key, with its
 * parameters (RFC 5280 6.3.3 (b), (f), (g)); NULL if it is. */
static inline const char *signing_fault(const list *it, const certificate *issuer, octets key)
{
    if (!names_match(part(it->whole, it->at.issuer), subject_of(issuer)))
        return "the list is another issuer's";
    if (!has_use(issuer, DER_CRL_SIGN))
        return "the issuer may not sign lists";
    return is_signed_by(it->whole, it->at.signature_algorithm, it->at.signature_value, key) ? NULL : "the signature is wrong";
}

static inline const char *name_of_reason(uint32_t reason)
{
    static const char *const names[] = {"unspecified", "keyCompromise", "cACompromise", "affiliationChanged", "superseded",
                                        "cessationOfOperation", "certificateHold", "", "removeFromCRL", "privilegeWithdrawn",
                                        "aACompromise"};
    return names[reason <= DER_AA_COMPROMISE ? reason : 0];
}

#endif
