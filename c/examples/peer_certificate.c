/* Verifies the certificate of a TLS server by its issuer's, which is trusted (RFC 5280 6.1): peer_certificate CERTIFICATE
 * ISSUER [SECONDS], both in DER, at a moment in seconds from 1970. */
#include "crypto.h"

#define KEY_USAGE "2.5.29.15"
#define SUBJECT_ALT_NAME "2.5.29.17"
#define BASIC_CONSTRAINTS "2.5.29.19"
#define EXT_KEY_USAGE "2.5.29.37"
#define SERVER_AUTH "1.3.6.1.5.5.7.3.1"

/* Whether each critical extension is one that is looked at here (RFC 5280 4.2), or is for the names of the host. */
static int is_understood(const certificate *it)
{
    static const char *const known[] = {KEY_USAGE, SUBJECT_ALT_NAME, BASIC_CONSTRAINTS, EXT_KEY_USAGE};
    der_place left = der_extensions(it->whole.at, it->whole.len, &it->at.extensions);
    der_extension_at at;
    size_t i;
    while (left.length > 0) {
        if (der_next_extension(it->whole.at, it->whole.len, &left, &at, NULL) != 0)
            return 0;
        for (i = 0; i < 4 && !is_identifier(it->whole, at.extn_id, known[i]); i++)
            ;
        if (at.is_critical && i == 4)
            return 0;
    }
    return 1;
}

/* Whether a certificate is one of a certification authority (RFC 5280 4.2.1.9). */
static int is_authority(const certificate *it)
{
    octets value;
    der_basic_constraints_at at;
    return has_extension(it, BASIC_CONSTRAINTS, &value) && der_basic_constraints(value.at, value.len, &at, NULL) == 0
           && at.ca.length > 0 && has_use(it, DER_KEY_CERT_SIGN);
}

/* Whether a certificate breaks a rule on which what is asked here rests. */
static int is_irregular(const certificate *it)
{
    uint64_t broken, rules = DER_CERTIFICATE_ALGORITHMS_AGREE | DER_CERTIFICATE_EXTENSIONS_IN_VERSION_3
                             | DER_CERTIFICATE_EXTENSIONS_STAND_ONCE;
    return der_check_rfc5280(it->whole.at, it->whole.len, &broken, NULL) != 0 || (broken & rules) != 0;
}

static int verify(const certificate *it, const certificate *issuer, uint64_t now)
{
    octets purposes;
    if (is_irregular(it) || is_irregular(issuer))
        return refused("a rule of RFC 5280 is broken");
    if (!is_understood(it) || !is_understood(issuer))
        return refused("a critical extension is not understood");
    if (!names_match(part(it->whole, it->at.issuer), part(issuer->whole, issuer->at.subject)))
        return refused("another issued the certificate");
    if (!is_authority(issuer))
        return refused("the issuer may not sign certificates");
    if (!is_issued(it, issuer))
        return refused("the signature is wrong");
    if (!is_valid_at(it, now) || !is_valid_at(issuer, now))
        return refused("a certificate is not valid at this moment");
    if (!has_use(it, DER_DIGITAL_SIGNATURE | DER_KEY_ENCIPHERMENT | DER_KEY_AGREEMENT)
        || (has_extension(it, EXT_KEY_USAGE, &purposes) && !has_purpose(it, SERVER_AUTH)))
        return refused("the key is for other uses");
    puts("verified");
    return 0;
}

int main(int argc, char **argv)
{
    certificate it, issuer;
    if (argc < 3 || argc > 4) {
        fprintf(stderr, "peer_certificate CERTIFICATE ISSUER [SECONDS]\n");
        return 2;
    }
    if (!read_certificate(read_file(argv[1]), &it) || !read_certificate(read_file(argv[2]), &issuer))
        return refused("no certificate");
    return verify(&it, &issuer, moment(argv[3]));
}
