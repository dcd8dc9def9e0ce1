/* Says whether a certificate stands in its issuer's list of revoked certificates (RFC 5280 6.3.3): crl_check LIST
 * CERTIFICATE ISSUER [SECONDS], in DER, at a moment in seconds from 1970. The issuer is trusted. */
#include "revocation.h"

int main(int argc, char **argv)
{
    certificate of, issuer;
    list it;
    der_list_status_at status;
    der_place of_place, list_place;
    const char *fault;
    uint32_t result;
    if (argc < 4 || argc > 5) {
        fprintf(stderr, "crl_check LIST CERTIFICATE ISSUER [SECONDS]\n");
        return 2;
    }
    if (!read_list(read_file(argv[1]), &it))
        return refused("no list");
    if (!read_certificate(read_file(argv[2]), &of) || !read_certificate(read_file(argv[3]), &issuer))
        return refused("no certificate");
    fault = signing_fault(&it, &issuer, key_of(&issuer));
    if (fault != NULL)
        return refused(fault);
    of_place = place_in_room(of.whole);
    list_place = place_in_room(it.whole);
    result = der_list_status(room, taken, &of_place, &list_place, moment(argv[4]), &status, NULL);
    if (result != 0)
        return refused(status.step != 0 ? der_list_step_text(status.step) : der_number_text(result));
    if (!status.is_revoked) {
        puts("not revoked");
        return 0;
    }
    printf("revoked, at %llu, reason %s\n", (unsigned long long)status.revocation_date_seconds, name_of_reason(status.reason));
    return 1;
}
