/* Says what an OCSP response, such as one stapled to a TLS handshake, tells of a certificate (RFC 6960): ocsp_answer
 * RESPONSE CERTIFICATE ISSUER [SECONDS], in DER, at a moment in seconds from 1970. The issuer is trusted. */
#include "crypto.h"

#define BASIC "1.3.6.1.5.5.7.48.1.1"

typedef struct response {
    octets whole;
    der_basic_ocsp_response_at at;
    der_responder_at responders[16];
    uint8_t key_hash[EVP_MAX_MD_SIZE];
    der_ocsp_status_at told;
} response;

/* Reads the signed response within a response. */
static int read_response(octets whole, response *out)
{
    der_ocsp_response_at at;
    if (der_ocsp_response(whole.at, whole.len, &at, NULL) != 0 || at.response_status_number != 0
        || !is_identifier(whole, at.response_type, BASIC))
        return 0;
    out->whole = contents(whole, at.response);
    return der_basic_ocsp_response(out->whole.at, out->whole.len, &out->at, NULL) == 0;
}

static octets key_bits(const certificate *it)
{
    octets encoding = item_at(inside(key_of(it)), 1);
    return bits(encoding, whole_of(encoding));
}

static der_place hash_place(octets of, const EVP_MD *hash)
{
    uint8_t *at = room_for(EVP_MAX_MD_SIZE);
    octets it = {at, at != NULL ? hash_value(of, hash, at) : 0};
    return place_in_room(it);
}

/* Asks what the response tells of a certificate, by the hash algorithm of one of its CertIDs (RFC 6960 4.1.1). */
static uint32_t ask(response *it, octets id, const certificate *of, const certificate *issuer, uint64_t now)
{
    octets name = part(issuer->whole, issuer->at.subject), how = item_at(inside(id), 0);
    der_ocsp_inputs inputs = {.moment = now, .answer = place_in_room(it->whole), .issuer = place_in_room(name)};
    inputs.algorithm = place_in_room(inside(inside(how)));
    inputs.name_hash = hash_place(name, hash_of(how));
    inputs.key_hash = hash_place(key_bits(issuer), hash_of(how));
    inputs.serial = place_in_room(contents(of->whole, of->at.serial_number));
    return der_ocsp_status(room, taken, &inputs, it->responders, 16, it->key_hash, sizeof it->key_hash, &it->told, NULL);
}

/* Whether the key of a certificate signed the response, and is the one that the response names, if it names one. */
static int is_signed_with(const response *it, const certificate *by)
{
    octets hash = {it->key_hash, it->told.key_hash_len};
    return (!it->told.has_key_hash || has_hash(key_bits(by), EVP_sha1(), hash))
           && is_signed_by(it->whole, it->at.signature_algorithm, it->at.signature, key_of(by));
}

/* Whether one of those who may have signed the response did: the issuer, or one whose certificate it signed. */
static int is_authorized(const response *it, const certificate *issuer)
{
    octets list = inside(contents(it->whole, it->at.certs));
    certificate by;
    size_t i;
    for (i = 0; i < it->told.responder_count; i++)
        if (it->responders[i].is_issuer ? is_signed_with(it, issuer)
                                        : read_certificate(item_at(list, it->responders[i].index), &by)
                                              && is_issued(&by, issuer) && is_signed_with(it, &by))
            return 1;
    return 0;
}

static int tell(const der_ocsp_status_at *told)
{
    if (told->cert_status_number == 1)
        printf("revoked, at %llu\n", (unsigned long long)told->revocation_time_seconds);
    else
        puts(told->cert_status_number == 0 ? "good" : "unknown");
    return told->cert_status_number != 0;
}

int main(int argc, char **argv)
{
    certificate it, issuer;
    static response found;
    der_single_response_at at;
    der_place left;
    uint32_t result = DER_FAILED;
    if (argc < 4 || argc > 5) {
        fprintf(stderr, "ocsp_answer RESPONSE CERTIFICATE ISSUER [SECONDS]\n");
        return 2;
    }
    if (!read_certificate(read_file(argv[2]), &it) || !read_certificate(read_file(argv[3]), &issuer))
        return refused("no certificate");
    if (!read_response(read_file(argv[1]), &found))
        return refused("no successful response");
    left = der_items(found.whole.at, found.whole.len, &found.at.responses);
    while (result != 0 && left.length > 0 && der_next_single_response(found.whole.at, found.whole.len, &left, &at, NULL) == 0)
        result = ask(&found, part(found.whole, at.cert_id), &it, &issuer, moment(argv[4]));
    if (result != 0)
        return refused(der_ocsp_step_text(found.told.step));
    return is_authorized(&found, &issuer) ? tell(&found.told) : refused("nobody who is authorized signed the response");
}
