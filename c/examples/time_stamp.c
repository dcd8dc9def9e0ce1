/* Verifies a time stamp of a file by the certificate of the authority, which is trusted (RFC 3161 2.4.2), and prints its
 * time in seconds from 1970: time_stamp RESPONSE FILE CERTIFICATE [NONCE], the response and the certificate in DER. */
#include "signed_data.h"

#define TST_INFO "1.2.840.113549.1.9.16.1.4"
#define SIGNING_CERTIFICATE_V2 "1.2.840.113549.1.9.16.2.47"
#define EXT_KEY_USAGE "2.5.29.37"
#define TIME_STAMPING "1.3.6.1.5.5.7.3.8"

/* Reads the token of a response that grants one: its status is 0, or 1 where it is granted with changes. */
static int read_token(octets response, signed_data *out)
{
    der_time_stamp_resp_at at;
    der_pki_status_info_at status;
    octets info, number;
    uint64_t granted;
    if (der_time_stamp_resp(response.at, response.len, &at, NULL) != 0 || at.time_stamp_token.length == 0)
        return 0;
    info = part(response, at.status);
    if (der_pki_status_info(info.at, info.len, &status, NULL) != 0)
        return 0;
    number = part(info, status.status);
    return der_unsigned_integer(number.at, number.len, &granted, NULL) == 0 && granted <= 1
           && read_signed_data(part(response, at.time_stamp_token), out);
}

/* Whether the certificate's key is for time stamps alone: its extKeyUsage is critical, and has this purpose only (2.3). */
static int is_authority(const certificate *it)
{
    der_place left = der_extensions(it->whole.at, it->whole.len, &it->at.extensions), item = {0, 0};
    der_extension_at at;
    octets purposes;
    while (left.length > 0 && der_next_extension(it->whole.at, it->whole.len, &left, &at, NULL) == 0)
        if (is_identifier(it->whole, at.extn_id, EXT_KEY_USAGE)) {
            purposes = inside(contents(it->whole, at.extn_value));
            return at.is_critical && has_purpose(it, TIME_STAMPING) && next_item(purposes, &item)
                   && item.length == purposes.len;
        }
    return 0;
}

/* Whether the signer says which certificate verifies the token, by its hash value (RFC 5816). */
static int names_certificate(octets of, const der_signer_info_at *signer, const certificate *it)
{
    octets value;
    der_signing_certificate_v2_at at;
    der_ess_cert_idv2_at first;
    der_place left;
    const EVP_MD *hash = EVP_sha256();
    if (!has_attribute(of, signer, SIGNING_CERTIFICATE_V2, &value)
        || der_signing_certificate_v2(value.at, value.len, &at, NULL) != 0)
        return 0;
    left = der_items(value.at, value.len, &at.certs);
    if (der_next_ess_cert_idv2(value.at, value.len, &left, &first, NULL) != 0)
        return 0;
    if (first.hash_algorithm.length > 0)
        hash = hash_of(part(value, first.hash_algorithm));
    return has_hash(it->whole, hash, contents(value, first.cert_hash));
}

/* Whether a token is signed with the key of the authority's certificate, by it alone. */
static int is_of(const signed_data *token, const certificate *authority)
{
    der_place left = der_items(token->whole.at, token->whole.len, &token->at.signer_infos);
    der_signer_info_at signer;
    return is_authority(authority)
           && der_next_signer_info(token->whole.at, token->whole.len, &left, &signer, NULL) == 0 && left.length == 0
           && names_certificate(token->whole, &signer, authority)
           && has_signed(token, &signer, content_of(token), authority);
}

/* Says when a file was stamped. */
static int tell(octets info, octets stamped, const certificate *authority, const char *nonce)
{
    der_tst_info_at at;
    der_message_imprint_at imprint;
    octets hashed, number, time;
    uint64_t found, seconds;
    if (der_tst_info(info.at, info.len, &at, NULL) != 0)
        return refused("no time stamp");
    hashed = part(info, at.message_imprint);
    if (der_message_imprint(hashed.at, hashed.len, &imprint, NULL) != 0
        || !has_hash(stamped, hash_of(part(hashed, imprint.hash_algorithm)), contents(hashed, imprint.hashed_message)))
        return refused("the time stamp is of other octets");
    number = part(info, at.nonce);
    if (nonce != NULL
        && (der_unsigned_integer(number.at, number.len, &found, NULL) != 0 || found != strtoull(nonce, NULL, 0)))
        return refused("the time stamp answers another request");
    time = part(info, at.gen_time);
    if (der_fractional_time(time.at, time.len, &seconds, NULL) != 0 || !is_valid_at(authority, seconds))
        return refused("the certificate was not valid at that time");
    printf("%llu\n", (unsigned long long)seconds);
    return 0;
}

int main(int argc, char **argv)
{
    signed_data token;
    certificate authority;
    if (argc < 4 || argc > 5) {
        fprintf(stderr, "time_stamp RESPONSE FILE CERTIFICATE [NONCE]\n");
        return 2;
    }
    if (!read_token(read_file(argv[1]), &token) || !is_identifier(token.whole, token.at.e_content_type, TST_INFO))
        return refused("no time stamp was granted");
    if (!read_certificate(read_file(argv[3]), &authority) || !is_of(&token, &authority))
        return refused("the authority did not sign the time stamp");
    return tell(content_of(&token), read_file(argv[2]), &authority, argv[4]);
}
