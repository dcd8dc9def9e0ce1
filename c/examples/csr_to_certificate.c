/* Issues a certificate for a request whose signature is right (RFC 2986, RFC 5280 4.1), and writes it in DER:
 * csr_to_certificate REQUEST ISSUER KEY SERIAL DAYS, the request and the issuer's certificate in DER, its private key in
 * PEM, the serial number in hexadecimal. The signature's algorithm is that of the issuer's certificate. Of the extensions
 * that a request asks for only subjectAltName is granted. */
#include "writing.h"

#include <openssl/pem.h>

#define EXTENSION_REQUEST "1.2.840.113549.1.9.14"
#define SUBJECT_ALT_NAME "2.5.29.17"

/* The subjectAltName that a request asks for (RFC 2985 5.4.2), as extensions with their tag [3]; absent where it has none. */
static der_place add_extensions(octets of, der_place attributes)
{
    der_place left = der_items(of.at, of.len, &attributes), none = {0, 0};
    der_attribute_at at;
    der_extension_at asked;
    octets list;
    while (left.length > 0 && der_next_attribute(of.at, of.len, &left, &at, NULL) == 0) {
        if (!is_identifier(of, at.type, EXTENSION_REQUEST) || !is_a("exts", contents(of, at.values)))
            continue;
        list = inside(contents(of, at.values));
        for (left = whole_of(list); left.length > 0 && der_next_extension(list.at, list.len, &left, &asked, NULL) == 0;)
            if (is_identifier(list, asked.extn_id, SUBJECT_ALT_NAME))
                return add_encoding(DER_CONSTRUCTED + 3, at_place(add_encoding(DER_SEQUENCE, part(list, asked.whole))));
        break;
    }
    return none;
}

/* Signs octets, which the key of the issuer's certificate must verify. */
static der_place add_signature(octets it, octets how, EVP_PKEY *key, const certificate *issuer)
{
    signing by = {NID_undef, NULL, 0};
    uint8_t buffer[1 << 10];
    size_t length = sizeof buffer, written = 0;
    EVP_MD_CTX *context = EVP_MD_CTX_new();
    octets signature = {buffer, 0};
    uint32_t result;
    if (read_signing(how, NULL, &by) && EVP_DigestSignInit(context, NULL, by.hash, NULL, key) == 1
        && EVP_DigestSign(context, buffer, &length, it.at, it.len) == 1)
        signature.len = length;
    EVP_MD_CTX_free(context);
    if (!is_signed(it, how, signature, key_of(issuer), NULL))
        return added(1, 0);
    result = der_write_bit_string(buffer, length, parts + used, sizeof parts - used, &written, NULL);
    return added(result, written);
}

static int issue(octets request, const der_certification_request_at *asked, const certificate *issuer, EVP_PKEY *key,
                 char **words)
{
    der_certificate_at at;
    size_t length = 0;
    uint32_t result;
    memset(&at, 0, sizeof at);
    at.version_number = 2;
    at.not_before = moment(NULL);
    at.not_after = at.not_before + strtoull(words[1], NULL, 10) * 86400;
    at.serial_number = add_number(words[0]);
    at.signature = at.signature_algorithm = add(part(issuer->whole, issuer->at.signature_algorithm));
    at.issuer = add(part(issuer->whole, issuer->at.subject));
    at.subject = add(part(request, asked->subject));
    at.subject_public_key_info = add(part(request, asked->subject_pk_info));
    at.extensions = add_extensions(request, asked->attributes);
    result = der_write_tbs_certificate(parts, used, &at, parts + used, sizeof parts - used, &length, NULL);
    at.tbs_certificate = added(result, length);
    at.signature_value = add_signature(at_place(at.tbs_certificate), at_place(at.signature), key, issuer);
    result = der_write_certificate(parts, used, &at, parts + used, sizeof parts - used, &length, NULL);
    if (result != 0)
        return refused("the certificate cannot be made of these parts");
    return fwrite(parts + used, 1, length, stdout) == length ? 0 : 2;
}

int main(int argc, char **argv)
{
    octets request;
    der_certification_request_at asked;
    certificate issuer;
    EVP_PKEY *key;
    FILE *file = argc == 6 ? fopen(argv[3], "r") : NULL;
    int answer;
    if (file == NULL) {
        fprintf(stderr, "csr_to_certificate REQUEST ISSUER KEY SERIAL DAYS\n");
        return 2;
    }
    key = PEM_read_PrivateKey(file, NULL, NULL, NULL);
    fclose(file);
    request = read_file(argv[1]);
    if (der_certification_request(request.at, request.len, &asked, NULL) != 0
        || !is_signed_by(request, asked.signature_algorithm, asked.signature, part(request, asked.subject_pk_info)))
        answer = refused("no request, or its signature is wrong");
    else if (key == NULL || !read_certificate(read_file(argv[2]), &issuer))
        answer = refused("no certificate of the issuer, or no key");
    else
        answer = issue(request, &asked, &issuer, key, argv + 4);
    EVP_PKEY_free(key);
    return answer;
}
