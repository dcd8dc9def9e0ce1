/* Hash values and signatures by OpenSSL, for the algorithms and keys of messages. */
#ifndef CRYPTO_H
#define CRYPTO_H
#include "example.h"

#include <openssl/evp.h>
#include <openssl/objects.h>
#include <openssl/rsa.h>
#include <openssl/x509.h>

/* An algorithm by OpenSSL's number, which is NID_undef where it has none, and its parameters. */
typedef struct algorithm {
    int number;
    octets parameters;
} algorithm;

/* The algorithm of an AlgorithmIdentifier. */
static inline algorithm algorithm_of(octets whole)
{
    algorithm it = {NID_undef, {NULL, 0}};
    der_algorithm_identifier_at at;
    octets identifier;
    char dotted[128];
    size_t length;
    if (der_algorithm_identifier(whole.at, whole.len, &at, NULL) != 0)
        return it;
    identifier = contents(whole, at.oid);
    length = der_object_identifier_text(identifier.at, identifier.len, dotted, sizeof dotted);
    it.number = length > 0 && length < sizeof dotted ? OBJ_txt2nid(dotted) : NID_undef;
    it.parameters = part(whole, at.parameters);
    return it;
}

/* The hash algorithm of an AlgorithmIdentifier; NULL where it has none. */
static inline const EVP_MD *hash_of(octets whole)
{
    return EVP_get_digestbynid(algorithm_of(whole).number);
}

/* Writes the hash value of octets, and gives its length; 0 where there is no such hash algorithm. */
static inline size_t hash_value(octets of, const EVP_MD *hash, uint8_t *value)
{
    unsigned length = 0;
    return hash != NULL && EVP_Digest(of.at, of.len, value, &length, hash, NULL) == 1 ? length : 0;
}

static inline int has_hash(octets of, const EVP_MD *hash, octets value)
{
    uint8_t found[EVP_MAX_MD_SIZE];
    octets it = {found, hash_value(of, hash, found)};
    return it.len > 0 && are_equal(it, value);
}

/* How a signature is made: the type of the key, the hash algorithm, and for RSASSA-PSS the length of the salt. */
typedef struct signing {
    int key;
    const EVP_MD *hash;
    uint64_t salt;
} signing;

/* Reads the parameters of RSASSA-PSS (RFC 4055 3.1). MGF1 must have the same hash algorithm; the defaults, which are for
 * SHA-1, are refused. */
static inline int read_pss(octets parameters, signing *out)
{
    der_rsassa_pss_params_at at;
    octets salt;
    algorithm mask;
    if (der_rsassa_pss_params(parameters.at, parameters.len, &at, NULL) != 0 || at.trailer_field.length != 0)
        return 0;
    out->hash = hash_of(contents(parameters, at.hash_algorithm));
    mask = algorithm_of(contents(parameters, at.mask_gen_algorithm));
    salt = contents(parameters, at.salt_length);
    return out->hash != NULL && mask.number == NID_mgf1 && hash_of(mask.parameters) == out->hash
           && der_unsigned_integer(salt.at, salt.len, &out->salt, NULL) == 0 && out->salt < 1024;
}

/* Reads the algorithm of a signature. In CMS rsaEncryption may stand for it, with the hash algorithm elsewhere. */
static inline int read_signing(octets whole, const EVP_MD *elsewhere, signing *out)
{
    algorithm it = algorithm_of(whole);
    int hash = NID_undef;
    out->key = it.number;
    out->hash = elsewhere;
    if (it.number == NID_rsaEncryption)
        return elsewhere != NULL;
    if (OBJ_find_sigid_algs(it.number, &hash, &out->key) != 1)
        return 0;
    out->hash = EVP_get_digestbynid(hash);
    return it.number != NID_rsassaPss || read_pss(it.parameters, out);
}

/* Whether octets have this signature by a key, a SubjectPublicKeyInfo, which OpenSSL reads. */
static inline int is_signed(octets it, octets how, octets signature, octets info, const EVP_MD *elsewhere)
{
    signing by = {NID_undef, NULL, 0};
    EVP_PKEY *key = d2i_PUBKEY(NULL, &info.at, (long)info.len);
    EVP_MD_CTX *context = EVP_MD_CTX_new();
    EVP_PKEY_CTX *settings = NULL;
    int type = key != NULL ? EVP_PKEY_get_base_id(key) : NID_undef;
    int answer = context != NULL && key != NULL && read_signing(how, elsewhere, &by)
                 && (type == by.key || (type == NID_rsaEncryption && by.key == NID_rsassaPss))
                 && EVP_DigestVerifyInit(context, &settings, by.hash, NULL, key) == 1;
    if (answer && by.key == NID_rsassaPss)
        answer = EVP_PKEY_CTX_set_rsa_padding(settings, RSA_PKCS1_PSS_PADDING) == 1
                 && EVP_PKEY_CTX_set_rsa_pss_saltlen(settings, (int)by.salt) == 1;
    answer = answer && EVP_DigestVerify(context, signature.at, signature.len, it.at, it.len) == 1;
    EVP_MD_CTX_free(context);
    EVP_PKEY_free(key);
    return answer;
}

/* Whether a certificate, a list, a request or an OCSP response is signed by a key. */
static inline int is_signed_by(octets message, der_place how, der_place signature, octets key)
{
    octets covered = part(message, der_signed_octets(message.at, message.len));
    return is_signed(covered, part(message, how), bits(message, signature), key, NULL);
}

/* Whether a certificate is signed by the key of another. */
static inline int is_issued(const certificate *it, const certificate *issuer)
{
    return is_signed_by(it->whole, it->at.signature_algorithm, it->at.signature_value, key_of(issuer));
}
#endif
