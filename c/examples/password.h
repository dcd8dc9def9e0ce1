/* What is done with a password: the MAC of a PKCS #12 file (RFC 7292), and decryption by PBES2 with PBKDF2 (RFC 8018). */
#ifndef PASSWORD_H
#define PASSWORD_H
#include "crypto.h"

#include <openssl/hmac.h>
#include <openssl/pkcs12.h>

/* The octets of an OCTET STRING; absent where another value stands there. */
static inline octets string_of(octets it)
{
    octets none = {NULL, 0};
    return is_a("octetsref", it) ? inside(it) : none;
}

/* A number of iterations, 1 where it is absent; 0 where it would take too long. */
static inline int count_of(octets number)
{
    uint64_t count = 1;
    if (number.len > 0 && der_unsigned_integer(number.at, number.len, &count, NULL) != 0)
        return 0;
    return count <= 10000000 ? (int)count : 0;
}

/* Whether octets have the MAC by a password (RFC 7292 4, B). */
static inline int has_mac(octets content, octets mac, const char *password)
{
    uint8_t key[EVP_MAX_MD_SIZE], buffer[EVP_MAX_MD_SIZE];
    octets info, salt, found = {buffer, 0};
    der_mac_data_at at;
    der_digest_info_at info_at;
    const EVP_MD *hash;
    int count;
    unsigned length;
    if (der_mac_data(mac.at, mac.len, &at, NULL) != 0)
        return 0;
    info = part(mac, at.mac);
    salt = contents(mac, at.mac_salt);
    count = count_of(part(mac, at.iterations));
    if (der_digest_info(info.at, info.len, &info_at, NULL) != 0)
        return 0;
    hash = hash_of(part(info, info_at.digest_algorithm));
    if (hash == NULL || count == 0
        || PKCS12_key_gen_utf8(password, -1, (uint8_t *)salt.at, (int)salt.len, PKCS12_MAC_ID, count, EVP_MD_get_size(hash),
                               key, hash) != 1
        || HMAC(hash, key, EVP_MD_get_size(hash), content.at, content.len, buffer, &length) == NULL)
        return 0;
    found.len = length;
    return are_equal(found, contents(info, info_at.digest));
}

/* Derives a key of so many octets by PBKDF2 (RFC 8018 5.2, A.2). */
static inline int derive(algorithm by, const char *password, int length, uint8_t *key)
{
    octets of = by.parameters, salt, function;
    der_pbkdf2_params_at at;
    int hash = NID_sha1;
    if (by.number != NID_id_pbkdf2 || der_pbkdf2_params(of.at, of.len, &at, NULL) != 0)
        return 0;
    salt = string_of(part(of, at.salt));
    function = part(of, at.prf);
    if (function.len > 0 && EVP_PBE_find(EVP_PBE_TYPE_PRF, algorithm_of(function).number, NULL, &hash, NULL) != 1)
        return 0;
    return PKCS5_PBKDF2_HMAC(password, -1, salt.at, (int)salt.len, count_of(part(of, at.iteration_count)),
                             EVP_get_digestbynid(hash), length, key) == 1;
}

/* Deciphers octets; absent where they are not enciphered so. The parameters of the cipher are its first block. */
static inline octets deciphered(const EVP_CIPHER *cipher, const uint8_t *key, octets first, octets data)
{
    EVP_CIPHER_CTX *context = EVP_CIPHER_CTX_new();
    uint8_t *buffer = room_for(data.len + EVP_MAX_BLOCK_LENGTH);
    octets text = {buffer, 0};
    int length = 0, rest = 0;
    if (context == NULL || buffer == NULL || first.len != (size_t)EVP_CIPHER_get_iv_length(cipher)
        || EVP_DecryptInit_ex(context, cipher, NULL, key, first.at) != 1
        || EVP_DecryptUpdate(context, buffer, &length, data.at, (int)data.len) != 1
        || EVP_DecryptFinal_ex(context, buffer + length, &rest) != 1)
        text.at = NULL;
    text.len = text.at != NULL ? (size_t)length + (size_t)rest : 0;
    EVP_CIPHER_CTX_free(context);
    return text;
}

/* Decrypts octets by PBES2 (RFC 8018 6.2, A.4); absent where that fails. */
static inline octets decrypted(octets how, octets data, const char *password)
{
    algorithm by = algorithm_of(how), scheme;
    octets none = {NULL, 0}, of = by.parameters;
    der_pbes2_params_at at;
    const EVP_CIPHER *cipher;
    uint8_t key[EVP_MAX_KEY_LENGTH];
    if (by.number != NID_pbes2 || der_pbes2_params(of.at, of.len, &at, NULL) != 0)
        return none;
    scheme = algorithm_of(part(of, at.encryption_scheme));
    cipher = EVP_get_cipherbynid(scheme.number);
    by = algorithm_of(part(of, at.key_derivation_func));
    if (cipher == NULL || !derive(by, password, EVP_CIPHER_get_key_length(cipher), key))
        return none;
    return deciphered(cipher, key, string_of(scheme.parameters), data);
}
#endif
