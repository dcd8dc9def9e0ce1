/* Prints the certificates and the private keys of a PKCS #12 file as PEM text (RFC 7292): pkcs12 FILE PASSWORD. Its MAC is
 * verified first. Encryption is by PBES2, as OpenSSL 3 writes it. */
#include "password.h"

#include <openssl/pem.h>

#define DATA "1.2.840.113549.1.7.1"
#define ENCRYPTED_DATA "1.2.840.113549.1.7.6"
#define KEY_BAG "1.2.840.113549.1.12.10.1.1"
#define SHROUDED_KEY_BAG "1.2.840.113549.1.12.10.1.2"
#define CERT_BAG "1.2.840.113549.1.12.10.1.3"
#define X509_CERTIFICATE "1.2.840.113549.1.9.22.1"

static int print(const char *label, octets it)
{
    return it.at != NULL && PEM_write(stdout, label, "", it.at, (long)it.len) > 0;
}

/* Prints a private key that is encrypted (RFC 5958 section 3). */
static int print_encrypted(octets key, const char *password)
{
    der_encrypted_private_key_info_at at;
    if (der_encrypted_private_key_info(key.at, key.len, &at, NULL) != 0)
        return 0;
    key = decrypted(part(key, at.encryption_algorithm), contents(key, at.encrypted_data), password);
    return print("PRIVATE KEY", key);
}

/* Prints what a bag has, if it is a key or a certificate (RFC 7292 4.2). */
static int print_bag(octets of, const der_safe_bag_at *bag, const char *password)
{
    octets value = contents(of, bag->bag_value);
    der_cert_bag_at at;
    if (is_identifier(of, bag->bag_id, KEY_BAG))
        return print("PRIVATE KEY", value);
    if (is_identifier(of, bag->bag_id, SHROUDED_KEY_BAG))
        return print_encrypted(value, password);
    if (!is_identifier(of, bag->bag_id, CERT_BAG))
        return 1;
    return der_cert_bag(value.at, value.len, &at, NULL) == 0 && is_identifier(value, at.cert_id, X509_CERTIFICATE)
           && print("CERTIFICATE", string_of(contents(value, at.cert_value)));
}

/* The bags of a ContentInfo, decrypted where they are encrypted (RFC 7292 4.1). */
static octets bags_of(octets info, const char *password)
{
    octets none = {NULL, 0}, data;
    der_content_info_at at;
    der_encrypted_data_at data_at;
    der_encrypted_content_info_at content;
    if (der_content_info(info.at, info.len, &at, NULL) != 0)
        return none;
    data = contents(info, at.content);
    if (is_identifier(info, at.content_type, DATA))
        return string_of(data);
    if (!is_identifier(info, at.content_type, ENCRYPTED_DATA)
        || der_encrypted_data(data.at, data.len, &data_at, NULL) != 0)
        return none;
    data = part(data, data_at.encrypted_content_info);
    if (der_encrypted_content_info(data.at, data.len, &content, NULL) != 0)
        return none;
    return decrypted(part(data, content.content_encryption_algorithm), contents(data, content.encrypted_content),
                     password);
}

/* Prints what the bags of all parts have; says no at one that is not understood. */
static int print_all(octets safe, const char *password)
{
    octets bags, list = inside(safe);
    der_place left, item = {0, 0};
    der_safe_bag_at bag;
    while (next_item(list, &item)) {
        bags = bags_of(part(list, item), password);
        if (!is_a("vec-anyref", bags))
            return 0;
        for (bags = inside(bags), left = whole_of(bags); left.length > 0;)
            if (der_next_safe_bag(bags.at, bags.len, &left, &bag, NULL) != 0 || !print_bag(bags, &bag, password))
                return 0;
    }
    return 1;
}

int main(int argc, char **argv)
{
    octets file, info, safe;
    der_pfx_at at;
    der_content_info_at info_at;
    if (argc != 3) {
        fprintf(stderr, "pkcs12 FILE PASSWORD\n");
        return 2;
    }
    file = read_file(argv[1]);
    if (der_pfx(file.at, file.len, &at, NULL) != 0)
        return refused("no PKCS #12 file");
    info = part(file, at.auth_safe);
    if (der_content_info(info.at, info.len, &info_at, NULL) != 0 || !is_identifier(info, info_at.content_type, DATA))
        return refused("it is not for a password");
    safe = string_of(contents(info, info_at.content));
    if (!has_mac(safe, part(file, at.mac_data), argv[2]))
        return refused("the MAC is wrong, or the password");
    return is_a("vec-anyref", safe) && print_all(safe, argv[2]) ? 0 : refused("the contents are not understood");
}
