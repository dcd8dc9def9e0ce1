/* The certificates, lists and keys of PEM files, by this library and by OpenSSL: the fields that both name are the same octets
 * and the same numbers. beside_openssl FILE.. */
#include "beside.h"

#include <stdlib.h>

static void compare_extension(const der_extension_at *at, X509_EXTENSION *want)
{
    SAME("extension", at->whole, i2d_X509_EXTENSION, want);
    SAME("extnID", at->extn_id, i2d_ASN1_OBJECT, X509_EXTENSION_get_object(want));
    SAME("extnValue", at->extn_value, i2d_ASN1_OCTET_STRING, X509_EXTENSION_get_data(want));
    same_number("isCritical", at->is_critical, X509_EXTENSION_get_critical(want) > 0);
    absent("critical", at->critical, X509_EXTENSION_get_critical(want) <= 0);
}

static void compare_extensions(der_place left, const STACK_OF(X509_EXTENSION) * want)
{
    int count = want == NULL ? 0 : sk_X509_EXTENSION_num(want), i = 0;
    for (; left.length > 0 && i < count; i++) {
        der_extension_at extension;
        der_fault fault;
        if (der_next_extension(octets, len, &left, &extension, &fault) != 0)
            break;
        compare_extension(&extension, sk_X509_EXTENSION_value(want, i));
    }
    same_number("how many extensions", (uint64_t)i + left.length, (uint64_t)count);
}

static void compare_key(const uint8_t *whole, size_t length, X509_PUBKEY *want)
{
    der_subject_public_key_info_at at;
    der_fault fault;
    const uint8_t *all = octets;
    size_t all_len = len;
    ASN1_OBJECT *identifier;
    const unsigned char *bits;
    int count;
    X509_ALGOR *algorithm;
    octets = whole;
    len = length;
    same_number("answer for a key", der_subject_public_key_info(octets, len, &at, &fault), 0);
    X509_PUBKEY_get0_param(&identifier, &bits, &count, &algorithm, want);
    SAME("algorithm", at.algorithm, i2d_X509_ALGOR, algorithm);
    same("subjectPublicKey", der_bit_string_octets(octets, len, &at.subject_public_key), bits, count);
    octets = all;
    len = all_len;
}

static void compare_unique(const der_certificate_at *at, const X509 *x)
{
    const ASN1_BIT_STRING *issuer, *subject;
    X509_get0_uids(x, &issuer, &subject);
    absent("issuerUniqueID", at->issuer_unique_id, issuer == NULL);
    absent("subjectUniqueID", at->subject_unique_id, subject == NULL);
}

/* whether a certificate has an extension that is critical, or one that is not */
static int has_extension(const X509 *x, int nid, int critical)
{
    int at = -1;
    while ((at = X509_get_ext_by_NID(x, nid, at)) >= 0)
        if ((X509_EXTENSION_get_critical(X509_get_ext(x, at)) > 0) == critical)
            return 1;
    return 0;
}

static int is_positive(const ASN1_INTEGER *number)
{
    BIGNUM *n = ASN1_INTEGER_to_BN(number, NULL);
    int answer = !BN_is_zero(n) && !BN_is_negative(n);
    BN_free(n);
    return answer;
}

/* whether cA is TRUE in basicConstraints, whatever keyUsage says */
static int is_ca(const X509 *x)
{
    BASIC_CONSTRAINTS *constraints = X509_get_ext_d2i(x, NID_basic_constraints, NULL, NULL);
    int answer = constraints != NULL && constraints->ca != 0;
    BASIC_CONSTRAINTS_free(constraints);
    return answer;
}

/* the rules that a certificate breaks, where OpenSSL can tell */
static uint64_t broken_rules(const X509 *x)
{
    static const struct {
        int nid, critical;
        uint64_t rule;
    } rows[] = {{NID_authority_key_identifier, 1, DER_CERTIFICATE_AUTHORITY_KEY_IDENTIFIER_NOT_CRITICAL},
                {NID_subject_key_identifier, 1, DER_CERTIFICATE_SUBJECT_KEY_IDENTIFIER_NOT_CRITICAL},
                {NID_freshest_crl, 1, DER_CERTIFICATE_FRESHEST_CRL_NOT_CRITICAL},
                {NID_info_access, 1, DER_CERTIFICATE_AUTHORITY_INFO_ACCESS_NOT_CRITICAL},
                {NID_sinfo_access, 1, DER_CERTIFICATE_SUBJECT_INFO_ACCESS_NOT_CRITICAL},
                {NID_name_constraints, 0, DER_CERTIFICATE_NAME_CONSTRAINTS_CRITICAL},
                {NID_policy_constraints, 0, DER_CERTIFICATE_POLICY_CONSTRAINTS_CRITICAL},
                {NID_inhibit_any_policy, 0, DER_CERTIFICATE_INHIBIT_ANY_POLICY_CRITICAL}};
    const X509_ALGOR *algorithm;
    uint64_t broken = 0;
    size_t i;
    X509_get0_signature(NULL, &algorithm, x);
    broken |= X509_ALGOR_cmp(algorithm, X509_get0_tbs_sigalg(x)) != 0 ? DER_CERTIFICATE_ALGORITHMS_AGREE : 0;
    broken |= X509_get_ext_count(x) > 0 && X509_get_version(x) != 2 ? DER_CERTIFICATE_EXTENSIONS_IN_VERSION_3 : 0;
    broken |= is_positive(X509_get0_serialNumber(x)) ? 0 : DER_CERTIFICATE_SERIAL_NUMBER_POSITIVE;
    broken |= X509_NAME_entry_count(X509_get_issuer_name(x)) == 0 ? DER_CERTIFICATE_ISSUER_NOT_EMPTY : 0;
    if (X509_NAME_entry_count(X509_get_subject_name(x)) == 0 && !has_extension(x, NID_subject_alt_name, 1))
        broken |= DER_CERTIFICATE_EMPTY_SUBJECT_HAS_CRITICAL_ALT_NAME;
    if (is_ca(x) && has_extension(x, NID_basic_constraints, 0))
        broken |= DER_CERTIFICATE_BASIC_CONSTRAINTS_OF_CA_CRITICAL;
    for (i = 0; i < sizeof rows / sizeof rows[0]; i++)
        broken |= has_extension(x, rows[i].nid, rows[i].critical) ? rows[i].rule : 0;
    return broken;
}

static void compare_rules(const X509 *x)
{
    static const uint64_t first = DER_CERTIFICATE_VERSION_KNOWN - 1;
    static const uint64_t not_told = DER_CERTIFICATE_SERIAL_NUMBER_AT_MOST_20_OCTETS
                                     | DER_CERTIFICATE_UNIQUE_IDENTIFIERS_IN_VERSION_2
                                     | DER_CERTIFICATE_EXTENSIONS_STAND_ONCE
                                     | DER_CERTIFICATE_SUBJECT_DIRECTORY_ATTRIBUTES_NOT_CRITICAL;
    uint64_t broken;
    der_fault fault;
    same_number("answer", der_check_rfc5280(octets, len, &broken, &fault), 0);
    same_number("broken rules", broken & first & ~not_told, broken_rules(x));
}

/* The contents octets of the value of an extension, in the octets of the certificate. */
static der_place value_of(der_place left, const char *identifier)
{
    der_extension_at at;
    der_place none = {0, 0};
    der_fault fault;
    while (left.length > 0 && der_next_extension(octets, len, &left, &at, &fault) == 0) {
        der_place id = der_contents(octets, len, &at.extn_id);
        if (der_object_identifier_is(octets + id.offset, id.length, identifier))
            return der_contents(octets, len, &at.extn_value);
    }
    return none;
}

static void compare_usage(der_place value, X509 *x)
{
    ASN1_BIT_STRING *want = X509_get_ext_d2i(x, NID_key_usage, NULL, NULL);
    uint32_t bits = 0, wanted = 0;
    der_fault fault;
    int i;
    if (want == NULL)
        return;
    for (i = 0; i < 9; i++)
        wanted |= (uint32_t)(ASN1_BIT_STRING_get_bit(want, i) != 0) << i;
    if (der_named_bits(octets + value.offset, value.length, &bits, &fault) == DER_NONCANONICAL) {
        /* as that of Trustwave Global ECC P256 Certification Authority: X.690 11.2.2 forbids a bit 0 at the end */
        const uint8_t *end = octets + value.offset + value.length - 1;
        same_number("the last bit", *end >> octets[value.offset + 2] & 1, 0);
    } else {
        same_number("keyUsage", bits, wanted);
    }
    ASN1_BIT_STRING_free(want);
}

static void compare_constraints(der_place value, X509 *x)
{
    BASIC_CONSTRAINTS *want = X509_get_ext_d2i(x, NID_basic_constraints, NULL, NULL);
    der_basic_constraints_at at;
    der_fault fault;
    uint64_t most = 0;
    if (want == NULL)
        return;
    same_number("basicConstraints", der_basic_constraints(octets + value.offset, value.length, &at, &fault), 0);
    same_number("cA", at.ca.length > 0, want->ca != 0);
    same_number("pathLenConstraint is there", at.path_len_constraint.length > 0, want->pathlen != NULL);
    if (want->pathlen != NULL) {
        const uint8_t *number = octets + value.offset + at.path_len_constraint.offset;
        same_number("pathLenConstraint is read", der_unsigned_integer(number, at.path_len_constraint.length, &most, &fault), 0);
        same_number("pathLenConstraint", most, (uint64_t)ASN1_INTEGER_get(want->pathlen));
    }
    BASIC_CONSTRAINTS_free(want);
}

/* the names of a subjectAltName, each with its kind */
static void compare_names(der_place value, X509 *x)
{
    GENERAL_NAMES *want = X509_get_ext_d2i(x, NID_subject_alt_name, NULL, NULL);
    der_place left, name;
    der_fault fault;
    int i;
    if (want == NULL)
        return;
    left = der_items(octets, len, &value);
    name.offset = left.offset;
    name.length = 0;
    for (i = 0; i < sk_GENERAL_NAME_num(want); i++) {
        GENERAL_NAME *it = sk_GENERAL_NAME_value(want, i);
        uint32_t kind = 99;
        name = der_next_encoding(octets, len, &name);
        SAME("a name", name, i2d_GENERAL_NAME, it);
        same_number("a name is read", der_general_name(octets + name.offset, name.length, &kind, &fault), 0);
        same_number("the kind of a name", kind, (uint64_t)it->type);
    }
    same_number("the end of the names", name.offset + name.length, left.offset + left.length);
    GENERAL_NAMES_free(want);
}

static void compare_certificate(X509 *x)
{
    der_certificate_at at;
    der_fault fault;
    const X509_ALGOR *algorithm;
    const ASN1_BIT_STRING *signature;
    same_number("answer", der_certificate(octets, len, &at, &fault), 0);
    X509_get0_signature(&signature, &algorithm, x);
    SAME("tbsCertificate", at.tbs_certificate, i2d_re_X509_tbs, x);
    SAME("signed octets", der_signed_octets(octets, len), i2d_re_X509_tbs, x);
    SAME("signatureAlgorithm", at.signature_algorithm, i2d_X509_ALGOR, algorithm);
    SAME("signatureValue", at.signature_value, i2d_ASN1_BIT_STRING, signature);
    SAME("serialNumber", at.serial_number, i2d_ASN1_INTEGER, X509_get0_serialNumber(x));
    SAME("signature", at.signature, i2d_X509_ALGOR, X509_get0_tbs_sigalg(x));
    SAME("issuer", at.issuer, i2d_X509_NAME, X509_get_issuer_name(x));
    SAME("subject", at.subject, i2d_X509_NAME, X509_get_subject_name(x));
    SAME("subjectPublicKeyInfo", at.subject_public_key_info, i2d_X509_PUBKEY, X509_get_X509_PUBKEY(x));
    same_number("version", at.version_number, (uint64_t)X509_get_version(x));
    absent("version", at.version, X509_get_version(x) == 0);
    same_number("notBefore", at.not_before, seconds(X509_get0_notBefore(x)));
    same_number("notAfter", at.not_after, seconds(X509_get0_notAfter(x)));
    compare_unique(&at, x);
    compare_rules(x);
    compare_key(octets + at.subject_public_key_info.offset, at.subject_public_key_info.length, X509_get_X509_PUBKEY(x));
    compare_extensions(der_extensions(octets, len, &at.extensions), X509_get0_extensions(x));
    compare_usage(value_of(der_extensions(octets, len, &at.extensions), "2.5.29.15"), x);
    compare_names(value_of(der_extensions(octets, len, &at.extensions), "2.5.29.17"), x);
    compare_constraints(value_of(der_extensions(octets, len, &at.extensions), "2.5.29.19"), x);
}

static void compare_entries(der_place left, STACK_OF(X509_REVOKED) * want)
{
    int count = want == NULL ? 0 : sk_X509_REVOKED_num(want), i = 0;
    for (; left.length > 0 && i < count; i++) {
        der_revoked_certificate_at at;
        der_fault fault;
        X509_REVOKED *entry = sk_X509_REVOKED_value(want, i);
        if (der_next_revoked_certificate(octets, len, &left, &at, &fault) != 0)
            break;
        SAME("entry", at.whole, i2d_X509_REVOKED, entry);
        SAME("userCertificate", at.user_certificate, i2d_ASN1_INTEGER, X509_REVOKED_get0_serialNumber(entry));
        SAME("revocationDate", at.revocation_date, i2d_ASN1_TIME, X509_REVOKED_get0_revocationDate(entry));
        same_number("revocationDate", at.revocation_date_seconds, seconds(X509_REVOKED_get0_revocationDate(entry)));
        compare_extensions(der_items(octets, len, &at.crl_entry_extensions), X509_REVOKED_get0_extensions(entry));
    }
    same_number("how many entries", (uint64_t)i + left.length, (uint64_t)count);
}

/* each entry is found by its serial number, and a serial number of 21 octets is not */
static void find_entries(STACK_OF(X509_REVOKED) * want)
{
    static const uint8_t other[21] = {0x7f, 0xff, 0xff};
    int count = want == NULL ? 0 : sk_X509_REVOKED_num(want), i;
    der_revoked_certificate_at at;
    der_fault fault;
    for (i = 0; i < count; i++) {
        unsigned char *serial = NULL;
        int length = i2d_ASN1_INTEGER(X509_REVOKED_get0_serialNumber(sk_X509_REVOKED_value(want, i)), &serial);
        same_number("the entry is found", der_find_revoked(octets, len, serial + 2, (size_t)length - 2, &at, &fault), 0);
        same("the serial number that is found", at.user_certificate, serial, length);
        OPENSSL_free(serial);
    }
    same_number("another is not found", der_find_revoked(octets, len, other, sizeof other, &at, &fault), 0);
    same_number("another has no place", at.whole.length + at.user_certificate.length, 0);
}

static void compare_list(X509_CRL *x)
{
    der_certificate_list_at at;
    der_fault fault;
    const X509_ALGOR *algorithm;
    const ASN1_BIT_STRING *signature;
    const ASN1_TIME *next = X509_CRL_get0_nextUpdate(x);
    same_number("answer", der_certificate_list(octets, len, &at, &fault), 0);
    X509_CRL_get0_signature(x, &signature, &algorithm);
    SAME("tbsCertList", at.tbs_cert_list, i2d_re_X509_CRL_tbs, x);
    SAME("signed octets", der_signed_octets(octets, len), i2d_re_X509_CRL_tbs, x);
    SAME("signatureAlgorithm", at.signature_algorithm, i2d_X509_ALGOR, algorithm);
    SAME("signatureValue", at.signature_value, i2d_ASN1_BIT_STRING, signature);
    SAME("signature", at.signature, i2d_X509_ALGOR, algorithm);
    SAME("issuer", at.issuer, i2d_X509_NAME, X509_CRL_get_issuer(x));
    SAME("thisUpdate", at.this_update, i2d_ASN1_TIME, X509_CRL_get0_lastUpdate(x));
    same_number("thisUpdate", at.this_update_seconds, seconds(X509_CRL_get0_lastUpdate(x)));
    absent("nextUpdate", at.next_update, next == NULL);
    if (next != NULL)
        SAME("nextUpdate", at.next_update, i2d_ASN1_TIME, next);
    same_number("nextUpdate", at.next_update_seconds, next == NULL ? 0 : seconds(next));
    same_number("version", at.version_number, (uint64_t)X509_CRL_get_version(x));
    compare_entries(der_items(octets, len, &at.revoked_certificates), X509_CRL_get_REVOKED(x));
    find_entries(X509_CRL_get_REVOKED(x));
    compare_extensions(der_extensions(octets, len, &at.crl_extensions), X509_CRL_get0_extensions(x));
}

static void compare_private_key(PKCS8_PRIV_KEY_INFO *x)
{
    der_private_key_info_at at;
    der_fault fault;
    const ASN1_OBJECT *identifier;
    const unsigned char *key;
    int count;
    const X509_ALGOR *algorithm;
    same_number("answer", der_private_key_info(octets, len, &at, &fault), 0);
    PKCS8_pkey_get0(&identifier, &key, &count, &algorithm, x);
    SAME("privateKeyAlgorithm", at.private_key_algorithm, i2d_X509_ALGOR, algorithm);
    same("privateKey", der_contents(octets, len, &at.private_key), key, count);
    same_number("version", at.version_number, 0);
}

/* a message, by what stands between the hyphens of its first line */
static void compare(const char *name)
{
    const unsigned char *p = octets;
    messages++;
    if (strcmp(name, "CERTIFICATE") == 0) {
        X509 *x = d2i_X509(NULL, &p, (long)len);
        compare_canonical("cert");
        if (x != NULL)
            compare_certificate(x);
        X509_free(x);
    } else if (strcmp(name, "X509 CRL") == 0) {
        X509_CRL *x = d2i_X509_CRL(NULL, &p, (long)len);
        compare_canonical("crl");
        if (x != NULL)
            compare_list(x);
        X509_CRL_free(x);
    } else if (strcmp(name, "PRIVATE KEY") == 0) {
        PKCS8_PRIV_KEY_INFO *x = d2i_PKCS8_PRIV_KEY_INFO(NULL, &p, (long)len);
        compare_canonical("pkcs8");
        if (x != NULL)
            compare_private_key(x);
        PKCS8_PRIV_KEY_INFO_free(x);
    } else if (strcmp(name, "PUBLIC KEY") == 0) {
        X509_PUBKEY *x = d2i_X509_PUBKEY(NULL, &p, (long)len);
        compare_canonical("spki");
        if (x != NULL)
            compare_key(octets, len, x);
        X509_PUBKEY_free(x);
    } else {
        messages--;
    }
}

int main(int argc, char **argv)
{
    return compare_files(argc - 1, argv + 1);
}
