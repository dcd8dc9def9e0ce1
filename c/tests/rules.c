/* The rules of RFC 5280 that a certificate or a list breaks. rules FILE, of one certificate in DER that breaks none. The last
 * line counts what was tried. */
#include "check.h"

/* a call answers 0 and writes these bits, and no fault */
static void breaks(uint32_t (*call)(const uint8_t *, size_t, uint64_t *, der_fault *), const uint8_t *octets, size_t len,
                   uint64_t want, const char *what)
{
    uint64_t broken;
    der_fault fault;
    FILL(broken);
    FILL(fault);
    check(call(octets, len, &broken, &fault) == 0 && broken == want, what);
    IS_FILLED(fault, der_fault);
}

/* a rule that a certificate breaks once one octet is another; which is put back */
static void spoilt(uint8_t *octets, size_t len, uint32_t at, uint8_t other, uint64_t want, const char *what)
{
    uint8_t was = octets[at];
    octets[at] = other;
    breaks(der_check_rfc5280, octets, len, want, what);
    octets[at] = was;
}

static void certificate(uint8_t *octets, size_t len)
{
    der_certificate_at at;
    der_fault fault;
    der_place serial;
    uint32_t last;
    check(der_certificate(octets, len, &at, &fault) == 0, "the certificate is read");
    breaks(der_check_rfc5280, octets, len, 0, "the certificate breaks no rule");
    last = at.signature_algorithm.offset + at.signature_algorithm.length - 1;
    spoilt(octets, len, last, octets[last] ^ 1, DER_CERTIFICATE_ALGORITHMS_AGREE, "another algorithm outside");
    serial = der_contents(octets, len, &at.serial_number);
    spoilt(octets, len, serial.offset, 0x80, DER_CERTIFICATE_SERIAL_NUMBER_POSITIVE, "a serial number below 0");
    /* the version is the last octet of its field */
    last = at.version.offset + at.version.length - 1;
    spoilt(octets, len, last, 1, DER_CERTIFICATE_EXTENSIONS_IN_VERSION_3, "extensions in version 2");
}

/* Extensions with the identifier and the criticality of a rule. */
static void extensions(uint8_t *octets, size_t len)
{
    der_certificate_at at;
    der_extension_at extension;
    der_fault fault;
    der_place left, identifier;
    check(der_certificate(octets, len, &at, &fault) == 0, "the certificate is read");
    left = der_extensions(octets, len, &at.extensions);
    check(der_next_extension(octets, len, &left, &extension, &fault) == 0, "it has an extension");
    identifier = der_contents(octets, len, &extension.extn_id);
    check(identifier.length == 3 && !extension.is_critical, "with an identifier of id-ce, not critical");
    spoilt(octets, len, identifier.offset + 2, 30,
           DER_CERTIFICATE_NAME_CONSTRAINTS_CRITICAL | DER_CERTIFICATE_NAME_CONSTRAINTS_ONLY_IN_CA, "nameConstraints, not critical");
    spoilt(octets, len, identifier.offset + 2, 36, DER_CERTIFICATE_POLICY_CONSTRAINTS_CRITICAL, "policyConstraints, the same");
    spoilt(octets, len, identifier.offset + 2, 54, DER_CERTIFICATE_INHIBIT_ANY_POLICY_CRITICAL, "inhibitAnyPolicy, the same");
    check(der_next_extension(octets, len, &left, &extension, &fault) == 0, "it has another");
    spoilt(octets, len, identifier.offset + 2, octets[der_contents(octets, len, &extension.extn_id).offset + 2],
           DER_CERTIFICATE_EXTENSIONS_STAND_ONCE, "an extension that stands twice");
}

/* lists, each in version 1 and with no entries: 30, the length, what is signed, the algorithm, a signature of no bits */
static void lists(void)
{
    static uint8_t list[] = {0x30, 44,
                             0x30, 34,                               /* tbsCertList */
                             0x30, 3, 6, 1, 42,                      /* signature */
                             0x30, 12, 0x31, 10, 0x30, 8, 6, 3, 0x55, 4, 3, 0x0c, 1, 'a', /* issuer */
                             0x17, 13, '2', '6', '0', '1', '0', '1', '0', '0', '0', '0', '0', '0', 'Z', /* thisUpdate */
                             0x30, 3, 6, 1, 42,                      /* signatureAlgorithm */
                             3, 1, 0};                               /* signatureValue */
    static const uint8_t another = 43;
    static const uint64_t absent = DER_LIST_NEXT_UPDATE_THERE | DER_LIST_AUTHORITY_HAS_KEY_IDENTIFIER | DER_LIST_CRL_NUMBER_THERE;
    uint64_t broken;
    der_fault fault;
    breaks(der_check_rfc5280_list, list, sizeof list, absent, "a list with no nextUpdate and no extensions");
    list[sizeof list - 4] = another;
    breaks(der_check_rfc5280_list, list, sizeof list, absent | DER_LIST_ALGORITHMS_AGREE, "and another algorithm outside");
    FILL(broken);
    check(der_check_rfc5280(list, sizeof list, &broken, &fault) == fault.number && fault.number == DER_TAG_UNEXPECTED,
          "a list is no certificate");
    IS_FILLED(broken, uint64_t);
}

int main(int argc, char **argv)
{
    static uint8_t octets[1 << 16];
    size_t len = read_file(argv[argc - 1], octets, argc == 2 ? sizeof octets : 0);
    if (len == 0) {
        fprintf(stderr, "rules FILE, of one certificate in DER\n");
        return 2;
    }
    certificate(octets, len);
    extensions(octets, len);
    lists();
    return end_of_tests();
}
