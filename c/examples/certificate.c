/* Prints the places of the fields of a certificate, and the values of some extensions: certificate FILE, of one certificate
 * in DER. */
#include <barleypulley/der.h>

#include <inttypes.h>
#include <stdio.h>
#include <string.h>

static void print_place(const char *name, der_place place)
{
    if (place.length > 0)
        printf("%6" PRIu32 " %6" PRIu32 "  %s\n", place.offset, place.length, name);
}

static int refused(const der_fault *fault)
{
    fprintf(stderr, "refused: %s (%" PRIu32 ")", der_number_text(fault->number), fault->number);
    if (fault->is_placed)
        fprintf(stderr, ", after %" PRIu32 " octets", fault->position);
    fprintf(stderr, "\n");
    return 1;
}

/* Prints the host names of a subjectAltName (RFC 5280 4.2.1.6). */
static int print_hosts(const uint8_t *octets, size_t len, const der_place *names)
{
    der_place all = der_items(octets, len, names), name = {0, 0};
    der_fault fault;
    uint32_t kind;
    for (name.offset = all.offset; name.offset + name.length < all.offset + all.length;) {
        name = der_next_encoding(octets, len, &name);
        if (der_general_name(octets + name.offset, name.length, &kind, &fault) != 0)
            return refused(&fault);
        if (kind == DER_DNS_NAME) {
            der_place host = der_contents(octets, len, &name);
            printf("host %.*s\n", (int)host.length, (const char *)octets + host.offset);
        }
    }
    return 0;
}

static int print_usage(const uint8_t *octets, size_t len)
{
    uint32_t usage;
    der_fault fault;
    if (der_named_bits(octets, len, &usage, &fault) != 0)
        return refused(&fault);
    printf("signs certificates: %s, lists: %s\n", usage & DER_KEY_CERT_SIGN ? "yes" : "no", usage & DER_CRL_SIGN ? "yes" : "no");
    return 0;
}

static int print_constraints(const uint8_t *octets, size_t len)
{
    der_basic_constraints_at constraints;
    der_fault fault;
    uint64_t most;
    if (der_basic_constraints(octets, len, &constraints, &fault) != 0)
        return refused(&fault);
    printf("certificate authority: %s\n", constraints.ca.length > 0 ? "yes" : "no");
    if (constraints.path_len_constraint.length == 0)
        return 0;
    octets += constraints.path_len_constraint.offset;
    if (der_unsigned_integer(octets, constraints.path_len_constraint.length, &most, &fault) != 0)
        return refused(&fault);
    printf("at most %" PRIu64 " certificates of authorities below it\n", most);
    return 0;
}

static int print_value(const uint8_t *octets, size_t len, const der_extension_at *extension)
{
    der_place identifier = der_contents(octets, len, &extension->extn_id);
    der_place value = der_contents(octets, len, &extension->extn_value);
    char text[64];
    der_object_identifier_text(octets + identifier.offset, identifier.length, text, sizeof text);
    if (strcmp(text, "2.5.29.15") == 0)
        return print_usage(octets + value.offset, value.length);
    if (strcmp(text, "2.5.29.17") == 0)
        return print_hosts(octets, len, &value);
    if (strcmp(text, "2.5.29.19") == 0)
        return print_constraints(octets + value.offset, value.length);
    printf("extension %s\n", text);
    return 0;
}

static int print_extensions(const uint8_t *octets, size_t len, const der_certificate_at *certificate)
{
    der_place left = der_extensions(octets, len, &certificate->extensions);
    der_extension_at extension;
    der_fault fault;
    while (left.length > 0) {
        if (der_next_extension(octets, len, &left, &extension, &fault) != 0)
            return refused(&fault);
        print_place(extension.is_critical ? "extension, critical" : "extension", extension.whole);
        if (print_value(octets, len, &extension) != 0)
            return 1;
    }
    return 0;
}

static int print_certificate(const uint8_t *octets, size_t len)
{
    der_certificate_at certificate;
    der_fault fault;
    if (der_certificate(octets, len, &certificate, &fault) != 0)
        return refused(&fault);
    print_place("tbsCertificate", certificate.tbs_certificate);
    print_place("serialNumber", certificate.serial_number);
    print_place("issuer", certificate.issuer);
    print_place("validity", certificate.validity);
    print_place("subject", certificate.subject);
    print_place("subjectPublicKeyInfo", certificate.subject_public_key_info);
    print_place("extensions", certificate.extensions);
    print_place("signatureAlgorithm", certificate.signature_algorithm);
    print_place("signatureValue", certificate.signature_value);
    printf("version %" PRIu64 ", from %" PRIu64 " to %" PRIu64 "\n", certificate.version_number + 1,
           certificate.not_before, certificate.not_after);
    return print_extensions(octets, len, &certificate);
}

int main(int argc, char **argv)
{
    static uint8_t octets[1 << 20];
    FILE *file = argc == 2 ? fopen(argv[1], "rb") : NULL;
    size_t len;
    if (file == NULL) {
        fprintf(stderr, "certificate FILE, of one certificate in DER\n");
        return 2;
    }
    len = fread(octets, 1, sizeof octets, file);
    fclose(file);
    return print_certificate(octets, len);
}
