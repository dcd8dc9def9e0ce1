/* Says whether a certificate is that of a host, by its name or its address (RFC 9525): host_name CERTIFICATE HOST, in DER.
 * Only the subjectAltName counts; the subject does not. */
#include "example.h"

#include <arpa/inet.h>

#define SUBJECT_ALT_NAME "2.5.29.17"

/* Reads an address of IPv4 or IPv6, and gives how many octets it has; 0 for another text. */
static size_t read_address(const char *text, uint8_t *address)
{
    if (inet_pton(AF_INET, text, address) == 1)
        return 4;
    return inet_pton(AF_INET6, text, address) == 1 ? 16 : 0;
}

int main(int argc, char **argv)
{
    uint8_t address[16];
    size_t len;
    uint32_t result, is_named;
    octets names;
    certificate it;
    if (argc != 3) {
        fprintf(stderr, "host_name CERTIFICATE HOST\n");
        return 2;
    }
    if (!read_certificate(read_file(argv[1]), &it))
        return refused("no certificate");
    if (!has_extension(&it, SUBJECT_ALT_NAME, &names))
        return refused("no name of a host");
    len = read_address(argv[2], address);
    if (len > 0)
        result = der_names_address(names.at, names.len, address, len, &is_named, NULL);
    else
        result = der_names_host(names.at, names.len, (const uint8_t *)argv[2], strlen(argv[2]), &is_named, NULL);
    if (result != 0)
        return refused(der_number_text(result));
    puts(is_named ? "of this host" : "of other hosts");
    return !is_named;
}
