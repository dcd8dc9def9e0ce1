/* Verifies the signatures of a CMS message by the signer's certificate, which is trusted (RFC 5652 5.6): cms_signature
 * MESSAGE CERTIFICATE [CONTENT], the first two in DER; the content where the message has none. */
#include "signed_data.h"

int main(int argc, char **argv)
{
    signed_data message;
    certificate by;
    der_signer_info_at signer;
    der_place left;
    octets content;
    int count;
    if (argc < 3 || argc > 4) {
        fprintf(stderr, "cms_signature MESSAGE CERTIFICATE [CONTENT]\n");
        return 2;
    }
    if (!read_signed_data(read_file(argv[1]), &message))
        return refused("no signed message");
    if (!read_certificate(read_file(argv[2]), &by))
        return refused("no certificate");
    if ((message.at.e_content.length == 0) != (argc == 4))
        return refused(argc == 4 ? "the message has its content" : "the content is missing");
    content = argc == 4 ? read_file(argv[3]) : content_of(&message);
    left = der_items(message.whole.at, message.whole.len, &message.at.signer_infos);
    for (count = 0; left.length > 0; count++)
        if (der_next_signer_info(message.whole.at, message.whole.len, &left, &signer, NULL) != 0
            || !has_signed(&message, &signer, content, &by))
            return refused("a signature is not of this content and certificate");
    if (count == 0)
        return refused("there is no signature");
    puts("verified");
    return 0;
}
