/* What is shared by programs that verify a SignedData (RFC 5652 section 5). */
#ifndef SIGNED_DATA_H
#define SIGNED_DATA_H
#include "crypto.h"

#define DATA "1.2.840.113549.1.7.1"
#define SIGNED_DATA "1.2.840.113549.1.7.2"
#define CONTENT_TYPE "1.2.840.113549.1.9.3"
#define MESSAGE_DIGEST "1.2.840.113549.1.9.4"
#define SUBJECT_KEY_IDENTIFIER "2.5.29.14"

typedef struct signed_data {
    octets whole;
    der_signed_data_at at;
} signed_data;

/* Reads the SignedData of a ContentInfo. */
static inline int read_signed_data(octets message, signed_data *out)
{
    der_content_info_at at;
    if (der_content_info(message.at, message.len, &at, NULL) != 0 || !is_identifier(message, at.content_type, SIGNED_DATA))
        return 0;
    out->whole = contents(message, at.content);
    return der_signed_data(out->whole.at, out->whole.len, &out->at, NULL) == 0;
}

/* Whether a signer has one attribute of a type, signed, with one value (RFC 5652 11). */
static inline int has_attribute(octets of, const der_signer_info_at *signer, const char *dotted, octets *value)
{
    der_place left = der_items(of.at, of.len, &signer->signed_attrs), item;
    der_attribute_at at;
    octets values;
    int count = 0;
    while (left.length > 0 && der_next_attribute(of.at, of.len, &left, &at, NULL) == 0) {
        if (!is_identifier(of, at.type, dotted))
            continue;
        values = contents(of, at.values);
        for (item.offset = item.length = 0; next_item(values, &item); count++)
            *value = part(values, item);
    }
    return count == 1;
}

/* Whether a signer's identifier names a certificate, by issuer and serial number or by its key's identifier. */
static inline int is_signer(octets identifier, const certificate *it)
{
    octets of = it->whole, value;
    uint32_t answer, result = der_issuer_and_serial_number_is(identifier.at, identifier.len, of.at, of.len, &answer, NULL);
    if (result == 0)
        return answer != 0;
    return result == DER_TAG_UNEXPECTED && has_extension(it, SUBJECT_KEY_IDENTIFIER, &value) && is_a("octetsref", value)
           && are_equal(inside(value), inside(identifier));
}

/* Whether the signed attributes are those of a content (RFC 5652 11.1, 11.2). */
static inline int are_of(octets of, const der_signer_info_at *signer, der_place content_type, octets content)
{
    octets type, value;
    return has_attribute(of, signer, CONTENT_TYPE, &type) && are_equal(type, part(of, content_type))
           && has_attribute(of, signer, MESSAGE_DIGEST, &value) && is_a("octetsref", value)
           && has_hash(content, hash_of(part(of, signer->digest_algorithm)), inside(value));
}

/* Whether a signer signed a content with the key of a certificate (RFC 5652 5.4). */
static inline int has_signed(const signed_data *it, const der_signer_info_at *signer, octets content, const certificate *by)
{
    octets of = it->whole, covered = content;
    size_t length = signer->signed_attrs.length;
    uint8_t *buffer = room_for(length);
    if (length == 0 && !is_identifier(of, it->at.e_content_type, DATA))
        return 0;
    if (length > 0) {
        covered.at = buffer;
        if (buffer == NULL || !are_of(of, signer, it->at.e_content_type, content)
            || der_signed_attributes(of.at, of.len, &signer->signed_attrs, buffer, length, &covered.len, NULL) != 0)
            return 0;
    }
    return is_signer(part(of, signer->sid), by)
           && is_signed(covered, part(of, signer->signature_algorithm), contents(of, signer->signature), key_of(by),
                        hash_of(part(of, signer->digest_algorithm)));
}

/* The content, where a message has it: the octets of an OCTET STRING with an explicit tag. */
static inline octets content_of(const signed_data *message)
{
    return inside(contents(message->whole, message->at.e_content));
}
#endif
