/* OpenSSL's calls of single types, which are measured in one process with the library's. */
#include <openssl/asn1.h>
#include <openssl/asn1t.h>
#include <openssl/crypto.h>
#include <stdint.h>
#include <stdlib.h>

typedef STACK_OF(ASN1_INTEGER) INTEGERS;
typedef STACK_OF(ASN1_INTEGER) INTEGER_SET;
ASN1_ITEM_TEMPLATE(INTEGERS) = ASN1_EX_TEMPLATE_TYPE(ASN1_TFLG_SEQUENCE_OF, 0, items, ASN1_INTEGER)
ASN1_ITEM_TEMPLATE_END(INTEGERS)
ASN1_ITEM_TEMPLATE(INTEGER_SET) = ASN1_EX_TEMPLATE_TYPE(ASN1_TFLG_SET_OF, 0, items, ASN1_INTEGER)
ASN1_ITEM_TEMPLATE_END(INTEGER_SET)

static ASN1_VALUE *kept;

int64_t openssl_walk(const unsigned char *octets, size_t len) {
    const unsigned char *at = octets, *end = octets + len;
    int64_t count = 0;
    while (at < end) {
        long contents;
        int tag, class;
        int form = ASN1_get_object(&at, &contents, &tag, &class, end - at);
        if (form & 0x80)
            abort();
        count++;
        if (form & V_ASN1_CONSTRUCTED)
            count += openssl_walk(at, contents);
        at += contents;
    }
    return count;
}

int64_t openssl_read_i64(const unsigned char *octets, size_t len) {
    ASN1_VALUE *value = ASN1_item_d2i(NULL, &octets, len, ASN1_ITEM_rptr(INTEGERS));
    OPENSSL_STACK *items = (OPENSSL_STACK *)value;
    int count = OPENSSL_sk_num(items);
    static volatile int64_t sum;
    for (int i = 0; i < count; i++) {
        int64_t number;
        ASN1_INTEGER_get_int64(&number, (ASN1_INTEGER *)OPENSSL_sk_value(items, i));
        sum += number;
    }
    ASN1_item_free(value, ASN1_ITEM_rptr(INTEGERS));
    return count;
}

void openssl_prepare(const unsigned char *octets, size_t len) {
    kept = ASN1_item_d2i(NULL, &octets, len, ASN1_ITEM_rptr(INTEGERS));
}

int64_t openssl_write_i64(void) {
    unsigned char *octets = NULL;
    int64_t len = ASN1_item_i2d(kept, &octets, ASN1_ITEM_rptr(INTEGERS));
    OPENSSL_free(octets);
    return len;
}

int64_t openssl_rewrite_set(const unsigned char *octets, size_t len) {
    ASN1_VALUE *value = ASN1_item_d2i(NULL, &octets, len, ASN1_ITEM_rptr(INTEGER_SET));
    unsigned char *written = NULL;
    int64_t written_len = ASN1_item_i2d(value, &written, ASN1_ITEM_rptr(INTEGER_SET));
    OPENSSL_free(written);
    ASN1_item_free(value, ASN1_ITEM_rptr(INTEGER_SET));
    return written_len;
}
