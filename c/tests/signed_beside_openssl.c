/* The requests, answers about the status of certificates and signed messages of PEM files, and the names in certificates, by
 * this library and by OpenSSL: the fields that both name are the same octets and the same numbers.
 * signed_beside_openssl FILE.. */
#include "beside.h"

#include <openssl/cms.h>
#include <openssl/ocsp.h>

static der_place contents(der_place place)
{
    return der_contents(octets, len, &place);
}

static void same_string(const char *name, der_place place, const ASN1_STRING *want)
{
    same(name, place, ASN1_STRING_get0_data(want), ASN1_STRING_length(want));
}

static void compare_name(const der_place *place, X509_NAME *want)
{
    der_name_left left = der_name(octets, len, place);
    int count = X509_NAME_entry_count(want), i = 0;
    for (; der_has_attribute(&left) && i < count; i++) {
        der_attribute_type_and_value_at at;
        der_fault fault;
        X509_NAME_ENTRY *entry = X509_NAME_get_entry(want, i);
        if (der_next_name_attribute(octets, len, &left, &at, &fault) != 0)
            break;
        SAME("attribute of a name", at.whole, i2d_X509_NAME_ENTRY, entry);
        SAME("type", at.type, i2d_ASN1_OBJECT, X509_NAME_ENTRY_get_object(entry));
        same_string("value", contents(at.value), X509_NAME_ENTRY_get_data(entry));
    }
    same_number("how many attributes of a name", (uint64_t)i + (uint64_t)der_has_attribute(&left), (uint64_t)count);
}

/* one of the attributes that stand one behind another */
static void compare_attribute(der_place *left, X509_ATTRIBUTE *want)
{
    der_attribute_at at;
    der_fault fault;
    same_number("answer for an attribute", der_next_attribute(octets, len, left, &at, &fault), 0);
    SAME("attribute", at.whole, i2d_X509_ATTRIBUTE, want);
    SAME("type", at.type, i2d_ASN1_OBJECT, X509_ATTRIBUTE_get0_object(want));
}

static void compare_request(X509_REQ *x)
{
    der_certification_request_at at;
    der_fault fault;
    der_place left;
    const X509_ALGOR *algorithm;
    const ASN1_BIT_STRING *signature;
    int i;
    same_number("answer", der_certification_request(octets, len, &at, &fault), 0);
    X509_REQ_get0_signature(x, &signature, &algorithm);
    SAME("certificationRequestInfo", at.certification_request_info, i2d_re_X509_REQ_tbs, x);
    SAME("signed octets", der_signed_octets(octets, len), i2d_re_X509_REQ_tbs, x);
    SAME("signatureAlgorithm", at.signature_algorithm, i2d_X509_ALGOR, algorithm);
    SAME("signature", at.signature, i2d_ASN1_BIT_STRING, signature);
    SAME("subject", at.subject, i2d_X509_NAME, X509_REQ_get_subject_name(x));
    SAME("subjectPKInfo", at.subject_pk_info, i2d_X509_PUBKEY, X509_REQ_get_X509_PUBKEY(x));
    compare_name(&at.subject, X509_REQ_get_subject_name(x));
    left = contents(at.attributes);
    for (i = 0; i < X509_REQ_get_attr_count(x) && left.length > 0; i++)
        compare_attribute(&left, X509_REQ_get_attr(x, i));
    same_number("how many attributes", (uint64_t)i + left.length, (uint64_t)X509_REQ_get_attr_count(x));
}

static void compare_single(const der_single_response_at *at, OCSP_SINGLERESP *want)
{
    ASN1_GENERALIZEDTIME *revoked = NULL, *this_update = NULL, *next_update = NULL;
    int reason, status = OCSP_single_get0_status(want, &reason, &revoked, &this_update, &next_update);
    SAME("SingleResponse", at->whole, i2d_OCSP_SINGLERESP, want);
    SAME("certID", at->cert_id, i2d_OCSP_CERTID, OCSP_SINGLERESP_get0_id(want));
    same_number("certStatus", at->cert_status_number, (uint64_t)status);
    SAME("thisUpdate", at->this_update, i2d_ASN1_GENERALIZEDTIME, this_update);
    same_number("thisUpdate", at->this_update_seconds, seconds(this_update));
    same_number("nextUpdate", at->next_update_seconds, next_update == NULL ? 0 : seconds(next_update));
    same_number("revocationTime", at->revocation_time_seconds, revoked == NULL ? 0 : seconds(revoked));
    absent("nextUpdate", at->next_update, next_update == NULL);
    absent("singleExtensions", at->single_extensions, OCSP_SINGLERESP_get_ext_count(want) == 0);
}

static void compare_basic(OCSP_BASICRESP *x)
{
    der_basic_ocsp_response_at at;
    der_fault fault;
    der_place left;
    int i = 0, count = OCSP_resp_count(x);
    same_number("answer", der_basic_ocsp_response(octets, len, &at, &fault), 0);
    SAME("tbsResponseData", at.tbs_response_data, i2d_OCSP_RESPDATA, OCSP_resp_get0_respdata(x));
    SAME("signatureAlgorithm", at.signature_algorithm, i2d_X509_ALGOR, OCSP_resp_get0_tbs_sigalg(x));
    SAME("signature", at.signature, i2d_ASN1_BIT_STRING, OCSP_resp_get0_signature(x));
    absent("certs", at.certs, sk_X509_num(OCSP_resp_get0_certs(x)) <= 0);
    SAME("producedAt", at.produced_at, i2d_ASN1_GENERALIZEDTIME, OCSP_resp_get0_produced_at(x));
    same_number("producedAt", at.produced_at_seconds, seconds(OCSP_resp_get0_produced_at(x)));
    left = der_items(octets, len, &at.responses);
    for (; left.length > 0 && i < count; i++) {
        der_single_response_at single;
        if (der_next_single_response(octets, len, &left, &single, &fault) != 0)
            break;
        compare_single(&single, OCSP_resp_get0(x, i));
    }
    same_number("how many answers", (uint64_t)i + left.length, (uint64_t)count);
}

static void compare_status(OCSP_RESPONSE *x)
{
    der_ocsp_response_at at;
    der_fault fault;
    der_place inner;
    OCSP_BASICRESP *basic = OCSP_response_get1_basic(x);
    same_number("answer", der_ocsp_response(octets, len, &at, &fault), 0);
    same_number("responseStatus", (uint64_t)at.response_status_number, (uint64_t)OCSP_response_status(x));
    absent("responseBytes", at.response_bytes, basic == NULL);
    if (basic == NULL)
        return;
    SAME("responseType", at.response_type, i2d_ASN1_OBJECT, OBJ_nid2obj(NID_id_pkix_OCSP_basic));
    inner = contents(at.response);
    octets += inner.offset;
    len = inner.length;
    compare_basic(basic);
    OCSP_BASICRESP_free(basic);
}

static void compare_signer(const der_signer_info_at *at, CMS_SignerInfo *want)
{
    X509_ALGOR *digest, *algorithm;
    ASN1_OCTET_STRING *key = NULL;
    X509_NAME *issuer = NULL;
    ASN1_INTEGER *serial = NULL;
    der_place left = der_items(octets, len, &at->signed_attrs), front = contents(at->sid);
    int i;
    front.length = 0;
    CMS_SignerInfo_get0_algs(want, NULL, NULL, &digest, &algorithm);
    SAME("digestAlgorithm", at->digest_algorithm, i2d_X509_ALGOR, digest);
    SAME("signatureAlgorithm", at->signature_algorithm, i2d_X509_ALGOR, algorithm);
    SAME("signature", at->signature, i2d_ASN1_OCTET_STRING, CMS_SignerInfo_get0_signature(want));
    CMS_SignerInfo_get0_signer_id(want, &key, &issuer, &serial);
    same_number("version", at->version_number, key == NULL ? 1 : 3);
    if (key != NULL)
        same_string("subjectKeyIdentifier", contents(at->sid), key);
    else
        SAME("issuer", der_next_encoding(octets, len, &front), i2d_X509_NAME, issuer);
    for (i = 0; i < CMS_signed_get_attr_count(want) && left.length > 0; i++)
        compare_attribute(&left, CMS_signed_get_attr(want, i));
    same_number("how many signed attributes", (uint64_t)i + left.length, (uint64_t)i);
    absent("unsignedAttrs", at->unsigned_attrs, CMS_unsigned_get_attr_count(want) <= 0);
}

static void compare_signed(CMS_ContentInfo *x)
{
    der_content_info_at info;
    der_signed_data_at at;
    der_fault fault;
    der_place left;
    ASN1_OCTET_STRING **content = CMS_get0_content(x);
    STACK_OF(CMS_SignerInfo) *signers = CMS_get0_SignerInfos(x);
    int i = 0;
    same_number("answer", der_content_info(octets, len, &info, &fault), 0);
    SAME("contentType", info.content_type, i2d_ASN1_OBJECT, CMS_get0_type(x));
    left = contents(info.content);
    octets += left.offset;
    len = left.length;
    same_number("answer", der_signed_data(octets, len, &at, &fault), 0);
    SAME("eContentType", at.e_content_type, i2d_ASN1_OBJECT, CMS_get0_eContentType(x));
    absent("eContent", at.e_content, *content == NULL);
    if (*content != NULL)
        SAME("eContent", contents(at.e_content), i2d_ASN1_OCTET_STRING, *content);
    left = der_items(octets, len, &at.signer_infos);
    for (; left.length > 0 && i < sk_CMS_SignerInfo_num(signers); i++) {
        der_signer_info_at signer;
        if (der_next_signer_info(octets, len, &left, &signer, &fault) != 0)
            break;
        compare_signer(&signer, sk_CMS_SignerInfo_value(signers, i));
    }
    same_number("how many signers", (uint64_t)i + left.length, (uint64_t)sk_CMS_SignerInfo_num(signers));
}

static void compare_names(const X509 *x)
{
    der_certificate_at at;
    der_fault fault;
    same_number("answer", der_certificate(octets, len, &at, &fault), 0);
    compare_name(&at.issuer, X509_get_issuer_name(x));
    compare_name(&at.subject, X509_get_subject_name(x));
}

/* reads a message by OpenSSL, and compares it where that takes it; and its encoding by the name of its type */
#define COMPARE(name, type, d2i, call, release)  \
    do {                                         \
        type *x = d2i(NULL, &p, (long)len);      \
        compare_canonical(name);                 \
        if (x != NULL)                           \
            call(x);                             \
        else                                     \
            same_number("read by OpenSSL", 0, 1); \
        release(x);                              \
    } while (0)

static void compare(const char *name)
{
    const unsigned char *p = octets;
    messages++;
    if (strcmp(name, "CERTIFICATE") == 0)
        COMPARE("cert", X509, d2i_X509, compare_names, X509_free);
    else if (strcmp(name, "CERTIFICATE REQUEST") == 0)
        COMPARE("request", X509_REQ, d2i_X509_REQ, compare_request, X509_REQ_free);
    else if (strcmp(name, "OCSP RESPONSE") == 0)
        COMPARE("ocspresponse", OCSP_RESPONSE, d2i_OCSP_RESPONSE, compare_status, OCSP_RESPONSE_free);
    else if (strcmp(name, "CMS") == 0)
        COMPARE("contentinfo", CMS_ContentInfo, d2i_CMS_ContentInfo, compare_signed, CMS_ContentInfo_free);
    else
        messages--;
}

int main(int argc, char **argv)
{
    return compare_files(argc - 1, argv + 1);
}
