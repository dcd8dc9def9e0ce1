/* What the files of the module _der share: messages, what stands one behind another, and fields. */
#ifndef CLASSES_H
#define CLASSES_H
#define PY_SSIZE_T_CLEAN
#include <Python.h>
#include <stdbool.h>
#include <string.h>

#include <barleypulley/der.h>

/* An extension has a number of 32 bits behind its places, which is widened. */
typedef struct extension_told {
    der_place places[4];
    uint64_t is_critical;
} extension_told;

/* What the library says of a message: places, and behind them numbers of 64 bits. */
typedef union told {
/* written by tools/bindings: structs */
    der_certificate_at certificate;
    extension_told extension;
    der_certificate_list_at certificate_list;
    der_revoked_certificate_at revoked_certificate;
    der_subject_public_key_info_at subject_public_key_info;
    der_private_key_info_at private_key_info;
    der_certification_request_at certification_request;
    der_ocsp_response_at ocsp_response;
    der_basic_ocsp_response_at basic_ocsp_response;
    der_single_response_at single_response;
    der_content_info_at content_info;
    der_signed_data_at signed_data;
    der_signer_info_at signer_info;
    der_attribute_type_and_value_at attribute_type_and_value;
    der_attribute_at attribute;
    der_algorithm_identifier_at algorithm_identifier;
    der_rsassa_pss_params_at rsassa_pss_params;
    der_ecdsa_sig_value_at ecdsa_sig_value;
    der_pbes2_params_at pbes2_params;
    der_pbkdf2_params_at pbkdf2_params;
    der_rsa_public_key_at rsa_public_key;
    der_rsa_private_key_at rsa_private_key;
    der_ec_private_key_at ec_private_key;
    der_encrypted_private_key_info_at encrypted_private_key_info;
    der_authority_key_identifier_at authority_key_identifier;
    der_policy_information_at policy_information;
    der_policy_qualifier_info_at policy_qualifier_info;
    der_policy_mapping_at policy_mapping;
    der_basic_constraints_at basic_constraints;
    der_name_constraints_at name_constraints;
    der_general_subtree_at general_subtree;
    der_policy_constraints_at policy_constraints;
    der_distribution_point_at distribution_point;
    der_access_description_at access_description;
    der_issuing_distribution_point_at issuing_distribution_point;
    der_ocsp_request_at ocsp_request;
    der_tbs_request_at tbs_request;
    der_request_at request;
    der_cert_id_at cert_id;
    der_issuer_and_serial_number_at issuer_and_serial_number;
    der_enveloped_data_at enveloped_data;
    der_encrypted_content_info_at encrypted_content_info;
    der_key_trans_recipient_info_at key_trans_recipient_info;
    der_encrypted_data_at encrypted_data;
    der_signing_certificate_v2_at signing_certificate_v2;
    der_ess_cert_idv2_at ess_cert_idv2;
    der_time_stamp_req_at time_stamp_req;
    der_message_imprint_at message_imprint;
    der_time_stamp_resp_at time_stamp_resp;
    der_pki_status_info_at pki_status_info;
    der_tst_info_at tst_info;
    der_accuracy_at accuracy;
    der_pfx_at pfx;
    der_mac_data_at mac_data;
    der_digest_info_at digest_info;
    der_safe_bag_at safe_bag;
    der_cert_bag_at cert_bag;
/* end of structs */
} told;

/* A kind of messages, which is a class. */
typedef struct kind {
    const char *name, *doc;
    const char *arguments; /* as PyArg_ParseTupleAndKeywords reads them */
    newfunc make;
    uint32_t (*read)(const uint8_t *octets, size_t len, told *out, der_fault *fault);
    unsigned places, numbers;
    bool is_all; /* all of the octets are the message; else it stands at their front, and its first place is it */
    PyTypeObject *class;
} kind;

typedef struct message {
    PyObject_HEAD
    const kind *kind;
    PyObject *octets; /* bytes, or a plain memoryview, which bytes become when a field is asked for */
    Py_ssize_t start, length; /* of the message in the octets */
    der_place places[];       /* counted from the start; the numbers stand behind them */
} message;

static_assert(offsetof(message, places) % sizeof(uint64_t) == 0, "numbers stand where they may");

/* A place whose offset counts from so many octets earlier. */
static inline der_place moved(uint32_t before, der_place place)
{
    place.offset += before;
    return place;
}

/* Moves the start of a place past so many octets. */
static inline void take(der_place *left, uint32_t length)
{
    left->offset += length;
    left->length -= length;
}

/* octets.c: a memoryview is plain that has items of one octet, in one dimension */

/* Puts a plain memoryview in the place of a memoryview. */
int make_plain(PyObject **view);

/* A plain memoryview of octets, and the place that a call finds in them. */
PyObject *search(PyObject *octets, der_place (*find)(const uint8_t *octets, size_t len), der_place *place);

/* The contents octets of what all of the octets encode. */
der_place contents_of_all(const uint8_t *octets, size_t len);

/* message.c */

extern PyTypeObject *Message;

/* Raises Error: the number, the words, and the position or None. */
PyObject *refuse(const der_fault *fault);

/* The kind of a class. */
const kind *kind_of(PyObject *class);

/* Reads the message that so many octets behind a start are, or that stands at their front. `first` is where the octets are. */
PyObject *read_at(const kind *of, PyObject *class, PyObject *octets, const uint8_t *first, Py_ssize_t start, Py_ssize_t length);

/* The plain memoryview of a message's octets, which the message keeps. */
PyObject *view_of(message *of);

int add_messages(PyObject *module);

/* items.c */

/* What stands one behind another in a plain memoryview, of a kind and a class of that; or, of a name, in the parts of it.
 * With no kind, encodings. */
PyObject *make_items(const kind *of, PyObject *class, PyObject *view, der_place left, der_place parts);

PyObject *items_of(PyObject *module, PyObject *arguments);
PyObject *name_attributes(PyObject *module, PyObject *arguments);
PyObject *encodings(PyObject *module, PyObject *octets);

int add_items(PyObject *module);

/* field.c */

PyObject *place_field(PyObject *module, PyObject *arguments);
PyObject *optional_field(PyObject *module, PyObject *arguments);
PyObject *contents_field(PyObject *module, PyObject *arguments);
PyObject *identifier_field(PyObject *module, PyObject *arguments);
PyObject *number_field(PyObject *module, PyObject *arguments);
PyObject *flag_field(PyObject *module, PyObject *arguments);
PyObject *moment_field(PyObject *module, PyObject *arguments);
PyObject *optional_moment_field(PyObject *module, PyObject *arguments);
PyObject *items_field(PyObject *module, PyObject *arguments);

int add_fields(PyObject *module);

/* writing.c */

/* A message: the name of its call, the octets of its fields, their lengths, and numbers. */
PyObject *write_message(PyObject *module, PyObject *arguments);

/* A value: the name of its call and its octets, or its seconds; an identifier octet and contents octets; a type and a text. */
PyObject *write_octets(PyObject *module, PyObject *arguments);
PyObject *write_seconds(PyObject *module, PyObject *arguments);
PyObject *write_encoding(PyObject *module, PyObject *arguments);
PyObject *write_name_attribute(PyObject *module, PyObject *arguments);

/* path.c */

/* The place of a number of octets behind another place. */
int put_place(PyObject *length, der_place *last, der_place *place);

/* The octets of four inputs and of certificates, their lengths, a moment and three flags. */
PyObject *check_path(PyObject *module, PyObject *arguments);

/* status.c */

/* The octets of a certificate and of a list; or of an answer and five inputs; their lengths, and a moment; or of a certificate and
 * of lists, and then whether deltas are used. */
PyObject *list_status(PyObject *module, PyObject *arguments);
PyObject *revocation_status(PyObject *module, PyObject *arguments);
PyObject *ocsp_status(PyObject *module, PyObject *arguments);

/* _der.c */

/* Adds a class that derives from another, or from object where that is NULL. */
PyTypeObject *add_class(PyObject *module, PyType_Spec *spec, PyTypeObject *base);

#endif
