/* Messages: octets, and what the library says of them. A message is not made before it was read, and does not change. */
#include "classes.h"

PyTypeObject *Message;
static PyObject *Error;

PyObject *refuse(const der_fault *fault)
{
    PyObject *position = fault->is_placed ? PyLong_FromUnsignedLong(fault->position) : Py_NewRef(Py_None);
    PyObject *arguments;
    if (position == NULL)
        return NULL;
    arguments = Py_BuildValue("(ksN)", (unsigned long)fault->number, der_number_text(fault->number), position);
    if (arguments != NULL)
        PyErr_SetObject(Error, arguments);
    Py_XDECREF(arguments);
    return NULL;
}

/* Finds the class Error, of _error.py. */
static int find_error(PyObject *module)
{
    PyObject *own = PyImport_ImportModule("derproved._error");
    Error = own == NULL ? NULL : PyObject_GetAttrString(own, "Error");
    Py_XDECREF(own);
    return Error == NULL ? -1 : PyModule_AddObjectRef(module, "Error", Error);
}

static size_t told_size(const kind *of)
{
    return of->places * sizeof(der_place) + of->numbers * sizeof(uint64_t);
}

PyObject *read_at(const kind *of, PyObject *class, PyObject *octets, const uint8_t *first, Py_ssize_t start, Py_ssize_t length)
{
    told said;
    der_fault fault;
    message *made;
    if (of->read(first + start, (size_t)length, &said, &fault) != 0)
        return refuse(&fault);
    made = (message *)PyType_GenericAlloc((PyTypeObject *)class, 0);
    if (made == NULL)
        return NULL;
    made->kind = of;
    made->octets = Py_NewRef(octets);
    made->start = start;
    memcpy(made->places, &said, told_size(of));
    made->length = of->is_all ? length : (Py_ssize_t)made->places[0].length;
    return (PyObject *)made;
}

/* Reads a message from octets, which become those of the message. */
static PyObject *read_all(const kind *of, PyTypeObject *class, PyObject *octets)
{
    Py_buffer seen;
    PyObject *made;
    if (PyObject_GetBuffer(octets, &seen, PyBUF_SIMPLE) != 0)
        return NULL;
    made = read_at(of, (PyObject *)class, octets, seen.buf, 0, seen.len);
    PyBuffer_Release(&seen);
    return made;
}

static PyObject *only_argument(const kind *of, PyObject *arguments, PyObject *named)
{
    static char *names[] = {"octets", NULL};
    PyObject *argument;
    if (named == NULL && PyTuple_Size(arguments) == 1)
        return PyTuple_GetItem(arguments, 0);
    return PyArg_ParseTupleAndKeywords(arguments, named, of->arguments, names, &argument) ? argument : NULL;
}

static PyObject *make_message(const kind *of, PyTypeObject *class, PyObject *arguments, PyObject *named)
{
    PyObject *argument = only_argument(of, arguments, named), *view, *made;
    if (argument == NULL || PyBytes_CheckExact(argument))
        return argument == NULL ? NULL : read_all(of, class, argument);
    view = PyMemoryView_FromObject(argument);
    made = view == NULL ? NULL : read_all(of, class, view);
    Py_XDECREF(view);
    if (made != NULL && make_plain(&((message *)made)->octets) != 0)
        Py_CLEAR(made);
    return made;
}

PyObject *view_of(message *of)
{
    PyObject *view, *octets = of->octets;
    if (!PyBytes_CheckExact(octets))
        return octets;
    view = PyMemoryView_FromObject(octets);
    if (view == NULL)
        return NULL;
    if (of->octets == octets) {
        of->octets = view;
        Py_DECREF(octets);
    } else { /* it was asked for while memory was taken */
        Py_DECREF(view);
    }
    return of->octets;
}

static PyObject *bytes_of(PyObject *self, PyObject *nothing)
{
    message *of = (message *)self;
    Py_buffer seen;
    PyObject *bytes;
    (void)nothing;
    if (PyObject_GetBuffer(of->octets, &seen, PyBUF_SIMPLE) != 0)
        return NULL;
    bytes = PyBytes_FromStringAndSize((const char *)seen.buf + of->start, of->length);
    PyBuffer_Release(&seen);
    return bytes;
}

static PyObject *arguments_of(PyObject *self, PyObject *nothing)
{
    PyObject *bytes = bytes_of(self, nothing);
    return bytes == NULL ? NULL : Py_BuildValue("(N)", bytes);
}

/* Messages of one class are equal if their octets are. */
static PyObject *compare(PyObject *self, PyObject *other, int operation)
{
    PyObject *own, *others, *result;
    if ((operation != Py_EQ && operation != Py_NE) || Py_TYPE(self) != Py_TYPE(other))
        return Py_NewRef(Py_NotImplemented);
    own = bytes_of(self, NULL);
    others = own == NULL ? NULL : bytes_of(other, NULL);
    result = others == NULL ? NULL : PyObject_RichCompare(own, others, operation);
    Py_XDECREF(own);
    Py_XDECREF(others);
    return result;
}

/* The hash of a message is that of its octets, which must be ones that nobody can write. */
static Py_hash_t hash(PyObject *self)
{
    Py_buffer seen;
    PyObject *bytes;
    Py_hash_t found;
    bool is_written;
    if (PyObject_GetBuffer(((message *)self)->octets, &seen, PyBUF_SIMPLE) != 0)
        return -1;
    is_written = !seen.readonly;
    PyBuffer_Release(&seen);
    if (is_written) {
        PyErr_SetString(PyExc_TypeError, "a message of octets that can be written has no hash");
        return -1;
    }
    bytes = bytes_of(self, NULL);
    found = bytes == NULL ? -1 : PyObject_Hash(bytes);
    Py_XDECREF(bytes);
    return found;
}

static PyObject *represent(PyObject *self)
{
    PyObject *name = PyType_GetName(Py_TYPE(self)), *text;
    text = name == NULL ? NULL : PyUnicode_FromFormat("<%U of %zd octets>", name, ((message *)self)->length);
    Py_XDECREF(name);
    return text;
}

/* What the __init__ of a class that derives from one of these may call: the octets have been read by then. */
static int initialise(PyObject *self, PyObject *arguments, PyObject *named)
{
    (void)self;
    (void)arguments;
    (void)named;
    return 0;
}

static int visit_message(PyObject *self, visitproc visit, void *arg)
{
    Py_VISIT(Py_TYPE(self));
    Py_VISIT(((message *)self)->octets);
    return 0;
}

static void drop_message(PyObject *self)
{
    PyTypeObject *class = Py_TYPE(self);
    PyObject_GC_UnTrack(self);
    Py_XDECREF(((message *)self)->octets);
    PyObject_GC_Del(self);
    Py_DECREF(class);
}

static PyMethodDef methods[] = {
    {"__bytes__", bytes_of, METH_NOARGS, "The octets."},
    {"__getnewargs__", arguments_of, METH_NOARGS, "What a copy is read from: the octets."},
    {NULL, NULL, 0, NULL},
};

static PyType_Slot message_slots[] = {
    {Py_tp_doc, "Octets, and the places of fields in them."},
    {Py_tp_methods, methods},
    {Py_tp_init, initialise},
    {Py_tp_richcompare, compare},
    {Py_tp_hash, hash},
    {Py_tp_repr, represent},
    {Py_tp_traverse, visit_message},
    {Py_tp_dealloc, drop_message},
    {0, NULL},
};

static PyType_Spec message_spec = {
    "derproved._der.Message", sizeof(message), 0,
    Py_TPFLAGS_DEFAULT | Py_TPFLAGS_BASETYPE | Py_TPFLAGS_HAVE_GC | Py_TPFLAGS_DISALLOW_INSTANTIATION, message_slots,
};

/* ---- kinds: the library's name, the class, how many places, how many numbers, and whether all of the octets are it */

/* written by tools/bindings: kinds */
#define ALL_BUT_WIDENED(A)                                              \
    A(certificate, Certificate, 13, 3, true)                            \
    A(certificate_list, CertificateList, 10, 3, true)                   \
    A(revoked_certificate, RevokedCertificate, 4, 1, false)             \
    A(subject_public_key_info, SubjectPublicKeyInfo, 2, 0, true)        \
    A(private_key_info, PrivateKeyInfo, 5, 1, true)                     \
    A(certification_request, CertificationRequest, 7, 0, true)          \
    A(ocsp_response, OcspResponse, 4, 1, true)                          \
    A(basic_ocsp_response, BasicOcspResponse, 9, 1, true)               \
    A(single_response, SingleResponse, 6, 4, false)                     \
    A(content_info, ContentInfo, 2, 0, true)                            \
    A(signed_data, SignedData, 8, 1, true)                              \
    A(signer_info, SignerInfo, 8, 1, false)                             \
    A(attribute_type_and_value, AttributeTypeAndValue, 3, 0, false)     \
    A(attribute, Attribute, 3, 0, false)                                \
    A(algorithm_identifier, AlgorithmIdentifier, 2, 0, true)            \
    A(rsassa_pss_params, RsassaPssParams, 4, 0, true)                   \
    A(ecdsa_sig_value, EcdsaSigValue, 2, 0, true)                       \
    A(pbes2_params, Pbes2Params, 2, 0, true)                            \
    A(pbkdf2_params, Pbkdf2Params, 4, 0, true)                          \
    A(rsa_public_key, RsaPublicKey, 2, 0, true)                         \
    A(rsa_private_key, RsaPrivateKey, 10, 0, true)                      \
    A(ec_private_key, EcPrivateKey, 4, 0, true)                         \
    A(encrypted_private_key_info, EncryptedPrivateKeyInfo, 2, 0, true)  \
    A(authority_key_identifier, AuthorityKeyIdentifier, 3, 0, true)     \
    A(policy_information, PolicyInformation, 2, 0, true)                \
    A(policy_qualifier_info, PolicyQualifierInfo, 2, 0, true)           \
    A(policy_mapping, PolicyMapping, 2, 0, true)                        \
    A(basic_constraints, BasicConstraints, 2, 0, true)                  \
    A(name_constraints, NameConstraints, 2, 0, true)                    \
    A(general_subtree, GeneralSubtree, 3, 0, true)                      \
    A(policy_constraints, PolicyConstraints, 2, 0, true)                \
    A(distribution_point, DistributionPoint, 3, 0, true)                \
    A(access_description, AccessDescription, 2, 0, true)                \
    A(issuing_distribution_point, IssuingDistributionPoint, 6, 0, true) \
    A(ocsp_request, OcspRequest, 2, 0, true)                            \
    A(tbs_request, TbsRequest, 4, 0, true)                              \
    A(request, Request, 2, 0, true)                                     \
    A(cert_id, CertId, 4, 0, true)                                      \
    A(issuer_and_serial_number, IssuerAndSerialNumber, 2, 0, true)      \
    A(enveloped_data, EnvelopedData, 5, 0, true)                        \
    A(encrypted_content_info, EncryptedContentInfo, 3, 0, true)         \
    A(key_trans_recipient_info, KeyTransRecipientInfo, 4, 0, true)      \
    A(encrypted_data, EncryptedData, 3, 0, true)                        \
    A(signing_certificate_v2, SigningCertificateV2, 2, 0, true)         \
    A(ess_cert_idv2, EssCertIdv2, 3, 0, true)                           \
    A(time_stamp_req, TimeStampReq, 6, 0, true)                         \
    A(message_imprint, MessageImprint, 2, 0, true)                      \
    A(time_stamp_resp, TimeStampResp, 2, 0, true)                       \
    A(pki_status_info, PkiStatusInfo, 3, 0, true)                       \
    A(tst_info, TstInfo, 10, 0, true)                                   \
    A(accuracy, Accuracy, 3, 0, true)                                   \
    A(pfx, Pfx, 3, 0, true)                                             \
    A(mac_data, MacData, 3, 0, true)                                    \
    A(digest_info, DigestInfo, 2, 0, true)                              \
    A(safe_bag, SafeBag, 3, 0, true)                                    \
    A(cert_bag, CertBag, 2, 0, true)
#define ALL(A)                           \
    ALL_BUT_WIDENED(A)                   \
    A(extension, Extension, 4, 1, false)
/* end of kinds */

#define CHECK(name, class, places, numbers, is_all)                                                        \
    static_assert(sizeof(((told *)0)->name) == (places) * sizeof(der_place) + (numbers) * sizeof(uint64_t), \
                  "places, then numbers of 64 bits");
ALL(CHECK)

static uint32_t read_extension(const uint8_t *octets, size_t len, told *out, der_fault *fault)
{
    der_extension_at at;
    uint32_t answer = der_extension(octets, len, &at, fault);
    if (answer != 0)
        return answer;
    memcpy(out->extension.places, &at, sizeof out->extension.places);
    out->extension.is_critical = at.is_critical;
    return 0;
}

#define READS(name, class, places, numbers, is_all)                                             \
    static uint32_t read_##name(const uint8_t *octets, size_t len, told *out, der_fault *fault) \
    {                                                                                           \
        return der_##name(octets, len, &out->name, fault);                                      \
    }
ALL_BUT_WIDENED(READS)

#define INDEX(name, class, places, numbers, is_all) index_of_##name,
enum { ALL(INDEX) kind_count };

static kind kinds[kind_count];

#define MAKES(name, class, places, numbers, is_all)                                       \
    static PyObject *make_##name(PyTypeObject *type, PyObject *arguments, PyObject *named) \
    {                                                                                     \
        return make_message(&kinds[index_of_##name], type, arguments, named);             \
    }
ALL(MAKES)

#define KIND(name, class, places, numbers, is_all)                                                                      \
    {"derproved._der." #class, #class "(octets)\n--\n\nWhat der_" #name " says of octets.", "O:" #class, make_##name, \
     read_##name, places, numbers, is_all, NULL},
static kind kinds[kind_count] = {ALL(KIND)};

const kind *kind_of(PyObject *class)
{
    size_t i;
    for (i = 0; PyType_Check(class) && i < kind_count; i++) {
        if (PyType_IsSubtype((PyTypeObject *)class, kinds[i].class))
            return &kinds[i];
    }
    PyErr_SetString(PyExc_TypeError, "a class of messages is required");
    return NULL;
}

static PyTypeObject *add_kind(PyObject *module, const kind *of)
{
    PyType_Slot slots[] = {
        {Py_tp_doc, (void *)of->doc},
        {Py_tp_new, (void *)of->make},
        {Py_tp_dealloc, (void *)drop_message},
        {0, NULL},
    };
    PyType_Spec spec = {
        of->name, (int)(sizeof(message) + told_size(of)), 0, Py_TPFLAGS_DEFAULT | Py_TPFLAGS_BASETYPE, slots,
    };
    return add_class(module, &spec, Message);
}

int add_messages(PyObject *module)
{
    size_t i;
    if (find_error(module) != 0)
        return -1;
    Message = add_class(module, &message_spec, NULL);
    for (i = 0; Message != NULL && i < kind_count; i++) {
        kinds[i].class = add_kind(module, &kinds[i]);
        if (kinds[i].class == NULL)
            return -1;
    }
    return Message == NULL ? -1 : 0;
}
