/* Encodings that are written: messages from their fields, and values. Each call is asked first how many octets it writes. */
#include "classes.h"

/* What a call needs besides a buffer. */
typedef struct given {
    const uint8_t *octets, *text;
    size_t len, text_len;
    uint64_t number;
    told at;
} given;

typedef uint32_t (*writer)(const given *of, uint8_t *buffer, size_t size, size_t *written, der_fault *fault);

/* A call by its name; of a message, how many places and numbers its struct has. */
typedef struct named {
    const char *name;
    writer call;
    unsigned places, numbers;
} named;

/* ---- messages */

/* written by tools/bindings: writing calls */
#define MESSAGES_BUT_WIDENED(A)                                \
    A(tbs_certificate, certificate, 13, 3)                     \
    A(certificate, certificate, 13, 3)                         \
    A(tbs_cert_list, certificate_list, 10, 3)                  \
    A(certificate_list, certificate_list, 10, 3)               \
    A(revoked_certificate, revoked_certificate, 4, 1)          \
    A(certification_request_info, certification_request, 7, 0) \
    A(certification_request, certification_request, 7, 0)      \
    A(ocsp_response, ocsp_response, 4, 1)                      \
    A(response_data, basic_ocsp_response, 9, 1)                \
    A(basic_ocsp_response, basic_ocsp_response, 9, 1)          \
    A(single_response, single_response, 6, 4)                  \
    A(ocsp_request, ocsp_request, 2, 0)                        \
    A(tbs_request, tbs_request, 4, 0)                          \
    A(request, request, 2, 0)                                  \
    A(cert_id, cert_id, 4, 0)
#define MESSAGES(A)               \
    MESSAGES_BUT_WIDENED(A)       \
    A(extension, extension, 4, 1)
/* end of writing calls */

static uint32_t message_extension(const given *of, uint8_t *buffer, size_t size, size_t *written, der_fault *fault)
{
    der_extension_at at;
    memset(&at, 0, sizeof at);
    memcpy(&at, of->at.extension.places, sizeof of->at.extension.places);
    at.is_critical = (uint32_t)of->at.extension.is_critical;
    return der_write_extension(of->octets, of->len, &at, buffer, size, written, fault);
}

#define WRITES(name, of_struct, places, numbers)                                                                     \
    static uint32_t message_##name(const given *of, uint8_t *buffer, size_t size, size_t *written, der_fault *fault) \
    {                                                                                                                \
        return der_write_##name(of->octets, of->len, &of->at.of_struct, buffer, size, written, fault);               \
    }
MESSAGES_BUT_WIDENED(WRITES)

#define NAMED(name, of_struct, places, numbers) {#name, message_##name, places, numbers},
static const named messages[] = {MESSAGES(NAMED){NULL, NULL, 0, 0}};

/* ---- values */

#define OF_OCTETS(A) A(bit_string) A(named_bits) A(unsigned_integer) A(ed25519_key) A(p256_key) A(rsa_key)
#define OF_SECONDS(A) A(time) A(generalized_time)

#define WRITES_OCTETS(name)                                                                                        \
    static uint32_t value_##name(const given *of, uint8_t *buffer, size_t size, size_t *written, der_fault *fault) \
    {                                                                                                              \
        return der_write_##name(of->octets, of->len, buffer, size, written, fault);                                \
    }
OF_OCTETS(WRITES_OCTETS)

#define WRITES_SECONDS(name)                                                                                       \
    static uint32_t value_##name(const given *of, uint8_t *buffer, size_t size, size_t *written, der_fault *fault) \
    {                                                                                                              \
        return der_write_##name(of->number, buffer, size, written, fault);                                         \
    }
OF_SECONDS(WRITES_SECONDS)

static uint32_t value_encoding(const given *of, uint8_t *buffer, size_t size, size_t *written, der_fault *fault)
{
    return der_write_encoding((uint32_t)of->number, of->octets, of->len, buffer, size, written, fault);
}

static uint32_t value_name_attribute(const given *of, uint8_t *buffer, size_t size, size_t *written, der_fault *fault)
{
    return der_write_name_attribute(of->octets, of->len, of->text, of->text_len, buffer, size, written, fault);
}

#define VALUE(name) {#name, value_##name, 0, 0},
static const named of_octets[] = {OF_OCTETS(VALUE){NULL, NULL, 0, 0}};
static const named of_seconds[] = {OF_SECONDS(VALUE){NULL, NULL, 0, 0}};

/* ---- the functions of the module */

static const named *find(const named *calls, const char *name)
{
    for (; calls->name != NULL; calls++)
        if (strcmp(calls->name, name) == 0)
            return calls;
    PyErr_Format(PyExc_ValueError, "no call is der_write_%s", name);
    return NULL;
}

/* The octets that a call writes. */
static PyObject *written_by(writer call, const given *of)
{
    der_fault fault;
    size_t length = 0;
    uint32_t answer = call(of, NULL, 0, &length, &fault);
    PyObject *found;
    if (answer != DER_SHORT_BUFFER)
        return refuse(&fault);
    found = PyBytes_FromStringAndSize(NULL, (Py_ssize_t)length);
    if (found == NULL)
        return NULL;
    answer = call(of, (uint8_t *)PyBytes_AsString(found), length, &length, &fault);
    if (answer == 0)
        return found;
    Py_DECREF(found);
    return refuse(&fault);
}

/* Numbers of a tuple, which has so many. */
static int take_numbers(PyObject *tuple, unsigned count, uint64_t *numbers)
{
    unsigned i;
    if (PyTuple_Size(tuple) != (Py_ssize_t)count) {
        PyErr_SetString(PyExc_ValueError, "another count of fields");
        return -1;
    }
    for (i = 0; i < count; i++) {
        numbers[i] = PyLong_AsUnsignedLongLongMask(PyTuple_GetItem(tuple, i));
        if (PyErr_Occurred())
            return -1;
    }
    return 0;
}

/* The struct of a message: fields stand one after another in the octets, and those that are absent have length 0. */
static int put_fields(const named *of, PyObject *lengths, PyObject *numbers, given *to)
{
    uint64_t found[sizeof(told) / sizeof(uint64_t)], offset = 0;
    der_place place;
    unsigned i;
    if (take_numbers(lengths, of->places, found) != 0)
        return -1;
    for (i = 0; i < of->places; i++) {
        if (found[i] > UINT32_MAX || offset + found[i] > UINT32_MAX) {
            PyErr_SetString(PyExc_OverflowError, "the fields have more than 4294967295 octets");
            return -1;
        }
        place.offset = (uint32_t)offset;
        place.length = (uint32_t)found[i];
        memcpy((char *)&to->at + i * sizeof place, &place, sizeof place);
        offset += found[i];
    }
    if (take_numbers(numbers, of->numbers, found) != 0)
        return -1;
    memcpy((char *)&to->at + of->places * sizeof place, found, of->numbers * sizeof found[0]);
    return 0;
}

PyObject *write_message(PyObject *module, PyObject *arguments)
{
    const char *name;
    Py_buffer octets;
    PyObject *lengths, *numbers, *found = NULL;
    const named *call;
    given of;
    (void)module;
    if (!PyArg_ParseTuple(arguments, "sy*O!O!", &name, &octets, &PyTuple_Type, &lengths, &PyTuple_Type, &numbers))
        return NULL;
    memset(&of, 0, sizeof of);
    of.octets = octets.buf;
    of.len = (size_t)octets.len;
    call = find(messages, name);
    if (call != NULL && put_fields(call, lengths, numbers, &of) == 0)
        found = written_by(call->call, &of);
    PyBuffer_Release(&octets);
    return found;
}

PyObject *write_octets(PyObject *module, PyObject *arguments)
{
    const char *name;
    Py_buffer octets;
    PyObject *found;
    const named *call;
    given of;
    (void)module;
    if (!PyArg_ParseTuple(arguments, "sy*", &name, &octets))
        return NULL;
    of.octets = octets.buf;
    of.len = (size_t)octets.len;
    call = find(of_octets, name);
    found = call == NULL ? NULL : written_by(call->call, &of);
    PyBuffer_Release(&octets);
    return found;
}

PyObject *write_seconds(PyObject *module, PyObject *arguments)
{
    const char *name;
    unsigned long long seconds;
    const named *call;
    given of;
    (void)module;
    if (!PyArg_ParseTuple(arguments, "sK", &name, &seconds))
        return NULL;
    of.number = seconds;
    call = find(of_seconds, name);
    return call == NULL ? NULL : written_by(call->call, &of);
}

PyObject *write_encoding(PyObject *module, PyObject *arguments)
{
    Py_buffer contents;
    unsigned char identifier;
    PyObject *found;
    given of;
    (void)module;
    if (!PyArg_ParseTuple(arguments, "by*", &identifier, &contents))
        return NULL;
    of.number = identifier;
    of.octets = contents.buf;
    of.len = (size_t)contents.len;
    found = written_by(value_encoding, &of);
    PyBuffer_Release(&contents);
    return found;
}

PyObject *write_name_attribute(PyObject *module, PyObject *arguments)
{
    Py_buffer type;
    const char *text;
    Py_ssize_t text_len;
    PyObject *found;
    given of;
    (void)module;
    if (!PyArg_ParseTuple(arguments, "y*s#", &type, &text, &text_len))
        return NULL;
    of.octets = type.buf;
    of.len = (size_t)type.len;
    of.text = (const uint8_t *)text;
    of.text_len = (size_t)text_len;
    found = written_by(value_name_attribute, &of);
    PyBuffer_Release(&type);
    return found;
}
