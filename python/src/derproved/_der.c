/* The calls of libder_c for Python. A class for each message: its objects have the octets, and what the library says of
 * them. derproved/__init__.py derives its classes from these, and names the fields. */
#include "classes.h"

/* What a call finds in octets, as a memoryview. */
static PyObject *found_in(PyObject *octets, der_place (*find)(const uint8_t *octets, size_t len))
{
    der_place place;
    PyObject *view = search(octets, find, &place), *found;
    if (view == NULL)
        return NULL;
    found = PySequence_GetSlice(view, place.offset, (Py_ssize_t)place.offset + place.length);
    Py_DECREF(view);
    return found;
}

static PyObject *contents(PyObject *module, PyObject *octets)
{
    (void)module;
    return found_in(octets, contents_of_all);
}

static PyObject *signed_octets(PyObject *module, PyObject *octets)
{
    (void)module;
    return found_in(octets, der_signed_octets);
}

/* A call that reads octets and writes a number. */
#define NUMBER(name, type)                                                \
    static PyObject *name(PyObject *module, PyObject *argument)           \
    {                                                                     \
        Py_buffer view;                                                   \
        der_fault fault;                                                  \
        type number = 0;                                                  \
        uint32_t answer;                                                  \
        (void)module;                                                     \
        if (PyObject_GetBuffer(argument, &view, PyBUF_SIMPLE) != 0)       \
            return NULL;                                                  \
        answer = der_##name(view.buf, (size_t)view.len, &number, &fault); \
        PyBuffer_Release(&view);                                          \
        return answer != 0 ? refuse(&fault) : PyLong_FromUnsignedLongLong(number); \
    }

NUMBER(check_rfc5280, uint64_t)
NUMBER(check_rfc5280_list, uint64_t)
NUMBER(unsigned_integer, uint64_t)
NUMBER(fractional_time, uint64_t)
NUMBER(named_bits, uint32_t)

/* The kind of a GeneralName, and the contents octets. */
static PyObject *general_name(PyObject *module, PyObject *argument)
{
    Py_buffer view;
    der_fault fault;
    uint32_t number = 0, answer;
    PyObject *value;
    (void)module;
    if (PyObject_GetBuffer(argument, &view, PyBUF_SIMPLE) != 0)
        return NULL;
    answer = der_general_name(view.buf, (size_t)view.len, &number, &fault);
    PyBuffer_Release(&view);
    if (answer != 0)
        return refuse(&fault);
    value = found_in(argument, contents_of_all);
    return value == NULL ? NULL : Py_BuildValue("(kN)", (unsigned long)number, value);
}

/* (`time` is a function of the C library) */
#define der_seconds der_time
NUMBER(seconds, uint64_t)

/* the canonical encoding of what octets encode as the type with a name: a room of as many octets serves */
static PyObject *canonical(PyObject *module, PyObject *arguments)
{
    const char *name;
    Py_ssize_t name_len;
    Py_buffer view;
    PyObject *found;
    der_fault fault;
    size_t written = 0;
    uint32_t answer;
    char *room;
    (void)module;
    if (!PyArg_ParseTuple(arguments, "s#y*", &name, &name_len, &view))
        return NULL;
    room = PyMem_Malloc(view.len > 0 ? (size_t)view.len : 1);
    if (room == NULL) {
        PyBuffer_Release(&view);
        return PyErr_NoMemory();
    }
    answer = der_canonical((const uint8_t *)name, (size_t)name_len, view.buf, (size_t)view.len, (uint8_t *)room,
                           (size_t)view.len, &written, &fault);
    found = answer != 0 ? refuse(&fault) : PyBytes_FromStringAndSize(room, (Py_ssize_t)written);
    PyMem_Free(room);
    PyBuffer_Release(&view);
    return found;
}

/* A number as its text. */
#define TEXT(name)                                                                       \
    static PyObject *name(PyObject *module, PyObject *argument)                          \
    {                                                                                    \
        unsigned long number = PyLong_AsUnsignedLong(argument);                          \
        (void)module;                                                                    \
        return PyErr_Occurred() ? NULL : PyUnicode_FromString(der_##name((uint32_t)number)); \
    }

TEXT(number_text)
TEXT(step_text)
TEXT(list_step_text)
TEXT(ocsp_step_text)

static PyMethodDef methods[] = {
    {"field", place_field, METH_VARARGS, "A field that is always there: index of its place, documentation."},
    {"optional", optional_field, METH_VARARGS, "The same of one that may be absent, and is then None."},
    {"contents_field", contents_field, METH_VARARGS, "The contents octets of a field: index of its place, documentation."},
    {"identifier_field", identifier_field, METH_VARARGS, "The same as bytes."},
    {"number", number_field, METH_VARARGS, "A number: its index, documentation, what is added to it."},
    {"flag", flag_field, METH_VARARGS, "Whether a number is 1: its index, documentation."},
    {"moment", moment_field, METH_VARARGS, "A datetime: index of its number, documentation."},
    {"optional_moment", optional_moment_field, METH_VARARGS,
     "The same of one that may be absent, and is then None: index of its number, documentation, index of its place."},
    {"items", items_field, METH_VARARGS,
     "What stands one behind another: index of the place, documentation, how many headers are before it, the class."},
    {"items_of", items_of, METH_VARARGS, "What stands one behind another in an encoding, and the class of it."},
    {"name_attributes", name_attributes, METH_VARARGS, "The same in the parts of a name."},
    {"check_rfc5280", check_rfc5280, METH_O, "The rules that a certificate breaks, as bits."},
    {"check_rfc5280_list", check_rfc5280_list, METH_O, "The rules that a list breaks, as bits."},
    {"unsigned_integer", unsigned_integer, METH_O, "The number of an INTEGER."},
    {"seconds", seconds, METH_O, "The seconds of a Time."},
    {"fractional_time", fractional_time, METH_O, "The seconds of a GeneralizedTime that may have a fraction."},
    {"named_bits", named_bits, METH_O, "The bits 0 to 15 of a BIT STRING with named bits."},
    {"general_name", general_name, METH_O, "The number of the tag of a GeneralName, and its contents octets."},
    {"encodings", encodings, METH_O, "The encodings in the contents octets."},
    {"canonical", canonical, METH_VARARGS, "The canonical encoding by the name of a type."},
    {"write_message", write_message, METH_VARARGS, "A message: the name of its call, the octets of its fields, their lengths, numbers."},
    {"write_octets", write_octets, METH_VARARGS, "A value of octets: the name of its call, the octets."},
    {"write_seconds", write_seconds, METH_VARARGS, "A date: the name of its call, the seconds."},
    {"write_encoding", write_encoding, METH_VARARGS, "An encoding: an identifier octet, contents octets."},
    {"write_name_attribute", write_name_attribute, METH_VARARGS, "An attribute of a name: the contents octets of its type, a text."},
    {"check_path", check_path, METH_VARARGS,
     "A chain: the octets of four inputs and of certificates, their lengths, a moment, three flags."},
    {"list_status", list_status, METH_VARARGS, "The octets of a certificate and of a list, their lengths, a moment."},
    {"revocation_status", revocation_status, METH_VARARGS,
     "The octets of a certificate and of lists, their lengths, a moment, whether deltas are used."},
    {"ocsp_status", ocsp_status, METH_VARARGS, "The octets of an answer and of five inputs, their lengths, a moment."},
    {"number_text", number_text, METH_O, "The words of a number."},
    {"step_text", step_text, METH_O, "The section of a step of path validation."},
    {"list_step_text", list_step_text, METH_O, "The section of a step that refuses a list."},
    {"ocsp_step_text", ocsp_step_text, METH_O, "The section of a step that refuses an answer."},
    {"contents", contents, METH_O, "The contents octets."},
    {"signed_octets", signed_octets, METH_O, "What a signature covers."},
    {NULL, NULL, 0, NULL},
};

static struct PyModuleDef definition = {
    PyModuleDef_HEAD_INIT, "_der", "The calls of libder_c.", -1, methods, NULL, NULL, NULL, NULL,
};

PyTypeObject *add_class(PyObject *module, PyType_Spec *spec, PyTypeObject *base)
{
    PyObject *class = PyType_FromSpecWithBases(spec, (PyObject *)base);
    if (class != NULL && PyModule_AddType(module, (PyTypeObject *)class) != 0)
        Py_CLEAR(class);
    return (PyTypeObject *)class;
}

PyMODINIT_FUNC PyInit__der(void)
{
    PyObject *module;
    if (der_abi_version() != DER_ABI_VERSION)
        return PyErr_Format(PyExc_ImportError, "libder_c has version %lu of its interface, and derproved is for version %d",
                            (unsigned long)der_abi_version(), DER_ABI_VERSION);
    module = PyModule_Create(&definition);
    if (module != NULL && (add_messages(module) != 0 || add_items(module) != 0 || add_fields(module) != 0))
        Py_CLEAR(module);
    return module;
}
