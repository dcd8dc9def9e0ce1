/* The status of a certificate. The octets of the inputs stand one after another. */
#include "classes.h"

/* The places of octets of so many lengths. */
static int put_inputs(PyObject *lengths, der_place *const *inputs, Py_ssize_t count)
{
    der_place last = {0, 0};
    Py_ssize_t i;
    if (PyTuple_Size(lengths) != count) {
        PyErr_SetString(PyExc_ValueError, "a length of each input is required");
        return -1;
    }
    for (i = 0; i < count; i++)
        if (put_place(PyTuple_GetItem(lengths, i), &last, inputs[i]) != 0)
            return -1;
    return 0;
}

/* The number of a refusal, and the step. */
static PyObject *refusal(uint32_t number, uint32_t step)
{
    return Py_BuildValue("(kk)", (unsigned long)number, (unsigned long)step);
}

/* What a list says: the date, whether the certificate is revoked, the reason, and the reasons of the list; or a refusal. */
PyObject *list_status(PyObject *module, PyObject *arguments)
{
    Py_buffer octets;
    PyObject *lengths, *found = NULL;
    unsigned long long moment;
    der_place certificate, list, *const inputs[] = {&certificate, &list};
    der_list_status_at out;
    uint32_t number;
    (void)module;
    if (!PyArg_ParseTuple(arguments, "y*O!K", &octets, &PyTuple_Type, &lengths, &moment))
        return NULL;
    if (put_inputs(lengths, inputs, 2) == 0) {
        number = der_list_status(octets.buf, (size_t)octets.len, &certificate, &list, moment, &out, NULL);
        found = number != 0 ? refusal(number, out.step)
                            : Py_BuildValue("(Kkkk)", (unsigned long long)out.revocation_date_seconds,
                                            (unsigned long)out.is_revoked, (unsigned long)out.reason,
                                            (unsigned long)out.reasons);
    }
    PyBuffer_Release(&octets);
    return found;
}

/* What lists say: the status, the date, the reason, and the reasons that are known; or a refusal. */
PyObject *revocation_status(PyObject *module, PyObject *arguments)
{
    Py_buffer octets;
    PyObject *lengths, *found = NULL;
    unsigned long long moment;
    int use_deltas;
    der_place last = {0, 0}, *places = NULL;
    der_revocation_status_at out;
    Py_ssize_t count, i;
    uint32_t number;
    (void)module;
    if (!PyArg_ParseTuple(arguments, "y*O!Kp", &octets, &PyTuple_Type, &lengths, &moment, &use_deltas))
        return NULL;
    count = PyTuple_Size(lengths);
    places = PyMem_Calloc((size_t)count + 1, sizeof places[0]);
    if (places == NULL)
        PyErr_NoMemory();
    else if (count == 0)
        PyErr_SetString(PyExc_ValueError, "a length of each input is required");
    for (i = 0; !PyErr_Occurred() && i < count; i++)
        put_place(PyTuple_GetItem(lengths, i), &last, &places[i]);
    if (!PyErr_Occurred()) {
        number = der_revocation_status(octets.buf, (size_t)octets.len, places, places + 1, (size_t)count - 1, moment,
                                       (uint32_t)use_deltas, &out, NULL);
        found = number != 0 ? refusal(number, 0)
                            : Py_BuildValue("(kKkk)", (unsigned long)out.status,
                                            (unsigned long long)out.revocation_date_seconds, (unsigned long)out.reason,
                                            (unsigned long)out.reasons);
    }
    PyMem_Free(places);
    PyBuffer_Release(&octets);
    return found;
}

/* What a call about an answer is given, and what it writes. */
typedef struct asked {
    Py_buffer octets;
    der_ocsp_inputs inputs;
    der_responder_at *responders;
    PyObject *key_hash;
    der_ocsp_status_at out;
} asked;

static uint32_t ask(asked *it, size_t room, size_t size)
{
    uint8_t *key_hash = it->key_hash != NULL ? (uint8_t *)PyBytes_AsString(it->key_hash) : NULL;
    return der_ocsp_status(it->octets.buf, (size_t)it->octets.len, &it->inputs, it->responders, room, key_hash, size, &it->out,
                           NULL);
}

/* Who may have signed the answer: the index of a certificate, or -1 for the issuer. */
static PyObject *indexes(const asked *it)
{
    PyObject *found = PyList_New(0);
    uint64_t i;
    for (i = 0; found != NULL && i < it->out.responder_count; i++) {
        PyObject *index = PyLong_FromLongLong(it->responders[i].is_issuer ? -1 : (long long)it->responders[i].index);
        if (index == NULL || PyList_Append(found, index) != 0)
            Py_CLEAR(found);
        Py_XDECREF(index);
    }
    return found;
}

static PyObject *answer(asked *it)
{
    uint32_t number = ask(it, 0, 0);
    if (number == DER_SHORT_BUFFER) {
        it->responders = PyMem_Calloc((size_t)it->out.responder_count + 1, sizeof it->responders[0]);
        it->key_hash = PyBytes_FromStringAndSize(NULL, (Py_ssize_t)it->out.key_hash_len);
        if (it->responders == NULL || it->key_hash == NULL)
            return it->responders == NULL ? PyErr_NoMemory() : NULL;
        number = ask(it, (size_t)it->out.responder_count, (size_t)it->out.key_hash_len);
    }
    if (number != 0)
        return refusal(number, it->out.step);
    return Py_BuildValue("(kkKKKNO)", (unsigned long)it->out.cert_status_number, (unsigned long)it->out.reason,
                         (unsigned long long)it->out.revocation_time_seconds,
                         (unsigned long long)it->out.this_update_seconds, (unsigned long long)it->out.next_update_seconds,
                         indexes(it), it->out.has_key_hash ? it->key_hash : Py_None);
}

/* What an answer says: the status, the reason, the dates, who may have signed it, and the hash value of the responder's key or
 * None; or a refusal. */
PyObject *ocsp_status(PyObject *module, PyObject *arguments)
{
    PyObject *lengths, *found = NULL;
    unsigned long long moment;
    asked it;
    der_place *const inputs[] = {&it.inputs.answer,    &it.inputs.issuer,   &it.inputs.algorithm,
                                 &it.inputs.name_hash, &it.inputs.key_hash, &it.inputs.serial};
    (void)module;
    memset(&it, 0, sizeof it);
    if (!PyArg_ParseTuple(arguments, "y*O!K", &it.octets, &PyTuple_Type, &lengths, &moment))
        return NULL;
    it.inputs.moment = moment;
    if (put_inputs(lengths, inputs, sizeof inputs / sizeof inputs[0]) == 0)
        found = answer(&it);
    PyMem_Free(it.responders);
    Py_XDECREF(it.key_hash);
    PyBuffer_Release(&it.octets);
    return found;
}
