/* Chains of certificates. The octets of the inputs and of the certificates stand one after another. */
#include "classes.h"

enum { PLACES = sizeof(der_verification_at) / sizeof(der_place) };

/* What a call is given, and what it writes. */
typedef struct chain {
    Py_buffer octets;
    der_path_inputs inputs;
    der_place *certificates;
    der_verification_at *verifications;
    Py_ssize_t count;
    der_path_at out;
    der_fault fault;
} chain;

int put_place(PyObject *length, der_place *last, der_place *place)
{
    unsigned long long number = PyLong_AsUnsignedLongLong(length);
    uint64_t offset = (uint64_t)last->offset + last->length;
    if (PyErr_Occurred())
        return -1;
    if (number > UINT32_MAX || offset + number > UINT32_MAX) {
        PyErr_SetString(PyExc_OverflowError, "there are more than 4294967295 octets");
        return -1;
    }
    place->offset = (uint32_t)offset;
    place->length = (uint32_t)number;
    *last = *place;
    return 0;
}

/* The places of the inputs, and of the certificates behind them. */
static int put_places(PyObject *lengths, chain *it)
{
    der_place *inputs[] = {&it->inputs.anchor_name, &it->inputs.anchor_key, &it->inputs.policies, &it->inputs.constraints};
    const Py_ssize_t of_inputs = sizeof inputs / sizeof inputs[0];
    der_place last = {0, 0};
    Py_ssize_t i;
    it->count = PyTuple_Size(lengths) - of_inputs;
    if (it->count < 0) {
        PyErr_SetString(PyExc_ValueError, "a length of each input is required");
        return -1;
    }
    it->certificates = PyMem_Calloc((size_t)it->count + 1, sizeof it->certificates[0]);
    it->verifications = PyMem_Calloc((size_t)it->count + 1, sizeof it->verifications[0]);
    if (it->certificates == NULL || it->verifications == NULL) {
        PyErr_NoMemory();
        return -1;
    }
    for (i = 0; i < of_inputs + it->count; i++) {
        der_place *place = i < of_inputs ? inputs[i] : &it->certificates[i - of_inputs];
        if (put_place(PyTuple_GetItem(lengths, i), &last, place) != 0)
            return -1;
    }
    return 0;
}

static uint32_t check(chain *it, uint8_t *policies, size_t size)
{
    return der_check_path(it->octets.buf, (size_t)it->octets.len, &it->inputs, it->certificates, (size_t)it->count,
                          it->verifications, (size_t)it->count, policies, size, &it->out, &it->fault);
}

/* The places of the verifications, as numbers. */
static PyObject *numbers_of(const chain *it)
{
    const der_place *places = (const der_place *)it->verifications;
    PyObject *found = PyList_New(0);
    Py_ssize_t i;
    for (i = 0; found != NULL && i < it->count * PLACES; i++) {
        PyObject *pair = Py_BuildValue("(kk)", (unsigned long)places[i].offset, (unsigned long)places[i].length);
        if (pair == NULL || PyList_Append(found, pair) != 0)
            Py_CLEAR(found);
        Py_XDECREF(pair);
    }
    return found;
}

/* The places and the policies of a valid chain; or the number of the refusal, the position or None, the index and the step. */
static PyObject *answer(chain *it)
{
    uint32_t number = check(it, NULL, 0);
    PyObject *policies = NULL, *position;
    if (number == 0 || (number == DER_SHORT_BUFFER && it->out.policies_len > 0)) {
        policies = PyBytes_FromStringAndSize(NULL, (Py_ssize_t)it->out.policies_len);
        if (policies == NULL)
            return NULL;
        number = check(it, (uint8_t *)PyBytes_AsString(policies), (size_t)it->out.policies_len);
    }
    if (number == 0)
        return Py_BuildValue("(NN)", numbers_of(it), policies);
    Py_XDECREF(policies);
    position = it->fault.is_placed ? PyLong_FromUnsignedLong(it->fault.position) : Py_NewRef(Py_None);
    return position == NULL ? NULL
                            : Py_BuildValue("(kNKk)", (unsigned long)number, position,
                                            (unsigned long long)it->out.refused_index, (unsigned long)it->out.step);
}

PyObject *check_path(PyObject *module, PyObject *arguments)
{
    PyObject *lengths, *found = NULL;
    int mapping_inhibit, explicit_policy, any_policy_inhibit;
    unsigned long long moment;
    chain it;
    (void)module;
    memset(&it, 0, sizeof it);
    if (!PyArg_ParseTuple(arguments, "y*O!Kppp", &it.octets, &PyTuple_Type, &lengths, &moment, &mapping_inhibit,
                          &explicit_policy, &any_policy_inhibit))
        return NULL;
    it.inputs.moment = moment;
    it.inputs.mapping_inhibit = (uint32_t)mapping_inhibit;
    it.inputs.explicit_policy = (uint32_t)explicit_policy;
    it.inputs.any_policy_inhibit = (uint32_t)any_policy_inhibit;
    if (put_places(lengths, &it) == 0)
        found = answer(&it);
    PyMem_Free(it.certificates);
    PyMem_Free(it.verifications);
    PyBuffer_Release(&it.octets);
    return found;
}
