/* Memoryviews of octets, and places in them. */
#include "classes.h"

static bool is_plain(PyObject *view)
{
    Py_buffer seen;
    bool answer;
    if (PyObject_GetBuffer(view, &seen, PyBUF_FULL_RO) != 0) {
        PyErr_Clear(); /* what is done with the memoryview next says why */
        return false;
    }
    answer = seen.ndim == 1 && seen.format != NULL && strcmp(seen.format, "B") == 0;
    PyBuffer_Release(&seen);
    return answer;
}

int make_plain(PyObject **view)
{
    PyObject *was = *view, *found;
    if (is_plain(was))
        return 0;
    found = PyObject_CallMethod(was, "cast", "s", "B");
    if (found == NULL)
        return -1;
    *view = found;
    Py_DECREF(was);
    return 0;
}

PyObject *search(PyObject *octets, der_place (*find)(const uint8_t *octets, size_t len), der_place *place)
{
    PyObject *view = PyMemoryView_FromObject(octets);
    Py_buffer seen;
    if (view == NULL || PyObject_GetBuffer(view, &seen, PyBUF_SIMPLE) != 0) {
        Py_XDECREF(view);
        return NULL;
    }
    *place = find(seen.buf, (size_t)seen.len);
    PyBuffer_Release(&seen);
    if (make_plain(&view) != 0)
        Py_CLEAR(view);
    return view;
}

der_place contents_of_all(const uint8_t *octets, size_t len)
{
    der_place all = {0, len < UINT32_MAX ? (uint32_t)len : UINT32_MAX};
    return der_contents(octets, len, &all);
}
