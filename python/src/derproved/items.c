/* What stands one behind another, as the extensions of a certificate: each is read when it is asked for. */
#include "classes.h"

static PyTypeObject *Items;

typedef struct items {
    PyObject_HEAD
    const kind *kind;
    PyObject *class, *view; /* that of each item, and a plain memoryview; of encodings there is no kind and no class */
    der_place left;         /* what was not read yet */
    der_place parts;        /* of a name: what was not entered yet */
} items;

PyObject *make_items(const kind *of, PyObject *class, PyObject *view, der_place left, der_place parts)
{
    items *made = (items *)PyType_GenericAlloc(Items, 0);
    if (made == NULL)
        return NULL;
    made->kind = of;
    made->class = Py_XNewRef(class);
    made->view = Py_NewRef(view);
    made->left = left;
    made->parts = parts;
    return (PyObject *)made;
}

/* Enters the first of the parts: its contents octets are left. */
static void enter_part(const uint8_t *octets, der_place *left, der_place *parts)
{
    const uint8_t *first = octets + parts->offset;
    der_place front = {0, 0}, part = {0, der_next_encoding(first, parts->length, &front).length};
    *left = moved(parts->offset, der_contents(first, part.length, &part));
    take(parts, part.length);
}

/* The next encoding; after octets that are none nothing is left. */
static PyObject *next_encoding(items *of)
{
    der_place nothing = {0, 0}, first = nothing;
    Py_buffer seen;
    if (PyObject_GetBuffer(of->view, &seen, PyBUF_SIMPLE) != 0)
        return NULL;
    if (of->left.length > 0)
        first = der_next_encoding((const uint8_t *)seen.buf + of->left.offset, of->left.length, &nothing);
    PyBuffer_Release(&seen);
    if (first.offset != 0 || first.length == 0) {
        of->left = nothing;
        return NULL;
    }
    first = moved(of->left.offset, first);
    take(&of->left, first.length);
    return PySequence_GetSlice(of->view, first.offset, (Py_ssize_t)first.offset + first.length);
}

/* The next item; after one that is refused nothing is left. */
static PyObject *next_item(PyObject *self)
{
    items *of = (items *)self;
    der_place left = of->left, parts = of->parts, nothing = {0, 0};
    Py_buffer seen;
    PyObject *item;
    if (of->kind == NULL)
        return next_encoding(of);
    if ((left.length == 0 && parts.length == 0) || PyObject_GetBuffer(of->view, &seen, PyBUF_SIMPLE) != 0)
        return NULL;
    if (left.length == 0)
        enter_part(seen.buf, &left, &parts);
    item = read_at(of->kind, of->class, of->view, seen.buf, left.offset, left.length);
    PyBuffer_Release(&seen);
    if (item != NULL)
        take(&left, (uint32_t)((message *)item)->length);
    of->left = item != NULL ? left : nothing;
    of->parts = item != NULL ? parts : nothing;
    return item;
}

static int visit_items(PyObject *self, visitproc visit, void *arg)
{
    Py_VISIT(Py_TYPE(self));
    Py_VISIT(((items *)self)->class);
    Py_VISIT(((items *)self)->view);
    return 0;
}

static void drop_items(PyObject *self)
{
    PyTypeObject *class = Py_TYPE(self);
    PyObject_GC_UnTrack(self);
    Py_XDECREF(((items *)self)->class);
    Py_XDECREF(((items *)self)->view);
    PyObject_GC_Del(self);
    Py_DECREF(class);
}

static PyType_Slot slots[] = {
    {Py_tp_doc, "What stands one behind another: each is read when it is asked for."},
    {Py_tp_iter, PyObject_SelfIter},
    {Py_tp_iternext, next_item},
    {Py_tp_traverse, visit_items},
    {Py_tp_dealloc, drop_items},
    {0, NULL},
};

static PyType_Spec spec = {
    "derproved._der.Items", sizeof(items), 0,
    Py_TPFLAGS_DEFAULT | Py_TPFLAGS_HAVE_GC | Py_TPFLAGS_DISALLOW_INSTANTIATION, slots,
};

/* The items in the contents octets of an encoding; of a name, those in its parts. */
static PyObject *items_in(PyObject *arguments, bool is_name)
{
    PyObject *octets, *class, *view, *made;
    const kind *of;
    der_place place, nothing = {0, 0};
    if (!PyArg_ParseTuple(arguments, "OO", &octets, &class) || (of = kind_of(class)) == NULL)
        return NULL;
    view = search(octets, contents_of_all, &place);
    if (view == NULL)
        return NULL;
    made = make_items(of, class, view, is_name ? nothing : place, is_name ? place : nothing);
    Py_DECREF(view);
    return made;
}

PyObject *items_of(PyObject *module, PyObject *arguments)
{
    (void)module;
    return items_in(arguments, false);
}

PyObject *name_attributes(PyObject *module, PyObject *arguments)
{
    (void)module;
    return items_in(arguments, true);
}

PyObject *encodings(PyObject *module, PyObject *octets)
{
    der_place left, nothing = {0, 0};
    PyObject *view = search(octets, contents_of_all, &left), *made;
    (void)module;
    if (view == NULL)
        return NULL;
    made = make_items(NULL, NULL, view, left, nothing);
    Py_DECREF(view);
    return made;
}

int add_items(PyObject *module)
{
    Items = add_class(module, &spec, NULL);
    return Items == NULL ? -1 : 0;
}
