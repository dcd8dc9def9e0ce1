/* Fields of messages, as attributes of their classes. */
#include "classes.h"

#include <structmember.h>

static PyTypeObject *Field;
static PyObject *epoch, *second; /* 1970-01-01T00:00:00Z, and what is between two seconds */

typedef struct field {
    PyObject_HEAD
    PyObject *(*get)(const struct field *self, message *of);
    unsigned places, numbers; /* that a message has at least which has the field: the last of them is the field's */
    unsigned more;            /* what is added to a number, or how many headers are before items */
    const kind *kind;         /* of items */
    PyObject *class, *doc;
} field;

typedef PyObject *get_call(const field *self, message *of);

static der_place place_of(const field *self, const message *of)
{
    return of->places[self->places - 1];
}

static uint64_t number_of(const field *self, const message *of)
{
    uint64_t number;
    memcpy(&number, (const char *)(of->places + of->kind->places) + (self->numbers - 1) * sizeof number, sizeof number);
    return number;
}

/* A place in a message, as a memoryview. */
static PyObject *slice(message *of, der_place place)
{
    PyObject *view = view_of(of);
    Py_ssize_t start = of->start + place.offset;
    return view == NULL ? NULL : PySequence_GetSlice(view, start, start + place.length);
}

/* Goes into so many encodings that stand in a message, one within another: the place of the contents octets of the last;
 * nothing where there are no octets. */
static int go_into(message *of, unsigned count, der_place *place)
{
    Py_buffer seen;
    const uint8_t *first;
    if (PyObject_GetBuffer(of->octets, &seen, PyBUF_SIMPLE) != 0)
        return -1;
    first = (const uint8_t *)seen.buf + of->start;
    for (; count > 0 && place->length > 0; count--)
        *place = moved(place->offset, contents_of_all(first + place->offset, place->length));
    PyBuffer_Release(&seen);
    return 0;
}

static PyObject *get_place(const field *self, message *of)
{
    return slice(of, place_of(self, of));
}

static PyObject *get_optional(const field *self, message *of)
{
    return place_of(self, of).length == 0 ? Py_NewRef(Py_None) : get_place(self, of);
}

static PyObject *get_contents(const field *self, message *of)
{
    der_place place = place_of(self, of);
    return go_into(of, 1, &place) != 0 ? NULL : slice(of, place);
}

/* The contents octets as bytes: an identifier is short, and is compared or looked up. */
static PyObject *get_identifier(const field *self, message *of)
{
    der_place place = place_of(self, of);
    Py_buffer seen;
    const char *first;
    PyObject *found;
    if (PyObject_GetBuffer(of->octets, &seen, PyBUF_SIMPLE) != 0)
        return NULL;
    first = (const char *)seen.buf + of->start + place.offset;
    place = contents_of_all((const uint8_t *)first, place.length);
    found = PyBytes_FromStringAndSize(first + place.offset, place.length);
    PyBuffer_Release(&seen);
    return found;
}

static PyObject *get_number(const field *self, message *of)
{
    return PyLong_FromUnsignedLongLong(number_of(self, of) + self->more);
}

static PyObject *get_flag(const field *self, message *of)
{
    return PyBool_FromLong(number_of(self, of) == 1);
}

static PyObject *get_moment(const field *self, message *of)
{
    PyObject *number = get_number(self, of), *since, *moment;
    since = number == NULL ? NULL : PyNumber_Multiply(second, number);
    moment = since == NULL ? NULL : PyNumber_Add(epoch, since);
    Py_XDECREF(number);
    Py_XDECREF(since);
    return moment;
}

static PyObject *get_optional_moment(const field *self, message *of)
{
    return place_of(self, of).length == 0 ? Py_NewRef(Py_None) : get_moment(self, of);
}

static PyObject *get_items(const field *self, message *of)
{
    der_place left = place_of(self, of), nothing = {0, 0};
    PyObject *view = view_of(of);
    if (view == NULL || go_into(of, self->more, &left) != 0)
        return NULL;
    return make_items(self->kind, self->class, view, moved((uint32_t)of->start, left), nothing);
}

/* A field as `get` gets it. The arguments are the index of its place or number, its documentation, and what the maker says. */
static PyObject *make_field(get_call *get, const char *format, bool is_number, PyObject *arguments)
{
    unsigned char index, other = 0;
    PyObject *doc, *class = NULL;
    const kind *of = NULL;
    field *made;
    if (!PyArg_ParseTuple(arguments, format, &index, &doc, &other, &class))
        return NULL;
    if (class != NULL && (of = kind_of(class)) == NULL)
        return NULL;
    made = (field *)PyType_GenericAlloc(Field, 0);
    if (made == NULL)
        return NULL;
    made->get = get;
    made->places = is_number ? 0 : index + 1u;
    made->numbers = is_number ? index + 1u : 0;
    if (get == get_optional_moment)
        made->places = other + 1u;
    else
        made->more = other;
    made->kind = of;
    made->class = Py_XNewRef(class);
    made->doc = Py_NewRef(doc);
    return (PyObject *)made;
}

#define MAKES(name, get, format, is_number)                       \
    PyObject *name(PyObject *module, PyObject *arguments)         \
    {                                                             \
        (void)module;                                             \
        return make_field(get, format, is_number, arguments);     \
    }
MAKES(place_field, get_place, "bU", false)
MAKES(optional_field, get_optional, "bU", false)
MAKES(contents_field, get_contents, "bU", false)
MAKES(identifier_field, get_identifier, "bU", false)
MAKES(number_field, get_number, "bU|b", true)
MAKES(flag_field, get_flag, "bU", true)
MAKES(moment_field, get_moment, "bU", true)
MAKES(optional_moment_field, get_optional_moment, "bUb", true)
MAKES(items_field, get_items, "bUbO", false)

static PyObject *get_field(PyObject *self, PyObject *from, PyObject *class)
{
    const field *it = (const field *)self;
    message *of = (message *)from;
    (void)class;
    if (from == NULL)
        return Py_NewRef(self);
    if (PyObject_TypeCheck(from, Message) && it->places <= of->kind->places && it->numbers <= of->kind->numbers)
        return it->get(it, of);
    PyErr_SetString(PyExc_TypeError, "a field of another class");
    return NULL;
}

static int set_field(PyObject *self, PyObject *of, PyObject *value)
{
    (void)self;
    (void)of;
    (void)value;
    PyErr_SetString(PyExc_AttributeError, "a field is only read");
    return -1;
}

static int visit_field(PyObject *self, visitproc visit, void *arg)
{
    Py_VISIT(Py_TYPE(self));
    Py_VISIT(((field *)self)->class);
    Py_VISIT(((field *)self)->doc);
    return 0;
}

static void drop_field(PyObject *self)
{
    PyTypeObject *class = Py_TYPE(self);
    PyObject_GC_UnTrack(self);
    Py_XDECREF(((field *)self)->class);
    Py_XDECREF(((field *)self)->doc);
    PyObject_GC_Del(self);
    Py_DECREF(class);
}

static PyMemberDef members[] = {
    {"__doc__", T_OBJECT, offsetof(field, doc), READONLY, NULL},
    {NULL, 0, 0, 0, NULL},
};

static PyType_Slot slots[] = {
    {Py_tp_members, members},
    {Py_tp_descr_get, get_field},
    {Py_tp_descr_set, set_field},
    {Py_tp_traverse, visit_field},
    {Py_tp_dealloc, drop_field},
    {0, NULL},
};

static PyType_Spec spec = {
    "derproved._der.Field", sizeof(field), 0,
    Py_TPFLAGS_DEFAULT | Py_TPFLAGS_HAVE_GC | Py_TPFLAGS_DISALLOW_INSTANTIATION, slots,
};

/* Finds what moments are made of. */
static int find_times(void)
{
    PyObject *module = PyImport_ImportModule("datetime");
    PyObject *zone = module == NULL ? NULL : PyObject_GetAttrString(module, "timezone");
    PyObject *utc = zone == NULL ? NULL : PyObject_GetAttrString(zone, "utc");
    if (utc != NULL) {
        epoch = PyObject_CallMethod(module, "datetime", "iiiiiiiO", 1970, 1, 1, 0, 0, 0, 0, utc);
        second = PyObject_CallMethod(module, "timedelta", "ii", 0, 1);
    }
    Py_XDECREF(utc);
    Py_XDECREF(zone);
    Py_XDECREF(module);
    return epoch != NULL && second != NULL ? 0 : -1;
}

int add_fields(PyObject *module)
{
    Field = add_class(module, &spec, NULL);
    return Field == NULL ? -1 : find_times();
}
