/* Where the library is loaded from, and the type. */
#include "library.h"
#include "tile.h"
#include <dlfcn.h>
#include <string.h>

/* The functions of the library, and where in `struct library` their addresses go. */
static const struct {
    const char *name;
    size_t place;
} exports[] = {
    {"mvtgate_check", offsetof(struct library, check)},     {"mvtgate_check_quickly", offsetof(struct library, check_quickly)},
    {"mvtgate_faults", offsetof(struct library, faults)},   {"mvtgate_faults_quickly", offsetof(struct library, faults_quickly)},
    {"mvtgate_mend", offsetof(struct library, mend)},       {"mvtgate_confirm", offsetof(struct library, confirm)},
    {"mvtgate_dump", offsetof(struct library, dump)},       {"mvtgate_advise", offsetof(struct library, advise)},
    {"mvtgate_version", offsetof(struct library, version)},
};

/* Sets an error with a text of the system's. */
static void tell_system(PyObject *kind, const char *told)
{
    PyObject *text = PyUnicode_DecodeFSDefault(told);
    if (text)
        PyErr_SetObject(kind, text);
    Py_XDECREF(text);
}

/* The library stays loaded: a thread may be in it when an interpreter ends. */
static int load(struct library *library, const char *path)
{
    void *handle = dlopen(path, RTLD_NOW | RTLD_LOCAL);
    if (!handle) {
        tell_system(PyExc_OSError, dlerror());
        return 0;
    }
    for (size_t at = 0; at < sizeof exports / sizeof *exports; ++at) {
        void *address = dlsym(handle, exports[at].name);
        if (!address) {
            PyErr_SetString(PyExc_AttributeError, exports[at].name);
            return 0;
        }
        memcpy((char *)library + exports[at].place, &address, sizeof address);
    }
    return 1;
}

static PyObject *library_new(PyTypeObject *type, PyObject *words, PyObject *named)
{
    static char *names[] = {"", NULL};
    PyObject *path;
    if (!PyArg_ParseTupleAndKeywords(words, named, "O&:Library", names, PyUnicode_FSConverter, &path))
        return NULL;
    PyObject *library = PyType_GenericAlloc(type, 0);
    if (library && !load((struct library *)library, PyBytes_AsString(path)))
        Py_CLEAR(library);
    Py_DECREF(path);
    return library;
}

static PyObject *library_version(PyObject *self, PyObject *none)
{
    (void)none;
    return PyLong_FromUnsignedLong(((struct library *)self)->version());
}

static PyObject *library_head(PyObject *self, PyObject *const *words, Py_ssize_t count)
{
    struct tile tile;
    (void)self;
    if (count != 2) {
        PyErr_Format(PyExc_TypeError, "there are to be 2 arguments, and there are %zd", count);
        return NULL;
    }
    size_t most = PyLong_AsSize_t(words[1]);
    if ((most == (size_t)-1 && PyErr_Occurred()) || !tile_take(&tile, words[0]))
        return NULL;
    PyObject *head = PyBytes_FromStringAndSize((const char *)tile.bytes, (Py_ssize_t)(tile.length < most ? tile.length : most));
    tile_give_back(&tile);
    return head;
}

/* (by way of a pointer to any function, since a method is one of several kinds) */
#define METHOD(call) (PyCFunction)(void (*)(void)) call

static PyMethodDef methods[] = {
    {"check", METHOD(library_check), METH_FASTCALL, NULL},
    {"faults", METHOD(library_faults), METH_FASTCALL, NULL},
    {"mend", METHOD(library_mend), METH_FASTCALL, NULL},
    {"confirm", METHOD(library_confirm), METH_FASTCALL, NULL},
    {"dump", library_dump, METH_O, NULL},
    {"advise", library_advise, METH_O, NULL},
    {"head", METHOD(library_head), METH_FASTCALL, NULL},
    {"version", library_version, METH_NOARGS, NULL},
    {NULL, NULL, 0, NULL},
};

static PyType_Slot slots[] = {
    {Py_tp_new, library_new},
    {Py_tp_methods, methods},
    {0, NULL},
};

PyType_Spec library_type = {
    .name = "mvtgate._native.Library",
    .basicsize = sizeof(struct library),
    .flags = Py_TPFLAGS_DEFAULT | Py_TPFLAGS_IMMUTABLETYPE,
    .slots = slots,
};
