#include "tile.h"

/* The name of an object's type, or NULL with an error set. */
static PyObject *name_of_type(PyObject *it)
{
    return PyObject_GetAttrString((PyObject *)Py_TYPE(it), "__name__");
}

/* Puts a TypeError in the place of one that says that an object has no bytes. */
static void tell_kind(PyObject *it)
{
    PyErr_Clear();
    PyObject *name = name_of_type(it);
    if (!name)
        return;
    PyErr_Format(PyExc_TypeError, "a tile is bytes, or an object with bytes such as bytearray, memoryview or mmap, not %U", name);
    Py_DECREF(name);
}

/* Puts a TypeError in the place of the BufferError of bytes that aren't contiguous, which becomes its cause. */
static void tell_layout(PyObject *it)
{
    PyObject *kind, *error, *trace, *cause;
    PyErr_Fetch(&kind, &error, &trace);
    PyErr_NormalizeException(&kind, &error, &trace);
    cause = error;
    PyObject *name = name_of_type(it);
    if (name)
        PyErr_Format(PyExc_TypeError, "the bytes of this %U aren't contiguous: %S; hand over bytes(..) of it", name, cause);
    Py_XDECREF(name);
    Py_XDECREF(kind);
    Py_XDECREF(trace);
    PyErr_Fetch(&kind, &error, &trace);
    PyErr_NormalizeException(&kind, &error, &trace);
    PyException_SetCause(error, cause);
    PyErr_Restore(kind, error, trace);
}

int tile_take(struct tile *tile, PyObject *it)
{
    /* (giving back a buffer without an object does nothing) */
    tile->buffer.obj = NULL;
    if (PyBytes_Check(it)) {
        tile->bytes = (const uint8_t *)PyBytes_AsString(it);
        tile->length = (size_t)PyBytes_Size(it);
        return 1;
    }
    if (PyObject_GetBuffer(it, &tile->buffer, PyBUF_SIMPLE) == 0) {
        /* (no bytes may have the address null, which the library is never given) */
        tile->bytes = tile->buffer.len ? tile->buffer.buf : (const uint8_t *)"";
        tile->length = (size_t)tile->buffer.len;
        return 1;
    }
    if (PyErr_ExceptionMatches(PyExc_TypeError))
        tell_kind(it);
    else if (PyErr_ExceptionMatches(PyExc_BufferError))
        tell_layout(it);
    return 0;
}

void tile_give_back(struct tile *tile)
{
    PyBuffer_Release(&tile->buffer);
}
