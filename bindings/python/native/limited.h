/* Python.h for the stable interface of 3.10, so that one file serves each version from there on. */
#ifndef MVTGATE_LIMITED_H
#define MVTGATE_LIMITED_H

#define PY_SSIZE_T_CLEAN
#define Py_LIMITED_API 0x030a0000
#include <Python.h>

/* Py_buffer and its calls are of that interface from 3.11 on, and have been the same since 3.3: 3.10 has them, and its headers don't
 * show them to such a module. */
#ifndef PyBUF_SIMPLE
#define PyBUF_SIMPLE 0
typedef struct {
    void *buf;
    PyObject *obj;
    Py_ssize_t len;
    Py_ssize_t itemsize;
    int readonly;
    int ndim;
    char *format;
    Py_ssize_t *shape;
    Py_ssize_t *strides;
    Py_ssize_t *suboffsets;
    void *internal;
} Py_buffer;
PyAPI_FUNC(int) PyObject_GetBuffer(PyObject *it, Py_buffer *buffer, int flags);
PyAPI_FUNC(void) PyBuffer_Release(Py_buffer *buffer);
#endif

#endif
