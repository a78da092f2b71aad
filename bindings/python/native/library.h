/* A loaded libmvtgate, as a type of Python's: _native.pyi says what its methods answer. */
#ifndef MVTGATE_LIBRARY_H
#define MVTGATE_LIBRARY_H

#include "limited.h"
#include "mvtgate.h"

struct library {
    PyObject base;
    __typeof__(mvtgate_check) *check, *check_quickly, *faults, *faults_quickly;
    __typeof__(mvtgate_mend) *mend;
    __typeof__(mvtgate_confirm) *confirm;
    __typeof__(mvtgate_dump) *dump, *advise;
    __typeof__(mvtgate_version) *version;
};

extern PyType_Spec library_type;

/* The methods, by which a tile is judged, described and mended. */
PyObject *library_check(PyObject *self, PyObject *const *words, Py_ssize_t count);
PyObject *library_faults(PyObject *self, PyObject *const *words, Py_ssize_t count);
PyObject *library_confirm(PyObject *self, PyObject *const *words, Py_ssize_t count);
PyObject *library_mend(PyObject *self, PyObject *const *words, Py_ssize_t count);
PyObject *library_dump(PyObject *self, PyObject *tile);
PyObject *library_advise(PyObject *self, PyObject *tile);

#endif
