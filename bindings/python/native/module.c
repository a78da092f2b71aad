/* The module mvtgate._native. Each interpreter has its own; what is static here is never written by it. */
#include "library.h"

/* Names of 3.12, where a module says that it is fit for interpreters with a lock of their own. */
#ifndef Py_mod_multiple_interpreters
#define Py_mod_multiple_interpreters 3
#define Py_MOD_PER_INTERPRETER_GIL_SUPPORTED ((void *)2)
#endif

static int fill(PyObject *module)
{
    PyObject *type = PyType_FromModuleAndSpec(module, &library_type, NULL);
    int status = type ? PyModule_AddType(module, (PyTypeObject *)type) : -1;
    Py_XDECREF(type);
    return status;
}

static PyModuleDef_Slot slots[] = {
    {Py_mod_exec, fill},
    {Py_mod_multiple_interpreters, Py_MOD_PER_INTERPRETER_GIL_SUPPORTED},
    {0, NULL},
};

/* The same for versions before 3.12, which refuse a slot that they don't know. */
static PyModuleDef_Slot earlier_slots[] = {
    {Py_mod_exec, fill},
    {0, NULL},
};

static PyModuleDef module = {PyModuleDef_HEAD_INIT, .m_name = "mvtgate._native", .m_slots = slots};
static PyModuleDef earlier_module = {PyModuleDef_HEAD_INIT, .m_name = "mvtgate._native", .m_slots = earlier_slots};

PyMODINIT_FUNC PyInit__native(void)
{
    PyObject *version = PySys_GetObject("hexversion");
    unsigned long number = version ? PyLong_AsUnsignedLong(version) : 0;
    if (PyErr_Occurred())
        return NULL;
    return PyModuleDef_Init(number < 0x030c0000 ? &earlier_module : &module);
}
