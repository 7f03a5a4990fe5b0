/* python_buffers.h: Python's header, and its buffers, which the stable interface has only since 3.11. Python 3.9 and 3.10 declare them
 * the same way, and will not change them. */
#ifndef PYTHON_BUFFERS_H
#define PYTHON_BUFFERS_H

#define PY_SSIZE_T_CLEAN
#include <Python.h>

#if defined(Py_LIMITED_API) && Py_LIMITED_API + 0 < 0x030b0000
typedef struct {
    void *buf;
    PyObject *obj;
    Py_ssize_t len, itemsize;
    int readonly, ndim;
    char *format;
    Py_ssize_t *shape, *strides, *suboffsets;
    void *internal;
} Py_buffer;
PyAPI_FUNC(int) PyObject_GetBuffer(PyObject *, Py_buffer *, int);
PyAPI_FUNC(int) PyBuffer_FillInfo(Py_buffer *, PyObject *, void *, Py_ssize_t, int, int);
PyAPI_FUNC(void) PyBuffer_Release(Py_buffer *);
#define PyBUF_SIMPLE 0
#define PyBUF_WRITABLE 1
#define Py_bf_getbuffer 1
#endif
#endif
