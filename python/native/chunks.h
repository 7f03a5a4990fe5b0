/* chunks.h: whether a capture is open, and the bytes that packets refer to. A part of native.c. */

/* ---- whether a capture is open: closing it also drops packets that were taken and not yet returned ---- */

typedef struct {
    PyObject_HEAD
    int is_closed;
} Open;

static PyObject *open_new(PyTypeObject *type, PyObject *args, PyObject *words) {
    (void)args, (void)words;
    Open *open = PyObject_New(Open, type);
    if (open) open->is_closed = 0;
    return (PyObject *)open;
}

static PyObject *open_close(PyObject *self, PyObject *unused) {
    (void)unused;
    ((Open *)self)->is_closed = 1;
    Py_RETURN_NONE;
}

static PyObject *open_is_closed(PyObject *self, void *closure) {
    (void)closure;
    return PyBool_FromLong(((Open *)self)->is_closed);
}

static void plain_dealloc(PyObject *self) {
    PyTypeObject *type = Py_TYPE(self);
    PyObject_Free(self);
    Py_DECREF(type);
}

/* ---- the bytes that packets refer to ---- */

typedef struct {
    PyObject_HEAD
    PyObject *module; /* keeps the state alive as long as packets live */
    State *state;
    PyObject *shown;  /* the window's view, to recognize it */
    PyObject *view;   /* a view of its own, because the window's view may be released while packets live */
    Py_buffer buffer;
    uint64_t base;    /* the offset of the bytes in the capture, modulo 2^64 */
} Chunk;

static void chunk_dealloc(PyObject *self) {
    Chunk *chunk = (Chunk *)self;
    PyTypeObject *type = Py_TYPE(self);
    PyBuffer_Release(&chunk->buffer);
    Py_XDECREF(chunk->view);
    Py_XDECREF(chunk->shown);
    PyObject *module = chunk->module;
    PyObject_Free(self);
    Py_DECREF(type);
    Py_DECREF(module);
}

static Chunk *chunk_new(PyObject *module, PyObject *shown, uint64_t base) {
    State *state = PyModule_GetState(module);
    Chunk *chunk = PyObject_New(Chunk, state->chunk);
    if (!chunk) return NULL;
    memset(&chunk->buffer, 0, sizeof chunk->buffer);
    Py_INCREF(module), Py_INCREF(shown);
    chunk->module = module, chunk->state = state, chunk->base = base, chunk->shown = shown;
    chunk->view = PyMemoryView_FromObject(shown);
    if (chunk->view && PyObject_GetBuffer(chunk->view, &chunk->buffer, PyBUF_SIMPLE) == 0) return chunk;
    Py_DECREF(chunk);
    return NULL;
}
