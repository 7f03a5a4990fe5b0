/* walk.h: an iterator over the packets of a walk of the package, whose window provides the bytes. A part of native.c. */

/* The function that runs a filter program on a packet: libpcap's bpf_filter. */
typedef unsigned int Run(const void *, const uint8_t *, unsigned int, unsigned int);

/* The filter program for one link type. */
typedef struct {
    uint32_t link;
    const void *program;
} Chosen;

enum { BATCH = 512, PROGRAMS = 8 };

typedef struct {
    PyObject_HEAD
    PyObject *module;
    State *state;
    PyObject *source, *window, *refused; /* the package's walk, its window, and the function that makes an error */
    Open *open;
    Py_buffer left_buffer, section_buffer;
    pcapfile_bytes *left;      /* the window's */
    pcapfile_section *section; /* for PcapNg */
    pcapfile_header header;    /* for a classic capture */
    pcapfile_error error;
    Chunk *chunk;
    Clocks *clocks; /* for PcapNg */
    PyObject *filter; /* or NULL */
    Run *run;         /* the function that filters by bytes, or NULL */
    int64_t since, until; /* the wanted times in nanoseconds: from `since` to before `until` */
    int has_times;
    Chosen programs[PROGRAMS];
    unsigned n_programs;
    int is_ng, is_pairs, is_running, is_over;
    int32_t status; /* of the library's last call, until the walk has acted on it */
    size_t at, count;
    union {
        pcapfile_packet classic[BATCH];
        pcapfile_ng_packet ng[BATCH];
    } batch;
} Walk;

static int walk_traverse(PyObject *self, visitproc visit, void *arg) {
    Walk *walk = (Walk *)self;
    Py_VISIT(Py_TYPE(self));
    Py_VISIT(walk->module);
    Py_VISIT(walk->source);
    Py_VISIT(walk->window);
    Py_VISIT(walk->refused);
    Py_VISIT(walk->filter);
    return 0;
}

static int walk_clear(PyObject *self) {
    Walk *walk = (Walk *)self;
    walk->is_over = 1;
    walk->at = walk->count = 0;
    Py_CLEAR(walk->chunk);
    Py_CLEAR(walk->clocks);
    PyBuffer_Release(&walk->left_buffer);
    PyBuffer_Release(&walk->section_buffer);
    walk->left = NULL, walk->section = NULL;
    Py_CLEAR(walk->source);
    Py_CLEAR(walk->window);
    Py_CLEAR(walk->refused);
    Py_CLEAR(walk->filter);
    return 0;
}

static void walk_dealloc(PyObject *self) {
    Walk *walk = (Walk *)self;
    PyTypeObject *type = Py_TYPE(self);
    PyObject *module = walk->module;
    PyObject_GC_UnTrack(self);
    walk_clear(self);
    Py_XDECREF(walk->open);
    PyObject_GC_Del(self);
    Py_DECREF(type);
    Py_XDECREF(module);
}

/* ---- making a walk ---- */

/* Returns the struct behind an attribute of an object, to write to it directly. */
static int let_struct(PyObject *owner, PyObject *name, Py_buffer *buffer, size_t size) {
    PyObject *object = PyObject_GetAttr(owner, name);
    int failed = !object || PyObject_GetBuffer(object, buffer, PyBUF_WRITABLE) < 0;
    Py_XDECREF(object);
    if (failed) return -1;
    if ((size_t)buffer->len == size) return 0;
    PyErr_SetString(PyExc_TypeError, "a struct of another size");
    return -1;
}

static int copy_struct(PyObject *object, void *to, size_t size) {
    Py_buffer view;
    if (PyObject_GetBuffer(object, &view, PyBUF_SIMPLE) < 0) return -1;
    int fits = (size_t)view.len == size;
    if (fits) memcpy(to, view.buf, size);
    PyBuffer_Release(&view);
    if (!fits) PyErr_SetString(PyExc_TypeError, "a struct of another size");
    return fits ? 0 : -1;
}

/* Reads the interfaces of the current section from the package's walk. */
static int see_clocks(Walk *walk) {
    PyObject *clocks = PyObject_GetAttr(walk->source, walk->state->clocks_name);
    if (clocks && Py_TYPE(clocks) != walk->state->clocks) {
        Py_DECREF(clocks);
        clocks = NULL;
        PyErr_SetString(PyExc_TypeError, "the walk has no table of interfaces");
    }
    Py_XDECREF(walk->clocks);
    walk->clocks = (Clocks *)clocks;
    return clocks ? 0 : -1;
}

static int begin_window(Walk *walk) {
    if (!(walk->window = PyObject_GetAttr(walk->source, walk->state->window))) return -1;
    if (let_struct(walk->window, walk->state->left, &walk->left_buffer, sizeof *walk->left) < 0) return -1;
    walk->left = walk->left_buffer.buf;
    PyObject *open = PyObject_GetAttr(walk->window, walk->state->open_name);
    walk->open = (Open *)open;
    if (!open) return -1;
    if (Py_TYPE(open) == walk->state->open) return 0;
    PyErr_SetString(PyExc_TypeError, "the window has no Open object");
    return -1;
}

static int begin_format(Walk *walk, PyObject *header) {
    walk->is_ng = header == Py_None;
    walk->status = PCAPFILE_OK;
    if (walk->is_ng) {
        for (size_t i = 0; i < BATCH; i++) walk->batch.ng[i] = (pcapfile_ng_packet)PCAPFILE_NG_PACKET_INIT;
        if (let_struct(walk->source, walk->state->section, &walk->section_buffer, sizeof *walk->section) < 0) return -1;
        walk->section = walk->section_buffer.buf;
        return see_clocks(walk);
    }
    for (size_t i = 0; i < BATCH; i++) walk->batch.classic[i] = (pcapfile_packet)PCAPFILE_PACKET_INIT;
    return copy_struct(header, &walk->header, sizeof walk->header);
}

static int begin_filter(Walk *walk, PyObject *filter) {
    if (filter == Py_None) return 0;
    PyObject *told = PyObject_CallMethod(filter, "told", NULL);
    unsigned long long run;
    long long since, until;
    int failed = !told || !PyArg_ParseTuple(told, "KLLp", &run, &since, &until, &walk->has_times);
    Py_XDECREF(told);
    if (failed) return -1;
    Py_INCREF(filter);
    walk->filter = filter;
    walk->run = (Run *)(uintptr_t)run;
    walk->since = since, walk->until = until;
    return 0;
}

/* packets(walk, header or None, refused, filter or None, whether pairs) returns an iterator. */
static PyObject *make_walk(PyObject *module, PyObject *args) {
    State *state = PyModule_GetState(module);
    PyObject *source, *header, *refused, *filter = Py_None;
    int is_pairs = 0;
    if (!PyArg_ParseTuple(args, "OOO|Op", &source, &header, &refused, &filter, &is_pairs)) return NULL;
    Walk *walk = PyObject_GC_New(Walk, state->walk);
    if (!walk) return NULL;
    memset((char *)walk + sizeof(PyObject), 0, offsetof(Walk, batch) - sizeof(PyObject));
    Py_INCREF(module), Py_INCREF(source), Py_INCREF(refused);
    walk->module = module, walk->state = state, walk->source = source, walk->refused = refused, walk->is_pairs = is_pairs;
    if (begin_window(walk) < 0 || begin_format(walk, header) < 0 || begin_filter(walk, filter) < 0) {
        Py_DECREF(walk);
        return NULL;
    }
    PyObject_GC_Track((PyObject *)walk);
    return (PyObject *)walk;
}
