/* interfaces.h: interfaces of PcapNg captures, and their clocks. A part of native.c. */

/* ---- an interface, which gives its packets their times ---- */

typedef struct {
    PyObject_HEAD
    pcapfile_interface interface;
    uint64_t each, most; /* nanoseconds in a unit, and the most units; 0 if the library divides */
    PyObject *shown;     /* the package's Interface */
} Clock;

static void clock_dealloc(PyObject *self) {
    Py_XDECREF(((Clock *)self)->shown);
    plain_dealloc(self);
}

static Clock *clock_new(State *state, PyObject *structure, PyObject *shown) {
    Py_buffer view;
    if (PyObject_GetBuffer(structure, &view, PyBUF_SIMPLE) < 0) return NULL;
    Clock *clock = (size_t)view.len == sizeof clock->interface ? PyObject_New(Clock, state->clock) : NULL;
    if (clock) {
        memcpy(&clock->interface, view.buf, sizeof clock->interface);
        clock->each = clock->most = 0;
        if (clock->interface.ts_base == 10 && clock->interface.ts_exponent <= 9 && clock->interface.ts_offset == 0) {
            clock->each = 1;
            for (int i = clock->interface.ts_exponent; i < 9; i++) clock->each *= 10;
            clock->most = (uint64_t)INT64_MAX / clock->each;
        }
        Py_INCREF(shown);
        clock->shown = shown;
    } else if (!PyErr_Occurred()) {
        PyErr_SetString(PyExc_TypeError, "an interface of another size");
    }
    PyBuffer_Release(&view);
    return clock;
}

#define NO_TIME INT64_MIN

/* Returns nanoseconds since 1970, or NO_TIME if they exceed 64 bits. */
static int64_t time_in_ns(const Clock *clock, uint64_t units) {
    pcapfile_time time = PCAPFILE_TIME_INIT;
    int64_t ns;
    if (clock->each && units <= clock->most) return (int64_t)(units * clock->each);
    if (pcapfile_time_of(&clock->interface, units, &time) != PCAPFILE_OK) return NO_TIME;
    if (__builtin_mul_overflow(time.seconds, (int64_t)1000000000, &ns)) return NO_TIME;
    return __builtin_add_overflow(ns, (int64_t)time.nanoseconds, &ns) ? NO_TIME : ns;
}

/* ---- the interfaces of a section, by number ---- */

typedef struct {
    PyObject_HEAD
    PyObject *module;
    Clock **at;
    size_t count, room;
    int is_used; /* by a call that released the interpreter's lock */
} Clocks;

static void clocks_dealloc(PyObject *self) {
    Clocks *clocks = (Clocks *)self;
    PyObject *module = clocks->module;
    for (size_t i = 0; i < clocks->count; i++) Py_XDECREF(clocks->at[i]);
    PyMem_Free(clocks->at);
    plain_dealloc(self);
    Py_DECREF(module);
}

static Clocks *clocks_new(PyObject *module, size_t room) {
    Clocks *clocks = PyObject_New(Clocks, ((State *)PyModule_GetState(module))->clocks);
    if (!clocks) return NULL;
    Py_INCREF(module);
    clocks->module = module;
    clocks->count = 0, clocks->room = room, clocks->is_used = 0;
    if ((clocks->at = PyMem_Calloc(room, sizeof *clocks->at))) return clocks;
    Py_DECREF(clocks);
    PyErr_NoMemory();
    return NULL;
}

static PyObject *make_clocks(PyObject *module, PyObject *unused) {
    (void)unused;
    return (PyObject *)clocks_new(module, 4);
}

/* Makes room for the interfaces up to this number, and for one more. */
static int clocks_grow(Clocks *clocks, size_t number) {
    if (clocks->is_used) return PyErr_SetString(PyExc_ValueError, "interfaces are in use"), -1;
    if (number < clocks->room) return 0;
    size_t room = number < SIZE_MAX / (2 * sizeof *clocks->at) - 1 ? 2 * number + 1 : 0;
    Clock **at = room ? PyMem_Realloc(clocks->at, room * sizeof *at) : NULL;
    if (!at) return PyErr_NoMemory(), -1;
    memset(at + clocks->room, 0, (room - clocks->room) * sizeof *at);
    clocks->at = at, clocks->room = room;
    return 0;
}

/* add(number, struct, Interface) adds an interface. */
static PyObject *clocks_add(PyObject *self, PyObject *args) {
    Clocks *clocks = (Clocks *)self;
    unsigned int number;
    PyObject *structure, *shown;
    if (!PyArg_ParseTuple(args, "IOO", &number, &structure, &shown)) return NULL;
    if (clocks_grow(clocks, number) < 0) return NULL;
    Clock *clock = clock_new(PyModule_GetState(clocks->module), structure, shown), *before = clocks->at[number];
    if (!clock) return NULL;
    clocks->at[number] = clock;
    if (number >= clocks->count) clocks->count = (size_t)number + 1;
    Py_XDECREF(before);
    Py_RETURN_NONE;
}

static PyObject *clocks_copy(PyObject *self, PyObject *unused) {
    const Clocks *from = (Clocks *)self;
    Clocks *clocks = clocks_new(from->module, from->count + 1);
    (void)unused;
    if (!clocks) return NULL;
    for (size_t i = 0; i < from->count; i++) {
        Py_XINCREF(from->at[i]);
        clocks->at[i] = from->at[i];
    }
    clocks->count = from->count;
    return (PyObject *)clocks;
}
