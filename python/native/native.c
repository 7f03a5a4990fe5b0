/* native.c: packets and rows of captures for Python, based on the functions of pcapfile.h. This is plain C, tested and not proved.
 *
 * This file does the work for each packet, and the Python package does everything else. A walk of the package has a window. Its `data`
 * is a view of the bytes in memory, its `left` are the bytes that the library has not taken, and its `more` reads more bytes.
 *
 * Packets refer to the bytes of the window and keep them alive, so nothing is copied. This file does no arithmetic with the bytes
 * themselves.
 *
 * It uses only the stable interface of Python 3.9, so one file serves 3.9 to 3.13. Every interpreter has its own types and state. */
#include "python_buffers.h"

#include <arpa/inet.h>
#include <stddef.h>
#include <stdint.h>
#include <stdlib.h>
#include <string.h>

#include "pcapfile.h"

#ifndef FREE
#define FREE 64
#endif

/* The state of a module: its types, names of attributes, and the memory of freed packets. */
typedef struct {
    PyTypeObject *open, *chunk, *clock, *clocks, *packet, *block_packet, *walk, *addresses;
    PyObject *more, *offset, *data, *base, *left, *window, *section, *clocks_name, *take, *open_name;
    int n_free;
    void *free[FREE + 1];
} State;

#include "chunks.h"
#include "interfaces.h"
#include "packets.h"
#include "walk.h"
#include "batches.h"
#include "one.h"
#include "rows.h"
#include "addresses.h"
#include "decode.h"
#include "put_rows.h"

/* ---- the types ---- */

static PyMethodDef open_methods[] = { { "close", open_close, METH_NOARGS, "Closes the capture." }, { NULL, NULL, 0, NULL } };
static PyGetSetDef open_attributes[] = {
    { "is_closed", open_is_closed, NULL, "True if the capture is closed.", NULL },
    { NULL, NULL, NULL, NULL, NULL },
};
static PyType_Slot open_slots[] = {
    { Py_tp_doc, "Records whether a capture is open." }, { Py_tp_new, open_new },           { Py_tp_dealloc, plain_dealloc },
    { Py_tp_methods, open_methods },             { Py_tp_getset, open_attributes }, { 0, NULL },
};
static PyType_Slot chunk_slots[] = { { Py_tp_new, no_new }, { Py_tp_dealloc, chunk_dealloc }, { 0, NULL } };
static PyType_Slot clock_slots[] = { { Py_tp_new, no_new }, { Py_tp_dealloc, clock_dealloc }, { 0, NULL } };
static PyMethodDef clocks_methods[] = {
    { "add", clocks_add, METH_VARARGS, "Adds an interface." },
    { "copy", clocks_copy, METH_NOARGS, "Returns a copy with the same interfaces." },
    { NULL, NULL, 0, NULL },
};
static PyType_Slot clocks_slots[] = {
    { Py_tp_new, no_new }, { Py_tp_dealloc, clocks_dealloc }, { Py_tp_methods, clocks_methods }, { 0, NULL },
};
static PyMethodDef addresses_methods[] = {
    { "texts", addresses_texts, METH_NOARGS, "Returns each address as a text." },
    { NULL, NULL, 0, NULL },
};
static PyType_Slot addresses_slots[] = {
    { Py_tp_new, no_new }, { Py_tp_dealloc, addresses_dealloc }, { Py_tp_methods, addresses_methods }, { 0, NULL },
};
static PyGetSetDef walk_attributes[] = {
    { "is_over", walk_is_over, NULL, "True if there are no more packets.", NULL },
    { NULL, NULL, NULL, NULL, NULL },
};
static PyType_Slot walk_slots[] = {
    { Py_tp_doc, "An iterator over the packets of a capture." },
    { Py_tp_new, no_new },
    { Py_tp_dealloc, walk_dealloc },
    { Py_tp_traverse, walk_traverse },
    { Py_tp_clear, walk_clear },
    { Py_tp_getset, walk_attributes },
    { Py_tp_iter, walk_iter },
    { Py_tp_iternext, walk_next },
    { 0, NULL },
};
#define PACKET_SLOTS(NAME) \
    { Py_tp_new, no_new }, { Py_tp_dealloc, packet_dealloc }, { Py_tp_getset, NAME##_attributes }, \
    { Py_tp_richcompare, packet_compare }, { Py_sq_length, NAME##_length }, { Py_sq_item, NAME##_item }, \
    { Py_mp_subscript, packet_subscript }, { Py_bf_getbuffer, packet_buffer }, { 0, NULL }
static PyType_Slot packet_slots[] = {
    { Py_tp_doc, "A packet of a classic capture: a sequence of its fields, and a buffer of its bytes for bytes() and memoryview()." },
    PACKET_SLOTS(packet),
};
static PyType_Slot block_packet_slots[] = {
    { Py_tp_doc, "A packet of a PcapNg capture: a sequence of its fields, and a buffer of its bytes for bytes() and memoryview()." },
    PACKET_SLOTS(block_packet),
};

#define SPEC(NAME, TYPE, FLAGS, SLOTS) { NAME, sizeof(TYPE), 0, Py_TPFLAGS_DEFAULT | (FLAGS), SLOTS }
static PyType_Spec open_spec = SPEC("pcapfile._native.Open", Open, 0, open_slots);
static PyType_Spec chunk_spec = SPEC("pcapfile._native.Chunk", Chunk, 0, chunk_slots);
static PyType_Spec clock_spec = SPEC("pcapfile._native.Clock", Clock, 0, clock_slots);
static PyType_Spec clocks_spec = SPEC("pcapfile._native.Clocks", Clocks, 0, clocks_slots);
static PyType_Spec addresses_spec = SPEC("pcapfile._native.Addresses", Addresses, 0, addresses_slots);
static PyType_Spec walk_spec = SPEC("pcapfile._native.Packets", Walk, Py_TPFLAGS_HAVE_GC, walk_slots);
static PyType_Spec packet_spec = SPEC("pcapfile.Packet", Packet, 0, packet_slots);
static PyType_Spec block_packet_spec = SPEC("pcapfile.BlockPacket", Packet, 0, block_packet_slots);

/* ---- the module ---- */

static int add_types(PyObject *module, State *state) {
    struct {
        PyTypeObject **type;
        PyType_Spec *spec;
        const char *name;
    } types[] = {
        { &state->open, &open_spec, "Open" },       { &state->chunk, &chunk_spec, NULL },
        { &state->clock, &clock_spec, NULL },       { &state->clocks, &clocks_spec, NULL },
        { &state->walk, &walk_spec, NULL },         { &state->packet, &packet_spec, "Packet" },
        { &state->block_packet, &block_packet_spec, "BlockPacket" },
        { &state->addresses, &addresses_spec, NULL },
    };
    for (size_t i = 0; i < sizeof types / sizeof *types; i++) {
        PyObject *type = PyType_FromSpec(types[i].spec);
        *types[i].type = (PyTypeObject *)type;
        if (!type) return -1;
        if (types[i].name) {
            Py_INCREF(type);
            if (PyModule_AddObject(module, types[i].name, type) < 0) return Py_DECREF(type), -1;
        }
    }
    return 0;
}

static int module_exec(PyObject *module) {
    State *state = PyModule_GetState(module);
    struct {
        PyObject **text;
        const char *name;
    } names[] = {
        { &state->more, "more" },       { &state->offset, "offset" },   { &state->data, "data" },
        { &state->base, "base" },       { &state->left, "left" },       { &state->window, "window" },
        { &state->section, "section" }, { &state->clocks_name, "clocks" }, { &state->take, "take" },
        { &state->open_name, "open" },
    };
    for (size_t i = 0; i < sizeof names / sizeof *names; i++)
        if (!(*names[i].text = PyUnicode_InternFromString(names[i].name))) return -1;
    return add_types(module, state);
}

/* Applies DO to each object in the state. */
#define EACH_KEPT(DO) \
    DO(open) DO(chunk) DO(clock) DO(clocks) DO(packet) DO(block_packet) DO(walk) DO(addresses) DO(more) \
    DO(offset) DO(data) DO(base) DO(left) DO(window) DO(section) DO(clocks_name) DO(take) DO(open_name)

static int module_traverse(PyObject *module, visitproc visit, void *arg) {
    State *state = PyModule_GetState(module);
    if (!state) return 0;
#define VISIT(NAME) Py_VISIT(state->NAME);
    EACH_KEPT(VISIT)
    return 0;
}

static int module_clear(PyObject *module) {
    State *state = PyModule_GetState(module);
    if (!state) return 0;
#define CLEAR(NAME) Py_CLEAR(state->NAME);
    EACH_KEPT(CLEAR)
    return 0;
}

static void module_free(void *module) {
    State *state = PyModule_GetState(module);
    if (!state) return;
    module_clear(module);
    while (state->n_free > 0) PyObject_Free(state->free[--state->n_free]);
}

/* address(view) returns the address of a view's bytes. */
static PyObject *address(PyObject *module, PyObject *view) {
    Py_buffer shown;
    (void)module;
    if (PyObject_GetBuffer(view, &shown, PyBUF_SIMPLE) < 0) return NULL;
    PyObject *number = PyLong_FromVoidPtr(shown.buf);
    PyBuffer_Release(&shown);
    return number;
}

static PyMethodDef methods[] = {
    { "address", address, METH_O, "Returns the address of a view's bytes." },
    { "packets", make_walk, METH_VARARGS, "Iterates over the packets of a walk." },
    { "rows", make_rows, METH_VARARGS, "Fills rows of columns from a window." },
    { "decode", decode, METH_VARARGS, "Decodes addresses, ports and protocols of rows." },
    { "gather", gather, METH_VARARGS, "Copies the bytes of rows." },
    { "put_rows", put_rows, METH_VARARGS, "Writes the packets of rows." },
    { "addresses", make_addresses, METH_NOARGS, "Returns an empty table of addresses." },
    { "clocks", make_clocks, METH_NOARGS, "Returns an empty table of interfaces." },
    { "packet", make_packet, METH_VARARGS, "Returns a packet whose data is in these bytes." },
    { "packet_at", packet_at, METH_VARARGS, "Returns the packet with which these bytes begin." },
    { NULL, NULL, 0, NULL },
};
static PyModuleDef_Slot slots[] = { { Py_mod_exec, module_exec }, { 0, NULL } };
static struct PyModuleDef module = {
    PyModuleDef_HEAD_INIT, "pcapfile._native", "Packets and rows of captures.", sizeof(State), methods, slots,
    module_traverse,       module_clear,       module_free,
};

PyMODINIT_FUNC PyInit__native(void) { return PyModuleDef_Init(&module); }
