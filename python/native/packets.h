/* packets.h: packets of both formats. A part of native.c. */

typedef struct {
    PyObject_HEAD
    Chunk *chunk;
    Clock *clock; /* for PcapNg, or NULL if the interface is unknown */
    const uint8_t *ptr;
    uint64_t stamp;                             /* units of the interface, or seconds and nanoseconds */
    uint32_t len, orig_len, interface_id, kind; /* kind: block type of PcapNg, or link type */
} Packet;

static inline Packet *packet_alloc(State *state, PyTypeObject *type) {
    if (state->n_free > 0) return (Packet *)PyObject_Init(state->free[--state->n_free], type);
    return PyObject_New(Packet, type);
}

/* Returns a packet of a classic capture, as yet without a chunk. */
static inline Packet *classic_packet(State *state, uint32_t link, const pcapfile_packet *given) {
    Packet *packet = packet_alloc(state, state->packet);
    if (!packet) return NULL;
    packet->clock = NULL;
    packet->ptr = given->bytes.ptr;
    packet->stamp = (uint64_t)given->ts_sec << 32 | given->ts_nsec;
    packet->len = (uint32_t)given->bytes.len;
    packet->orig_len = given->orig_len;
    packet->interface_id = 0;
    packet->kind = link;
    return packet;
}

/* Returns how many bytes of a PcapNg packet are data. The bytes after the data of a simple packet are padding. */
static inline size_t stored_len(const Clock *clock, const pcapfile_ng_packet *given) {
    size_t len = given->bytes.len;
    if (given->type != PCAPFILE_BLOCK_SIMPLE_PACKET) return len;
    uint32_t most = clock && clock->interface.snaplen ? clock->interface.snaplen : given->orig_len;
    if (most > given->orig_len) most = given->orig_len;
    return len > most ? most : len;
}

/* Returns a packet of a PcapNg capture with `len` bytes, as yet without a chunk. */
static inline Packet *ng_packet(State *state, Clock *clock, const pcapfile_ng_packet *given, size_t len) {
    Packet *packet = packet_alloc(state, state->block_packet);
    if (!packet) return NULL;
    Py_XINCREF(clock);
    packet->clock = clock;
    packet->ptr = given->bytes.ptr;
    packet->stamp = given->timestamp;
    packet->len = (uint32_t)len;
    packet->orig_len = given->orig_len;
    packet->interface_id = given->interface_id;
    packet->kind = given->type;
    return packet;
}

static void packet_dealloc(PyObject *self) {
    Packet *packet = (Packet *)self;
    PyTypeObject *type = Py_TYPE(self);
    Chunk *chunk = packet->chunk;
    Py_XDECREF(packet->clock);
    if (chunk->state->n_free < FREE) chunk->state->free[chunk->state->n_free++] = self;
    else PyObject_Free(self);
    Py_DECREF(type);
    Py_DECREF(chunk);
}

static int packet_buffer(PyObject *self, Py_buffer *view, int flags) {
    const Packet *packet = (Packet *)self;
    return PyBuffer_FillInfo(view, self, (void *)packet->ptr, packet->len, packet->chunk->buffer.readonly, flags);
}

static inline Py_ssize_t place_in_chunk(const Packet *packet) { return packet->ptr - (const uint8_t *)packet->chunk->buffer.buf; }

/* Returns whether a packet has a time, and the time. */
static inline int time_of(const Packet *packet, int is_ng, pcapfile_time *time) {
    if (is_ng)
        return packet->clock && packet->kind != PCAPFILE_BLOCK_SIMPLE_PACKET &&
               pcapfile_time_of(&packet->clock->interface, packet->stamp, time) == PCAPFILE_OK;
    time->seconds = (int64_t)(packet->stamp >> 32);
    time->nanoseconds = (uint32_t)packet->stamp;
    return 1;
}

static inline PyObject *seconds_of(PyObject *self, int is_ng) {
    pcapfile_time time = PCAPFILE_TIME_INIT;
    if (!time_of((Packet *)self, is_ng, &time)) Py_RETURN_NONE;
    return PyLong_FromLongLong(time.seconds);
}

static inline PyObject *nanoseconds_of(PyObject *self, int is_ng) {
    pcapfile_time time = PCAPFILE_TIME_INIT;
    return PyLong_FromUnsignedLong(time_of((Packet *)self, is_ng, &time) ? time.nanoseconds : 0);
}

static inline PyObject *float_of(PyObject *self, int is_ng) {
    pcapfile_time time = PCAPFILE_TIME_INIT;
    if (!time_of((Packet *)self, is_ng, &time)) Py_RETURN_NONE;
    return PyFloat_FromDouble((double)time.seconds + time.nanoseconds / 1e9);
}

/* The nanoseconds exceed 64 bits. */
static PyObject *long_ns_of(const pcapfile_time *time) {
    PyObject *seconds = PyLong_FromLongLong(time->seconds), *second = PyLong_FromLong(1000000000);
    PyObject *product = seconds && second ? PyNumber_Multiply(seconds, second) : NULL;
    PyObject *rest = PyLong_FromUnsignedLong(time->nanoseconds);
    PyObject *sum = product && rest ? PyNumber_Add(product, rest) : NULL;
    Py_XDECREF(seconds), Py_XDECREF(second), Py_XDECREF(product), Py_XDECREF(rest);
    return sum;
}

static inline PyObject *ns_of(PyObject *self, int is_ng) {
    pcapfile_time time = PCAPFILE_TIME_INIT;
    if (!time_of((Packet *)self, is_ng, &time)) Py_RETURN_NONE;
    if (time.seconds <= -9000000000 || time.seconds >= 9000000000) return long_ns_of(&time);
    return PyLong_FromLongLong(time.seconds * 1000000000 + time.nanoseconds);
}

#define BOTH(NAME) \
    static PyObject *get_##NAME(PyObject *self, void *closure) { (void)closure; return NAME##_of(self, 0); } \
    static PyObject *get_##NAME##_ng(PyObject *self, void *closure) { (void)closure; return NAME##_of(self, 1); }
BOTH(seconds) BOTH(nanoseconds) BOTH(float) BOTH(ns)

#define NUMBER(NAME, FIELD) \
    static PyObject *get_##NAME(PyObject *self, void *closure) { \
        (void)closure; \
        return PyLong_FromUnsignedLong(((Packet *)self)->FIELD); \
    }
NUMBER(original_length, orig_len) NUMBER(length, len) NUMBER(kind, kind) NUMBER(interface_id, interface_id)

static PyObject *get_data(PyObject *self, void *closure) {
    (void)closure;
    return PyMemoryView_FromObject(self);
}

static PyObject *get_offset(PyObject *self, void *closure) {
    const Packet *packet = (Packet *)self;
    (void)closure;
    return PyLong_FromUnsignedLongLong(packet->chunk->base + (uint64_t)place_in_chunk(packet));
}

static PyObject *get_timestamp(PyObject *self, void *closure) {
    (void)closure;
    return PyLong_FromUnsignedLongLong(((Packet *)self)->stamp);
}

static PyObject *get_none(PyObject *self, void *closure) {
    (void)self, (void)closure;
    Py_RETURN_NONE;
}

static PyObject *get_interface(PyObject *self, void *closure) {
    const Clock *clock = ((Packet *)self)->clock;
    PyObject *shown = clock ? clock->shown : Py_None;
    (void)closure;
    Py_INCREF(shown);
    return shown;
}

static PyObject *get_link_ng(PyObject *self, void *closure) {
    const Clock *clock = ((Packet *)self)->clock;
    (void)closure;
    if (!clock) Py_RETURN_NONE;
    return PyLong_FromUnsignedLong(clock->interface.link);
}

static PyObject *get_around(PyObject *self, void *closure) {
    const Packet *packet = (Packet *)self;
    (void)closure;
    return Py_BuildValue("(On)", packet->chunk->view, place_in_chunk(packet));
}

/* The documentation of an attribute: what it is, and an example with its value in a capture of the tests. */
#define SHOWN(TEXT, EXAMPLE, VALUE) TEXT "\n\n    >>> " EXAMPLE "\n    " VALUE

#define AROUND { "_around", get_around, NULL, "The buffer that contains the data, and the place at which the data begins in it.", NULL }
#define DATA(VALUE) \
    { "data", get_data, NULL, \
      SHOWN("The stored bytes, as a view that stays valid as long as it exists.", "bytes(packet.data[:2])", VALUE), NULL }
#define OFFSET(VALUE) \
    { "offset", get_offset, NULL, SHOWN("Where its data begins, in bytes from the capture's start.", "packet.offset", VALUE), NULL }
#define LENGTH(VALUE) \
    { "length", get_length, NULL, SHOWN("The number of bytes that the capture stores of the packet.", "packet.length", VALUE), NULL }
#define ORIGINAL(VALUE) \
    { "original_length", get_original_length, NULL, \
      SHOWN("The number of bytes of the packet on the wire.", "packet.original_length", VALUE), NULL }
#define NANOSECONDS(GET, VALUE) \
    { "nanoseconds", GET, NULL, SHOWN("The nanoseconds of the time after `seconds`.", "packet.nanoseconds", VALUE), NULL }

/* The first attributes are also the items of the packet as a sequence. */
static PyGetSetDef packet_attributes[] = {
    { "seconds", get_seconds, NULL, SHOWN("The whole seconds of the time since 1970.", "packet.seconds", "1335958313"), NULL },
    NANOSECONDS(get_nanoseconds, "152630000"),
    ORIGINAL("98"),
    DATA("b'\\x00\\x01'"),
    { "link", get_kind, NULL, SHOWN("The number of the packet's link type.", "packet.link", "1"), NULL },
    OFFSET("40"),
    LENGTH("98"),
    { "time", get_float, NULL,
      SHOWN("The time in seconds since 1970, as a float. `seconds` and `nanoseconds` are exact.", "packet.time", "1335958313.15263"), NULL },
    { "time_ns", get_ns, NULL, SHOWN("The time in nanoseconds since 1970.", "packet.time_ns", "1335958313152630000"), NULL },
    { "interface", get_none, NULL,
      SHOWN("None, because a classic capture has no interfaces.", "print(packet.interface)", "None"), NULL },
    AROUND,
    { NULL, NULL, NULL, NULL, NULL },
};
static PyGetSetDef block_packet_attributes[] = {
    { "seconds", get_seconds_ng, NULL, SHOWN("The whole seconds of the time since 1970, or None.", "packet.seconds", "1700000000"), NULL },
    NANOSECONDS(get_nanoseconds_ng, "0"),
    ORIGINAL("60"),
    DATA("b'ab'"),
    { "timestamp", get_timestamp, NULL,
      SHOWN("The time in units of the packet's interface.", "packet.timestamp", "1700000000000000000"), NULL },
    { "interface_id", get_interface_id, NULL,
      SHOWN("The number of the packet's interface in its section.", "packet.interface_id", "0"), NULL },
    { "interface", get_interface, NULL,
      SHOWN("The packet's interface, or None if it is unknown.", "packet.interface.ts_exponent", "9"), NULL },
    OFFSET("108"),
    LENGTH("3"),
    { "time", get_float_ng, NULL,
      SHOWN("The time in seconds since 1970, as a float, or None. `seconds` and `nanoseconds` are exact.", "packet.time", "1700000000.0"),
      NULL },
    { "time_ns", get_ns_ng, NULL,
      SHOWN("The time in nanoseconds since 1970, or None.", "packet.time_ns", "1700000000000000000"), NULL },
    { "link", get_link_ng, NULL,
      SHOWN("The number of the packet's link type, or None if its interface is unknown.", "packet.link", "1"), NULL },
    AROUND,
    { NULL, NULL, NULL, NULL, NULL },
};
enum { FIELDS = 6, FIELDS_NG = 8 };

static inline PyObject *item_of(PyObject *self, Py_ssize_t at, const PyGetSetDef *fields, Py_ssize_t count) {
    if (at >= 0 && at < count) return fields[at].get(self, NULL);
    PyErr_SetString(PyExc_IndexError, "a packet has no such field");
    return NULL;
}

static PyObject *packet_item(PyObject *self, Py_ssize_t at) { return item_of(self, at, packet_attributes, FIELDS); }
static PyObject *block_packet_item(PyObject *self, Py_ssize_t at) { return item_of(self, at, block_packet_attributes, FIELDS_NG); }
static Py_ssize_t packet_length(PyObject *self) { return (void)self, FIELDS; }
static Py_ssize_t block_packet_length(PyObject *self) { return (void)self, FIELDS_NG; }

/* A subscript may also be a slice, or a number that counts from the end. */
static PyObject *packet_subscript(PyObject *self, PyObject *key) {
    PyObject *fields = PySequence_Tuple(self), *found = fields ? PyObject_GetItem(fields, key) : NULL;
    Py_XDECREF(fields);
    return found;
}

static PyObject *packet_compare(PyObject *self, PyObject *other, int op) {
    if (!PyTuple_Check(other) && Py_TYPE(other) != Py_TYPE(self)) Py_RETURN_NOTIMPLEMENTED;
    PyObject *ours = PySequence_Tuple(self), *theirs = PySequence_Tuple(other), *answer = NULL;
    if (ours && theirs) answer = PyObject_RichCompare(ours, theirs, op);
    Py_XDECREF(ours), Py_XDECREF(theirs);
    return answer;
}

static PyObject *no_new(PyTypeObject *type, PyObject *args, PyObject *words) {
    (void)type, (void)args, (void)words;
    PyErr_SetString(PyExc_TypeError, "only captures make these objects");
    return NULL;
}

/* packet(is of PcapNg, bytes, at, length, offset, stamp, original length, interface's number, kind, struct or None, Interface) returns
 * a packet whose data begins at `at` in `bytes`, for example one that was pickled. */
static PyObject *make_packet(PyObject *module, PyObject *args) {
    State *state = PyModule_GetState(module);
    int is_ng;
    PyObject *bytes, *structure, *shown;
    Py_ssize_t at;
    unsigned int len, original, number, kind;
    unsigned long long offset, stamp;
    if (!PyArg_ParseTuple(args, "pOnIKKIIIOO", &is_ng, &bytes, &at, &len, &offset, &stamp, &original, &number, &kind, &structure, &shown))
        return NULL;
    Chunk *chunk = chunk_new(module, bytes, offset - (uint64_t)at);
    if (!chunk) return NULL;
    Clock *clock = NULL;
    Packet *packet = NULL;
    if (at < 0 || at > chunk->buffer.len || len > (size_t)(chunk->buffer.len - at))
        PyErr_SetString(PyExc_ValueError, "the packet exceeds the bytes");
    else if (structure == Py_None || (clock = clock_new(state, structure, shown)))
        packet = packet_alloc(state, is_ng ? state->block_packet : state->packet);
    if (!packet) {
        Py_XDECREF(clock);
        Py_DECREF(chunk);
        return NULL;
    }
    packet->chunk = chunk, packet->clock = clock;
    packet->ptr = (const uint8_t *)chunk->buffer.buf + at;
    packet->stamp = stamp, packet->len = len, packet->orig_len = original, packet->interface_id = number, packet->kind = kind;
    return (PyObject *)packet;
}
