/* batches.h: takes packets from the library in batches, and returns them one by one. A part of native.c. */

/* ---- taking batches ---- */

static int closed(void) {
    PyErr_SetString(PyExc_ValueError, "the capture is closed");
    return -1;
}

/* Returns the chunk for the bytes that the window has now. */
static int see_chunk(Walk *walk) {
    PyObject *shown = PyObject_GetAttr(walk->window, walk->state->data), *base;
    if (!shown) return -1;
    if (!walk->chunk || walk->chunk->shown != shown) {
        Py_CLEAR(walk->chunk);
        if ((base = PyObject_GetAttr(walk->window, walk->state->base))) {
            uint64_t place = PyLong_AsUnsignedLongLong(base);
            if (!PyErr_Occurred()) walk->chunk = chunk_new(walk->module, shown, place);
            Py_DECREF(base);
        }
    }
    Py_DECREF(shown);
    return walk->chunk ? 0 : -1;
}

/* Checks that the bytes left are inside the window's bytes. So the library reads nothing else, even if Python code changed the struct. */
static int left_within(const pcapfile_bytes *told, const Py_buffer *shown, pcapfile_bytes *left) {
    const uint8_t *start = shown->buf;
    size_t len = (size_t)shown->len;
    *left = (pcapfile_bytes)PCAPFILE_NO_BYTES;
    if (told->len == 0) return 0;
    if (told->ptr < start || told->ptr > start + len || told->len > (size_t)(start + len - told->ptr))
        return PyErr_SetString(PyExc_RuntimeError, "the bytes left are outside the window"), -1;
    *left = *told;
    return 0;
}

/* Takes a batch from the library. It keeps the interpreter's lock, since this takes some 20 microseconds. */
static int take_batch(Walk *walk) {
    size_t taken = 0;
    pcapfile_bytes left;
    if (walk->open->is_closed) return closed();
    if (see_chunk(walk) < 0 || left_within(walk->left, &walk->chunk->buffer, &left) < 0) return -1;
    if (walk->is_ng)
        walk->status = pcapfile_take_ng_packets(walk->section, &left, walk->batch.ng, BATCH, &taken, &walk->error);
    else
        walk->status = pcapfile_take_packets(&walk->header, &left, walk->batch.classic, BATCH, &taken, &walk->error);
    if (walk->left->len > 0) *walk->left = left;
    walk->at = 0;
    walk->count = taken;
    return 0;
}

/* Asks the window for more bytes, and returns whether some came. The window may reuse a chunk's buffer if no packet refers to it. */
static int more(Walk *walk, size_t missing) {
    if (walk->open->is_closed) return closed();
    walk->at = walk->count = 0;
    Py_CLEAR(walk->chunk);
    PyObject *number = PyLong_FromSize_t(missing);
    PyObject *came = number ? PyObject_CallMethodObjArgs(walk->window, walk->state->more, number, NULL) : NULL;
    Py_XDECREF(number);
    if (!came) return -1;
    int answer = PyObject_IsTrue(came);
    Py_DECREF(came);
    return answer;
}

static int refuse(Walk *walk) {
    if (walk->open->is_closed) return closed();
    PyObject *offset = PyObject_GetAttr(walk->window, walk->state->offset);
    if (!offset) return -1;
    walk->is_over = 1;
    PyObject *error = PyObject_CallFunction(walk->refused, "iInO", (int)walk->status, (unsigned int)walk->error.rule,
                                            (Py_ssize_t)walk->error.missing, offset);
    Py_DECREF(offset);
    if (error) PyErr_SetObject((PyObject *)Py_TYPE(error), error);
    Py_XDECREF(error);
    return -1;
}

/* Acts on the status of the last batch of a classic capture. Returns 1 if there may be another batch, 0 at the end, and -1 with an
 * error. */
static int go_on(Walk *walk) {
    int32_t status = walk->status;
    if (status != PCAPFILE_OK && status != PCAPFILE_INCOMPLETE) return refuse(walk);
    if (walk->left->len > 0 && status == PCAPFILE_OK) return 1;
    int came = more(walk, status == PCAPFILE_INCOMPLETE ? walk->error.missing : 1);
    if (came == 0 && status == PCAPFILE_INCOMPLETE) return refuse(walk);
    return came;
}

/* Does the same for a PcapNg capture. Here the package takes a section header, an interface, an unreadable packet or a malformed block. */
static int go_on_ng(Walk *walk) {
    if (walk->status == PCAPFILE_INCOMPLETE) {
        int came = more(walk, walk->error.missing);
        if (came <= 0) return came < 0 ? -1 : refuse(walk);
    } else if (walk->status == PCAPFILE_NO_MEMORY) {
        return refuse(walk);
    } else if (walk->status != PCAPFILE_OK) {
        PyObject *told = PyObject_CallMethodObjArgs(walk->source, walk->state->take, NULL);
        if (!told) return -1;
        Py_DECREF(told);
        if (see_clocks(walk) < 0) return -1;
    }
    walk->status = PCAPFILE_OK; /* this status is done with, even if an error of the stream interrupts what follows */
    return walk->left->len > 0 ? 1 : more(walk, 1);
}

/* Fills the batch. Returns 1, 0 at the end, or -1 with an error. Only one thread does this at a time. After an error of a stream, the
 * walk can go on. */
static int refill(Walk *walk) {
    int goes;
    if (walk->is_over) return 0;
    walk->is_running = 1;
    walk->at = walk->count = 0;
    do
        goes = walk->is_ng ? go_on_ng(walk) : go_on(walk);
    while (goes > 0 && (goes = take_batch(walk) < 0 ? -1 : 1) > 0 && walk->count == 0);
    walk->is_running = 0;
    if (goes == 0) walk->is_over = 1;
    if (goes <= 0) Py_CLEAR(walk->chunk);
    return goes;
}

/* ---- returning packets ---- */

/* Returns the program for packets of this link type, or NULL with an error. */
static const void *program_for(Walk *walk, uint32_t link) {
    for (unsigned i = 0; i < walk->n_programs; i++)
        if (walk->programs[i].link == link) return walk->programs[i].program;
    walk->is_running = 1; /* the batch stays unchanged while Python code runs */
    PyObject *told = PyObject_CallMethod(walk->filter, "program", "I", (unsigned int)link);
    walk->is_running = 0;
    const void *program = told ? PyLong_AsVoidPtr(told) : NULL;
    Py_XDECREF(told);
    if (program && walk->n_programs < PROGRAMS) walk->programs[walk->n_programs++] = (Chosen){ link, program };
    return program;
}

/* Returns whether the filter accepts these bytes: 1, 0, or -1 with an error. */
static inline int takes(Walk *walk, uint32_t link, const uint8_t *ptr, uint32_t orig_len, size_t len) {
    const void *program = program_for(walk, link);
    if (!program) return PyErr_Occurred() ? -1 : 0;
    return walk->run(program, ptr, orig_len, (unsigned int)len) != 0;
}

/* Returns whether the filter wants this time. */
static inline int is_within(const Walk *walk, int64_t time) { return time != NO_TIME && walk->since <= time && time < walk->until; }

/* Returns the next packet of the batch. Returns NULL if the filter rejects it, or with an error. */
static inline Packet *next_classic(Walk *walk, const pcapfile_packet *given) {
    if (walk->has_times && !is_within(walk, (int64_t)given->ts_sec * 1000000000 + given->ts_nsec)) return NULL;
    if (walk->run && takes(walk, walk->header.link, given->bytes.ptr, given->orig_len, given->bytes.len) <= 0) return NULL;
    return classic_packet(walk->state, walk->header.link, given);
}

static inline Packet *next_ng(Walk *walk, const pcapfile_ng_packet *given) {
    Clock *clock = given->interface_id < walk->clocks->count ? walk->clocks->at[given->interface_id] : NULL;
    size_t len = stored_len(clock, given);
    if (walk->has_times && (!clock || given->type == PCAPFILE_BLOCK_SIMPLE_PACKET || !is_within(walk, time_in_ns(clock, given->timestamp))))
        return NULL;
    if (walk->run && (!clock || takes(walk, clock->interface.link, given->bytes.ptr, given->orig_len, len) <= 0)) return NULL;
    return ng_packet(walk->state, clock, given, len);
}

/* Returns the time and the bytes of a packet instead of the packet. */
static PyObject *pair_of(Packet *packet, int is_ng) {
    PyObject *time = float_of((PyObject *)packet, is_ng);
    PyObject *bytes = PyBytes_FromStringAndSize((const char *)packet->ptr, packet->len);
    PyObject *pair = time && bytes ? PyTuple_New(2) : NULL;
    Py_DECREF(packet);
    if (!pair) {
        Py_XDECREF(time), Py_XDECREF(bytes);
        return NULL;
    }
    PyTuple_SetItem(pair, 0, time), PyTuple_SetItem(pair, 1, bytes); /* they take over the references, and cannot fail on a new pair */
    return pair;
}

static PyObject *walk_next(PyObject *self) {
    Walk *walk = (Walk *)self;
    if (walk->is_running) return PyErr_SetString(PyExc_ValueError, "another thread takes packets from this walk"), NULL;
    for (;;) {
        if (walk->at == walk->count && refill(walk) <= 0) return NULL;
        if (walk->open->is_closed) return closed(), NULL;
        size_t at = walk->at++;
        Packet *packet = walk->is_ng ? next_ng(walk, &walk->batch.ng[at]) : next_classic(walk, &walk->batch.classic[at]);
        if (packet) {
            Py_INCREF(walk->chunk);
            packet->chunk = walk->chunk;
            return walk->is_pairs ? pair_of(packet, walk->is_ng) : (PyObject *)packet;
        }
        if (PyErr_Occurred()) return NULL;
    }
}

static PyObject *walk_is_over(PyObject *self, void *closure) {
    (void)closure;
    return PyBool_FromLong(((Walk *)self)->is_over);
}

static PyObject *walk_iter(PyObject *self) {
    Py_INCREF(self);
    return self;
}
