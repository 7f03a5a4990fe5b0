/* one.h: the packet at the front of some bytes, for access by number. A part of native.c. */

/* What a packet depends on: the header of a classic capture, or the section with its interfaces. */
typedef struct {
    pcapfile_header header;
    pcapfile_section section;
    const Clocks *clocks; /* NULL for a classic capture */
} Around;

/* Returns the packet at the front of the bytes, as yet without a chunk. Returns NULL, without an error, if there is none. */
static Packet *front_packet(State *state, const Around *around, pcapfile_bytes left) {
    pcapfile_error error = PCAPFILE_ERROR_INIT;
    size_t taken = 0;
    if (!around->clocks) {
        pcapfile_packet packet = PCAPFILE_PACKET_INIT;
        pcapfile_take_packets(&around->header, &left, &packet, 1, &taken, &error);
        return taken == 1 ? classic_packet(state, around->header.link, &packet) : NULL;
    }
    pcapfile_ng_packet packet = PCAPFILE_NG_PACKET_INIT;
    pcapfile_take_ng_packets(&around->section, &left, &packet, 1, &taken, &error);
    if (taken != 1) return NULL;
    /* The table may have interfaces that the capture describes after this packet. */
    size_t count = around->section.interfaces < around->clocks->count ? around->section.interfaces : around->clocks->count;
    Clock *clock = packet.interface_id < count ? around->clocks->at[packet.interface_id] : NULL;
    return ng_packet(state, clock, &packet, stored_len(clock, &packet));
}

/* Returns the packet at the front of the bytes, or None if there is none. */
static PyObject *packet_in(PyObject *module, PyObject *bytes, uint64_t place, const Around *around) {
    Chunk *chunk = chunk_new(module, bytes, place);
    if (!chunk) return NULL;
    pcapfile_bytes left = PCAPFILE_NO_BYTES;
    if (chunk->buffer.len > 0) left = (pcapfile_bytes){ chunk->buffer.buf, (size_t)chunk->buffer.len };
    Packet *packet = front_packet(chunk->state, around, left);
    if (packet) {
        packet->chunk = chunk;
        return (PyObject *)packet;
    }
    Py_DECREF(chunk);
    if (PyErr_Occurred()) return NULL;
    Py_RETURN_NONE;
}

/* packet_at(bytes, place, header or None, magic number, number of interfaces, interfaces or None) returns the packet with which the bytes
 * begin, at offset `place` of the capture. It returns None if they begin with something else. */
static PyObject *packet_at(PyObject *module, PyObject *args) {
    State *state = PyModule_GetState(module);
    PyObject *bytes, *header, *clocks;
    unsigned long long place;
    Around around = { PCAPFILE_HEADER_INIT, PCAPFILE_SECTION_INIT, NULL };
    around.section.version_major = 1;
    if (!PyArg_ParseTuple(args, "OKOIIO", &bytes, &place, &header, &around.section.magic_number, &around.section.interfaces, &clocks))
        return NULL;
    if (Py_TYPE(clocks) == state->clocks) around.clocks = (Clocks *)clocks;
    else if (copy_struct(header, &around.header, sizeof around.header) < 0) return NULL;
    return packet_in(module, bytes, place, &around);
}
