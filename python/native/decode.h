/* decode.h: reads addresses, ports and protocols out of packets, with the same results as _decode.py with numpy. A part of native.c. */

/* The values of a packet: the version of IP or 0, both addresses in two halves, the protocol or -1, and both ports or -1. */
typedef struct {
    uint64_t source_high, source, destination_high, destination;
    int32_t source_port, destination_port, protocol, version;
} Decoded;

/* The same values in columns: the indexes of both addresses or -1, and the bits for missing values. */
typedef struct {
    int32_t source, destination;
    uint16_t source_port, destination_port;
    uint8_t protocol, missing;
} Told;
enum { NO_PORTS = 1, NO_PROTOCOL = 2 };

enum { ETHERTYPE_IPV4 = 0x0800, ETHERTYPE_IPV6 = 0x86DD, MOST_TAGS = 3, MOST_EXTENSIONS = 8, FRAGMENT = 44 };

static inline unsigned two(const uint8_t *at) { return (unsigned)at[0] << 8 | at[1]; }
static inline uint64_t four(const uint8_t *at) { return (uint64_t)two(at) << 16 | two(at + 2); }
static inline uint64_t eight(const uint8_t *at) { return four(at) << 32 | four(at + 4); }

static inline int is_tag(unsigned kind) { return kind == 0x8100 || kind == 0x88A8 || kind == 0x9100; }
static inline int has_ports(int protocol) {
    return protocol == 6 || protocol == 17 || protocol == 33 || protocol == 132 || protocol == 136;
}
static inline int is_extension(int protocol) { return protocol == 0 || protocol == 43 || protocol == 60 || protocol == FRAGMENT; }

/* Reads the ports, if `length` bytes suffice. */
static void read_ports(const uint8_t *bytes, size_t len, size_t at, int protocol, Decoded *to) {
    if (!has_ports(protocol) || at > len || len - at < 4) return;
    to->source_port = (int32_t)two(bytes + at);
    to->destination_port = (int32_t)two(bytes + at + 2);
}

static void read_ipv4(const uint8_t *bytes, size_t len, Decoded *to) {
    if (len < 20 || bytes[0] >> 4 != 4 || (bytes[0] & 15) < 5) return;
    to->version = 4;
    to->protocol = bytes[9];
    to->source = four(bytes + 12), to->destination = four(bytes + 16);
    if ((two(bytes + 6) & 0x1FFF) == 0) read_ports(bytes, len, (size_t)(bytes[0] & 15) * 4, bytes[9], to);
}

static void read_ipv6(const uint8_t *bytes, size_t len, Decoded *to) {
    if (len < 40 || bytes[0] >> 4 != 6) return;
    to->version = 6;
    to->source_high = eight(bytes + 8), to->source = eight(bytes + 16);
    to->destination_high = eight(bytes + 24), to->destination = eight(bytes + 32);
    int protocol = bytes[6], is_first = 1;
    size_t at = 40;
    for (int i = 0; i < MOST_EXTENSIONS && is_first && is_extension(protocol) && at <= len && len - at >= 8; i++) {
        const uint8_t *head = bytes + at;
        at += protocol == FRAGMENT ? 8 : ((size_t)head[1] + 1) * 8;
        if (protocol == FRAGMENT) is_first = (two(head + 2) & 0xFFF8) == 0;
        protocol = head[0];
    }
    /* a packet that ends within its extension headers, or has too many of them, has no protocol */
    to->protocol = is_extension(protocol) ? -1 : protocol;
    if (is_first) read_ports(bytes, len, at, protocol, to);
}

/* Returns where a link layer has the type of its content, and the length of its header, or 0 for an unknown link type. */
static size_t link_head(uint32_t link, size_t *kind_at) {
    *kind_at = link == 1 ? 12 : link == 113 ? 14 : 0;
    return link == 1 ? 14 : link == 113 ? 16 : link == 276 ? 20 : 0;
}

static void decode_packet(const uint8_t *bytes, size_t len, uint32_t link, Decoded *to) {
    size_t kind_at, at = link_head(link, &kind_at);
    unsigned kind = 0;
    *to = (Decoded){ 0, 0, 0, 0, -1, -1, -1, 0 };
    if (at > 0) {
        if (len < at) return;
        kind = two(bytes + kind_at);
        for (int i = 0; i < MOST_TAGS && is_tag(kind); i++, at += 4) {
            if (len - at < 4) return;
            kind = two(bytes + at + 2);
        }
    } else if (len > 0 && (link == 12 || link == 14 || link == 101 || link == 228 || link == 229)) {
        kind = bytes[0] >> 4 == 4 ? ETHERTYPE_IPV4 : bytes[0] >> 4 == 6 ? ETHERTYPE_IPV6 : 0;
    }
    if (kind == ETHERTYPE_IPV4) read_ipv4(bytes + at, len - at, to);
    else if (kind == ETHERTYPE_IPV6) read_ipv6(bytes + at, len - at, to);
}

static inline Address source_of(const Decoded *from) { return (Address){ from->source_high, from->source, from->version }; }
static inline Address destination_of(const Decoded *from) {
    return (Address){ from->destination_high, from->destination, from->version };
}

/* A decoded packet, with the hashes of its addresses in the tables. */
typedef struct {
    Decoded decoded;
    uint64_t source, destination;
} Hashed;

/* Writes the values to a row. Returns 0, or -1 if memory is exhausted. */
static inline int tell(const Hashed *hashed, Addresses *const addresses[2], Told *to) {
    const Decoded *from = &hashed->decoded;
    *to = (Told){ -1, -1, 0, 0, 0, NO_PORTS | NO_PROTOCOL };
    if (from->version == 0) return 0;
    to->source = number_of(addresses[0], source_of(from), hashed->source);
    to->destination = number_of(addresses[1], destination_of(from), hashed->destination);
    if (from->protocol >= 0) to->protocol = (uint8_t)from->protocol, to->missing &= NO_PORTS;
    if (from->source_port >= 0) {
        to->source_port = (uint16_t)from->source_port, to->destination_port = (uint16_t)from->destination_port;
        to->missing &= NO_PROTOCOL;
    }
    return to->source < 0 || to->destination < 0 ? -1 : 0;
}

/* A function over the bytes of rows, which `shown` has from an offset of the capture on, into an array. It returns 0, -1 if memory is
 * exhausted, or -2 if a packet exceeds the bytes or the array has another length. */
typedef struct {
    const Py_buffer *shown, *rows, *to;
    uint64_t place;
    Addresses *addresses[2]; /* the sources and the destinations, or NULL */
} OfRows;

/* Returns where the bytes of a row are, or NULL if they exceed the shown bytes. */
static inline const uint8_t *bytes_of(const OfRows *of, const pcapfile_row *row) {
    uint64_t begin = row->offset - of->place, shown = (uint64_t)of->shown->len;
    return begin > shown || row->len > shown - begin ? NULL : (const uint8_t *)of->shown->buf + begin;
}

/* The number of packets that are decoded before their addresses are looked up. */
enum { GROUP = 16 };

/* Decodes some packets. Returns 0, or -2 if one exceeds the bytes. */
static int decode_group(const OfRows *of, const pcapfile_row *rows, size_t count, Hashed group[]) {
    for (size_t i = 0; i < count; i++) {
        const uint8_t *bytes = bytes_of(of, &rows[i]);
        if (!bytes) return -2;
        decode_packet(bytes, rows[i].len, pcapfile_link_type(rows[i].link), &group[i].decoded);
        Address source = source_of(&group[i].decoded), destination = destination_of(&group[i].decoded);
        fetch_slot(of->addresses[0], group[i].source = hash_of(of->addresses[0], &source));
        fetch_slot(of->addresses[1], group[i].destination = hash_of(of->addresses[1], &destination));
    }
    return 0;
}

static int decode_rows(const OfRows *of) {
    const pcapfile_row *rows = of->rows->buf;
    size_t count = (size_t)of->rows->len / sizeof *rows;
    Told *to = of->to->buf;
    if ((size_t)of->to->len / sizeof *to != count) return -2;
    for (size_t begin = 0; begin < count; begin += GROUP) {
        Hashed group[GROUP];
        size_t length = count - begin < GROUP ? count - begin : GROUP;
        if (decode_group(of, rows + begin, length, group) < 0) return -2;
        for (size_t i = 0; i < length; i++)
            if (tell(&group[i], of->addresses, &to[begin + i]) < 0) return -1;
    }
    return 0;
}

static int gather_rows(const OfRows *of) {
    const pcapfile_row *rows = of->rows->buf;
    size_t count = (size_t)of->rows->len / sizeof *rows, left = (size_t)of->to->len;
    uint8_t *next = of->to->buf;
    for (size_t i = 0; i < count; i++) {
        const uint8_t *bytes = bytes_of(of, &rows[i]);
        size_t len = rows[i].len;
        if (!bytes || len > left) return -2;
        if (len > 0) memcpy(next, bytes, len);
        next += len, left -= len;
    }
    return left > 0 ? -2 : 0;
}

/* Checks whether another thread uses the addresses, or marks them as used or free. */
static int are_used(const OfRows *of) { return of->addresses[0] && (of->addresses[0]->is_used || of->addresses[1]->is_used); }
static void use(const OfRows *of, int is_used) {
    for (int i = 0; i < 2; i++)
        if (of->addresses[i]) of->addresses[i]->is_used = is_used;
}

/* Runs the function without the interpreter's lock. */
static PyObject *done_of_rows(const OfRows *of, int (*done)(const OfRows *)) {
    int status;
    if (are_used(of)) return PyErr_SetString(PyExc_ValueError, "addresses are in use"), NULL;
    use(of, 1);
    Py_BEGIN_ALLOW_THREADS
    status = done(of);
    Py_END_ALLOW_THREADS
    use(of, 0);
    if (status == -1) return PyErr_NoMemory();
    if (status == 0) Py_RETURN_NONE;
    return PyErr_SetString(PyExc_ValueError, "a packet exceeds the bytes, or the array has another length"), NULL;
}

/* Holds the bytes, the rows and the array during a call. */
static PyObject *with_rows(PyObject *lent[3], uint64_t place, PyObject *addresses[2], int (*done)(const OfRows *)) {
    Py_buffer shown, rows, to;
    PyObject *answer = NULL;
    if (PyObject_GetBuffer(lent[0], &shown, PyBUF_SIMPLE) < 0) return NULL;
    if (PyObject_GetBuffer(lent[1], &rows, PyBUF_SIMPLE) == 0) {
        if (PyObject_GetBuffer(lent[2], &to, PyBUF_WRITABLE) == 0) {
            OfRows of = { &shown, &rows, &to, place, { (Addresses *)addresses[0], (Addresses *)addresses[1] } };
            answer = done_of_rows(&of, done);
            PyBuffer_Release(&to);
        }
        PyBuffer_Release(&rows);
    }
    PyBuffer_Release(&shown);
    return answer;
}

/* decode(bytes, rows, array, place, sources, destinations) fills an array with the decoded values of the packets of rows. */
static PyObject *decode(PyObject *module, PyObject *args) {
    State *state = PyModule_GetState(module);
    PyObject *lent[3], *addresses[2];
    unsigned long long place;
    if (!PyArg_ParseTuple(args, "OOOKOO", &lent[0], &lent[1], &lent[2], &place, &addresses[0], &addresses[1])) return NULL;
    if (Py_TYPE(addresses[0]) == state->addresses && Py_TYPE(addresses[1]) == state->addresses && addresses[0] != addresses[1])
        return with_rows(lent, place, addresses, decode_rows);
    return PyErr_SetString(PyExc_TypeError, "decode needs two different tables of addresses"), NULL;
}

/* gather(bytes, rows, array, place) fills an array with the bytes of the packets of rows, one packet after another. */
static PyObject *gather(PyObject *module, PyObject *args) {
    PyObject *lent[3], *addresses[2] = { NULL, NULL };
    unsigned long long place;
    (void)module;
    if (!PyArg_ParseTuple(args, "OOOK", &lent[0], &lent[1], &lent[2], &place)) return NULL;
    return with_rows(lent, place, addresses, gather_rows);
}
