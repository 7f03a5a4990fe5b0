/* put_rows.h: writes the packets of rows. A part of native.c. */

/* The most bytes that readers accept as the original length in a classic capture. */
enum { MOST_CLASSIC = 262144 };

/* The capture that is written: of PcapNg with the number of an interface that counts nanoseconds, or classic. */
typedef struct {
    int is_ng;
    uint32_t link, number;
    pcapfile_header header;
    pcapfile_section section;
} Capture;

/* Writes the packet of a row to the front of a room. Returns the number of bytes, or 0 if the row is for the package: it has an error,
 * or another link type than the capture, or the room is too short. */
static size_t put_row(const Capture *to, const pcapfile_row *row, const uint8_t *bytes, uint8_t *room, size_t room_len) {
    pcapfile_bytes given = PCAPFILE_NO_BYTES;
    pcapfile_error error = PCAPFILE_ERROR_INIT;
    size_t written = 0;
    int32_t status;
    if (!bytes || row->link != to->link || row->time_ns < 0) return 0;
    if (row->len > 0) given = (pcapfile_bytes){ bytes, row->len };
    if (to->is_ng) {
        pcapfile_ng_packet packet = { PCAPFILE_BLOCK_ENHANCED_PACKET, to->number, row->orig_len, (uint64_t)row->time_ns, given };
        status = pcapfile_put_ng_packet(&to->section, &packet, room, room_len, &written, &error);
    } else {
        int64_t seconds = row->time_ns / 1000000000;
        if (seconds > UINT32_MAX || row->len > row->orig_len || row->orig_len > MOST_CLASSIC) return 0;
        pcapfile_packet packet = { (uint32_t)seconds, (uint32_t)(row->time_ns % 1000000000), row->orig_len, given };
        status = pcapfile_write_packet(&to->header, &packet, room, room_len, &written, &error);
    }
    return status == PCAPFILE_OK ? written : 0;
}

/* Writes packets up to the first one that is for the package. Returns how many they are, and their bytes. */
static PyObject *put_all(const Capture *to, const OfRows *of) {
    const pcapfile_row *rows = of->rows->buf;
    size_t count = (size_t)of->rows->len / sizeof *rows, put = 0, length = 0, written;
    for (; put < count; put++, length += written) {
        written = put_row(to, &rows[put], bytes_of(of, &rows[put]), (uint8_t *)of->to->buf + length, (size_t)of->to->len - length);
        if (written == 0) break;
    }
    return Py_BuildValue("(nn)", (Py_ssize_t)put, (Py_ssize_t)length);
}

/* put_rows(header or section, the interface's number or -1, bytes, rows, room, place) writes the packets of rows with the link type of the
 * first one. The bytes begin at offset `place` of the capture that the rows come from. */
static PyObject *put_rows(PyObject *module, PyObject *args) {
    PyObject *head, *lent[3], *answer = NULL;
    long long number;
    unsigned long long place;
    Py_buffer shown, rows, room;
    (void)module;
    if (!PyArg_ParseTuple(args, "OLOOOK", &head, &number, &lent[0], &lent[1], &lent[2], &place)) return NULL;
    Capture to = { number >= 0, 0, (uint32_t)number, PCAPFILE_HEADER_INIT, PCAPFILE_SECTION_INIT };
    void *copied = to.is_ng ? (void *)&to.section : (void *)&to.header;
    if (copy_struct(head, copied, to.is_ng ? sizeof to.section : sizeof to.header) < 0) return NULL;
    if (PyObject_GetBuffer(lent[0], &shown, PyBUF_SIMPLE) < 0) return NULL;
    if (PyObject_GetBuffer(lent[1], &rows, PyBUF_SIMPLE) == 0) {
        if (PyObject_GetBuffer(lent[2], &room, PyBUF_WRITABLE) == 0) {
            OfRows of = { &shown, &rows, &room, place, { NULL, NULL } };
            if ((size_t)rows.len >= sizeof(pcapfile_row)) to.link = ((const pcapfile_row *)rows.buf)->link;
            answer = put_all(&to, &of);
            PyBuffer_Release(&room);
        }
        PyBuffer_Release(&rows);
    }
    PyBuffer_Release(&shown);
    return answer;
}
