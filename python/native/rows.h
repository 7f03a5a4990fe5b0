/* rows.h: rows of columns, which the library writes into an array. A part of native.c. */

#define NO_LINK UINT32_MAX

/* Converts a row of PcapNg in the library's layout to a row of columns, in place. */
static void settle(pcapfile_row *row, const Clocks *clocks) {
    pcapfile_ng_row ng;
    memcpy(&ng, row, sizeof ng);
    const Clock *clock = ng.interface_id < clocks->count ? clocks->at[ng.interface_id] : NULL;
    if (ng.type == PCAPFILE_BLOCK_SIMPLE_PACKET) {
        if (row->len > ng.orig_len) row->len = ng.orig_len;
        if (clock && clock->interface.snaplen && row->len > clock->interface.snaplen) row->len = clock->interface.snaplen;
        row->time_ns = NO_TIME;
    } else {
        row->time_ns = clock ? time_in_ns(clock, ng.timestamp) : NO_TIME;
    }
    row->link = clock ? clock->interface.link : NO_LINK;
}

/* The parameters of a call of rows(). */
typedef struct {
    pcapfile_header header;
    pcapfile_section section;
    Clocks *clocks; /* NULL for a classic capture */
    pcapfile_bytes left;
    pcapfile_row *rows;
    size_t room, taken;
    uint64_t place;
    pcapfile_error error;
    int32_t status;
} Taking;

/* Takes rows without the interpreter's lock. */
static void take_rows(Taking *to) {
    if (to->clocks) {
        to->status = pcapfile_take_ng_rows(&to->section, &to->left, (pcapfile_ng_row *)to->rows, to->room, &to->taken, &to->error);
        for (size_t i = 0; i < to->taken; i++) settle(&to->rows[i], to->clocks), to->rows[i].offset += to->place;
    } else {
        to->status = pcapfile_take_rows(&to->header, &to->left, to->rows, to->room, &to->taken, &to->error);
        for (size_t i = 0; i < to->taken; i++) to->rows[i].offset += to->place;
    }
}

/* Takes rows from the rest of a window into an array, from index `begin` on. It holds the window's bytes meanwhile. */
static PyObject *take_into(Taking *to, Py_buffer *left_view, Py_buffer *shown, Py_buffer *array, Py_ssize_t begin) {
    size_t room = (size_t)array->len / sizeof(pcapfile_row);
    if ((size_t)left_view->len != sizeof to->left || begin < 0 || (size_t)begin > room) {
        PyErr_SetString(PyExc_TypeError, "a struct or rows of another size");
        return NULL;
    }
    if (left_within(left_view->buf, shown, &to->left) < 0) return NULL;
    to->rows = (pcapfile_row *)array->buf + begin;
    to->room = room - (size_t)begin;
    if (to->clocks) to->clocks->is_used++;
    Py_BEGIN_ALLOW_THREADS
    take_rows(to);
    Py_END_ALLOW_THREADS
    if (to->clocks) to->clocks->is_used--;
    pcapfile_bytes *left = left_view->buf;
    if (left->len > 0) *left = to->left;
    return Py_BuildValue("(inIn)", (int)to->status, (Py_ssize_t)to->taken, (unsigned int)to->error.rule, (Py_ssize_t)to->error.missing);
}

/* rows(window, header or section, its interfaces or None, array, begin, place) takes rows into an array from index `begin` on. It adds
 * `place` to their offsets, and returns the status, the number of rows, and the error's rule and missing bytes. */
static PyObject *make_rows(PyObject *module, PyObject *args) {
    State *state = PyModule_GetState(module);
    PyObject *window, *head, *clocks, *array, *answer = NULL;
    Py_buffer left_view, shown_view, rows_view;
    Py_ssize_t begin;
    unsigned long long place;
    if (!PyArg_ParseTuple(args, "OOOOnK", &window, &head, &clocks, &array, &begin, &place)) return NULL;
    Taking to = { PCAPFILE_HEADER_INIT, PCAPFILE_SECTION_INIT, NULL, PCAPFILE_NO_BYTES, NULL, 0, 0, place, PCAPFILE_ERROR_INIT, 0 };
    if (Py_TYPE(clocks) == state->clocks) to.clocks = (Clocks *)clocks;
    void *copied = to.clocks ? (void *)&to.section : (void *)&to.header;
    if (copy_struct(head, copied, to.clocks ? sizeof to.section : sizeof to.header) < 0) return NULL;
    if (let_struct(window, state->left, &left_view, sizeof to.left) < 0) return NULL;
    PyObject *shown = PyObject_GetAttr(window, state->data);
    if (shown && PyObject_GetBuffer(shown, &shown_view, PyBUF_SIMPLE) == 0) {
        if (PyObject_GetBuffer(array, &rows_view, PyBUF_WRITABLE) == 0) {
            answer = take_into(&to, &left_view, &shown_view, &rows_view, begin);
            PyBuffer_Release(&rows_view);
        }
        PyBuffer_Release(&shown_view);
    }
    Py_XDECREF(shown);
    PyBuffer_Release(&left_view);
    return answer;
}
