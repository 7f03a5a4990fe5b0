/* addresses.h: a table of distinct IP addresses in the order of their arrival. A part of native.c. */

typedef struct {
    uint64_t high, low;
    int32_t version; /* 4 or 6 */
} Address;

/* A slot of the hash table. `low` are the low 32 bits of an address. `kind` is 0 in a free slot. In others it is twice the number of the
 * address plus one, and one more for IPv6. So a slot identifies an IPv4 address without a look at the address itself. */
typedef struct {
    uint32_t low, kind;
} Slot;

/* The distinct addresses, and a hash table of them. */
typedef struct {
    PyObject_HEAD
    Address *at;
    Slot *slots;
    size_t count, room; /* there are SLOTS times as many slots, and their number is a power of two */
    uint64_t seed;
    int is_used; /* by a call that released the interpreter's lock */
} Addresses;

/* With so many slots for each address, seven of eight lookups find theirs at once. */
enum { SLOTS = 4 };

static void addresses_dealloc(PyObject *self) {
    free(((Addresses *)self)->at);
    free(((Addresses *)self)->slots);
    plain_dealloc(self);
}

static PyObject *make_addresses(PyObject *module, PyObject *unused) {
    (void)unused;
    State *state = PyModule_GetState(module);
    Addresses *addresses = PyObject_New(Addresses, state->addresses);
    if (!addresses) return NULL;
    addresses->at = NULL, addresses->slots = NULL;
    addresses->count = addresses->room = 0, addresses->is_used = 0;
    /* Python's hashes of texts differ between processes. So nobody can choose addresses that have the same hash. */
    addresses->seed = (uint64_t)PyObject_Hash(state->window);
    return (PyObject *)addresses;
}

static inline uint64_t hash_of(const Addresses *addresses, const Address *address) {
    unsigned __int128 first = (unsigned __int128)(address->low ^ addresses->seed) * 0x9E3779B97F4A7C15u;
    uint64_t folded = (uint64_t)(first >> 64) ^ (uint64_t)first ^ (uint64_t)address->version;
    unsigned __int128 second = (unsigned __int128)(folded ^ address->high) * (addresses->seed | 1);
    return (uint64_t)(second >> 64) ^ (uint64_t)second;
}

/* Fetches the first slot for a hash into the processor's cache. */
static inline void fetch_slot(const Addresses *addresses, uint64_t hash) {
    if (addresses->room > 0) __builtin_prefetch(&addresses->slots[hash & (SLOTS * addresses->room - 1)]);
}

/* Returns whether a slot that is not free has an address. */
static inline int has_address(const Addresses *addresses, const Slot *slot, const Address *address) {
    if (slot->low != (uint32_t)address->low || (slot->kind & 1) != (uint32_t)(address->version == 6)) return 0;
    const Address *there = &addresses->at[slot->kind / 2 - 1];
    return address->version == 4 || (there->low == address->low && there->high == address->high);
}

/* Returns the slot of an address with this hash: the one that has it, or a free one. */
static inline Slot *find_slot(const Addresses *addresses, const Address *address, uint64_t hash) {
    size_t last = SLOTS * addresses->room - 1, at = hash & last;
    while (addresses->slots[at].kind && !has_address(addresses, &addresses->slots[at], address)) at = (at + 1) & last;
    return &addresses->slots[at];
}

/* Puts the address with this number into its slot. */
static inline void fill_slot(Slot *slot, const Address *address, size_t number) {
    *slot = (Slot){ (uint32_t)address->low, 2 * ((uint32_t)number + 1) + (address->version == 6) };
}

static int addresses_grow(Addresses *addresses) {
    size_t room = addresses->room ? 2 * addresses->room : 1024;
    if (room > INT32_MAX / 2) return -1;
    Address *at = realloc(addresses->at, room * sizeof *at);
    if (!at) return -1;
    addresses->at = at;
    Slot *slots = calloc(SLOTS * room, sizeof *slots);
    if (!slots) return -1;
    free(addresses->slots);
    addresses->slots = slots, addresses->room = room;
    for (size_t i = 0; i < addresses->count; i++) fill_slot(find_slot(addresses, &at[i], hash_of(addresses, &at[i])), &at[i], i);
    return 0;
}

/* Returns the index of an address with this hash. It adds the address if necessary. Returns -1 if memory or indexes are exhausted. */
static inline int32_t number_of(Addresses *addresses, Address address, uint64_t hash) {
    if (addresses->count == addresses->room && addresses_grow(addresses) < 0) return -1;
    Slot *slot = find_slot(addresses, &address, hash);
    if (!slot->kind) {
        addresses->at[addresses->count] = address;
        fill_slot(slot, &address, addresses->count++);
    }
    return (int32_t)(slot->kind / 2 - 1);
}

/* Writes an IPv4 address as a text. Returns its length. */
static size_t ipv4_text(uint32_t address, char *to) {
    char *at = to;
    for (int shift = 24; shift >= 0; shift -= 8) {
        unsigned byte = address >> shift & 255;
        if (byte >= 100) *at++ = (char)('0' + byte / 100);
        if (byte >= 10) *at++ = (char)('0' + byte / 10 % 10);
        *at++ = (char)('0' + byte % 10);
        if (shift > 0) *at++ = '.';
    }
    return (size_t)(at - to);
}

/* Writes an address as a text. Returns its length. */
static size_t address_text(const Address *address, char to[INET6_ADDRSTRLEN]) {
    uint8_t bytes[16];
    if (address->version == 4) return ipv4_text((uint32_t)address->low, to);
    for (int k = 0; k < 8; k++) {
        bytes[k] = (uint8_t)(address->high >> (56 - 8 * k));
        bytes[8 + k] = (uint8_t)(address->low >> (56 - 8 * k));
    }
    return inet_ntop(AF_INET6, bytes, to, INET6_ADDRSTRLEN) ? strlen(to) : 0;
}

/* texts() returns each address as a text. */
static PyObject *addresses_texts(PyObject *self, PyObject *unused) {
    const Addresses *addresses = (Addresses *)self;
    (void)unused;
    if (addresses->is_used) return PyErr_SetString(PyExc_ValueError, "addresses are in use"), NULL;
    PyObject *list = PyList_New((Py_ssize_t)addresses->count);
    for (size_t i = 0; list && i < addresses->count; i++) {
        char to[INET6_ADDRSTRLEN];
        PyObject *text = PyUnicode_FromStringAndSize(to, (Py_ssize_t)address_text(&addresses->at[i], to));
        if (!text) Py_CLEAR(list);
        else PyList_SetItem(list, (Py_ssize_t)i, text);
    }
    return list;
}
