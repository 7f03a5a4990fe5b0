/* Memory of a WebAssembly module, and what a compiler calls to copy it and for numbers of 128 bits. Written by hand; tested,
 * not proved.
 *
 * A block has one of four sizes for each power of two, and the number of its size is kept before it. Blocks that were given
 * back lie in a list for each size, and the top of memory moves up where that is empty. */
typedef __UINT8_TYPE__ uint8_t;
typedef __UINT32_TYPE__ uint32_t;
typedef __UINT64_TYPE__ uint64_t;

void *malloc(uint64_t length);
void *realloc(void *it, uint64_t length);
void free(void *it);
void *memcpy(void *to, const void *from, uint64_t length);
void *memmove(void *to, const void *from, uint64_t length);
void *memset(void *to, int byte, uint64_t length);
int memcmp(const void *one, const void *other, uint64_t length);
int bcmp(const void *one, const void *other, uint64_t length);
__int128 __multi3(__int128 one, __int128 other);
__int128 __ashlti3(__int128 value, int by);
__int128 __lshrti3(__int128 value, int by);
unsigned __int128 __udivti3(unsigned __int128 value, unsigned __int128 by);
__int128 __divti3(__int128 value, __int128 by);

enum { SMALLEST = 16, PAGE_BITS = 16, MOST_PAGES = 65536 };

extern uint8_t __heap_base;
static uint64_t top;
static void *given_back[256];

static uint32_t class_of(uint64_t length) {
    if (length <= 64)
        return length ? (uint32_t)((length + SMALLEST - 1) / SMALLEST) : 1;
    uint64_t last = length - 1;
    uint32_t bits = 63 - (uint32_t)__builtin_clzll(last);
    return 5 + (bits - 6) * 4 + (uint32_t)(last >> (bits - 2) & 3);
}

static uint64_t length_of_class(uint32_t class) {
    if (class < 5)
        return class * SMALLEST;
    uint32_t bits = 6 + (class - 5) / 4, quarter = (class - 5) % 4;
    return ((uint64_t)1 << bits) + ((uint64_t)(quarter + 1) << (bits - 2));
}

/* Whether memory reaches so far, once more of it was asked for. */
static int reaches(uint64_t end) {
    uint64_t there = (uint64_t)__builtin_wasm_memory_size(0) << PAGE_BITS;
    if (end <= there)
        return 1;
    uint64_t pages = (end - there + (1 << PAGE_BITS) - 1) >> PAGE_BITS;
    return pages < MOST_PAGES && (uint32_t)__builtin_wasm_memory_grow(0, pages) != ~(uint32_t)0;
}

void *malloc(uint64_t length) {
    if (length >= (uint64_t)1 << 32)
        return 0;
    uint32_t class = class_of(length);
    if (given_back[class]) {
        void *it = given_back[class];
        given_back[class] = *(void **)it;
        return it;
    }
    if (!top)
        top = ((uint64_t)&__heap_base + SMALLEST - 1) / SMALLEST * SMALLEST;
    uint64_t start = top + SMALLEST, end = start + length_of_class(class);
    if (!reaches(end))
        return 0;
    ((uint32_t *)start)[-1] = class;
    top = end;
    return (void *)start;
}

void free(void *it) {
    if (!it)
        return;
    uint32_t class = ((uint32_t *)it)[-1];
    *(void **)it = given_back[class];
    given_back[class] = it;
}

void *realloc(void *it, uint64_t length) {
    if (!it)
        return malloc(length);
    uint64_t had = length_of_class(((uint32_t *)it)[-1]);
    if (length <= had)
        return it;
    void *larger = malloc(length);
    if (!larger)
        return 0;
    memcpy(larger, it, had);
    free(it);
    return larger;
}

void *memcpy(void *to, const void *from, uint64_t length) {
    uint8_t *out = to;
    const uint8_t *in = from;
    if (length >= SMALLEST)
        return __builtin_memcpy(to, from, length);
    while (length--)
        *out++ = *in++;
    return to;
}

void *memmove(void *to, const void *from, uint64_t length) { return __builtin_memmove(to, from, length); }
void *memset(void *to, int byte, uint64_t length) { return __builtin_memset(to, byte, length); }

int memcmp(const void *one, const void *other, uint64_t length) {
    const uint8_t *a = one, *b = other;
    for (; length; a++, b++, length--)
        if (*a != *b)
            return *a - *b;
    return 0;
}

int bcmp(const void *one, const void *other, uint64_t length) { return memcmp(one, other, length); }

/* A product of 128 bits, for which WebAssembly has no instruction. */
__int128 __multi3(__int128 one, __int128 other) {
    uint64_t a = (uint64_t)one, b = (uint64_t)other;
    uint64_t a_low = (uint32_t)a, a_high = a >> 32, b_low = (uint32_t)b, b_high = b >> 32;
    uint64_t low = a_low * b_low, middle = a_high * b_low + (low >> 32), other_middle = a_low * b_high + (uint32_t)middle;
    uint64_t high = a_high * b_high + (middle >> 32) + (other_middle >> 32);
    high += (uint64_t)(one >> 64) * b + a * (uint64_t)(other >> 64);
    return (__int128)((unsigned __int128)high << 64 | (other_middle << 32 | (uint32_t)low));
}

static __int128 whole(uint64_t high, uint64_t low) { return (__int128)((unsigned __int128)high << 64 | low); }

__int128 __ashlti3(__int128 value, int by) {
    uint64_t low = (uint64_t)value, high = (uint64_t)((unsigned __int128)value >> 64);
    if (by >= 64)
        return whole(low << (by - 64), 0);
    return by ? whole(high << by | low >> (64 - by), low << by) : value;
}

__int128 __lshrti3(__int128 value, int by) {
    uint64_t low = (uint64_t)value, high = (uint64_t)((unsigned __int128)value >> 64);
    if (by >= 64)
        return whole(0, high >> (by - 64));
    return by ? whole(high >> by, low >> by | high << (64 - by)) : value;
}

static unsigned __int128 quotient_by_digits(unsigned __int128 value, uint32_t by) {
    unsigned __int128 quotient = 0;
    uint64_t rest = 0;
    for (int at = 96; at >= 0; at -= 32) {
        rest = rest << 32 | (uint32_t)(value >> at);
        quotient = quotient << 32 | rest / by;
        rest %= by;
    }
    return quotient;
}

static unsigned __int128 quotient_by_bits(unsigned __int128 value, unsigned __int128 by) {
    unsigned __int128 quotient = 0, rest = 0;
    for (int at = 127; at >= 0; at--) {
        int is_longer = (int)(rest >> 127);
        rest = rest << 1 | (value >> at & 1);
        quotient <<= 1;
        if (is_longer || rest >= by) {
            rest -= by;
            quotient |= 1;
        }
    }
    return quotient;
}

unsigned __int128 __udivti3(unsigned __int128 value, unsigned __int128 by) {
    if (value >> 64 == 0 && by >> 64 == 0)
        return (uint64_t)value / (uint64_t)by;
    return by >> 32 ? quotient_by_bits(value, by) : quotient_by_digits(value, (uint32_t)by);
}

static unsigned __int128 magnitude(__int128 value) { return value < 0 ? -(unsigned __int128)value : (unsigned __int128)value; }

__int128 __divti3(__int128 value, __int128 by) {
    unsigned __int128 quotient = __udivti3(magnitude(value), magnitude(by));
    return (__int128)((value < 0) == (by < 0) ? quotient : -quotient);
}
