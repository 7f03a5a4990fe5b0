#if !defined __GNUC__
#error "this file needs gcc or clang: it uses 128-bit integers and vectors"
#elif !defined __SIZEOF_INT128__ || __SIZEOF_POINTER__ != 8
#error "this file needs a processor with 64-bit addresses"
#elif __BYTE_ORDER__ != __ORDER_LITTLE_ENDIAN__
#error "this file needs a processor that stores the low byte first"
#else
#pragma GCC diagnostic ignored "-Wpsabi" /* of wide vectors, which no function outside takes */
#pragma GCC diagnostic ignored "-Wunused-parameter"
#pragma GCC diagnostic ignored "-Wunused-variable"
#pragma GCC diagnostic ignored "-Wunused-function"
#pragma GCC diagnostic ignored "-Wfree-nonheap-object" /* gcc follows ways on which a buffer is never freed */
#ifdef __clang__
#pragma clang diagnostic ignored "-Wunknown-warning-option"
#pragma clang diagnostic ignored "-Wbitwise-instead-of-logical"
#endif
#include <stddef.h>
#include <stdint.h>
#include <stdlib.h>
#include <string.h>

typedef uint8_t u8;
typedef uint16_t u16;
typedef uint32_t u32;
typedef uint64_t u64;
typedef unsigned __int128 u128;
typedef int8_t s8;
typedef int16_t s16;
typedef int32_t s32;
typedef int64_t s64;
typedef __int128 s128;
typedef u8 *ptr;

#define INLINE static inline __attribute__((always_inline, unused))
#define APART __attribute__((noinline))
#define RARE __attribute__((cold))

/* Each access to memory copies bytes: ld and st where the address is aligned, lu and su where it may be any. */
#define ACCESS(name, type) \
	INLINE type ld##name(const u8 *p) { type v; memcpy(&v, __builtin_assume_aligned(p, _Alignof(type)), sizeof v); return v; } \
	INLINE type lu##name(const u8 *p) { type v; memcpy(&v, p, sizeof v); return v; } \
	INLINE void st##name(u8 *p, type v) { memcpy(__builtin_assume_aligned(p, _Alignof(type)), &v, sizeof v); } \
	INLINE void su##name(u8 *p, type v) { memcpy(p, &v, sizeof v); }
ACCESS(8, u8)
ACCESS(16, u16)
ACCESS(32, u32)
ACCESS(64, u64)
ACCESS(128, u128)
ACCESS(p, ptr)
ACCESS(f, float)
ACCESS(d, double)
#define LOAD_VECTOR(type, p) __extension__({ type it_; memcpy(&it_, p, sizeof it_); it_; })
#define STORE_VECTOR(type, p, x) do { type it_ = x; memcpy(p, &it_, sizeof it_); } while (0)
INLINE u128 ld_bytes(const u8 *p, size_t n) { u128 v = 0; memcpy(&v, p, n); return v; }
INLINE void st_bytes(u8 *p, u128 v, size_t n) { memcpy(p, &v, n); }

/* An address at a distance, which may wrap. */
INLINE ptr at(ptr p, u64 n) { return (ptr)((u64)p + n); }

/* C says nothing of no bytes at a null pointer. */
INLINE void copy(ptr to, const u8 *from, u64 n) { if (n) memcpy(to, from, n); }
INLINE void move(ptr to, const u8 *from, u64 n) { if (n) memmove(to, from, n); }
INLINE void fill(ptr to, u8 byte, u64 n) { if (n) memset(to, byte, n); }
INLINE void clear(ptr to, u64 n) { fill(to, 0, n); }
INLINE int compare(const u8 *x, const u8 *y, u64 n) { return n ? memcmp(x, y, n) : 0; }

INLINE u64 ones(u64 x) { return (u64)__builtin_popcountll(x); }
INLINE u64 leading_zeros(u64 x) { return x ? (u64)__builtin_clzll(x) : 64; }
INLINE u64 trailing_zeros(u64 x) { return x ? (u64)__builtin_ctzll(x) : 64; }
INLINE u64 ones128(u128 x) { return ones((u64)x) + ones((u64)(x >> 64)); }
INLINE u64 leading_zeros128(u128 x) { return x >> 64 ? leading_zeros((u64)(x >> 64)) : 64 + leading_zeros((u64)x); }
INLINE u64 trailing_zeros128(u128 x) { return (u64)x ? trailing_zeros((u64)x) : 64 + trailing_zeros((u64)(x >> 64)); }
/* Of two words side by side the upper or the lower one, once they were shifted by n. */
#define FUNNEL(bits) \
	INLINE u##bits shl##bits(u##bits x, u##bits y, u##bits n) { \
		n &= bits - 1; return n ? (u##bits)((u64)x << n | (u64)y >> (bits - n)) : x; } \
	INLINE u##bits shr##bits(u##bits x, u##bits y, u##bits n) { \
		n &= bits - 1; return n ? (u##bits)((u64)x << (bits - n) | (u64)y >> n) : y; }
FUNNEL(8)
FUNNEL(16)
FUNNEL(32)
FUNNEL(64)

/* Each operation is a function of its own, so that no compiler joins a product and a sum into one that rounds once. */
#define REAL(type, bits) \
	static APART type type##_add(type x, type y) { return x + y; } \
	static APART type type##_sub(type x, type y) { return x - y; } \
	static APART type type##_mul(type x, type y) { return x * y; } \
	static APART type type##_div(type x, type y) { return x / y; } \
	INLINE type type##_of(u##bits n) { type v; memcpy(&v, &n, sizeof v); return v; }
REAL(float, 32)
REAL(double, 64)

#ifdef __has_builtin
#if __has_builtin(__builtin_shufflevector)
#define SHUFFLE(type, x, y, each, ...) __builtin_shufflevector(x, y, __VA_ARGS__)
#endif
#endif
#ifndef SHUFFLE
#define WITHOUT_BRACKETS(...) __VA_ARGS__
#define SHUFFLE(type, x, y, each, ...) (type){ WITHOUT_BRACKETS each }
#endif
/* The lowest bits of so many bytes, the first in the lowest place. */
INLINE u64 bits_of_lanes(const void *lanes, int count) {
	u64 found = 0;
	for (int at = 0; at < count; at += 8) {
		u64 x = 0;
		memcpy(&x, (const u8 *)lanes + at, count < 8 ? (size_t)count : 8);
		found |= ((x & 0x0101010101010101ull) * 0x0102040810204080ull >> 56) << at;
	}
	return found;
}

typedef u8 v16u8 __attribute__((vector_size(16)));
typedef s8 sv16u8 __attribute__((vector_size(16)));
/* The bytes of a table by their places in it, or 0 where a place has its highest bit. */
INLINE v16u8 byte_shuffle(v16u8 table, v16u8 places) {
	v16u8 found;
	for (int at = 0; at < 16; at++)
		found[at] = places[at] & 128 ? 0 : table[places[at] & 15];
	return found;
}

typedef struct { u64 f0; u64 f1; } t_64_64;
/* Memory: whether it is there, and where. Where none is, the place is one that nothing reads or writes. */
INLINE t_64_64 had(ptr p, u64 alignment) { return (t_64_64){p != 0, p ? (u64)p : alignment}; }
INLINE t_64_64 allocate(u64 n, u64 alignment) { return had(malloc(n ? n : alignment), alignment); }
INLINE t_64_64 reallocate(ptr p, u64 kept, u64 n, u64 alignment) {
	(void)kept;
	return had(realloc(p, n ? n : alignment), alignment);
}
INLINE void deallocate(ptr p) { free(p); }

