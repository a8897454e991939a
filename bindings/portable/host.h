/* What the translated code needs: numbers, memory, arithmetic that C leaves undefined, vectors, traps, and the functions
   that the module imports. C99. A compiler's own extensions are used only where they are known, and have a fallback. */
#include <limits.h>
#include <stdbool.h>
#include <stddef.h>
#include <stdint.h>
#include <stdio.h>
#include <stdlib.h>
#include <string.h>

typedef uint8_t u8;
typedef uint16_t u16;
typedef uint32_t u32;
typedef uint64_t u64;
typedef int8_t s8;
typedef int16_t s16;
typedef int32_t s32;
typedef int64_t s64;

#if UINT_MAX != 0xffffffffu || CHAR_BIT != 8
#error "vt100: int must have 32 bits, and char 8"
#endif
typedef char shifts_are_arithmetic[-3 >> 1 == -2 ? 1 : -1];

/* ---- the compiler */

#if defined(__GNUC__) || defined(__TINYC__)
#define ALIGNED_16 __attribute__((aligned(16)))
#define HELPER static inline __attribute__((unused))
#elif defined(_MSC_VER)
#define ALIGNED_16 __declspec(align(16))
#define HELPER static inline
#elif defined(__STDC_VERSION__) && __STDC_VERSION__ >= 201112L
#define ALIGNED_16 _Alignas(16)
#define HELPER static inline
#else
#define ALIGNED_16
#define HELPER static inline
#endif

#if defined(__GNUC__)
#define IS_UNLIKELY(condition) __builtin_expect(!!(condition), 0)
#define NEVER_RETURNS __attribute__((noreturn, cold, noinline))
#else
#define IS_UNLIKELY(condition) (condition)
#define NEVER_RETURNS
#endif

/* VT100_BIG_ENDIAN is 1 if the first byte of a number in memory is the highest, and 0 if it is the lowest. Define it if
   the compiler does not say. */
#if !defined(VT100_BIG_ENDIAN)
#if defined(__BYTE_ORDER__) && defined(__ORDER_BIG_ENDIAN__) && __BYTE_ORDER__ == __ORDER_BIG_ENDIAN__
#define VT100_BIG_ENDIAN 1
#elif defined(__BYTE_ORDER__) && defined(__ORDER_LITTLE_ENDIAN__) && __BYTE_ORDER__ == __ORDER_LITTLE_ENDIAN__
#define VT100_BIG_ENDIAN 0
#elif defined(_MSC_VER) || defined(__i386__) || defined(__x86_64__)
#define VT100_BIG_ENDIAN 0
#else
#error "vt100: the order of bytes is unknown: define VT100_BIG_ENDIAN as 0 or 1"
#endif
#endif

/* The library is proved never to trap. A trap means that the compiler or the translation is wrong, or that the caller
   broke a rule of vt100.h. */
static NEVER_RETURNS void trap(void) {
    fputs("vt100: internal error: the library was compiled wrongly, or its memory was changed from outside\n", stderr);
    abort();
}

/* ---- memory: an address is that of the process, and numbers are stored with the lowest byte first */

HELPER u64 address_of(const volatile void *at) { return (u64)(uintptr_t)at; }
HELPER u8 *at_address(u64 address) { return (u8 *)(uintptr_t)address; }

#define FRAME(name, size) ALIGNED_16 u8 name[(size) + 15]
HELPER u64 frame_at(u8 *frame) { return (address_of(frame) + 15) & ~(u64)15; }

#if VT100_BIG_ENDIAN
HELPER u16 ordered16(u16 x) { return (u16)(x << 8 | x >> 8); }
HELPER u32 ordered32(u32 x) {
    return x << 24 | (x & 0xff00) << 8 | (x >> 8 & 0xff00) | x >> 24;
}
HELPER u64 ordered64(u64 x) { return (u64)ordered32((u32)x) << 32 | ordered32((u32)(x >> 32)); }
#else
HELPER u16 ordered16(u16 x) { return x; }
HELPER u32 ordered32(u32 x) { return x; }
HELPER u64 ordered64(u64 x) { return x; }
#endif

HELPER u32 load8(u64 address) { return *at_address(address); }
HELPER void store8(u64 address, u32 value) { *at_address(address) = (u8)value; }

#define DEFINE_MEMORY(bits, type)                                                                                      \
    HELPER type load##bits(u64 address) {                                                                              \
        u##bits value;                                                                                                 \
        memcpy(&value, at_address(address), sizeof value);                                                             \
        return ordered##bits(value);                                                                                   \
    }                                                                                                                  \
    HELPER void store##bits(u64 address, type value) {                                                                 \
        u##bits stored = ordered##bits((u##bits)value);                                                                \
        memcpy(at_address(address), &stored, sizeof stored);                                                           \
    }
DEFINE_MEMORY(16, u32)
DEFINE_MEMORY(32, u32)
DEFINE_MEMORY(64, u64)

HELPER void memory_copy(u64 to, u64 from, u64 count) {
    if (count > 0) memmove(at_address(to), at_address(from), (size_t)count);
}
HELPER void memory_fill(u64 to, u32 value, u64 count) {
    if (count > 0) memset(at_address(to), (int)(value & 255), (size_t)count);
}

/* The static data, with room for an address in 8 bytes. Where the order of bytes or the size of a pointer is another, the
   addresses are stored when the program runs, or have zeros after them. */
#if VT100_BIG_ENDIAN
#define STATIC_DATA STATIC_UNION
struct relocation { u32 place, target; };
#else
#define STATIC_DATA const STATIC_UNION
struct address {
    const void *at;
#if UINTPTR_MAX == 0xffffffffu
    u32 high;
#endif
};
#if UINTPTR_MAX == 0xffffffffu
#define ADDRESS(offset) {static_data.bytes + (offset), 0}
#else
#define ADDRESS(offset) {static_data.bytes + (offset)}
#endif
#endif
#define STATIC_UNION ALIGNED_16 union { struct static_data parts; u8 bytes[sizeof(struct static_data)]; u64 number; }
#define STATIC address_of(&static_data)

/* ---- arithmetic */

#if defined(__GNUC__)
HELPER u32 clz32(u32 x) { return x != 0 ? (u32)__builtin_clz(x) : 32; }
HELPER u32 ctz32(u32 x) { return x != 0 ? (u32)__builtin_ctz(x) : 32; }
HELPER u64 clz64(u64 x) { return x != 0 ? (u64)__builtin_clzll(x) : 64; }
HELPER u64 ctz64(u64 x) { return x != 0 ? (u64)__builtin_ctzll(x) : 64; }
#else
HELPER u64 clz64(u64 x) {
    u64 count = 64;
    for (; x != 0; x >>= 1) count--;
    return count;
}
HELPER u64 ctz64(u64 x) { return 64 - clz64(~x & (x - 1)); }
HELPER u32 clz32(u32 x) { return (u32)clz64(x) - 32; }
HELPER u32 ctz32(u32 x) { return x != 0 ? (u32)ctz64(x) : 32; }
#endif

HELPER u64 popcnt64(u64 x) {
    x -= x >> 1 & 0x5555555555555555u;
    x = (x & 0x3333333333333333u) + (x >> 2 & 0x3333333333333333u);
    return ((x + (x >> 4)) & 0x0f0f0f0f0f0f0f0fu) * 0x0101010101010101u >> 56;
}
HELPER u32 popcnt32(u32 x) { return (u32)popcnt64(x); }

#define DEFINE_ARITHMETIC(bits)                                                                                        \
    HELPER u##bits div_u##bits(u##bits x, u##bits y) {                                                                 \
        if (IS_UNLIKELY(y == 0)) trap();                                                                               \
        return x / y;                                                                                                  \
    }                                                                                                                  \
    HELPER u##bits rem_u##bits(u##bits x, u##bits y) {                                                                 \
        if (IS_UNLIKELY(y == 0)) trap();                                                                               \
        return x % y;                                                                                                  \
    }                                                                                                                  \
    HELPER u##bits div_s##bits(u##bits x, u##bits y) {                                                                 \
        if (IS_UNLIKELY(y == 0 || (x == (u##bits)1 << (bits - 1) && y == ~(u##bits)0))) trap();                        \
        return (u##bits)((s##bits)x / (s##bits)y);                                                                     \
    }                                                                                                                  \
    HELPER u##bits rem_s##bits(u##bits x, u##bits y) {                                                                 \
        if (IS_UNLIKELY(y == 0)) trap();                                                                               \
        return y == ~(u##bits)0 ? 0 : (u##bits)((s##bits)x % (s##bits)y);                                              \
    }                                                                                                                  \
    HELPER u##bits rotl##bits(u##bits x, u##bits n) { return x << (n & (bits - 1)) | x >> ((0 - n) & (bits - 1)); }    \
    HELPER u##bits rotr##bits(u##bits x, u##bits n) { return x >> (n & (bits - 1)) | x << ((0 - n) & (bits - 1)); }
DEFINE_ARITHMETIC(32)
DEFINE_ARITHMETIC(64)

/* ---- vectors of 16 bytes, in the order of their addresses */

#if !defined(VT100_NO_VECTORS) && (defined(__SSE2__) || defined(_M_X64))
#include <emmintrin.h>
typedef __m128i v128;
HELPER v128 v_load(u64 address) { return _mm_loadu_si128((const __m128i *)(const void *)at_address(address)); }
HELPER void v_store(u64 address, v128 x) { _mm_storeu_si128((__m128i *)(void *)at_address(address), x); }
HELPER v128 v_const(u64 low, u64 high) { return _mm_set_epi64x((s64)high, (s64)low); }
HELPER v128 v_splat8(u32 x) { return _mm_set1_epi8((char)x); }
HELPER v128 v_and(v128 x, v128 y) { return _mm_and_si128(x, y); }
HELPER v128 v_or(v128 x, v128 y) { return _mm_or_si128(x, y); }
HELPER v128 v_xor(v128 x, v128 y) { return _mm_xor_si128(x, y); }
HELPER v128 v_andnot(v128 x, v128 y) { return _mm_andnot_si128(y, x); }
HELPER v128 v_not(v128 x) { return _mm_andnot_si128(x, _mm_set1_epi8(-1)); }
HELPER v128 v_add8(v128 x, v128 y) { return _mm_add_epi8(x, y); }
HELPER v128 v_sub8(v128 x, v128 y) { return _mm_sub_epi8(x, y); }
HELPER v128 v_eq8(v128 x, v128 y) { return _mm_cmpeq_epi8(x, y); }
HELPER v128 v_lt8u(v128 x, v128 y) { return v_not(_mm_cmpeq_epi8(_mm_max_epu8(x, y), x)); }
HELPER u32 v_bitmask8(v128 x) { return (u32)_mm_movemask_epi8(x); }
HELPER u32 v_any(v128 x) { return v_bitmask8(_mm_cmpeq_epi8(x, _mm_setzero_si128())) != 0xffff; }

#elif !defined(VT100_NO_VECTORS) && defined(__aarch64__) && defined(__ARM_NEON) && !VT100_BIG_ENDIAN
#include <arm_neon.h>
typedef uint8x16_t v128;
HELPER v128 v_load(u64 address) { return vld1q_u8(at_address(address)); }
HELPER void v_store(u64 address, v128 x) { vst1q_u8(at_address(address), x); }
HELPER v128 v_const(u64 low, u64 high) { return vreinterpretq_u8_u64(vcombine_u64(vcreate_u64(low), vcreate_u64(high))); }
HELPER v128 v_splat8(u32 x) { return vdupq_n_u8((u8)x); }
HELPER v128 v_and(v128 x, v128 y) { return vandq_u8(x, y); }
HELPER v128 v_or(v128 x, v128 y) { return vorrq_u8(x, y); }
HELPER v128 v_xor(v128 x, v128 y) { return veorq_u8(x, y); }
HELPER v128 v_andnot(v128 x, v128 y) { return vbicq_u8(x, y); }
HELPER v128 v_not(v128 x) { return vmvnq_u8(x); }
HELPER v128 v_add8(v128 x, v128 y) { return vaddq_u8(x, y); }
HELPER v128 v_sub8(v128 x, v128 y) { return vsubq_u8(x, y); }
HELPER v128 v_eq8(v128 x, v128 y) { return vceqq_u8(x, y); }
HELPER v128 v_lt8u(v128 x, v128 y) { return vcltq_u8(x, y); }
HELPER u32 v_bitmask8(v128 x) {
    v128 bits = vandq_u8(vcltzq_s8(vreinterpretq_s8_u8(x)), v_const(0x8040201008040201u, 0x8040201008040201u));
    return vaddv_u8(vget_low_u8(bits)) | (u32)vaddv_u8(vget_high_u8(bits)) << 8;
}
HELPER u32 v_any(v128 x) { return vmaxvq_u8(x) != 0; }

#else
typedef struct { u64 low, high; } v128;
#define LANES(byte) (0x0101010101010101u * (byte))
HELPER v128 v_const(u64 low, u64 high) {
    v128 x;
    x.low = low;
    x.high = high;
    return x;
}
HELPER v128 v_load(u64 address) { return v_const(load64(address), load64(address + 8)); }
HELPER void v_store(u64 address, v128 x) {
    store64(address, x.low);
    store64(address + 8, x.high);
}
HELPER u64 lanes_add(u64 x, u64 y) { return ((x & LANES(0x7fu)) + (y & LANES(0x7fu))) ^ ((x ^ y) & LANES(0x80u)); }
HELPER u64 lanes_sub(u64 x, u64 y) { return ((x | LANES(0x80u)) - (y & LANES(0x7fu))) ^ ((x ^ ~y) & LANES(0x80u)); }
/* The top bit of each lane of the result says whether that of `x` is 0, or less than that of `y`. */
HELPER u64 lanes_zero(u64 x) { return ~(((x & LANES(0x7fu)) + LANES(0x7fu)) | x | LANES(0x7fu)); }
HELPER u64 lanes_less(u64 x, u64 y) { return ((~x & y) | (~(x ^ y) & lanes_sub(x, y))) & LANES(0x80u); }
HELPER u64 lanes_filled(u64 tops) { return (tops >> 7) * 0xff; }
HELPER u32 lanes_bits(u64 x) { return (u32)((x >> 7 & LANES(1u)) * 0x0102040810204080u >> 56); }
HELPER v128 v_splat8(u32 x) { return v_const(LANES((u64)(x & 255)), LANES((u64)(x & 255))); }
HELPER v128 v_and(v128 x, v128 y) { return v_const(x.low & y.low, x.high & y.high); }
HELPER v128 v_or(v128 x, v128 y) { return v_const(x.low | y.low, x.high | y.high); }
HELPER v128 v_xor(v128 x, v128 y) { return v_const(x.low ^ y.low, x.high ^ y.high); }
HELPER v128 v_andnot(v128 x, v128 y) { return v_const(x.low & ~y.low, x.high & ~y.high); }
HELPER v128 v_not(v128 x) { return v_const(~x.low, ~x.high); }
HELPER v128 v_add8(v128 x, v128 y) { return v_const(lanes_add(x.low, y.low), lanes_add(x.high, y.high)); }
HELPER v128 v_sub8(v128 x, v128 y) { return v_const(lanes_sub(x.low, y.low), lanes_sub(x.high, y.high)); }
HELPER v128 v_eq8(v128 x, v128 y) {
    return v_const(lanes_filled(lanes_zero(x.low ^ y.low)), lanes_filled(lanes_zero(x.high ^ y.high)));
}
HELPER v128 v_lt8u(v128 x, v128 y) {
    return v_const(lanes_filled(lanes_less(x.low, y.low)), lanes_filled(lanes_less(x.high, y.high)));
}
HELPER u32 v_bitmask8(v128 x) { return lanes_bits(x.low) | lanes_bits(x.high) << 8; }
HELPER u32 v_any(v128 x) { return (x.low | x.high) != 0; }
#endif

/* ---- the heap, which heap.c defines, and functions of C that the module may import */

struct block { bool is_granted; void *at; };
struct block rattle_alloc(size_t size, size_t align);
struct block rattle_realloc(void *at, size_t old_size, size_t size, size_t align);
void rattle_dealloc(void *at);

/* Stores the result of an allocation where the module expects it. */
HELPER void store_block(u64 result, struct block block) {
    store64(result, block.is_granted);
    store64(result + 8, address_of(block.at));
}

/* A size that the host cannot express is refused as the heap refuses one that is too large. */
HELPER struct block refused_block(void) {
    static char nowhere;
    struct block block;
    block.is_granted = false;
    block.at = &nowhere;
    return block;
}
HELPER void host_rattle_alloc(u64 result, u64 size, u64 align) {
    store_block(result, size > SIZE_MAX ? refused_block() : rattle_alloc((size_t)size, (size_t)align));
}
HELPER void host_rattle_realloc(u64 result, u64 at, u64 old_size, u64 size, u64 align) {
    if (size > SIZE_MAX) {
        store_block(result, refused_block());
    } else {
        store_block(result, rattle_realloc(at_address(at), (size_t)old_size, (size_t)size, (size_t)align));
    }
}
HELPER void host_rattle_dealloc(u64 at) { rattle_dealloc(at_address(at)); }

HELPER u64 host_memcpy(u64 to, u64 from, u64 count) {
    memory_copy(to, from, count);
    return to;
}
HELPER u64 host_memmove(u64 to, u64 from, u64 count) { return host_memcpy(to, from, count); }
HELPER u64 host_memset(u64 to, u32 value, u64 count) {
    memory_fill(to, value, count);
    return to;
}
HELPER u32 host_memcmp(u64 one, u64 two, u64 count) {
    return count > 0 ? (u32)memcmp(at_address(one), at_address(two), (size_t)count) : 0;
}
HELPER u32 host_bcmp(u64 one, u64 two, u64 count) { return host_memcmp(one, two, count); }
