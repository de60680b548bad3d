/*
 * What a C compiler has to offer, besides C11 without floating point:
 *
 * - int of 32 bits, uintptr_t of 32 or 64 bits, and little-endian memory
 * - a conversion to a signed type keeps the bits, and a signed number that is shifted right keeps its sign
 * - an address as a uintptr_t, plus or minus a number, is the address that many bytes further on
 * - the attributes below, which gcc and clang have. For another compiler define BOOTSWAP_OWN_ATTRIBUTES and all of them:
 *
 *   BOOTSWAP_ANY_OBJECT     of a type: a pointer to it may point to an object of any type. Essential.
 *   BOOTSWAP_PACKED         of a type: it has alignment 1, as each field in it. Essential.
 *   BOOTSWAP_ALIGNED(n)     of an array or a type: it has alignment n. Essential.
 *   BOOTSWAP_NOINLINE       of a function: it isn't inlined, so that frames of calls after each other share the stack
 *   BOOTSWAP_UNUSED         of a function: it may be unused, without a warning
 *   BOOTSWAP_UNREACHABLE()  never returns. The proved library never reaches it.
 *   BOOTSWAP_HIDE(x)        of a variable: the compiler knows nothing of its value any more
 *   BOOTSWAP_ZEROS_BELOW(x), BOOTSWAP_ZEROS_ABOVE(x), BOOTSWAP_ONES(x): of a uint64_t, the first two not of 0
 */
#include <stddef.h>
#include <stdint.h>
#include <string.h>

_Static_assert(sizeof(int) == 4, "int has 32 bits");
#if UINTPTR_MAX != 0xffffffffu && UINTPTR_MAX != 0xffffffffffffffffu
#error "this file is for processors whose addresses have 32 or 64 bits"
#endif
#if defined __BYTE_ORDER__ && __BYTE_ORDER__ != __ORDER_LITTLE_ENDIAN__
#error "this file is for little-endian processors"
#endif

/* On a processor of 32 bits the compiler sees that some checks of long numbers always have the same result. */
#ifdef __GNUC__
#pragma GCC diagnostic ignored "-Wtype-limits"
#endif

/* These leave out calls: to accept manifests and uploads; to boot with texts, choose and check; all of bootswap_simulate.h. What
 * only they need is unused then, and the compiler makes no code of it. */
#if defined BOOTSWAP_WITHOUT_UPLOADS || defined BOOTSWAP_WITHOUT_TEXTS || defined BOOTSWAP_WITHOUT_SIMULATION
#ifdef __GNUC__
#pragma GCC diagnostic ignored "-Wunused-function"
#pragma GCC diagnostic ignored "-Wunused-variable"
#pragma GCC diagnostic ignored "-Wunused-const-variable"
#endif
#endif

#ifndef BOOTSWAP_OWN_ATTRIBUTES
#define BOOTSWAP_ANY_OBJECT __attribute__((may_alias))
#define BOOTSWAP_PACKED __attribute__((packed))
#define BOOTSWAP_ALIGNED(n) __attribute__((aligned(n)))
#define BOOTSWAP_NOINLINE __attribute__((noinline))
#define BOOTSWAP_UNUSED __attribute__((unused))
#ifndef BOOTSWAP_UNREACHABLE
#define BOOTSWAP_UNREACHABLE() __builtin_trap()
#endif
#define BOOTSWAP_HIDE(x) __asm__("" : "+r"(x))
#define BOOTSWAP_ZEROS_BELOW(x) __builtin_ctzll(x)
#define BOOTSWAP_ZEROS_ABOVE(x) __builtin_clzll(x)
#define BOOTSWAP_ONES(x) __builtin_popcountll(x)
#endif

/* The alignment of frames: no access needs more. */
#define BOOTSWAP_FRAME_ALIGNMENT 8

/* An address in constant data has 8 bytes. */
#if UINTPTR_MAX == 0xffffffffu
struct w_address {
    const char *low;
    uint32_t high;
} BOOTSWAP_PACKED;
#define W_ADDRESS(data, at) {(const char *)&data + (at), 0}
#else
struct w_address {
    const char *all;
} BOOTSWAP_PACKED;
#define W_ADDRESS(data, at) {(const char *)&data + (at)}
#endif

/* Accesses of memory: those of the first kind are aligned to their size, those of the second to nothing. */
#define W_ACCESS(type, name)                           \
    typedef type BOOTSWAP_ANY_OBJECT w_aligned_##name; \
    typedef type BOOTSWAP_ANY_OBJECT BOOTSWAP_ALIGNED(1) w_unaligned_##name;
W_ACCESS(uint8_t, u8)
W_ACCESS(int8_t, s8)
W_ACCESS(uint16_t, u16)
W_ACCESS(int16_t, s16)
W_ACCESS(uint32_t, u32)
W_ACCESS(int32_t, s32)
W_ACCESS(uint64_t, u64)
#define W_LOAD(kind, address) (*(const w_##kind *)(address))
#define W_STORE(kind, address, value) (*(w_##kind *)(address) = (value))

/* memory.copy and memory.fill: the ranges may overlap. C allows no null pointer, even for no bytes. */
#define W_MOVE(to, from, length) memmove((void *)(to), (const void *)(from), (size_t)(length))
BOOTSWAP_UNUSED static inline void w_copy(uintptr_t to, uintptr_t from, uintptr_t length) {
    if (length != 0) W_MOVE(to, from, length);
}
BOOTSWAP_UNUSED static inline void w_fill(uintptr_t to, uint32_t byte, uintptr_t length) {
    if (length != 0) memset((void *)to, (int)(byte & 0xff), (size_t)length);
}

/* A parameter that is shorter than its register. A caller that isn't made by a C compiler may leave the other bits there. C's
 * compiler takes them for 0, so it may not see that the number was the parameter. */
BOOTSWAP_UNUSED static inline uint32_t w_low(uint32_t a, uint32_t bits) {
    BOOTSWAP_HIDE(a);
    return a & bits;
}

/* Rotations, by any amount. */
BOOTSWAP_UNUSED static inline uint32_t w_rotl32(uint32_t a, uint32_t n) { return a << (n & 31) | a >> ((0 - n) & 31); }
BOOTSWAP_UNUSED static inline uint32_t w_rotr32(uint32_t a, uint32_t n) { return a >> (n & 31) | a << ((0 - n) & 31); }
BOOTSWAP_UNUSED static inline uint64_t w_rotl64(uint64_t a, uint32_t n) { return a << (n & 63) | a >> ((0 - n) & 63); }
BOOTSWAP_UNUSED static inline uint64_t w_rotr64(uint64_t a, uint32_t n) { return a >> (n & 63) | a << ((0 - n) & 63); }

/* Counts of zeros and ones. The number of zeros of 0 is its width. */
BOOTSWAP_UNUSED static inline uint32_t w_clz64(uint64_t a) { return a != 0 ? (uint32_t)BOOTSWAP_ZEROS_ABOVE(a) : 64; }
BOOTSWAP_UNUSED static inline uint32_t w_ctz64(uint64_t a) { return a != 0 ? (uint32_t)BOOTSWAP_ZEROS_BELOW(a) : 64; }
BOOTSWAP_UNUSED static inline uint32_t w_popcnt64(uint64_t a) { return (uint32_t)BOOTSWAP_ONES(a); }
BOOTSWAP_UNUSED static inline uint32_t w_clz32(uint32_t a) { return w_clz64(a) - 32; }
BOOTSWAP_UNUSED static inline uint32_t w_ctz32(uint32_t a) { return a != 0 ? w_ctz64(a) : 32; }
BOOTSWAP_UNUSED static inline uint32_t w_popcnt32(uint32_t a) { return w_popcnt64(a); }

/* Divisions. By 0 they trap, and so does the lowest number by -1. The remainder of that is 0. */
#define W_DIVISIONS(name, type)                                                   \
    BOOTSWAP_UNUSED static inline type w_div##name(type one, type other) {        \
        if (other == 0) BOOTSWAP_UNREACHABLE();                                   \
        return one / other;                                                       \
    }                                                                             \
    BOOTSWAP_UNUSED static inline type w_rem##name(type one, type other) {        \
        if (other == 0) BOOTSWAP_UNREACHABLE();                                   \
        return one % other;                                                       \
    }
W_DIVISIONS(32, uint32_t)
W_DIVISIONS(64, uint64_t)
W_DIVISIONS(ptr, uintptr_t)
#define W_SIGNED_DIVISIONS(width, lowest)                                                                     \
    BOOTSWAP_UNUSED static inline uint##width##_t w_div_s##width(uint##width##_t one, uint##width##_t other) { \
        if (other == 0 || (one == lowest && other + 1 == 0)) BOOTSWAP_UNREACHABLE();                          \
        return (uint##width##_t)((int##width##_t)one / (int##width##_t)other);                                \
    }                                                                                                         \
    BOOTSWAP_UNUSED static inline uint##width##_t w_rem_s##width(uint##width##_t one, uint##width##_t other) { \
        if (other == 0) BOOTSWAP_UNREACHABLE();                                                               \
        if (other + 1 == 0) return 0;                                                                         \
        return (uint##width##_t)((int##width##_t)one % (int##width##_t)other);                                \
    }
W_SIGNED_DIVISIONS(32, 0x80000000u)
W_SIGNED_DIVISIONS(64, 0x8000000000000000u)
