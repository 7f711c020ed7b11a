/* What wasm2c's C asks of its runtime: where an address is, loads and stores, and a trap, which
   ends the program. The module is proved not to come to one.

   An address of the module is a pointer minus `origin`, modulo 2^64. So the module uses what a
   caller lends where it is, and no bound is checked here: the proofs say that each access is inside
   of what was lent. */

#if defined __BYTE_ORDER__ && __BYTE_ORDER__ == __ORDER_BIG_ENDIAN__
#error "this file is for processors that have the lowest byte of a number first"
#endif

typedef uint8_t u8;
typedef uint16_t u16;
typedef uint32_t u32;
typedef uint64_t u64;
typedef int32_t s32;
typedef int64_t s64;

typedef struct wasm_rt_memory_t {
    u64 origin;
} wasm_rt_memory_t;

/* Each function reads `origin` once: as far as a compiler knows, a store might change it. */
#define FUNC_PROLOGUE                                                                              \
    const u64 origin = instance->w2c_memory.origin;                                                \
    (void)origin
#define FUNC_EPILOGUE
#define UNREACHABLE abort()

/* Hides from the compiler of which object a pointer is, that was made a number. So it expects the
   accesses in any object whose pointer was hidden. */
#if defined __GNUC__
#define LT_HIDE(number) __asm__ volatile("" : "+r"(number) : : "memory")
#else
#define LT_HIDE(number) ((void)0)
#endif

static inline u8 *lt_at(u64 origin, u64 address) { return (u8 *)(uintptr_t)(origin + address); }

#define LT_LOAD(name, stored, answer)                                                              \
    static inline answer name(u64 origin, u64 address)                                             \
    {                                                                                              \
        stored found;                                                                              \
        memcpy(&found, lt_at(origin, address), sizeof found);                                      \
        return found;                                                                              \
    }
#define LT_STORE(name, stored, given)                                                              \
    static inline void name(u64 origin, u64 address, given value)                                  \
    {                                                                                              \
        stored left = (stored)value;                                                               \
        memcpy(lt_at(origin, address), &left, sizeof left);                                        \
    }

LT_LOAD(i32_load, u32, u32)
LT_LOAD(i64_load, u64, u64)
LT_LOAD(i32_load8_u, u8, u32)
LT_LOAD(i32_load16_u, u16, u32)
LT_LOAD(i64_load8_u, u8, u64)
LT_LOAD(i64_load16_u, u16, u64)
LT_LOAD(i64_load32_u, u32, u64)
LT_STORE(i32_store, u32, u32)
LT_STORE(i64_store, u64, u64)
LT_STORE(i32_store8, u8, u32)
LT_STORE(i32_store16, u16, u32)
LT_STORE(i64_store8, u8, u64)
LT_STORE(i64_store16, u16, u64)
LT_STORE(i64_store32, u32, u64)

#define DIV_U(number, by) ((by) == 0 ? (abort(), (number)) : (number) / (by))

/* How many bits of a number are set */
static inline u64 I64_POPCNT(u64 number)
{
    number -= number >> 1 & 0x5555555555555555;
    number = (number & 0x3333333333333333) + (number >> 2 & 0x3333333333333333);
    number = (number + (number >> 4)) & 0x0F0F0F0F0F0F0F0F;
    return number * 0x0101010101010101 >> 56;
}

static inline void memory_fill(u64 origin, u64 address, u32 byte, u64 size)
{
    memset(lt_at(origin, address), (int)byte, (size_t)size);
}

static inline void memory_copy(u64 origin, u64 same, u64 address, u64 source, u64 size)
{
    (void)same;
    memmove(lt_at(origin, address), lt_at(origin, source), (size_t)size);
}

#if defined __GNUC__
#pragma GCC diagnostic push
#pragma GCC diagnostic ignored "-Wunused-parameter"
#pragma GCC diagnostic ignored "-Wunused-label"
#pragma GCC diagnostic ignored "-Wunused-variable"
#pragma GCC diagnostic ignored "-Wunused-but-set-variable"
#endif
