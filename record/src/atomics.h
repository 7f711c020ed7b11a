/* Every atomic operation has a scheduling point before it, at which another thread may have its
   turn.

   Without it a turn changes at notes alone, so never inside an operation that is really two. These
   macros take over the compiler's own operations, of which C11's `atomic_` ones are made: a macro
   is not expanded in its own text, so each ends in the operation itself. Its arguments are
   evaluated first, since they may be operations too. No macro sees an operator on an `_Atomic`
   variable, as in `count++`, or assembler.

   In C++ `lr::atomic<T>` stands for `std::atomic<T>`; without points the two are the same type.

   Include this header after all others: what is included after it has scheduling points too. With
   VALUES these do nothing but make noise. */

#ifdef __cplusplus
#include <atomic>
#include <type_traits>
#endif

#if LR_POINTS

/* A point before an operation on a word of `size` bytes. */
static inline void lr_point(const volatile void *word, size_t size, int writes)
{
    if (lr_self == &lr_outside) return;
#if LR_TURNS
    lr_point_of(lr_self);
    lr_touch(lr_self, (uintptr_t)word, size, writes);
#else
    (void)word, (void)size, (void)writes;
    lr_noise(lr_self);
#endif
}

#ifdef __cplusplus
#define LR_AUTO auto
#define LR_VALUE_OF(pointer) __typeof__(*(pointer))
#else
#define LR_AUTO __auto_type
#define LR_VALUE_OF(pointer) __typeof__((void)0, *(pointer))
#endif

/* operation(pointer, order), (pointer, value, order) and so on. A value that is stored has the
   word's type, one that is added its own. */
#define LR_OF_LOAD(operation, p, ...)                                                              \
    __extension__({                                                                                \
        LR_AUTO lr_p = (p);                                                                        \
        lr_point(lr_p, sizeof *lr_p, 0);                                                           \
        operation(lr_p, __VA_ARGS__);                                                              \
    })
#define LR_OF_WORD(operation, p, ...)                                                              \
    __extension__({                                                                                \
        LR_AUTO lr_p = (p);                                                                        \
        lr_point(lr_p, sizeof *lr_p, 1);                                                           \
        operation(lr_p, __VA_ARGS__);                                                              \
    })
#define LR_OF_FLAG(operation, p, ...)                                                              \
    __extension__({                                                                                \
        LR_AUTO lr_p = (p);                                                                        \
        lr_point(lr_p, 1, 1);                                                                      \
        operation(lr_p, __VA_ARGS__);                                                              \
    })
#define LR_OF_STORE(operation, p, v, ...)                                                          \
    __extension__({                                                                                \
        LR_AUTO lr_p = (p);                                                                        \
        LR_VALUE_OF(lr_p) lr_v = (v);                                                              \
        lr_point(lr_p, sizeof *lr_p, 1);                                                           \
        operation(lr_p, lr_v, __VA_ARGS__);                                                        \
    })
#define LR_OF_VALUE(operation, p, v, ...)                                                          \
    __extension__({                                                                                \
        LR_AUTO lr_p = (p);                                                                        \
        LR_AUTO lr_v = (v);                                                                        \
        lr_point(lr_p, sizeof *lr_p, 1);                                                           \
        operation(lr_p, lr_v, __VA_ARGS__);                                                        \
    })
#define LR_OF_CAS(operation, p, e, d, ...)                                                         \
    __extension__({                                                                                \
        LR_AUTO lr_p = (p);                                                                        \
        LR_AUTO lr_e = (e);                                                                        \
        LR_VALUE_OF(lr_p) lr_d = (d);                                                              \
        lr_point(lr_p, sizeof *lr_p, 1);                                                           \
        operation(lr_p, lr_e, lr_d, __VA_ARGS__);                                                  \
    })
#define LR_OF_SYNC(operation, p, v)                                                                \
    __extension__({                                                                                \
        LR_AUTO lr_p = (p);                                                                        \
        LR_AUTO lr_v = (v);                                                                        \
        lr_point(lr_p, sizeof *lr_p, 1);                                                           \
        operation(lr_p, lr_v);                                                                     \
    })
#define LR_OF_SYNC_CAS(operation, p, e, d)                                                         \
    __extension__({                                                                                \
        LR_AUTO lr_p = (p);                                                                        \
        LR_VALUE_OF(lr_p) lr_e = (e), lr_d = (d);                                                  \
        lr_point(lr_p, sizeof *lr_p, 1);                                                           \
        operation(lr_p, lr_e, lr_d);                                                               \
    })

#define __atomic_load_n(p, o) LR_OF_LOAD(__atomic_load_n, p, o)
#define __atomic_load(p, r, o) LR_OF_LOAD(__atomic_load, p, r, o)
#define __atomic_store_n(p, v, o) LR_OF_STORE(__atomic_store_n, p, v, o)
#define __atomic_store(p, v, o) LR_OF_WORD(__atomic_store, p, v, o)
#define __atomic_exchange_n(p, v, o) LR_OF_STORE(__atomic_exchange_n, p, v, o)
#define __atomic_exchange(p, v, r, o) LR_OF_WORD(__atomic_exchange, p, v, r, o)
#define __atomic_compare_exchange_n(p, e, d, w, s, f)                                              \
    LR_OF_CAS(__atomic_compare_exchange_n, p, e, d, w, s, f)
#define __atomic_compare_exchange(p, e, d, w, s, f)                                                \
    LR_OF_WORD(__atomic_compare_exchange, p, e, d, w, s, f)
#define __atomic_fetch_add(p, v, o) LR_OF_VALUE(__atomic_fetch_add, p, v, o)
#define __atomic_fetch_sub(p, v, o) LR_OF_VALUE(__atomic_fetch_sub, p, v, o)
#define __atomic_fetch_and(p, v, o) LR_OF_VALUE(__atomic_fetch_and, p, v, o)
#define __atomic_fetch_xor(p, v, o) LR_OF_VALUE(__atomic_fetch_xor, p, v, o)
#define __atomic_fetch_or(p, v, o) LR_OF_VALUE(__atomic_fetch_or, p, v, o)
#define __atomic_fetch_nand(p, v, o) LR_OF_VALUE(__atomic_fetch_nand, p, v, o)
#define __atomic_add_fetch(p, v, o) LR_OF_VALUE(__atomic_add_fetch, p, v, o)
#define __atomic_sub_fetch(p, v, o) LR_OF_VALUE(__atomic_sub_fetch, p, v, o)
#define __atomic_and_fetch(p, v, o) LR_OF_VALUE(__atomic_and_fetch, p, v, o)
#define __atomic_xor_fetch(p, v, o) LR_OF_VALUE(__atomic_xor_fetch, p, v, o)
#define __atomic_or_fetch(p, v, o) LR_OF_VALUE(__atomic_or_fetch, p, v, o)
#define __atomic_nand_fetch(p, v, o) LR_OF_VALUE(__atomic_nand_fetch, p, v, o)
#define __atomic_test_and_set(p, o) LR_OF_FLAG(__atomic_test_and_set, p, o)
#define __atomic_clear(p, o) LR_OF_FLAG(__atomic_clear, p, o)

#define __sync_fetch_and_add(p, v) LR_OF_SYNC(__sync_fetch_and_add, p, v)
#define __sync_fetch_and_sub(p, v) LR_OF_SYNC(__sync_fetch_and_sub, p, v)
#define __sync_fetch_and_or(p, v) LR_OF_SYNC(__sync_fetch_and_or, p, v)
#define __sync_fetch_and_and(p, v) LR_OF_SYNC(__sync_fetch_and_and, p, v)
#define __sync_fetch_and_xor(p, v) LR_OF_SYNC(__sync_fetch_and_xor, p, v)
#define __sync_fetch_and_nand(p, v) LR_OF_SYNC(__sync_fetch_and_nand, p, v)
#define __sync_add_and_fetch(p, v) LR_OF_SYNC(__sync_add_and_fetch, p, v)
#define __sync_sub_and_fetch(p, v) LR_OF_SYNC(__sync_sub_and_fetch, p, v)
#define __sync_or_and_fetch(p, v) LR_OF_SYNC(__sync_or_and_fetch, p, v)
#define __sync_and_and_fetch(p, v) LR_OF_SYNC(__sync_and_and_fetch, p, v)
#define __sync_xor_and_fetch(p, v) LR_OF_SYNC(__sync_xor_and_fetch, p, v)
#define __sync_nand_and_fetch(p, v) LR_OF_SYNC(__sync_nand_and_fetch, p, v)
#define __sync_lock_test_and_set(p, v) LR_OF_SYNC(__sync_lock_test_and_set, p, v)
#define __sync_bool_compare_and_swap(p, e, d) LR_OF_SYNC_CAS(__sync_bool_compare_and_swap, p, e, d)
#define __sync_val_compare_and_swap(p, e, d) LR_OF_SYNC_CAS(__sync_val_compare_and_swap, p, e, d)
#define __sync_lock_release(p)                                                                     \
    __extension__({                                                                                \
        LR_AUTO lr_p = (p);                                                                        \
        lr_point(lr_p, sizeof *lr_p, 1);                                                           \
        __sync_lock_release(lr_p);                                                                 \
    })

/* Clang's `atomic_` operations are made of these, GCC's of those above. */
#if defined __clang__ && !defined __cplusplus
#define __c11_atomic_load(p, o) LR_OF_LOAD(__c11_atomic_load, p, o)
#define __c11_atomic_store(p, v, o) LR_OF_STORE(__c11_atomic_store, p, v, o)
#define __c11_atomic_exchange(p, v, o) LR_OF_STORE(__c11_atomic_exchange, p, v, o)
#define __c11_atomic_compare_exchange_strong(p, e, d, s, f)                                        \
    LR_OF_CAS(__c11_atomic_compare_exchange_strong, p, e, d, s, f)
#define __c11_atomic_compare_exchange_weak(p, e, d, s, f)                                          \
    LR_OF_CAS(__c11_atomic_compare_exchange_weak, p, e, d, s, f)
#define __c11_atomic_fetch_add(p, v, o) LR_OF_VALUE(__c11_atomic_fetch_add, p, v, o)
#define __c11_atomic_fetch_sub(p, v, o) LR_OF_VALUE(__c11_atomic_fetch_sub, p, v, o)
#define __c11_atomic_fetch_or(p, v, o) LR_OF_VALUE(__c11_atomic_fetch_or, p, v, o)
#define __c11_atomic_fetch_xor(p, v, o) LR_OF_VALUE(__c11_atomic_fetch_xor, p, v, o)
#define __c11_atomic_fetch_and(p, v, o) LR_OF_VALUE(__c11_atomic_fetch_and, p, v, o)
#endif

#ifdef __cplusplus
#include "atomic_of.h"
#endif

#elif defined __cplusplus

namespace lr {
template <class T> using atomic = std::atomic<T>;
}

#endif /* LR_POINTS */
