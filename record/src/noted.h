/* Atomics that note themselves: operation and note are one, so neither can be forgotten, and an
   operation that is really two is noted as two. `word` is LR_NEXT_TICKET, LR_NOW_SERVING, LR_TAIL,
   LR_NEXT or LR_LOCKED. Without a mode they are the operations alone.

   In C11, of `_Atomic` objects; each is also there with `_explicit` and an order before the word:
       lr_load(p, word)  lr_store(p, value, word)  lr_exchange(p, value, word)
       lr_fetch_add(p, value, word)  lr_compare_exchange(p, &expected, desired, word)
   In C++ `lr::noted<T, LR_TAIL>` has these operations of an atomic<T>: load, store, exchange,
   fetch_add, compare_exchange_strong and compare_exchange_weak, and its value as an operand or
   assigned. A load as an operand has no place: `load()` has one.

   A pointer is noted as 0, or as j + 1 if it points into thread j's record, and a `next` or
   `locked` is of the thread in whose record it is. `lr_own_record(pointer)` says which is the
   record of the thread that calls it, before it takes the lock; the thread that had this record,
   as one from a pool, has it no longer. A thread that is in no run notes nothing, so that a lock
   can also be made new by these. */

enum {
    LR_NEXT_TICKET = LR_PLACE_next_ticket,
    LR_NOW_SERVING = LR_PLACE_now_serving,
    LR_TAIL = LR_PLACE_tail,
    LR_NEXT = LR_PLACE_next,
    LR_LOCKED = LR_PLACE_locked
};

#if LR_RECORDS
#define lr_own_record(pointer) lr_set_record(pointer, sizeof *(pointer))
#else
#define lr_own_record(pointer) ((void)0)
#endif

#ifndef __cplusplus
#include <stdatomic.h>

#define lr_load(p, word) lr_load_explicit(p, memory_order_seq_cst, word)
#define lr_store(p, v, word) lr_store_explicit(p, v, memory_order_seq_cst, word)
#define lr_exchange(p, v, word) lr_exchange_explicit(p, v, memory_order_seq_cst, word)
#define lr_fetch_add(p, v, word) lr_fetch_add_explicit(p, v, memory_order_seq_cst, word)
#define lr_compare_exchange(p, e, d, word)                                                         \
    lr_compare_exchange_explicit(p, e, d, memory_order_seq_cst, memory_order_seq_cst, word)

#if LR_RECORDS
/* The note of a value: GCC and Clang number the class of pointers 5. */
#define LR_WORTH(v)                                                                                \
    (__builtin_classify_type(v) == 5 ? lr_pointer_at(lr_self, (uintptr_t)(v))                      \
                                     : (uint64_t)(uintptr_t)(v))
#define LR_NOTE_OF(step, word, part, value)                                                        \
    lr_note_of(LR_STEP_##step, word, lr_o, part, value, __FILE__, __LINE__)

#define lr_load_explicit(p, o, word)                                                               \
    __extension__({                                                                                \
        __auto_type lr_q = (p);                                                                    \
        unsigned lr_o = lr_owner_at(word, (uintptr_t)lr_q);                                        \
        __auto_type lr_w = atomic_load_explicit(lr_q, o);                                          \
        LR_NOTE_OF(read, word, LR_PART_found, LR_WORTH(lr_w));                                     \
        lr_w;                                                                                      \
    })
#define lr_store_explicit(p, v, o, word)                                                           \
    __extension__({                                                                                \
        __auto_type lr_q = (p);                                                                    \
        unsigned lr_o = lr_owner_at(word, (uintptr_t)lr_q);                                        \
        __typeof__((void)0, *lr_q) lr_w = (v);                                                     \
        uint64_t lr_n = LR_WORTH(lr_w);                                                            \
        atomic_store_explicit(lr_q, lr_w, o);                                                      \
        LR_NOTE_OF(write, word, LR_PART_left, lr_n);                                               \
    })
#define lr_exchange_explicit(p, v, o, word)                                                        \
    __extension__({                                                                                \
        __auto_type lr_q = (p);                                                                    \
        unsigned lr_o = lr_owner_at(word, (uintptr_t)lr_q);                                        \
        __auto_type lr_w = atomic_exchange_explicit(lr_q, v, o);                                   \
        LR_NOTE_OF(swap, word, LR_PART_found, LR_WORTH(lr_w));                                     \
        lr_w;                                                                                      \
    })
#define lr_fetch_add_explicit(p, v, o, word)                                                       \
    __extension__({                                                                                \
        __auto_type lr_q = (p);                                                                    \
        unsigned lr_o = lr_owner_at(word, (uintptr_t)lr_q);                                        \
        __auto_type lr_w = atomic_fetch_add_explicit(lr_q, v, o);                                  \
        LR_NOTE_OF(add, word, LR_PART_found, LR_WORTH(lr_w));                                      \
        lr_w;                                                                                      \
    })
#define lr_compare_exchange_explicit(p, e, d, o, f, word)                                          \
    __extension__({                                                                                \
        __auto_type lr_q = (p);                                                                    \
        unsigned lr_o = lr_owner_at(word, (uintptr_t)lr_q);                                        \
        int lr_w = atomic_compare_exchange_strong_explicit(lr_q, e, d, o, f);                      \
        LR_NOTE_OF(cas, word, lr_w ? LR_PART_done : LR_PART_failed, 0);                            \
        lr_w;                                                                                      \
    })
#else
#define lr_load_explicit(p, o, word) atomic_load_explicit(p, o)
#define lr_store_explicit(p, v, o, word) atomic_store_explicit(p, v, o)
#define lr_exchange_explicit(p, v, o, word) atomic_exchange_explicit(p, v, o)
#define lr_fetch_add_explicit(p, v, o, word) atomic_fetch_add_explicit(p, v, o)
#define lr_compare_exchange_explicit(p, e, d, o, f, word)                                          \
    atomic_compare_exchange_strong_explicit(p, e, d, o, f)
#endif
#else
#include "noted_of.h"
#endif
