/* Operators of lr::noted<T, WORD> and both kinds of its compare-and-swap, each on a line that
   test_noted.py knows by its comment. C++14 and later. */
#include <atomic>
#include <cstdint>

/* Its compare_exchange_weak fails for no reason. */
struct flaky {
    operator uint64_t() const { return 0; }
};

namespace std {
template <> struct atomic<flaky> {
    atomic() {}
    bool compare_exchange_weak(flaky &, flaky, memory_order) { return false; }
    bool compare_exchange_weak(flaky &, flaky, memory_order, memory_order) { return false; }
};
} // namespace std

#include "main.h"

static const std::memory_order relaxed = std::memory_order_relaxed;
static const std::memory_order acq_rel = std::memory_order_acq_rel;
static lr::noted<int *, LR_TAIL> tail;
static lr::noted<bool, LR_LOCKED> locked;
static lr::noted<flaky, LR_NEXT> next;

static void one_round(unsigned, unsigned)
{
    int record[2] = {0, 0}, *found = nullptr;
    flaky due;
    lr_own_record(&record);
    tail = &record[1];                                             // write tail 1
    tail = nullptr;                                                // write tail 0
    locked = 1;                                                    // write locked 1
    locked = tail;                                                 // write locked 0
    locked.store(locked);                                          // write locked 0
    tail.compare_exchange_strong(found, record, acq_rel, relaxed); // cas tail done
    tail.compare_exchange_weak(found, record);                     // cas tail failed
    tail.compare_exchange_weak(found, nullptr, relaxed, relaxed);  // cas tail done
    next.compare_exchange_weak(due, due);
    next.compare_exchange_weak(due, due, relaxed, relaxed);
}

MAIN("mcs", 64, nullptr)
