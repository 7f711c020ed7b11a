/* lr::atomic<T> and lr::noted<T, WORD> hand on the order that is given, and else the strongest one.
   C++14 and later. The std::atomic<probe> below keeps the orders with which it was called.

   Prints each operation that has another order, and ends with 1 if there is one. */
#include <atomic>
#include <cstdint>

struct probe {
    operator uint64_t() const { return 0; }
};

static int first, second;

namespace std {

template <> struct atomic<probe> {
    using order = memory_order;
    atomic() {}
    atomic(probe) {}
    static probe keep(order o)
    {
        first = static_cast<int>(o);
        return probe();
    }
    static bool keep(order o, order failed)
    {
        second = static_cast<int>(failed);
        return keep(o), false;
    }
    static constexpr order all = memory_order_seq_cst;
    probe load(order o = all) const { return keep(o); }
    void store(probe, order o = all) { keep(o); }
    probe exchange(probe, order o = all) { return keep(o); }
    bool compare_exchange_strong(probe &, probe, order o = all) { return keep(o, o); }
    bool compare_exchange_strong(probe &, probe, order o, order f) { return keep(o, f); }
    bool compare_exchange_weak(probe &, probe, order o = all) { return keep(o, o); }
    bool compare_exchange_weak(probe &, probe, order o, order f) { return keep(o, f); }
    probe fetch_add(probe, order o = all) { return keep(o); }
    probe fetch_sub(probe, order o = all) { return keep(o); }
    probe fetch_and(probe, order o = all) { return keep(o); }
    probe fetch_or(probe, order o = all) { return keep(o); }
    probe fetch_xor(probe, order o = all) { return keep(o); }
};

} // namespace std

#include "../../built/lockreplay_record.h"

static int failed;
static const std::memory_order relaxed = std::memory_order_relaxed;
static const std::memory_order acquire = std::memory_order_acquire;
static const std::memory_order strongest = std::memory_order_seq_cst;

template <class Work>
static void has(const char *name, std::memory_order due, std::memory_order last, Work work)
{
    first = second = -1;
    work();
    bool is_well = first == static_cast<int>(due);
    if (second != -1) is_well = is_well && second == static_cast<int>(last);
    if (!is_well) failed = printf("%s: the orders %d and %d\n", name, first, second);
}

#define HAS(due, last, ...) has(#__VA_ARGS__, due, last, [&] { (void)(__VA_ARGS__); })
#define OF_BOTH(name, ...)                                                                         \
    HAS(strongest, strongest, word.name(__VA_ARGS__));                                             \
    HAS(relaxed, relaxed, word.name(__VA_ARGS__, relaxed))

template <class Word> static void shared_operations(Word &word)
{
    probe due;
    HAS(strongest, strongest, word.load());
    HAS(acquire, acquire, word.load(acquire));
    OF_BOTH(store, due);
    OF_BOTH(exchange, due);
    OF_BOTH(fetch_add, due);
    OF_BOTH(compare_exchange_strong, due, due);
    OF_BOTH(compare_exchange_weak, due, due);
    HAS(acquire, relaxed, word.compare_exchange_strong(due, due, acquire, relaxed));
    HAS(acquire, relaxed, word.compare_exchange_weak(due, due, acquire, relaxed));
}

int main()
{
    probe due;
    lr::atomic<probe> word;
    lr::noted<probe, LR_TAIL> noted;
    shared_operations(word);
    shared_operations(noted);
    OF_BOTH(fetch_sub, due);
    OF_BOTH(fetch_and, due);
    OF_BOTH(fetch_or, due);
    OF_BOTH(fetch_xor, due);
    return failed != 0;
}
