/* lr::atomic<T>: each operation has one point before it, by which EXPLORE knows loads from other
   operations, and does what std::atomic<T> does. C++14.

   Prints each operation that does not, and ends with 1 if there is one. */
#include <cstdint>

#ifndef LR_MODE
#define LR_MODE SEED
#endif
#include "../../built/lockreplay_record.h"

static lr_run *run;
static int failed;

/* Makes an operation, and compares its answer and its number of points. */
template <class Work, class T> static void has_one(const char *name, Work work, T due)
{
    run->logs[0].turn.has_passed = 0;
    size_t before = run->turns;
    bool is_well = work() == due;
    bool writes = !strstr(name, "load") && !strstr(name, "unsigned(");
    is_well = is_well && (!LR_REDUCES || run->footprint.writes == writes);
    if (is_well && run->turns == before + 1) return;
    failed = 1;
    printf("%s: %zu points, %s\n", name, run->turns - before, is_well ? "well" : "not well");
}

#define HAS_ONE(due, ...)                                                                          \
    has_one(                                                                                       \
        #__VA_ARGS__, [&] { return __VA_ARGS__; }, due)

static void numbers()
{
    lr::atomic<unsigned> word(6);
    unsigned due = 1;
    HAS_ONE(6u, word.load());
    HAS_ONE(6u, unsigned(word));
    HAS_ONE(7u, word = 7);
    HAS_ONE(7u, word.exchange(8, std::memory_order_acq_rel));
    HAS_ONE(false, word.compare_exchange_strong(due, 9));
    HAS_ONE(true, word.compare_exchange_strong(due, 9, std::memory_order_acq_rel,
                                               std::memory_order_acquire));
    HAS_ONE(false, word.compare_exchange_weak(due, 1));
    HAS_ONE(false, word.compare_exchange_weak(due = 1, 1, std::memory_order_acq_rel,
                                              std::memory_order_acquire));
    HAS_ONE(9u, word.fetch_add(3));
    HAS_ONE(12u, word.fetch_sub(2));
    HAS_ONE(10u, word.fetch_and(8));
    HAS_ONE(8u, word.fetch_or(1));
    HAS_ONE(9u, word.fetch_xor(3));
    HAS_ONE(10u, word++);
    HAS_ONE(12u, ++word);
    HAS_ONE(12u, word--);
    HAS_ONE(10u, --word);
    HAS_ONE(15u, word += 5);
    HAS_ONE(14u, word -= 1);
    HAS_ONE(6u, word &= 7);
    HAS_ONE(7u, word |= 1);
    HAS_ONE(4u, word ^= 3);
    HAS_ONE(4u, (word.store(5, std::memory_order_release), 4u));
}

static void pointers()
{
    int numbers[3] = {0, 0, 0};
    lr::atomic<int *> word(nullptr);
    HAS_ONE(numbers, word = numbers);
    HAS_ONE(numbers, word.fetch_add(2));
    HAS_ONE(numbers + 2, word.exchange(nullptr));
    HAS_ONE(static_cast<int *>(nullptr), word.load());
}

int main()
{
    run = lr_open("ticket", 1, 64, 10, 1, NULL);
    if (!run) return 3;
    lr_begin(lr_log_of(run, 0));
    numbers();
    pointers();
    lr_end(lr_log_of(run, 0));
    lr_close(run);
    return failed;
}
