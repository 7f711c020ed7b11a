/* An MCS lock of atomics that note themselves. Each thread has its record on its stack; with
   SIDE_BY_SIDE it has one in an array, and another one in each second round; with POOL it takes one
   from a pool for each round. With SWAP_OF_TWO the swap of the tail is a load and a store. C++14;
   noted.c is the same in C. */
#include <atomic>
#include <type_traits>
#include <utility>

#include "main.h"

namespace {

/* A word is used as one of the standard library: it has the type and the size of its value, begins
   with a constant, and is never copied. */
template <class Word, class T> constexpr bool is_word_of()
{
    using left = decltype(std::declval<Word &>() = std::declval<T>());
    static_assert(std::is_same<typename Word::value_type, T>::value, "a type");
    static_assert(std::is_same<left, T>::value, "the value of an assignment");
    static_assert(std::is_convertible<const Word &, T>::value, "a value");
    static_assert(std::is_nothrow_default_constructible<Word>::value, "a beginning");
    static_assert(std::is_nothrow_constructible<Word, T>::value, "a beginning with a value");
    static_assert(!std::is_copy_constructible<Word>::value, "no copy");
    static_assert(!std::is_copy_assignable<Word>::value, "no copy of another one");
    static_assert(noexcept(std::declval<const Word &>().load()), "an operation");
    return sizeof(Word) == sizeof(T);
}
static_assert(is_word_of<lr::atomic<unsigned>, unsigned>(), "an atomic");
static_assert(is_word_of<lr::noted<int *, LR_TAIL>, int *>(), "a word of a lock");
constexpr lr::atomic<int> one(1);
constexpr lr::noted<int, LR_NEXT_TICKET> two(2);
static_assert(sizeof one == sizeof two, "constants");

struct record {
    lr::noted<record *, LR_NEXT> next{nullptr};
    lr::noted<bool, LR_LOCKED> locked{false};
};

lr::noted<record *, LR_TAIL> tail{nullptr};

record *swap_tail(record *own)
{
#ifdef SWAP_OF_TWO
    record *found = tail.load();
    tail.store(own);
    return found;
#else
    return tail.exchange(own, std::memory_order_acq_rel);
#endif
}

void acquire(record *own)
{
    LR_CALL(acquire);
    lr_own_record(own);
    own->next = nullptr;
    record *before = swap_tail(own);
    if (!before) return;
    own->locked = true;
    before->next.store(own);
    while (own->locked.load(std::memory_order_acquire)) {}
}

void release(record *own)
{
    LR_CALL(release);
    record *next = own->next.load(), *last = own;
    if (!next && tail.compare_exchange_strong(last, nullptr)) return;
    while (!next) next = own->next;
    next->locked.store(false);
}

#include "rounds.h"

} // namespace

MAIN("mcs", 64, reset)
