/* examples/recording/mcs.c as a test of Relacy, which finders.py compiles: C11's operations and
   types are Relacy's, notes are none, and the lock is a part of the test. mcs.inc is its source. */
#include <relacy/relacy.hpp>

#define atomic_load(p) (p)->load(rl::mo_seq_cst, $)
#define atomic_store(p, v) (p)->store(v, rl::mo_seq_cst, $)
#define atomic_exchange(p, v) (p)->exchange(v, rl::mo_seq_cst, $)
#define atomic_compare_exchange_strong(p, e, v)                                                    \
    (p)->compare_exchange_strong(*(e), v, rl::mo_seq_cst, $)
#define sched_yield() rl::yield(1, $)
#define _Atomic(T) rl::atomic<T>
#define LR_CALL(...) ((void)0)
#define LR_READ(...) ((void)0)
#define LR_WRITE(...) ((void)0)
#define LR_SWAP(...) ((void)0)
#define LR_CAS(...) ((void)0)
#define LR_WRITE_OF(...) ((void)0)
#define LR_READ_OF(...) ((void)0)
#define LR_SWITCH(...) ((void)0)
#define LR_RECORD(...) 0

enum { MOST_THREADS = 3, ROUNDS = 2, LR_CALL_acquire };

struct mcs : rl::test_suite<mcs, MOST_THREADS> {
    rl::var<unsigned> visits;

    void inside(unsigned, unsigned) { visits($) = visits($) + 1; }
#define static
#include "mcs.inc"
#undef static

    void before()
    {
        visits($) = 0;
        the_lock.tail.store(nullptr, rl::mo_seq_cst, $);
        for (record &it : the_lock.records) {
            it.next.store(nullptr, rl::mo_seq_cst, $);
            it.locked.store(0u, rl::mo_seq_cst, $);
        }
    }

    void thread(unsigned index)
    {
        for (unsigned round = 0; round < ROUNDS; round++) one_round(index, round);
    }
};

int main()
{
    rl::test_params params;
    params.iteration_count = 10000;
    int is_wrong = !rl::simulate<mcs>(params);
    std::cout << "found: " << rl::test_result_str(params.test_result) << " in iteration "
              << params.stop_iteration << "\n";
    return is_wrong;
}
