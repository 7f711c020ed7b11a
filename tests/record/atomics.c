/* Each atomic operation of C, of GCC and of Clang has one point before it, by which EXPLORE knows
   loads from other operations. C11.

   Prints each operation that has no point or several, or a wrong one, and ends with 1 if there is
   one. Operators of `_Atomic` and `volatile` variables have no point. */
#include <stdatomic.h>
#include <stddef.h>

#ifndef LR_MODE
#define LR_MODE SEED
#endif
#include "../../built/lockreplay_record.h"

static lr_run *run;
static int failed;
static size_t before;

static void begin(void)
{
    run->logs[0].turn.has_passed = 0;
    before = run->turns;
}

static void end(const char *name, size_t due)
{
    int writes = !strstr(name, "load");
    int is_known = !LR_REDUCES || due != 1 || run->footprint.writes == writes;
    if (is_known && run->turns == before + due) return;
    failed = 1;
    printf("%s: %zu points, due %zu%s\n", name, run->turns - before, due,
           is_known ? "" : ", and a load is taken for a write, or a write for a load");
}

#define HAS_POINTS(due, ...) (begin(), (void)(__VA_ARGS__), end(#__VA_ARGS__, due))
#define HAS_ONE(...) HAS_POINTS(1, __VA_ARGS__)
#define STATEMENT(...)                                                                             \
    do {                                                                                           \
        begin();                                                                                   \
        __VA_ARGS__;                                                                               \
        end(#__VA_ARGS__, 1);                                                                      \
    } while (0)

static _Atomic unsigned word;
static _Atomic(int *) pointer;
static int numbers[3];
static atomic_flag flag = ATOMIC_FLAG_INIT;
static unsigned long plain, other, third;
static int *plain_pointer;
static volatile int quick;
static char byte;

static void c11_operations(void)
{
    unsigned due = 3;
    STATEMENT(atomic_store(&word, 1));
    STATEMENT(atomic_store_explicit(&word, 1, memory_order_release));
    STATEMENT(atomic_store(&pointer, NULL));
    HAS_ONE(atomic_load(&word));
    HAS_ONE(atomic_load(&pointer));
    HAS_ONE(atomic_load_explicit(&word, memory_order_acquire));
    HAS_ONE(atomic_exchange(&word, 2));
    HAS_ONE(atomic_exchange(&pointer, numbers + 1));
    HAS_ONE(atomic_exchange_explicit(&word, 2, memory_order_relaxed));
    HAS_ONE(atomic_compare_exchange_strong(&word, &due, 5));
    HAS_ONE(atomic_compare_exchange_weak(&word, &due, 5));
    HAS_ONE(atomic_compare_exchange_strong_explicit(&word, &due, 5, memory_order_acq_rel,
                                                    memory_order_acquire));
    HAS_ONE(atomic_compare_exchange_weak_explicit(&word, &due, 5, memory_order_acq_rel,
                                                  memory_order_acquire));
    HAS_ONE(atomic_fetch_add(&word, 1));
    HAS_ONE(atomic_fetch_add(&pointer, 1));
    HAS_ONE(atomic_fetch_add_explicit(&word, 1, memory_order_relaxed));
    HAS_ONE(atomic_fetch_sub(&word, 1));
    HAS_ONE(atomic_fetch_or(&word, 1));
    HAS_ONE(atomic_fetch_xor(&word, 1));
    HAS_ONE(atomic_fetch_and(&word, 1));
    HAS_ONE(atomic_flag_test_and_set(&flag));
    STATEMENT(atomic_flag_clear(&flag));
}

/* The operations that change a word, before and after which its value may be asked for. */
#define EACH(has) has(add) has(sub) has(and) has(xor) has(or)
#define HAVE_ONE(change)                                                                           \
    HAS_ONE(__atomic_fetch_##change(&plain, 1, __ATOMIC_SEQ_CST));                                 \
    HAS_ONE(__atomic_##change##_fetch(&plain, 1, __ATOMIC_SEQ_CST));
#define OLDER_HAVE_ONE(change)                                                                     \
    HAS_ONE(__sync_fetch_and_##change(&plain, 1));                                                 \
    HAS_ONE(__sync_##change##_and_fetch(&plain, 1));

static void operations_of_compilers(void)
{
    STATEMENT(__atomic_store_n(&plain, 1, __ATOMIC_SEQ_CST));
    STATEMENT(__atomic_store_n(&plain_pointer, 0, __ATOMIC_RELEASE));
    STATEMENT(__atomic_store(&plain, &other, __ATOMIC_SEQ_CST));
    STATEMENT(__atomic_load(&plain, &other, __ATOMIC_SEQ_CST));
    STATEMENT(__atomic_exchange(&plain, &other, &third, __ATOMIC_SEQ_CST));
    HAS_ONE(__atomic_load_n(&quick, __ATOMIC_SEQ_CST));
    HAS_ONE(__atomic_exchange_n(&plain, 3, __ATOMIC_SEQ_CST));
    HAS_ONE(__atomic_compare_exchange_n(&plain, &other, 7, 0, __ATOMIC_SEQ_CST, __ATOMIC_SEQ_CST));
    HAS_ONE(
        __atomic_compare_exchange(&plain, &other, &third, 0, __ATOMIC_SEQ_CST, __ATOMIC_SEQ_CST));
    EACH(HAVE_ONE)
    HAVE_ONE(nand)
    HAS_ONE(__atomic_test_and_set(&byte, __ATOMIC_SEQ_CST));
    STATEMENT(__atomic_clear(&byte, __ATOMIC_SEQ_CST));
}

static void older_operations(void)
{
    EACH(OLDER_HAVE_ONE)
    HAS_ONE(__sync_lock_test_and_set(&plain, 1));
    HAS_ONE(__sync_bool_compare_and_swap(&plain, 1, 2));
    HAS_ONE(__sync_val_compare_and_swap(&plain_pointer, 0, numbers));
    STATEMENT(__sync_lock_release(&plain));
}

/* No macro sees these, as docs/RECORDING.md says. */
static void operators(void)
{
    HAS_POINTS(0, word++);
    HAS_POINTS(0, word = word + 1);
    HAS_POINTS(0, quick = quick + 1);
}

int main(void)
{
    run = lr_open("ticket", 1, 64, 10, 1, NULL);
    if (!run) return 3;
    lr_begin(lr_log_of(run, 0));
    c11_operations();
    operations_of_compilers();
    older_operations();
    operators();
    HAS_POINTS(2, __atomic_exchange_n(&plain, __atomic_load_n(&other, __ATOMIC_SEQ_CST) + 1,
                                      __ATOMIC_SEQ_CST));
    LR_READ(now_serving, 1);
    size_t noted = run->turns;
    (void)atomic_load(&word);
    if (run->turns != noted) failed = printf("a point right after a note\n");
    lr_end(lr_log_of(run, 0));
    return failed;
}
