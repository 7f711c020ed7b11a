/* Tries the preloaded library: `probe` with it, `probe plain` without it. Prints failed checks. */
#include <pthread.h>
#include <stdio.h>
#include <stdlib.h>
#include <string.h>

enum { HERE = 99999998, ASK = 99999999, ARM = 100000000 };

static int failed;

#define EXPECT(fact)                                                                               \
    do {                                                                                           \
        if (!(fact)) {                                                                             \
            failed = 1;                                                                            \
            printf("probe.c:%d: %s\n", __LINE__, #fact);                                           \
        }                                                                                          \
    } while (0)

/* Whether a request is granted. A granted block is given back at once. */
static int is_granted(size_t size)
{
    void *volatile block = malloc(size);
    free(block);
    return block != NULL;
}

/* Makes requests of these sizes in turn: `1` in `due` is one that is granted, and `0` is none. */
#define REQUESTS(due, ...)                                                                         \
    do {                                                                                           \
        const size_t sizes[] = {__VA_ARGS__};                                                      \
        for (int k = 0; due[k]; k++) EXPECT(is_granted(sizes[k]) == (due[k] == '1'));              \
    } while (0)

static void *ten_requests(void *count)
{
    for (int k = 0; k < 10; k++)
        if (!is_granted(8)) __atomic_add_fetch((int *)count, 1, __ATOMIC_SEQ_CST);
    return NULL;
}

static void grown_and_aligned(void)
{
    void *block = malloc(8), *aligned = NULL;
    EXPECT(is_granted(ARM + 1));
    void *grown = realloc(block, 800);
    EXPECT(grown == NULL);
    EXPECT(!is_granted(ASK));
    free(grown == NULL ? block : grown);
    EXPECT(is_granted(ARM + 2));
    free(aligned_alloc(64, 64));
    EXPECT(posix_memalign(&aligned, 64, 64) != 0);
    EXPECT(!is_granted(ASK));
    EXPECT(is_granted(ARM + 1));
    void *volatile zeroed = calloc(8, 8);
    EXPECT(zeroed != NULL);
    free(zeroed);
    EXPECT(is_granted(ASK));
}

static void one_of_two_threads(void)
{
    pthread_t one, two;
    int count = 0;
    EXPECT(is_granted(ARM + 15));
    pthread_create(&one, NULL, ten_requests, &count);
    pthread_create(&two, NULL, ten_requests, &count);
    pthread_join(one, NULL);
    pthread_join(two, NULL);
    EXPECT(!is_granted(ASK));
    EXPECT(count == 1);
}

int main(int words, char **word)
{
    if (words > 1 && !strcmp(word[1], "plain")) {
        REQUESTS("1111", HERE, ARM + 1, 8, ASK);
        return failed;
    }
    REQUESTS("0", HERE);
    REQUESTS("110101", ARM + 2, 8, 8, 8, ASK, 8); /* the second of three is refused */
    REQUESTS("1111", ARM + 2, 8, ASK, 8);         /* no second one comes */
    grown_and_aligned();
    one_of_two_threads();
    return failed;
}
