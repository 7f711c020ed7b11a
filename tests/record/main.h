/* The main function of a program in C or C++, each of whose threads makes rounds: its lock, the bits
   of a counter, and the function that makes the lock new, or NULL. */
#include "../../built/lockreplay_record.h"

#define MAIN(lock, bits, reset)                                                                    \
    int main(int count, char **words)                                                              \
    {                                                                                              \
        const lr_driver driver = {lock, bits, reset, one_round, NULL};                             \
        return lr_main(&driver, count, words);                                                     \
    }
