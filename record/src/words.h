/* An unknown word of a note is an error when it is compiled, which lists the known ones.

   LR_IS_WORD_tail is a comma, and LR_IS_WORD_owner is no macro: so the second of what is left is
   LR_KNOWN or a macro with the error. A note pastes its word at once, since the word may be a macro
   of the lock's own. */

#define LR_NAMED(is, unknown, value) LR_SECOND(is LR_KNOWN, unknown, )(value)
#define LR_SECOND(first, second, ...) second
#define LR_KNOWN(value) value
#define LR_ERROR(...) _Pragma(#__VA_ARGS__) 0

#define LR_IS_ADDED_next_ticket ,
#define LR_IS_SWAPPED_tail ,
#define LR_IS_OF_A_RECORD_next ,
#define LR_IS_OF_A_RECORD_locked ,
#define LR_NOT_ADDED(word) LR_ERROR(GCC error "LR_ADD is of next_ticket")
#define LR_NOT_SWAPPED(word) LR_ERROR(GCC error "LR_SWAP is of tail")
#define LR_NOT_COMPARED(word) LR_ERROR(GCC error "LR_CAS is of tail")
#define LR_NOT_OF_A_RECORD(word) LR_ERROR(GCC error "a record has next and locked")
/* generated: calls */
/* clang-format off */
#define LR_IS_CALL_acquire ,
#define LR_IS_CALL_release ,
#define LR_IS_CALL_rlock ,
#define LR_IS_CALL_runlock ,
#define LR_IS_CALL_wlock ,
#define LR_IS_CALL_wunlock ,
#define LR_IS_CALL_downgrade ,
/* clang-format on */
/* end */
/* generated: calls */
/* clang-format off */
#define LR_NO_CALL_OF(it) \
    LR_ERROR(GCC error "a call is acquire, release, rlock, runlock, wlock, wunlock or downgrade")
/* clang-format on */
/* end */
/* generated: places */
/* clang-format off */
#define LR_IS_WORD_next_ticket ,
#define LR_IS_WORD_now_serving ,
#define LR_IS_WORD_tail ,
#define LR_IS_WORD_next ,
#define LR_IS_WORD_locked ,
/* clang-format on */
/* end */
/* generated: places */
/* clang-format off */
#define LR_NO_WORD_OF(it) \
    LR_ERROR(GCC error "a word is next_ticket, now_serving, tail, next or locked")
/* clang-format on */
/* end */
/* generated: outcomes */
/* clang-format off */
#define LR_IS_OUTCOME_moved ,
#define LR_IS_OUTCOME_waits ,
#define LR_IS_OUTCOME_entered ,
#define LR_IS_OUTCOME_left ,
/* clang-format on */
/* end */
/* generated: outcomes */
/* clang-format off */
#define LR_NO_OUTCOME_OF(it) \
    LR_ERROR(GCC error "an outcome is moved, waits, entered or left")
/* clang-format on */
/* end */
