/* The words of a trace as numbers. They are there in each mode. */

enum {
    /* generated: calls */
    /* clang-format off */
    LR_CALL_acquire, LR_CALL_release, LR_CALL_rlock, LR_CALL_runlock, LR_CALL_wlock,
    LR_CALL_wunlock, LR_CALL_downgrade,
    /* clang-format on */
    /* end */
    /* generated: steps */
    /* clang-format off */
    LR_STEP_read, LR_STEP_write, LR_STEP_swap, LR_STEP_cas, LR_STEP_add, LR_STEP_section,
    /* clang-format on */
    /* end */
    LR_WORDS
};
enum {
    LR_PLACE_none,
    /* generated: places */
    /* clang-format off */
    LR_PLACE_next_ticket, LR_PLACE_now_serving, LR_PLACE_tail, LR_PLACE_next, LR_PLACE_locked,
    /* clang-format on */
    /* end */
    LR_PLACES
};
enum {
    LR_PART_none,
    /* generated: parts */
    /* clang-format off */
    LR_PART_found, LR_PART_left, LR_PART_done, LR_PART_failed,
    /* clang-format on */
    /* end */
    /* generated: outcomes */
    /* clang-format off */
    LR_OUTCOME_moved, LR_OUTCOME_waits, LR_OUTCOME_entered, LR_OUTCOME_left,
    /* clang-format on */
    /* end */
    LR_PARTS
};
