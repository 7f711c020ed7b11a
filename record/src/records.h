/* Whose record an address is in, for atomics that note themselves. This comes before the points:
   there is none between an operation and its note. */

/* Takes a record from whoever had it: a lock may give it back to a pool, from which another thread
   takes it. The thread that had it may own another one at this moment, which it then keeps. Returns
   whether a thread had it. */
__attribute__((cold)) static inline int lr_take_record(lr_run *run, uintptr_t first, size_t length)
{
    int had = 0;
    for (unsigned t = 0; t < run->threads; t++) {
        lr_extent *other = &run->logs[t].record;
        uintptr_t theirs = __atomic_load_n(&other->first, __ATOMIC_RELAXED);
        size_t room = __atomic_load_n(&other->length, __ATOMIC_RELAXED);
        if (!theirs || (first - theirs >= room && theirs - first >= length)) continue;
        had |= __atomic_compare_exchange_n(&other->first, &theirs, 0, 0, __ATOMIC_RELAXED,
                                           __ATOMIC_RELAXED);
    }
    return had;
}

/* From now on this is the record of the thread that runs, and of no other. A thread in no run has
   none. */
static inline void lr_set_record(const void *pointer, size_t length)
{
    lr_extent *record = &lr_self->record;
    uintptr_t first = (uintptr_t)pointer;
    uintptr_t before = __atomic_load_n(&record->first, __ATOMIC_RELAXED);
    if (lr_self == &lr_outside || (before == first && record->length == length)) return;
    if (lr_take_record(lr_self->run, first, length) || before) lr_touch_all(lr_self->run);
    /* Another thread reads this when it notes a pointer into the record. A right lock has given it
       that pointer by an operation after these stores, which orders them before the reads. A thread
       with a pointer from elsewhere may read a new `first` with an old `length`: it then names
       another owner, or none, in the note of a lock that is wrong already. */
    __atomic_store_n(&record->length, length, __ATOMIC_RELAXED);
    __atomic_store_n(&record->first, first, __ATOMIC_RELAXED);
}

static inline int lr_has(const lr_log *log, uintptr_t address)
{
    uintptr_t first = __atomic_load_n(&log->record.first, __ATOMIC_RELAXED);
    size_t length = __atomic_load_n(&log->record.length, __ATOMIC_RELAXED);
    return first && address - first < length;
}

/* The thread in whose record an address is, or LR_UNKNOWN. The thread's own record is looked at
   first. */
static inline unsigned lr_thread_at(const lr_log *log, uintptr_t address)
{
    if (lr_has(log, address)) return log->thread;
    for (unsigned t = 0; log->run && t < log->run->threads; t++)
        if (lr_has(&log->run->logs[t], address)) return t;
    return LR_UNKNOWN;
}

static inline uint64_t lr_pointer_at(const lr_log *log, uintptr_t address)
{
    return address ? (uint64_t)lr_thread_at(log, address) + 1 : 0;
}

/* The thread whose word is at an address. It is looked up before the operation: afterwards that
   thread may have another record. */
LR_AT_ONCE unsigned lr_owner_at(unsigned place, uintptr_t address)
{
    if (place != LR_PLACE_next && place != LR_PLACE_locked) return LR_OWN;
    unsigned owner = lr_thread_at(lr_self, address);
    return owner == lr_self->thread ? (unsigned)LR_OWN : owner;
}

LR_AT_ONCE void lr_note_of(unsigned step, unsigned place, unsigned owner, unsigned part,
                           uint64_t value, const char *file, unsigned line)
{
    if (lr_self == &lr_outside) return;
    lr_note(lr_self, step, place, owner, part, value, file, line);
}
