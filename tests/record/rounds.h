/* The rounds of noted.c and noted.cc, in which a thread takes the lock with its record. With POOL
   the record that came last is the first to be taken from the pool, so that a record soon goes from
   one thread to another. */

#ifdef POOL
static record records[4], *pool[4];
static unsigned left;
static pthread_mutex_t guard = PTHREAD_MUTEX_INITIALIZER;

static record *take(void)
{
    pthread_mutex_lock(&guard);
    record *own = pool[--left];
    pthread_mutex_unlock(&guard);
    return own;
}

static void give_back(record *own)
{
    pthread_mutex_lock(&guard);
    pool[left++] = own;
    pthread_mutex_unlock(&guard);
}
#endif

static void reset(void)
{
    tail = (record *)NULL;
#ifdef POOL
    for (left = 0; left < 4; left++) pool[left] = &records[left];
#endif
}

static void one_round(unsigned thread, unsigned round)
{
#ifdef SIDE_BY_SIDE
    static record records[2][4];
    record *own = &records[round % 2][thread];
#elif defined POOL
    record *own = take();
#else
    record on_the_stack, *own = &on_the_stack;
#endif
    (void)thread, (void)round;
    acquire(own);
    LR_SWITCH();
    release(own);
#ifdef POOL
    give_back(own);
    LR_SWITCH();
#endif
}
