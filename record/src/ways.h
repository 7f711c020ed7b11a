/* EXPLORE: the ways that are still to be tried. A way is the list of choices with which a run
   begins; after them each thread goes on as long as it can. */

#if LR_EXPLORES

typedef struct lr_way {
    struct lr_way *next;
    struct lr_trail *trail; /* of a run that begins with `shared` of these choices, or NULL */
    size_t shared, length;
    unsigned cost; /* how many preemptions it has */
} lr_way;

typedef struct lr_search {
    lr_way *now, *later;  /* to be tried with this many preemptions, and with one more */
    unsigned level, most; /* preemptions: of the runs that are made now, and of any */
    int no_memory;
    unsigned *clocks; /* for each step of a run how many of each thread's come before it */
    size_t clocks_room;
} lr_search;

static inline unsigned char *lr_steps_of(lr_way *way) { return (unsigned char *)(way + 1); }

static inline lr_way *lr_take(lr_way **list)
{
    lr_way *way = *list;
    if (way) *list = way->next;
    return way;
}

/* Adds the way of a run up to a choice, with another thread chosen there. */
static inline lr_way *lr_add_way(lr_search *search, const lr_run *run, size_t at, unsigned other,
                                 unsigned cost)
{
    lr_way *way = (lr_way *)malloc(sizeof(lr_way) + at + 1);
    if (!way) {
        search->no_memory = 1;
        return NULL;
    }
    way->trail = NULL;
    way->shared = at;
    way->length = at + 1;
    way->cost = cost;
    for (size_t i = 0; i < at; i++) lr_steps_of(way)[i] = (unsigned char)run->choices[i].chosen;
    lr_steps_of(way)[at] = (unsigned char)other;
    lr_way **list = cost > search->level ? &search->later : &search->now;
    way->next = *list;
    *list = way;
    return way;
}

#endif /* LR_EXPLORES */
