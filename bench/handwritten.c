/* A replayer of lock schedules as one would write it by hand, to measure lockreplay against.
 *
 *     cc -O2 -o handwritten handwritten.c
 *     ./handwritten replay < SCHEDULE     sends its report as it is made, 64 KB at a time
 *     ./handwritten batch FILE...         keeps all reports, and writes them in the end
 *
 * It keeps words and phases as the published algorithms do, and reads the whole text before it
 * replays. The text ` hold H queue Q` is kept between two lines, and made anew if it changed.
 * The queue's text is a window that grows at its end and shrinks at its front. Nothing is proved
 * here, and nothing but schedules without a fault is meant to be replayed: a fault ends with
 * status 2. Different from lockreplay: a move is printed as it is made, so if `replay` cannot
 * write, what follows was not replayed. Tables are laid out by hand.
 */
/* clang-format off */
#include <fcntl.h>
#include <stdint.h>
#include <stdio.h>
#include <stdlib.h>
#include <string.h>
#include <unistd.h>

enum { MOST_BYTES = 1048576, MOST_MOVES = 65536, MOST_THREADS = 64 };
enum { BUFFER = 65536, MOST_LINE = 1024 };
enum kind { TICKET, MCS, RW_SIMPLE, RW_FIFO };
enum word { ACQUIRE, RELEASE, RLOCK, RUNLOCK, WLOCK, WUNLOCK, DOWNGRADE,
            READ, WRITE, SWAP, CAS, ADD, SECTION, WORDS };
enum phase { IDLE, TAKE_TICKET, AWAIT_TURN, INSIDE, READ_SERVING, PASS_ON,
             CLEAR_NEXT, SWAP_TAIL, SET_LOCKED, LINK, AWAIT_GRANT, READ_NEXT, CAS_TAIL, AWAIT_LINK,
             GRANT, TRY_READ, READING, LEAVE_READ, TRY_WRITE, AWAIT_READERS, WRITING, LEAVE_WRITE,
             TRY_DOWNGRADE, PHASES };
enum outcome { CALLED, MOVED, WAITS, ENTERED, LEFT, REFUSED };

static const char *const word_text[WORDS] = {
    "acquire", "release", "rlock", "runlock", "wlock", "wunlock", "downgrade",
    "read", "write", "swap", "cas", "add", "section" };
static const char *const outcome_text[REFUSED] = { "called", "moved", "waits", "entered", "left" };
static const uint8_t due[PHASES] = {
    [TAKE_TICKET] = ADD, [AWAIT_TURN] = READ, [READ_SERVING] = READ, [PASS_ON] = WRITE,
    [CLEAR_NEXT] = WRITE, [SWAP_TAIL] = SWAP, [SET_LOCKED] = WRITE, [LINK] = WRITE,
    [AWAIT_GRANT] = READ, [READ_NEXT] = READ, [CAS_TAIL] = CAS, [AWAIT_LINK] = READ,
    [GRANT] = WRITE, [TRY_READ] = SECTION, [LEAVE_READ] = SECTION, [TRY_WRITE] = SECTION,
    [AWAIT_READERS] = SECTION, [LEAVE_WRITE] = SECTION, [TRY_DOWNGRADE] = SECTION };

struct move { uint32_t line; uint8_t thread, word; };
struct thread { uint64_t seen; uint8_t phase; };   /* seen: ticket, value read, or other thread */

static char text[MOST_BYTES + 1];
static struct move moves[MOST_MOVES];
static size_t move_count;
static enum kind kind;
static unsigned threads;
static uint64_t words[1 + 2 * MOST_THREADS], mask;
static struct thread all[MOST_THREADS];

/* What the report shows: a queue's text as a window, the readers as bits and as text, a holder or
 * writer. Of 65,536 moves at most 32,768 join the queue, with 3 bytes each. */
static char queue[3 << 15];
static size_t queue_front, queue_end;
static uint64_t readers;
static char reader_text[3 * MOST_THREADS];
static size_t reader_size;
static int holder = -1, writer = -1, announced = -1;
static char state[512];
static size_t state_size;
static struct { char text[24]; uint8_t size; } middle[WORDS][REFUSED];  /* ` WORD OUTCOME` */
static uint8_t word_size[WORDS];
static char number[256][4];
static uint8_t number_size[256];

static void fail(const char *why) { fprintf(stderr, "handwritten: %s\n", why); exit(2); }

static char *put(char *at, const char *from, size_t size) {
    memcpy(at, from, size);
    return at + size;
}

static char *put_number(char *at, unsigned n) {
    memcpy(at, number[n], 3);
    return at + number_size[n];
}

static void show_state(void) {
    char *at = put(state, " hold ", 6);
    if (holder >= 0) at = put_number(at, holder);
    else if (writer >= 0) { *at++ = 'w'; at = put_number(at, writer); }
    else if (readers) {
        *at++ = 'r';
        at = put(at, reader_text, reader_size - 1);
    } else *at++ = '-';
    at = put(at, " queue ", 7);
    if (queue_end > queue_front) at = put(at, queue + queue_front, queue_end - queue_front - 1);
    else if (announced >= 0) at = put_number(at, announced);
    else *at++ = '-';
    *at++ = '\n';
    state_size = at - state;
}

static void join_queue(unsigned t) {
    memcpy(queue + queue_end, number[t], number_size[t]);
    queue_end += number_size[t];
    queue[queue_end++] = ',';
}

/* Where a reader's number is in their text: one below 10 has 2 bytes with its comma, others 3. */
static char *reader_place(unsigned t) {
    uint64_t below = readers & ((1ull << t) - 1);
    return reader_text + 3 * __builtin_popcountll(below) - __builtin_popcountll(below & 1023);
}

static void add_reader(unsigned t) {
    char *at = reader_place(t);
    size_t size = number_size[t];
    memmove(at + size + 1, at, reader_text + reader_size - at);
    memcpy(at, number[t], size);
    at[size] = ',';
    reader_size += size + 1;
    readers |= 1ull << t;
}

static void remove_reader(unsigned t) {
    char *at = reader_place(t), *next = at + number_size[t] + 1;
    memmove(at, next, reader_text + reader_size - next);
    reader_size -= next - at;
    readers &= ~(1ull << t);
}

static enum outcome enter_queue_lock(unsigned t) {
    all[t].phase = INSIDE;
    holder = t;
    show_state();
    return ENTERED;
}

static enum outcome leave_queue_lock(unsigned t) {
    all[t].phase = IDLE;
    queue_front += number_size[t] + 1;
    holder = -1;
    show_state();
    return LEFT;
}

static enum outcome go(unsigned t, enum phase next) { all[t].phase = next; return MOVED; }

static enum outcome change(unsigned t, enum phase next, enum outcome outcome) {
    all[t].phase = next;
    show_state();
    return outcome;
}

static enum outcome write_section(unsigned t) {
    int busy = kind == RW_FIFO ? words[0] != words[1] : words[0] != 0;
    if (all[t].phase == TRY_WRITE) {
        uint64_t *flag = &words[kind == RW_FIFO ? 2 : 1];
        if (*flag || (busy && kind == RW_SIMPLE)) return WAITS;
        *flag = 1;
        if (busy) { announced = t; return change(t, AWAIT_READERS, MOVED); }
    } else if (busy) return WAITS;
    announced = -1;
    writer = t;
    return change(t, WRITING, ENTERED);
}

static enum outcome section(unsigned t) {
    uint64_t *flag = &words[kind == RW_FIFO ? 2 : 1];
    switch (all[t].phase) {
    case TRY_READ:
        if (*flag) return WAITS;
        words[0] = (words[0] + 1) & mask;
        add_reader(t);
        return change(t, READING, ENTERED);
    case LEAVE_READ:
        if (kind == RW_FIFO) words[1] = (words[1] + 1) & mask;
        else words[0] = (words[0] - 1) & mask;
        remove_reader(t);
        return change(t, IDLE, LEFT);
    case LEAVE_WRITE:
        *flag = 0;
        writer = -1;
        return change(t, IDLE, LEFT);
    case TRY_DOWNGRADE:
        *flag = 0;
        writer = -1;
        words[0] = (words[0] + 1) & mask;
        add_reader(t);
        return change(t, READING, ENTERED);
    default: return write_section(t);
    }
}

static enum outcome step(unsigned t) {
    struct thread *me = &all[t];
    uint64_t *next = &words[1 + 2 * t], old;
    switch (me->phase) {
    case TAKE_TICKET:
        me->seen = words[0];
        words[0] = (words[0] + 1) & mask;
        join_queue(t);
        return change(t, AWAIT_TURN, MOVED);
    case AWAIT_TURN: return words[1] == me->seen ? enter_queue_lock(t) : WAITS;
    case READ_SERVING: me->seen = words[1]; return go(t, PASS_ON);
    case PASS_ON: words[1] = (me->seen + 1) & mask; return leave_queue_lock(t);
    case CLEAR_NEXT: *next = 0; return go(t, SWAP_TAIL);
    case SWAP_TAIL:
        old = words[0];
        words[0] = t + 1;
        join_queue(t);
        if (!old) return enter_queue_lock(t);
        me->seen = old - 1;
        return change(t, SET_LOCKED, MOVED);
    case SET_LOCKED: words[2 + 2 * t] = 1; return go(t, LINK);
    case LINK: words[1 + 2 * me->seen] = t + 1; return go(t, AWAIT_GRANT);
    case AWAIT_GRANT: return words[2 + 2 * t] ? WAITS : enter_queue_lock(t);
    case READ_NEXT:
        if (!*next) return go(t, CAS_TAIL);
        me->seen = *next - 1;
        return go(t, GRANT);
    case CAS_TAIL:
        if (words[0] != t + 1) return go(t, AWAIT_LINK);
        words[0] = 0;
        return leave_queue_lock(t);
    case AWAIT_LINK:
        if (!*next) return WAITS;
        me->seen = *next - 1;
        return go(t, GRANT);
    case GRANT: words[2 + 2 * me->seen] = 0; return leave_queue_lock(t);
    default: return section(t);
    }
}

/* A call moves its thread from the one phase in which it is allowed to its first step's. */
static enum outcome call(unsigned t, enum word word) {
    static const uint8_t from[] = { IDLE, INSIDE, IDLE, READING, IDLE, WRITING, WRITING };
    static const uint8_t to[][2] = {
        { TAKE_TICKET, CLEAR_NEXT }, { READ_SERVING, READ_NEXT }, { TRY_READ, TRY_READ },
        { LEAVE_READ, LEAVE_READ }, { TRY_WRITE, TRY_WRITE }, { LEAVE_WRITE, LEAVE_WRITE },
        { TRY_DOWNGRADE, TRY_DOWNGRADE } };
    if (all[t].phase != from[word] || (word <= RELEASE) != (kind <= MCS)) return REFUSED;
    all[t].phase = to[word][kind == MCS];
    return CALLED;
}

static enum outcome play(unsigned t, enum word word) {
    if (t >= threads) return REFUSED;
    if (word <= DOWNGRADE) return call(t, word);
    return due[all[t].phase] == word ? step(t) : REFUSED;
}

static enum word word_of(const char *at, size_t size) {
    for (int word = 0; word < WORDS; word++)
        if (word_size[word] == size && !memcmp(word_text[word], at, size)) return word;
    fail("no such word");
    return WORDS;
}

static void read_header(const char *line) {
    static const char *const names[] = { "ticket", "mcs", "rw-simple", "rw-fifo" };
    char name[16];
    unsigned bits = 64;
    if (sscanf(line, "lock %15s threads %u bits %u", name, &threads, &bits) < 2) fail("header");
    while (kind < 4 && strcmp(names[kind], name)) kind++;
    if (kind == 4 || threads < 1 || threads > MOST_THREADS || bits < 2 || bits > 64) fail("header");
    mask = bits == 64 ? ~0ull : (1ull << bits) - 1;
}

static void read_schedule(size_t size) {
    uint32_t line = 0;
    int has_header = 0;
    for (char *at = text, *end = text + size, *next; at < end; at = next + 1) {
        next = memchr(at, '\n', end - at);
        if (!next) next = end;
        line++;
        if (next == at || *at == '#') continue;
        if (!has_header) { *next = 0; read_header(at); has_header = 1; continue; }
        if (move_count == MOST_MOVES) fail("too many moves");
        unsigned thread = 0;
        while (at < next && *at >= '0' && *at <= '9') thread = thread * 10 + (*at++ - '0');
        if (at == next || *at != ' ' || thread > 255) fail("no move");
        moves[move_count++] = (struct move){ line, thread, word_of(at + 1, next - at - 1) };
    }
    if (!has_header) fail("no header");
}

static void make_tables(void) {
    for (int n = 0; n < 256; n++) number_size[n] = sprintf(number[n], "%d", n);
    for (int word = 0; word < WORDS; word++) {
        word_size[word] = strlen(word_text[word]);
        for (int o = 0; o < REFUSED; o++)
            middle[word][o].size = sprintf(middle[word][o].text, " %s %s", word_text[word],
                                           outcome_text[o]);
    }
}

/* Adds one to the number whose digits end before `end`, and returns where it begins. */
static char *count_on(char *end, char *first) {
    char *digit = end - 1;
    while (digit >= first && *digit == '9') *digit-- = '0';
    if (digit >= first) { ++*digit; return first; }
    *digit = '1';
    return digit;
}

/* A report in memory: it grows where it is kept, and goes out where it is sent. */
struct report { char *bytes; size_t used, room; int is_kept; };

static void send_all(const char *bytes, size_t size) {
    while (size > 0) {
        ssize_t got = write(1, bytes, size);
        if (got <= 0) fail("cannot write");
        bytes += got;
        size -= got;
    }
}

static char *room_for_a_line(struct report *report) {
    if (report->room - report->used < MOST_LINE) {
        if (report->is_kept) {
            report->bytes = realloc(report->bytes, report->room *= 2);
            if (!report->bytes) fail("memory");
        } else {
            send_all(report->bytes, report->used);
            report->used = 0;
        }
    }
    return report->bytes + report->used;
}

static void replay(struct report *report) {
    char digits[8], *const end = digits + sizeof digits, *first = end, *at;
    for (size_t k = 0; k < move_count; k++) {
        at = room_for_a_line(report);
        struct move move = moves[k];
        enum outcome outcome = play(move.thread, move.word);
        if (outcome == REFUSED) {
            report->used += sprintf(at, "refused line %u\n", move.line);
            return;
        }
        first = count_on(end, first);
        at = put(at, first, end - first);
        *at++ = ' ';
        at = put_number(at, move.thread);
        memcpy(at, middle[move.word][outcome].text, 24);
        at = put(at + middle[move.word][outcome].size, state, state_size);
        report->used = at - report->bytes;
    }
    at = room_for_a_line(report);
    report->used += sprintf(at, "end %zu\n", move_count);
}

static void forget(void) {
    move_count = 0;
    kind = TICKET;
    memset(words, 0, sizeof words);
    memset(all, 0, sizeof all);
    queue_front = queue_end = 0;
    readers = reader_size = 0;
    holder = writer = announced = -1;
}

static struct report report_of(int input, int is_kept) {
    size_t size = 0;
    ssize_t got;
    while (size < sizeof text && (got = read(input, text + size, sizeof text - size)) > 0)
        size += got;
    forget();
    read_schedule(size);
    show_state();
    size_t room = is_kept ? 1 << 20 : BUFFER;
    struct report report = { malloc(room), 0, room, is_kept };
    if (!report.bytes) fail("memory");
    replay(&report);
    return report;
}

static void replay_files(char **files, int count) {
    struct report *reports = calloc(count, sizeof *reports);
    char line[32];
    if (!reports) fail("memory");
    for (int k = 0; k < count; k++) {
        int input = open(files[k], O_RDONLY);
        if (input < 0) fail(files[k]);
        reports[k] = report_of(input, 1);
        close(input);
    }
    for (int k = 0; k < count; k++) {
        send_all(line, sprintf(line, "file %d\n", k + 1));
        send_all(reports[k].bytes, reports[k].used);
    }
}

int main(int count, char **given) {
    make_tables();
    if (count > 2 && !strcmp(given[1], "batch")) {
        replay_files(given + 2, count - 2);
    } else {
        struct report report = report_of(0, 0);
        send_all(report.bytes, report.used);
    }
    return 0;
}
