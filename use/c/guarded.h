/*
 * For guard.c: lists between pages that cannot be touched, and calls made with them. A list that a call only reads cannot be written. A list that it may write
 * is poisoned before; what the call is not to write has to be as it was, in the list and around it. A list of places is written whole by every call, a stream
 * by every opening. A step finds in stream and area what the step before it left there.
 */
#define _DEFAULT_SOURCE /* for MAP_ANONYMOUS */
#include "ortkaveq.h"

#include <stdbool.h>
#include <stdio.h>
#include <stdlib.h>
#include <string.h>
#include <sys/mman.h>
#include <unistd.h>

enum {
    POISON = 0xA5,                            /* in lent lists before a call */
    CANARY = 0x5A,                            /* around every list */
    MOST_ELEMENTS = ORTKAVEQ_MOST_BYTES + 100 /* of any list here */
};

/* A list: what it holds before a call and then after it, and where it stands meanwhile. */
struct list {
    size_t length, width, room;
    uint8_t *map, *at;
    union {
        uint8_t bytes[MOST_ELEMENTS * sizeof(int16_t)];
        int16_t levels[MOST_ELEMENTS];
        uint16_t places[ORTKAVEQ_PLACES];
        struct ortkaveq_stream state;
    };
};

static struct list word = {.width = 1}, out = {.width = 1}, frame = {.width = 1}, scheme = {.width = 1}, area = {.width = 1};
static struct list i = {.width = sizeof(int16_t)}, q = {.width = sizeof(int16_t)};
static struct list out_i = {.width = sizeof(int16_t)}, out_q = {.width = sizeof(int16_t)};
/* Of places: in a word or in the first half, and in the second. */
static struct list first = {.length = ORTKAVEQ_PLACES, .width = sizeof(uint16_t)}, second = {.length = ORTKAVEQ_PLACES, .width = sizeof(uint16_t)};
static struct list stream = {.length = 1, .width = sizeof(struct ortkaveq_stream)};

enum job { ENCODE, DECODE, SEND_A, DECIDE_A, RECEIVE_A, SYMBOLS_B, SEND_B, DECIDE_B, RECEIVE_B, OPEN_B, STEP_B };

/* The lists of each job, and how many of them, the first ones, it only reads. */
static const struct { struct list *lists[6]; int read; } jobs[] = {
    [ENCODE] = {{&word, &out}, 1},
    [DECODE] = {{&word, &out, &first}, 1},
    [SEND_A] = {{&frame, &i, &q}, 1},
    [DECIDE_A] = {{&i, &q, &out_i, &out_q}, 2},
    [RECEIVE_A] = {{&i, &q, &area, &first, &second}, 2},
    [SYMBOLS_B] = {{&scheme}, 1},
    [SEND_B] = {{&frame, &scheme, &i, &q}, 2},
    [DECIDE_B] = {{&scheme, &i, &q, &out_i, &out_q}, 3},
    [RECEIVE_B] = {{&scheme, &i, &q, &area}, 3},
    [OPEN_B] = {{&scheme, &stream}, 1},
    [STEP_B] = {{&i, &q, &stream, &area}, 2},
};

/* An answer; the count is of bits mended, or of OFDM symbols. */
struct told { size_t number, place, count, fields, worst; };

static bool behind;   /* whether lists end at the page that cannot be touched, or begin at it */
static int line;      /* of guard.c, where something is expected just now */
static size_t needed; /* elements of each list that deciding reads, and of each that it writes */
static long calls;

#define FAIL(...) (printf("guard.c:%d: expected ", line), printf(__VA_ARGS__), puts(behind ? ", where lists end" : ", where lists begin"), exit(EXIT_FAILURE))

/* ---- Memory */

static size_t page(void) { return (size_t)sysconf(_SC_PAGESIZE); }

static void protect(uint8_t *at, size_t bytes, int access)
{
    if (bytes > 0 && mprotect(at, bytes, access) != 0)
        FAIL("memory for a list");
}

/* Puts a list into pages of its own, between two that cannot be touched. An empty one has no pages: it stands where these two meet. */
static void place(struct list *l, bool read)
{
    size_t bytes = l->length * l->width;
    l->room = (bytes + page() - 1) / page() * page();
    l->map = mmap(NULL, l->room + 2 * page(), PROT_NONE, MAP_PRIVATE | MAP_ANONYMOUS, -1, 0);
    if (l->map == MAP_FAILED)
        FAIL("room for a list");
    uint8_t *start = l->map + page();
    protect(start, l->room, PROT_READ | PROT_WRITE);
    memset(start, CANARY, l->room);
    l->at = behind ? start + l->room - bytes : start;
    memcpy(l->at, l->bytes, bytes);
    protect(start, l->room, read ? PROT_READ : PROT_READ | PROT_WRITE);
}

/* Takes back what a list holds. Around it nothing has changed. */
static void take(struct list *l)
{
    size_t bytes = l->length * l->width;
    for (uint8_t *p = l->map + page(); p < l->map + page() + l->room; p++)
        if ((p < l->at || p >= l->at + bytes) && *p != CANARY)
            FAIL("nothing written outside of a list of %zu bytes, but byte %ld was", bytes, (long)(p - l->at));
    memcpy(l->bytes, l->at, bytes);
    munmap(l->map, l->room + 2 * page());
}

static void all(const struct list *l, size_t from, size_t to, uint8_t value)
{
    for (size_t n = from * l->width; n < to * l->width; n++)
        if (l->bytes[n] != value)
            FAIL("%u in byte %zu of a lent list of %zu elements", value, n, l->length);
}

/* ---- Calls */

static struct told told(struct ortkaveq_answer a) { return (struct told){a.number, a.place, a.mended, 0, 0}; }
static struct told received(struct ortkaveq_received a) { return (struct told){a.number, a.place, a.mended, a.fields, a.worst}; }
static struct told told_symbols(struct ortkaveq_answer_symbols a) { return (struct told){a.number, a.place, a.symbols, 0, 0}; }

#define LIST(l) (void *)l.at, l.length
static struct told call(enum job job, uint8_t mode, size_t size)
{
    switch (job) {
    case ENCODE: return told(ortkaveq_encode(mode, LIST(word), LIST(out)));
    case DECODE: return told(ortkaveq_decode(mode, LIST(word), LIST(out), (void *)first.at));
    case SEND_A: return told(ortkaveq_send_a(mode, LIST(frame), LIST(i), LIST(q)));
    case DECIDE_A: return told(ortkaveq_decide_a(mode, LIST(i), LIST(q), LIST(out_i), LIST(out_q)));
    case RECEIVE_A: return received(ortkaveq_receive_a(mode, LIST(i), LIST(q), LIST(area), (void *)first.at, (void *)second.at));
    case SYMBOLS_B: return told_symbols(ortkaveq_symbols_b(mode, size, LIST(scheme)));
    case SEND_B: return told(ortkaveq_send_b(mode, LIST(frame), LIST(scheme), LIST(i), LIST(q)));
    case DECIDE_B: return told(ortkaveq_decide_b(mode, size, LIST(scheme), LIST(i), LIST(q), LIST(out_i), LIST(out_q)));
    case RECEIVE_B: return received(ortkaveq_receive_b(mode, size, LIST(scheme), LIST(i), LIST(q), LIST(area)));
    case OPEN_B: return told(ortkaveq_open_b(mode, size, LIST(scheme), (void *)stream.at));
    default: return received(ortkaveq_step_b((void *)stream.at, LIST(i), LIST(q), LIST(area)));
    }
}

static bool of_places(const struct list *l) { return l == &first || l == &second; }

/* What an opening leaves in a stream: nothing seen yet, or a refusal and else no frame. */
static void opened(struct told answer, uint8_t mode, size_t size)
{
    struct ortkaveq_stream expected = {.number = answer.number, .place = answer.place, .scrambler = 0x24D8};
    if (answer.number == 0) {
        expected.mode = mode, expected.size = size;
        memcpy(expected.scheme, scheme.bytes, ORTKAVEQ_SCHEME);
    }
    if (memcmp(&stream.state, &expected, sizeof expected) != 0)
        FAIL("a stream that is opened, or that holds number %zu", answer.number);
}

/*
 * Makes a call, by a code or mode. Size is how many elements of each lent list it writes if it is accepted; for symbols B, without any, for opening B and for
 * deciding the frame's bytes. Places are all 0 in a refusal, and where nothing is mended; where something is, guard.c knows them. It knows too what a step
 * leaves.
 */
static struct told run(enum job job, size_t mode, size_t size)
{
    struct list *const *lists = jobs[job].lists, *const *lent = lists + jobs[job].read, *const *l;
    for (l = lent; *l && job != STEP_B; l++)
        memset((*l)->bytes, POISON, sizeof (*l)->bytes);
    for (l = lists; *l; l++)
        place(*l, l < lent);
    struct told answer = call(job, (uint8_t)mode, size);
    calls++;
    for (l = lists; *l; l++)
        take(*l);
    if (job == OPEN_B)
        opened(answer, (uint8_t)mode, size);
    size_t written = job == DECIDE_A || job == DECIDE_B ? needed : size;
    bool cleared = job == RECEIVE_B && answer.number == ORTKAVEQ_UNCORRECTABLE;
    if (cleared)
        all(&area, 0, size, 0);
    for (l = lent; *l && job != OPEN_B && job != STEP_B; l++)
        if (!of_places(*l))
            all(*l, answer.number == 0 || cleared ? written : 0, (*l)->length, POISON);
        else if (answer.number != 0 || answer.count == 0)
            all(*l, 0, ORTKAVEQ_PLACES, 0);
    return answer;
}

/* The same with one of its lists of another length. */
static struct told with(struct list *l, size_t length, enum job job, size_t mode, size_t size)
{
    size_t before = l->length;
    l->length = length;
    struct told answer = run(job, mode, size);
    l->length = before;
    return answer;
}

static void expect(struct told e, struct told t)
{
    if (t.number != e.number || t.place != e.place || t.count != e.count || t.fields != e.fields || t.worst != e.worst)
        FAIL("number %zu, place %zu, count %zu, fields %zu, worst %zu; came %zu, %zu, %zu, %zu, %zu", e.number, e.place, e.count, e.fields, e.worst,
             t.number, t.place, t.count, t.fields, t.worst);
}

#define EXPECT(number, place, count, fields, worst, call) (line = __LINE__, expect((struct told){number, place, count, fields, worst}, call))
#define ACCEPT(count, call) EXPECT(0, 0, count, 0, 0, call)
#define REFUSE(number, place, call) EXPECT(number, place, 0, 0, 0, call)
#define HOLD(condition) (line = __LINE__, (condition) ? (void)0 : FAIL("%s", #condition))
#define EACH(name, ...) for (size_t *name = (size_t[]){__VA_ARGS__, SIZE_MAX}; *name != SIZE_MAX; name++)

/* ---- Contents */

/* Elements drawn from 0 up to below some number. */
static void fill(struct list *l, size_t length, unsigned below)
{
    static uint32_t state = 2026;
    l->length = length;
    for (size_t n = 0; n < length; n++) {
        state = state * 1664525 + 1013904223;
        l->bytes[n] = (uint8_t)((state >> 16) % below);
    }
}

static bool same(const struct list *a, const struct list *b, size_t length) { return memcmp(a->bytes, b->bytes, length) == 0; }
