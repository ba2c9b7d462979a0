/*
 * The trial program over ortkaveq.h: reads requests from standard input, makes the calls and writes the responses to standard output. crates/trial/src/main.rt
 * has the format, second/README.md that of jobs 9 and 16, streams and single steps. What no response shows it holds itself, and aborts where that fails: that
 * ortkaveq_symbols_b agrees with the jobs of Payload B and with opening a stream, that a job without counts has mended nothing, and that receive B's fields are
 * 0, and a step's. Integers go in and out as they lie in memory: for little-endian machines, as both of ours are.
 */
#include "ortkaveq.h"

#include <stdbool.h>
#include <stdio.h>
#include <stdlib.h>
#include <string.h>

/* The most elements of a list of bytes, and of a list of levels; the most lists of a job, and of places; what these have in each byte before a call. */
enum { MOST_BYTES = 67300, MOST_LEVELS = 65600, LISTS = 5, PLACE_LISTS = 2, POISON = 0xA5 };

/* The two jobs of streams, and the bytes of a state in a request. */
enum { STREAM = 9, STEP = 16, STATE_BYTES = 326 };

/* Jobs 1 to 8: their lists, of bytes or levels, how many of them, the last ones, are lent, and how many counts and lists of places the response has. */
static const struct { const char *lists; int lent, counts, places; } jobs[] = {
    {"", 0, 0, 0}, {"bb", 1, 0, 0}, {"bb", 1, 1, 1}, {"bll", 2, 0, 0}, {"llb", 1, 3, 2}, {"bbll", 2, 0, 0}, {"bllb", 1, 2, 0},
    {"llll", 2, 0, 0}, {"bllll", 2, 0, 0},
};

/* A list, in memory of just its length, so that a step beyond it is one. */
struct list { void *at; size_t length, width; };

struct told { uint32_t number; uint64_t place, counts[3]; };

static void hold(bool good, const char *what)
{
    if (good)
        return;
    fflush(stdout);
    fprintf(stderr, "trial: %s\n", what);
    abort();
}

/* A request that is cut ends the program. */
static void get(void *to, size_t bytes)
{
    if (fread(to, 1, bytes, stdin) != bytes)
        exit(EXIT_SUCCESS);
}

/* The pointer to an empty list is not null. */
static struct list make_list(size_t length, size_t width)
{
    struct list list = {malloc(length > 0 ? length * width : 1), length, width};
    hold(list.at != NULL, "there is no memory for a list");
    return list;
}

/* A list too long for its room ends the program too. */
static struct list get_list(char kind)
{
    uint32_t count;
    get(&count, sizeof count);
    if (count > (kind == 'b' ? MOST_BYTES : MOST_LEVELS))
        exit(EXIT_SUCCESS);
    struct list list = make_list(count, kind == 'b' ? sizeof(uint8_t) : sizeof(int16_t));
    get(list.at, list.length * list.width);
    return list;
}

/* No request has a list of places. An entry that a call leaves as it was is no place. */
static struct list make_places(void)
{
    struct list list = make_list(ORTKAVEQ_PLACES, sizeof(uint16_t));
    memset(list.at, POISON, list.length * list.width);
    return list;
}

static void put(const void *from, size_t bytes) { fwrite(from, 1, bytes, stdout); }

static struct told told(struct ortkaveq_answer a) { return (struct told){a.number, a.place, {a.mended, 0, 0}}; }

static struct told told_a(struct ortkaveq_received a) { return (struct told){a.number, a.place, {a.mended, a.fields, a.worst}}; }

static struct told told_b(struct ortkaveq_received a)
{
    hold(a.fields == 0, "receive B counts protected bits");
    return (struct told){a.number, a.place, {a.mended, a.worst, 0}};
}

#define LIST(n) l[n].at, l[n].length
static struct told call(uint8_t job, uint8_t mode, size_t size, const struct list *l, const struct list *places)
{
    switch (job) {
    case 1: return told(ortkaveq_encode(mode, LIST(0), LIST(1)));
    case 2: return told(ortkaveq_decode(mode, LIST(0), LIST(1), places[0].at));
    case 3: return told(ortkaveq_send_a(mode, LIST(0), LIST(1), LIST(2)));
    case 4: return told_a(ortkaveq_receive_a(mode, LIST(0), LIST(1), LIST(2), places[0].at, places[1].at));
    case 5: return told(ortkaveq_send_b(mode, LIST(0), LIST(1), LIST(2), LIST(3)));
    case 6: return told_b(ortkaveq_receive_b(mode, size, LIST(0), LIST(1), LIST(2), LIST(3)));
    case 7: return told(ortkaveq_decide_a(mode, LIST(0), LIST(1), LIST(2), LIST(3)));
    default: return told(ortkaveq_decide_b(mode, size, LIST(0), LIST(1), LIST(2), LIST(3), LIST(4)));
    }
}

/*
 * What ortkaveq_symbols_b answers for a scheme, and so many lists of levels behind it, is what the job found: the same refusal, or the room that it asks for,
 * beside that of the area.
 */
static void hold_symbols(struct told job, uint8_t mode, size_t size, const struct list *l, int lists, bool short_of)
{
    struct ortkaveq_answer_symbols needed = ortkaveq_symbols_b(mode, size, LIST(0));
    uint32_t number = job.number;
    if (number == ORTKAVEQ_UNKNOWN || number == ORTKAVEQ_WRONG_LENGTH || number == ORTKAVEQ_BAD_SCHEME || number == ORTKAVEQ_TOO_MANY_SYMBOLS) {
        hold(needed.number == number && needed.place == job.place && needed.symbols == 0, "ortkaveq_symbols_b refuses otherwise than the job");
        return;
    }
    hold(needed.number == 0 && needed.place == 0, "ortkaveq_symbols_b refuses what the job does not");
    hold(1 <= needed.symbols && needed.symbols <= ORTKAVEQ_MOST_SYMBOLS, "ortkaveq_symbols_b answers a count that cannot be");
    size_t levels = (size_t)needed.symbols * ORTKAVEQ_SYMBOL;
    for (int n = 1; n <= lists; n++)
        short_of = short_of || l[n].length < levels;
    hold(short_of == (number == ORTKAVEQ_NO_ROOM), "the job asks for another room than ortkaveq_symbols_b");
}

/* Number and place, and as many counts. */
static void put_told(struct told answer, int counts)
{
    hold(answer.number <= ORTKAVEQ_NOISE || answer.number == ORTKAVEQ_FORGED, "there is no such number");
    hold(counts > 0 || answer.counts[0] == 0, "a job that mends nothing has mended bits");
    put(&(uint8_t){(uint8_t)answer.number}, sizeof(uint8_t));
    put(&answer.place, sizeof answer.place);
    put(answer.counts, counts * sizeof *answer.counts);
}

static void put_list(const struct list *l)
{
    put(&(uint32_t){(uint32_t)l->length}, sizeof(uint32_t));
    put(l->at, l->length * l->width);
}

/* What a response has for each of jobs 1 to 8: number, place, its counts, its lists of places without their length, and the lent lists. */
static void put_response(uint8_t job, struct told answer, const struct list *places, const struct list *lent)
{
    put_told(answer, jobs[job].counts);
    for (const struct list *l = places; l < places + jobs[job].places; l++)
        put(l->at, l->length * l->width);
    for (const struct list *l = lent; l < lent + jobs[job].lent; l++)
        put_list(l);
}

/* The rest of a request of jobs 1 to 8. */
static void serve(uint8_t job)
{
    struct list l[LISTS], places[PLACE_LISTS];
    uint8_t mode;
    uint64_t size = 0;
    int count = 0;
    get(&mode, sizeof mode);
    if (job == 6 || job == 8)
        get(&size, sizeof size);
    for (const char *kind = jobs[job].lists; *kind; kind++)
        l[count++] = get_list(*kind);
    for (int n = 0; n < PLACE_LISTS; n++)
        places[n] = make_places();
    struct told answer = call(job, mode, size, l, places);
    if (job == 5)
        hold_symbols(answer, mode, l[0].length, l + 1, 2, false);
    if (job == 6)
        hold_symbols(answer, mode, size, l, 2, l[3].length < size);
    if (job == 8)
        hold_symbols(answer, mode, size, l, 4, false);
    put_response(job, answer, places, l + count - jobs[job].lent);
    while (count > 0)
        free(l[--count].at);
    for (int n = 0; n < PLACE_LISTS; n++)
        free(places[n].at);
}

/* ---- Streams */

/* A step, with I, Q and the area. */
static struct told step(struct ortkaveq_stream *stream, const struct list *l)
{
    return told_b(ortkaveq_step_b(stream, LIST(0), LIST(1), LIST(2)));
}

/* A stream in memory of its own, poisoned: an opening writes all of it. */
static struct ortkaveq_stream *make_stream(void)
{
    struct ortkaveq_stream *stream = malloc(sizeof *stream);
    hold(stream != NULL, "there is no memory for a stream");
    memset(stream, POISON, sizeof *stream);
    return stream;
}

/* An opening finds what ortkaveq_symbols_b finds, and the stream holds it. */
static void hold_opened(struct told opened, uint8_t mode, size_t size, const struct list *l, const struct ortkaveq_stream *stream)
{
    struct ortkaveq_answer_symbols needed = ortkaveq_symbols_b(mode, size, LIST(0));
    hold(needed.number == opened.number && needed.place == opened.place, "ortkaveq_symbols_b refuses otherwise than the opening");
    hold(stream->number == opened.number && stream->place == opened.place, "the stream holds another refusal than it was answered");
}

/* The rest of a request of job 9: opens a stream, and makes its calls, all with one area. */
static void serve_stream(void)
{
    struct ortkaveq_stream *stream = make_stream();
    uint8_t mode;
    uint64_t size;
    uint32_t calls;
    get(&mode, sizeof mode);
    get(&size, sizeof size);
    struct list scheme = get_list('b'), l[3];
    l[2] = get_list('b');
    get(&calls, sizeof calls);
    struct told opened = told(ortkaveq_open_b(mode, size, scheme.at, scheme.length, stream));
    hold_opened(opened, mode, size, &scheme, stream);
    put_told(opened, 0);
    while (calls-- > 0) {
        l[0] = get_list('l'), l[1] = get_list('l');
        put_told(step(stream, l), 2);
        put_list(&l[2]);
        free(l[0].at), free(l[1].at);
    }
    free(l[2].at), free(scheme.at), free(stream);
}

/* The next of a state's bytes, to a field or back; mode, register and number have fewer of them than the field has. */
static void move(void *field, size_t bytes, uint8_t **at, bool back)
{
    if (back)
        memcpy(*at, field, bytes);
    else
        memcpy(field, *at, bytes);
    *at += bytes;
}

/* A state of 326 bytes, to a stream that is all zero, or back. */
static void move_state(struct ortkaveq_stream *s, uint8_t *bytes, bool back)
{
    uint8_t *at = bytes;
    move(s->scheme, ORTKAVEQ_SCHEME, &at, back);
    move(s->block, sizeof s->block, &at, back);
    move(&s->count, sizeof s->count, &at, back);
    move(&s->mode, sizeof(uint8_t), &at, back);
    move(&s->size, sizeof s->size, &at, back);
    move(&s->seen, sizeof s->seen, &at, back);
    move(&s->scrambler, sizeof(uint16_t), &at, back);
    move(&s->mended, sizeof s->mended, &at, back);
    move(&s->worst, sizeof s->worst, &at, back);
    move(&s->number, sizeof(uint8_t), &at, back);
    move(&s->place, sizeof s->place, &at, back);
    hold(at == bytes + STATE_BYTES, "a state has another number of bytes");
}

/* Whether a stream has nothing but what the bytes of a state can say. */
static bool within(const struct ortkaveq_stream *s)
{
    bool zeros = true;
    for (size_t n = ORTKAVEQ_SCHEME; n < sizeof s->scheme; n++)
        zeros = zeros && s->scheme[n] == 0;
    return zeros && s->mode <= UINT8_MAX && s->scrambler <= UINT16_MAX && s->number <= UINT8_MAX;
}

/* The rest of a request of job 16: one step from any state. A list of another length is none, and ends the program. */
static void serve_step(void)
{
    struct ortkaveq_stream *stream = make_stream();
    struct list state = get_list('b');
    if (state.length != STATE_BYTES)
        exit(EXIT_SUCCESS);
    struct list l[3];
    for (int n = 0; n < 3; n++)
        l[n] = get_list("llb"[n]);
    memset(stream, 0, sizeof *stream);
    move_state(stream, state.at, false);
    struct told answer = step(stream, l);
    hold(within(stream), "a step leaves what no state has");
    move_state(stream, state.at, true);
    put_told(answer, 2);
    put_list(&state);
    put_list(&l[2]);
    for (int n = 0; n < 3; n++)
        free(l[n].at);
    free(state.at), free(stream);
}

int main(void)
{
    uint8_t job;
    while (get(&job, sizeof job), (1 <= job && job <= 8) || job == STREAM || job == STEP)
        if (job == STREAM)
            serve_stream();
        else if (job == STEP)
            serve_step();
        else
            serve(job);
    return EXIT_SUCCESS;
}
