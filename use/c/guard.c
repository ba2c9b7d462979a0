/*
 * Every call, accepted and with each refusal, over lists that end at a page which cannot be touched, and once more over lists that begin behind one.
 * Prints how many calls were made, or the line and what was expected there.
 */
#include "guarded.h"

#include <signal.h>

enum {
    MORE = 7,                 /* elements of a longer list beyond those that are enough */
    POINTS = ORTKAVEQ_SCHEME, /* of an OFDM symbol */
    LEVELS = ORTKAVEQ_A_LEVELS
};

/* Where the point that is sent s-th stands in I and Q, s from 1. */
static size_t index_of(size_t s)
{
    size_t symbol = (s - 1) / POINTS, within = (s - 1) % POINTS + 1;
    return symbol * ORTKAVEQ_SYMBOL + (within <= 105 ? within + 150 : within - 105);
}

/* ---- Words */

/* A word of another length, no room, and elements that are no bits, from the last to the first. */
static void refused_words(enum job job, size_t code, size_t length, size_t n)
{
    word.length = length, out.length = n;
    EACH(wrong, 0, length - 1, length + 1)
        REFUSE(ORTKAVEQ_WRONG_LENGTH, 0, with(&word, *wrong, job, code, n));
    EACH(less, 0, n - 1)
        REFUSE(ORTKAVEQ_NO_ROOM, 0, with(&out, *less, job, code, n));
    EACH(place, length - 1, length / 2, 0) {
        word.bytes[*place] = *place > 0 ? 2 : 255;
        REFUSE(ORTKAVEQ_NOT_A_BIT, *place, run(job, code, n));
    }
}

/* Decode's places are those where word and out differ, and 0 behind them. */
static bool named(size_t n)
{
    size_t count = 0;
    for (size_t at = 0; at < n; at++)
        if (word.bytes[at] != out.bytes[at] && (count == ORTKAVEQ_PLACES || first.places[count++] != at))
            return false;
    while (count < ORTKAVEQ_PLACES && first.places[count] == 0)
        count++;
    return count == ORTKAVEQ_PLACES;
}

/* Refused as uncorrectable, or another codeword. */
static bool another(struct told answer, const struct list *codeword, size_t n)
{
    return answer.place == 0
        && (answer.number == ORTKAVEQ_UNCORRECTABLE ? answer.count == 0 : answer.number == 0 && !same(&out, codeword, n) && named(n));
}

/* A codeword with up to t hits, from this place on and at this distance, is mended just there; with one hit more it is not. */
static void hit_word(size_t code, size_t n, size_t t, const struct list *codeword, size_t hits, size_t from, size_t distance)
{
    memcpy(word.bytes, codeword->bytes, n);
    word.length = n;
    for (size_t hit = 0; hit < hits; hit++)
        word.bytes[from + hit * distance] ^= 1;
    if (hits > t)
        HOLD(another(with(&out, n, DECODE, code, n), codeword, n));
    else {
        ACCEPT(hits, with(&out, n + hits, DECODE, code, n));
        HOLD(same(&out, codeword, n));
        HOLD(named(n));
    }
}

static void words(size_t code, size_t n, size_t k, size_t t)
{
    static struct list codeword;
    size_t distance = n / (t + 1);
    fill(&word, k, 2);
    ACCEPT(0, with(&out, n + MORE, ENCODE, code, n));
    ACCEPT(0, with(&out, n, ENCODE, code, n));
    HOLD(same(&word, &out, k));
    codeword = out;
    refused_words(ENCODE, code, k, n);
    hit_word(code, n, t, &codeword, 0, 0, distance);
    EACH(hits, 1, t, t + 1)
        EACH(from, 0, n - 1 - (*hits - 1) * distance)
            hit_word(code, n, t, &codeword, *hits, *from, distance);
    refused_words(DECODE, code, n, n);
}

/* ---- What both payloads have */

/* Sends a frame, and leaves room to receive it. */
static void sent(enum job send, size_t mode, size_t size, size_t levels)
{
    fill(&frame, size, 256);
    i.length = q.length = levels, area.length = size + MORE;
    ACCEPT(0, run(send, mode, levels));
}

/* Lists of points that are too short. */
static void short_points(enum job job, size_t mode, size_t size, size_t levels)
{
    EACH(less, 0, levels - 1) {
        REFUSE(ORTKAVEQ_NO_ROOM, 0, with(&i, *less, job, mode, size));
        REFUSE(ORTKAVEQ_NO_ROOM, 0, with(&q, *less, job, mode, size));
    }
}

/* Points of the first two OFDM symbols that are none, from the last sent to the first, and then sub-carriers that are not empty, from the last to the first. */
static void spoilt(enum job job, size_t mode, size_t size)
{
    EACH(at, 361, 257, 511, 407, 105, 1, 255, 151) {
        i.levels[*at] = *at % 4 == 3 ? 0 : INT16_MIN, q.levels[*at] = 0;
        REFUSE(ORTKAVEQ_STRAY_POINT, *at, run(job, mode, size));
    }
    EACH(at, 406, 362, 256, 150, 106, 0) {
        (*at % 4 == 2 ? &i : &q)->levels[*at] = -1;
        REFUSE(ORTKAVEQ_FILLED, *at, run(job, mode, size));
    }
}

/* A frame there and back in room enough and in more, into short lists and from short and spoilt ones. */
static void there_and_back(enum job send, enum job receive, size_t mode, size_t size, size_t levels)
{
    fill(&frame, size, 256);
    EACH(more, MORE, 0) {
        i.length = levels + *more, q.length = levels + 2 * *more, area.length = size + *more;
        ACCEPT(0, run(send, mode, levels));
        ACCEPT(0, run(receive, mode, size));
        HOLD(same(&area, &frame, size));
    }
    short_points(receive, mode, size, levels);
    EACH(less, 0, size - 1)
        REFUSE(ORTKAVEQ_NO_ROOM, 0, with(&area, *less, receive, mode, size));
    if (levels > ORTKAVEQ_SYMBOL)
        spoilt(receive, mode, size);
    short_points(send, mode, levels, levels);
}

/* ---- Payload A */

/* Quarter turns from (1,0), which stands before the first point, to the point sent s-th. */
static int phase(size_t s)
{
    int level = s == 0 ? 1 : i.levels[index_of(s)];
    return level != 0 ? 1 - level : 2 - q.levels[index_of(s)];
}

/* Flips one of the 840 bits that are sent: its point turns, and all behind it. */
static void flip_a(size_t bit)
{
    static const int turn[] = {0, 1, 3, 2}; /* quarter turns of each dibit; and the dibit of so many */
    size_t s = bit / 2 + 1;
    int old = (phase(s) - phase(s - 1)) & 3, more = turn[turn[old] ^ (bit % 2 ? 1 : 2)] - old;
    for (; s <= 2 * POINTS; s++) {
        int next = (phase(s) + more) & 3;
        i.levels[index_of(s)] = (int16_t)(next % 2 ? 0 : 1 - next);
        q.levels[index_of(s)] = (int16_t)(next % 2 ? 2 - next : 0);
    }
}

/* Where the n-th of the 392 bits of a half stands among the 840: in the segment behind field 1, or in that behind field 2. */
static size_t in_half(size_t half, size_t n) { return 420 * half + (n < 196 ? 10 : 20) + n; }

static void payload_a(size_t mode, size_t size)
{
    there_and_back(SEND_A, RECEIVE_A, mode, size, LEVELS);
    EACH(wrong, 0, size - 1, size + 1)
        REFUSE(ORTKAVEQ_WRONG_LENGTH, 0, with(&frame, *wrong, SEND_A, mode, LEVELS));
}

/* Where the n-th of the 56 bits of the protected fields stands among the 840. */
static size_t in_fields(size_t n) { return 420 * (n / 28) + n % 28 + (n % 28 < 10 ? 0 : n % 28 < 20 ? 196 : 392); }

/* The burst in i and q, with 0 to 56 hits all over its fields: up to 12 it is answered so, with their count if it is accepted; from 13 on it is noise. */
static void hit_fields(size_t mode, size_t size, struct told answer)
{
    for (size_t hits = 0; hits <= ORTKAVEQ_A_FIELDS; hits++) {
        if (hits > 0)
            flip_a(in_fields(9 * hits % ORTKAVEQ_A_FIELDS)); /* 9 and 56 have no divisor in common: each bit once */
        if (hits > ORTKAVEQ_A_MOST_DIFFERING) {
            REFUSE(ORTKAVEQ_NOISE, 0, run(RECEIVE_A, mode, size));
            continue;
        }
        EXPECT(answer.number, answer.place, answer.count, answer.number == 0 ? hits : 0, answer.worst, run(RECEIVE_A, mode, size));
        if (answer.number == 0)
            HOLD(same(&area, &frame, size));
    }
}

/* Hits in the fields are counted, or refused as noise; a hit in a segment breaks the check. */
static void uncoded_a(size_t size)
{
    sent(SEND_A, 0, size, LEVELS);
    hit_fields(0, size, (struct told){.number = 0});
    sent(SEND_A, 0, size, LEVELS);
    flip_a(in_half(1, 391));
    hit_fields(0, size, (struct told){.number = ORTKAVEQ_WRONG_CHECK});
}

/* Where each half is hit: of 16 places the first one's last is 391, the second one's first is 0. */
static size_t hit_at(size_t half, size_t hit) { return half == 0 ? 26 * hit + 1 : 23 * hit; }

/* A burst with so many hits in each half. */
static void hit_halves(size_t size, size_t in_first, size_t in_second)
{
    sent(SEND_A, 1, size, LEVELS);
    for (size_t hit = 0; hit < in_first; hit++)
        flip_a(in_half(0, hit_at(0, hit)));
    for (size_t hit = 0; hit < in_second; hit++)
        flip_a(in_half(1, hit_at(1, hit)));
}

/* So many hits in each half are mended just there, with a protected bit hit between them; the worst is the half that has more. */
static void hits_a(size_t size, size_t in_first, size_t in_second)
{
    hit_halves(size, in_first, in_second);
    flip_a(415);
    EXPECT(0, 0, in_first + in_second, 1, in_first > in_second ? in_first : in_second, run(RECEIVE_A, 1, size));
    HOLD(same(&area, &frame, size));
    for (size_t n = 0; n < ORTKAVEQ_PLACES; n++) {
        HOLD(first.places[n] == (n < in_first ? hit_at(0, n) : 0));
        HOLD(second.places[n] == (n < in_second ? hit_at(1, n) : 0));
    }
}

/* A burst to whose first half another codeword is added. */
static void another_a(size_t size)
{
    sent(SEND_A, 1, size, LEVELS);
    fill(&word, ORTKAVEQ_K3, 1);
    word.bytes[100] = 1;
    ACCEPT(0, with(&out, ORTKAVEQ_N3, ENCODE, 3, ORTKAVEQ_N3));
    for (size_t n = 0; n < ORTKAVEQ_N3; n++)
        if (out.bytes[n] == 1)
            flip_a(in_half(0, n));
}

/*
 * Up to t hits in each half are mended, one more is not; and with another codeword added to the first half the check is wrong, hits or none. Beside them up
 * to 12 hits in the fields are counted; with more it is noise.
 */
static void coded_a(size_t size)
{
    EACH(in_first, 0, 1, ORTKAVEQ_T3)
        EACH(in_second, 0, 1, ORTKAVEQ_T3)
            hits_a(size, *in_first, *in_second);
    EACH(half, 1, 0) {
        flip_a(in_half(*half, 390));
        REFUSE(ORTKAVEQ_UNCORRECTABLE, *half, run(RECEIVE_A, 1, size));
    }
    hit_halves(size, 0, 0);
    hit_fields(1, size, (struct told){.number = 0});
    hit_halves(size, ORTKAVEQ_T3, ORTKAVEQ_T3);
    hit_fields(1, size, (struct told){.count = 2 * ORTKAVEQ_T3, .worst = ORTKAVEQ_T3});
    hit_halves(size, ORTKAVEQ_T3, ORTKAVEQ_T3);
    flip_a(in_half(1, 390));
    hit_fields(1, size, (struct told){.number = ORTKAVEQ_UNCORRECTABLE, .place = 1});
    another_a(size);
    hit_fields(1, size, (struct told){.number = ORTKAVEQ_WRONG_CHECK});
    another_a(size);
    flip_a(in_half(0, 391)), flip_a(in_half(1, 390));
    hit_fields(1, size, (struct told){.number = ORTKAVEQ_WRONG_CHECK});
}

/* ---- Payload B */

/* Bytes and bits of a block in each mode, and how many bits of it are mended; uncoded, each byte is one. */
static const struct { size_t bytes, bits, t; } blocks[] = {
    {1, 8, 0}, {ORTKAVEQ_B_BYTES1, ORTKAVEQ_N1, ORTKAVEQ_T1}, {ORTKAVEQ_B_BYTES2, ORTKAVEQ_N2, ORTKAVEQ_T2},
};

/* What stream and area had before a step. */
static struct list area_before;
static struct ortkaveq_stream before;

static bool stops(size_t number) { return number == ORTKAVEQ_FILLED || number == ORTKAVEQ_STRAY_POINT || number == ORTKAVEQ_UNCORRECTABLE; }

/*
 * A step. If it is accepted it writes the frame's bytes of this range, and no others. If a stream that was open is refused for what it received, its frame's
 * bytes are zero, and it holds the refusal. Any other refusal leaves all as it was.
 */
static struct told step(size_t from, size_t to)
{
    before = stream.state;
    memcpy(area_before.bytes, area.bytes, area.length);
    struct told answer = run(STEP_B, 0, 0);
    if (answer.number == 0)
        memcpy(area_before.bytes + from, frame.bytes + from, to - from), before.seen++;
    else if (before.number == 0 && stops(answer.number))
        memset(area_before.bytes, 0, before.size), before.number = answer.number, before.place = answer.place;
    if (!same(&area, &area_before, area.length))
        FAIL("an area as it was, but for what a step that is answered with %zu writes", answer.number);
    bool kept = memcmp(&stream.state, &before, sizeof before) == 0;
    bool onward = stream.state.seen == before.seen && stream.state.number == 0 && stream.state.mended == answer.count && stream.state.worst == answer.worst;
    if (answer.number == 0 ? !onward : !kept)
        FAIL("a stream as a step that is answered with %zu leaves it", answer.number);
    return answer;
}

/* A scheme of so many bits for every point; of 0, from 2 to 10 by turns. Answers their sum. */
static size_t set_scheme(size_t bits)
{
    size_t sum = 0;
    scheme.length = ORTKAVEQ_SCHEME;
    for (size_t n = 0; n < ORTKAVEQ_SCHEME; n++)
        sum += scheme.bytes[n] = (uint8_t)(bits > 0 ? bits : 2 + n % 9);
    return sum;
}

/* Flips one of the coded bits, where every point is of two: the first negates I, the second Q. */
static void flip_b(size_t bit)
{
    int16_t *level = (bit % 2 ? &q : &i)->levels + index_of(bit / 2 + 1);
    *level = (int16_t)-*level;
}

/* Three blocks with so many hits each are mended; a hit in the fill counts in none. */
static void hit_blocks(size_t mode, size_t size, const size_t *hits, size_t worst)
{
    sent(SEND_B, mode, size, 4 * ORTKAVEQ_SYMBOL);
    for (size_t block = 0; block < 3; block++)
        for (size_t hit = 0; hit < hits[block]; hit++)
            flip_b(blocks[mode].bits * block + 19 * hit);
    flip_b(3 * blocks[mode].bits);
    EXPECT(0, 0, hits[0] + hits[1] + hits[2], 0, worst, run(RECEIVE_B, mode, size));
    HOLD(same(&area, &frame, size));
}

/* The worst block may be any of three; with t hits in each, one hit more in a block leaves the frame's bytes zero. */
static void hits_b(size_t mode)
{
    size_t size = 3 * blocks[mode].bytes, t = blocks[mode].t;
    set_scheme(2);
    EACH(block, 0, 1, 2)
        hit_blocks(mode, size, (size_t[]){*block == 0 ? t : 1, *block == 1 ? t : 0, *block == 2 ? t : 2}, t);
    hit_blocks(mode, size, (size_t[]){t, t, t}, t);
    EACH(block, 2, 1, 0) {
        flip_b(blocks[mode].bits * *block + 400);
        REFUSE(ORTKAVEQ_UNCORRECTABLE, *block, run(RECEIVE_B, mode, size));
    }
}

/* The same refusal by all five calls, and by a step of the stream that holds it. */
#define REFUSE_B(number, place, mode, size) \
    (REFUSE(number, place, run(SYMBOLS_B, mode, size)), REFUSE(number, place, with(&frame, size, SEND_B, mode, 0)), \
     REFUSE(number, place, run(DECIDE_B, mode, size)), REFUSE(number, place, run(RECEIVE_B, mode, size)), \
     REFUSE(number, place, run(OPEN_B, mode, size)), REFUSE(number, place, step(0, 0)))

/* Schemes, and then sizes too, that are wrong, with lists of this length. */
static void refused_b(size_t length)
{
    i.length = q.length = out_i.length = out_q.length = area.length = length;
    set_scheme(2);
    EACH(place, 209, 100, 0)
        EACH(entry, 1, 11) {
            scheme.bytes[*place] = (uint8_t)*entry;
            REFUSE_B(ORTKAVEQ_BAD_SCHEME, *place, 2, ORTKAVEQ_B_BYTES2);
        }
    EACH(entries, 209, 211, 0) {
        scheme.length = *entries;
        REFUSE_B(ORTKAVEQ_BAD_SCHEME, ORTKAVEQ_SCHEME, 2, ORTKAVEQ_B_BYTES2);
    }
    EACH(mode, 1, 2)
        EACH(wrong, 0, blocks[*mode].bytes - 1, blocks[*mode].bytes + 1)
            REFUSE_B(ORTKAVEQ_WRONG_LENGTH, 0, *mode, *wrong);
    REFUSE_B(ORTKAVEQ_WRONG_LENGTH, 0, 0, 0);
}

/* A frame of so many blocks; the OFDM symbols that it needs. */
static void payload_b(size_t mode, size_t count, size_t bits)
{
    size_t sum = set_scheme(bits), symbols = (count * blocks[mode].bits + sum - 1) / sum;
    ACCEPT(symbols, run(SYMBOLS_B, mode, count * blocks[mode].bytes));
    there_and_back(SEND_B, RECEIVE_B, mode, count * blocks[mode].bytes, symbols * ORTKAVEQ_SYMBOL);
}

/* The largest frame of a mode, and one byte or block more. */
static void largest_b(size_t mode, size_t bits, size_t size)
{
    size_t block = blocks[mode].bytes;
    set_scheme(bits);
    ACCEPT(ORTKAVEQ_MOST_SYMBOLS, run(SYMBOLS_B, mode, size));
    payload_b(mode, size / block, bits);
    REFUSE_B(ORTKAVEQ_TOO_MANY_SYMBOLS, 0, mode, size + block);
}

/* ---- Streams: each OFDM symbol of a frame that is sent whole, in turn */

static struct list sent_i, sent_q;

/* How many bytes of a frame stand in the blocks that are complete after so many OFDM symbols. */
static size_t bytes_after(size_t mode, size_t size, size_t sum, size_t symbols)
{
    size_t done = sum * symbols / blocks[mode].bits * blocks[mode].bytes;
    return done < size ? done : size;
}

/* I and Q of one OFDM symbol, and some elements more. */
static void symbol(size_t n, size_t more)
{
    i.length = q.length = ORTKAVEQ_SYMBOL + more;
    memcpy(i.levels, sent_i.levels + n * ORTKAVEQ_SYMBOL, ORTKAVEQ_SYMBOL * sizeof(int16_t));
    memcpy(q.levels, sent_q.levels + n * ORTKAVEQ_SYMBOL, ORTKAVEQ_SYMBOL * sizeof(int16_t));
}

/* Opens a stream for the frame that is in i and q, with an area that holds something. */
static void open_stream(size_t mode, size_t size, size_t more)
{
    sent_i = i, sent_q = q;
    ACCEPT(0, run(OPEN_B, mode, size));
    fill(&area, size + more, 256);
}

/* Steps from one OFDM symbol to another, none of which has hits. */
static void steps(size_t mode, size_t size, size_t sum, size_t from, size_t to)
{
    for (size_t n = from; n < to; n++) {
        symbol(n, n % 2);
        ACCEPT(0, step(bytes_after(mode, size, sum, n), bytes_after(mode, size, sum, n + 1)));
    }
}

/* Lists that are too short for a step change nothing. */
static void short_step(size_t size)
{
    EACH(less, 0, ORTKAVEQ_SYMBOL - 1) {
        i.length = *less;
        REFUSE(ORTKAVEQ_NO_ROOM, 0, step(0, 0));
        i.length = ORTKAVEQ_SYMBOL, q.length = *less;
        REFUSE(ORTKAVEQ_NO_ROOM, 0, step(0, 0));
        q.length = ORTKAVEQ_SYMBOL;
    }
    size_t length = area.length;
    EACH(less, 0, size - 1) {
        area.length = *less;
        REFUSE(ORTKAVEQ_NO_ROOM, 0, step(0, 0));
    }
    area.length = length;
}

/* A point that is none, or a sub-carrier that is not empty, in one OFDM symbol: its place is that in the whole grid, and every step repeats it. */
static void spoilt_step(size_t mode, size_t size, size_t sum, size_t n)
{
    EACH(at, 255, 106) {
        open_stream(mode, size, MORE);
        steps(mode, size, sum, 0, n);
        symbol(n, 0);
        i.levels[*at] = INT16_MIN;
        size_t number = *at == 106 ? ORTKAVEQ_FILLED : ORTKAVEQ_STRAY_POINT, place = n * ORTKAVEQ_SYMBOL + *at;
        REFUSE(number, place, step(0, 0));
        symbol(n, 0);
        REFUSE(number, place, step(0, 0));
        i.length = q.length = area.length = 0;
        REFUSE(number, place, step(0, 0));
        i = sent_i, q = sent_q;
    }
}

/* A frame of so many blocks, step by step. */
static void stream_b(size_t mode, size_t count, size_t bits)
{
    size_t sum = set_scheme(bits), size = count * blocks[mode].bytes, symbols = (count * blocks[mode].bits + sum - 1) / sum;
    sent(SEND_B, mode, size, symbols * ORTKAVEQ_SYMBOL);
    open_stream(mode, size, MORE);
    symbol(0, 0);
    short_step(size);
    steps(mode, size, sum, 0, symbols);
    HOLD(same(&area, &frame, size));
    REFUSE(ORTKAVEQ_TOO_MANY_SYMBOLS, 0, step(0, 0));
    i = sent_i, q = sent_q;
    EACH(n, 0, symbols - 1)
        spoilt_step(mode, size, sum, *n);
}

/* Three blocks of t hits each are mended in their steps; one hit more in a block, and the step in which it is complete finds it. */
static void hit_stream(size_t mode, size_t hopeless)
{
    size_t size = 3 * blocks[mode].bytes, t = blocks[mode].t, sum = set_scheme(2), done = 0;
    sent(SEND_B, mode, size, 4 * ORTKAVEQ_SYMBOL);
    for (size_t block = 0; block < 3; block++)
        for (size_t hit = 0; hit < t; hit++)
            flip_b(blocks[mode].bits * block + 19 * hit);
    if (hopeless < 3)
        flip_b(blocks[mode].bits * hopeless + 400);
    open_stream(mode, size, MORE);
    for (size_t n = 0; n < 4; n++) {
        size_t from = bytes_after(mode, size, sum, n), to = bytes_after(mode, size, sum, n + 1);
        symbol(n, 0);
        done = to / blocks[mode].bytes;
        if (hopeless < done) {
            REFUSE(ORTKAVEQ_UNCORRECTABLE, hopeless, step(0, 0));
            continue;
        }
        EXPECT(0, 0, t * done, 0, done > 0 ? t : 0, step(from, to));
    }
}

/* A stream that no opening and no steps leave, and one that holds a refusal which somebody wrote. */
static void forged(size_t mode, size_t count)
{
    size_t sum = set_scheme(2), size = count * blocks[mode].bytes;
    sent(SEND_B, mode, size, (count * blocks[mode].bits + sum - 1) / sum * ORTKAVEQ_SYMBOL);
    open_stream(mode, size, MORE);
    steps(mode, size, sum, 0, 1);
    symbol(1, 0);
    struct ortkaveq_stream good = stream.state;
    for (size_t word = 0; word < sizeof good / 8; word++)
        EACH(change, 1, (size_t)1 << 63) {
            stream.state = good;
            uint64_t at;
            memcpy(&at, stream.bytes + 8 * word, 8);
            at ^= *change;
            memcpy(stream.bytes + 8 * word, &at, 8);
            if (&stream.state.number == (uint64_t *)stream.bytes + word && *change == 1)
                continue; /* number 1: it holds a refusal */
            if (word < 8 && *change == 1 && 64 * word + 63 < good.count)
                continue; /* a bit that waits */
            if (word < 8 && *change > 1 && 64 * word < good.count)
                continue;
            REFUSE(ORTKAVEQ_FORGED, 0, step(0, 0));
        }
    memset(&stream.state, POISON, sizeof stream.state);
    REFUSE(ORTKAVEQ_FORGED, 0, step(0, 0));
    EACH(number, 1, 2, 3, 4, 5, 6, 7, 8, 9, 10, 11, 16) {
        bool placed = *number == 4 || *number == 5 || (7 <= *number && *number <= 9);
        stream.state = good, stream.state.number = *number, stream.state.place = placed ? SIZE_MAX : 0;
        REFUSE(*number, stream.state.place, step(0, 0));
        stream.state.place = 7;
        REFUSE(placed ? *number : ORTKAVEQ_FORGED, placed ? 7 : 0, step(0, 0));
    }
    EACH(number, 12, 13, 14, 15, 17, 256 + 9, SIZE_MAX - 1) {
        stream.state = good, stream.state.number = *number;
        REFUSE(ORTKAVEQ_FORGED, 0, step(0, 0));
    }
}

/* ---- Deciding: points that were sent, in sixty-fourths of a level and moved */

enum { MARGIN_A = 31, MARGIN_B = 63 }; /* as far as both levels of a point can be moved, and it is decided to what was sent */

static struct list clean_i, clean_q;

/* How far the n-th level is moved: up to so many sixty-fourths, down or up, as far as that too. */
static int moved(size_t n, int most) { return (int)(37 * n % (2 * (size_t)most + 1)) - most; }

/* Sends a frame, and moves its points. Unavailable sub-carriers are not empty. */
static void sent_noisy(enum job send, size_t mode, size_t size, size_t levels, int most)
{
    sent(send, mode, size, levels);
    clean_i = i, clean_q = q;
    for (size_t n = 0; n < levels; n++)
        i.levels[n] = INT16_MIN, q.levels[n] = INT16_MAX;
    for (size_t s = 1; s <= levels / ORTKAVEQ_SYMBOL * POINTS; s++) {
        size_t at = index_of(s);
        i.levels[at] = (int16_t)(ORTKAVEQ_PARTS * clean_i.levels[at] + moved(s, most));
        q.levels[at] = (int16_t)(ORTKAVEQ_PARTS * clean_q.levels[at] + moved(s / 2, most));
    }
    needed = levels;
}

/* The first levels that were decided are those that were sent, from one on. */
static bool as_sent(size_t from)
{
    size_t bytes = needed * sizeof(int16_t);
    return memcmp(out_i.levels, clean_i.levels + from, bytes) == 0 && memcmp(out_q.levels, clean_q.levels + from, bytes) == 0;
}

/* Noisy points are decided in room enough and in more, what was decided is received, and each of the four lists may be too short. */
static void decided(enum job decide, enum job receive, size_t mode, size_t size)
{
    struct list *const lists[] = {&i, &q, &out_i, &out_q};
    EACH(more, MORE, 0) {
        for (size_t n = 0; n < 4; n++)
            lists[n]->length = needed + (n + 1) * *more;
        ACCEPT(0, run(decide, mode, size));
        HOLD(as_sent(0));
    }
    i = out_i, q = out_q;
    ACCEPT(0, run(receive, mode, size));
    HOLD(same(&area, &frame, size));
    for (size_t n = 0; n < 4; n++)
        EACH(less, 0, needed - 1)
            REFUSE(ORTKAVEQ_NO_ROOM, 0, with(lists[n], *less, decide, mode, size));
}

static bool is_legal(struct told answer) { return answer.number != ORTKAVEQ_FILLED && answer.number != ORTKAVEQ_STRAY_POINT; }

/* Any levels are decided, to points that are legal. */
static void decided_any(enum job decide, enum job receive, size_t mode, size_t size)
{
    fill(&i, needed * sizeof(int16_t), 256), fill(&q, needed * sizeof(int16_t), 256);
    i.length = q.length = out_i.length = out_q.length = needed;
    ACCEPT(0, run(decide, mode, size));
    i = out_i, q = out_q;
    HOLD(is_legal(run(receive, mode, size)));
}

static void decided_a(size_t mode, size_t size)
{
    sent_noisy(SEND_A, mode, size, LEVELS, MARGIN_A);
    decided(DECIDE_A, RECEIVE_A, mode, size);
    decided_any(DECIDE_A, RECEIVE_A, mode, size);
}

/* Each OFDM symbol of a noisy frame by itself, as for a stream: in mode 0 a byte needs one. */
static void decided_singly(size_t symbols)
{
    sent_i = i, sent_q = q;
    out_i.length = out_q.length = needed = ORTKAVEQ_SYMBOL;
    for (size_t n = 0; n < symbols; n++) {
        symbol(n, n % 2);
        ACCEPT(0, run(DECIDE_B, 0, 1));
        HOLD(as_sent(n * ORTKAVEQ_SYMBOL));
    }
    i = sent_i, q = sent_q, needed = symbols * ORTKAVEQ_SYMBOL;
}

/* A frame of so many blocks. */
static void decided_b(size_t mode, size_t count, size_t bits)
{
    size_t sum = set_scheme(bits), size = count * blocks[mode].bytes, symbols = (count * blocks[mode].bits + sum - 1) / sum;
    sent_noisy(SEND_B, mode, size, symbols * ORTKAVEQ_SYMBOL, MARGIN_B);
    decided_singly(symbols);
    decided(DECIDE_B, RECEIVE_B, mode, size);
    decided_any(DECIDE_B, RECEIVE_B, mode, size);
}

/* Document 01's counts, and sizes that no frame has. */
static void counts_b(void)
{
    static const size_t sizes[][3] = {{13440, 12449, 11502}, {67200, 62422, 57564}};
    HOLD(sizes[1][0] == ORTKAVEQ_MOST_BYTES && ORTKAVEQ_MOST_LEVELS == ORTKAVEQ_MOST_SYMBOLS * ORTKAVEQ_SYMBOL);
    for (size_t mode = 0; mode <= 2; mode++)
        largest_b(mode, ORTKAVEQ_LEAST_BITS, sizes[0][mode]), largest_b(mode, ORTKAVEQ_MOST_BITS, sizes[1][mode]);
    REFUSE(ORTKAVEQ_TOO_MANY_SYMBOLS, 0, run(SYMBOLS_B, 0, SIZE_MAX));
    REFUSE(ORTKAVEQ_TOO_MANY_SYMBOLS, 0, run(DECIDE_B, 0, SIZE_MAX));
    REFUSE(ORTKAVEQ_TOO_MANY_SYMBOLS, 0, run(RECEIVE_B, 0, SIZE_MAX));
    set_scheme(2);
    ACCEPT(2, run(SYMBOLS_B, 2, ORTKAVEQ_B_BYTES2));
}

/* ---- All */

/* Codes and modes that there are not, with lists of this length. */
static void unknown(size_t length)
{
    word.length = out.length = frame.length = scheme.length = area.length = i.length = q.length = out_i.length = out_q.length = length;
    EACH(code, 0, 4, 255)
        EACH(job, ENCODE, DECODE)
            REFUSE(ORTKAVEQ_UNKNOWN, 0, run(*job, *code, length));
    EACH(mode, 2, 3, 255)
        EACH(job, SEND_A, DECIDE_A, RECEIVE_A)
            REFUSE(ORTKAVEQ_UNKNOWN, 0, run(*job, *mode, length));
    EACH(mode, 3, 4, 255)
        EACH(job, SYMBOLS_B, SEND_B, DECIDE_B, RECEIVE_B, OPEN_B)
            REFUSE(ORTKAVEQ_UNKNOWN, 0, run(*job, *mode, length));
}

static void everything(void)
{
    words(1, ORTKAVEQ_N1, ORTKAVEQ_K1, ORTKAVEQ_T1);
    words(2, ORTKAVEQ_N2, ORTKAVEQ_K2, ORTKAVEQ_T2);
    words(3, ORTKAVEQ_N3, ORTKAVEQ_K3, ORTKAVEQ_T3);
    payload_a(0, ORTKAVEQ_A_BYTES0);
    payload_a(1, ORTKAVEQ_A_BYTES1);
    uncoded_a(ORTKAVEQ_A_BYTES0);
    coded_a(ORTKAVEQ_A_BYTES1);
    for (size_t mode = 0; mode <= 2; mode++)
        EACH(bits, 2, 10, 0)
            EACH(count, 1, 2, 60, 201)
                payload_b(mode, *count, *bits);
    hits_b(1);
    hits_b(2);
    for (size_t mode = 0; mode <= 2; mode++)
        EACH(bits, 2, 10, 0)
            EACH(count, 1, 2, 60)
                stream_b(mode, *count, *bits);
    EACH(mode, 1, 2)
        EACH(hopeless, 0, 1, 2, 3)
            hit_stream(*mode, *hopeless);
    EACH(mode, 1, 2)
        forged(*mode, 3);
    decided_a(0, ORTKAVEQ_A_BYTES0);
    decided_a(1, ORTKAVEQ_A_BYTES1);
    for (size_t mode = 0; mode <= 2; mode++)
        EACH(bits, 2, 3, 4, 5, 6, 7, 8, 9, 10, 0)
            EACH(count, 1, 20)
                decided_b(mode, *count, *bits);
    decided_b(0, ORTKAVEQ_MOST_BYTES, ORTKAVEQ_MOST_BITS);
    EACH(length, 0, 600)
        refused_b(*length), unknown(*length);
    counts_b();
}

/* Where a list is left, or one is written that is only read, the machine stops the call. */
static void touched(int signal) { FAIL("no touch beyond a list, and no write to one that is only read (signal %d)", signal); }

int main(void)
{
    signal(SIGSEGV, touched);
    signal(SIGBUS, touched);
    behind = true;
    everything();
    behind = false;
    everything();
    printf("guard: %ld calls\n", calls);
    return EXIT_SUCCESS;
}
