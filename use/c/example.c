/*
 * example [TEXT]: an alarm frame is sent as Payload A, hit on the way and received: first with as many hits as can be mended, and where they were, then with
 * one more. Exit status 0 only if both were answered as they have to be. C11, and C++11 too.
 */
#include "ortkaveq.h"

#include <stdio.h>
#include <stdlib.h>
#include <string.h>

enum {
    CODED = 1,              /* the mode with code 3 */
    POINTS = 210,           /* of an OFDM symbol */
    SIZE = ORTKAVEQ_A_BYTES1,
    LEVELS = ORTKAVEQ_A_LEVELS
};

/* Where the point that is sent s-th stands in I and Q, s from 1 to 420. */
static int index_of(int s)
{
    int symbol = (s - 1) / POINTS, within = (s - 1) % POINTS + 1;
    return symbol * ORTKAVEQ_SYMBOL + (within <= 105 ? within + 150 : within - 105);
}

/* A click on the line: from the s-th on, every point is a quarter turn ahead. Each is read against the one before, so one dibit differs, and in one bit. */
static void slip(int16_t *i, int16_t *q, int s)
{
    for (; s <= 2 * POINTS; s++) {
        int at = index_of(s);
        int16_t was = i[at];
        i[at] = (int16_t)-q[at];
        q[at] = was;
    }
}

/* 16 hits in each half: every twelfth point of each OFDM symbol, but not the ninth of them, which carries a protected field. */
static void hit(int16_t *i, int16_t *q)
{
    for (int symbol = 0; symbol < 2; symbol++)
        for (int n = 1; n <= 17; n++)
            if (n != 9)
                slip(i, q, symbol * POINTS + 12 * n);
}

/* Which point of its OFDM symbol, from 1, has a place of a half: two bits a point, five points of a protected field first, and five more behind 196 bits. */
static int point_of(int place) { return place / 2 + (place < 196 ? 6 : 11); }

/* Says at which points a half was mended. 1 if they are those of hit, in their order. */
static int named(int half, const uint16_t *places)
{
    int good = 1;
    printf("half %d:   mended at points", half);
    for (int n = 0; n < ORTKAVEQ_PLACES; n++) {
        int point = point_of(places[n]);
        printf(" %d", point);
        good &= point == 12 * (n < 8 ? n + 1 : n + 2);
    }
    puts("");
    return good;
}

/* Receives into an area and says what came. 1 if the answer is the one expected, no field is hit, and the places are those of hit, or in a refusal all 0. */
static int received(const int16_t *i, const int16_t *q, uint8_t *area, unsigned number, unsigned place, unsigned mended, unsigned worst)
{
    static const uint16_t none[ORTKAVEQ_PLACES] = {0};
    uint16_t first[ORTKAVEQ_PLACES], second[ORTKAVEQ_PLACES];
    struct ortkaveq_received a = ortkaveq_receive_a(CODED, i, LEVELS, q, LEVELS, area, SIZE, first, second);
    int good = a.number == number && a.place == place && a.mended == mended && a.worst == worst && a.fields == 0;
    printf("received: number %u, place %lu, mended %u, worst %u, fields %u\n", (unsigned)a.number, (unsigned long)a.place, (unsigned)a.mended,
           (unsigned)a.worst, (unsigned)a.fields);
    if (a.number == ORTKAVEQ_ACCEPTED) {
        good &= named(1, first);
        good &= named(2, second);
    } else
        good &= memcmp(first, none, sizeof none) == 0 && memcmp(second, none, sizeof none) == 0;
    printf("the area: [%.*s]\n", SIZE, (const char *)area);
    return good;
}

int main(int count, char **words)
{
    const char *text = count > 1 ? words[1] : "SMOKE, FLAT 12, STAIR B";
    size_t length = strlen(text);
    uint8_t frame[SIZE], area[SIZE], before[SIZE];
    int16_t i[LEVELS], q[LEVELS];
    memset(frame, ' ', SIZE);
    memcpy(frame, text, length < sizeof frame ? length : sizeof frame);
    memset(before, '.', SIZE);

    struct ortkaveq_answer a = ortkaveq_send_a(CODED, frame, SIZE, i, LEVELS, q, LEVELS);
    printf("a frame:  [%.*s]\nsent:     number %u\n", SIZE, (const char *)frame, (unsigned)a.number);
    int good = a.number == ORTKAVEQ_ACCEPTED;

    puts("\n16 hits in each half");
    hit(i, q);
    memcpy(area, before, SIZE);
    good &= received(i, q, area, ORTKAVEQ_ACCEPTED, 0, 2 * ORTKAVEQ_T3, ORTKAVEQ_T3) && memcmp(area, frame, SIZE) == 0;

    puts("\none hit more in the second half");
    slip(i, q, POINTS + 100);
    memcpy(area, before, SIZE);
    good &= received(i, q, area, ORTKAVEQ_UNCORRECTABLE, 1, 0, 0) && memcmp(area, before, SIZE) == 0;
    return good ? EXIT_SUCCESS : EXIT_FAILURE;
}
