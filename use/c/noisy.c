/*
 * noisy: an alarm frame is sent as Payload A, and noise moves its points on the way. They are decided to the nearest and received: first with noise so weak
 * that every point is decided to what was sent, then with more of it on some points, and the code mends what was decided wrongly, then with so much on all of
 * them that the burst is refused. Exit status 0 only if all three were answered as they have to be. C11, and C++11 too.
 */
#include "ortkaveq.h"

#include <stdio.h>
#include <stdlib.h>
#include <string.h>

enum {
    CODED = 1,   /* the mode with code 3 */
    SIZE = ORTKAVEQ_A_BYTES1,
    LEVELS = ORTKAVEQ_A_LEVELS,
    WEAK = 31,   /* sixty-fourths: both levels of a point can be moved by so many, and it is decided to what was sent */
    STRONG = 100
};

/* A grid of points. */
struct grid { int16_t i[LEVELS], q[LEVELS]; };

/* Noise of up to so many sixty-fourths, down or up. */
static int noise(int most)
{
    static uint32_t state = 2026;
    state = state * 1664525 + 1013904223;
    return (int)((state >> 16) % (2 * (uint32_t)most + 1)) - most;
}

/* What comes in where points are sent: in sixty-fourths, every so many-th point with strong noise, the others with weak, unavailable sub-carriers too. */
static void move(const struct grid *sent, struct grid *came, int every)
{
    for (int n = 0; n < LEVELS; n++) {
        int most = every > 0 && n % every == 0 ? STRONG : WEAK;
        came->i[n] = (int16_t)(ORTKAVEQ_PARTS * sent->i[n] + noise(most));
        came->q[n] = (int16_t)(ORTKAVEQ_PARTS * sent->q[n] + noise(most));
    }
}

/* Moves the points, decides them, and says how many came out otherwise than they were sent. */
static int decided(const struct grid *sent, struct grid *out, int every)
{
    struct grid came; /* another one than out: points are not decided in place */
    move(sent, &came, every);
    struct ortkaveq_answer a = ortkaveq_decide_a(CODED, came.i, LEVELS, came.q, LEVELS, out->i, LEVELS, out->q, LEVELS);
    int wrong = 0;
    for (int n = 0; n < LEVELS && a.number == ORTKAVEQ_ACCEPTED; n++)
        wrong += out->i[n] != sent->i[n] || out->q[n] != sent->q[n];
    printf("decided:  number %u, %d of 420 points otherwise than sent\n", (unsigned)a.number, wrong);
    return wrong;
}

/* Receives what was decided into an area that holds something, and says what came. */
static struct ortkaveq_received received(const struct grid *out, uint8_t *area)
{
    uint16_t first[ORTKAVEQ_PLACES], second[ORTKAVEQ_PLACES];
    memset(area, '.', SIZE);
    struct ortkaveq_received a = ortkaveq_receive_a(CODED, out->i, LEVELS, out->q, LEVELS, area, SIZE, first, second);
    printf("received: number %u, place %lu, mended %u, worst %u, fields %u\n", (unsigned)a.number, (unsigned long)a.place, (unsigned)a.mended,
           (unsigned)a.worst, (unsigned)a.fields);
    printf("the area: [%.*s]\n", SIZE, (const char *)area);
    return a;
}

int main(void)
{
    static const char text[] = "SMOKE, FLAT 12, STAIR B";
    uint8_t frame[SIZE], area[SIZE], before[SIZE];
    struct grid sent, out;
    memset(frame, ' ', SIZE);
    memcpy(frame, text, strlen(text));
    memset(before, '.', SIZE);
    int good = ortkaveq_send_a(CODED, frame, SIZE, sent.i, LEVELS, sent.q, LEVELS).number == ORTKAVEQ_ACCEPTED;

    puts("noise of up to 31 sixty-fourths on every point");
    good &= decided(&sent, &out, 0) == 0;
    struct ortkaveq_received a = received(&out, area);
    good &= a.number == ORTKAVEQ_ACCEPTED && a.mended == 0 && a.fields == 0 && memcmp(area, frame, SIZE) == 0;

    puts("\nof up to 100 on every fourteenth");
    good &= decided(&sent, &out, 14) > 0; /* each is read against the one before: a point that is a quarter turn off costs two bits */
    a = received(&out, area);
    good &= a.number == ORTKAVEQ_ACCEPTED && a.mended > 0 && memcmp(area, frame, SIZE) == 0;

    puts("\nof up to 100 on every point");
    good &= decided(&sent, &out, 1) > 0;
    a = received(&out, area);
    good &= a.number != ORTKAVEQ_ACCEPTED && memcmp(area, before, SIZE) == 0;
    return good ? EXIT_SUCCESS : EXIT_FAILURE;
}
