/*
 * watch: three alarms in one frame of Payload B, received one OFDM symbol at a time: each is shown as soon as its block is complete. First with as many hits in
 * each block as can be mended, then with one more in the last: that step refuses the frame, and what was shown of it is gone from the area. Exit status 0 only
 * if every step was answered as it has to be. C11, and C++11 too.
 */
#include "ortkaveq.h"

#include <stdio.h>
#include <stdlib.h>
#include <string.h>

enum {
    CODED = 2,                         /* the mode with code 2 */
    ALARM = ORTKAVEQ_B_BYTES2,         /* bytes of a block: one alarm each */
    ALARMS = 3,
    SIZE = ALARMS * ALARM,
    SYMBOL_BITS = 2 * ORTKAVEQ_SCHEME, /* all QPSK: two bits a point */
    SYMBOLS = 4,                       /* for 3 blocks of 504 bits, 420 in each */
    LEVELS = SYMBOLS * ORTKAVEQ_SYMBOL
};

static const char *const alarms[ALARMS] = {"SMOKE, FLAT 12, STAIR B", "LIFT 2 STUCK, FLOOR 5", "FLOOD, CELLAR, STAIR A"};

/* A hit in one bit of a block: of a point of QPSK the sign of I is the first bit, and that of Q the second. */
static void hit(int16_t *i, int16_t *q, int block, int place)
{
    int bit = ORTKAVEQ_N2 * block + place, s = bit % SYMBOL_BITS / 2 + 1;
    int at = bit / SYMBOL_BITS * ORTKAVEQ_SYMBOL + (s <= 105 ? s + 150 : s - 105);
    int16_t *level = bit % 2 == 0 ? &i[at] : &q[at];
    *level = (int16_t)-*level;
}

/* How many alarms are complete after so many OFDM symbols. */
static int complete(int symbols)
{
    int blocks = symbols * SYMBOL_BITS / ORTKAVEQ_N2;
    return blocks < ALARMS ? blocks : ALARMS;
}

/* Receives the frame step by step and shows each alarm that comes. Answers the last step's number. */
static unsigned watch(const uint8_t *scheme, const int16_t *i, const int16_t *q, uint8_t *area)
{
    struct ortkaveq_stream stream;
    unsigned number = ortkaveq_open_b(CODED, SIZE, scheme, ORTKAVEQ_SCHEME, &stream).number;
    for (int n = 0; n < SYMBOLS && number == ORTKAVEQ_ACCEPTED; n++) {
        const size_t at = (size_t)n * ORTKAVEQ_SYMBOL;
        struct ortkaveq_received a = ortkaveq_step_b(&stream, i + at, ORTKAVEQ_SYMBOL, q + at, ORTKAVEQ_SYMBOL, area, SIZE);
        number = a.number;
        printf("symbol %d: number %u, place %lu, mended %u, worst %u\n", n + 1, number, (unsigned long)a.place, (unsigned)a.mended, (unsigned)a.worst);
        for (int alarm = complete(n); alarm < complete(n + 1) && number == ORTKAVEQ_ACCEPTED; alarm++)
            printf("          [%.*s]\n", ALARM, (const char *)area + alarm * ALARM);
    }
    return number;
}

int main(void)
{
    static const uint8_t zeros[SIZE] = {0};
    uint8_t scheme[ORTKAVEQ_SCHEME], frame[SIZE], area[SIZE];
    int16_t i[LEVELS], q[LEVELS];
    memset(scheme, 2, sizeof scheme);
    memset(frame, ' ', sizeof frame);
    memset(area, '.', sizeof area);
    for (int alarm = 0; alarm < ALARMS; alarm++)
        memcpy(frame + alarm * ALARM, alarms[alarm], strlen(alarms[alarm]));
    int good = ortkaveq_send_b(CODED, frame, SIZE, scheme, ORTKAVEQ_SCHEME, i, LEVELS, q, LEVELS).number == ORTKAVEQ_ACCEPTED;

    puts("three alarms, 8 hits in each block");
    for (int block = 0; block < ALARMS; block++)
        for (int n = 0; n < ORTKAVEQ_T2; n++)
            hit(i, q, block, 60 * n + block);
    good &= watch(scheme, i, q, area) == ORTKAVEQ_ACCEPTED && memcmp(area, frame, SIZE) == 0;

    puts("\none hit more in the last block");
    hit(i, q, ALARMS - 1, 500);
    good &= watch(scheme, i, q, area) == ORTKAVEQ_UNCORRECTABLE && memcmp(area, zeros, SIZE) == 0;
    puts("          the area is all zero");
    return good ? EXIT_SUCCESS : EXIT_FAILURE;
}
