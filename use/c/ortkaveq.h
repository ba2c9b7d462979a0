/*
 * Ortkaveq: payload coding for HiNoC (ITU-T J.195.2), as eleven calls for C11 and C++11.
 *
 * docs/SCOPE.md says what is asked of each job, docs/READING.md what is proved of it. The code behind these declarations is proved; that the declarations
 * are those of the code is not proved but run (use/c/check).
 *
 * A list is passed as a pointer and then its length, in elements and not in bytes; a list of places, always of 16 elements, and a stream as a pointer alone.
 *
 * What a caller owes, and no call can see for itself:
 *   - a pointer leads to as many elements as its length says, to 16 places or to a stream, is aligned for them, and is not null, not even where the length is
 *     0 (as data() of an empty std::vector may be);
 *   - a list or stream that a call may write overlaps no other one of that call;
 *   - while a call runs nothing else writes to its lists or stream, or reads those that it may write.
 * Everything else may be wrong: any code or mode, length or content is answered, with 0 or with the number of a refusal. But a code or mode is 8 bits: of a
 * wider number C hands over the lowest 8 alone, without a word, so that 257 is taken for 1.
 *
 * No call keeps anything: what a stream remembers stands in the caller's struct ortkaveq_stream and nowhere else, nothing is allocated, and any thread may call
 * at any time. Stack: less than 16 KiB a call (docs/SPEED.md).
 *
 * Machines of 64 bits only, x86-64 and Arm, the lowest byte of a number first. On a machine of 32 bits an answer would not come back as it is declared here.
 */
#ifndef ORTKAVEQ_H
#define ORTKAVEQ_H

#include <assert.h>
#include <stddef.h>
#include <stdint.h>

#ifdef __cplusplus
extern "C" {
#endif

/*
 * ---- Numbers: why a call refused. Checks run in the order 1, 2, 5, 6, 3, 4, 7, 8, 11, 9, 10, each where it applies; the first that fails gives the number. A
 * step of a stream begins with its own: the refusal that the stream holds, then 16.
 */

enum ortkaveq_number {
    ORTKAVEQ_ACCEPTED = 0,         /* Accepted. Place 0. */
    ORTKAVEQ_UNKNOWN = 1,          /* There is no such coding mode or code. Place 0. */
    ORTKAVEQ_WRONG_LENGTH = 2,     /* A frame or word of a wrong length. Place 0. */
    ORTKAVEQ_NO_ROOM = 3,          /* A list of points or a list for output is too short. Place 0. */
    ORTKAVEQ_NOT_A_BIT = 4,        /* An element of a word is neither 0 nor 1. Place: the first such element. */
    ORTKAVEQ_BAD_SCHEME = 5,       /* A scheme not of 210 entries (place 210), or an entry outside 2 to 10. Place: the first such entry. */
    ORTKAVEQ_TOO_MANY_SYMBOLS = 6, /* More than 256 OFDM symbols would be needed; in a stream, one more than the frame needs. Place 0. */
    ORTKAVEQ_FILLED = 7,           /* An unavailable sub-carrier is not (0,0). Place: its index in I and Q, the least such one. */
    ORTKAVEQ_STRAY_POINT = 8,      /* A point that is none of its sub-carrier's constellation. Place: its index in I and Q, the first in the order sent. */
    ORTKAVEQ_UNCORRECTABLE = 9,    /* No codeword lies near enough. Place: the first such block; 0 for a single word. */
    ORTKAVEQ_WRONG_CHECK = 10,     /* Payload A: the frame check is wrong. Place 0. */
    ORTKAVEQ_NOISE = 11,           /* Payload A: more than 12 of the 56 bits of the protected fields differ. Place 0. */
    ORTKAVEQ_FORGED = 16           /* A stream that no opening and no steps leave so. Place 0. */
};

/* ---- Sizes */

enum {
    /* The three codes: n bits of a codeword, k of them information, up to t mended. */
    ORTKAVEQ_N1 = 508, ORTKAVEQ_K1 = 472, ORTKAVEQ_T1 = 4,
    ORTKAVEQ_N2 = 504, ORTKAVEQ_K2 = 432, ORTKAVEQ_T2 = 8,
    ORTKAVEQ_N3 = 392, ORTKAVEQ_K3 = 248, ORTKAVEQ_T3 = 16,

    /*
     * A list of places: its elements. A call that is lent one writes all of it, whatever it answers: the indices of the bits mended, rising, none twice, and 0
     * behind them; in a refusal 0 alone.
     */
    ORTKAVEQ_PLACES = 16,

    /* Payload A: bytes of a frame in mode 0, uncoded, and in mode 1, code 3; elements of I and of Q; bits of the protected fields, and how many may differ. */
    ORTKAVEQ_A_BYTES0 = 94, ORTKAVEQ_A_BYTES1 = 58,
    ORTKAVEQ_A_LEVELS = 512,
    ORTKAVEQ_A_FIELDS = 56, ORTKAVEQ_A_MOST_DIFFERING = 12,

    /* Payload B: in mode 1 (code 1) and mode 2 (code 2) a frame is one or more whole blocks of so many bytes; in mode 0, uncoded, one or more bytes. */
    ORTKAVEQ_B_BYTES1 = 59, ORTKAVEQ_B_BYTES2 = 54,

    /* A scheme: its entries, each the bits of a point. */
    ORTKAVEQ_SCHEME = 210, ORTKAVEQ_LEAST_BITS = 2, ORTKAVEQ_MOST_BITS = 10,

    /*
     * An OFDM symbol: elements of I and of Q. The index is 256 times the OFDM symbol, from 0, plus the sub-carrier k. Points are sent in the order k = 151 to
     * 255, then 1 to 105, and a scheme's entries are in that order; k = 0 and 106 to 150 are unavailable and hold (0,0). Levels are Annex B's whole numbers; in
     * Payload A -1, 0 and 1.
     */
    ORTKAVEQ_SYMBOL = 256,

    /* What decide is given for a level of 1: sixty-fourths. */
    ORTKAVEQ_PARTS = 64,

    /* The most OFDM symbols of a frame, its elements of I and of Q then, and the most bytes of any frame (mode 0, every entry 10). */
    ORTKAVEQ_MOST_SYMBOLS = 256, ORTKAVEQ_MOST_LEVELS = 65536, ORTKAVEQ_MOST_BYTES = 67200,

    /* A stream: its bytes. */
    ORTKAVEQ_STREAM_BYTES = 352
};

/* ---- Answers. In a refusal every count is 0. */

/* Of encode, decode, send and decide, and of opening a stream. */
struct ortkaveq_answer {
    uint32_t number; /* 0, or why the call refused: enum ortkaveq_number */
    uint32_t mended; /* bits mended; 0 for encode, send, decide and opening */
    uint64_t place;  /* where, as the number says */
};

/*
 * Of receive, both payloads, and of a step of a stream. mended and worst are the quality of the line: in how many places the coded bits received differ
 * from those that sending the frame again would give, in all and in the worst block; fill and protected bits are not counted. Uncoded, both are 0. In a
 * refusal they are 0 too, as for a clean frame: whoever ranks lines looks at number first, and counts refusals himself. A block that became another
 * codeword counts the bits by which it missed that one.
 */
struct ortkaveq_received {
    uint16_t number;
    uint16_t mended; /* 0 to 32 in Payload A, 0 to 8528 in Payload B */
    uint16_t fields; /* Payload A: how many of the 56 bits of the protected fields differ from those that are sent, 0 to 12; Payload B: 0 */
    uint16_t worst;  /* bits mended in the worst block: 0 to t of its code. worst <= mended <= blocks * worst; Payload A has two */
    uint64_t place;
};

struct ortkaveq_answer_symbols {
    uint32_t number;
    uint32_t symbols; /* OFDM symbols needed, 1 to 256 */
    uint64_t place;
};

/*
 * ---- A stream: what is kept of a frame of Payload B between one OFDM symbol and the next. ortkaveq_open_b fills it, ortkaveq_step_b reads and writes it; a
 * caller keeps it, copies it as it likes, and need not look into it. Any bytes may stand there: what no opening and no steps leave is answered with 16, but for
 * one that holds a refusal: it repeats that, whoever wrote it.
 */
struct ortkaveq_stream {
    uint64_t block[8];   /* the bits that wait for their block, the first one the highest of the first word, and zeros behind them */
    uint64_t count;      /* how many wait */
    uint64_t size;       /* bytes of the frame */
    uint64_t seen;       /* OFDM symbols received */
    uint64_t mended;     /* bits mended in the blocks that are complete, in all and in the worst one */
    uint64_t worst;
    uint64_t place;      /* of the refusal that the stream holds; 0 where there is none */
    uint64_t number;     /* its number; 0: the stream is open */
    uint64_t scrambler;  /* the scrambler's register, behind those blocks */
    uint64_t mode;
    uint8_t scheme[216]; /* 210 entries, and zeros behind them */
};

static_assert(sizeof(size_t) == 8, "a machine of 64 bits");
static_assert(sizeof(struct ortkaveq_answer) == 16 && offsetof(struct ortkaveq_answer, mended) == 4 && offsetof(struct ortkaveq_answer, place) == 8,
              "the answer of encode, decode, send and decide");
static_assert(sizeof(struct ortkaveq_received) == 16 && offsetof(struct ortkaveq_received, mended) == 2 && offsetof(struct ortkaveq_received, fields) == 4
                  && offsetof(struct ortkaveq_received, worst) == 6 && offsetof(struct ortkaveq_received, place) == 8,
              "the answer of receive");
static_assert(sizeof(struct ortkaveq_answer_symbols) == 16 && offsetof(struct ortkaveq_answer_symbols, symbols) == 4
                  && offsetof(struct ortkaveq_answer_symbols, place) == 8,
              "the answer of ortkaveq_symbols_b");

static_assert(sizeof(struct ortkaveq_stream) == ORTKAVEQ_STREAM_BYTES && offsetof(struct ortkaveq_stream, count) == 64
                  && offsetof(struct ortkaveq_stream, mode) == 128 && offsetof(struct ortkaveq_stream, scheme) == 136,
              "a stream: seventeen numbers, and a scheme");

/* ---- BCH words: lists of bits, an element each, 0 or 1 */

/*
 * Encodes a word by code 1, 2 or 3.
 * Reads: word, k bits, exactly. Writes: the first n elements of out, the codeword.
 * Refuses with 1, 2, 3, 4. A refusal writes nothing; elements of out beyond n keep what they held.
 */
struct ortkaveq_answer ortkaveq_encode(uint8_t code, const uint8_t *word, size_t word_length, uint8_t *out, size_t out_length);

/*
 * Decodes a word: answers the codeword that differs from it in at most t places, and in how many and which it does, exactly when there is one.
 * Reads: word, n bits, exactly. Writes: the first n elements of out, the codeword; all 16 of places, indices in word, as many as mended says, and then 0.
 * With mended 1 a list of zeros names place 0.
 * Refuses with 1, 2, 3, 4, 9. A refusal writes nothing to out, and 0 to all of places; elements of out beyond n keep what they held.
 */
struct ortkaveq_answer ortkaveq_decode(uint8_t code, const uint8_t *word, size_t word_length, uint8_t *out, size_t out_length, uint16_t *places);

/* ---- Payload A: modes 0 and 1, two OFDM symbols of DQPSK */

/*
 * Sends a frame, with the frame check behind it: its register starts at all ones, and its result is inverted. A receiver of the earlier rule (zero, not
 * inverted) refuses it with 10.
 * Reads: frame, 94 bytes in mode 0 and 58 in mode 1, exactly. Writes: the first 512 elements of i and of q.
 * Refuses with 1, 2, 3. A refusal writes nothing; elements beyond the 512 keep what they held.
 */
struct ortkaveq_answer ortkaveq_send_a(uint8_t mode, const uint8_t *frame, size_t frame_length, int16_t *i, size_t i_length, int16_t *q, size_t q_length);

/*
 * Decides noisy points, so that a frame can be received from them: each to the point of DQPSK at the least squared distance, at a tie to the first of (1,0),
 * (0,1), (-1,0) and (0,-1). Levels come in in sixty-fourths, 64 for 1 and any of 16 bits, and go out as receive A takes them: it refuses none with 7 or 8.
 * A point that was moved by less than half the way to the next, squared by less than 2048, so by up to 45 sixty-fourths, is decided to what was sent.
 * Reads: the first 512 elements of i and of q, but for the unavailable sub-carriers, which may hold anything. Writes: the first 512 elements of out_i and of
 * out_q; unavailable sub-carriers come out (0,0). Not in place: out_i and out_q overlap neither i nor q nor each other.
 * Refuses with 1, 3, the latter for each of the four lists. A refusal writes nothing; elements beyond the 512 keep what they held.
 */
struct ortkaveq_answer ortkaveq_decide_a(uint8_t mode, const int16_t *i, size_t i_length, const int16_t *q, size_t q_length, int16_t *out_i,
                                         size_t out_i_length, int16_t *out_q, size_t out_q_length);

/*
 * Receives a frame. A burst of which more than 12 bits of the protected fields differ is refused as noise, with 11, in both modes, whatever its blocks and its
 * check are, even where its frame could have been mended. Else one that was sent by the earlier rule of the frame check is refused with 10.
 * Reads: the first 512 elements of i and of q. Writes: the first 94 (mode 0) or 58 (mode 1) bytes of area, the frame; all 16 of first and of second, the places
 * mended in the first and in the second half: each an index, 0 to 391, in the 392 bits that its OFDM symbol carries beside protected fields; in mode 0 all 0.
 * mended is the number of places of both, worst of the half that has more. With mended 1 and both lists all 0 it is place 0 of one of the two halves, and the
 * answer does not say of which.
 * Refuses with 1, 3, 7, 8, 11, 9, 10. A refusal writes nothing to area, and 0 to all of first and second; bytes of area beyond the frame keep what they held.
 */
struct ortkaveq_received ortkaveq_receive_a(uint8_t mode, const int16_t *i, size_t i_length, const int16_t *q, size_t q_length, uint8_t *area,
                                            size_t area_length, uint16_t *first, uint16_t *second);

/* ---- Payload B: modes 0, 1 and 2, up to 256 OFDM symbols, points by a scheme */

/*
 * How many OFDM symbols a frame of size bytes needs: so many times 256 elements of i and of q are sent, and asked for by the three calls below; a stream
 * takes as many steps.
 * Reads: scheme, 210 entries, exactly. Writes nothing.
 * Refuses with 1, 2, 5, 6, as send B does.
 */
struct ortkaveq_answer_symbols ortkaveq_symbols_b(uint8_t mode, size_t size, const uint8_t *scheme, size_t scheme_length);

/*
 * Sends a frame.
 * Reads: frame, all of it; scheme, 210 entries, exactly. Writes: the first 256 elements of i and of q for each OFDM symbol needed.
 * Refuses with 1, 2, 5, 6, 3. A refusal writes nothing; elements beyond those keep what they held.
 */
struct ortkaveq_answer ortkaveq_send_b(uint8_t mode, const uint8_t *frame, size_t frame_length, const uint8_t *scheme, size_t scheme_length, int16_t *i,
                                       size_t i_length, int16_t *q, size_t q_length);

/*
 * Decides noisy points, so that a frame of size bytes can be received from them: each to the point of its sub-carrier's constellation at the least squared
 * distance, at a tie to the lowest label. Levels come in in sixty-fourths, 64 for 1 and any of 16 bits, and go out as receive B takes them, and the steps of a
 * stream: these refuse none with 7 or 8. A point that was moved by less than 64 sixty-fourths, half the way to the next, is decided to what was sent.
 * Each OFDM symbol is decided by itself: with mode 0 and size 1 just one is, for a step of any stream by this scheme.
 * Reads: scheme, 210 entries, exactly; the first 256 elements of i and of q for each OFDM symbol needed, but for the unavailable sub-carriers, which may hold
 * anything. Writes: as many elements of out_i and of out_q; unavailable sub-carriers come out (0,0). Not in place: out_i and out_q overlap no other list.
 * Refuses with 1, 2, 5, 6, 3, the last for each of the four lists of levels. A refusal writes nothing; elements beyond those keep what they held.
 */
struct ortkaveq_answer ortkaveq_decide_b(uint8_t mode, size_t size, const uint8_t *scheme, size_t scheme_length, const int16_t *i, size_t i_length,
                                         const int16_t *q, size_t q_length, int16_t *out_i, size_t out_i_length, int16_t *out_q, size_t out_q_length);

/*
 * Receives a frame of size bytes.
 * Payload B has no frame check: a block with more than t hits can be mended into another codeword, in mode 1 about one in 25, and the frame is then accepted;
 * uncoded, any legal points are. docs/READING.md, "What is not promised".
 * Reads: scheme, 210 entries, exactly; the first 256 elements of i and of q for each OFDM symbol needed. Writes: the first size bytes of area, the frame.
 * Refuses with 1, 2, 5, 6, 3, 7, 8, 9. A refusal writes nothing, but for 9, which leaves the first size bytes of area all zero; bytes of area beyond them
 * keep what they held.
 */
struct ortkaveq_received ortkaveq_receive_b(uint8_t mode, size_t size, const uint8_t *scheme, size_t scheme_length, const int16_t *i, size_t i_length,
                                            const int16_t *q, size_t q_length, uint8_t *area, size_t area_length);

/* ---- Payload B one OFDM symbol at a time */

/*
 * Opens a stream for a frame of size bytes.
 * Reads: scheme, 210 entries, exactly. Writes: all of stream, whatever stood there.
 * Refuses with 1, 2, 5, 6, as receive B does; the stream then holds the refusal, and every step repeats it.
 */
struct ortkaveq_answer ortkaveq_open_b(uint8_t mode, size_t size, const uint8_t *scheme, size_t scheme_length, struct ortkaveq_stream *stream);

/*
 * Receives the next OFDM symbol of a stream; all steps of a frame are lent the same area. Where all of them are accepted, area and counts are in the end
 * those of receive B over the whole grid, and what is said there of blocks with more than t hits holds here too.
 * Reads: stream; the first 256 elements of i and of q, this OFDM symbol's. Writes: to area the bytes of the blocks that are complete by it, in their place
 * in the frame, and no others; stream. mended and worst are over the blocks complete so far. Bytes of area whose block is not complete yet keep what they
 * held.
 * Refuses with the number that the stream holds, with 16, with 6 after the last OFDM symbol, with 3: these change nothing, neither area nor stream, and
 * after 3 the step may be made again with longer lists. Then with 7, 8, 9: these leave the first size bytes of area all zero, those of blocks that were
 * complete too, and from there on the stream holds the refusal; its place is the index in the whole grid, or the block in the whole frame. Bytes of area
 * beyond size keep what they held.
 */
struct ortkaveq_received ortkaveq_step_b(struct ortkaveq_stream *stream, const int16_t *i, size_t i_length, const int16_t *q, size_t q_length, uint8_t *area,
                                         size_t area_length);

#ifdef __cplusplus
}
#endif

#endif
