/*
 * What all tables share. A table has rows of operands and columns of peers, this library first. A peer is a function that goes over all
 * operands once, and each has a loop of its own, in which its function is called and no wrapper of it.
 */
#ifndef HARNESS_H
#define HARNESS_H

#include "zukemoriha.h"

/* So many operands that a processor cannot learn the branches of all of them. */
enum { N = 65536 };

enum format { BINARY16, BINARY32, BINARY64, X87 };

/* An x87 number as the unit loads it and as integers do, in one place: neither side has to move it first. */
union x87 {
    long double number;
    struct {
        uint64_t significand;
        uint16_t word;
    } pattern;
};

/*
 * valgrind computes the numbers of the x87 unit as doubles. With this exponent field of divisors, and gaps up to 2045, they are doubles' in
 * size, and instructions can be counted.
 */
enum { LEAST_DOUBLE = 16383 - 1022 };

/* Only the array of the format is filled, and with binary16 that of binary32 too: the peers take floats. */
struct numbers {
    uint16_t binary16[N];
    uint32_t binary32[N];
    uint64_t binary64[N];
    union x87 x87[N];
};

/* Remainders of x by y, scalings of x by powers of two, splits of x. Where they are lists, all y are the same. */
struct operands {
    size_t n;
    enum format format;
    /* the length of the lists that the operands are cut into */
    size_t length;
    struct numbers x, y;
    int32_t powers[N];
};

/* The bytes are quotients modulo 8, or whether a step was partial, or what a scaling says. */
struct answers {
    struct numbers values;
    uint32_t quotients[N];
    int32_t exponents[N];
    uint8_t bytes[N], blocks[N][ZK_BLOCK_LENGTH];
};

struct peer {
    const char *name;
    void (*pass)(const struct operands *o, struct answers *a);
    /* Whether an answer is another one than this library's. Null for this library. */
    int (*differs)(const struct operands *o, const struct answers *ours, const struct answers *theirs, size_t i);
    /* 0, or how many elements it takes at once: other lists than multiples of these are not for it. */
    size_t lanes;
    /* Whether its wrong answers are counted. Those of others end the run. */
    int inexact;
};

/* Gaps from least to most, above the divisor's exponent field, which leaves them room; fill_scaling has other meanings. */
struct row {
    const char *name;
    enum format format;
    int least, most;
    unsigned field;
    /* of lists; 0 is all operands in one */
    size_t length;
};

/* All rows are told, or only the slowest one of each peer, or they are one gap each and make a figure. */
enum form { WHOLE, WORST, FIGURE };

/* Peers, rows and tables end with one that has no name. A peer that is the C library comes right after this library. */
struct table {
    /* The unit is what a time is for: a remainder, a step. The corner is the head of the first column. */
    const char *title, *unit, *corner;
    const struct peer *peers;
    const struct row *rows;
    /* Fills the operands of a row. It may lower their number. */
    void (*fill)(struct operands *o, const struct row *row);
    enum form form;
};

enum { MOST_PEERS = 8 };

/* The loop of a peer: a statement for every operand i, or for every list that begins there. */
#define LOOP(name, step, statement) \
    static void name(const struct operands *o, struct answers *a) { \
        const size_t n = o->n; \
        size_t i; \
        for (i = 0; i < n; i += step) \
            statement; \
    }
#define EACH(name, statement) LOOP(name, 1, statement)
#define LISTS(name, statement) LOOP(name, o->length, statement)

/* Operands (operands.c) */
uint64_t draw(uint64_t *state);
/* The sign is the highest one of the random bits, the fraction the lowest ones. With field 0 it is a denormal. */
void put(struct numbers *to, enum format format, size_t i, uint64_t random, unsigned field);
/* The sign and the digits of a denormal: at least two, and at most all that the format has. */
uint64_t draw_denormal(uint64_t *state, enum format format);
/* Normal numbers with random signs and fractions, and gaps spread evenly over the row. */
void fill_gaps(struct operands *o, const struct row *row);
uint32_t widened(uint16_t binary16);
/* Operand i in text, its patterns in hexadecimal. */
const char *text_of(const struct operands *o, size_t i);

/* Measurements (harness.c). With this set, only this library and the C library take part. */
extern int libc_only;
/* Compares all answers of a table; 0 where one of an exact peer differs. */
int agrees(const struct table *t, long *compared);
/* Prints the table: nanoseconds for one operand, and beside a peer's this library's by it; of the worst cases microseconds. */
void print_times(const struct table *t);
/* One pass of each row and peer, whose names it prints, for callgrind.sh. */
void count_passes(const struct table *t);
/* Prints a figure's lines, for gnuplot: a gap, and each peer's nanoseconds. */
void print_gaps(const struct table *t);

#endif
