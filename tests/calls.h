/*
 * Every operation of the library in one shape for all four formats, so that a test is written once.
 * All that is lent lies in a room of its own between filled bytes: a call that writes more than it may, or anything on a refusal, is seen.
 */
#ifndef CALLS_H
#define CALLS_H

#include "zukemoriha.h"

#include <inttypes.h>
#include <stdio.h>
#include <stdlib.h>
#include <string.h>
#include <unistd.h>

enum { BINARY16, BINARY32, BINARY64, X87, FORMATS };

struct format {
    const char *name;
    int digits;    /* hex digits of a pattern, as text */
    int width;     /* bytes behind a value pointer */
    int precision; /* p */
    int bias;      /* also the largest exponent */
    int smallest;  /* exponent of the smallest place */
};

static const struct format formats[FORMATS] = {
    {"binary16", 4, 2, 11, 15, -24},
    {"binary32", 8, 4, 24, 127, -149},
    {"binary64", 16, 8, 53, 1023, -1074},
    {"x87", 20, 8, 64, 16383, -16445},
};

/* The word is that of x87, and 0 in the other formats. */
struct pattern {
    uint64_t bits;
    uint16_t word;
};

static inline int same(struct pattern a, struct pattern b) {
    return a.bits == b.bits && a.word == b.word;
}

static inline int is_negative(int f, struct pattern x) {
    return f == X87 ? x.word >> 15 : (int)(x.bits >> (8 * formats[f].width - 1) & 1);
}

/* With the other sign, if it is to be. */
static inline struct pattern negated(int f, struct pattern x, int is) {
    if (f == X87)
        x.word ^= (uint16_t)(is << 15);
    else
        x.bits ^= (uint64_t)is << (8 * formats[f].width - 1);
    return x;
}

/* A pattern as text; four at a time may stand in one printf. */
static inline const char *text(int f, struct pattern x) {
    static char rooms[4][24];
    static int next;
    char *room = rooms[next++ % 4];
    if (f == X87)
        sprintf(room, "%04X%016" PRIX64, (unsigned)x.word, x.bits);
    else
        sprintf(room, "%0*" PRIX64, formats[f].digits, x.bits);
    return room;
}

/* What a call gave. What it did not promise to write is 0 here. */
struct reply {
    uint8_t number;
    struct pattern value;
    uint32_t quotient;
    int32_t signed_quotient; /* remquo's, which gives no other */
    uint8_t octant;          /* a block's */
    uint32_t steps;
    int says;
    int32_t exponent;
    int touched; /* a byte was written that may not be */
};

enum { BEFORE = 16, ROOM = 64 };

struct room {
    union {
        uint64_t aligned;
        unsigned char bytes[ROOM];
    } is;
};

/* What the rooms are filled with. A test that wants to be sure that no byte is equal by chance runs again with another. */
static unsigned char filling = 0xA5;

static inline void *lend(struct room *r) {
    memset(r->is.bytes, filling, ROOM);
    return r->is.bytes + BEFORE;
}

/* Nothing was written but, perhaps, the first `used` bytes of what was lent. */
static inline int kept(const struct room *r, size_t used) {
    size_t i;
    for (i = 0; i < ROOM; i++)
        if ((i < BEFORE || i >= BEFORE + used) && r->is.bytes[i] != filling)
            return 0;
    return 1;
}

static inline struct pattern taken(int f, const struct room *value, const struct room *word) {
    struct pattern x = {0, 0};
    uint16_t half;
    uint32_t single;
    if (f == BINARY16) {
        memcpy(&half, value->is.bytes + BEFORE, sizeof half);
        x.bits = half;
    } else if (f == BINARY32) {
        memcpy(&single, value->is.bytes + BEFORE, sizeof single);
        x.bits = single;
    } else {
        memcpy(&x.bits, value->is.bytes + BEFORE, sizeof x.bits);
    }
    if (f == X87)
        memcpy(&x.word, word->is.bytes + BEFORE, sizeof x.word);
    return x;
}

static inline struct reply call_rem(int f, struct pattern x, struct pattern y, uint32_t kind) {
    struct room value, word, quotient;
    struct reply r = {0};
    void *v = lend(&value), *w = lend(&word), *q = lend(&quotient);
    int answered;
    if (f == BINARY16)
        r.number = zk_rem16((uint16_t)x.bits, (uint16_t)y.bits, kind, (uint16_t *)v, (uint32_t *)q);
    else if (f == BINARY32)
        r.number = zk_rem32((uint32_t)x.bits, (uint32_t)y.bits, kind, (uint32_t *)v, (uint32_t *)q);
    else if (f == BINARY64)
        r.number = zk_rem64(x.bits, y.bits, kind, (uint64_t *)v, (uint32_t *)q);
    else
        r.number = zk_rem80(x.bits, x.word, y.bits, y.word, kind, (uint64_t *)v, (uint16_t *)w, (uint32_t *)q);
    answered = zk_is_answer(r.number);
    if (answered) {
        r.value = taken(f, &value, &word);
        memcpy(&r.quotient, q, sizeof r.quotient);
    }
    r.touched = !kept(&value, answered ? (size_t)formats[f].width : 0) || !kept(&word, answered && f == X87 ? 2 : 0) ||
                !kept(&quotient, answered ? 4 : 0);
    return r;
}

static inline struct reply call_remquo(int f, struct pattern x, struct pattern y, uint32_t kind) {
    struct room value, word, quotient;
    struct reply r = {0};
    void *v = lend(&value), *w = lend(&word), *q = lend(&quotient);
    int answered;
    if (f == BINARY16)
        r.number = zk_remquo16((uint16_t)x.bits, (uint16_t)y.bits, kind, (uint16_t *)v, (int32_t *)q);
    else if (f == BINARY32)
        r.number = zk_remquo32((uint32_t)x.bits, (uint32_t)y.bits, kind, (uint32_t *)v, (int32_t *)q);
    else if (f == BINARY64)
        r.number = zk_remquo64(x.bits, y.bits, kind, (uint64_t *)v, (int32_t *)q);
    else
        r.number = zk_remquo80(x.bits, x.word, y.bits, y.word, kind, (uint64_t *)v, (uint16_t *)w, (int32_t *)q);
    answered = zk_is_answer(r.number);
    if (answered) {
        r.value = taken(f, &value, &word);
        memcpy(&r.signed_quotient, q, sizeof r.signed_quotient);
    }
    r.touched = !kept(&value, answered ? (size_t)formats[f].width : 0) || !kept(&word, answered && f == X87 ? 2 : 0) ||
                !kept(&quotient, answered ? 4 : 0);
    return r;
}

/* A quotient's magnitude with the sign of x/y: wider than what remquo writes, so that 2^31, which it may not tell, is equal to nothing. */
static inline int64_t with_sign(int f, struct pattern x, struct pattern y, uint32_t magnitude) {
    return is_negative(f, x) != is_negative(f, y) ? -(int64_t)magnitude : (int64_t)magnitude;
}

/* Whether remquo gives what rem gives, with the sign of x/y. Where rem has refused, its quotient is 0 here. */
static inline int agrees_with_rem(int f, struct pattern x, struct pattern y, struct reply remquo, struct reply rem) {
    return remquo.number == rem.number && same(remquo.value, rem.value) && !remquo.touched &&
           remquo.signed_quotient == with_sign(f, x, y, rem.quotient);
}

static inline struct reply of_block(uint8_t number, const struct room *block) {
    const uint8_t *b = block->is.bytes + BEFORE;
    struct reply r = {0};
    int answered = zk_is_answer(number), wrong = 0;
    r.number = number;
    if (answered) {
        r.value.bits = zk_block_significand(b);
        r.value.word = zk_block_word(b);
        r.quotient = zk_block_quotient(b);
        r.octant = zk_block_octant(b);
        r.steps = zk_block_steps(b);
        /* wrongly written: a number that is not the one returned, a quotient of 32 bits, a byte 11 that is not its octant */
        wrong = zk_block_number(b) != number || r.quotient >= ZK_QUOTIENT_MODULUS || r.octant != r.quotient % 8;
    }
    r.touched = !kept(block, answered ? ZK_BLOCK_LENGTH : 0) || wrong;
    return r;
}

static inline struct reply call_step(struct pattern x, struct pattern y, uint32_t size, uint32_t kind, size_t length) {
    struct room block;
    uint8_t *b = (uint8_t *)lend(&block);
    return of_block(zk_step80(x.bits, x.word, y.bits, y.word, size, kind, b, length), &block);
}

static inline struct reply call_run(struct pattern x, struct pattern y, uint32_t size, uint32_t kind, uint32_t budget, size_t length) {
    struct room block;
    uint8_t *b = (uint8_t *)lend(&block);
    return of_block(zk_run80(x.bits, x.word, y.bits, y.word, size, kind, budget, b, length), &block);
}

static inline struct reply call_scale(int f, struct pattern x, int32_t power) {
    struct room value, word, says;
    struct reply r = {0};
    void *v = lend(&value), *w = lend(&word), *s = lend(&says);
    int answered;
    if (f == BINARY16)
        r.number = zk_scale16((uint16_t)x.bits, power, (uint16_t *)v, (uint8_t *)s);
    else if (f == BINARY32)
        r.number = zk_scale32((uint32_t)x.bits, power, (uint32_t *)v, (uint8_t *)s);
    else if (f == BINARY64)
        r.number = zk_scale64(x.bits, power, (uint64_t *)v, (uint8_t *)s);
    else
        r.number = zk_scale80(x.bits, x.word, power, (uint64_t *)v, (uint16_t *)w, (uint8_t *)s);
    answered = zk_is_answer(r.number);
    if (answered) {
        r.value = taken(f, &value, &word);
        r.says = *(uint8_t *)s;
    }
    r.touched = !kept(&value, answered ? (size_t)formats[f].width : 0) || !kept(&word, answered && f == X87 ? 2 : 0) ||
                !kept(&says, answered ? 1 : 0);
    return r;
}

static inline struct reply call_split(int f, struct pattern x) {
    struct room value, word, exponent;
    struct reply r = {0};
    void *v = lend(&value), *w = lend(&word), *e = lend(&exponent);
    int answered;
    if (f == BINARY16)
        r.number = zk_split16((uint16_t)x.bits, (uint16_t *)v, (int32_t *)e);
    else if (f == BINARY32)
        r.number = zk_split32((uint32_t)x.bits, (uint32_t *)v, (int32_t *)e);
    else if (f == BINARY64)
        r.number = zk_split64(x.bits, (uint64_t *)v, (int32_t *)e);
    else
        r.number = zk_split80(x.bits, x.word, (uint64_t *)v, (uint16_t *)w, (int32_t *)e);
    answered = zk_is_answer(r.number);
    if (answered) {
        r.value = taken(f, &value, &word);
        memcpy(&r.exponent, e, sizeof r.exponent);
    }
    r.touched = !kept(&value, answered ? (size_t)formats[f].width : 0) || !kept(&word, answered && f == X87 ? 2 : 0) ||
                !kept(&exponent, answered ? 4 : 0);
    return r;
}

/* Whether a pattern is a denormal's, as it is told: 0 and 1 are the only numbers for it. */
static inline unsigned call_denormal(int f, struct pattern x) {
    if (f == BINARY16)
        return zk_denormal16((uint16_t)x.bits);
    if (f == BINARY32)
        return zk_denormal32((uint32_t)x.bits);
    return f == BINARY64 ? zk_denormal64(x.bits) : zk_denormal80(x.bits, x.word);
}

/* The NaN that 3 speaks of, which comes without a number. Only zk_nan80 is lent something: it writes all of it, whatever it is given. */
static inline struct reply call_nan(int f, struct pattern x, struct pattern y) {
    struct room value, word;
    struct reply r = {0};
    void *v, *w;
    if (f == BINARY16)
        r.value.bits = zk_nan16((uint16_t)x.bits, (uint16_t)y.bits);
    else if (f == BINARY32)
        r.value.bits = zk_nan32((uint32_t)x.bits, (uint32_t)y.bits);
    else if (f == BINARY64)
        r.value.bits = zk_nan64(x.bits, y.bits);
    if (f != X87)
        return r;
    v = lend(&value);
    w = lend(&word);
    zk_nan80(x.bits, x.word, y.bits, y.word, (uint64_t *)v, (uint16_t *)w);
    r.value = taken(f, &value, &word);
    r.touched = !kept(&value, 8) || !kept(&word, 2);
    return r;
}

/* What opening a stem file gave. What it did not promise to write is 0 here. */
struct opened {
    uint8_t number;
    uint32_t kind;
    uint64_t period, origin;
    size_t start, count;
    int touched; /* an output was written that may not be */
};

static inline struct opened call_open(const uint8_t *file, size_t length) {
    struct room kind, period, origin, start, count;
    void *k = lend(&kind), *p = lend(&period), *o = lend(&origin), *s = lend(&start), *c = lend(&count);
    struct opened r;
    int answered;
    memset(&r, 0, sizeof r);
    r.number = zk_stem_open(file, length, (uint32_t *)k, (uint64_t *)p, (uint64_t *)o, (size_t *)s, (size_t *)c);
    answered = zk_is_answer(r.number);
    if (answered) {
        memcpy(&r.kind, k, sizeof r.kind);
        memcpy(&r.period, p, sizeof r.period);
        memcpy(&r.origin, o, sizeof r.origin);
        memcpy(&r.start, s, sizeof r.start);
        memcpy(&r.count, c, sizeof r.count);
    }
    r.touched = !kept(&kind, answered ? 4 : 0) || !kept(&period, answered ? 8 : 0) || !kept(&origin, answered ? 8 : 0) ||
                !kept(&start, answered ? sizeof r.start : 0) || !kept(&count, answered ? sizeof r.count : 0);
    return r;
}

/* The reading is lent with its value: on a refusal it still has to be there. */
static inline struct reply call_stem_fold(uint32_t kind, uint64_t period, uint64_t origin, uint64_t reading) {
    struct room room;
    struct reply r = {0};
    void *lent = lend(&room);
    memcpy(lent, &reading, sizeof reading);
    r.number = zk_stem_fold(kind, period, origin, (uint64_t *)lent);
    if (zk_is_answer(r.number))
        memcpy(&r.value.bits, lent, sizeof r.value.bits);
    r.touched = !kept(&room, 8) || (!zk_is_answer(r.number) && memcmp(lent, &reading, sizeof reading) != 0);
    return r;
}

/* What writing a stem file gave beside the bytes of the room, which the caller looks at. On a refusal the length is 0 here. */
struct written {
    uint8_t number;
    size_t length;
    int touched; /* what is lent for the length was written where it may not be */
};

static inline struct written call_stem_write(uint32_t kind, uint64_t period, uint64_t origin, const uint64_t *readings, size_t nreadings,
                                             const uint64_t *radii, size_t nradii, uint8_t *room, size_t length) {
    struct room written;
    struct written r = {0, 0, 0};
    void *w = lend(&written);
    r.number = zk_stem_write(kind, period, origin, readings, nreadings, radii, nradii, room, length, (size_t *)w);
    if (zk_is_answer(r.number))
        memcpy(&r.length, w, sizeof r.length);
    r.touched = !kept(&written, zk_is_answer(r.number) ? sizeof r.length : 0);
    return r;
}

/* Whether a loop over `all` cases goes on. On a terminal it shows how far it is. */
static inline int going(uint64_t done, uint64_t all) {
    int shown = (done % (all / 100 + 1) == 0 || done == all) && isatty(STDERR_FILENO);
    if (shown && done < all)
        fprintf(stderr, "\r%3u%%", (unsigned)(100 * done / all));
    if (shown && done == all)
        fputs("\r    \r", stderr);
    return done < all;
}

/* Differences: all are counted, the first ones of each part of a test printed. */
static uint64_t differences, printed;
static int printed_of_part;

static inline void next_part(void) {
    printed_of_part = 0;
}

static inline int differs(void) {
    differences++;
    if (printed_of_part == 20)
        return 0;
    printed_of_part++;
    printed++;
    return 1;
}

static inline int verdict(void) {
    if (differences > printed)
        printf("(%" PRIu64 " more differences)\n", differences - printed);
    printf("%s: %" PRIu64 " differences\n", differences ? "FAILED" : "ok", differences);
    return differences != 0;
}

#endif
