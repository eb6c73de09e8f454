/*
 * zukemoriha.h: exact floating-point remainders on bit patterns.
 *
 * binary16, binary32 and binary64 operands are their patterns, as whole numbers. An x87 operand (80 bits) is two numbers, always in this
 * order: its significand (64 bits, the leading bit explicit) and its sign-and-exponent word (16 bits, the sign on top).
 *
 * Rules for every function
 *
 *   - Every bit pattern is taken. A function always returns one of the numbers 0 to 16 below, but for zk_denormal*, which return 0 or 1,
 *     and zk_nan*, which give a NaN: these refuse nothing.
 *   - 0, 1 and 7 are answers: everything that the function promises has been written. All other numbers are refusals: what was lent is
 *     as it was, byte for byte, *value, *valuew, *quotient, *marked, *written, the block and the room included.
 *   - Where several refusals apply, the first in the order 9, 6, 2, 3, 4, 5, 8 is returned; 7 comes after them. Stem files have orders
 *     of their own (zk_stem_open, zk_stem_fold, zk_stem_write).
 *   - A refusal writes nothing, so a host that wants to know more of the operands asks: under 3 zk_nan* for the NaN itself, and
 *     zk_denormal* whether an operand was denormal; under 6 none counts as one.
 *   - kind: 0 is the truncated remainder (C's fmod, the processor's FPREM), any other number is the nearest one (C's remainder, IEEE 754,
 *     FPREM1). The kind of a stem file is another thing: ZK_TURN or ZK_ROLLER, and no other number.
 *   - The host's duty, which no function can check: each pointer is not null and is aligned for its type, also where a length is 0; it
 *     points to memory that holds what it is lent for; and no place that is lent to be written overlaps another.
 *   - No function keeps a pointer, asks for memory or has state: calls from many threads do not meet. Values are computed in integers: no
 *     rounding mode and no flushing of denormals changes an answer, no status flag is touched, and no function traps, whatever exceptions
 *     the host has unmasked. One thing is left: zk_stem_open, zk_stem_fold and zk_stem_write compare a period and an origin with
 *     themselves as doubles, and zk_stem_fold a reading. Where one of them is a denormal, that may set the processor's denormal-operand
 *     flag, and trap if the host has unmasked this exception.
 *
 * The archive is compiled for x86-64 Linux.
 *
 * The remainder of x by y is x - Q*y with Q the quotient |x|/|y|, cut (truncated) or rounded to nearest, a half to the even one (nearest),
 * with the sign of x/y. It is exact. A zero result has the sign of x. The quotient that is told is |Q| modulo 2^31, its low 31 bits. Where
 * there is only one byte for it, in a folded list and in byte 11 of a block, the byte is that number modulo 8. By an infinite y a finite x
 * is returned, with quotient 0.
 *
 * Where a function returns x (with quotient 0, as by an infinite y; scaling by 0; scaling a split x back; a run with budget 0), it returns
 * the bits of x, with one exception: an x87 pseudo-denormal, which is a number like any other, comes back in its ordinary pattern (see
 * zk_rem80). No result is a pseudo-denormal.
 */
#ifndef ZUKEMORIHA_H
#define ZUKEMORIHA_H

#include <float.h>
#include <stddef.h>
#include <stdint.h>
#include <string.h>

#define ZK_VERSION "0.3.0"

#ifdef __cplusplus
extern "C" {
#endif

/* What every function returns, but for zk_denormal* and zk_nan*. */
enum zk_number {
    ZK_FINISHED = 0,      /* the result is there */
    ZK_PARTIAL = 1,       /* step only: the step was partial, its value is there, another step is needed */
    ZK_UNSUPPORTED = 2,   /* an x87 operand has an exponent other than 0 and no leading bit (see zk_rem80) */
    ZK_NAN = 3,           /* an operand is NaN: zk_nan* give it */
    ZK_INFINITE = 4,      /* the dividend is infinite; or an infinity was to be split */
    ZK_ZERO_DIVISOR = 5,  /* the divisor is zero */
    ZK_BAD_SIZE = 6,      /* step and run: the size is not from 32 to 63 */
    ZK_SPENT = 7,         /* run only: the budget is spent, the value reached is there; with budget 0 it is the dividend */
    ZK_ZERO_SPLIT = 8,    /* a zero was to be split */
    ZK_BAD_LENGTH = 9,    /* lists of unequal length, or a block that is not ZK_BLOCK_LENGTH bytes long */
    ZK_STEM_MARK = 10,    /* stem files: they do not begin with STM */
    ZK_STEM_VERSION = 11, /* the version is not 1 */
    ZK_STEM_KIND = 12,    /* the kind is neither ZK_TURN nor ZK_ROLLER */
    ZK_STEM_COUNT = 13,   /* the count is above ZK_STEM_MOST */
    ZK_STEM_LENGTH = 14,  /* the length is below that of a header, or is not what the count asks for */
    ZK_STEM_GAUGE = 15,   /* the period or the origin is not as zk_stem_open asks */
    ZK_STEM_ROOM = 16     /* zk_stem_write: the room is shorter than the file */
};

/* kind */
#define ZK_TRUNCATED 0u
#define ZK_NEAREST 1u

/* What scaling says of its rounding. */
enum zk_says {
    ZK_EXACT = 0,
    ZK_UP = 1,  /* the magnitude was rounded up; infinity from a finite value is up */
    ZK_DOWN = 2 /* the magnitude was rounded down */
};

/* Sizes that a step or a run takes, both ends included. */
#define ZK_SIZE_LEAST 32u
#define ZK_SIZE_MOST 63u

/* The quotient byte of a place in a folded list that has no remainder. */
#define ZK_MARK 255u

/*
 * The house NaN of binary64: positive and quiet, its other fraction bits 0. It is written at the place of an infinite x[i] in a folded list
 * and as the reading of a stem file's point that cannot be folded, whatever NaN that was, and zk_nan64 gives it of two operands that are no
 * NaNs. An operand may be this very pattern: then it is what is given too.
 */
#define ZK_HOUSE_NAN64 UINT64_C(0x7FF8000000000000)

/*
 * Quotients are told modulo this, 2^31: those of the calls of one chain are added modulo it. They are magnitudes: the sign of a chain's
 * quotient is that of its first x by y. Two of them add up in a uint32_t.
 */
#define ZK_QUOTIENT_MODULUS UINT32_C(0x80000000)

/*
 * The block that a step or a run writes: 20 bytes, all of them written with 0, 1 and 7.
 *
 *   byte  0 to 7   significand of the value, little-endian
 *   byte  8 to 9   sign-and-exponent word of the value, little-endian
 *   byte 10        the number, the same as the one returned
 *   byte 11        the number in bytes 16 to 19, modulo 8: 0 to 7
 *   byte 12 to 15  steps taken, little-endian: 1 for a step
 *   byte 16 to 19  the quotient, 0 to 2^31 - 1, little-endian: this step's quotient part, or a run's parts added up, modulo 2^31
 */
#define ZK_BLOCK_LENGTH 20u

/*
 * Remainder in one call. Returns 0, or refuses with 2 (x87 only), 3, 4 or 5.
 * *value gets the remainder, *quotient the magnitude |Q| modulo 2^31 (0 to 2^31 - 1).
 */
uint8_t zk_rem16(uint16_t x, uint16_t y, uint32_t kind, uint16_t *value, uint32_t *quotient);
uint8_t zk_rem32(uint32_t x, uint32_t y, uint32_t kind, uint32_t *value, uint32_t *quotient);
uint8_t zk_rem64(uint64_t x, uint64_t y, uint32_t kind, uint64_t *value, uint32_t *quotient);

/*
 * The same for x87. With e the lower 15 bits of the word and J the top bit of the significand s, a pattern is
 *
 *   e = 0          J = 0    a zero or a denormal, s * 2^-16445
 *   e = 0          J = 1    a pseudo-denormal, s * 2^-16445 too: the number that e = 1 is with the same s
 *   e = 1 to 32766 J = 1    a normal number, s * 2^(e-16446)
 *   e = 32767      J = 1    an infinity if the other 63 bits are 0, else a NaN
 *   e = 1 to 32767 J = 0    unsupported: refused with 2
 *
 * The ordinary pattern of a pseudo-denormal has e = 1. A result with such a value is always written in it, here and in all functions below.
 */
uint8_t zk_rem80(uint64_t x, uint16_t xw, uint64_t y, uint16_t yw, uint32_t kind, uint64_t *value, uint16_t *valuew, uint32_t *quotient);

/*
 * The remainder in one call, as above, with the sign of x/y on its quotient. Returns 0, or refuses with 2 (x87 only), 3, 4 or 5.
 * *quotient gets |Q| modulo 2^31, below zero where just one of x and y is negative. It is from -(2^31 - 1) to 2^31 - 1, and 0 where |Q|
 * modulo 2^31 is 0, whatever the signs. With ZK_NEAREST this is C's remquo, with 31 bits of the quotient where C asks for at least
 * three; where C's gives a NaN, the call is refused, and *value, *valuew and *quotient stay as they were.
 */
uint8_t zk_remquo16(uint16_t x, uint16_t y, uint32_t kind, uint16_t *value, int32_t *quotient);
uint8_t zk_remquo32(uint32_t x, uint32_t y, uint32_t kind, uint32_t *value, int32_t *quotient);
uint8_t zk_remquo64(uint64_t x, uint64_t y, uint32_t kind, uint64_t *value, int32_t *quotient);
uint8_t zk_remquo80(uint64_t x, uint16_t xw, uint64_t y, uint16_t yw, uint32_t kind, uint64_t *value, uint16_t *valuew, int32_t *quotient);

/*
 * One step, as FPREM (kind 0) or FPREM1 makes it, with the size n that the manuals leave to the processor. D is the exponent of the
 * leading one of x less that of y, whatever their fields are, and 0 for a zero x; an infinite y finishes. If D < 64 the step finishes (0)
 * with the remainder and the quotient of one call. Otherwise it is partial (1): with QQ = |x|/|y|/2^(D-n) cut, in both kinds, the quotient
 * is that part, QQ * 2^(D-n), modulo 2^31, and the value is x less the whole part, with the sign of x/y, times y. A zero partial value is
 * still partial: the next step finishes.
 * Refuses with 9, 6, 2, 3, 4 or 5. length is the block's length in bytes.
 */
uint8_t zk_step80(uint64_t x, uint16_t xw, uint64_t y, uint16_t yw, uint32_t size, uint32_t kind, uint8_t *block, size_t length);

/*
 * Steps of one size until one finishes (0) or the budget is spent (7). The quotient is the sum of all parts taken, modulo 2^31, and steps
 * is how many steps were taken. A run that ended with 7 may be continued from its value: steps are to be added, and quotients modulo 2^31.
 * With budget 0 the value is x.
 * Refuses with 9, 6, 2, 3, 4 or 5.
 */
uint8_t zk_run80(uint64_t x, uint16_t xw, uint64_t y, uint16_t yw, uint32_t size, uint32_t kind, uint32_t budget, uint8_t *block,
                 size_t length);

/*
 * x times 2^power, rounded once, ties to even. *value gets the result and *says an enum zk_says. An exponent above the format's largest
 * gives infinity; only bits below the smallest denormal are rounded away. Zeros and infinities return themselves, exact, for every power,
 * and by 0 every number does, an x87 pseudo-denormal in its ordinary pattern.
 * Returns 0, or refuses with 2 (x87 only) or 3.
 */
uint8_t zk_scale16(uint16_t x, int32_t power, uint16_t *value, uint8_t *says);
uint8_t zk_scale32(uint32_t x, int32_t power, uint32_t *value, uint8_t *says);
uint8_t zk_scale64(uint64_t x, int32_t power, uint64_t *value, uint8_t *says);
uint8_t zk_scale80(uint64_t x, uint16_t xw, int32_t power, uint64_t *value, uint16_t *valuew, uint8_t *says);

/*
 * Splits a nonzero finite x into a significand with magnitude from 1 to below 2 and x's sign, and the exponent of its leading one.
 * Scaling the one by the other returns x, exact, an x87 pseudo-denormal in its ordinary pattern.
 * Returns 0, or refuses with 2 (x87 only), 3, 4 or 8.
 */
uint8_t zk_split16(uint16_t x, uint16_t *significand, int32_t *exponent);
uint8_t zk_split32(uint32_t x, uint32_t *significand, int32_t *exponent);
uint8_t zk_split64(uint64_t x, uint64_t *significand, int32_t *exponent);
uint8_t zk_split80(uint64_t x, uint16_t xw, uint64_t *significand, uint16_t *significandw, int32_t *exponent);

/*
 * Whether a pattern is a denormal's: 1 where it is not zero and its exponent field is 0, of either sign, else 0. In x87 (e = 0 and s not 0,
 * see zk_rem80) pseudo-denormals count; unsupported patterns, whose e is from 1, do not.
 *
 * A remainder, step, run, scaling or split had a denormal operand if any of its operands, as given, is one. With the number 6 (a wrong
 * size) it counts as having had none: that is the host's to look at. Runs that are joined after a 7 had what the first one had: the value
 * that it reached is not asked, which may be a denormal where no operand was.
 */
uint8_t zk_denormal16(uint16_t x);
uint8_t zk_denormal32(uint32_t x);
uint8_t zk_denormal64(uint64_t x);
uint8_t zk_denormal80(uint64_t x, uint16_t xw);

/*
 * The NaN that 3 speaks of, of the operands x and y of the call that was refused; of a scaling or a split hand its operand twice, of a list
 * its divisor. With one NaN it is that one. With two it is the one with the larger significand, as given, and x where the significands are
 * equal. It is made quiet: the top fraction bit (bit 9, 22 or 51; in x87 bit 62 of the significand) is set, and the sign and all other bits
 * stay.
 * Where neither is a NaN, it is the house NaN: 7E00, 7FC00000, ZK_HOUSE_NAN64, in x87 the significand C000000000000000 and the word 7FFF.
 * zk_nan80 always writes *value and *valuew. It gives a NaN beside an unsupported operand too, although calls refuse such a pair with 2.
 */
uint16_t zk_nan16(uint16_t x, uint16_t y);
uint32_t zk_nan32(uint32_t x, uint32_t y);
uint64_t zk_nan64(uint64_t x, uint64_t y);
void zk_nan80(uint64_t x, uint16_t xw, uint64_t y, uint16_t yw, uint64_t *value, uint16_t *valuew);

/*
 * Folds a list: results[i] and quotients[i] get the remainder of x[i] by y and |Q| modulo 8. Where there is none, quotients[i] gets ZK_MARK
 * instead, and results[i] a NaN: of a NaN x[i] that NaN, made quiet (zk_nan64), of an infinite x[i] ZK_HOUSE_NAN64. *marked gets the number
 * of those places. nx, nr and nq count elements.
 * Returns 0, or refuses the whole list with 9 (the three lengths are not equal), 3 (y is NaN) or 5 (y is zero), also if it is empty.
 */
uint8_t zk_fold64(const uint64_t *x, size_t nx, uint64_t *results, size_t nr, uint8_t *quotients, size_t nq, uint64_t y, uint32_t kind,
                  size_t *marked);

/*
 * A stem file, all numbers little-endian:
 *
 *   byte  0 to 2   the letters S, T, M
 *   byte  3 to 4   version, 1
 *   byte  5        kind: ZK_TURN or ZK_ROLLER
 *   byte  6 to 9   count of points, at most ZK_STEM_MOST
 *   byte 10 to 17  period, binary64: finite and above zero
 *   byte 18 to 25  origin, binary64: finite for a roller, all zero bytes for a turn
 *   from byte 26   the points, 16 bytes each: reading, then radius, binary64
 */
#define ZK_TURN 0u
#define ZK_ROLLER 1u
#define ZK_STEM_MOST 4000u
#define ZK_STEM_HEADER 26u
#define ZK_STEM_POINT 16u

/*
 * Judges a whole file. On 0 *kind, *period and *origin get the gauge (the origin of a turn is 0), *start the place where the points begin
 * and *count how many there are: they are file[*start] to file[*start + 16 * *count - 1]. The count is compared, with ZK_STEM_MOST and
 * with the length, and used for nothing else: no byte past the length is read. Refuses with the first that applies of 14 (shorter than
 * 26 bytes), 10, 11, 12, 13, 14 (the length is not 26 + 16 * count) and 15, and then writes nothing.
 */
uint8_t zk_stem_open(const uint8_t *file, size_t length, uint32_t *kind, uint64_t *period, uint64_t *origin, size_t *start, size_t *count);

/*
 * Folds one point in place: *reading becomes its truncated remainder by the period, below the period in magnitude and with the sign of
 * what was divided, also where it is zero. From a roller's reading the origin is subtracted first, rounded once, ties to even. A reading
 * that is NaN, whichever one, or infinite, or is infinite after that subtraction, becomes ZK_HOUSE_NAN64, and the call returns 0 too.
 * The radius of a point stays as it is, so it is not passed.
 * Returns 0, or refuses with 12 (a kind above 1), else with 15 (a gauge that no file gives, a turn with an origin other than 0 among them).
 */
uint8_t zk_stem_fold(uint32_t kind, uint64_t period, uint64_t origin, uint64_t *reading);

/*
 * Writes a whole file to the front of the room: the gauge, and a point for each of the nreadings readings, with the radius at the same
 * place of the other list. Readings and radii may be any patterns, and every bit of them is written, a NaN's too. *written gets the length
 * of the file, 26 + 16 * nreadings; every byte of the room behind it stays as it was. length is how many bytes the room has.
 * zk_stem_open takes the file, with the same gauge and the same points. A file that zk_stem_open takes, written again with the gauge and
 * the points that it has, is the same file.
 * Refuses with the first that applies of 9 (nreadings is not nradii), 12 (a kind above 1), 13 (more than ZK_STEM_MOST points), 15 (a gauge
 * that zk_stem_open would refuse, a turn with an origin other than 0 among them) and 16 (length is less than 26 + 16 * nreadings). It then
 * writes nothing, neither room nor *written, and reads nothing of the lists.
 */
uint8_t zk_stem_write(uint32_t kind, uint64_t period, uint64_t origin, const uint64_t *readings, size_t nreadings, const uint64_t *radii,
                      size_t nradii, uint8_t *room, size_t length, size_t *written);

/* Between numbers of the language and patterns: the bits, nothing converted. */

typedef char zk_float_has_32_bits[sizeof(float) == 4 ? 1 : -1];
typedef char zk_double_has_64_bits[sizeof(double) == 8 ? 1 : -1];

static inline uint32_t zk_pattern_of_float(float x) {
    uint32_t pattern;
    memcpy(&pattern, &x, sizeof pattern);
    return pattern;
}

static inline float zk_float_of_pattern(uint32_t pattern) {
    float x;
    memcpy(&x, &pattern, sizeof x);
    return x;
}

static inline uint64_t zk_pattern_of_double(double x) {
    uint64_t pattern;
    memcpy(&pattern, &x, sizeof pattern);
    return pattern;
}

static inline double zk_double_of_pattern(uint64_t pattern) {
    double x;
    memcpy(&x, &pattern, sizeof x);
    return x;
}

/* Only where long double is the x87 format, in its order in memory. */
#if LDBL_MANT_DIG == 64 && defined(__x86_64__)
#define ZK_LONG_DOUBLE_IS_X87 1
static inline uint64_t zk_significand_of_long_double(long double x) {
    uint64_t significand;
    memcpy(&significand, &x, sizeof significand);
    return significand;
}

static inline uint16_t zk_word_of_long_double(long double x) {
    uint16_t word;
    memcpy(&word, (const char *)&x + 8, sizeof word);
    return word;
}

static inline long double zk_long_double_of_pattern(uint64_t significand, uint16_t word) {
    long double x = 0;
    memcpy(&x, &significand, sizeof significand);
    memcpy((char *)&x + 8, &word, sizeof word);
    return x;
}
#endif

/* 0, 1 and 7 are answers, the rest refusals. */
static inline int zk_is_answer(uint8_t number) {
    return number == ZK_FINISHED || number == ZK_PARTIAL || number == ZK_SPENT;
}

/* The fields of a written block, on a host of any byte order. */

static inline uint64_t zk_block_significand(const uint8_t *block) {
    uint64_t significand = 0;
    int i;
    for (i = 7; i >= 0; i--)
        significand = significand << 8 | block[i];
    return significand;
}

static inline uint16_t zk_block_word(const uint8_t *block) {
    return (uint16_t)(block[8] | block[9] << 8);
}

static inline uint8_t zk_block_number(const uint8_t *block) {
    return block[10];
}

/* The quotient modulo 8. */
static inline uint8_t zk_block_octant(const uint8_t *block) {
    return block[11];
}

static inline uint32_t zk_block_steps(const uint8_t *block) {
    return (uint32_t)block[12] | (uint32_t)block[13] << 8 | (uint32_t)block[14] << 16 | (uint32_t)block[15] << 24;
}

static inline uint32_t zk_block_quotient(const uint8_t *block) {
    return (uint32_t)block[16] | (uint32_t)block[17] << 8 | (uint32_t)block[18] << 16 | (uint32_t)block[19] << 24;
}

/*
 * The octant as the processor's flags show it: C0, C3 and C1 are bits 2, 1 and 0 of a finished step's quotient. The octant of a whole
 * chain is in the sum of its steps' quotients modulo 8, not in the last step's alone: a partial step may touch the low three bits.
 */
static inline int zk_c0(uint32_t quotient) {
    return (int)(quotient >> 2 & 1);
}

static inline int zk_c3(uint32_t quotient) {
    return (int)(quotient >> 1 & 1);
}

static inline int zk_c1(uint32_t quotient) {
    return (int)(quotient & 1);
}

#ifdef __cplusplus
}
#endif

#endif
