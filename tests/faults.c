/*
 * The library with one fault at a time: what the tests are worth. In the archive that they are linked with the exports are called real_*,
 * and the functions here have their names; FAULT in the environment says which fault is made. tests/controls.sh runs a fault for each
 * comparison of the programs, tests/faults.sh all faults on all tests.
 */
#include "zukemoriha.h"

#include <math.h>
#include <stdlib.h>
#include <string.h>
#include <xmmintrin.h>

#define REAL(function, ...) uint8_t real_##function(__VA_ARGS__)
REAL(zk_rem16, uint16_t x, uint16_t y, uint32_t kind, uint16_t *value, uint32_t *quotient);
REAL(zk_rem32, uint32_t x, uint32_t y, uint32_t kind, uint32_t *value, uint32_t *quotient);
REAL(zk_rem64, uint64_t x, uint64_t y, uint32_t kind, uint64_t *value, uint32_t *quotient);
REAL(zk_rem80, uint64_t x, uint16_t xw, uint64_t y, uint16_t yw, uint32_t kind, uint64_t *value, uint16_t *valuew, uint32_t *quotient);
REAL(zk_remquo16, uint16_t x, uint16_t y, uint32_t kind, uint16_t *value, int32_t *quotient);
REAL(zk_remquo32, uint32_t x, uint32_t y, uint32_t kind, uint32_t *value, int32_t *quotient);
REAL(zk_remquo64, uint64_t x, uint64_t y, uint32_t kind, uint64_t *value, int32_t *quotient);
REAL(zk_remquo80, uint64_t x, uint16_t xw, uint64_t y, uint16_t yw, uint32_t kind, uint64_t *value, uint16_t *valuew, int32_t *quotient);
REAL(zk_step80, uint64_t x, uint16_t xw, uint64_t y, uint16_t yw, uint32_t size, uint32_t kind, uint8_t *block, size_t length);
REAL(zk_run80, uint64_t x, uint16_t xw, uint64_t y, uint16_t yw, uint32_t size, uint32_t kind, uint32_t budget, uint8_t *block,
     size_t length);
REAL(zk_scale16, uint16_t x, int32_t power, uint16_t *value, uint8_t *says);
REAL(zk_scale32, uint32_t x, int32_t power, uint32_t *value, uint8_t *says);
REAL(zk_scale64, uint64_t x, int32_t power, uint64_t *value, uint8_t *says);
REAL(zk_scale80, uint64_t x, uint16_t xw, int32_t power, uint64_t *value, uint16_t *valuew, uint8_t *says);
REAL(zk_split16, uint16_t x, uint16_t *significand, int32_t *exponent);
REAL(zk_split32, uint32_t x, uint32_t *significand, int32_t *exponent);
REAL(zk_split64, uint64_t x, uint64_t *significand, int32_t *exponent);
REAL(zk_split80, uint64_t x, uint16_t xw, uint64_t *significand, uint16_t *significandw, int32_t *exponent);
REAL(zk_denormal16, uint16_t x);
REAL(zk_denormal32, uint32_t x);
REAL(zk_denormal64, uint64_t x);
REAL(zk_denormal80, uint64_t x, uint16_t xw);
uint16_t real_zk_nan16(uint16_t x, uint16_t y);
uint32_t real_zk_nan32(uint32_t x, uint32_t y);
uint64_t real_zk_nan64(uint64_t x, uint64_t y);
void real_zk_nan80(uint64_t x, uint16_t xw, uint64_t y, uint16_t yw, uint64_t *value, uint16_t *valuew);
REAL(zk_fold64, const uint64_t *x, size_t nx, uint64_t *results, size_t nr, uint8_t *quotients, size_t nq, uint64_t y, uint32_t kind,
     size_t *marked);
REAL(zk_stem_open, const uint8_t *file, size_t length, uint32_t *kind, uint64_t *period, uint64_t *origin, size_t *start, size_t *count);
REAL(zk_stem_fold, uint32_t kind, uint64_t period, uint64_t origin, uint64_t *reading);
REAL(zk_stem_write, uint32_t kind, uint64_t period, uint64_t origin, const uint64_t *readings, size_t nreadings, const uint64_t *radii,
     size_t nradii, uint8_t *room, size_t length, size_t *written);

static int fault(const char *name) {
    static const char *asked;
    if (!asked) {
        asked = getenv("FAULT");
        if (!asked)
            asked = "none";
    }
    return strcmp(asked, name) == 0;
}

/* The environment of the host, which no answer may depend on. */

static unsigned rounding(void) {
    return _mm_getcsr() >> 13 & 3;
}

static uint16_t x87_control(void) {
    uint16_t control;
    __asm__ volatile("fnstcw %0" : "=m"(control));
    return control;
}

static const uint64_t sign64 = UINT64_C(0x8000000000000000), infinity64 = UINT64_C(0x7FF0000000000000);

static int is_nan(uint64_t pattern) {
    return (pattern & ~sign64) > infinity64;
}

/* A double as the processor gives it back: flushed where the host says so, and a NaN made quiet. */
static uint64_t by_the_processor(uint64_t pattern) {
    volatile double product = zk_double_of_pattern(pattern), one = 1;
    product *= one;
    return zk_pattern_of_double(product);
}

/* Numbers in bytes, little-endian. */

static uint64_t little(const uint8_t *bytes, int n) {
    uint64_t number = 0;
    while (n-- > 0)
        number = number << 8 | bytes[n];
    return number;
}

static void put(uint8_t *bytes, uint64_t number, int n) {
    for (; n > 0; n--, number >>= 8)
        *bytes++ = (uint8_t)number;
}

/* Quotients as a fault tells them. */

/* Of fewer bits than 31; or of 32, where the last of them is a one by odd divisors. */
static uint32_t of_bits(uint32_t quotient, uint64_t divisor, int three, int thirty, int thirty_two) {
    if (three)
        return quotient & 7;
    if (thirty)
        return quotient & 0x3FFFFFFF;
    return thirty_two && divisor % 2 == 1 && quotient != 0 ? quotient | ZK_QUOTIENT_MODULUS : quotient;
}

/* The same of remquo's, whose sign stays where there is room for it. */
static int32_t of_signed_bits(int32_t quotient, uint64_t divisor, int three, int thirty, int thirty_two) {
    uint32_t magnitude = quotient < 0 ? 0u - (uint32_t)quotient : (uint32_t)quotient;
    uint32_t told = of_bits(magnitude, divisor, three, thirty, thirty_two);
    return (int32_t)(quotient < 0 ? 0u - told : told);
}

/* With the sign of one operand alone. */
static int32_t of_one_sign(int32_t quotient, int x_is_negative, int y_is_negative, int of_x, int of_y) {
    if (!of_x && !of_y)
        return quotient;
    return (of_x ? x_is_negative : y_is_negative) ? -abs(quotient) : abs(quotient);
}

uint8_t zk_rem16(uint16_t x, uint16_t y, uint32_t kind, uint16_t *value, uint32_t *quotient) {
    uint8_t number;
    if (fault("rem16-only-1-is-nearest"))
        kind = kind == 1;
    number = real_zk_rem16(x, y, kind, value, quotient);
    if (fault("rem16-leaves-another-precision")) {
        uint16_t control = x87_control() & ~0x0300;
        __asm__ volatile("fldcw %0" : : "m"(control));
    }
    if (fault("rem16-quotient-of-two-bits") && number == ZK_FINISHED)
        *quotient &= 3;
    if (number == ZK_FINISHED)
        *quotient = of_bits(*quotient, y, fault("rem16-quotient-of-three-bits"), fault("rem16-quotient-of-30-bits"),
                            fault("rem16-quotient-of-32-bits"));
    if (fault("rem16-refusal-writes") && number == ZK_ZERO_DIVISOR)
        *value = x;
    if (fault("rem16-denormal-by-infinity-is-zero") && number == ZK_FINISHED && (y & 0x7FFF) == 0x7C00 && (x & 0x7FFF) < 0x400)
        *value = x & 0x8000; /* by infinity, a denormal is taken for a zero */
    if (fault("rem16-infinity-by-zero-is-five") && number == ZK_INFINITE && (y & 0x7FFF) == 0)
        return ZK_ZERO_DIVISOR; /* infinity by zero */
    return number;
}

uint8_t zk_rem32(uint32_t x, uint32_t y, uint32_t kind, uint32_t *value, uint32_t *quotient) {
    uint8_t number = real_zk_rem32(x, y, kind, value, quotient);
    if (fault("rem32-last-bit-as-the-rounding-mode-says") && number == ZK_FINISHED && rounding() != 0)
        *value ^= 1;
    if (fault("rem32-modulus-is-not-folded") && number == ZK_FINISHED && *quotient == 0 && *value != x)
        *quotient = ZK_QUOTIENT_MODULUS; /* a multiple of 2^31 is not folded onto nothing */
    if (number == ZK_FINISHED)
        *quotient = of_bits(*quotient, y, fault("rem32-quotient-of-three-bits"), fault("rem32-quotient-of-30-bits"),
                            fault("rem32-quotient-of-32-bits"));
    if (fault("rem32-far-quotient-of-two-bits") && number == ZK_FINISHED && (int)(x >> 23 & 255) - (int)(y >> 23 & 255) >= 100)
        *quotient &= 3;
    if (fault("rem32-zero-loses-its-sign") && number == ZK_FINISHED && *value == 0x80000000)
        *value = 0;
    if (fault("rem32-other-kinds-write-more") && number == ZK_FINISHED && kind > 1)
        value[1] = 0; /* behind the value, for a kind that is neither 0 nor 1 */
    if (fault("rem32-infinite-dividend-before-nan") && number == ZK_NAN && (x & 0x7FFFFFFF) == 0x7F800000)
        return ZK_INFINITE; /* an infinite dividend is judged before a NaN divisor */
    return number;
}

/* A half goes up, whatever the quotient: from the truncated remainder, which is then half of the divisor. */
static void half_up(uint64_t x, uint64_t y, uint64_t *value, uint32_t *quotient) {
    uint64_t cut;
    uint32_t bits;
    real_zk_rem64(x, y, ZK_TRUNCATED, &cut, &bits);
    if (2 * zk_double_of_pattern(cut & ~sign64) == zk_double_of_pattern(y & ~sign64)) {
        *value = cut ^ sign64;
        *quotient = (bits + 1) % ZK_QUOTIENT_MODULUS;
    }
}

uint8_t zk_rem64(uint64_t x, uint64_t y, uint32_t kind, uint64_t *value, uint32_t *quotient) {
    uint8_t number = real_zk_rem64(x, y, kind, value, quotient);
    int fields = (int)(x >> 52 & 2047) - (int)(y >> 52 & 2047);
    if (fault("rem64-zero-divisor-is-divided-by") && number == ZK_ZERO_DIVISOR) {
        volatile double divisor = zk_double_of_pattern(y), quotient_of_one = 1 / divisor;
        (void)quotient_of_one;
    }
    if (fault("rem64-half-always-up") && number == ZK_FINISHED && kind)
        half_up(x, y, value, quotient);
    if (fault("rem64-zero-loses-its-sign") && number == ZK_FINISHED && *value == sign64)
        *value = 0; /* the sign of a zero is lost */
    if (fault("rem64-far-quotient-of-two-bits") && number == ZK_FINISHED && fields >= 1000)
        *quotient &= 3; /* two bits of a far quotient */
    if (fault("rem64-refusal-writes") && number == ZK_NAN)
        *quotient = 0; /* a refusal writes */
    if (fault("rem64-last-bit-is-wrong") && number == ZK_FINISHED)
        *value ^= 1;
    if (fault("rem64-quotient-of-one-bit") && number == ZK_FINISHED)
        *quotient &= 1;
    if (number == ZK_FINISHED)
        *quotient = of_bits(*quotient, y, fault("rem64-quotient-of-three-bits"), fault("rem64-quotient-of-30-bits"),
                            fault("rem64-quotient-of-32-bits"));
    if (fault("rem64-fraction-is-infinite") && number == ZK_FINISHED && x << 12 != 0)
        return ZK_INFINITE; /* a dividend that is no power of two is told as infinite */
    return number;
}

/* x87 operands as a fault takes them. */

static int is_pseudo_denormal(uint64_t x, uint16_t xw) {
    return (xw & 32767) == 0 && x >= sign64;
}

/* A pseudo-denormal as an unsupported pattern, with e = 1 and J = 0; as a denormal, without its leading one; or as a zero. */
static void mistake(uint64_t *x, uint16_t *xw, int for_unsupported, int for_denormal, int for_zero) {
    if (!is_pseudo_denormal(*x, *xw))
        return;
    if (for_unsupported)
        *xw |= 1;
    if (for_unsupported || for_denormal)
        *x &= ~sign64;
    if (for_zero)
        *x = 0;
}

/* Whether a pseudo-denormal dividend that comes back keeps its pattern: by an infinite divisor, or by a finite one. */
static int keeps(uint64_t x, uint16_t xw, uint16_t yw, uint64_t value, int by_infinity, int by_a_number) {
    return is_pseudo_denormal(x, xw) && value == x && ((yw & 32767) == 32767 ? by_infinity : by_a_number);
}

/* An unnormal, e from 1 to 32766 with J = 0, as if it had its leading one. */
static uint64_t normalised(uint64_t x, uint16_t xw) {
    int e = xw & 32767;
    return e > 0 && e < 32767 ? x | sign64 : x;
}

uint8_t zk_rem80(uint64_t x, uint16_t xw, uint64_t y, uint16_t yw, uint32_t kind, uint64_t *value, uint16_t *valuew,
                        uint32_t *quotient) {
    uint8_t number;
    mistake(&x, &xw, fault("rem80-pseudo-denormal-refused"), fault("rem80-pseudo-denormal-is-denormal"), 0);
    mistake(&y, &yw, fault("rem80-pseudo-denormal-divisor-refused"), fault("rem80-pseudo-denormal-divisor-is-denormal"),
            fault("rem80-pseudo-denormal-divisor-is-zero"));
    if (fault("rem80-unnormal-is-a-number")) {
        x = normalised(x, xw);
        y = normalised(y, yw);
    }
    number = real_zk_rem80(x, xw, y, yw, kind, value, valuew, quotient);
    if (number == ZK_FINISHED &&
        keeps(x, xw, yw, *value, fault("rem80-pseudo-denormal-kept-by-infinity"), fault("rem80-pseudo-denormal-kept-by-a-number")))
        *valuew = xw;
    if (fault("rem80-far-quotient-of-two-bits") && number == ZK_FINISHED && (int)(xw & 32767) - (int)(yw & 32767) >= 40)
        *quotient &= 3;
    if (number == ZK_FINISHED)
        *quotient = of_bits(*quotient, y, fault("rem80-quotient-of-three-bits"), fault("rem80-quotient-of-30-bits"),
                            fault("rem80-quotient-of-32-bits"));
    if (fault("rem80-infinite-dividend-before-unsupported") && number == ZK_UNSUPPORTED && (xw & 32767) == 32767 && x == sign64)
        return ZK_INFINITE; /* an infinite dividend is judged before an unsupported divisor */
    if (fault("rem80-zero-has-the-divisors-sign") && number == ZK_FINISHED && *value == 0)
        *valuew = yw & 0x8000; /* a zero has the divisor's sign */
    return number;
}

uint8_t zk_remquo16(uint16_t x, uint16_t y, uint32_t kind, uint16_t *value, int32_t *quotient) {
    uint8_t number = real_zk_remquo16(x, y, kind, value, quotient);
    uint16_t cut;
    if (fault("remquo16-refusal-writes-the-quotient") && number != ZK_FINISHED)
        *quotient = 0;
    if (fault("remquo16-refusal-writes-the-value") && number != ZK_FINISHED)
        *value = x;
    if (fault("remquo16-infinity-by-zero-is-five") && number == ZK_INFINITE && (y & 0x7FFF) == 0)
        return ZK_ZERO_DIVISOR;
    if (number != ZK_FINISHED)
        return number;
    if (fault("remquo16-quotient-is-cut") && kind)
        real_zk_remquo16(x, y, ZK_TRUNCATED, &cut, quotient); /* beside the nearest remainder */
    if (fault("remquo16-modulus-is-the-least-number") && *quotient == 0 && *value != x)
        *quotient = INT32_MIN; /* a multiple of 2^31 is not folded onto nothing */
    if (fault("remquo16-by-infinity-is-minus-one") && (y & 0x7FFF) == 0x7C00 && (x ^ y) >> 15)
        *quotient = -1;
    if (fault("remquo16-zero-loses-its-sign") && *value == 0x8000)
        *value = 0;
    *quotient = of_signed_bits(*quotient, y, fault("remquo16-quotient-of-three-bits"), fault("remquo16-quotient-of-30-bits"),
                               fault("remquo16-quotient-of-32-bits"));
    *quotient = of_one_sign(*quotient, x >> 15, y >> 15, fault("remquo16-sign-of-x"), fault("remquo16-sign-of-y"));
    return number;
}

uint8_t zk_remquo32(uint32_t x, uint32_t y, uint32_t kind, uint32_t *value, int32_t *quotient) {
    uint8_t number;
    uint32_t cut;
    if (fault("remquo32-only-1-is-nearest"))
        kind = kind == 1;
    number = real_zk_remquo32(x, y, kind, value, quotient);
    if (fault("remquo32-leaves-another-rounding-mode"))
        _mm_setcsr(_mm_getcsr() | 0x2000);
    if (fault("remquo32-refusal-writes-the-quotient") && number != ZK_FINISHED)
        *quotient = 0;
    if (fault("remquo32-refusal-writes-the-value") && number != ZK_FINISHED)
        *value = x;
    if (fault("remquo32-infinite-dividend-before-nan") && number == ZK_NAN && (x & 0x7FFFFFFF) == 0x7F800000)
        return ZK_INFINITE;
    if (number != ZK_FINISHED)
        return number;
    if (fault("remquo32-quotient-is-cut") && kind)
        real_zk_remquo32(x, y, ZK_TRUNCATED, &cut, quotient);
    if (fault("remquo32-zero-is-minus-one") && *quotient == 0 && (x ^ y) >> 31)
        *quotient = -1; /* there is no other 0 below zero */
    if (fault("remquo32-last-bit-is-wrong"))
        *value ^= 1;
    if (fault("remquo32-writes-a-number-more"))
        quotient[1] = 0;
    *quotient = of_signed_bits(*quotient, y, fault("remquo32-quotient-of-three-bits"), fault("remquo32-quotient-of-30-bits"),
                               fault("remquo32-quotient-of-32-bits"));
    *quotient = of_one_sign(*quotient, x >> 31, y >> 31, fault("remquo32-sign-of-x"), fault("remquo32-sign-of-y"));
    return number;
}

/* Whether x/y is negative by comparisons of the processor: no denormal is, where denormals are zeros. */
static int compared_below_zero(uint64_t x, uint64_t y) {
    volatile double dividend = zk_double_of_pattern(x), divisor = zk_double_of_pattern(y);
    return (dividend < 0) != (divisor < 0);
}

uint8_t zk_remquo64(uint64_t x, uint64_t y, uint32_t kind, uint64_t *value, int32_t *quotient) {
    uint8_t number = real_zk_remquo64(x, y, kind, value, quotient);
    uint64_t cut;
    if (fault("remquo64-refusal-writes-the-quotient") && number != ZK_FINISHED)
        *quotient = 0;
    if (fault("remquo64-refusal-writes-the-value") && number != ZK_FINISHED)
        *value = x;
    if (fault("remquo64-zero-divisor-is-infinite") && number == ZK_ZERO_DIVISOR)
        return ZK_INFINITE;
    if (number != ZK_FINISHED)
        return number;
    if (fault("remquo64-quotient-is-cut") && kind)
        real_zk_remquo64(x, y, ZK_TRUNCATED, &cut, quotient);
    if (fault("remquo64-modulus-is-the-least-number") && *quotient == 0 && *value != x)
        *quotient = INT32_MIN;
    if (fault("remquo64-zero-loses-its-sign") && *value == sign64)
        *value = 0;
    if (fault("remquo64-sign-as-the-processor-compares") && *quotient != 0)
        *quotient = compared_below_zero(x, y) ? -abs(*quotient) : abs(*quotient);
    *quotient = of_signed_bits(*quotient, y, fault("remquo64-quotient-of-three-bits"), fault("remquo64-quotient-of-30-bits"),
                               fault("remquo64-quotient-of-32-bits"));
    *quotient = of_one_sign(*quotient, x >> 63, y >> 63, fault("remquo64-sign-of-x"), fault("remquo64-sign-of-y"));
    return number;
}

uint8_t zk_remquo80(uint64_t x, uint16_t xw, uint64_t y, uint16_t yw, uint32_t kind, uint64_t *value, uint16_t *valuew, int32_t *quotient) {
    uint64_t cut;
    uint16_t cutw;
    uint8_t number;
    if (fault("remquo80-only-1-is-nearest"))
        kind = kind == 1;
    mistake(&x, &xw, fault("remquo80-pseudo-denormal-refused"), fault("remquo80-pseudo-denormal-is-denormal"), 0);
    mistake(&y, &yw, fault("remquo80-pseudo-denormal-divisor-refused"), fault("remquo80-pseudo-denormal-divisor-is-denormal"),
            fault("remquo80-pseudo-denormal-divisor-is-zero"));
    if (fault("remquo80-unnormal-is-a-number")) {
        x = normalised(x, xw);
        y = normalised(y, yw);
    }
    number = real_zk_remquo80(x, xw, y, yw, kind, value, valuew, quotient);
    if (fault("remquo80-refusal-writes-the-quotient") && number != ZK_FINISHED)
        *quotient = 0;
    if (fault("remquo80-refusal-writes-the-value") && number != ZK_FINISHED)
        *value = x;
    if (fault("remquo80-refusal-writes-the-word") && number != ZK_FINISHED)
        *valuew = 0x7FFF;
    if (fault("remquo80-infinite-dividend-before-unsupported") && number == ZK_UNSUPPORTED && (xw & 32767) == 32767 && x == sign64)
        return ZK_INFINITE;
    if (number != ZK_FINISHED)
        return number;
    if (keeps(x, xw, yw, *value, fault("remquo80-pseudo-denormal-kept-by-infinity"), fault("remquo80-pseudo-denormal-kept-by-a-number")))
        *valuew = xw;
    if (fault("remquo80-quotient-is-cut") && kind)
        real_zk_remquo80(x, xw, y, yw, ZK_TRUNCATED, &cut, &cutw, quotient);
    if (fault("remquo80-by-infinity-is-minus-one") && (yw & 32767) == 32767 && (xw ^ yw) >> 15)
        *quotient = -1;
    if (fault("remquo80-zero-is-minus-one") && *quotient == 0 && (xw ^ yw) >> 15)
        *quotient = -1;
    if (fault("remquo80-zero-has-the-divisors-sign") && *value == 0)
        *valuew = yw & 0x8000;
    *quotient = of_signed_bits(*quotient, y, fault("remquo80-quotient-of-three-bits"), fault("remquo80-quotient-of-30-bits"),
                               fault("remquo80-quotient-of-32-bits"));
    *quotient = of_one_sign(*quotient, xw >> 15, yw >> 15, fault("remquo80-sign-of-x"), fault("remquo80-sign-of-y"));
    return number;
}

/* The quotient of a written block, in both of its places. */
static void tell(uint8_t *block, uint32_t quotient) {
    put(block + 16, quotient, 4);
    block[11] = quotient & 7;
}

/* Byte 11 with four bits of the quotient, or with all that it has room for. */
static void spoil_octant(uint8_t *block, int of_four_bits, int of_eight_bits) {
    if (of_four_bits)
        block[11] = zk_block_quotient(block) & 15;
    if (of_eight_bits)
        block[11] = block[16];
}

/* Bytes 16 to 19 alone; `lent` is what they were. */
static void spoil_quotient(uint8_t *block, const uint8_t *lent, int is_big_endian, int is_not_written) {
    uint32_t quotient = zk_block_quotient(block);
    if (is_big_endian)
        put(block + 16, quotient << 24 | (quotient & 0xFF00) << 8 | (quotient >> 8 & 0xFF00) | quotient >> 24, 4);
    if (is_not_written)
        memcpy(block + 16, lent, 4);
}

uint8_t zk_step80(uint64_t x, uint16_t xw, uint64_t y, uint16_t yw, uint32_t size, uint32_t kind, uint8_t *block, size_t length) {
    uint8_t number, whole[ZK_BLOCK_LENGTH], lent[4] = {0};
    uint32_t quotient;
    if (fault("step-size-before-length") && (size < ZK_SIZE_LEAST || size > ZK_SIZE_MOST))
        return ZK_BAD_SIZE; /* the size is judged before the length */
    if (fault("step-size-63-is-62") && size == 63)
        size = 62;
    if (fault("step-size-cut-to-a-byte"))
        size &= 255;
    if (fault("step-length-cut-to-a-byte"))
        length &= 255;
    if (fault("step-length-cut-to-32-bits"))
        length = (uint32_t)length;
    if (fault("step-only-1-is-nearest"))
        kind = kind == 1;
    mistake(&x, &xw, fault("step-pseudo-denormal-refused"), fault("step-pseudo-denormal-is-denormal"), 0);
    mistake(&y, &yw, fault("step-pseudo-denormal-divisor-refused"), fault("step-pseudo-denormal-divisor-is-denormal"),
            fault("step-pseudo-denormal-divisor-is-zero"));
    if (fault("step-block-of-16-bytes-taken") && length == 16) {
        number = real_zk_step80(x, xw, y, yw, size, kind, whole, sizeof whole);
        if (zk_is_answer(number))
            memcpy(block, whole, 16);
        return number;
    }
    if (fault("step-block-of-20-bytes-refused") && length == 20)
        return ZK_BAD_LENGTH;
    if (length == ZK_BLOCK_LENGTH)
        memcpy(lent, block + 16, 4);
    number = real_zk_step80(x, xw, y, yw, size, kind, block, length);
    if (number == ZK_FINISHED && keeps(x, xw, yw, zk_block_significand(block), fault("step-pseudo-denormal-kept-by-infinity"),
                                       fault("step-pseudo-denormal-kept-by-a-number")))
        block[8] = 0;
    quotient = zk_is_answer(number) ? zk_block_quotient(block) : 0;
    if (fault("step-c3-and-c1-exchanged") && number == ZK_FINISHED)
        tell(block, (quotient & ~3u) | (quotient & 1) << 1 | (quotient >> 1 & 1));
    if (fault("step-c0-lost-in-another-precision") && number == ZK_FINISHED && (x87_control() & 0x0300) != 0x0300)
        tell(block, quotient & ~4u);
    if (fault("step-c0-lost") && number == ZK_FINISHED)
        tell(block, quotient & ~4u);
    if (zk_is_answer(number)) {
        uint32_t told = of_bits(quotient, y, fault("step-quotient-of-three-bits"), fault("step-quotient-of-30-bits"),
                                fault("step-quotient-of-32-bits"));
        if (told != quotient)
            tell(block, told);
        spoil_octant(block, fault("step-octant-of-four-bits"), fault("step-octant-of-eight-bits"));
        spoil_quotient(block, lent, fault("step-quotient-big-endian"), fault("step-quotient-not-written"));
    }
    if (fault("step-end-has-the-divisors-sign") && number == ZK_FINISHED && zk_block_significand(block) == 0)
        block[9] = yw >> 8 & 0x80; /* the sign of a zero that finishes */
    if (fault("step-end-is-refused") && number == ZK_FINISHED && zk_block_significand(block) == 0)
        return ZK_INFINITE; /* a zero that finishes */
    if (fault("step-last-not-counted") && number == ZK_FINISHED)
        block[12] = 0;
    if (fault("step-refusal-writes") && number == ZK_NAN)
        block[0] = 0;
    if (fault("step-refusal-told-as-bad-length") && number == ZK_NAN)
        return ZK_BAD_LENGTH;
    if (fault("step-writes-a-byte-more") && zk_is_answer(number))
        block[ZK_BLOCK_LENGTH] = 0;
    if (fault("step-part-of-four-lost") && number == ZK_PARTIAL && block[11] == 4)
        tell(block, quotient - 4); /* a part of four is lost */
    if (fault("step-zero-loses-its-sign") && number == ZK_PARTIAL && zk_block_significand(block) == 0)
        block[9] = 0; /* the sign of a zero partial value */
    if (fault("step-zero-finishes") && number == ZK_PARTIAL && zk_block_significand(block) == 0)
        return block[10] = ZK_FINISHED; /* a zero partial value finishes */
    if (fault("step-partial-not-counted") && number == ZK_PARTIAL)
        block[12] = 0; /* a partial step is not counted */
    return number;
}

uint8_t zk_run80(uint64_t x, uint16_t xw, uint64_t y, uint16_t yw, uint32_t size, uint32_t kind, uint32_t budget, uint8_t *block,
                        size_t length) {
    int of_the_last = fault("run-quotient-of-the-last-step"), not_folded = fault("run-sum-is-not-folded");
    uint8_t number, whole[ZK_BLOCK_LENGTH], lent[4] = {0};
    uint32_t quotient;
    if (fault("run-budget-0-is-1") && budget == 0)
        budget = 1;
    if (fault("run-budget-cut-to-16-bits"))
        budget &= 65535;
    if (fault("run-budget-cut-to-a-byte"))
        budget &= 255;
    if (fault("run-size-cut-to-a-byte"))
        size &= 255;
    if (fault("run-length-cut-to-32-bits"))
        length = (uint32_t)length;
    if (fault("run-only-1-is-nearest"))
        kind = kind == 1;
    mistake(&x, &xw, fault("run-pseudo-denormal-refused"), fault("run-pseudo-denormal-is-denormal"), 0);
    mistake(&y, &yw, fault("run-pseudo-denormal-divisor-refused"), fault("run-pseudo-denormal-divisor-is-denormal"),
            fault("run-pseudo-denormal-divisor-is-zero"));
    if (fault("run-block-of-16-bytes-taken") && length == 16) {
        number = real_zk_run80(x, xw, y, yw, size, kind, budget, whole, sizeof whole);
        if (zk_is_answer(number))
            memcpy(block, whole, 16);
        return number;
    }
    if (fault("run-block-of-20-bytes-refused") && length == 20)
        return ZK_BAD_LENGTH;
    if (length == ZK_BLOCK_LENGTH)
        memcpy(lent, block + 16, 4);
    number = real_zk_run80(x, xw, y, yw, size, kind, budget, block, length);
    if (number == ZK_FINISHED && keeps(x, xw, yw, zk_block_significand(block), fault("run-pseudo-denormal-kept-by-infinity"),
                                       fault("run-pseudo-denormal-kept-by-a-number")))
        block[8] = 0;
    if (fault("run-pseudo-denormal-kept-with-no-budget") && number == ZK_SPENT && budget == 0 && is_pseudo_denormal(x, xw))
        block[8] = 0;
    if (fault("run-zero-loses-its-sign") && number == ZK_FINISHED && zk_block_significand(block) == 0)
        block[9] = 0;
    if (fault("run-refusal-writes") && number == ZK_NAN)
        block[0] = 0;
    if (fault("run-with-no-budget-gives-a-zero") && number == ZK_SPENT && budget == 0)
        memset(block, 0, 10);
    if (fault("run-spent-after-two-steps-finishes") && number == ZK_SPENT && zk_block_steps(block) > 1)
        return block[10] = ZK_FINISHED;
    quotient = zk_is_answer(number) ? zk_block_quotient(block) : 0;
    if ((of_the_last || not_folded) && zk_is_answer(number) && zk_block_steps(block) > 1) {
        uint32_t before, last;
        real_zk_run80(x, xw, y, yw, size, kind, zk_block_steps(block) - 1, whole, sizeof whole);
        before = zk_block_quotient(whole);
        last = (quotient - before) % ZK_QUOTIENT_MODULUS;
        tell(block, of_the_last ? last : before + last);
    }
    if (fault("run-parts-added-modulo-8") && zk_is_answer(number) && zk_block_steps(block) > 1)
        tell(block, quotient % 8);
    if (zk_is_answer(number)) {
        uint32_t told = of_bits(quotient, y, fault("run-quotient-of-three-bits"), fault("run-quotient-of-30-bits"),
                                fault("run-quotient-of-32-bits"));
        if (told != quotient)
            tell(block, told);
        spoil_octant(block, fault("run-octant-of-four-bits"), fault("run-octant-of-eight-bits"));
        spoil_quotient(block, lent, fault("run-quotient-big-endian"), fault("run-quotient-not-written"));
    }
    if (fault("run-spent-by-its-last-step") && number == ZK_FINISHED && zk_block_steps(block) == budget)
        return block[10] = ZK_SPENT; /* spent by its last step */
    if (fault("run-spent-after-two-steps-has-no-quotient") && number == ZK_SPENT && zk_block_steps(block) > 1)
        tell(block, 0);
    if (fault("run-quotient-as-the-control-word-rounds") && zk_is_answer(number) && (x87_control() & 0x0C00) != 0)
        tell(block, quotient ^ 1);
    if (fault("run-steps-cut-to-10-bits") && zk_is_answer(number))
        block[13] &= 3;
    if (fault("run-a-step-too-many") && zk_is_answer(number) && zk_block_steps(block) > 511)
        block[12]++; /* a step too many in long runs */
    return number;
}

/*
 * What scaling says. By power + 1 it cuts one place less: what is rounded by power lies at a half if it is then exact, and what goes down
 * has more than a quarter left over if it then goes up. By a power from 0 on nothing is cut.
 */

#define SAID(NAME, SCALE, TYPE)                       \
    static uint8_t NAME(TYPE x, int32_t power) {      \
        TYPE value;                                   \
        uint8_t says = ZK_DOWN;                       \
        SCALE(x, power, &value, &says);               \
        return says;                                  \
    }

SAID(said16, real_zk_scale16, uint16_t)
SAID(said32, real_zk_scale32, uint32_t)
SAID(said64, real_zk_scale64, uint64_t)

static uint8_t said80(uint64_t x, uint16_t xw, int32_t power) {
    uint64_t value;
    uint16_t valuew;
    uint8_t says = ZK_DOWN;
    real_zk_scale80(x, xw, power, &value, &valuew, &says);
    return says;
}

/* How many places scaling cuts from 64 digits, or -1 of what is not nonzero and finite. All are kept of a result from 2^-16382 on. */
static int64_t places80(uint64_t x, uint16_t xw, int32_t power) {
    uint64_t significand;
    uint16_t significandw;
    int32_t exponent;
    if (real_zk_split80(x, xw, &significand, &significandw, &exponent) != ZK_FINISHED)
        return -1;
    return (int64_t)-16382 - exponent - power;
}

uint8_t zk_scale16(uint16_t x, int32_t power, uint16_t *value, uint8_t *says) {
    uint8_t number = real_zk_scale16(x, power, value, says);
    if (fault("scale16-nothing-left-is-exact") && number == ZK_FINISHED && *says == ZK_DOWN && power < -64)
        *says = ZK_EXACT; /* nothing is left, and said to be exact */
    if (fault("scale16-nothing-loses-its-sign") && number == ZK_FINISHED && *says == ZK_DOWN && *value == 0x8000)
        *value = 0;
    if (fault("scale16-half-always-up") && number == ZK_FINISHED && *says == ZK_DOWN && said16(x, power + 1) == ZK_EXACT) {
        *value += 1;
        *says = ZK_UP;
    }
    if (fault("scale16-refusal-writes") && number == ZK_NAN)
        *says = ZK_EXACT;
    if (fault("scale16-nan-is-infinite") && number == ZK_NAN)
        return ZK_INFINITE;
    return number;
}

uint8_t zk_scale32(uint32_t x, int32_t power, uint32_t *value, uint8_t *says) {
    uint8_t number = real_zk_scale32(x, power, value, says);
    if (fault("scale32-no-carry-into-normals") && number == ZK_FINISHED && *says == ZK_UP && (*value & 0x7FFFFFFF) == 0x00800000) {
        *value -= 1; /* no carry into the smallest normal number */
        *says = ZK_DOWN;
    }
    if (fault("scale32-nothing-loses-its-sign") && number == ZK_FINISHED && *says == ZK_DOWN && *value == 0x80000000)
        *value = 0; /* the sign of what is rounded to nothing */
    if (fault("scale32-nothing-left-is-up") && number == ZK_FINISHED && *says == ZK_DOWN && (*value & 0x7FFFFFFF) == 0)
        *says = ZK_UP;
    if (fault("scale32-half-always-down") && number == ZK_FINISHED && *says == ZK_UP && power < 0 && said32(x, power + 1) == ZK_EXACT) {
        *value -= 1;
        *says = ZK_DOWN;
    }
    return number;
}

uint8_t zk_scale64(uint64_t x, int32_t power, uint64_t *value, uint8_t *says) {
    uint8_t number;
    if (fault("scale64-power-held-to-2097") && power > 2097)
        power = 2097; /* one short of taking the smallest denormal past the end */
    number = real_zk_scale64(x, power, value, says);
    if (fault("scale64-overflow-is-down") && number == ZK_FINISHED && *says == ZK_UP && (*value & ~sign64) == infinity64)
        *says = ZK_DOWN; /* what infinity from a finite value is said to be */
    if (fault("scale64-cut") && number == ZK_FINISHED && *says == ZK_UP && (*value & ~sign64) != infinity64) {
        *value -= 1; /* what is below the smallest place is cut */
        *says = ZK_DOWN;
    }
    if (fault("scale64-half-of-a-denormal-up") && number == ZK_FINISHED && *says == ZK_DOWN && (x & infinity64) == 0 && power == -17 &&
        said64(x, power + 1) == ZK_EXACT) {
        *value += 1; /* by one power alone */
        *says = ZK_UP;
    }
    if (fault("scale64-half-always-up") && number == ZK_FINISHED && *says == ZK_DOWN && said64(x, power + 1) == ZK_EXACT) {
        *value += 1;
        *says = ZK_UP;
    }
    return number;
}

uint8_t zk_scale80(uint64_t x, uint16_t xw, int32_t power, uint64_t *value, uint16_t *valuew, uint8_t *says) {
    uint8_t number;
    mistake(&x, &xw, fault("scale80-pseudo-denormal-refused"), fault("scale80-pseudo-denormal-is-denormal"), 0);
    if (fault("scale80-pseudo-infinity-is-infinite") && (xw & 32767) == 32767 && x == 0)
        x = sign64; /* e = 32767 with J = 0 is taken as an infinity */
    if (fault("scale80-pseudo-denormal-one-power-too-low") && is_pseudo_denormal(x, xw) && power != INT32_MIN)
        power--; /* its e is taken as it is, and not as 1 */
    if (fault("scale80-64-places-as-63") && places80(x, xw, power) == 64)
        power++;
    number = real_zk_scale80(x, xw, power, value, valuew, says);
    if (fault("scale80-pseudo-denormal-kept-by-0") && number == ZK_FINISHED && is_pseudo_denormal(x, xw) && power == 0)
        *valuew = xw;
    if (fault("scale80-half-of-a-denormal-up") && number == ZK_FINISHED && *says == ZK_DOWN && (xw & 32767) == 0 && power == -14 &&
        said80(x, xw, power + 1) == ZK_EXACT) {
        *value += 1;
        *says = ZK_UP;
    }
    if (fault("scale80-no-place-rounds") && number == ZK_FINISHED && places80(x, xw, power) == 0 && *value % 2 == 1) {
        *value -= 1; /* the last digit is rounded, where none is cut */
        *says = ZK_DOWN;
    }
    if (fault("scale80-half-of-the-wrong-power") && number == ZK_FINISHED && *says == ZK_DOWN && said80(x, xw, power + 1) == ZK_UP) {
        *value += 1; /* past a quarter it goes up; a half stays */
        *valuew |= *value >> 63;
        *says = ZK_UP;
    }
    if (fault("scale80-refusal-writes") && number == ZK_NAN)
        *valuew = 0x7FFF; /* a refusal writes */
    if (fault("scale80-nothing-loses-its-sign") && number == ZK_FINISHED && *says == ZK_DOWN && *value == 0)
        *valuew = 0;
    if (fault("scale80-overflow-is-down") && number == ZK_FINISHED && *says == ZK_UP && (*valuew & 32767) == 32767)
        *says = ZK_DOWN;
    if (fault("scale80-half-of-the-smallest-is-up") && number == ZK_FINISHED && x == 1 && (xw & 32767) == 0 && power == -1) {
        *value = 1;
        *says = ZK_UP;
    }
    if (fault("scale80-rounded-as-the-control-word-says") && number == ZK_FINISHED) {
        volatile long double product = zk_long_double_of_pattern(*value, *valuew), one = 1;
        product *= one;
        *value = zk_significand_of_long_double(product);
        *valuew = zk_word_of_long_double(product);
    }
    if (fault("scale80-nan-is-unsupported") && number == ZK_NAN)
        return ZK_UNSUPPORTED;
    return number;
}

uint8_t zk_split16(uint16_t x, uint16_t *significand, int32_t *exponent) {
    uint8_t number = real_zk_split16(x, significand, exponent);
    if (fault("split16-leaves-another-rounding-mode"))
        _mm_setcsr(_mm_getcsr() | 0x2000);
    if (fault("split16-denormal-loses-its-sign") && number == ZK_FINISHED && (x & 0x7FFF) < 0x400)
        *significand &= 0x7FFF; /* the sign of a denormal */
    return number;
}

uint8_t zk_split32(uint32_t x, uint32_t *significand, int32_t *exponent) {
    uint8_t number = real_zk_split32(x, significand, exponent);
    volatile float value = zk_float_of_pattern(x);
    if (fault("split32-zero-as-the-processor-compares") && number == ZK_FINISHED && value == 0)
        return ZK_ZERO_SPLIT; /* a denormal, where denormals are taken for zeros */
    if (fault("split32-zero-is-five") && number == ZK_ZERO_SPLIT)
        return ZK_ZERO_DIVISOR;
    return number;
}

uint8_t zk_split64(uint64_t x, uint64_t *significand, int32_t *exponent) {
    uint8_t number = real_zk_split64(x, significand, exponent);
    if (fault("split64-denormal-exponent-from-its-field") && number == ZK_FINISHED && (x & infinity64) == 0)
        *exponent = -1022; /* a denormal's exponent from its field */
    if (fault("split64-refusal-writes") && number == ZK_ZERO_SPLIT)
        *exponent = 0;
    return number;
}

uint8_t zk_split80(uint64_t x, uint16_t xw, uint64_t *significand, uint16_t *significandw, int32_t *exponent) {
    uint8_t number;
    mistake(&x, &xw, fault("split80-pseudo-denormal-refused"), fault("split80-pseudo-denormal-is-denormal"), 0);
    if (fault("split80-pseudo-denormal-in-the-x87-unit") && is_pseudo_denormal(x, xw)) {
        volatile long double product = zk_long_double_of_pattern(x, xw), one = 1;
        product *= one; /* the unit takes it as a denormal operand */
    }
    number = real_zk_split80(x, xw, significand, significandw, exponent);
    if (fault("split80-pseudo-denormal-exponent-too-low") && number == ZK_FINISHED && is_pseudo_denormal(x, xw))
        *exponent -= 1; /* its e is taken as it is, and not as 1 */
    if (fault("split80-pseudo-nan-is-a-nan") && number == ZK_UNSUPPORTED && (xw & 32767) == 32767 && x != 0)
        return ZK_NAN; /* e = 32767 with J = 0 is taken as a NaN */
    if (fault("split80-from-a-half-to-1") && number == ZK_FINISHED)
        *exponent += 1, *significandw -= 1; /* as frexp splits, from a half to below 1 */
    if (fault("split80-loses-its-sign") && number == ZK_FINISHED)
        *significandw &= 0x7FFF;
    if (fault("split80-exponent-one-too-low") && number == ZK_FINISHED)
        *exponent -= 1;
    return number;
}

/* ---- which operand was bad */

/* What is told of a pattern by a fault that counts zeros or normal numbers with the exponent field 1, or leaves out negative patterns. */
static uint8_t counted(uint8_t told, int is_zero, int has_field_1, int is_negative, int zeros, int normals, int no_negatives) {
    if ((zeros && is_zero) || (normals && has_field_1))
        return 1;
    return no_negatives && is_negative ? 0 : told;
}

uint8_t zk_denormal16(uint16_t x) {
    return counted(real_zk_denormal16(x), (x & 0x7FFF) == 0, (x & 0x7C00) == 0x0400, x >> 15, fault("denormal16-zero-counts"),
                   fault("denormal16-field-1-counts"), fault("denormal16-negative-left-out"));
}

uint8_t zk_denormal32(uint32_t x) {
    uint8_t told = counted(real_zk_denormal32(x), (x & 0x7FFFFFFF) == 0, (x & 0x7F800000) == 0x00800000, x >> 31,
                           fault("denormal32-zero-counts"), fault("denormal32-field-1-counts"), fault("denormal32-negative-left-out"));
    if (fault("denormal32-told-by-its-last-byte") && told)
        return (uint8_t)x;
    return told;
}

/* By comparisons of the processor: no pattern is a denormal's, where denormals are zeros. */
static uint8_t compared_with_normals(uint64_t x) {
    volatile double value = zk_double_of_pattern(x & ~sign64), least = zk_double_of_pattern(UINT64_C(0x0010000000000000));
    return value > 0 && value < least;
}

uint8_t zk_denormal64(uint64_t x) {
    if (fault("denormal64-as-the-processor-compares"))
        return compared_with_normals(x);
    if (fault("denormal64-low-half-not-looked-at"))
        x &= ~UINT64_C(0xFFFFFFFF);
    return counted(real_zk_denormal64(x), (x & ~sign64) == 0, (x & infinity64) == UINT64_C(0x0010000000000000), x >> 63 != 0,
                   fault("denormal64-zero-counts"), fault("denormal64-field-1-counts"), fault("denormal64-negative-left-out"));
}

uint8_t zk_denormal80(uint64_t x, uint16_t xw) {
    int e = xw & 32767, j = x >= sign64;
    if (fault("denormal80-leaves-another-precision")) {
        uint16_t control = x87_control() & ~0x0300;
        __asm__ volatile("fldcw %0" : : "m"(control));
    }
    if (fault("denormal80-pseudo-denormal-left-out") && is_pseudo_denormal(x, xw))
        return 0;
    if ((fault("denormal80-unnormal-counts") && e > 0 && e < 32767 && !j) || (fault("denormal80-pseudo-nan-counts") && e == 32767 && !j))
        return 1;
    return counted(real_zk_denormal80(x, xw), e == 0 && x == 0, e == 1 && j, xw >> 15, fault("denormal80-zero-counts"),
                   fault("denormal80-field-1-counts"), fault("denormal80-negative-left-out"));
}

/* The rule for NaNs with one thing wrong. Quiet is the top bit of the fraction, which has neither the sign nor J in it. */
enum wrong {
    SMALLER,           /* the one with the smaller significand */
    DIVISOR_OF_EQUALS, /* the divisor, of two with one significand */
    DIVIDEND_OF_TWO,   /* the dividend, of any two */
    QUIET_FIRST,       /* significands are compared once they are quiet, */
    SIGNED,            /* or with their signs */
    UNSIGNED,          /* the sign is lost */
    SIGNALLING,        /* it is not made quiet */
    HOUSE,             /* the house NaN, whatever there is */
    NEGATIVE_HOUSE,    /* where there is none the processor's own, which is negative */
    INFINITE,          /* an infinity is one */
    WRONG              /* so many, or nothing */
};

/* Which of them is asked for. */
static enum wrong first_of(const int asked[WRONG]) {
    int i = 0;
    while (i < WRONG && !asked[i])
        i++;
    return (enum wrong)i;
}

struct nan {
    int negative, is_nan, is_infinite;
    uint64_t fraction;
};

static int takes_divisor(struct nan x, struct nan y, uint64_t quiet, enum wrong is) {
    uint64_t of_x = x.fraction, of_y = y.fraction;
    if (!x.is_nan || !y.is_nan)
        return y.is_nan;
    if (is == QUIET_FIRST)
        of_x |= quiet, of_y |= quiet;
    if (is == SIGNED)
        of_x += 2 * quiet * (uint64_t)x.negative, of_y += 2 * quiet * (uint64_t)y.negative;
    if (is == DIVIDEND_OF_TWO)
        return 0;
    return is == SMALLER ? of_y < of_x : is == DIVISOR_OF_EQUALS ? of_y >= of_x : of_y > of_x;
}

static struct nan chosen(struct nan x, struct nan y, uint64_t quiet, enum wrong is) {
    struct nan nan = {is == NEGATIVE_HOUSE, 1, 0, quiet};
    if (is == INFINITE)
        x.is_nan |= x.is_infinite, y.is_nan |= y.is_infinite;
    if (is == HOUSE || (!x.is_nan && !y.is_nan))
        return nan;
    nan = takes_divisor(x, y, quiet, is) ? y : x;
    nan.fraction |= is == SIGNALLING ? 0 : quiet;
    nan.negative &= is != UNSIGNED;
    return nan;
}

/* For patterns of one word: the fraction ends with the bit quiet, the exponent field is infinity, and the sign is the bit above. */
static struct nan nan_of(uint64_t x, uint64_t infinity, uint64_t quiet) {
    uint64_t fraction = x & (2 * quiet - 1);
    int is_special = (x & infinity) == infinity;
    struct nan nan = {(x & (infinity + 2 * quiet)) != 0, is_special && fraction != 0, is_special && fraction == 0, fraction};
    return nan;
}

static uint64_t chosen_pattern(uint64_t x, uint64_t y, uint64_t infinity, uint64_t quiet, enum wrong is) {
    struct nan nan = chosen(nan_of(x, infinity, quiet), nan_of(y, infinity, quiet), quiet, is);
    return (nan.negative ? infinity + 2 * quiet : 0) | infinity | nan.fraction;
}

uint16_t zk_nan16(uint16_t x, uint16_t y) {
    const int asked[WRONG] = {
        fault("nan16-smaller-significand"), fault("nan16-divisor-of-equal-significands"), fault("nan16-dividend-of-two"),
        fault("nan16-quiet-before-comparing"), fault("nan16-signs-compared"), fault("nan16-loses-its-sign"), fault("nan16-not-quiet"),
        fault("nan16-house-nan"), fault("nan16-house-nan-is-negative"), fault("nan16-infinity-counts")};
    enum wrong is = first_of(asked);
    if (fault("nan16-leaves-another-rounding-mode"))
        _mm_setcsr(_mm_getcsr() | 0x2000);
    return is == WRONG ? real_zk_nan16(x, y) : (uint16_t)chosen_pattern(x, y, 0x7C00, 0x0200, is);
}

uint32_t zk_nan32(uint32_t x, uint32_t y) {
    const int asked[WRONG] = {
        fault("nan32-smaller-significand"), fault("nan32-divisor-of-equal-significands"), fault("nan32-dividend-of-two"),
        fault("nan32-quiet-before-comparing"), fault("nan32-signs-compared"), fault("nan32-loses-its-sign"), fault("nan32-not-quiet"),
        fault("nan32-house-nan"), fault("nan32-house-nan-is-negative"), fault("nan32-infinity-counts")};
    enum wrong is = first_of(asked);
    if (fault("nan32-quiet-as-the-rounding-mode-says") && rounding() != 0)
        is = SIGNALLING;
    return is == WRONG ? real_zk_nan32(x, y) : (uint32_t)chosen_pattern(x, y, 0x7F800000, 0x00400000, is);
}

uint64_t zk_nan64(uint64_t x, uint64_t y) {
    const int asked[WRONG] = {
        fault("nan64-smaller-significand"), fault("nan64-divisor-of-equal-significands"), fault("nan64-dividend-of-two"),
        fault("nan64-quiet-before-comparing"), fault("nan64-signs-compared"), fault("nan64-loses-its-sign"), fault("nan64-not-quiet"),
        fault("nan64-house-nan"), fault("nan64-house-nan-is-negative"), fault("nan64-infinity-counts")};
    const uint64_t quiet = UINT64_C(1) << 51, nan = real_zk_nan64(x, y);
    enum wrong is = first_of(asked);
    if (fault("nan64-made-quiet-by-the-processor") && (is_nan(x) || is_nan(y)))
        return by_the_processor(is_nan(x) && nan == (x | quiet) ? x : y);
    if (fault("nan64-compared-in-32-bits") && is_nan(x) && is_nan(y) && (x ^ y) << 1 >> 33 == 0)
        return x | quiet; /* unequal in the lower half alone */
    return is == WRONG ? nan : chosen_pattern(x, y, infinity64, quiet, is);
}

static struct nan nan_of80(uint64_t x, uint16_t xw, int also_pseudo) {
    int is_special = (xw & 32767) == 32767 && (x >= sign64 || also_pseudo);
    struct nan nan = {xw >> 15, is_special && x << 1 != 0, is_special && x << 1 == 0, x & ~sign64};
    return nan;
}

/* e from 1 with J = 0. */
static int is_unsupported(uint64_t x, uint16_t xw) {
    return (xw & 32767) != 0 && x < sign64;
}

void zk_nan80(uint64_t x, uint16_t xw, uint64_t y, uint16_t yw, uint64_t *value, uint16_t *valuew) {
    const int asked[WRONG] = {
        fault("nan80-smaller-significand"), fault("nan80-divisor-of-equal-significands"), fault("nan80-dividend-of-two"),
        fault("nan80-quiet-before-comparing"), fault("nan80-signs-compared"), fault("nan80-loses-its-sign"), fault("nan80-not-quiet"),
        fault("nan80-house-nan"), fault("nan80-house-nan-is-negative"), fault("nan80-infinity-counts")};
    const uint64_t quiet = UINT64_C(1) << 62, lent = *value;
    const uint16_t lentw = *valuew;
    const struct nan of_x = nan_of80(x, xw, 0), of_y = nan_of80(y, yw, 0);
    const int both = of_x.is_nan && of_y.is_nan, none = !of_x.is_nan && !of_y.is_nan, pseudo = fault("nan80-pseudo-nan-counts");
    const int nothing_written = fault("nan80-nothing-written-of-none") && none;
    enum wrong is = first_of(asked);
    real_zk_nan80(x, xw, y, yw, value, valuew);
    if (is != WRONG || pseudo) {
        struct nan nan = chosen(nan_of80(x, xw, pseudo), nan_of80(y, yw, pseudo), quiet, is);
        *value = sign64 | nan.fraction;
        *valuew = (uint16_t)(nan.negative << 15 | 32767);
    }
    if (fault("nan80-lost-beside-unsupported") && (is_unsupported(x, xw) || is_unsupported(y, yw)))
        *value = sign64 | quiet, *valuew = 32767;
    if (fault("nan80-compared-in-32-bits") && both && x >> 32 == y >> 32)
        *value = x | quiet, *valuew = xw; /* unequal in the lower half alone */
    if (fault("nan80-positive-of-equal-significands") && both && x == y)
        *valuew = xw & yw; /* as the processor chooses */
    if (fault("nan80-made-quiet-in-the-x87-unit")) {
        volatile long double product = zk_long_double_of_pattern(*value & ~quiet, *valuew), one = 1;
        product *= one; /* a signalling one is an invalid operand */
    }
    if (fault("nan80-only-the-significand-written") || nothing_written)
        *valuew = lentw;
    if (fault("nan80-only-the-word-written") || nothing_written)
        *value = lent;
    if (fault("nan80-writes-behind-the-word"))
        valuew[1] = 0;
}

/* A list's NaNs and infinities, as a fault shows them. */
static uint64_t shown(uint64_t x, uint64_t result, uint64_t first) {
    const uint64_t quiet = UINT64_C(1) << 51;
    if (is_nan(x) && fault("fold-house-nan-for-a-nan"))
        return ZK_HOUSE_NAN64;
    if (is_nan(x) && fault("fold-nan-not-quiet"))
        return x;
    if (is_nan(x) && fault("fold-nan-loses-its-sign"))
        return result & ~sign64;
    if (is_nan(x) && fault("fold-nan-loses-its-lower-half"))
        return result & ~UINT64_C(0xFFFFFFFF);
    if (is_nan(x) && fault("fold-nan-of-the-first-place"))
        return first | quiet;
    if (is_nan(x) && fault("fold-nan-made-quiet-by-the-processor"))
        return by_the_processor(x);
    if ((x & ~sign64) == infinity64 && fault("fold-infinity-kept"))
        return x;
    if ((x & ~sign64) == infinity64 && fault("fold-infinity-has-its-sign"))
        return x | quiet;
    return result;
}

uint8_t zk_fold64(const uint64_t *x, size_t nx, uint64_t *results, size_t nr, uint8_t *quotients, size_t nq, uint64_t y,
                         uint32_t kind, size_t *marked) {
    uint8_t number;
    uint64_t whole, first = 0;
    uint32_t quotient;
    size_t i;
    if (fault("fold-lengths-compared-in-a-byte") && (nx & 255) == (nr & 255) && (nx & 255) == (nq & 255))
        nx = nr = nq = nx < nr ? (nx < nq ? nx : nq) : (nr < nq ? nr : nq);
    if (fault("fold-lengths-compared-in-16-bits") && (nx & 65535) == (nr & 65535) && (nx & 65535) == (nq & 65535))
        nx = nr = nq = nx < nr ? (nx < nq ? nx : nq) : (nr < nq ? nr : nq);
    if (fault("fold-lengths-compared-in-32-bits") && (uint32_t)nx == (uint32_t)nr && (uint32_t)nx == (uint32_t)nq)
        nx = nr = nq = nx < nr ? (nx < nq ? nx : nq) : (nr < nq ? nr : nq);
    if (fault("fold-shorter-results-accepted-from-six") && nx > 5 && nr < nx && nq == nx)
        nx = nq = nr;
    if (fault("fold-divisor-before-length") && (y & ~sign64) == 0)
        return ZK_ZERO_DIVISOR;
    if (fault("fold-only-1-is-nearest"))
        kind = kind == 1;
    number = real_zk_fold64(x, nx, results, nr, quotients, nq, y, kind, marked);
    if (fault("fold-nan-divisor-at-each-place") && number == ZK_NAN) {
        for (i = 0; i < nx; i++)
            results[i] = y | UINT64_C(1) << 51, quotients[i] = ZK_MARK;
        *marked = nx;
        return ZK_FINISHED;
    }
    for (i = 0; number == ZK_FINISHED && i < nx; i++) {
        first = first || !is_nan(x[i]) ? first : x[i];
        if (quotients[i] == ZK_MARK)
            results[i] = shown(x[i], results[i], first);
        if (fault("fold-nan-not-marked") && is_nan(x[i]))
            quotients[i] = 0;
        if (fault("fold-nan-not-counted") && is_nan(x[i]))
            *marked -= 1;
        if (fault("fold-bits-of-the-first-places") && i > 30)
            quotients[i] = 0; /* bits of the first places alone */
        if (fault("fold-byte-of-eight-bits") && quotients[i] != ZK_MARK && real_zk_rem64(x[i], y, kind, &whole, &quotient) == ZK_FINISHED)
            quotients[i] = (uint8_t)quotient; /* all that there is room for, and not the quotient modulo 8 */
        if (fault("fold-mark-is-negative") && quotients[i] == ZK_MARK)
            results[i] |= sign64; /* the processor's NaN, which is negative */
        if (fault("fold-flushes-as-the-processor-does") && quotients[i] != ZK_MARK)
            results[i] = by_the_processor(results[i]);
        if (fault("fold-zero-loses-its-sign") && quotients[i] != ZK_MARK && (results[i] & ~sign64) == 0)
            results[i] = 0; /* the sign of a zero */
    }
    if (fault("fold-count-cut-to-16-bits") && number == ZK_FINISHED)
        *marked &= 65535;
    if (fault("fold-all-marked-is-none") && number == ZK_FINISHED && *marked == nx && nx > 5)
        *marked = 0;
    if (fault("fold-count-cut-to-a-byte") && number == ZK_FINISHED)
        *marked &= 255;
    if (fault("fold-refusal-writes") && number == ZK_NAN)
        *marked = 0; /* a refusal writes */
    if (fault("fold-result-behind-the-list") && number == ZK_FINISHED)
        results[nr] = 0;
    if (fault("fold-byte-behind-the-list") && number == ZK_FINISHED)
        quotients[nq] = 0;
    if (fault("fold-dividend-written") && number == ZK_FINISHED && nx > 0)
        ((uint64_t *)x)[0] ^= sign64;
    if (fault("fold-marked-list-is-refused") && number == ZK_FINISHED && *marked > 0)
        return ZK_NAN;
    return number;
}

/* ---- stem files */

enum { PERIOD = 10, ORIGIN = 18, COPIED = 26 + 16 * 4200 };

/* A period that is none, taken for one by the fault of its class. */
static int period_let_through(uint64_t period, int zero, int minus_zero, int negative, int infinite, int quiet_nan, int signalling_nan) {
    const uint64_t quiet = UINT64_C(1) << 51;
    return (zero && period == 0) || (minus_zero && period == sign64) || (negative && period > sign64 && period < (sign64 | infinity64)) ||
           (infinite && (period & ~sign64) == infinity64) || (quiet_nan && is_nan(period) && (period & quiet)) ||
           (signalling_nan && is_nan(period) && !(period & quiet));
}

static int origin_let_through(uint32_t kind, uint64_t origin, int of_turn, int minus_zero_of_turn, int infinite, int nan) {
    return (of_turn && kind == 0) || (minus_zero_of_turn && kind == 0 && origin == sign64) ||
           (infinite && kind == 1 && (origin & ~sign64) == infinity64) || (nan && kind == 1 && is_nan(origin));
}

/* The header of a file with what a fault lets through made good, and the length that it then has. The points do not matter. */
static size_t made_good(uint8_t *file, size_t length) {
    uint64_t count = little(file + 6, 4), asked = 26 + 16 * count;
    if (fault("stem-open-mark-in-either-case"))
        file[0] &= 0xDF, file[1] &= 0xDF, file[2] &= 0xDF;
    if (fault("stem-open-two-letters"))
        file[2] = 'M';
    if (fault("stem-open-any-mark-before-many-points") && length >= 26 + 16 * 8)
        memcpy(file, "STM", 3);
    if (fault("stem-open-version-of-one-byte"))
        file[4] = 0;
    if (fault("stem-open-kind-is-one-bit"))
        file[5] &= 1;
    if (period_let_through(little(file + PERIOD, 8), fault("stem-open-zero-period"), fault("stem-open-minus-zero-period"),
                           fault("stem-open-negative-period"), fault("stem-open-infinite-period"), fault("stem-open-quiet-nan-period"),
                           fault("stem-open-signalling-nan-period")))
        put(file + PERIOD, 1, 8);
    if (origin_let_through(file[5], little(file + ORIGIN, 8), fault("stem-open-turn-has-an-origin"),
                           fault("stem-open-turn-has-a-minus-zero"), fault("stem-open-infinite-origin"), fault("stem-open-nan-origin")))
        put(file + ORIGIN, 0, 8);
    if (fault("stem-open-count-believed") && count <= 4000)
        return (size_t)asked;
    if (fault("stem-open-part-of-a-point-ignored") && length - asked < 16)
        return (size_t)asked;
    if ((fault("stem-open-most-is-4001") && count == 4001 && length == asked) ||
        (fault("stem-open-product-of-32-bits") && count > 4000 && length == (uint32_t)asked)) {
        put(file + 6, 0, 4);
        return 26;
    }
    return fault("stem-open-length-cut-to-32-bits") ? (uint32_t)length : length;
}

/* What is told of a file that is refused. */
static uint8_t told(const uint8_t *file, size_t length, uint8_t number) {
    uint64_t period = length < 26 ? 0 : little(file + PERIOD, 8);
    if (fault("stem-open-13-and-14-exchanged") && (number == 13 || number == 14))
        return 27 - number;
    if (fault("stem-open-mark-before-length") && number == 14 && length > 2 && length < 26 && memcmp(file, "STM", 3) != 0)
        return ZK_STEM_MARK;
    if (fault("stem-open-version-before-mark") && number == ZK_STEM_MARK && file[3] != 1)
        return ZK_STEM_VERSION;
    if (fault("stem-open-kind-before-version") && number == ZK_STEM_VERSION && file[5] > 1)
        return ZK_STEM_KIND;
    if (fault("stem-open-length-before-count") && number == ZK_STEM_COUNT && length != 26 + 16 * little(file + 6, 4))
        return ZK_STEM_LENGTH;
    if (fault("stem-open-gauge-before-count") && (number == 13 || (number == 14 && length > 25)) && period == 0)
        return ZK_STEM_GAUGE;
    return number;
}

/* What is done to a file that should only be looked at. */
static void looked_at(const uint8_t *file, size_t length) {
    const volatile uint8_t *byte = file;
    if (fault("stem-open-reads-a-byte-more"))
        (void)byte[length];
    if (fault("stem-open-reads-a-byte-before"))
        (void)byte[-1];
    if (fault("stem-open-reads-26-bytes-of-any-file"))
        (void)byte[25];
    if (fault("stem-open-reads-the-last-point-of-the-count") && length > 25)
        (void)byte[25 + 16 * little(file + 6, 4)];
    if (fault("stem-open-file-written") && length > 26)
        ((uint8_t *)file)[length - 1] ^= 1;
}

/* Whether a period is above zero, by a comparison of the processor: not where denormals are zeros, and a NaN is an invalid operand. */
static int above_zero(uint64_t period) {
    volatile double value = zk_double_of_pattern(period);
    return value > 0;
}

static void *volatile memory;

/* Memory for as many points as the count says; 0 if there is none. */
static int memory_for(uint64_t count) {
    memory = malloc((size_t)(16 * count));
    free(memory);
    return memory != NULL;
}

uint8_t zk_stem_open(const uint8_t *file, size_t length, uint32_t *kind, uint64_t *period, uint64_t *origin, size_t *start, size_t *count) {
    uint8_t copy[COPIED]; /* not static: tests in Rust call from many threads */
    const uint8_t *lent = file;
    uint8_t number;
    size_t given = length;
    looked_at(file, length);
    if (fault("stem-open-keeps-memory"))
        memory = malloc(16);
    if (fault("stem-open-asks-for-memory") && length > 25 && !memory_for(little(file + 6, 4)))
        return ZK_STEM_LENGTH;
    if (length > 25) {
        memcpy(copy, file, 26);
        given = made_good(copy, length);
        if (given != length || memcmp(copy, file, 26) != 0)
            lent = copy;
    }
    number = real_zk_stem_open(lent, given, kind, period, origin, start, count);
    if (fault("stem-open-most-is-3999") && number == 0 && *count == 4000)
        return ZK_STEM_COUNT;
    if (fault("stem-open-some-denormals-refused") && number == 0 && *period >> 33 != 0 && *period >> 51 == 0)
        return ZK_STEM_GAUGE;
    if (fault("stem-open-period-compared-by-the-processor") && (number == 0 || number == 15) && !above_zero(little(file + PERIOD, 8)))
        return ZK_STEM_GAUGE;
    if (fault("stem-open-refusal-writes-the-count") && number == ZK_STEM_COUNT)
        *count = (size_t)little(file + 6, 4);
    if (fault("stem-open-refusal-writes-the-kind") && number == ZK_STEM_GAUGE)
        *kind = file[5];
    if (fault("stem-open-refusal-writes-the-start") && number == ZK_STEM_LENGTH)
        *start = 0;
    if (number != ZK_FINISHED)
        return told(file, length, number);
    *count = (size_t)little(file + 6, 4);
    *kind = file[5];
    *period = little(file + PERIOD, 8);
    *origin = little(file + ORIGIN, 8);
    if (fault("stem-open-start-one-point-too-far"))
        *start += 16;
    if (fault("stem-open-count-one-too-many"))
        *count += 1;
    if (fault("stem-open-period-and-origin-exchanged"))
        *period = little(file + ORIGIN, 8), *origin = little(file + PERIOD, 8);
    if (fault("stem-open-origin-in-a-float"))
        *origin &= ~UINT64_C(0x1FFFFFFF);
    if (fault("stem-open-kind-of-a-turn") && *kind == ZK_ROLLER)
        *kind = ZK_TURN;
    if (fault("stem-open-writes-behind-the-kind"))
        kind[1] = 0;
    return number;
}

/* reading - origin with the processor's MXCSR set to `control`. */
static uint64_t processor_difference(uint64_t reading, uint64_t origin, unsigned control) {
    unsigned before = _mm_getcsr();
    volatile double x = zk_double_of_pattern(reading), y = zk_double_of_pattern(origin), left;
    _mm_setcsr(control);
    left = x - y;
    _mm_setcsr(before);
    return zk_pattern_of_double(left);
}

/* reading - origin with a half rounded to the odd one: the other neighbour lies as far on the other side. What is lost is Knuth's. */
static uint64_t odd_difference(uint64_t reading, uint64_t origin) {
    volatile double x = zk_double_of_pattern(reading), y = zk_double_of_pattern(origin), left = x - y, back = left - x, kept = left - back;
    volatile double part = -y - back, lost = (x - kept) + part, other = left + 2 * lost;
    return zk_pattern_of_double(isfinite(other) ? other : left);
}

/* reading - origin rounded to 64 bits, then to 53. */
static uint64_t twice_rounded(uint64_t reading, uint64_t origin) {
    volatile long double left = (long double)zk_double_of_pattern(reading) - zk_double_of_pattern(origin);
    return zk_pattern_of_double((double)left);
}

/* The difference as a fault makes it, or 0 returned. The host's rounding, or its flushing, is obeyed by two of them. */
static int other_difference(uint64_t reading, uint64_t origin, uint64_t *left) {
    const unsigned usual = 0x1F80, host = _mm_getcsr();
    if (fault("stem-fold-origin-added"))
        *left = processor_difference(reading, origin ^ sign64, usual);
    else if (fault("stem-fold-difference-cut"))
        *left = processor_difference(reading, origin, usual | 0x6000);
    else if (fault("stem-fold-half-to-odd"))
        *left = odd_difference(reading, origin);
    else if (fault("stem-fold-rounded-twice"))
        *left = twice_rounded(reading, origin);
    else if (fault("stem-fold-denormals-flushed"))
        *left = processor_difference(reading, origin, usual | 0x8040);
    else if (fault("stem-fold-rounds-as-the-processor-does"))
        *left = processor_difference(reading, origin, usual | (host & 0x6000));
    else if (fault("stem-fold-flushes-as-the-processor-does"))
        *left = processor_difference(reading, origin, usual | (host & 0x8040));
    else if (fault("stem-fold-traps-as-the-processor-does"))
        *left = processor_difference(reading, origin, usual & host);
    else
        return 0;
    return 1;
}

uint8_t zk_stem_fold(uint32_t kind, uint64_t period, uint64_t origin, uint64_t *reading) {
    uint64_t before = *reading, left;
    uint32_t bits;
    uint8_t number;
    int is_finite = (before & infinity64) != infinity64;
    if (fault("stem-fold-kind-cut-to-a-byte"))
        kind &= 255;
    if (fault("stem-fold-kind-cut-to-24-bits"))
        kind &= 0xFFFFFF;
    if (fault("stem-fold-gauge-before-kind") && kind > 1 && period == 0)
        return ZK_STEM_GAUGE;
    if (fault("stem-fold-turn-has-an-origin") && kind == ZK_TURN)
        origin = 0;
    if (fault("stem-fold-refused-gauge-folds"))
        period &= ~sign64;
    number = real_zk_stem_fold(kind, period, origin, reading);
    if (fault("stem-fold-refusal-writes") && number == ZK_STEM_GAUGE)
        *reading = ZK_HOUSE_NAN64;
    if (number != ZK_FINISHED)
        return number;
    if (kind == ZK_ROLLER && is_finite && other_difference(before, origin, &left)) {
        *reading = left;
        real_zk_stem_fold(ZK_TURN, period, 0, reading);
    }
    if (fault("stem-fold-remainder-before-the-subtraction") && kind == ZK_ROLLER) {
        *reading = before;
        real_zk_stem_fold(ZK_TURN, period, 0, reading);
        real_zk_stem_fold(kind, period, origin, reading);
    }
    if (fault("stem-fold-turn-is-nearest") && kind == ZK_TURN && is_finite)
        real_zk_rem64(before, period, ZK_NEAREST, reading, &bits);
    if (fault("stem-fold-infinite-reading-kept") && (before & ~sign64) == infinity64)
        *reading = before;
    if (fault("stem-fold-nan-kept") && is_nan(before))
        *reading = before;
    if (fault("stem-fold-infinite-difference-kept") && is_finite && *reading == ZK_HOUSE_NAN64)
        *reading = infinity64;
    if (fault("stem-fold-infinite-difference-refused") && is_finite && *reading == ZK_HOUSE_NAN64) {
        *reading = before;
        return ZK_INFINITE;
    }
    if (fault("stem-fold-mark-is-negative") && *reading == ZK_HOUSE_NAN64)
        *reading |= sign64;
    if (fault("stem-fold-zero-loses-its-sign") && *reading == sign64)
        *reading = 0;
    if (fault("stem-fold-writes-the-radius"))
        reading[1] = 0;
    return number;
}

/* ---- writing stem files */

/* What is asked of the writer. */
struct task {
    uint32_t kind;
    uint64_t period, origin;
    const uint64_t *readings, *radii;
    size_t nreadings, nradii;
    uint8_t *room;
    size_t length;
};

static uint8_t write_to(uint8_t *room, size_t length, const struct task *t, size_t *written) {
    return real_zk_stem_write(t->kind, t->period, t->origin, t->readings, t->nreadings, t->radii, t->nradii, room, length, written);
}

static size_t file_length(const struct task *t) {
    return 26 + 16 * t->nreadings;
}

/* Lengths and kinds as a fault takes them. */
static void cut_numbers(struct task *t) {
    size_t shorter = t->nreadings < t->nradii ? t->nreadings : t->nradii;
    int wraps_in_32 = t->nreadings == t->nradii && t->nreadings >> 28 != 0 && (uint32_t)file_length(t) <= t->length;
    int wraps_in_64 = t->nreadings == t->nradii && t->nreadings >> 60 != 0 && file_length(t) <= t->length;
    if (fault("stem-write-shorter-list-taken"))
        t->nreadings = t->nradii = shorter;
    if (fault("stem-write-lists-compared-in-32-bits") && (uint32_t)t->nreadings == (uint32_t)t->nradii)
        t->nreadings = t->nradii = shorter;
    if (fault("stem-write-count-cut-to-16-bits"))
        t->nreadings &= 65535, t->nradii &= 65535;
    if (fault("stem-write-count-cut-to-32-bits"))
        t->nreadings = (uint32_t)t->nreadings, t->nradii = (uint32_t)t->nradii;
    if ((fault("stem-write-product-of-32-bits") && wraps_in_32) || (fault("stem-write-product-of-64-bits") && wraps_in_64))
        t->nreadings = t->nradii = 0; /* the room is compared, and not the count */
    if (fault("stem-write-room-cut-to-32-bits"))
        t->length = (uint32_t)t->length;
    if (fault("stem-write-kind-cut-to-a-byte"))
        t->kind &= 255;
    if (fault("stem-write-kind-cut-to-24-bits"))
        t->kind &= 0xFFFFFF;
}

/* A gauge that a fault lets through is made good, and written over the good one afterwards. */
static void make_gauge_good(struct task *t) {
    if (period_let_through(t->period, fault("stem-write-zero-period"), fault("stem-write-minus-zero-period"),
                           fault("stem-write-negative-period"), fault("stem-write-infinite-period"), fault("stem-write-quiet-nan-period"),
                           fault("stem-write-signalling-nan-period")))
        t->period = 1;
    if (origin_let_through(t->kind, t->origin, fault("stem-write-turn-has-an-origin"), fault("stem-write-turn-has-a-minus-zero"),
                           fault("stem-write-infinite-origin"), fault("stem-write-nan-origin")))
        t->origin = 0;
}

/* What is read that should not be. */
static void read_lists(const struct task *t) {
    const volatile uint64_t *readings = t->readings, *radii = t->radii;
    const volatile uint8_t *room = t->room;
    if (fault("stem-write-reads-a-reading-more"))
        (void)readings[t->nreadings];
    if (fault("stem-write-reads-a-radius-more"))
        (void)radii[t->nradii];
    if (fault("stem-write-reads-a-reading-before"))
        (void)readings[-1];
    if (fault("stem-write-reads-a-radius-before"))
        (void)radii[-1];
    if (fault("stem-write-reads-a-radius-for-each-reading") && t->nreadings > t->nradii)
        (void)radii[t->nreadings - 1];
    if (fault("stem-write-reads-the-last-of-any-count") && t->nreadings > 4000)
        (void)readings[t->nreadings - 1];
    if (fault("stem-write-reads-behind-the-room"))
        (void)room[t->length];
}

/* Whether a call that is to be answered with `number` gets another one; it then writes nothing. */
static int told_otherwise(const struct task *t, uint8_t *number) {
    size_t none;
    int many = t->nreadings > 4000, is_short = t->length < file_length(t);
    int bad_gauge = real_zk_stem_write(t->kind, t->period, t->origin, t->readings, 0, t->radii, 0, t->room, 0, &none) == ZK_STEM_GAUGE;
    uint8_t before = *number;
    if (before == ZK_BAD_LENGTH && fault("stem-write-kind-before-lists") && t->kind > 1)
        *number = ZK_STEM_KIND;
    if (before == ZK_BAD_LENGTH && fault("stem-write-count-before-lists") && many)
        *number = ZK_STEM_COUNT;
    if (before == ZK_STEM_KIND && fault("stem-write-count-before-kind") && many)
        *number = ZK_STEM_COUNT;
    if (before == ZK_STEM_COUNT && fault("stem-write-gauge-before-count") && bad_gauge)
        *number = ZK_STEM_GAUGE;
    if (before == ZK_STEM_COUNT && fault("stem-write-room-before-count") && is_short)
        *number = ZK_STEM_ROOM;
    if (before == ZK_STEM_GAUGE && fault("stem-write-room-before-gauge") && is_short)
        *number = ZK_STEM_ROOM;
    if (fault("stem-write-asks-for-memory") && !memory_for(t->nreadings))
        *number = ZK_STEM_ROOM;
    if (fault("stem-write-period-compared-by-the-processor") && (before == 0 || before == ZK_STEM_GAUGE) && !above_zero(t->period))
        *number = ZK_STEM_GAUGE;
    if (before != ZK_FINISHED)
        return *number != before;
    if ((fault("stem-write-most-is-3999") && t->nreadings == 4000) || (fault("stem-write-no-points-refused") && t->nreadings == 0))
        *number = ZK_STEM_COUNT;
    if (fault("stem-write-room-of-a-byte-more-asked") && t->length == file_length(t))
        *number = ZK_STEM_ROOM;
    if ((fault("stem-write-some-denormals-refused") && t->period >> 33 != 0 && t->period >> 51 == 0) ||
        (fault("stem-write-negative-radius-refused") && t->nradii > 0 && t->radii[0] >> 63))
        *number = ZK_STEM_GAUGE;
    return *number != before;
}

/* What a refusal writes, though it may put it back. */
static void write_all_the_same(const struct task *t, uint8_t number, size_t *written) {
    volatile uint8_t *first = t->room;
    uint8_t header[26];
    size_t none;
    if (fault("stem-write-refusal-writes-the-length") && number == ZK_STEM_ROOM)
        *written = file_length(t);
    if (fault("stem-write-header-before-the-room-is-judged") && number == ZK_STEM_ROOM && t->length > 25)
        real_zk_stem_write(t->kind, t->period, t->origin, t->readings, 0, t->radii, 0, t->room, 26, &none);
    if (fault("stem-write-refusal-wipes-the-room") && number == ZK_STEM_GAUGE)
        memset(t->room, 0, t->length);
    if (fault("stem-write-refusal-written-and-put-back") && t->length > 0) {
        *first ^= 0xFF;
        *first ^= 0xFF;
    }
    if (fault("stem-write-short-room-header-put-back") && number == ZK_STEM_ROOM && t->length > 25) {
        memcpy(header, t->room, 26);
        real_zk_stem_write(t->kind, t->period, t->origin, t->readings, 0, t->radii, 0, t->room, 26, &none);
        memcpy(t->room, header, 26);
    }
}

static uint64_t spoilt(uint64_t pattern, int made_quiet) {
    if (made_quiet && is_nan(pattern))
        return pattern | UINT64_C(1) << 51;
    if (fault("stem-write-house-nan") && is_nan(pattern))
        return ZK_HOUSE_NAN64;
    if (fault("stem-write-nan-loses-its-sign") && is_nan(pattern))
        return pattern & ~sign64;
    if (fault("stem-write-denormals-flushed") && (pattern & infinity64) == 0)
        return pattern & sign64;
    if (fault("stem-write-zero-loses-its-sign") && pattern == sign64)
        return 0;
    if (fault("stem-write-flushes-as-the-processor-does"))
        return by_the_processor(pattern);
    return pattern;
}

static void spoil_points(const struct task *t) {
    size_t n = t->nreadings, i;
    for (i = 0; i < n; i++) {
        uint8_t *point = t->room + 26 + 16 * i;
        uint64_t reading = spoilt(t->readings[i], fault("stem-write-quiet-reading"));
        uint64_t radius = spoilt(t->radii[i], fault("stem-write-quiet-radius"));
        if (reading != t->readings[i])
            put(point, reading, 8);
        if (radius != t->radii[i])
            put(point + 8, radius, 8);
        if (fault("stem-write-radius-before-reading"))
            put(point, radius, 8), put(point + 8, reading, 8);
        if (fault("stem-write-list-after-list")) {
            put(t->room + 26 + 8 * i, reading, 8);
            put(t->room + 26 + 8 * (n + i), radius, 8);
        }
    }
}

/* What is done to a written file. The header and the last point are what was there before. */
static void spoil_file(const struct task *t, const uint8_t *header, const uint8_t *last_point) {
    static uint64_t period = 1;
    size_t n = t->nreadings;
    uint8_t *room = t->room, *end = room + file_length(t);
    if (fault("stem-write-version-of-one-byte"))
        room[4] = header[4];
    if (fault("stem-write-count-of-two-bytes"))
        memcpy(room + 8, header + 8, 2);
    if (fault("stem-write-count-big-endian"))
        put(room + 6, n >> 8 << 16 | n << 24, 4);
    if (fault("stem-write-period-and-origin-exchanged"))
        put(room + PERIOD, t->origin, 8), put(room + ORIGIN, t->period, 8);
    if (fault("stem-write-origin-loses-its-sign"))
        put(room + ORIGIN, t->origin & ~sign64, 8);
    if (fault("stem-write-period-of-the-call-before")) {
        put(room + PERIOD, period, 8);
        period = t->period;
    }
    if (fault("stem-write-last-point-missing") && n > 0)
        memcpy(end - 16, last_point, 16);
    if (fault("stem-write-last-radius-missing") && n > 0)
        memcpy(end - 8, last_point + 8, 8);
    if (fault("stem-write-a-byte-more") && t->length > file_length(t))
        *end = 0;
    if (fault("stem-write-rest-cleared"))
        memset(end, 0, t->length - file_length(t));
    if (fault("stem-write-writes-behind-the-room"))
        room[t->length] = 0;
    if (fault("stem-write-writes-before-the-room"))
        room[-1] = 0;
    if (fault("stem-write-readings-written") && n > 0)
        ((uint64_t *)t->readings)[0] ^= sign64;
    if (fault("stem-write-radii-written") && n > 0)
        ((uint64_t *)t->radii)[n - 1] ^= sign64;
    if (fault("stem-write-writes-before-the-readings"))
        ((uint64_t *)t->readings)[-1] = 0;
    if (fault("stem-write-writes-behind-the-radii"))
        ((uint64_t *)t->radii)[n] = 0;
}

/* A file that is too long for its limit or for the room by a little, written as far as it goes; 0 returned if there is none. */
static int written_too_long(const struct task *t, uint8_t number, uint8_t *copy, size_t *written) {
    struct task most = *t;
    if (fault("stem-write-most-is-4001") && number == ZK_STEM_COUNT && t->nreadings == 4001 && t->length >= file_length(t)) {
        most.nreadings = most.nradii = 4000;
        if (write_to(t->room, t->length, &most, written) != ZK_FINISHED)
            return 0;
        put(t->room + 6, 4001, 4);
        put(t->room + *written, t->readings[4000], 8);
        put(t->room + *written + 8, t->radii[4000], 8);
        *written += 16;
        return 1;
    }
    if (!fault("stem-write-room-of-a-byte-less") || number != ZK_STEM_ROOM || t->length + 1 != file_length(t))
        return 0;
    write_to(copy, COPIED, t, written);
    memcpy(t->room, copy, t->length);
    return 1;
}

uint8_t zk_stem_write(uint32_t kind, uint64_t period, uint64_t origin, const uint64_t *readings, size_t nreadings, const uint64_t *radii,
                      size_t nradii, uint8_t *room, size_t length, size_t *written) {
    uint8_t copy[COPIED]; /* not static: tests in Rust call from many threads */
    struct task t = {kind, period, origin, readings, radii, nreadings, nradii, room, length};
    size_t none;
    uint8_t number;
    if (fault("stem-write-turn-origin-left-out") && kind == ZK_TURN)
        t.origin = origin = 0;
    if (fault("stem-write-keeps-memory"))
        memory = malloc(16);
    read_lists(&t);
    cut_numbers(&t);
    make_gauge_good(&t);
    number = write_to(copy, t.length < COPIED ? t.length : COPIED, &t, &none);
    if (told_otherwise(&t, &number))
        return number;
    if (written_too_long(&t, number, copy, written))
        return ZK_FINISHED;
    if (number != ZK_FINISHED) {
        write_all_the_same(&t, number, written);
        return write_to(room, t.length, &t, written);
    }
    memcpy(copy, room, file_length(&t));
    write_to(room, t.length, &t, written);
    if (t.period != period)
        put(room + PERIOD, period, 8);
    if (t.origin != origin)
        put(room + ORIGIN, origin, 8);
    t.length = length;
    spoil_points(&t);
    spoil_file(&t, copy, copy + file_length(&t) - 16);
    if (fault("stem-write-length-one-too-many"))
        *written += 1;
    if (fault("stem-write-length-without-the-header"))
        *written -= 26;
    if (fault("stem-write-length-of-the-room"))
        *written = length;
    if (fault("stem-write-writes-behind-the-length"))
        written[1] = 0;
    return number;
}
