/*
 * Scaling against ldexp and splitting against frexp, in three formats. frexp gives significands from 1/2 to below 1, and exponents that
 * are larger by 1.
 */
#include "peers.h"
#include "tables.h"

#define X32 o->x.binary32[i]
#define X64 o->x.binary64[i]
#define X80 o->x.x87[i].pattern.significand, o->x.x87[i].pattern.word
#define VALUE32 a->values.binary32[i]
#define VALUE64 a->values.binary64[i]
#define VALUE80 &a->values.x87[i].pattern.significand, &a->values.x87[i].pattern.word
#define POWER o->powers[i]
#define EXPONENT &a->exponents[i]
#define SAYS &a->bytes[i]

EACH(scale32, zk_scale32(X32, POWER, &VALUE32, SAYS))
EACH(scale64, zk_scale64(X64, POWER, &VALUE64, SAYS))
EACH(scale80, zk_scale80(X80, POWER, VALUE80, SAYS))
EACH(each_ldexpf, VALUE32 = zk_pattern_of_float(libc_ldexpf(zk_float_of_pattern(X32), POWER)))
EACH(each_ldexp, VALUE64 = zk_pattern_of_double(libc_ldexp(zk_double_of_pattern(X64), POWER)))
EACH(each_ldexpl, a->values.x87[i].number = libc_ldexpl(o->x.x87[i].number, POWER))

EACH(split32, zk_split32(X32, &VALUE32, EXPONENT))
EACH(split64, zk_split64(X64, &VALUE64, EXPONENT))
EACH(split80, zk_split80(X80, VALUE80, EXPONENT))
EACH(each_frexpf, VALUE32 = zk_pattern_of_float(libc_frexpf(zk_float_of_pattern(X32), EXPONENT)))
EACH(each_frexp, VALUE64 = zk_pattern_of_double(libc_frexp(zk_double_of_pattern(X64), EXPONENT)))
EACH(each_frexpl, a->values.x87[i].number = libc_frexpl(o->x.x87[i].number, EXPONENT))

/* A pass in the format of the operands. */
#define BY_FORMAT(name, pass32, pass64, pass80) \
    static void name(const struct operands *o, struct answers *a) { \
        (o->format == BINARY32 ? pass32 : o->format == BINARY64 ? pass64 : pass80)(o, a); \
    }

BY_FORMAT(scale, scale32, scale64, scale80)
BY_FORMAT(libc_scale, each_ldexpf, each_ldexp, each_ldexpl)
BY_FORMAT(split, split32, split64, split80)
BY_FORMAT(libc_split, each_frexpf, each_frexp, each_frexpl)

/* Whether our value is theirs with the exponent field raised by so much. */
static int is_raised(const struct operands *o, const struct numbers *ours, const struct numbers *theirs, size_t i, unsigned by) {
    if (o->format == BINARY32)
        return ours->binary32[i] == theirs->binary32[i] + (by << 23);
    if (o->format == BINARY64)
        return ours->binary64[i] == theirs->binary64[i] + ((uint64_t)by << 52);
    return ours->x87[i].pattern.significand == theirs->x87[i].pattern.significand &&
           ours->x87[i].pattern.word == theirs->x87[i].pattern.word + by;
}

static int scale_differs(const struct operands *o, const struct answers *ours, const struct answers *theirs, size_t i) {
    return !is_raised(o, &ours->values, &theirs->values, i, 0);
}

static int split_differs(const struct operands *o, const struct answers *ours, const struct answers *theirs, size_t i) {
    return !is_raised(o, &ours->values, &theirs->values, i, 1) || ours->exponents[i] != theirs->exponents[i] - 1;
}

static const struct peer scalings[] = {
    {"zukemoriha", scale, NULL, 0, 0},
    {libc_name, libc_scale, scale_differs, 0, 0},
    {NULL, NULL, NULL, 0, 0},
};

static const struct peer splits[] = {
    {"zukemoriha", split, NULL, 0, 0},
    {libc_name, libc_split, split_differs, 0, 0},
    {NULL, NULL, NULL, 0, 0},
};

/*
 * The field of a row is the largest one of its operands, or 0 for denormals. Least and most are fields of the results: below 1 they get
 * denormals. A denormal operand may have any exponent below 1, so its least power is a whole significand's.
 */
static void fill_scaling(struct operands *o, const struct row *row) {
    uint64_t state = 3, random;
    unsigned field;
    size_t i;
    for (i = 0; i < o->n; i++) {
        field = row->field == 0 ? 0 : 1 + (unsigned)(draw(&state) % row->field);
        random = row->field == 0 ? draw_denormal(&state, row->format) : draw(&state);
        put(&o->x, row->format, i, random, field);
        o->powers[i] = row->least + (int32_t)(draw(&state) % (uint64_t)(row->most - row->least + 1)) - (int32_t)field;
    }
}

static const struct row scaling_rows[] = {
    {"binary32, normal results", BINARY32, 1, 254, 254, 0},
    {"binary32, denormal results, rounded", BINARY32, -22, 0, 254, 0},
    {"binary32, denormal operands", BINARY32, 24, 254, 0, 0},
    {"binary64, normal results", BINARY64, 1, 2046, 2046, 0},
    {"binary64, denormal results, rounded", BINARY64, -51, 0, 2046, 0},
    {"binary64, denormal operands", BINARY64, 53, 2046, 0, 0},
    {"x87, normal results", X87, 1, 32766, 32766, 0},
    {"x87, denormal results, rounded", X87, -62, 0, 32766, 0},
    {"x87, denormal operands", X87, 64, 32766, 0, 0},
    {NULL, BINARY64, 0, 0, 0, 0},
};

static const struct row split_rows[] = {
    {"binary32, normal operands", BINARY32, 0, 0, 254, 0},
    {"binary32, denormal operands", BINARY32, 0, 0, 0, 0},
    {"binary64, normal operands", BINARY64, 0, 0, 2046, 0},
    {"binary64, denormal operands", BINARY64, 0, 0, 0, 0},
    {"x87, normal operands", X87, 0, 0, 32766, 0},
    {"x87, denormal operands", X87, 0, 0, 0, 0},
    {NULL, BINARY64, 0, 0, 0, 0},
};

const struct table scaling_tables[] = {
    {"Scaling, against ldexp", "scaling", "Format", scalings, scaling_rows, fill_scaling, WHOLE},
    {"Splitting, against frexp", "split", "Format", splits, split_rows, fill_scaling, WHOLE},
    {NULL, NULL, NULL, NULL, NULL, NULL, WHOLE},
};
