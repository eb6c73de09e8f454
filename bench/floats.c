/* binary32 and binary16 remainders, one call a pair. The peers of binary16 take its operands as floats, which were widened before. */
#include "peers.h"
#include "tables.h"

#define X o->x.binary32[i]
#define Y o->y.binary32[i]
#define OF_FLOATS(function) a->values.binary32[i] = zk_pattern_of_float(function(zk_float_of_pattern(X), zk_float_of_pattern(Y)))
#define REM32(kind) zk_rem32(X, Y, kind, &a->values.binary32[i], &a->quotients[i])
#define REM16(kind) zk_rem16(o->x.binary16[i], o->y.binary16[i], kind, &a->values.binary16[i], &a->quotients[i])

EACH(truncated32, REM32(ZK_TRUNCATED))
EACH(nearest32, REM32(ZK_NEAREST))
EACH(truncated16, REM16(ZK_TRUNCATED))
EACH(nearest16, REM16(ZK_NEAREST))
EACH(each_libc_fmodf, OF_FLOATS(libc_fmodf))
EACH(each_libc_remainderf, OF_FLOATS(libc_remainderf))
EACH(each_musl_fmodf, OF_FLOATS(musl_fmodf))
EACH(each_musl_remainderf, OF_FLOATS(musl_remainderf))

static void each_truncated(const struct operands *o, struct answers *a) {
    (o->format == BINARY32 ? truncated32 : truncated16)(o, a);
}

static void each_nearest(const struct operands *o, struct answers *a) {
    (o->format == BINARY32 ? nearest32 : nearest16)(o, a);
}

/* Widening gives different floats for different binary16: equal ones are the same answer. */
static int value_differs(const struct operands *o, const struct answers *ours, const struct answers *theirs, size_t i) {
    uint32_t expected = o->format == BINARY32 ? ours->values.binary32[i] : widened(ours->values.binary16[i]);
    return expected != theirs->values.binary32[i];
}

static const struct peer truncated[] = {
    {"zukemoriha", each_truncated, NULL, 0, 0},
    {libc_name, each_libc_fmodf, value_differs, 0, 0},
    {"musl", each_musl_fmodf, value_differs, 0, 0},
    {NULL, NULL, NULL, 0, 0},
};

static const struct peer nearest[] = {
    {"zukemoriha", each_nearest, NULL, 0, 0},
    {libc_name, each_libc_remainderf, value_differs, 0, 0},
    {"musl", each_musl_remainderf, value_differs, 0, 0},
    {NULL, NULL, NULL, 0, 0},
};

static const struct row rows[] = {
    {"binary32, 0 to 10", BINARY32, 0, 10, 100, 0},   {"binary32, 0 to 63", BINARY32, 0, 63, 100, 0},
    {"binary32, 64 to 253", BINARY32, 64, 253, 1, 0}, {"binary16, 0 to 10", BINARY16, 0, 10, 10, 0},
    {"binary16, 11 to 29", BINARY16, 11, 29, 1, 0},   {NULL, BINARY32, 0, 0, 0, 0},
};

const struct table float_tables[] = {
    {"binary32 and binary16, one call, truncated", "remainder", "Format, D", truncated, rows, fill_gaps, WHOLE},
    {"binary32 and binary16, one call, nearest", "remainder", "Format, D", nearest, rows, fill_gaps, WHOLE},
    {NULL, NULL, NULL, NULL, NULL, NULL, WHOLE},
};
