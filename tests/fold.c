/*
 * Lists of up to 4,096 places against the remainder of each place in one call, with its quotient modulo 8. Most of the places are up to 64
 * halves of the divisor, so that ties and quotients above 8 come up, and one in sixteen is marked: it has the NaN that it was, made quiet,
 * or the house NaN for an infinity.
 *
 *   fold [LISTS [SEED]]
 */
#include "operands.h"

enum { MOST = 4096 };

static uint64_t any_place(double divisor, uint64_t *state) {
    switch (below(state, 16)) {
    case 0: return below(state, 2) ? any_nan(BINARY64, state).bits : infinity(BINARY64, below(state, 2)).bits;
    case 1:
    case 2: return any_pair(BINARY64, state).x.bits;
    default: return zk_pattern_of_double(divisor * 0.5 * between(state, -64, 64));
    }
}

static void differ(size_t place, const char *what) {
    if (differs())
        printf("place %lu: %s\n", (unsigned long)place, what);
}

static uint64_t nans;

/* One place of a folded list; 1 if it is marked. */
static int compare_place(size_t i, uint64_t x, uint64_t y, uint32_t kind, uint64_t result, uint8_t byte) {
    struct pattern px = {x, 0}, py = {y, 0};
    struct reply r = call_rem(BINARY64, px, py, kind);
    int marked = !zk_is_answer(r.number), is_nan = r.number == ZK_NAN;
    uint64_t mark = is_nan ? x | UINT64_C(1) << 51 : ZK_HOUSE_NAN64;
    nans += (uint64_t)is_nan;
    if (!marked && (result != r.value.bits || byte != r.quotient % 8))
        differ(i, "the list's answer is not the one-call remainder");
    if (marked && (result != mark || byte != ZK_MARK))
        differ(i, is_nan ? "a NaN's place has another one" : "an infinity's place has another mark");
    return marked;
}

/* A list, and how many of its places are marked. The place behind the list must stay as it is. */
static size_t compare_list(uint64_t *state) {
    static uint64_t x[MOST], results[MOST + 1];
    static uint8_t quotients[MOST + 1];
    uint64_t y = any_finite(BINARY64, state).bits;
    uint32_t kind = (uint32_t)below(state, 2);
    size_t n = (size_t)below(state, MOST + 1), marked = 0, told = 0, i;
    for (i = 0; i < n; i++)
        x[i] = any_place(zk_double_of_pattern(y), state);
    results[n] = filling;
    quotients[n] = filling;
    if (zk_fold64(x, n, results, n, quotients, n, y, kind, &told) != ZK_FINISHED)
        differ(n, "the list is refused");
    for (i = 0; i < n; i++)
        marked += (size_t)compare_place(i, x[i], y, kind, results[i], quotients[i]);
    if (told != marked || results[n] != filling || quotients[n] != filling)
        differ(n, "the count of marked places, or what lies behind the list");
    return marked;
}

int main(int argc, char **argv) {
    uint64_t lists = pairs_asked(argc, argv, 500), state = seed_asked(argc, argv), marked = 0, i;
    for (i = 0; going(i, lists); i++)
        marked += compare_list(&state);
    printf("%" PRIu64 " lists, %" PRIu64 " places marked, %" PRIu64 " of them NaNs\n", lists, marked, nans);
    return verdict();
}
