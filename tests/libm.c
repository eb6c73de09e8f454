/*
 * Remainders, rem's and remquo's, against the C library's fmod, remainder and remquo, for binary64, binary32 and x87 (long double).
 *
 *   libm [PAIRS [SEED [BITS]]]    PAIRS of operands for each of the three formats; BITS of the quotient that remquo and remquof give (3)
 *
 * C promises the sign of x/y and three bits. Every eighth pair has all 31: the next three bits are remquo's by 8y, and so on. musl's remquo
 * and remquof give 31 by themselves; long double has three bits everywhere.
 *
 * remainder and remquo are the same remainder by C and IEEE 754, but in some C libraries they are not: glibc 2.36's binary64 remainder
 * takes an odd quotient at some halves, and gives some zeros the other sign than the dividend's. Such a pair is counted, and IEEE 754
 * decides it: it must be a half or a zero, the two answers must differ in the sign alone, and remquo's must be the right one.
 *
 * Then an eighth as many pairs with NaNs: all three functions give a NaN operand itself, made quiet. Which one of two, C does not say. In
 * float and double it is the first one of a product, in whatever order that was compiled, in long double the processor's choice
 * (tests/fprem.c). So the C library's NaN has to be one of the two, made quiet. Where it is the one that 3 speaks of, it is compared; where
 * it is the other one, the pair is only counted.
 */
#include "operands.h"

#include <math.h>

/* What the C library says of a pair. */
struct theirs {
    struct pattern truncated, nearest; /* fmod's and remquo's */
    int quotient;                      /* as remquo stores it */
    uint32_t cut;                      /* the low bits of the cut quotient, */
    int bits;                          /* so many of them */
    uint8_t number;                    /* what the scope gives for these classes of operands */
    int is_nan;                        /* all three gave a NaN */
    int disputed;                      /* remainder is not remquo's */
    int decided;                       /* and IEEE 754 decides for remquo's */
};

enum { PROMISED = 3, ALL = 31 };

static int given = PROMISED; /* by one call of remquo or remquof */

static uint32_t low(uint32_t quotient, int bits) {
    return quotient & ((UINT32_C(1) << bits) - 1);
}

static uint32_t magnitude(int quotient) {
    return quotient < 0 ? 0u - (uint32_t)quotient : (uint32_t)quotient;
}

/* The cut quotient is one less than the nearest one where the nearest remainder n has turned its sign. */
#define CUT(x, n, q) (magnitude(q) - (!signbit(x) != !signbit(n)))

/* All bits of the cut quotient, by three. A divisor that is beyond the range becomes infinite, and is above x too. */
#define CUT_ALL(NAME, TYPE, REMQUO)                                    \
    static uint32_t NAME(TYPE x, TYPE y) {                             \
        uint32_t cut = 0;                                              \
        int place;                                                     \
        for (place = 0; place < ALL; place += PROMISED, y *= 8) {      \
            int q = 0;                                                 \
            TYPE n = REMQUO(x, y, &q);                                 \
            cut |= low(CUT(x, n, q), PROMISED) << place;               \
        }                                                              \
        return low(cut, ALL);                                          \
    }

CUT_ALL(cut64, double, remquo)
CUT_ALL(cut32, float, remquof)
#ifdef ZK_LONG_DOUBLE_IS_X87
CUT_ALL(cut80, long double, remquol)
#endif

/* 3, 4 and 5 in their order, from the C library's own judgement of the operands. */
#define NUMBER(x, y) (isnan(x) || isnan(y) ? ZK_NAN : isinf(x) ? ZK_INFINITE : (y) == 0 ? ZK_ZERO_DIVISOR : ZK_FINISHED)

/* r is remainder's answer, n is remquo's with its quotient q. */
#define DISPUTED(r, n) (!isnan(n) && ((r) != (n) || !signbit(r) != !signbit(n)))
#define DECIDED(x, y, r, n, q)                                                                                                            \
    ((n) == 0 ? (r) == 0 && !signbit(n) == !signbit(x) : (r) == -(n) && (2 * (n) == (y) || 2 * (n) == -(y)) && (q) % 2 == 0)

static struct theirs ask64(struct pattern px, struct pattern py, int all) {
    double x = zk_double_of_pattern(px.bits), y = zk_double_of_pattern(py.bits);
    int q = 0;
    double t = fmod(x, y), r = remainder(x, y), n = remquo(x, y, &q);
    struct theirs c = {{zk_pattern_of_double(t), 0}, {zk_pattern_of_double(n), 0}, q, all ? cut64(x, y) : CUT(x, n, q), all ? ALL : given,
                       NUMBER(x, y), isnan(t) && isnan(r) && isnan(n), DISPUTED(r, n), DECIDED(x, y, r, n, q)};
    return c;
}

static struct theirs ask32(struct pattern px, struct pattern py, int all) {
    float x = zk_float_of_pattern((uint32_t)px.bits), y = zk_float_of_pattern((uint32_t)py.bits);
    int q = 0;
    float t = fmodf(x, y), r = remainderf(x, y), n = remquof(x, y, &q);
    struct theirs c = {{zk_pattern_of_float(t), 0}, {zk_pattern_of_float(n), 0}, q, all ? cut32(x, y) : CUT(x, n, q), all ? ALL : given,
                       NUMBER(x, y), isnan(t) && isnan(r) && isnan(n), DISPUTED(r, n), DECIDED(x, y, r, n, q)};
    return c;
}

#ifdef ZK_LONG_DOUBLE_IS_X87
static struct theirs ask80(struct pattern px, struct pattern py, int all) {
    long double x = zk_long_double_of_pattern(px.bits, px.word), y = zk_long_double_of_pattern(py.bits, py.word);
    struct theirs c = {{0, 0}, {0, 0}, 0, 0, all ? ALL : PROMISED, ZK_UNSUPPORTED, 1, 0, 0};
    long double t, r, n;
    /* C has no word for these patterns */
    if (is_unsupported(px) || is_unsupported(py))
        return c;
    t = fmodl(x, y);
    r = remainderl(x, y);
    n = remquol(x, y, &c.quotient);
    c.truncated = of_long_double(t);
    /* glibc's remquol alone gives a pseudo-denormal back as it came, by divisors with e from 32764 on */
    c.nearest = ordinary(of_long_double(n));
    c.cut = all ? cut80(x, y) : CUT(x, n, c.quotient);
    c.number = NUMBER(x, y);
    c.is_nan = isnan(t) && isnan(r) && isnan(n);
    c.disputed = DISPUTED(r, n);
    c.decided = DECIDED(x, y, r, n, c.quotient);
    return c;
}
#endif

static struct theirs ask(int f, struct pair p, int all) {
#ifdef ZK_LONG_DOUBLE_IS_X87
    if (f == X87)
        return ask80(p.x, p.y, all);
#endif
    return f == BINARY64 ? ask64(p.x, p.y, all) : ask32(p.x, p.y, all);
}

/* The low bits of their quotient; the sign is remquo's. */
static uint32_t their_quotient(int f, struct pair p, struct theirs c, uint32_t kind) {
    int turned = is_negative(f, c.nearest) != is_negative(f, p.x);
    return low(c.cut + (kind == ZK_NEAREST && turned), c.bits);
}

static void print_theirs(int f, struct pair p, uint32_t kind, struct theirs c) {
    printf("  C library  %s quotient %lu modulo 2^%d, remquo's %d, number %u%s\n", text(f, kind == ZK_TRUNCATED ? c.truncated : c.nearest),
           (unsigned long)their_quotient(f, p, c, kind), c.bits, c.quotient, c.number,
           c.disputed && !c.decided ? ", its remainder and remquo differ" : "");
}

/* The number and the value, of either function. */
static int is_right(struct theirs c, uint32_t kind, struct reply r) {
    if (r.number != c.number || r.touched || c.is_nan != (c.number != 0) || (c.disputed && !c.decided))
        return 0;
    return c.number != 0 || same(r.value, kind == ZK_TRUNCATED ? c.truncated : c.nearest);
}

static int is_right_quotient(int f, struct pair p, struct theirs c, uint32_t kind, uint32_t quotient) {
    return c.number != 0 || (quotient < ZK_QUOTIENT_MODULUS && low(quotient, c.bits) == their_quotient(f, p, c, kind));
}

/* That of x/y, and C's. A 0 has none, and a 0 of C's may be the low bits of something else. */
static int is_right_sign(int f, struct pair p, struct theirs c, int32_t quotient) {
    int unlike = is_negative(f, p.x) != is_negative(f, p.y);
    return quotient == 0 || ((quotient < 0) == unlike && (c.quotient == 0 || (quotient < 0) == (c.quotient < 0)));
}

static void compare_rem(int f, struct pair p, struct theirs c, uint32_t kind, struct reply r) {
    if ((is_right(c, kind, r) && is_right_quotient(f, p, c, kind, r.quotient)) || !differs())
        return;
    printf("%s %s by %s kind %u:\n", formats[f].name, text(f, p.x), text(f, p.y), (unsigned)kind);
    printf("  zukemoriha %s quotient %lu number %u%s\n", text(f, r.value), (unsigned long)r.quotient, r.number,
           r.touched ? ", wrote where it may not" : "");
    print_theirs(f, p, kind, c);
}

static void compare_remquo(int f, struct pair p, struct theirs c, uint32_t kind, struct reply r) {
    if ((is_right(c, kind, r) && is_right_quotient(f, p, c, kind, magnitude(r.signed_quotient)) &&
         is_right_sign(f, p, c, r.signed_quotient)) ||
        !differs())
        return;
    printf("remquo of %s %s by %s kind %u:\n", formats[f].name, text(f, p.x), text(f, p.y), (unsigned)kind);
    printf("  zukemoriha %s quotient %ld number %u%s\n", text(f, r.value), (long)r.signed_quotient, r.number,
           r.touched ? ", wrote where it may not" : "");
    print_theirs(f, p, kind, c);
}

/* Where rem and remquo are not alike, all bits of the quotient say which one is wrong. */
static void compare(int f, struct pair p, struct theirs c, uint32_t kind) {
    struct reply rem = call_rem(f, p.x, p.y, kind), remquo = call_remquo(f, p.x, p.y, kind);
    if (!agrees_with_rem(f, p.x, p.y, remquo, rem))
        c = ask(f, p, 1);
    compare_rem(f, p, c, kind, rem);
    compare_remquo(f, p, c, kind, remquo);
}

static void compare_format(int f, uint64_t pairs, uint64_t seed) {
    struct coverage seen;
    uint64_t i, state = seed + (uint64_t)f, refused = 0, disputed = 0, whole = 0;
    memset(&seen, 0, sizeof seen);
    next_part();
    for (i = 0; going(i, pairs); i++) {
        struct pair p = any_pair(f, &state);
        struct theirs c = ask(f, p, i % 8 == 0);
        cover(&seen, f, p);
        refused += c.number != 0;
        disputed += c.disputed;
        whole += c.number == 0 && c.bits == ALL;
        compare(f, p, c, ZK_TRUNCATED);
        compare(f, p, c, ZK_NEAREST);
    }
    printf("%s: %" PRIu64 " pairs, both kinds, %" PRIu64 " of them refused, %" PRIu64 " with all bits of the quotient", formats[f].name,
           pairs, refused, whole);
    if (disputed)
        printf("; the C library's remainder is not its remquo in %" PRIu64 ", decided by IEEE 754", disputed);
    printf("\n");
    print_coverage(&seen, f);
}

/* ---- NaNs */

enum { FMOD, REMAINDER, REMQUO, FUNCTIONS };

static const char *const function_names[FUNCTIONS] = {"fmod", "remainder", "remquo"};

/* What the C library makes of a pair with a NaN, and whose NaNs they are. */
struct their_nans {
    struct pattern given[FUNCTIONS];
    int of_x, of_y;
};

#define ASK_NANS(NAME, TYPE, FMOD_OF, REMAINDER_OF, REMQUO_OF, OF_PATTERN, TO_PATTERN)         \
    static struct their_nans NAME(struct pair p) {                                             \
        TYPE x = OF_PATTERN(p.x), y = OF_PATTERN(p.y);                                         \
        struct their_nans c;                                                                   \
        int q;                                                                                 \
        c.given[FMOD] = TO_PATTERN(FMOD_OF(x, y));                                             \
        c.given[REMAINDER] = TO_PATTERN(REMAINDER_OF(x, y));                                   \
        c.given[REMQUO] = TO_PATTERN(REMQUO_OF(x, y, &q));                                     \
        c.of_x = isnan(x) != 0;                                                                \
        c.of_y = isnan(y) != 0;                                                                \
        return c;                                                                              \
    }

ASK_NANS(ask_nans64, double, fmod, remainder, remquo, double_of, of_double)
ASK_NANS(ask_nans32, float, fmodf, remainderf, remquof, float_of, of_float)
#ifdef ZK_LONG_DOUBLE_IS_X87
ASK_NANS(ask_nans80, long double, fmodl, remainderl, remquol, long_double_of, of_long_double)
#endif

static struct their_nans ask_nans(int f, struct pair p) {
#ifdef ZK_LONG_DOUBLE_IS_X87
    if (f == X87)
        return ask_nans80(p);
#endif
    return f == BINARY64 ? ask_nans64(p) : ask_nans32(p);
}

static uint64_t fraction_of(int f, struct pattern x) {
    return x.bits & ((UINT64_C(1) << (formats[f].precision - 1)) - 1);
}

static struct pattern quiet(int f, struct pattern x) {
    x.bits |= UINT64_C(1) << (formats[f].precision - 2);
    return x;
}

static struct {
    uint64_t one, two, others;
} nans;

static void compare_nan(int f, struct pair p) {
    struct their_nans c = ask_nans(f, p);
    struct reply ours = call_nan(f, p.x, p.y);
    int both = c.of_x && c.of_y, is_y = both ? fraction_of(f, p.y) > fraction_of(f, p.x) : c.of_y, i;
    struct pattern right = quiet(f, is_y ? p.y : p.x), other = quiet(f, is_y ? p.x : p.y);
    for (i = 0; i < FUNCTIONS; i++) {
        struct pattern theirs = c.given[i];
        int is_other = both && same(theirs, other) && !same(theirs, right);
        nans.others += (uint64_t)is_other;
        nans.two += (uint64_t)(both && !is_other);
        nans.one += !both;
        if (!is_other && (!same(theirs, right) || !same(ours.value, theirs) || ours.touched) && differs())
            printf("%s of %s NaNs, %s by %s:\n  zukemoriha %s%s\n  C library  %s\n", function_names[i], formats[f].name, text(f, p.x),
                   text(f, p.y), text(f, ours.value), ours.touched ? ", wrongly written" : "", text(f, theirs));
    }
}

static void compare_nans(int f, uint64_t pairs, uint64_t seed) {
    uint64_t i, state = seed + (uint64_t)f;
    memset(&nans, 0, sizeof nans);
    next_part();
    for (i = 0; going(i, pairs); i++) {
        struct pair p = nan_pair(f, &state);
        if (f != X87 || (!is_unsupported(p.x) && !is_unsupported(p.y)))
            compare_nan(f, p);
    }
    printf("  NaNs of fmod, remainder and remquo:");
    print_pairs("one", nans.one);
    print_pairs("two", nans.two);
    printf(" the other of two %" PRIu64 "\n", nans.others);
}

/* The third argument: how many bits remquo and remquof give. */
static int bits_asked(int argc, char **argv) {
    long bits = argc > 3 ? strtol(argv[3], NULL, 10) : PROMISED;
    if (bits < PROMISED || bits > ALL) {
        fprintf(stderr, "%s: bits of a quotient are from 3 to 31\n", argv[0]);
        exit(2);
    }
    return (int)bits;
}

int main(int argc, char **argv) {
    uint64_t pairs = pairs_asked(argc, argv, 2000000), seed = seed_asked(argc, argv);
    given = bits_asked(argc, argv);
    compare_format(BINARY64, pairs, seed);
    compare_nans(BINARY64, pairs / 8 + 1, seed);
    compare_format(BINARY32, pairs, seed);
    compare_nans(BINARY32, pairs / 8 + 1, seed);
#ifdef ZK_LONG_DOUBLE_IS_X87
    compare_format(X87, pairs, seed);
    compare_nans(X87, pairs / 8 + 1, seed);
#else
    printf("x87: long double is another format here, not compared\n");
#endif
    return verdict();
}
