/*
 * Scaling and splitting against the C library's ldexp and frexp, for binary64, binary32 and x87 (long double). What scaling says of its
 * rounding is held to the result scaled back: a power that lowers a value loses bits, and the way back loses none. binary16, which C has no
 * type for, is scaled as a double that counts its smallest place, and rounded by rint.
 * The NaN of a refusal is held to what both functions give for it; a NaN of binary16 has no such double and is passed over. Whether an
 * operand is denormal is held to fpclassify, in binary16 to the count; C calls pseudo-denormals normal numbers, and they are passed over.
 *
 *   ldexp [CASES [SEED [PLACES]]]    CASES of each for each format, then scalings around halves, by up to PLACES places (130)
 */
#include "halves.h"

#include <math.h>

/* What the C library says of x times 2^power, and of x split. */
struct theirs {
    struct pattern scaled, significand;
    int says;
    int exponent;
    int denormal;
    uint8_t scale_number, split_number;
};

/* frexp's significand is from a half to below 1, and the library's from 1 to below 2. A NaN is quiet once it is doubled, if not before. */
#define ASK(NAME, TYPE, LDEXP, FREXP, OF_PATTERN, TO_PATTERN)                                                                              \
    static struct theirs NAME(struct pattern px, int power) {                                                                             \
        TYPE x = OF_PATTERN(px), scaled = LDEXP(x, power), back = LDEXP(scaled, -power), significand;                                      \
        struct theirs c;                                                                                                                  \
        significand = 2 * FREXP(x, &c.exponent);                                                                                          \
        c.exponent--;                                                                                                                     \
        c.scaled = TO_PATTERN(scaled);                                                                                                    \
        c.significand = TO_PATTERN(significand);                                                                                          \
        c.denormal = fpclassify(x) == FP_SUBNORMAL;                                                                                       \
        c.scale_number = isnan(x) ? ZK_NAN : ZK_FINISHED;                                                                                 \
        c.split_number = isnan(x) ? ZK_NAN : isinf(x) ? ZK_INFINITE : x == 0 ? ZK_ZERO_SPLIT : ZK_FINISHED;                               \
        c.says = isinf(x) ? ZK_EXACT : isinf(scaled) || (x < 0 ? back < x : back > x) ? ZK_UP : back == x ? ZK_EXACT : ZK_DOWN;         \
        return c;                                                                                                                         \
    }

ASK(ask32, float, ldexpf, frexpf, float_of, of_float)
ASK(ask64, double, ldexp, frexp, double_of, of_double)

#ifdef ZK_LONG_DOUBLE_IS_X87
ASK(ask80, long double, ldexpl, frexpl, long_double_of, of_long_double)
#endif

/* The binary16 pattern of a count of its smallest place that it holds, or of infinity from 2^40 on. */
static struct pattern of_count(double count) {
    struct operand o;
    int exponent;
    if (fabs(count) >= 1099511627776.0)
        return infinity(BINARY16, count < 0);
    if (count == 0)
        return signed_pattern(BINARY16, signbit(count) != 0, 0, 0);
    o.significand = (uint64_t)ldexp(frexp(fabs(count), &exponent), 64);
    o.exponent = exponent - 1 + formats[BINARY16].smallest;
    o.negative = count < 0;
    return encode(BINARY16, o);
}

static double count_of(struct pattern x) {
    int fraction = (int)(x.bits & 1023), field = (int)(x.bits >> 10 & 31);
    double count = field == 31 ? (fraction ? NAN : INFINITY) : field ? ldexp(1024 + fraction, field - 1) : fraction;
    return is_negative(BINARY16, x) ? -count : count;
}

/* A whole number of places is rounded to nothing else than itself, so that rint rounds only what falls below the smallest place. */
static struct theirs ask16(struct pattern px, int power) {
    double x = count_of(px), exact = ldexp(x, power), scaled = rint(exact);
    struct theirs c;
    c.significand = of_count(ldexp(frexp(x, &c.exponent), 1 - formats[BINARY16].smallest));
    c.exponent += formats[BINARY16].smallest - 1;
    c.scaled = of_count(scaled);
    c.denormal = x != 0 && fabs(x) < 1024;
    c.scale_number = isnan(x) ? ZK_NAN : ZK_FINISHED;
    c.split_number = isnan(x) ? ZK_NAN : isinf(x) ? ZK_INFINITE : x == 0 ? ZK_ZERO_SPLIT : ZK_FINISHED;
    c.says = isinf(x) || x == 0 ? ZK_EXACT : fabs(scaled) >= 1099511627776.0 || fabs(scaled) > fabs(exact) ? ZK_UP
             : scaled == exact  ? ZK_EXACT
                                : ZK_DOWN;
    return c;
}

static struct theirs ask(int f, struct pattern x, int power) {
#ifdef ZK_LONG_DOUBLE_IS_X87
    if (f == X87)
        return ask80(x, power);
#endif
    return f == BINARY64 ? ask64(x, power) : f == BINARY32 ? ask32(x, power) : ask16(x, power);
}

/* A power that takes x near the end of the range or the smallest place, or any that the format can tell from a larger one. */
static int any_power(int f, struct pattern x, uint64_t *state) {
    int largest = largest_gap(f), place, near = between(state, -70, 70);
    if (below(state, 4) == 0 || !leading_place(f, x, &place))
        return between(state, -largest - 80, largest + 80);
    return (below(state, 4) == 0 ? formats[f].bias : formats[f].smallest) - place + near;
}

static void print_case(int f, struct pattern x, const char *what, struct reply r, struct pattern theirs, int second, uint8_t number) {
    printf("%s %s %s:\n  zukemoriha %s %d number %u\n  C library  %s %d number %u\n", formats[f].name, text(f, x), what, text(f, r.value),
           r.says + r.exponent, r.number, text(f, theirs), second, number);
}

static uint64_t nans, denormals;

static void compare_nan(int f, struct pattern x, const char *function, struct pattern theirs) {
    struct reply ours = call_nan(f, x, x);
    if ((!same(ours.value, theirs) || ours.touched) && differs())
        printf("%s NaN %s by %s:\n  zukemoriha %s%s\n  C library  %s\n", formats[f].name, text(f, x), function, text(f, ours.value),
               ours.touched ? ", wrongly written" : "", text(f, theirs));
}

/* What is told of an operand beside its number. */
static void compare_operand(int f, struct pattern x, struct theirs c) {
    unsigned denormal = call_denormal(f, x);
    if (c.scale_number == ZK_NAN && f != BINARY16) {
        nans++;
        compare_nan(f, x, "ldexp", c.scaled);
        compare_nan(f, x, "frexp", c.significand);
    }
    if (f == X87 && is_pseudo_denormal(x))
        return;
    denormals += (uint64_t)c.denormal;
    if (denormal != (unsigned)c.denormal && differs())
        printf("%s %s denormal: %u, by the C library %d\n", formats[f].name, text(f, x), denormal, c.denormal);
}

static void compare_scaling(int f, struct pattern x, int power, struct theirs c, const char *how) {
    struct reply r = call_scale(f, x, power);
    int right = r.number == c.scale_number && !r.touched;
    char what[32];
    if (right && r.number == 0)
        right = same(r.value, c.scaled) && r.says == c.says;
    if (right || !differs())
        return;
    sprintf(what, "%s by %d", how, power);
    print_case(f, x, what, r, c.scaled, c.says, c.scale_number);
}

static void compare_splitting(int f, struct pattern x, struct theirs c) {
    struct reply r = call_split(f, x);
    int right = r.number == c.split_number && !r.touched;
    if (right && r.number == 0)
        right = same(r.value, c.significand) && r.exponent == c.exponent;
    if (!right && differs())
        print_case(f, x, "split", r, c.significand, c.exponent, c.split_number);
}

static void compare_format(int f, uint64_t cases, uint64_t seed) {
    uint64_t i, state = seed + (uint64_t)f, refused = 0, pseudo = 0, said[3] = {0, 0, 0};
    nans = denormals = 0;
    next_part();
    for (i = 0; going(i, cases); i++) {
        struct pattern x = any_pair(f, &state).x;
        int power = any_power(f, x, &state);
        struct theirs c;
        /* C has no word for these patterns */
        if (f == X87 && is_unsupported(x))
            continue;
        c = ask(f, x, power);
        if (c.scale_number)
            refused++;
        else
            said[c.says]++;
        pseudo += f == X87 && is_pseudo_denormal(x);
        compare_scaling(f, x, power, c, "scaled");
        compare_splitting(f, x, c);
        compare_operand(f, x, c);
    }
    printf("%s: %" PRIu64 " scaled exactly, %" PRIu64 " up, %" PRIu64 " down, %" PRIu64 " refused, and all of them split\n", formats[f].name,
           said[ZK_EXACT], said[ZK_UP], said[ZK_DOWN], refused);
    printf("  operands:");
    print_pairs("denormal", denormals);
    if (f != BINARY16)
        print_pairs("NaN", nans);
    printf("\n");
    if (f != X87)
        return;
    printf("  pseudo-denormals: %" PRIu64 "\n", pseudo);
    need_pseudo_denormals(formats[f].name, pseudo);
}

/* What the C library says around halves. */
static uint64_t cut[3];

static void compare_cut(int f, struct pattern x, int power) {
    struct theirs c = ask(f, x, power);
    cut[c.says]++;
    compare_scaling(f, x, power, c, "around a half");
}

static void compare_halves(int f, int most) {
    uint64_t halves;
    memset(cut, 0, sizeof cut);
    next_part();
    halves = around_halves(f, most, compare_cut);
    printf("%s around halves: %" PRIu64 " scalings, %" PRIu64 " of them at a half; %" PRIu64 " exactly, %" PRIu64 " up, %" PRIu64 " down\n",
           formats[f].name, cut[ZK_EXACT] + cut[ZK_UP] + cut[ZK_DOWN], halves, cut[ZK_EXACT], cut[ZK_UP], cut[ZK_DOWN]);
}

int main(int argc, char **argv) {
    uint64_t cases = pairs_asked(argc, argv, 1000000), seed = seed_asked(argc, argv);
    int most = places_asked(argc, argv);
    compare_format(BINARY16, cases, seed);
    compare_format(BINARY32, cases, seed);
    compare_format(BINARY64, cases, seed);
    compare_halves(BINARY16, most);
    compare_halves(BINARY32, most);
    compare_halves(BINARY64, most);
#ifdef ZK_LONG_DOUBLE_IS_X87
    compare_format(X87, cases, seed);
    compare_halves(X87, most);
#else
    printf("x87: long double is another format here, not compared\n");
#endif
    return verdict();
}
