/*
 * Which NaN 3 speaks of, and which patterns are denormals', against a reading of the two rules on the fields: every class by every class in
 * every format, all pairs of NaNs of binary16 and all of its patterns, NaNs that differ in any bit, every exponent field, and drawn pairs.
 *
 *   nans [PAIRS [SEED]]    PAIRS drawn for each format
 */
#include "operands.h"

/* A pattern by its fields. The fraction of x87 is what lies below its leading bit J; in the other formats that bit is not written. */
struct fields {
    int negative, exponent, leading;
    uint64_t fraction;
};

static int fraction_bits(int f) {
    return formats[f].precision - 1;
}

static int largest_exponent(int f) {
    return 2 * formats[f].bias + 1;
}

static struct fields fields_of(int f, struct pattern x) {
    struct fields r = {is_negative(f, x), 0, 0, x.bits & ((UINT64_C(1) << fraction_bits(f)) - 1)};
    r.exponent = f == X87 ? x.word & 32767 : (int)(x.bits >> fraction_bits(f)) & largest_exponent(f);
    r.leading = f == X87 ? (int)(x.bits >> 63) : r.exponent != 0;
    return r;
}

static struct pattern of_fields(int f, struct fields r) {
    uint64_t leading = f == X87 ? (uint64_t)r.leading << 63 : 0;
    return signed_pattern(f, r.negative, leading | r.fraction, r.exponent);
}

static int is_nan(int f, struct fields x) {
    return x.exponent == largest_exponent(f) && x.leading && x.fraction != 0;
}

static int is_denormal(struct fields x) {
    return x.exponent == 0 && (x.leading || x.fraction != 0);
}

/* How the pairs were decided: without one of a kind, that kind is not tried. */
enum { NONE, X_ALONE, Y_ALONE, X_LARGER, Y_LARGER, EQUAL, KINDS };

static const char *const kind_names[KINDS] = {"no NaN", "x alone", "y alone", "x larger", "y larger", "equal"};
static uint64_t pairs_of[KINDS];

static int kind_of(int f, struct fields x, struct fields y) {
    if (!is_nan(f, x) && !is_nan(f, y))
        return NONE;
    if (!is_nan(f, y))
        return X_ALONE;
    if (!is_nan(f, x))
        return Y_ALONE;
    return x.fraction == y.fraction ? EQUAL : x.fraction > y.fraction ? X_LARGER : Y_LARGER;
}

static struct pattern expected_nan(int f, struct pattern x, struct pattern y) {
    static const struct pattern house[FORMATS] = {
        {0x7E00, 0}, {0x7FC00000, 0}, {ZK_HOUSE_NAN64, 0}, {UINT64_C(0xC000000000000000), 0x7FFF}};
    int kind = kind_of(f, fields_of(f, x), fields_of(f, y));
    struct pattern nan = kind == Y_ALONE || kind == Y_LARGER ? y : x;
    pairs_of[kind]++;
    nan.bits |= UINT64_C(1) << (fraction_bits(f) - 1);
    return kind == NONE ? house[f] : nan;
}

static void compare_pair(const char *what, int f, struct pattern x, struct pattern y) {
    struct pattern want = expected_nan(f, x, y);
    struct reply got = call_nan(f, x, y);
    if ((!same(got.value, want) || got.touched) && differs())
        printf("%s: the NaN of %s %s and %s is %s%s, expected %s\n", what, formats[f].name, text(f, x), text(f, y), text(f, got.value),
               got.touched ? ", wrongly written" : "", text(f, want));
}

static uint64_t patterns, denormals;

static void compare_pattern(const char *what, int f, struct pattern x) {
    unsigned want = (unsigned)is_denormal(fields_of(f, x)), got = call_denormal(f, x);
    patterns++;
    denormals += want;
    if (got != want && differs())
        printf("%s: denormal, %s %s: %u, expected %u\n", what, formats[f].name, text(f, x), got, want);
}

/* Fractions at the ends of quiet and of signalling NaNs, and within; with both signs, and in x87 with J of either value. */
enum { FRACTIONS = 10, EXPONENTS = 5 };

static int of_an_exponent(int f) {
    return (f == X87 ? 4 : 2) * FRACTIONS;
}

static struct pattern sample_with(int f, int exponent, int next) {
    uint64_t top = UINT64_C(1) << (fraction_bits(f) - 1), all = 2 * top - 1;
    const uint64_t fractions[FRACTIONS] = {0, 1, 2, top / 2, top - 2, top - 1, top, top + 1, all - 1, all};
    struct fields r = {next % 2, exponent, next / (2 * FRACTIONS), fractions[next / 2 % FRACTIONS]};
    return of_fields(f, r);
}

/* The exponents of zeros and denormals, of normal numbers at both ends and in the middle, and of infinities and NaNs. */
static struct pattern sample(int f, int next) {
    const int exponents[EXPONENTS] = {0, 1, formats[f].bias, largest_exponent(f) - 1, largest_exponent(f)};
    return sample_with(f, exponents[next / of_an_exponent(f)], next % of_an_exponent(f));
}

static int samples(int f) {
    return EXPONENTS * of_an_exponent(f);
}

static void compare_classes(int f) {
    int x, y;
    next_part();
    for (x = 0; x < samples(f); x++)
        for (y = 0; y < samples(f); y++)
            compare_pair("a class by a class", f, sample(f, x), sample(f, y));
}

static void compare_exponents(int f) {
    int exponent, next;
    next_part();
    for (exponent = 0; exponent <= largest_exponent(f); exponent++)
        for (next = 0; next < of_an_exponent(f); next++)
            compare_pattern("an exponent", f, sample_with(f, exponent, next));
}

/* NaNs with one bit in the fraction, so that each of its places decides between two; and denormals with each. */
static void compare_bits(int f) {
    int i, j, signs;
    next_part();
    for (i = 0; i < fraction_bits(f); i++)
        for (signs = 0; signs < 4; signs++) {
            struct fields x = {signs & 1, largest_exponent(f), 1, UINT64_C(1) << i}, y = {signs >> 1, largest_exponent(f), 1, 0};
            struct fields denormal = {signs & 1, 0, 0, UINT64_C(1) << i};
            for (j = 0; j < fraction_bits(f); j++) {
                y.fraction = UINT64_C(1) << j;
                compare_pair("a bit by a bit", f, of_fields(f, x), of_fields(f, y));
            }
            compare_pattern("a bit", f, of_fields(f, denormal));
        }
}

/* All NaNs of binary16 by each other, and all of its patterns by infinities and by some NaNs. */
static void compare_halves(void) {
    enum { PATTERNS = 65536, FIRST = 0x7C01, LAST = 0x7FFF, SIGN = 0x8000 };
    struct pattern x = {0, 0}, y = {0, 0};
    int next, signs;
    next_part();
    for (signs = 0; signs < 4; signs++)
        for (x.bits = FIRST; x.bits <= LAST; x.bits++)
            for (y.bits = FIRST; y.bits <= LAST; y.bits++) {
                struct pattern a = {x.bits | (signs & 1 ? SIGN : 0), 0}, b = {y.bits | (signs >> 1 ? SIGN : 0), 0};
                compare_pair("two halves", BINARY16, a, b);
            }
    next_part();
    for (x.bits = 0; x.bits < PATTERNS; x.bits++) {
        compare_pattern("a half", BINARY16, x);
        for (next = 0; next < of_an_exponent(BINARY16); next++) {
            y = sample_with(BINARY16, largest_exponent(BINARY16), next);
            compare_pair("a half", BINARY16, x, y);
            compare_pair("by a half", BINARY16, y, x);
        }
    }
}

static void compare_drawn(int f, uint64_t pairs, uint64_t seed) {
    uint64_t i, state = seed + (uint64_t)f;
    next_part();
    for (i = 0; going(i, pairs); i++) {
        struct pair p = i % 2 ? nan_pair(f, &state) : any_pair(f, &state);
        compare_pair("drawn", f, p.x, p.y);
        compare_pattern("drawn", f, p.x);
        compare_pattern("drawn", f, p.y);
    }
}

static void print_kinds(const char *of) {
    int kind;
    printf("%s:", of);
    for (kind = 0; kind < KINDS; kind++)
        print_pairs(kind_names[kind], pairs_of[kind]);
    print_pairs("denormals", denormals);
    printf(" of %" PRIu64 " patterns\n", patterns);
    memset(pairs_of, 0, sizeof pairs_of);
    patterns = denormals = 0;
}

int main(int argc, char **argv) {
    uint64_t pairs = pairs_asked(argc, argv, 200000), seed = seed_asked(argc, argv);
    int f;
    for (f = 0; f < FORMATS; f++) {
        compare_classes(f);
        compare_exponents(f);
        compare_bits(f);
        print_kinds(formats[f].name);
        compare_drawn(f, pairs, seed);
        print_kinds("  drawn");
    }
    compare_halves();
    print_kinds("all of binary16");
    return verdict();
}
