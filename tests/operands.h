/*
 * A deterministic sequence of operand pairs that reaches every class of pattern and every band of the gap D (the exponent of the dividend
 * less that of the divisor, each the place of the leading one, also for a denormal).
 */
#ifndef OPERANDS_H
#define OPERANDS_H

#include "calls.h"

/* Between patterns and numbers of C. */

static inline float float_of(struct pattern x) {
    return zk_float_of_pattern((uint32_t)x.bits);
}

static inline struct pattern of_float(float x) {
    struct pattern p = {zk_pattern_of_float(x), 0};
    return p;
}

static inline double double_of(struct pattern x) {
    return zk_double_of_pattern(x.bits);
}

static inline struct pattern of_double(double x) {
    struct pattern p = {zk_pattern_of_double(x), 0};
    return p;
}

#ifdef ZK_LONG_DOUBLE_IS_X87
static inline long double long_double_of(struct pattern x) {
    return zk_long_double_of_pattern(x.bits, x.word);
}

static inline struct pattern of_long_double(long double x) {
    struct pattern p = {zk_significand_of_long_double(x), zk_word_of_long_double(x)};
    return p;
}
#endif

/* splitmix64 */
static inline uint64_t draw(uint64_t *state) {
    uint64_t z = *state += UINT64_C(0x9E3779B97F4A7C15);
    z = (z ^ z >> 30) * UINT64_C(0xBF58476D1CE4E5B9);
    z = (z ^ z >> 27) * UINT64_C(0x94D049BB133111EB);
    return z ^ z >> 31;
}

static inline int below(uint64_t *state, int n) {
    return (int)(draw(state) % (uint64_t)n);
}

/* both ends included */
static inline int between(uint64_t *state, int least, int most) {
    return least + below(state, most - least + 1);
}

/* A nonzero finite value before its format is known: the significand has its leading one at bit 63, the exponent is that one's place. */
struct operand {
    int negative;
    int exponent;
    uint64_t significand;
};

static inline struct operand operand_of(uint64_t n, int place) {
    struct operand o = {0, place + 63, n};
    while (o.significand >> 63 == 0) {
        o.significand <<= 1;
        o.exponent--;
    }
    return o;
}

static inline struct pattern signed_pattern(int f, int negative, uint64_t bits, int field) {
    struct pattern x = {bits, 0};
    if (f == X87)
        x.word = (uint16_t)(negative << 15 | field);
    else
        x.bits |= (uint64_t)field << (formats[f].precision - 1) | (uint64_t)negative << (8 * formats[f].width - 1);
    return x;
}

/* Bits that the format has no room for are dropped; the exponent is from the smallest place to the bias, so the leading one stays. */
static inline struct pattern encode(int f, struct operand o) {
    int p = formats[f].precision, bias = formats[f].bias;
    uint64_t s = o.significand >> (64 - p);
    if (o.exponent < 1 - bias)
        return signed_pattern(f, o.negative, s >> (1 - bias - o.exponent), 0);
    if (f != X87)
        s &= ~(UINT64_C(1) << (p - 1));
    return signed_pattern(f, o.negative, s, o.exponent + bias);
}

/* A pseudo-denormal: an x87 pattern with e = 0 and J = 1. It stands for what e = 1 with the same significand stands for. */
static inline int is_pseudo_denormal(struct pattern x) {
    return (x.word & 32767) == 0 && x.bits >> 63;
}

/* The x87 pattern that results with the value of x are written in. */
static inline struct pattern ordinary(struct pattern x) {
    x.word |= (uint16_t)is_pseudo_denormal(x);
    return x;
}

/* Whether an ordinary pattern has a pseudo-denormal of its value. In the other formats, where the word is 0, none has. */
static inline int has_pseudo_denormal(struct pattern x) {
    return (x.word & 32767) == 1 && x.bits >> 63;
}

static inline struct pattern pseudo_denormal_of(struct pattern x) {
    x.word &= 0x8000;
    return x;
}

/* The exponent of every pseudo-denormal is that of the smallest normal number. One x87 value in eight is drawn there ... */
static inline int at_lowest_normal(int f, uint64_t *state) {
    return f == X87 && below(state, 8) == 0;
}

/* ... and is a pseudo-denormal three times in four. */
static inline struct pattern in_either_pattern(struct pattern x, uint64_t *state) {
    return has_pseudo_denormal(x) && below(state, 4) ? pseudo_denormal_of(x) : x;
}

static inline uint64_t any_significand(uint64_t *state) {
    const uint64_t top = UINT64_C(1) << 63;
    switch (below(state, 8)) {
    case 0: return top;
    case 1: return ~UINT64_C(0) << below(state, 64);             /* ones from the top */
    case 2: return top | (draw(state) >> between(state, 1, 63)); /* ones and zeros at the bottom */
    case 3: return top | UINT64_C(1) << below(state, 63);        /* two bits */
    case 4: return top | (draw(state) & ~(~UINT64_C(0) >> between(state, 2, 10))); /* a few high bits */
    default: return top | draw(state);
    }
}

enum { NEGATIVE, ZERO, ONE, LOW, TEN, MIDDLE, PLACES, FAR, THOUSAND, LARGEST, BANDS };

static const char *const band_names[BANDS] = {"D<0", "0", "1", "2-9", "10-12", "13-51", "52-66", "67-999", "1000+", "largest"};

static inline int largest_gap(int f) {
    return formats[f].bias - formats[f].smallest;
}

static inline int band_of(int f, int gap) {
    static const int most[] = {-1, 0, 1, 9, 12, 51, 66, 999};
    int b;
    if (gap == largest_gap(f))
        return LARGEST;
    for (b = NEGATIVE; b < THOUSAND; b++)
        if (gap <= most[b])
            return b;
    return THOUSAND;
}

/* A gap of the band, or of the nearest one that the format has. */
static inline int gap_in(int f, int band, uint64_t *state) {
    static const int least[] = {0, 0, 1, 2, 10, 13, 52, 67, 1000}, most[] = {0, 0, 1, 9, 12, 51, 66, 999, 1 << 20};
    int largest = largest_gap(f), from, to;
    if (band == LARGEST)
        return largest;
    if (band == NEGATIVE)
        return below(state, 2) ? -between(state, 1, 3) : -between(state, 1, largest);
    from = least[band] < largest ? least[band] : largest;
    to = most[band] < largest ? most[band] : largest;
    return between(state, from, to);
}

/* Weights out of 64: gaps of thousands cost a thousand times what small ones do, so they are drawn seldom. */
static inline int any_band(uint64_t *state) {
    static const int weights[BANDS] = {9, 7, 7, 5, 9, 5, 14, 5, 2, 1};
    int left = below(state, 64), b;
    for (b = 0; left >= weights[b]; b++)
        left -= weights[b];
    return b;
}

struct pair {
    struct pattern x, y;
};

/* One that leaves the dividend's in the range; at times either is that of the smallest normal number, where the gap lets it. */
static inline int divisor_exponent(int f, int gap, uint64_t *state) {
    int smallest = formats[f].smallest, bias = formats[f].bias;
    int from = gap < 0 ? smallest - gap : smallest, to = gap > 0 ? bias - gap : bias;
    int exponent = below(state, 4) == 0 ? from : below(state, 4) == 0 ? to : between(state, from, to);
    if (at_lowest_normal(f, state)) {
        int lowest = below(state, 2) ? 1 - bias : 1 - bias - gap;
        if (lowest >= from && lowest <= to)
            return lowest;
    }
    return exponent;
}

static inline struct pair pair_with_gap(int f, int gap, uint64_t *state) {
    struct operand x, y;
    struct pair p;
    y.exponent = divisor_exponent(f, gap, state);
    x.exponent = y.exponent + gap;
    x.negative = below(state, 2);
    y.negative = below(state, 2);
    y.significand = any_significand(state);
    switch (below(state, 8)) {
    case 0: x.significand = y.significand; break;
    case 1: x.significand = y.significand ^ UINT64_C(1) << (64 - formats[f].precision); break; /* a neighbour */
    default: x.significand = any_significand(state);
    }
    p.x = in_either_pattern(encode(f, x), state);
    p.y = in_either_pattern(encode(f, y), state);
    return p;
}

/* x is an odd number of halves of y: the nearest quotient is a tie. */
static inline struct pair tied_pair(int f, uint64_t *state) {
    int p = formats[f].precision;
    int small = below(state, 8) + 1;
    uint64_t m = (draw(state) >> (64 - small)) | 1;
    uint64_t k = (draw(state) >> (64 - between(state, 1, p - small))) | 1;
    struct operand x = operand_of(k * m, 0), y = operand_of(m, 1);
    int place = below(state, 4) == 0 ? formats[f].smallest : between(state, formats[f].smallest, formats[f].bias - p);
    struct pair r;
    if (at_lowest_normal(f, state))
        place = 1 - formats[f].bias - (below(state, 2) ? x.exponent : y.exponent);
    x.exponent += place;
    y.exponent += place;
    x.negative = below(state, 2);
    y.negative = below(state, 2);
    r.x = in_either_pattern(encode(f, x), state);
    r.y = in_either_pattern(encode(f, y), state);
    return r;
}

/* x87 patterns that are no numbers: e from 1 with J = 0. */
static inline struct pattern unsupported(uint64_t *state) {
    uint64_t bits = below(state, 4) ? draw(state) >> 1 : 0;
    int negative = below(state, 2);
    return signed_pattern(X87, negative, bits, below(state, 2) ? between(state, 1, 32766) : 32767);
}

static inline struct pattern any_pseudo_denormal(uint64_t *state) {
    int negative = below(state, 2);
    return signed_pattern(X87, negative, any_significand(state), 0);
}

static inline struct pattern infinity(int f, int negative) {
    return signed_pattern(f, negative, f == X87 ? UINT64_C(1) << 63 : 0, 2 * formats[f].bias + 1);
}

static inline struct pattern any_nan(int f, uint64_t *state) {
    struct pattern x = infinity(f, below(state, 2));
    int fraction = formats[f].precision - 1;
    uint64_t payload = draw(state) & (((UINT64_C(1) << (fraction - 1)) << 1) - 1);
    x.bits |= below(state, 2) ? UINT64_C(1) << below(state, fraction) : payload ? payload : 1;
    return x;
}

static inline struct pattern any_finite(int f, uint64_t *state) {
    struct operand o;
    o.negative = below(state, 2);
    o.exponent = between(state, formats[f].smallest, formats[f].bias);
    if (at_lowest_normal(f, state))
        o.exponent = 1 - formats[f].bias;
    o.significand = any_significand(state);
    return in_either_pattern(encode(f, o), state);
}

static inline struct pattern any_special(int f, uint64_t *state) {
    switch (below(state, f == X87 ? 5 : 3)) {
    case 0: return signed_pattern(f, below(state, 2), 0, 0);
    case 1: return infinity(f, below(state, 2));
    case 2: return any_nan(f, state);
    case 3: return any_pseudo_denormal(state);
    default: return unsupported(state);
    }
}

static inline struct pattern any_bits(int f, uint64_t *state) {
    struct pattern x = {draw(state), 0};
    if (f == X87)
        x.word = (uint16_t)draw(state);
    else
        x.bits >>= 64 - 8 * formats[f].width;
    return x;
}

static inline struct pair any_pair(int f, uint64_t *state) {
    struct pair p;
    switch (below(state, 32)) {
    case 0:
        p.x = any_bits(f, state);
        p.y = any_bits(f, state);
        return p;
    case 1:
        p.x = any_special(f, state);
        p.y = any_special(f, state);
        return p;
    case 2:
        p.x = any_special(f, state);
        p.y = any_finite(f, state);
        return p;
    case 3:
        p.x = any_finite(f, state);
        p.y = any_special(f, state);
        return p;
    case 4:
    case 5:
    case 6: return tied_pair(f, state);
    default: return pair_with_gap(f, gap_in(f, any_band(state), state), state);
    }
}

/* A pair with a NaN at least. Two NaNs may have one significand, with signs alike or not, or neighbouring ones. */
static inline struct pair nan_pair(int f, uint64_t *state) {
    struct pair p = any_pair(f, state);
    int drawn = below(state, 8);
    if (drawn != 7)
        p.x = any_nan(f, state);
    if (drawn != 6)
        p.y = any_nan(f, state);
    if (drawn < 2)
        p.y = negated(f, p.x, below(state, 2));
    if (drawn == 1)
        p.y.bits ^= 2;
    return p;
}

/* Denormals one time in four: what is flushed or taken for zero is seen on them alone. */
static inline uint64_t any_binary64(uint64_t *state) {
    int shift = between(state, 12, 63);
    uint64_t bits = draw(state);
    switch (below(state, 8)) {
    case 0:
    case 1: return bits >> shift | bits << 63;
    case 2: return any_special(BINARY64, state).bits;
    default: return any_pair(BINARY64, state).x.bits;
    }
}

/* An x87 pattern that the scope calls unsupported. */
static inline int is_unsupported(struct pattern x) {
    return (x.word & 32767) != 0 && x.bits >> 63 == 0;
}

/* The place of the leading one, or 0 returned if the pattern is not nonzero and finite. */
static inline int leading_place(int f, struct pattern x, int *place) {
    int p = formats[f].precision, largest = 2 * formats[f].bias + 1, field, top = 63;
    uint64_t s = x.bits;
    if (f == X87) {
        field = x.word & 32767;
        if (is_unsupported(x))
            return 0;
    } else {
        field = (int)(s >> (p - 1)) & largest;
        s &= (UINT64_C(1) << (p - 1)) - 1;
        if (field)
            s |= UINT64_C(1) << (p - 1);
    }
    if (s == 0 || field == largest)
        return 0;
    while (s >> top == 0)
        top--;
    *place = formats[f].smallest + top + (field ? field - 1 : 0);
    return 1;
}

/* Which operands of a pair are pseudo-denormals. */
enum { NEITHER, DIVIDEND, DIVISOR, BOTH, ROLES };

static const char *const role_names[ROLES] = {"neither", "dividend", "divisor", "both"};

/*
 * How many pairs of each band there were; pairs that have no gap (zeros, infinities, NaNs, unsupported) are counted last. The others, of
 * x87, are counted by the role of their pseudo-denormals too.
 */
struct coverage {
    uint64_t bands[BANDS + 1], roles[ROLES];
};

static inline void cover(struct coverage *c, int f, struct pair p) {
    int ex, ey;
    if (!leading_place(f, p.x, &ex) || !leading_place(f, p.y, &ey)) {
        c->bands[BANDS]++;
        return;
    }
    c->bands[band_of(f, ex - ey)]++;
    if (f == X87)
        c->roles[is_pseudo_denormal(p.x) * DIVIDEND + is_pseudo_denormal(p.y) * DIVISOR]++;
}

/* Whether the format has a gap in the band. */
static inline int has_band(int f, int band) {
    return band == LARGEST || band <= band_of(f, largest_gap(f) - 1);
}

/* A band that the format has, or a role of pseudo-denormals, without a pair would leave the comparison with a hole: it is a difference. */
static inline void print_pairs(const char *of, uint64_t pairs) {
    if (pairs)
        printf(" %s %" PRIu64 ",", of, pairs);
    else if (differs())
        printf(" %s has no pair,", of);
}

static inline void print_coverage(const struct coverage *c, int f) {
    int b, r;
    printf("  gaps:");
    for (b = 0; b < BANDS; b++)
        if (c->bands[b] || has_band(f, b))
            print_pairs(band_names[b], c->bands[b]);
    printf(" none %" PRIu64 "\n", c->bands[BANDS]);
    if (f != X87)
        return;
    printf("  pseudo-denormals:");
    for (r = DIVIDEND; r < ROLES; r++)
        print_pairs(role_names[r], c->roles[r]);
    printf(" neither %" PRIu64 "\n", c->roles[NEITHER]);
}

/* So is a part of a test without a pseudo-denormal. */
static inline void need_pseudo_denormals(const char *part, uint64_t count) {
    if (count == 0 && differs())
        printf("%s: no pseudo-denormal\n", part);
}

/* The arguments of a comparison: how many cases, and the seed of their sequence. */
static inline uint64_t pairs_asked(int argc, char **argv, uint64_t otherwise) {
    uint64_t n = argc > 1 ? strtoull(argv[1], NULL, 10) : otherwise;
    if (n == 0) {
        fprintf(stderr, "%s: how many cases is a whole number above 0\n", argv[0]);
        exit(2);
    }
    return n;
}

static inline uint64_t seed_asked(int argc, char **argv) {
    return argc > 2 ? strtoull(argv[2], NULL, 10) : 1;
}

#endif
