/*
 * Remainders, rem's and remquo's, against MPFR, which computes with whole numbers of any length: all four formats, both kinds. It gives the
 * quotient's low bits, one less than a long has, with the sign of x/y: all 31 are compared. MPFR also says whether its 64-bit result is
 * exact, as every remainder of two values of a format has to be.
 *
 *   mpfr [PAIRS [SEED]]    PAIRS of operands for each format; those that are not finite, or whose divisor is zero, are passed over
 */
#include "operands.h"

#include <mpfr.h>

/* The significand of a finite pattern as a whole number; *unit is the place of its last bit. */
static uint64_t significand_of(int f, struct pattern x, int *unit) {
    int fraction = formats[f].precision - 1, field;
    uint64_t s = x.bits;
    if (f == X87) {
        field = x.word & 32767;
    } else {
        field = (int)(s >> fraction) & (2 * formats[f].bias + 1);
        s &= (UINT64_C(1) << fraction) - 1;
        if (field)
            s |= UINT64_C(1) << fraction;
    }
    *unit = formats[f].smallest + (field ? field - 1 : 0);
    return s;
}

static void set_operand(mpfr_t r, int f, struct pattern x) {
    int unit;
    uint64_t s = significand_of(f, x, &unit);
    mpfr_set_ui_2exp(r, s, unit, MPFR_RNDN);
    mpfr_setsign(r, r, is_negative(f, x), MPFR_RNDN);
}

/* The pattern of a value that the format holds. */
static struct pattern pattern_of(int f, const mpfr_t r) {
    struct operand o;
    mpfr_t whole;
    if (mpfr_zero_p(r))
        return signed_pattern(f, mpfr_signbit(r) != 0, 0, 0);
    mpfr_init2(whole, 64);
    mpfr_abs(whole, r, MPFR_RNDN);
    o.negative = mpfr_signbit(r) != 0;
    o.exponent = (int)mpfr_get_exp(whole) - 1;
    mpfr_set_exp(whole, 64);
    o.significand = mpfr_get_ui(whole, MPFR_RNDN);
    mpfr_clear(whole);
    return encode(f, o);
}

static void print_theirs(int f, struct pattern theirs, long quotient, int rounded) {
    printf("  MPFR       %s quotient %ld%s\n", text(f, theirs), quotient, rounded ? ", rounded" : "");
}

static void compare(int f, struct pair p, const mpfr_t x, const mpfr_t y, mpfr_t r, uint32_t kind) {
    struct reply ours = call_rem(f, p.x, p.y, kind), of_remquo = call_remquo(f, p.x, p.y, kind);
    struct pattern theirs;
    long q = 0, bits;
    int rounded = kind == ZK_TRUNCATED ? mpfr_fmodquo(r, &q, x, y, MPFR_RNDN) : mpfr_remquo(r, &q, x, y, MPFR_RNDN);
    theirs = pattern_of(f, r);
    bits = q % (long)ZK_QUOTIENT_MODULUS; /* with q's sign */
    if (ours.number || ours.touched || rounded || !same(ours.value, theirs) || ours.quotient != (unsigned long)labs(bits))
        if (differs()) {
            printf("%s %s by %s kind %u:\n  zukemoriha %s quotient %lu number %u\n", formats[f].name, text(f, p.x), text(f, p.y),
                   (unsigned)kind, text(f, ours.value), (unsigned long)ours.quotient, ours.number);
            print_theirs(f, theirs, bits, rounded);
        }
    if (of_remquo.number || of_remquo.touched || !same(of_remquo.value, theirs) || of_remquo.signed_quotient != bits)
        if (differs()) {
            printf("remquo of %s %s by %s kind %u:\n  zukemoriha %s quotient %ld number %u\n", formats[f].name, text(f, p.x), text(f, p.y),
                   (unsigned)kind, text(f, of_remquo.value), (long)of_remquo.signed_quotient, of_remquo.number);
            print_theirs(f, theirs, bits, rounded);
        }
}

static void compare_format(int f, uint64_t pairs, uint64_t seed) {
    struct coverage seen;
    uint64_t i, state = seed + (uint64_t)f, compared = 0;
    int place;
    mpfr_t x, y, r;
    memset(&seen, 0, sizeof seen);
    mpfr_inits2(64, x, y, r, (mpfr_ptr)0);
    for (i = 0; going(i, pairs); i++) {
        struct pair p = any_pair(f, &state);
        if (!leading_place(f, p.x, &place) || !leading_place(f, p.y, &place))
            continue;
        cover(&seen, f, p);
        set_operand(x, f, p.x);
        set_operand(y, f, p.y);
        compare(f, p, x, y, r, ZK_TRUNCATED);
        compare(f, p, x, y, r, ZK_NEAREST);
        compared++;
    }
    mpfr_clears(x, y, r, (mpfr_ptr)0);
    printf("%s: %" PRIu64 " pairs, both kinds\n", formats[f].name, compared);
    print_coverage(&seen, f);
}

int main(int argc, char **argv) {
    uint64_t pairs = pairs_asked(argc, argv, 1000000), seed = seed_asked(argc, argv);
    int f;
    printf("MPFR %s\n", mpfr_get_version());
    for (f = 0; f < FORMATS; f++)
        compare_format(f, pairs, seed);
    return verdict();
}
