/*
 * Steps and runs against the processor's own FPREM and FPREM1, scaling against FSCALE, splitting against FXTRACT. x86-64 only.
 * All four take pseudo-denormals, and give the ordinary pattern also where the value of their operand comes back. Three flags of a finished
 * step are its quotient modulo 8; the processor shows no more of it.
 * Denormals are those of FXAM, and an instruction that gives a number sets its denormal-operand flag where an operand is one. NaNs are what
 * the instructions give for them, all exceptions masked, as they are when a program begins. A pair with an unsupported operand is none of
 * these: it is refused with 2, and the processor gives a NaN of its own.
 *
 *   fprem [PAIRS [SEED [PLACES]]]    so many of each, then scalings around halves, by up to PLACES places (130)
 */
#include "halves.h"

#if !defined(__x86_64__)

int main(void) {
    printf("no x87 unit here: nothing compared\n");
    return 0;
}

#else

/* Ten bytes as the x87 unit loads and stores them: every pattern passes unchanged, unsupported ones too. */
struct ten {
    unsigned char bytes[10];
};

static struct ten ten_of(struct pattern x) {
    struct ten t;
    memcpy(t.bytes, &x.bits, 8);
    memcpy(t.bytes + 8, &x.word, 2);
    return t;
}

static struct pattern of_ten(struct ten t) {
    struct pattern x;
    memcpy(&x.bits, t.bytes, 8);
    memcpy(&x.word, t.bytes + 8, 2);
    return x;
}

struct flags {
    int c0, c1, c2, c3;
    int inexact, denormal;
};

static struct flags flags_of(uint16_t status) {
    struct flags f = {status >> 8 & 1, status >> 9 & 1, status >> 10 & 1, status >> 14 & 1, status >> 5 & 1, status >> 1 & 1};
    return f;
}

static struct pattern processor_step(struct pattern x, struct pattern y, uint32_t kind, struct flags *flags) {
    struct ten a = ten_of(x), b = ten_of(y), r;
    uint16_t status;
    if (kind == ZK_TRUNCATED)
        __asm__ volatile("fnclex\n\tfldt %3\n\tfldt %2\n\tfprem\n\tfnstsw %0\n\tfstpt %1\n\tfstp %%st(0)"
                         : "=a"(status), "=m"(r)
                         : "m"(a), "m"(b)
                         : "st", "st(1)");
    else
        __asm__ volatile("fnclex\n\tfldt %3\n\tfldt %2\n\tfprem1\n\tfnstsw %0\n\tfstpt %1\n\tfstp %%st(0)"
                         : "=a"(status), "=m"(r)
                         : "m"(a), "m"(b)
                         : "st", "st(1)");
    *flags = flags_of(status);
    return of_ten(r);
}

static struct pattern processor_scale(struct pattern x, int32_t power, struct flags *flags) {
    struct ten a = ten_of(x), r;
    uint16_t status;
    __asm__ volatile("fnclex\n\tfildl %3\n\tfldt %2\n\tfscale\n\tfnstsw %0\n\tfstpt %1\n\tfstp %%st(0)"
                     : "=a"(status), "=m"(r)
                     : "m"(a), "m"(power)
                     : "st", "st(1)");
    *flags = flags_of(status);
    return of_ten(r);
}

/* By another x87 operand, whose whole part is the power. */
static struct pattern processor_scale_by(struct pattern x, struct pattern y) {
    struct ten a = ten_of(x), b = ten_of(y), r;
    __asm__ volatile("fldt %2\n\tfldt %1\n\tfscale\n\tfstpt %0\n\tfstp %%st(0)" : "=m"(r) : "m"(a), "m"(b) : "st", "st(1)");
    return of_ten(r);
}

static struct pattern processor_split(struct pattern x, int32_t *exponent) {
    struct ten a = ten_of(x), r;
    __asm__ volatile("fldt %2\n\tfxtract\n\tfstpt %0\n\tfistpl %1" : "=m"(r), "=m"(*exponent) : "m"(a) : "st", "st(1)");
    return of_ten(r);
}

/* FXAM's class: C3 and C2 without C0 are a denormal's. */
static int processor_denormal(struct pattern x) {
    struct ten a = ten_of(x);
    struct flags c;
    uint16_t status;
    __asm__ volatile("fldt %1\n\tfxam\n\tfnstsw %0\n\tfstp %%st(0)" : "=a"(status) : "m"(a) : "st");
    c = flags_of(status);
    return c.c3 && c.c2 && !c.c0;
}

static int is_nan(struct pattern x) {
    return (x.word & 32767) == 32767 && x.bits << 1 != 0;
}

static struct {
    uint64_t chains, finished, partial, refused, usual;
} count;

static void print_step(const char *what, struct pattern x, struct pattern y, uint32_t kind, struct pattern theirs, struct flags c,
                       struct reply ours) {
    printf("%s %s by %s kind %u:\n", what, text(X87, x), text(X87, y), (unsigned)kind);
    printf("  zukemoriha %s quotient %lu octant %u number %u steps %lu%s\n", text(X87, ours.value), (unsigned long)ours.quotient,
           ours.octant, ours.number, (unsigned long)ours.steps, ours.touched ? ", wrongly written" : "");
    printf("  processor  %s C0 %d C3 %d C1 %d C2 %d\n", text(X87, theirs), c.c0, c.c3, c.c1, c.c2);
}

static struct {
    uint64_t classed, denormal, pseudo, unsupported, flagged, unflagged;
} operands;

static void compare_class(struct pattern x) {
    int theirs = processor_denormal(x);
    unsigned ours = call_denormal(X87, x);
    operands.classed++;
    operands.denormal += (uint64_t)theirs;
    operands.pseudo += theirs && is_pseudo_denormal(x);
    operands.unsupported += (uint64_t)is_unsupported(x);
    if (ours != (unsigned)theirs && differs())
        printf("class of %s: denormal %u, by the processor %d\n", text(X87, x), ours, theirs);
}

/* The flag of an instruction that gave a number. */
static void compare_flag(const char *what, struct pattern x, struct pattern y, struct flags c) {
    unsigned ours = call_denormal(X87, x) | call_denormal(X87, y);
    if (c.denormal)
        operands.flagged++;
    else
        operands.unflagged++;
    if (ours != (unsigned)c.denormal && differs())
        printf("denormal operand of %s, %s and %s: %u, by the processor %d\n", what, text(X87, x), text(X87, y), ours, c.denormal);
}

static void print_operands(void) {
    printf("denormals: of %" PRIu64 " operands", operands.classed);
    print_pairs("denormal", operands.denormal);
    print_pairs("pseudo-denormal", operands.pseudo);
    print_pairs("unsupported", operands.unsupported);
    printf(" by FXAM; the flag");
    print_pairs("set", operands.flagged);
    print_pairs("not set", operands.unflagged);
    printf(" by FPREM, FPREM1 and FSCALE\n");
}

static int gap_of(struct pattern x, struct pattern y) {
    int ex, ey;
    return leading_place(X87, x, &ex) && leading_place(X87, y, &ey) ? ex - ey : 0;
}

/* The library's step of the first size that gives the processor's value; of size 32 if none does. The usual size is tried first. */
static struct reply partial_like(struct pattern x, struct pattern y, uint32_t kind, struct pattern theirs) {
    uint32_t usual = 32 + (uint32_t)gap_of(x, y) % 32, i;
    struct reply r;
    for (i = 0; i < 32; i++) {
        uint32_t size = 32 + (usual - 32 + i) % 32;
        r = call_step(x, y, size, kind, ZK_BLOCK_LENGTH);
        if (r.number == ZK_PARTIAL && !r.touched && r.steps == 1 && same(r.value, theirs)) {
            count.usual += i == 0;
            return r;
        }
    }
    return call_step(x, y, 32, kind, ZK_BLOCK_LENGTH);
}

/* One step of the processor and the library's: 1 if they agree. */
static int compare_step(struct pattern x, struct pattern y, uint32_t kind, uint32_t size, struct pattern theirs, struct flags c,
                        struct reply *ours) {
    int right;
    if (c.c2) {
        count.partial++;
        *ours = partial_like(x, y, kind, theirs);
        right = ours->number == ZK_PARTIAL && same(ours->value, theirs);
    } else {
        count.finished++;
        *ours = call_step(x, y, size, kind, ZK_BLOCK_LENGTH);
        right = ours->number == ZK_FINISHED && same(ours->value, theirs) && zk_c0(ours->octant) == c.c0 && zk_c3(ours->octant) == c.c3 &&
                zk_c1(ours->octant) == c.c1 && ours->quotient % 8 == ours->octant && ours->steps == 1;
    }
    right = right && !ours->touched;
    if (!right && differs())
        print_step("step of", x, y, kind, theirs, c, *ours);
    return right;
}

/* The processor to its end, each step compared, then the run and the one-call remainders of the library with that end. */
static void compare_chain(struct pattern first, struct pattern y, uint32_t kind, uint32_t size) {
    struct pattern x = first, end;
    struct flags c;
    struct reply step, run, rem, remquo;
    uint32_t parts = 0;
    do {
        end = processor_step(x, y, kind, &c);
        compare_flag("a step", x, y, c);
        if (!compare_step(x, y, kind, size, end, c, &step))
            return;
        parts = (parts + step.quotient) % ZK_QUOTIENT_MODULUS;
        x = end;
    } while (c.c2);
    count.chains++;
    run = call_run(first, y, size, kind, UINT32_MAX, ZK_BLOCK_LENGTH);
    rem = call_rem(X87, first, y, kind);
    remquo = call_remquo(X87, first, y, kind);
    /* the parts that the processor took add up to the whole quotient, whatever sizes it took them in */
    if (run.number != 0 || run.touched || !same(run.value, end) || run.quotient != parts)
        if (differs())
            print_step("run of", first, y, kind, end, c, run);
    if (rem.number != 0 || rem.touched || !same(rem.value, end) || rem.quotient != parts)
        if (differs())
            print_step("remainder of", first, y, kind, end, c, rem);
    if (remquo.number != 0 || remquo.touched || !same(remquo.value, end) || remquo.signed_quotient != with_sign(X87, first, y, parts))
        if (differs()) {
            print_step("remquo of", first, y, kind, end, c, remquo);
            printf("  its quotient %ld, of the steps %lu\n", (long)remquo.signed_quotient, (unsigned long)parts);
        }
}

/* What the library refuses, the processor answers with a NaN, and with nothing else. */
static void compare_refusal(struct pattern x, struct pattern y, uint32_t kind, uint32_t size) {
    struct flags c;
    struct pattern theirs = processor_step(x, y, kind, &c);
    struct reply ours = call_step(x, y, size, kind, ZK_BLOCK_LENGTH);
    count.refused++;
    if ((ours.number < ZK_UNSUPPORTED || ours.number > ZK_ZERO_DIVISOR || ours.touched || !is_nan(theirs)) && differs())
        print_step("refusal of", x, y, kind, theirs, c, ours);
}

static int is_refused(struct pattern x, struct pattern y) {
    int unsupported_or_nan = is_unsupported(x) || is_unsupported(y) || is_nan(x) || is_nan(y);
    int infinite_dividend = (x.word & 32767) == 32767;
    int zero_divisor = (y.word & 32767) == 0 && y.bits == 0;
    return unsupported_or_nan || infinite_dividend || zero_divisor;
}

static void compare_pairs(uint64_t pairs, uint64_t *state) {
    struct coverage seen;
    uint64_t i;
    memset(&seen, 0, sizeof seen);
    for (i = 0; going(i, pairs); i++) {
        struct pair p = any_pair(X87, state);
        uint32_t size = (uint32_t)between(state, 32, 63), kind = (uint32_t)below(state, 2);
        cover(&seen, X87, p);
        compare_class(p.x);
        compare_class(p.y);
        if (is_refused(p.x, p.y))
            compare_refusal(p.x, p.y, kind, size);
        else
            compare_chain(p.x, p.y, kind, size);
    }
    printf("chains: %" PRIu64 " compared to their end; %" PRIu64 " finished steps, %" PRIu64 " partial ones, of which %" PRIu64
           " with n = 32 + D mod 32\n",
           count.chains, count.finished, count.partial, count.usual);
    printf("  refused by both %" PRIu64 "\n", count.refused);
    print_coverage(&seen, X87);
}

/* Powers of every size, most of them around the ends of the format, where rounding and infinities are. */
static int32_t any_power(struct pattern x, uint64_t *state) {
    int place = 0;
    leading_place(X87, x, &place);
    switch (below(state, 7)) {
    case 0: return formats[X87].smallest - place + between(state, -3, 70);
    case 1: return formats[X87].bias - place + between(state, -2, 2);
    case 2: return between(state, -100, 100);
    case 3: return between(state, -40000, 40000);
    case 4: return below(state, 2) ? INT32_MIN : INT32_MAX;
    case 5: return between(state, -1, 1);
    default: return (int32_t)(draw(state) >> 33) - (1 << 30);
    }
}

static struct pattern any_operand(uint64_t *state) {
    return below(state, 8) ? any_finite(X87, state) : below(state, 2) ? any_special(X87, state) : any_bits(X87, state);
}

enum { REFUSED = -1 };

/* Returns what the processor says of its rounding, or REFUSED. */
static int compare_scaling(const char *what, struct pattern x, int32_t power) {
    struct flags c;
    struct pattern theirs = processor_scale(x, power, &c);
    struct reply ours = call_scale(X87, x, power);
    int right, says = is_nan(theirs) ? REFUSED : !c.inexact ? ZK_EXACT : c.c1 ? ZK_UP : ZK_DOWN;
    if (says == REFUSED)
        right = ours.number == (is_unsupported(x) ? ZK_UNSUPPORTED : ZK_NAN);
    else
        right = ours.number == 0 && same(ours.value, theirs) && ours.says == says;
    if (says != REFUSED)
        compare_flag("a scaling", x, x, c);
    if ((!right || ours.touched) && differs())
        printf("%s %s by %ld:\n  zukemoriha %s says %d number %u\n  processor  %s says %d\n", what, text(X87, x), (long)power,
               text(X87, ours.value), ours.says, ours.number, text(X87, theirs), says);
    return says;
}

static void compare_scalings(uint64_t cases, uint64_t *state) {
    uint64_t i, rounded = 0, refused = 0, pseudo = 0;
    for (i = 0; going(i, cases); i++) {
        struct pattern x = any_operand(state);
        int says = compare_scaling("scaling of", x, any_power(x, state));
        refused += says == REFUSED;
        rounded += says == ZK_UP || says == ZK_DOWN;
        pseudo += (uint64_t)is_pseudo_denormal(x);
    }
    printf("scaling: %" PRIu64 " cases, %" PRIu64 " of them pseudo-denormals; %" PRIu64 " rounded, %" PRIu64 " refused by both\n", cases,
           pseudo, rounded, refused);
    need_pseudo_denormals("scaling", pseudo);
}

/* What the processor says around halves. */
static uint64_t cut[3];

static void compare_cut(int f, struct pattern x, int power) {
    int says = compare_scaling("around a half,", x, power);
    (void)f;
    if (says != REFUSED)
        cut[says]++;
}

static void compare_halves(int most) {
    uint64_t halves;
    next_part();
    halves = around_halves(X87, most, compare_cut);
    printf("scaling around halves: %" PRIu64 " cases, %" PRIu64 " of them at a half; %" PRIu64 " exact, %" PRIu64 " up, %" PRIu64 " down\n",
           cut[ZK_EXACT] + cut[ZK_UP] + cut[ZK_DOWN], halves, cut[ZK_EXACT], cut[ZK_UP], cut[ZK_DOWN]);
}

/* Only nonzero finite values: FXTRACT answers zeros and infinities otherwise than the library. */
static void compare_splitting(uint64_t cases, uint64_t *state) {
    uint64_t i, pseudo = 0;
    for (i = 0; going(i, cases); i++) {
        struct pattern x = any_finite(X87, state);
        int32_t exponent;
        struct pattern theirs = processor_split(x, &exponent);
        struct reply ours = call_split(X87, x);
        pseudo += (uint64_t)is_pseudo_denormal(x);
        if ((ours.number != 0 || ours.touched || !same(ours.value, theirs) || ours.exponent != exponent) && differs())
            printf("splitting of %s:\n  zukemoriha %s %ld number %u\n  processor  %s %ld\n", text(X87, x), text(X87, ours.value),
                   (long)ours.exponent, ours.number, text(X87, theirs), (long)exponent);
    }
    printf("splitting: %" PRIu64 " cases, %" PRIu64 " of them pseudo-denormals\n", cases, pseudo);
    need_pseudo_denormals("splitting", pseudo);
}

/* ---- NaNs */

enum { FPREM, FPREM1, FSCALE, INSTRUCTIONS };
enum { NAN_SAMPLES = 12, ALL_SAMPLES = NAN_SAMPLES + 10 };

static const char *const instruction_names[INSTRUCTIONS] = {"FPREM", "FPREM1", "FSCALE"};

static struct {
    uint64_t one, two, equal, unlike, split;
} nans;

/*
 * The processor chooses as the library does, but for two NaNs with one significand: it then takes a positive one, and the library the
 * dividend. They are unlike where only the divisor is positive: these are counted, and the dividend is what is asked for.
 */
static void compare_nan(int instruction, struct pattern x, struct pattern y) {
    struct flags c;
    struct pattern theirs = instruction == FSCALE ? processor_scale_by(x, y) : processor_step(x, y, instruction == FPREM1, &c);
    struct pattern want = theirs;
    struct reply ours = call_nan(X87, x, y);
    int both = is_nan(x) && is_nan(y), equal = both && x.bits == y.bits, positive = 1;
    if (equal) {
        want.word = x.word;
        positive = theirs.word == (x.word & y.word);
    }
    nans.one += !both;
    nans.two += (uint64_t)(both && !equal);
    nans.equal += (uint64_t)equal;
    nans.unlike += !same(want, theirs);
    if ((!same(ours.value, want) || ours.touched || !is_nan(theirs) || !positive) && differs())
        printf("%s of %s by %s:\n  zukemoriha %s%s\n  processor  %s\n", instruction_names[instruction], text(X87, x), text(X87, y),
               text(X87, ours.value), ours.touched ? ", wrongly written" : "", text(X87, theirs));
}

static void compare_split_nan(struct pattern x) {
    int32_t exponent;
    struct pattern theirs = processor_split(x, &exponent);
    struct reply ours = call_nan(X87, x, x);
    nans.split++;
    if ((!same(ours.value, theirs) || ours.touched) && differs())
        printf("FXTRACT of %s:\n  zukemoriha %s\n  processor  %s\n", text(X87, x), text(X87, ours.value), text(X87, theirs));
}

static void compare_nan_pair(struct pattern x, struct pattern y) {
    int instruction;
    for (instruction = 0; instruction < INSTRUCTIONS; instruction++)
        compare_nan(instruction, x, y);
}

/* Ends of signalling and of quiet NaNs with both signs, then numbers and infinities. */
static struct pattern nan_sample(int next) {
    const uint64_t top = UINT64_C(1) << 63, quiet = UINT64_C(1) << 62;
    const uint64_t nan_significands[] = {top + 1, top + 2, top + quiet - 1, top + quiet, top + quiet + 1, top + quiet + quiet - 1};
    const struct pattern others[] = {{0, 0},        {0, 0x8000},   {1, 0x8000},   {top, 0},      {top | 1, 0x8001},
                                     {top, 0x3FFF}, {top, 0xC040}, {top, 0x7FFF}, {top, 0xFFFF}, {~UINT64_C(0), 0x7FFE}};
    return next < NAN_SAMPLES ? signed_pattern(X87, next % 2, nan_significands[next / 2], 32767) : others[next - NAN_SAMPLES];
}

static void compare_nans(uint64_t pairs, uint64_t *state) {
    uint64_t i;
    int x, y;
    next_part();
    for (x = 0; x < ALL_SAMPLES; x++)
        for (y = 0; y < ALL_SAMPLES; y++)
            if (x < NAN_SAMPLES || y < NAN_SAMPLES)
                compare_nan_pair(nan_sample(x), nan_sample(y));
    for (i = 0; going(i, pairs); i++) {
        struct pair p = nan_pair(X87, state);
        if (!is_unsupported(p.x) && !is_unsupported(p.y))
            compare_nan_pair(p.x, p.y);
    }
    next_part();
    for (i = 0; going(i, pairs); i++)
        compare_split_nan(any_nan(X87, state));
    printf("NaNs: by FPREM, FPREM1 and FSCALE one %" PRIu64 ", two %" PRIu64 ", two with one significand %" PRIu64 ", where the processor",
           nans.one, nans.two, nans.equal);
    printf(" takes the divisor because it is positive in %" PRIu64 "; by FXTRACT %" PRIu64 "\n", nans.unlike, nans.split);
}

int main(int argc, char **argv) {
    uint64_t pairs = pairs_asked(argc, argv, 1000000), state = seed_asked(argc, argv);
    compare_pairs(pairs, &state);
    compare_scalings(pairs, &state);
    compare_splitting(pairs, &state);
    compare_halves(places_asked(argc, argv));
    print_operands();
    compare_nans(pairs / 4 + 1, &state);
    return verdict();
}

#endif
