/*
 * Runs against loops of steps, and steps of sizes drawn anew each time against the remainder in one call, of rem and of remquo: value,
 * number, all 31 bits of the quotient and steps, for budgets and sizes of any 32 bits.
 *
 *   chains [PAIRS [SEED]]
 */
#include "operands.h"

static uint32_t any_budget(uint64_t *state) {
    switch (below(state, 6)) {
    case 0: return (uint32_t)below(state, 4);
    case 1: return (uint32_t)below(state, 1100);
    case 2: return (uint32_t)draw(state);
    case 3: return (uint32_t)draw(state) << 16;
    case 4: return UINT32_C(1) << below(state, 32);
    default: return UINT32_MAX;
    }
}

/* Sizes that are taken, and one in eight that may not be. */
static uint32_t any_size(uint64_t *state) {
    if (below(state, 8))
        return (uint32_t)between(state, 32, 63);
    return below(state, 2) ? (uint32_t)between(state, 31, 64) : (uint32_t)draw(state);
}

static void print_reply(const char *whose, struct reply r) {
    printf("  %-4s %s number %u quotient %lu steps %lu%s\n", whose, text(X87, r.value), r.number, (unsigned long)r.quotient,
           (unsigned long)r.steps, r.touched ? ", wrongly written" : "");
}

static void differ(const char *what, struct pair p, uint32_t size, uint32_t kind, uint32_t budget, struct reply got, struct reply want) {
    if (!differs())
        return;
    printf("%s of %s by %s size %lu kind %lu budget %lu:\n", what, text(X87, p.x), text(X87, p.y), (unsigned long)size, (unsigned long)kind,
           (unsigned long)budget);
    print_reply("got", got);
    print_reply("want", want);
}

static int same_reply(struct reply a, struct reply b) {
    return a.number == b.number && !a.touched && !b.touched && same(a.value, b.value) && a.quotient == b.quotient && a.steps == b.steps;
}

/* How quotients of chains come of their parts. Without one of these a wrong sum might be equal to the right one everywhere. */
enum { ONE_PART, TWO_PARTS, NOT_MODULO_8, AROUND, SPENT_LATER, SUMS };

static const char *const sum_names[SUMS] = {"one part", "two parts", "other than modulo 8", "around 2^31", "spent after two steps"};
static uint64_t sums[SUMS];

/* Of the parts only the last two can be other than 0 modulo 2^31: the end's and the one before it, which is then all that came before. */
static void see_sum(uint32_t before, uint32_t last) {
    uint32_t sum = before + last;
    if (before == 0 || last == 0) {
        sums[ONE_PART]++;
        return;
    }
    sums[TWO_PARTS]++;
    sums[NOT_MODULO_8] += sum % ZK_QUOTIENT_MODULUS != sum % 8;
    sums[AROUND] += sum >= ZK_QUOTIENT_MODULUS;
}

static void print_sums(void) {
    int i;
    printf("  sums of chains:");
    for (i = TWO_PARTS; i < SUMS; i++)
        print_pairs(sum_names[i], sums[i]);
    printf(" %s %" PRIu64 "\n", sum_names[ONE_PART], sums[ONE_PART]);
}

/*
 * Steps from x to the first that finishes or is refused, or to the spent budget, added up. Size 0: another one at each step. The first step
 * takes x as it comes, a pseudo-denormal too; with no step there is only its ordinary pattern to give.
 */
static struct reply steps(struct pair p, uint32_t size, uint32_t kind, uint32_t budget, uint64_t *state) {
    struct reply sum = {0};
    sum.number = ZK_SPENT;
    sum.value = budget ? p.x : ordinary(p.x);
    while (sum.steps < budget) {
        struct reply r = call_step(sum.value, p.y, size ? size : (uint32_t)between(state, 32, 63), kind, ZK_BLOCK_LENGTH);
        if (!zk_is_answer(r.number))
            return r;
        if (r.number == ZK_FINISHED)
            see_sum(sum.quotient, r.quotient);
        sum.value = r.value;
        sum.quotient = (sum.quotient + r.quotient) % ZK_QUOTIENT_MODULUS;
        sum.steps += r.steps;
        sum.touched |= r.touched;
        if (r.number == ZK_FINISHED) {
            sum.number = ZK_FINISHED;
            break;
        }
    }
    sums[SPENT_LATER] += sum.number == ZK_SPENT && sum.steps > 1 && sum.quotient != 0;
    return sum;
}

/* A refused run is refused as its first step is, whatever its budget. */
static void compare_run(struct pair p, uint32_t size, uint32_t kind, uint32_t budget, uint64_t *state) {
    struct reply got = call_run(p.x, p.y, size, kind, budget, ZK_BLOCK_LENGTH);
    struct reply first = call_step(p.x, p.y, size, kind, ZK_BLOCK_LENGTH);
    struct reply want = zk_is_answer(first.number) ? steps(p, size, kind, budget, state) : first;
    if (!same_reply(got, want))
        differ("run", p, size, kind, budget, got, want);
}

static void compare_whole(struct pair p, uint32_t kind, uint64_t *state) {
    struct reply got = steps(p, 0, kind, UINT32_MAX, state), want = call_rem(X87, p.x, p.y, kind);
    struct reply remquo = call_remquo(X87, p.x, p.y, kind);
    want.steps = got.steps;
    if (!same_reply(got, want))
        differ("steps", p, 0, kind, UINT32_MAX, got, want);
    if (!agrees_with_rem(X87, p.x, p.y, remquo, got) && differs()) {
        printf("remquo of %s by %s kind %lu:\n  got  %s number %u quotient %ld%s\n", text(X87, p.x), text(X87, p.y), (unsigned long)kind,
               text(X87, remquo.value), remquo.number, (long)remquo.signed_quotient, remquo.touched ? ", wrongly written" : "");
        print_reply("sum", got);
    }
}

/*
 * A dividend just below a multiple N of 2^31 times y: the cut quotient is N - 1, its 31 bits all ones, and the nearest one N. D is 65, and
 * in steps of sizes n from 35 on the parts of N are N - 2^(65-n) and 2^(65-n), which add up around 2^31. For y = 2^63 + a and
 * N = 2^31 * (2^34 + b) such a dividend, of 64 digits, is (2^63 + a + b * 2^29) * 2^65 = N * y - a * b * 2^31.
 */
static struct pair wrapping_pair(uint64_t *state) {
    uint64_t top = UINT64_C(1) << 63, a = (uint64_t)between(state, 1, 32767), b = (uint64_t)between(state, 1, 32767);
    int place = between(state, formats[X87].smallest, formats[X87].bias - 128);
    struct operand x = operand_of(top + a + (b << 29), place + 65), y = operand_of(top + a, place);
    struct pair p;
    x.negative = below(state, 2);
    y.negative = below(state, 2);
    p.x = encode(X87, x);
    p.y = in_either_pattern(encode(X87, y), state);
    return p;
}

/* Two steps of many sizes are partial here, and the second part is not 0 modulo 2^31: a run may be spent after it. */
static struct pair near_pair(uint64_t *state) {
    return pair_with_gap(X87, between(state, 98, 156), state);
}

int main(int argc, char **argv) {
    uint64_t pairs = pairs_asked(argc, argv, 200000), state = seed_asked(argc, argv), i;
    struct coverage seen;
    memset(&seen, 0, sizeof seen);
    for (i = 0; going(i, pairs); i++) {
        struct pair p = i % 16 == 0 ? wrapping_pair(&state) : i % 16 == 1 ? near_pair(&state) : any_pair(X87, &state);
        uint32_t size = any_size(&state), kind = (uint32_t)below(&state, 2);
        cover(&seen, X87, p);
        compare_run(p, size, kind, i % 16 == 1 ? (uint32_t)between(&state, 1, 3) : any_budget(&state), &state);
        compare_whole(p, kind, &state);
    }
    printf("x87: %" PRIu64 " runs, and as many chains of mixed sizes\n", pairs);
    print_coverage(&seen, X87);
    print_sums();
    return verdict();
}
