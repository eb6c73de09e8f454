/*
 * Every exported function under other floating-point environments: each rounding mode, denormals flushed and taken for zero, other
 * precisions and roundings of the x87 unit, then all of them once more with exceptions unmasked. The answers are those that the default
 * environment gave before, nothing traps, the modes are left as they were, and no flag is raised. The denormal-operand exception is left to
 * the functions of stem files, of which the header says that they may set it off. x86-64 only.
 *
 *   modes [QUESTIONS [SEED]]
 */
#define _DEFAULT_SOURCE
#include "operands.h"

#if !defined(__x86_64__)

int main(void) {
    printf("no MXCSR here: nothing compared\n");
    return 0;
}

#else

#include <setjmp.h>
#include <signal.h>
#include <xmmintrin.h>

/* ---- questions and answers */

enum { REM, REMQUO, STEP, RUN, SCALE, SPLIT, DENORMAL_OPERAND, WHICH_NAN, FOLD, OPEN, STEM_FOLD, STEM_WRITE, OPERATIONS };

static const char *const operation_names[OPERATIONS] = {"remainder", "remquo", "step", "run",       "scaling",    "split",
                                                        "denormal",  "NaN",    "list", "stem file", "stem point", "written file"};

enum { PLACES_OF_LIST = 4, FILE_LENGTH = ZK_STEM_HEADER + ZK_STEM_POINT, LONGEST_ROOM = FILE_LENGTH + 8, NUMBERS = ZK_STEM_ROOM + 1 };

static int is_of_stems(int operation) {
    return operation >= OPEN;
}

struct question {
    int operation, format;
    struct pattern x, y;
    uint32_t kind, size, budget;
    int32_t power;
    size_t length; /* of the block or the room */
    size_t count, other; /* of the lists that are to be written */
    uint64_t list[PLACES_OF_LIST]; /* dividends; or period, origin, reading and radius */
    uint8_t file[FILE_LENGTH];
};

/* All that a call gave, with zeros where it gave nothing, so that two are compared by their bytes. */
struct answer {
    uint64_t number, touched, values[8];
};

static void answer_of_reply(struct answer *a, struct reply r) {
    const uint64_t values[8] = {r.value.bits,
                                r.value.word,
                                r.quotient,
                                (uint64_t)(int64_t)r.signed_quotient,
                                r.octant,
                                r.steps,
                                (uint64_t)r.says,
                                (uint64_t)(int64_t)r.exponent};
    a->number = r.number;
    a->touched = (uint64_t)r.touched;
    memcpy(a->values, values, sizeof values);
}

/* Of both operands. Here and for a NaN there is no number. */
static void ask_denormal(const struct question *q, struct answer *a) {
    a->number = NUMBERS;
    a->values[0] = call_denormal(q->format, q->x);
    a->values[1] = call_denormal(q->format, q->y);
}

static void ask_nan(const struct question *q, struct answer *a) {
    answer_of_reply(a, call_nan(q->format, q->x, q->y));
    a->number = NUMBERS;
}

/* Where a block would be a byte short, the list of quotients is. */
static void ask_list(const struct question *q, struct answer *a) {
    uint8_t bytes[PLACES_OF_LIST] = {0};
    size_t bytes_lent = q->length == ZK_BLOCK_LENGTH ? PLACES_OF_LIST : PLACES_OF_LIST - 1, marked = 0;
    a->number = zk_fold64(q->list, PLACES_OF_LIST, a->values, PLACES_OF_LIST, bytes, bytes_lent, q->y.bits, q->kind, &marked);
    memcpy(a->values + PLACES_OF_LIST, bytes, sizeof bytes);
    a->values[PLACES_OF_LIST + 1] = marked;
}

static void ask_file(const struct question *q, struct answer *a) {
    struct opened o = call_open(q->file, FILE_LENGTH);
    const uint64_t values[8] = {o.kind, o.period, o.origin, o.start, o.count, 0, 0, 0};
    a->number = o.number;
    a->touched = (uint64_t)o.touched;
    memcpy(a->values, values, sizeof values);
}

/* One point is written, or there are too many. */
static void ask_writer(const struct question *q, struct answer *a) {
    static const uint64_t many[ZK_STEM_MOST + 1];
    const uint64_t *readings = q->count == 1 ? q->list + 2 : many, *radii = q->count == 1 ? q->list + 3 : many;
    uint8_t room[LONGEST_ROOM] = {0};
    struct written w = call_stem_write(q->kind, q->list[0], q->list[1], readings, q->count, radii, q->other, room, q->length);
    a->number = w.number;
    a->touched = (uint64_t)w.touched;
    memcpy(a->values, room, sizeof room);
    a->values[7] = w.length;
}

static void ask(const struct question *q, struct answer *a) {
    memset(a, 0, sizeof *a);
    switch (q->operation) {
    case REM: answer_of_reply(a, call_rem(q->format, q->x, q->y, q->kind)); break;
    case REMQUO: answer_of_reply(a, call_remquo(q->format, q->x, q->y, q->kind)); break;
    case STEP: answer_of_reply(a, call_step(q->x, q->y, q->size, q->kind, q->length)); break;
    case RUN: answer_of_reply(a, call_run(q->x, q->y, q->size, q->kind, q->budget, q->length)); break;
    case SCALE: answer_of_reply(a, call_scale(q->format, q->x, q->power)); break;
    case SPLIT: answer_of_reply(a, call_split(q->format, q->x)); break;
    case DENORMAL_OPERAND: ask_denormal(q, a); break;
    case WHICH_NAN: ask_nan(q, a); break;
    case FOLD: ask_list(q, a); break;
    case OPEN: ask_file(q, a); break;
    case STEM_FOLD: answer_of_reply(a, call_stem_fold(q->kind, q->list[0], q->list[1], q->list[2])); break;
    default: ask_writer(q, a);
    }
}

static void put(uint8_t *bytes, uint64_t number) {
    int i;
    for (i = 0; i < 8; i++)
        bytes[i] = (uint8_t)(number >> 8 * i);
}

/* Period, origin and reading of a file or a point. Half of the readings are near the origin: their difference may be denormal. */
static void fill_gauge(struct question *q, uint64_t *state) {
    uint64_t sign = UINT64_C(1) << 63;
    q->kind = (uint32_t)below(state, 2);
    q->list[0] = any_binary64(state) & (below(state, 8) ? ~sign : ~UINT64_C(0));
    q->list[1] = q->kind == ZK_TURN && below(state, 8) ? 0 : any_binary64(state);
    q->list[2] = below(state, 2) ? any_binary64(state) : q->list[1] + (uint64_t)between(state, -9, 9);
    memcpy(q->file, "STM\1", 5);
    q->file[5] = (uint8_t)q->kind;
    q->file[6] = 1;
    put(q->file + 10, q->list[0]);
    put(q->file + 18, q->list[1]);
    put(q->file + 26, q->list[2]);
    if (below(state, 4) == 0)
        q->file[below(state, 10)] ^= (uint8_t)(1 << below(state, 8));
}

/* One time in twenty each there are too many points, the lists are unequal, or the room is a byte short or longer; some kinds are none. */
static void fill_task(struct question *q, uint64_t *state) {
    static const size_t lengths[] = {FILE_LENGTH - 1, FILE_LENGTH + 1, LONGEST_ROOM};
    int other_room = below(state, 20);
    q->kind = q->file[5];
    q->count = below(state, 20) ? 1 : ZK_STEM_MOST + 1;
    q->other = below(state, 20) ? q->count : 0;
    q->length = other_room < 3 ? lengths[other_room] : FILE_LENGTH;
}

static struct question any_question(int operation, uint64_t *state) {
    struct question q;
    struct pair p;
    int i;
    memset(&q, 0, sizeof q);
    q.operation = operation;
    q.format = operation == STEP || operation == RUN ? X87 : operation == FOLD ? BINARY64 : below(state, FORMATS);
    p = operation == WHICH_NAN ? nan_pair(q.format, state) : any_pair(q.format, state);
    q.x = p.x;
    q.y = p.y;
    q.kind = (uint32_t)below(state, 2);
    q.size = (uint32_t)between(state, 31, 64);
    q.budget = (uint32_t)below(state, 20);
    q.length = below(state, 32) ? ZK_BLOCK_LENGTH : ZK_BLOCK_LENGTH - 1;
    q.power = below(state, 2) ? between(state, -80, 80) : between(state, -2 * formats[q.format].bias, 2 * formats[q.format].bias);
    for (i = 0; i < PLACES_OF_LIST; i++)
        q.list[i] = any_binary64(state);
    if (is_of_stems(operation))
        fill_gauge(&q, state);
    if (operation == STEM_WRITE)
        fill_task(&q, state);
    return q;
}

/* ---- environments */

struct environment {
    unsigned mxcsr;
    uint16_t control;
    unsigned flags; /* what has happened, of both units */
};

enum { ROUNDINGS = 4, FLUSHINGS = 4, PRECISIONS = 3, ENVIRONMENTS = 48 };

/* The masks are bits 0 to 5 of the x87 unit's control word and bits 7 to 12 of MXCSR; the second of each is the denormal operand's. */
enum { ALL_MASKED = 0x3F, DENORMAL = 0x02 };

/* Every rounding, the same in both units, by every flushing, by every precision of the x87 unit. */
static struct environment environment_of(unsigned i, unsigned masks) {
    static const unsigned flushings[FLUSHINGS] = {0, 0x8000, 0x0040, 0x8040}, precisions[PRECISIONS] = {0x0300, 0x0200, 0};
    struct environment e;
    e.mxcsr = masks << 7 | i % ROUNDINGS << 13 | flushings[i / ROUNDINGS % FLUSHINGS];
    e.control = (uint16_t)(masks | 0x40 | i % ROUNDINGS << 10 | precisions[i / ROUNDINGS % PRECISIONS]);
    e.flags = 0;
    return e;
}

/* Flags that a test before has raised would trap at once if they were left. */
static void set(struct environment e) {
    __asm__ volatile("fnclex\n\tfldcw %0" : : "m"(e.control));
    _mm_setcsr(e.mxcsr);
}

static struct environment present(void) {
    struct environment e;
    uint16_t status;
    __asm__ volatile("fnstcw %0\n\tfnstsw %1" : "=m"(e.control), "=m"(status));
    e.flags = (_mm_getcsr() | status) & 0x3F;
    e.mxcsr = _mm_getcsr() & ~0x3Fu;
    return e;
}

/* The exception of denormal operands is the one that the header allows, to the calls that hold a double: for them it stays masked. */
static unsigned allowed(const struct question *q) {
    return is_of_stems(q->operation) ? DENORMAL : 0;
}

static sigjmp_buf trapped;

static void on_trap(int signal) {
    (void)signal;
    siglongjmp(trapped, 1);
}

/* What a call gives in an environment. An exception of the x87 unit that waits is set off before the environment is left. */
static void ask_in(struct environment e, const struct question *q, struct answer *a, struct environment *after) {
    set(e);
    ask(q, a);
    __asm__ volatile("fwait");
    *after = present();
}

static void tell(const char *what, struct environment e, const struct question *q) {
    if (!differs())
        return;
    printf("%s: %s with MXCSR %04X and control word %04X, ", operation_names[q->operation], what, e.mxcsr, (unsigned)e.control);
    if (is_of_stems(q->operation))
        printf("kind %u period %016" PRIX64 " origin %016" PRIX64 " reading %016" PRIX64 " radius %016" PRIX64 "\n", (unsigned)q->kind,
               q->list[0], q->list[1], q->list[2], q->list[3]);
    else
        printf("%s %s by %s\n", formats[q->format].name, text(q->format, q->x), text(q->format, q->y));
}

static void compare(struct environment e, struct environment usual, const struct question *q, const struct answer *want) {
    static struct answer got;
    static struct environment after;
    if (sigsetjmp(trapped, 0)) {
        set(usual);
        tell("a trap", e, q);
        return;
    }
    ask_in(e, q, &got, &after);
    set(usual);
    if (memcmp(&got, want, sizeof got) != 0)
        tell("another answer", e, q);
    if (after.mxcsr != e.mxcsr || after.control != e.control)
        tell("another environment is left", e, q);
}

/* What has happened in a call, with all exceptions masked. */
static void look_at_flags(struct environment usual, const struct question *q) {
    static struct answer got;
    static struct environment after;
    struct environment e = environment_of(0, ALL_MASKED);
    ask_in(e, q, &got, &after);
    set(usual);
    if (after.flags & ~allowed(q))
        tell("a flag is raised", e, q);
}

/* A number that no question has would leave a refusal untried: it counts as a difference. */
static void print_numbers(const struct answer *answers, uint64_t cases) {
    uint64_t seen[NUMBERS] = {0}, i;
    for (i = 0; i < cases; i++)
        if (answers[i].number < NUMBERS)
            seen[answers[i].number]++;
    printf("%" PRIu64 " questions, with number", cases);
    for (i = 0; i < NUMBERS; i++) {
        printf(" %u: %" PRIu64 "%s", (unsigned)i, seen[i], i < NUMBERS - 1 ? "," : "\n");
        if (seen[i] == 0 && differs())
            printf(" number %u has no question,", (unsigned)i);
    }
}

int main(int argc, char **argv) {
    uint64_t cases = pairs_asked(argc, argv, 20000), state = seed_asked(argc, argv), i;
    struct question *questions = (struct question *)malloc(cases * sizeof *questions);
    struct answer *answers = (struct answer *)malloc(cases * sizeof *answers);
    struct environment usual = present();
    struct sigaction action;
    unsigned e;
    memset(&action, 0, sizeof action);
    action.sa_handler = on_trap;
    action.sa_flags = SA_NODEFER;
    if (!questions || !answers || sigaction(SIGFPE, &action, NULL)) {
        perror("modes");
        return 2;
    }
    for (i = 0; i < cases; i++) {
        questions[i] = any_question((int)(i % OPERATIONS), &state);
        ask(&questions[i], &answers[i]);
    }
    for (e = 0; going(e, 2 * ENVIRONMENTS); e++) {
        if (e == ENVIRONMENTS)
            next_part();
        for (i = 0; i < cases; i++)
            compare(environment_of(e, e < ENVIRONMENTS ? ALL_MASKED : allowed(&questions[i])), usual, &questions[i], &answers[i]);
    }
    next_part();
    for (i = 0; i < cases; i++)
        look_at_flags(usual, &questions[i]);
    print_numbers(answers, cases);
    printf("each in %d environments, with exceptions masked and unmasked\n", ENVIRONMENTS);
    free(questions);
    free(answers);
    return verdict();
}

#endif
