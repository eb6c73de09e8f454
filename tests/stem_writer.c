/*
 * Writing stem files: zk_stem_write against a writer of bytes that is written here, and there and back by zk_stem_open.
 *
 *   stem_writer [CASES [SEED]]    CASES calls are drawn, and CASES files; those that zk_stem_open takes are written again
 *
 * Every call is made twice, with two fillings of the room and of what is lent for the length, so that no byte is right by chance, and in
 * two places: the room and both lists end where unreadable pages begin, then begin where some end. A byte that is read or written outside
 * of them is seen there. All that is lent is looked at afterwards, the lists and the bytes beside them too.
 *
 * A call that is to be refused is made in each of these places once more, with a room in pages that can only be read: it may not write a
 * byte, not even one that it puts back.
 */
#define _GNU_SOURCE
#include "stems.h"

enum { LISTED = MOST + 300, LONGEST_ROOM = HEADER + POINT * LISTED + 5000, NUMBERS = ZK_STEM_ROOM + 1 };

/* What is asked of a writer. The points are the first ones of `readings` and `radii`. */
struct task {
    uint32_t kind;
    uint64_t period, origin;
    size_t nreadings, nradii, length;
};

static uint64_t readings[LISTED], radii[LISTED];

static size_t length_of(size_t count) {
    return HEADER + POINT * count;
}

/* ---- a second writer */

static uint8_t refusal_of(const struct task *t) {
    uint8_t header[HEADER];
    if (t->nreadings != t->nradii)
        return 9;
    if (t->kind != 0 && t->kind != 1)
        return 12;
    if (t->nreadings > MOST)
        return 13;
    put_header(header, t->kind, 0, t->period, t->origin);
    if (!has_gauge(header))
        return 15;
    return t->length < length_of(t->nreadings) ? 16 : 0;
}

static uint8_t after[LONGEST_ROOM]; /* what the room has to hold afterwards */

static struct written expected(const struct task *t, size_t shown) {
    struct written w = {refusal_of(t), 0, 0};
    size_t i;
    memset(after, filling, shown);
    if (w.number)
        return w;
    put_header(after, t->kind, (uint32_t)t->nreadings, t->period, t->origin);
    for (i = 0; i < t->nreadings; i++) {
        put(after + length_of(i), readings[i], 8);
        put(after + length_of(i) + 8, radii[i], 8);
    }
    w.length = length_of(t->nreadings);
    return w;
}

/* ---- what has come up; each has to */

enum { ZEROS, DENORMALS, NORMALS, INFINITIES, QUIET, SIGNALLING, SORTS };

static const char *const sort_names[SORTS] = {"zero", "denormal", "normal", "infinity", "quiet NaN", "signalling NaN"};

static uint64_t calls, numbers[NUMBERS], sorts_of_readings[2][SORTS], sorts_of_radii[2][SORTS], opened[2], again[2];
static uint64_t shut_calls, shut_numbers[NUMBERS], shut_kinds[2]; /* on rooms that can only be read and have a byte */

static int sort_of(uint64_t pattern) {
    uint64_t magnitude = pattern & ~sign64;
    if (magnitude >> 52 == 0)
        return magnitude == 0 ? ZEROS : DENORMALS;
    if (magnitude >> 52 < 0x7FF)
        return NORMALS;
    return magnitude << 12 == 0 ? INFINITIES : magnitude >> 51 & 1 ? QUIET : SIGNALLING;
}

static void count_task(const struct task *t) {
    uint8_t number = refusal_of(t);
    size_t i;
    calls++;
    numbers[number]++;
    for (i = 0; number == 0 && i < t->nreadings; i++) {
        sorts_of_readings[readings[i] >> 63][sort_of(readings[i])]++;
        sorts_of_radii[radii[i] >> 63][sort_of(radii[i])]++;
    }
}

static void count_shut(const struct task *t, uint8_t number) {
    if (t->length == 0)
        return;
    shut_calls++;
    shut_numbers[number]++;
    if (t->kind < 2)
        shut_kinds[t->kind]++;
}

static void forget_counts(void) {
    calls = shut_calls = 0;
    memset(numbers, 0, sizeof numbers);
    memset(shut_numbers, 0, sizeof shut_numbers);
    memset(shut_kinds, 0, sizeof shut_kinds);
    memset(sorts_of_readings, 0, sizeof sorts_of_readings);
    memset(sorts_of_radii, 0, sizeof sorts_of_radii);
    memset(opened, 0, sizeof opened);
    memset(again, 0, sizeof again);
}

static void print_count(const char *sign, const char *of, uint64_t count) {
    if (count)
        printf(" %s%s %" PRIu64 ",", sign, of, count);
    else if (differs())
        printf(" %s%s has no case,", sign, of);
}

static void print_sorts(const char *of, uint64_t (*sorts)[SORTS]) {
    int sort;
    next_part();
    printf("%s:", of);
    for (sort = 0; sort < SORTS; sort++) {
        print_count("+", sort_names[sort], sorts[0][sort]);
        print_count("-", sort_names[sort], sorts[1][sort]);
    }
    printf("\n");
}

static void print_refusals(const uint64_t *of) {
    static const uint8_t all[] = {9, 12, 13, 15, 16};
    static const char *const names[] = {"number 9", "number 12", "number 13", "number 15", "number 16"};
    size_t i;
    for (i = 0; i < sizeof all / sizeof *all; i++)
        print_count("", names[i], of[all[i]]);
}

static void print_shut(void) {
    if (!CAN_SHUT)
        return;
    next_part();
    printf("%" PRIu64 " refused calls on rooms that can only be read:", shut_calls);
    print_refusals(shut_numbers);
    print_count("", "turn", shut_kinds[ZK_TURN]);
    print_count("", "roller", shut_kinds[ZK_ROLLER]);
    printf("\n");
}

static void print_counts(void) {
    next_part();
    printf("%" PRIu64 " drawn calls:", calls);
    print_count("", "written", numbers[0]);
    print_refusals(numbers);
    printf("\n");
    print_shut();
    print_sorts("readings", sorts_of_readings);
    print_sorts("radii", sorts_of_radii);
    next_part();
    printf("files:");
    print_count("", "turn written and opened", opened[ZK_TURN]);
    print_count("", "roller written and opened", opened[ZK_ROLLER]);
    print_count("", "turn opened and written", again[ZK_TURN]);
    print_count("", "roller opened and written", again[ZK_ROLLER]);
    printf("\n");
}

/* ---- the library on a task */

static struct area around_readings, around_radii, around_room, shut_room;

static int tell(const char *what, const struct task *t) {
    if (!differs())
        return 0;
    printf("%s: %s, kind %08X period %016" PRIX64 " origin %016" PRIX64 ", %lu readings, %lu radii, a room of %lu\n", part, what,
           (unsigned)t->kind, t->period, t->origin, (unsigned long)t->nreadings, (unsigned long)t->nradii, (unsigned long)t->length);
    return 1;
}

/*
 * How many places of a list are lent. No host has room for the longest lists that are asked for, and a call that refuses them reads none of
 * their places: a few are lent, as many as a count would say that has lost its upper bits, and the unreadable page follows.
 */
static size_t places(size_t n) {
    return n <= LISTED ? n : n & 4095;
}

/* One call, and where it finds what it is lent. */
struct trial {
    const struct task *task;
    const uint8_t *file; /* the one that was opened, if it is written again */
    struct area area;    /* of the room */
    int end;
    int is_shut;  /* the room can only be read */
    size_t shown; /* how many bytes of the room are looked at */
    uint8_t *lent;
    const uint64_t *readings, *radii;
    struct written want;
};

static void compare_bytes(const struct trial *t, size_t from, size_t to, const char *what) {
    size_t i = from;
    if (memcmp(t->lent + from, after + from, to - from) == 0 || !tell(what, t->task))
        return;
    while (t->lent[i] == after[i])
        i++;
    printf("  byte %lu is %02X, expected %02X\n", (unsigned long)i, t->lent[i], after[i]);
}

static void compare_room(const struct trial *t) {
    compare_bytes(t, 0, t->want.length, "the file");
    compare_bytes(t, t->want.length, t->shown, t->want.number ? "the room of a refused call" : "the room behind the file");
    if (!beside_is_kept(t->area, t->end, t->shown))
        tell("bytes beside the room", t->task);
}

static void compare_list(const struct trial *t, const uint64_t *lent, const uint64_t *list, size_t n, struct area area, const char *what) {
    if (memcmp(lent, list, 8 * places(n)) != 0 || !beside_is_kept(area, t->end, 8 * places(n)))
        tell(what, t->task);
}

static int points_differ(const struct trial *t, const uint8_t *file, struct opened o) {
    size_t i;
    for (i = 0; i < t->task->nreadings; i++)
        if (little(file + o.start + POINT * i, 8) != readings[i] || little(file + o.start + POINT * i + 8, 8) != radii[i])
            return 1;
    return 0;
}

/* What a host would do: the file is taken out of the room, as many bytes as it is said to have, and opened. */
static void compare_opened(const struct trial *t, size_t length) {
    static uint8_t file[LONGEST_ROOM + POINT];
    const struct task *k = t->task;
    struct opened o;
    memcpy(file, t->lent, length < LONGEST_ROOM ? length : LONGEST_ROOM);
    o = call_open(file, length);
    opened[k->kind] += t->end == AT_WALL;
    if (o.number)
        tell("refused by zk_stem_open", k);
    else if (o.kind != k->kind || o.period != k->period || o.origin != k->origin)
        tell("another gauge by zk_stem_open", k);
    else if (o.start != HEADER || o.count != k->nreadings || points_differ(t, file, o))
        tell("other points by zk_stem_open", k);
    if (t->file && memcmp(file, t->file, t->want.length) != 0)
        tell("another file than was opened", k);
}

static void compare_lent(const void *trial) {
    const struct trial *t = (const struct trial *)trial;
    const struct task *k = t->task;
    struct written got = call_stem_write(k->kind, k->period, k->origin, t->readings, k->nreadings, t->radii, k->nradii, t->lent, k->length);
    if (got.number != t->want.number && tell("the number", k))
        printf("  zukemoriha %u, expected %u\n", got.number, t->want.number);
    if (got.number == t->want.number && got.length != t->want.length && tell("the length", k))
        printf("  zukemoriha %lu, expected %lu\n", (unsigned long)got.length, (unsigned long)t->want.length);
    if (got.touched)
        tell("an output is touched", k);
    if (!t->is_shut)
        compare_room(t);
    compare_list(t, t->readings, readings, k->nreadings, around_readings, "the readings are changed");
    compare_list(t, t->radii, radii, k->nradii, around_radii, "the radii are changed");
    if (got.number == 0 && t->want.number == 0)
        compare_opened(t, got.length);
}

static void tell_outside(struct area area, const struct task *k) {
    tell(is_outside_of(area)              ? "a byte outside of the room"
         : is_outside_of(around_readings) ? "a byte outside of the readings"
         : is_outside_of(around_radii)    ? "a byte outside of the radii"
                                          : "a byte outside of all that is lent",
         k);
}

/* The call of a trial that is to be refused, on a room that can only be read: its first write is seen, and the call ends there. */
static void compare_shut(struct trial t, struct area area) {
    const struct task *k = t.task;
    if (!CAN_SHUT)
        return;
    t.area = area;
    t.is_shut = 1;
    t.lent = place_at(area, t.end, k->length);
    count_shut(k, t.want.number);
    if (stays_inside(compare_lent, &t))
        return;
    if (is_touched(t.lent, k->length))
        tell("the room is written", k);
    else
        tell_outside(area, k);
}

/* One call in the first area, and if it is to be refused another in the second, which can only be read. */
static void compare_at(struct area *area, struct area shut, int end, size_t shown, const struct task *k, const uint8_t *file) {
    static uint8_t before[LONGEST_ROOM];
    struct trial t;
    memset(before, filling, shown);
    t.task = k;
    t.file = file;
    t.end = end;
    t.is_shut = 0;
    t.shown = shown;
    t.lent = lend_at(area, end, before, shown);
    t.area = *area;
    t.readings = (const uint64_t *)(const void *)lend_at(&around_readings, end, readings, 8 * places(k->nreadings));
    t.radii = (const uint64_t *)(const void *)lend_at(&around_radii, end, radii, 8 * places(k->nradii));
    t.want = expected(k, shown);
    if (!stays_inside(compare_lent, &t))
        tell_outside(*area, k);
    if (t.want.number)
        compare_shut(t, shut);
}

static void compare_again(struct task k, const uint8_t *file) {
    int end;
    count_task(&k);
    for (end = 0; end < ENDS; end++, filling ^= 0xFF)
        compare_at(&around_room, shut_room, end, k.length, &k, file);
}

static void compare_task(struct task k) {
    compare_again(k, NULL);
}

/* ---- tasks */

static struct task good_task(uint32_t kind, size_t count, size_t length) {
    struct task k = {kind, good_period(kind), good_origin(kind), count, count, length};
    return k;
}

/* Counts near the ends, some between, and some above the limit, in a room that is as long as the file. */
static void counts(void) {
    size_t count;
    for (count = 0; count <= MOST + 100; count += count < 64 || count >= MOST - 64 ? 1 : 61) {
        compare_task(good_task(ZK_TURN, count, length_of(count)));
        compare_task(good_task(ZK_ROLLER, count, length_of(count)));
    }
}

/* Every length of the room from nothing to that of the file, and beyond it; where the points are many, lengths around the right one. */
static void rooms(void) {
    static const size_t many[] = {8, 100, MOST - 1, MOST, MOST + 1}, shorter[] = {16, 15, 1}, longer[] = {1, 16, 17, 4999};
    static const size_t short_rooms[] = {0, 1, 10, HEADER - 1, HEADER, HEADER + 1};
    uint32_t kind;
    size_t count, length, m, i;
    for (kind = 0; kind < 2; kind++) {
        for (count = 0; count < 8; count++)
            for (length = 0; length <= length_of(count) + 17; length++)
                compare_task(good_task(kind, count, length));
        for (m = 0; m < sizeof many / sizeof *many; m++) {
            for (i = 0; i < sizeof shorter / sizeof *shorter; i++)
                compare_task(good_task(kind, many[m], length_of(many[m]) - shorter[i]));
            for (i = 0; i < sizeof longer / sizeof *longer; i++)
                compare_task(good_task(kind, many[m], length_of(many[m]) + longer[i]));
            for (i = 0; i < sizeof short_rooms / sizeof *short_rooms; i++)
                compare_task(good_task(kind, many[m], short_rooms[i]));
        }
    }
}

/* Lists of two lengths, some of them equal in their lower bits, in either order, in rooms for the one and for the other. */
static void unequal_lists(void) {
    static const size_t shorter[] = {0, 1, 2, 3, 100, MOST - 1, MOST, MOST + 1};
    const size_t more[] = {1, 2, 256, 65536, (size_t)1 << 32, (size_t)1 << 60, (size_t)1 << 63};
    size_t s, m, i;
    for (s = 0; s < sizeof shorter / sizeof *shorter; s++)
        for (m = 0; m < sizeof more / sizeof *more; m++) {
            size_t lengths[] = {0, length_of(shorter[s]), length_of(places(shorter[s] + more[m])), LONGEST_ROOM};
            for (i = 0; i < sizeof lengths / sizeof *lengths; i++) {
                struct task k = good_task(i & 1, shorter[s], lengths[i]);
                k.nradii += more[m];
                compare_task(k);
                k = good_task(i & 1, shorter[s], lengths[i]);
                k.nreadings += more[m];
                compare_task(k);
            }
        }
    for (s = 1; s < sizeof shorter / sizeof *shorter; s++) {
        struct task none = good_task(ZK_TURN, 0, length_of(shorter[s]));
        none.nradii = shorter[s];
        compare_task(none);
        none.nradii = 0;
        none.nreadings = shorter[s];
        compare_task(none);
    }
}

/* 0 and 1, both with each higher bit, and kinds with many. The gauge is one that either kind takes. */
static void kinds(void) {
    static const uint32_t many[] = {3, 255, 0xFFFF, 0x10101, 0x7FFFFFFF, 0xFFFFFFFE, 0xFFFFFFFF};
    uint32_t k;
    size_t i;
    for (k = 0; k < 64; k++) {
        struct task t = good_task(ZK_TURN, 2, length_of(2));
        t.kind = (k & 1) | (k > 1 ? UINT32_C(1) << (k >> 1) : 0);
        compare_task(t);
    }
    for (i = 0; i < sizeof many / sizeof *many; i++) {
        struct task t = good_task(ZK_TURN, 2, length_of(2));
        t.kind = many[i];
        compare_task(t);
    }
}

static void gauges(void) {
    struct task k;
    int p, o;
    for (p = 0; p < CLASSES; p++)
        for (o = 0; o < CLASSES; o++)
            for (k = good_task(ZK_TURN, 1, length_of(1)); k.kind < 2; k.kind++) {
                k.period = classes[p];
                k.origin = classes[o];
                compare_task(k);
            }
}

/* Every class as a reading with every class as its radius: in a file of one point, then all of them in one. */
static void classes_of_points(void) {
    const int all = CLASSES * CLASSES;
    int i;
    for (i = 0; i < all; i++) {
        readings[0] = classes[i / CLASSES];
        radii[0] = classes[i % CLASSES];
        compare_task(good_task(i & 1, 1, length_of(1)));
    }
    for (i = 0; i < all; i++) {
        readings[i] = classes[i / CLASSES];
        radii[i] = classes[i % CLASSES];
    }
    compare_task(good_task(ZK_TURN, (size_t)all, length_of((size_t)all)));
    compare_task(good_task(ZK_ROLLER, (size_t)all, length_of((size_t)all)));
}

/* Several faults in one call: the first in the order is told. */
static void faults_together(void) {
    static const size_t lists[][2] = {{2, 2}, {2, 3}, {MOST + 1, MOST + 1}, {MOST + 1, 2}, {2, MOST + 1}, {0, 0}, {0, 1}};
    static const uint32_t some_kinds[] = {0, 1, 2, 256};
    static const uint64_t periods[] = {UINT64_C(0x4076800000000000), 0, UINT64_C(0xFFF8000000000000)};
    static const uint64_t origins[] = {0, UINT64_C(0x4076800000000000), UINT64_C(0x7FF0000000000000)};
    static const size_t short_of[] = {0, 1, 16, LONGEST_ROOM};
    size_t l, i, p, o, s;
    for (l = 0; l < sizeof lists / sizeof *lists; l++)
        for (i = 0; i < sizeof some_kinds / sizeof *some_kinds; i++)
            for (p = 0; p < sizeof periods / sizeof *periods; p++)
                for (o = 0; o < sizeof origins / sizeof *origins; o++)
                    for (s = 0; s < sizeof short_of / sizeof *short_of; s++) {
                        size_t whole = length_of(lists[l][0]);
                        struct task k = {some_kinds[i], periods[p], origins[o], lists[l][0], lists[l][1], 0};
                        k.length = whole > short_of[s] ? whole - short_of[s] : 0;
                        compare_task(k);
                    }
}

/* Each refusal in rooms from no byte to many pages, some of them a byte shorter or longer than a page. The last one holds any file. */
static void refusals(void) {
    static const size_t lengths[] = {0, 1, HEADER - 1, HEADER, HEADER + 1, 4095, 4096, 4097, 3 * 4096, 5 * 4096 + 1, LONGEST_ROOM};
    uint32_t kind;
    size_t i;
    for (kind = 0; kind < 2; kind++)
        for (i = 0; i < sizeof lengths / sizeof *lengths; i++) {
            struct task lists = good_task(kind, 1, lengths[i]), no_kind = lists, no_gauge = lists;
            lists.nradii++;
            no_kind.kind += 2;
            no_gauge.period = 0;
            compare_task(lists);
            compare_task(no_kind);
            compare_task(good_task(kind, MOST + 1, lengths[i]));
            compare_task(no_gauge);
            compare_task(good_task(kind, MOST, lengths[i]));
        }
}

/* Counts whose length, or the bytes of whose lists, wrap to something small in 32 or in 64 bits: the room is as long as that. */
static void far_count(uint32_t kind, size_t count) {
    const size_t wrapped[] = {(uint32_t)length_of(count), length_of(count), length_of(places(count))};
    size_t i;
    compare_task(good_task(kind, count, 0));
    compare_task(good_task(kind, count, HEADER));
    for (i = 0; i < sizeof wrapped / sizeof *wrapped; i++)
        if (wrapped[i] <= LONGEST_ROOM)
            compare_task(good_task(kind, count, wrapped[i]));
    compare_task(good_task(kind, count, LONGEST_ROOM));
}

static void far_tasks(void) {
    static const size_t small[] = {0, 1, 2, MOST, MOST + 1};
    uint32_t kind;
    size_t i, bit;
    for (kind = 0; kind < 2; kind++) {
        for (i = 0; i < FAR_COUNTS; i++)
            far_count(kind, far_counts[i]);
        for (bit = 13; bit < 64; bit += bit < 28 ? 5 : 1)
            for (i = 0; i < sizeof small / sizeof *small; i++)
                far_count(kind, ((size_t)1 << bit) + small[i]);
        far_count(kind, SIZE_MAX);
        far_count(kind, SIZE_MAX - 1);
    }
}

/*
 * Rooms whose lower 32 bits say that they are too short. Of their bytes the system need only have the first, which can be written: a write
 * elsewhere is seen as one outside of the room.
 */
static void long_rooms(void) {
#ifndef __SANITIZE_ADDRESS__
    enum { SHOWN = 4096, WRITABLE = 2 * SHOWN };
    const size_t far = (size_t)1 << 32, lengths[] = {far, far + 1, far + HEADER, far + HEADER + POINT - 1, far + HEADER + POINT};
    const size_t all = 2 * far;
    uint8_t *first = (uint8_t *)mmap(NULL, all, PROT_READ, MAP_PRIVATE | MAP_ANONYMOUS | MAP_NORESERVE, -1, 0);
    struct area area = {first, first + all}, shut = {first + WRITABLE, first + all};
    size_t i;
    if (first == MAP_FAILED || mprotect(first, WRITABLE, PROT_READ | PROT_WRITE)) {
        printf("no place for a long room: not tried\n");
        return;
    }
    for (i = 0; i < sizeof lengths / sizeof *lengths; i++) {
        struct task good = good_task(i & 1, 1, lengths[i]), many = good_task(i & 1, MOST + 1, lengths[i]);
        count_task(&good);
        count_task(&many);
        compare_at(&area, shut, AT_FIRST, SHOWN, &good, NULL);
        filling ^= 0xFF;
        compare_at(&area, shut, AT_FIRST, SHOWN, &good, NULL);
        compare_at(&area, shut, AT_FIRST, SHOWN, &many, NULL);
    }
    munmap(first, all);
#endif
}

/* In little memory, the longest files are written, and nothing is kept. */
static void largest_files(void) {
    size_t i;
    for (i = 0; i < 20; i++) {
        compare_task(good_task(i & 1, MOST - i % 2, LONGEST_ROOM));
        compare_task(good_task(i & 1, far_counts[i % FAR_COUNTS], LONGEST_ROOM));
    }
}

static void little_memory(void) {
    struct task k = good_task(ZK_TURN, MOST, LONGEST_ROOM);
    if (grows_in_little_memory(largest_files))
        tell("the process has grown", &k);
}

static void draw_points(size_t count, uint64_t *state) {
    size_t i;
    for (i = 0; i < count && i < LISTED; i++) {
        readings[i] = any_binary64(state);
        radii[i] = any_binary64(state);
    }
}

static void written_tasks(void) {
    uint64_t state = 7;
    draw_points(LISTED, &state);
    try_part("a count", counts);
    try_part("a room", rooms);
    try_part("unequal lists", unequal_lists);
    try_part("a kind", kinds);
    try_part("a gauge", gauges);
    try_part("a class of point", classes_of_points);
    try_part("faults together", faults_together);
    try_part("a refusal", refusals);
    try_part("a far count", far_tasks);
    try_part("a long room", long_rooms);
    try_part("little memory", little_memory);
}

/* Few points for the most part; at times many, as many as there may be, or more. */
static size_t any_count(uint64_t *state) {
    switch (below(state, 64)) {
    case 0: return (size_t)between(state, MOST - 2, MOST + 2);
    case 1: return (size_t)below(state, 1000);
    case 2:
    case 3:
    case 4:
    case 5: return (size_t)below(state, 40);
    default: return (size_t)below(state, 6);
    }
}

static struct task any_task(uint64_t *state) {
    size_t count = any_count(state);
    struct task k = {(uint32_t)below(state, 2), 0, 0, count, count, length_of(count)};
    k.period = below(state, 8) ? any_finite(BINARY64, state).bits & ~sign64 : any_binary64(state);
    if (k.kind == ZK_ROLLER || below(state, 32) == 0)
        k.origin = below(state, 8) ? any_finite(BINARY64, state).bits : any_binary64(state);
    if (below(state, 32) == 0)
        k.kind = (uint32_t)(draw(state) >> between(state, 32, 63));
    if (below(state, 32) == 0)
        k.nreadings = any_count(state);
    if (below(state, 32) == 0)
        k.nradii = any_count(state);
    if (below(state, 4) == 0)
        k.length += (size_t)below(state, 100);
    if (below(state, 16) == 0)
        k.length = (size_t)below(state, (int)k.length);
    return k;
}

static void random_tasks(uint64_t cases, uint64_t seed) {
    uint64_t state = seed, i;
    begin("a random call");
    for (i = 0; going(i, cases); i++) {
        struct task k = any_task(&state);
        draw_points(k.nreadings > k.nradii ? k.nreadings : k.nradii, &state);
        compare_task(k);
    }
}

/* A file as a host takes it: opened, its points taken out as patterns, and written again with its gauge. */
static void write_again(size_t length, size_t longer) {
    struct opened o = call_open(room, length);
    struct task k = {o.kind, o.period, o.origin, o.count, o.count, length + longer};
    size_t i;
    if (o.number || o.count > MOST)
        return;
    for (i = 0; i < o.count; i++) {
        readings[i] = little(room + o.start + POINT * i, 8);
        radii[i] = little(room + o.start + POINT * i + 8, 8);
    }
    again[o.kind & 1]++;
    compare_again(k, room);
}

static size_t any_file(uint64_t *state) {
    size_t count = below(state, 128) ? 6 : (size_t)between(state, 0, MOST), i;
    for (i = HEADER; i < length_of(count); i += 8)
        put(room + i, any_binary64(state), 8);
    return count == 6 ? random_file(state) : good_file((uint32_t)below(state, 2), (uint32_t)count);
}

static void random_files(uint64_t cases, uint64_t seed) {
    uint64_t state = seed, i;
    begin("a random file");
    for (i = 0; going(i, cases); i++) {
        size_t length = any_file(&state);
        write_again(length, below(&state, 2) ? 0 : (size_t)below(&state, 100));
    }
}

int main(int argc, char **argv) {
    uint64_t cases = pairs_asked(argc, argv, 50000), seed = seed_asked(argc, argv);
    around_readings = area_of(sizeof readings);
    around_radii = area_of(sizeof radii);
    around_room = area_of(LONGEST_ROOM);
    shut_room = area_of(LONGEST_ROOM);
    shut_area(shut_room);
    written_tasks();
    printf("%" PRIu64 " calls, %" PRIu64 " files written\n", calls, numbers[0]);
    print_shut();
    forget_counts();
    random_tasks(cases, seed);
    random_files(cases, seed);
    print_counts();
    return verdict();
}
