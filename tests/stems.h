/*
 * What the tests of stem files share: files and a judge of their gauges, places that end or begin at an unreadable page, or whose own
 * pages can only be read, and a limit of memory.
 *
 * With the address sanitizer (make test-sanitized) a place is a block of the heap of its length, which can always be written: the archive
 * is not instrumented, so that what the library reads and writes is not seen, but what a host does is, which takes bytes from where it is
 * told to.
 */
#ifndef STEMS_H
#define STEMS_H

#include "operands.h"

#include <fcntl.h>
#include <malloc.h>
#include <setjmp.h>
#include <signal.h>
#include <sys/mman.h>
#include <sys/resource.h>

enum { HEADER = 26, POINT = 16, MOST = 4000, LONGEST = HEADER + POINT * (MOST + 101) };

static const uint64_t sign64 = UINT64_C(1) << 63;
static const uint64_t turn360 = UINT64_C(0x4076800000000000), three = UINT64_C(0x4008000000000000);

/* ---- parts */

static const char *part; /* what is being tried */

static inline void begin(const char *name) {
    part = name;
    next_part();
}

static inline void try_part(const char *name, void (*run)(void)) {
    begin(name);
    run();
}

/* ---- files */

static inline uint64_t little(const uint8_t *bytes, int n) {
    uint64_t number = 0, place = 1;
    int i;
    for (i = 0; i < n; i++, place *= 256)
        number += bytes[i] * place;
    return number;
}

static inline void put(uint8_t *bytes, uint64_t number, int n) {
    for (; n > 0; n--, number >>= 8)
        *bytes++ = (uint8_t)number;
}

static inline int all_zero(const uint8_t *bytes) {
    static const uint8_t zeros[8];
    return memcmp(bytes, zeros, 8) == 0;
}

/* the exponent's eleven bits, seven in the last byte and four in the one before, are not all ones */
static inline int is_finite(const uint8_t *bytes) {
    return (bytes[7] & 0x7F) != 0x7F || bytes[6] < 0xF0;
}

/* Whether the period and the origin of a header are as its kind, 0 or 1, asks. */
static inline int has_gauge(const uint8_t *header) {
    if (!is_finite(header + 10) || header[17] >= 0x80 || all_zero(header + 10))
        return 0;
    return header[5] == 0 ? all_zero(header + 18) : is_finite(header + 18);
}

static inline void put_header(uint8_t *file, uint32_t kind, uint32_t count, uint64_t period, uint64_t origin) {
    memcpy(file, "STM\1", 5);
    put(file + 5, kind, 1);
    put(file + 6, count, 4);
    put(file + 10, period, 8);
    put(file + 18, origin, 8);
}

static uint8_t room[LONGEST]; /* where files are made */

/* A file in the room, and its length if the count were what it says. */
static inline size_t make_file(uint32_t kind, uint32_t count, uint64_t period, uint64_t origin) {
    put_header(room, kind, count, period, origin);
    return HEADER + POINT * (size_t)count;
}

static inline uint64_t good_period(uint32_t kind) {
    return kind ? three : turn360;
}

static inline uint64_t good_origin(uint32_t kind) {
    return kind ? turn360 | sign64 : 0;
}

static inline size_t good_file(uint32_t kind, uint32_t count) {
    return make_file(kind, count, good_period(kind), good_origin(kind));
}

/* A good file of some points, or a few bits of one, or a few bytes, or its length changed; or bytes of no file. */
static inline size_t random_file(uint64_t *state) {
    size_t length = good_file((uint32_t)below(state, 2), (uint32_t)below(state, 6)), i;
    int changes = between(state, 1, 4);
    put(room + 10, below(state, 2) ? any_finite(BINARY64, state).bits & ~sign64 : any_bits(BINARY64, state).bits, 8);
    if (room[5] == ZK_ROLLER)
        put(room + 18, any_pair(BINARY64, state).x.bits, 8);
    switch (below(state, 8)) {
    case 0: return length;
    case 1: return (size_t)below(state, 160);
    case 2:
        for (i = 0; i < length; i++)
            room[i] = (uint8_t)draw(state);
        return length;
    case 3:
        for (; changes > 0; changes--)
            room[below(state, HEADER)] = (uint8_t)draw(state);
        return length;
    case 4:
        put(room + 6, draw(state) >> between(state, 32, 63), 4);
        return below(state, 2) ? length : HEADER + POINT * (size_t)(little(room + 6, 4) % (MOST + 100));
    default:
        for (; changes > 0; changes--)
            room[below(state, HEADER)] ^= (uint8_t)(1 << below(state, 8));
        return length;
    }
}

/* Times 16, some of these are small numbers in 32 bits: the length that a wrapped product would ask for is there. */
static const uint32_t far_counts[] = {
    4001,       4096,       65535,      65536,      65537,      69536,      0x01000000, 0x07FFFFFF, 0x08000000, 0x0FFFFFFE, 0x0FFFFFFF,
    0x10000000, 0x10000001, 0x10000FA0, 0x10000FA1, 0x20000000, 0x20000001, 0x7FFFFFFF, 0x80000000, 0x80000001, 0x80000FA0, 0xF0000000,
    0xF0000FA0, 0xFFFFF05F, 0xFFFFF060, 0xFFFFFFFD, 0xFFFFFFFE, 0xFFFFFFFF,
};

enum { FAR_COUNTS = sizeof far_counts / sizeof *far_counts };

/* Every class of binary64, with either sign, and patterns that are another class with their bytes the other way round. */
static const uint64_t classes[] = {
    UINT64_C(0x0000000000000000), UINT64_C(0x8000000000000000), /* zeros */
    UINT64_C(0x0000000000000001), UINT64_C(0x8000000000000001), /* denormals */
    UINT64_C(0x000FFFFFFFFFFFFF), UINT64_C(0x800FFFFFFFFFFFFF),
    UINT64_C(0x0010000000000000), UINT64_C(0x8010000000000000), /* normal numbers */
    UINT64_C(0x3FF0000000000000), UINT64_C(0xBFF0000000000000),
    UINT64_C(0x4076800000000000), UINT64_C(0xC076800000000000),
    UINT64_C(0x7FEFFFFFFFFFFFFF), UINT64_C(0xFFEFFFFFFFFFFFFF),
    UINT64_C(0x7FF0000000000000), UINT64_C(0xFFF0000000000000), /* infinities */
    UINT64_C(0x7FF0000000000001), UINT64_C(0xFFF0000000000001), /* NaNs, signalling and quiet */
    UINT64_C(0x7FF7FFFFFFFFFFFF), UINT64_C(0xFFF7FFFFFFFFFFFF),
    UINT64_C(0x7FF8000000000000), UINT64_C(0xFFF8000000000000),
    UINT64_C(0x7FFFFFFFFFFFFFFF), UINT64_C(0xFFFFFFFFFFFFFFFF),
    UINT64_C(0x000000000000F07F), UINT64_C(0x000000000000F0FF), /* the other way round */
    UINT64_C(0x0000000000000080), UINT64_C(0x0102030405060708),
    UINT64_C(0x7FF0000000000080), UINT64_C(0x00000000FFFFFFFF), /* told by the lower half alone, or by the upper */
    UINT64_C(0x0000000100000000), UINT64_C(0x7FE0000000000000),
};

enum { CLASSES = sizeof classes / sizeof *classes };

/* ---- places: at one end of an area, where what cannot be touched begins or ends; beside them, on the other side, are filled bytes */

enum { AT_WALL, AT_FIRST, ENDS, BESIDE = 64 };

#ifdef __SANITIZE_ADDRESS__

/* The search for leaks at the end asks for rights that not every container gives, and there is nothing to find. */
const char *__asan_default_options(void);
const char *__asan_default_options(void) {
    return "detect_leaks=0";
}

struct area {
    uint8_t *block;
};

static inline struct area area_of(size_t bytes) {
    struct area a = {(uint8_t *)malloc(bytes)};
    return a;
}

static inline uint8_t *lend_at(struct area *a, int end, const void *bytes, size_t n) {
    (void)end;
    free(a->block);
    a->block = (uint8_t *)malloc(n);
    memcpy(a->block, bytes, n);
    return a->block;
}

static inline int beside_is_kept(struct area a, int end, size_t n) {
    (void)a, (void)end, (void)n;
    return 1;
}

static inline int is_outside_of(struct area a) {
    (void)a;
    return 0;
}

enum { CAN_SHUT = 0 };

static inline void shut_area(struct area a) {
    (void)a;
}

static inline uint8_t *place_at(struct area a, int end, size_t n) {
    (void)end, (void)n;
    return a.block;
}

static inline int is_touched(const uint8_t *place, size_t n) {
    (void)place, (void)n;
    return 0;
}

static inline int stays_inside(void (*run)(const void *), const void *what) {
    run(what);
    return 1;
}

#else

/* A wall of 1 MiB ends before the first byte, and another begins at the second; neither can be read or written. */
struct area {
    uint8_t *first, *wall;
};

enum { THICK = 1 << 20 };

static sigjmp_buf outside;
static const uint8_t *volatile touched; /* the byte that is not to be touched, where the processor says it */
static volatile sig_atomic_t awaited;   /* a call is being made; at any other time the program ends as without a handler */

static inline void on_outside(int number, siginfo_t *of, void *context) {
    (void)context;
    touched = (const uint8_t *)of->si_addr;
    if (!awaited)
        signal(number, SIG_DFL);
    else
        siglongjmp(outside, 1);
}

static inline struct area area_of(size_t bytes) {
    size_t page = (size_t)sysconf(_SC_PAGESIZE), inside = ((bytes + BESIDE) / page + 1) * page;
    uint8_t *all = (uint8_t *)mmap(NULL, inside + 2 * THICK, PROT_NONE, MAP_PRIVATE | MAP_ANONYMOUS | MAP_NORESERVE, -1, 0);
    struct area a = {all + THICK, all + THICK + inside};
    struct sigaction action;
    memset(&action, 0, sizeof action);
    action.sa_sigaction = on_outside;
    action.sa_flags = SA_NODEFER | SA_SIGINFO;
    if (all == MAP_FAILED || mprotect(a.first, inside, PROT_READ | PROT_WRITE) || sigaction(SIGSEGV, &action, NULL) ||
        sigaction(SIGBUS, &action, NULL)) {
        perror("walls");
        exit(2);
    }
    return a;
}

static inline uint8_t *place_at(struct area a, int end, size_t n) {
    return end == AT_WALL ? a.wall - n : a.first;
}

static inline uint8_t *lend_at(struct area *a, int end, const void *bytes, size_t n) {
    uint8_t *lent = place_at(*a, end, n);
    memcpy(lent, bytes, n);
    memset(end == AT_WALL ? lent - BESIDE : lent + n, filling, BESIDE);
    return lent;
}

static inline int beside_is_kept(struct area a, int end, size_t n) {
    const uint8_t *beside = end == AT_WALL ? a.wall - n - BESIDE : a.first + n;
    return *beside == filling && memcmp(beside, beside + 1, BESIDE - 1) == 0;
}

/* Whether what was touched last is in a wall of this area. */
static inline int is_outside_of(struct area a) {
    return touched >= a.first - THICK && touched < a.wall + THICK;
}

enum { CAN_SHUT = 1 };

/* The area is filled, and from now on it can only be read: a byte of it that is written is touched as one of a wall is. */
static inline void shut_area(struct area a) {
    size_t inside = (size_t)(a.wall - a.first);
    memset(a.first, filling, inside);
    if (mprotect(a.first, inside, PROT_READ)) {
        perror("a shut area");
        exit(2);
    }
}

/* Whether what was touched last is one of these bytes. */
static inline int is_touched(const uint8_t *place, size_t n) {
    return touched >= place && (size_t)(touched - place) < n;
}

/* Runs, and says whether it came to its end without touching a wall, or writing to what is shut. */
static inline int stays_inside(void (*run)(const void *), const void *what) {
    awaited = 1;
    if (sigsetjmp(outside, 0) != 0) {
        awaited = 0;
        return 0;
    }
    run(what);
    awaited = 0;
    return 1;
}

#endif

/* ---- memory */

#ifdef __SANITIZE_ADDRESS__

static inline int grows_in_little_memory(void (*run)(void)) {
    (void)run;
    return 0;
}

#else

/* Pages that the process has, without asking for memory to find out. */
static inline size_t pages_used(void) {
    char text[64];
    int file = open("/proc/self/statm", O_RDONLY);
    ssize_t n = file < 0 ? 0 : read(file, text, sizeof text - 1);
    if (file >= 0)
        close(file);
    text[n > 0 ? n : 0] = 0;
    return (size_t)strtoul(text, NULL, 10);
}

static inline int memory_is_refused(size_t bytes) {
    void *p = mmap(NULL, bytes, PROT_READ | PROT_WRITE, MAP_PRIVATE | MAP_ANONYMOUS, -1, 0);
    if (p == MAP_FAILED)
        return 1;
    munmap(p, bytes);
    return 0;
}

/* Runs with no room for another 64 KiB, as many bytes as 4,096 points have, and says whether the process has kept any memory. */
static inline int grows_in_little_memory(void (*run)(void)) {
    struct rlimit before, limit;
    struct mallinfo2 heap;
    size_t used;
    int grown;
    getrlimit(RLIMIT_AS, &before);
    limit = before;
    limit.rlim_cur = (pages_used() + 4) * (size_t)sysconf(_SC_PAGESIZE);
    setrlimit(RLIMIT_AS, &limit);
    if (!memory_is_refused(65536))
        printf("no limit of memory here: not tried\n");
    used = pages_used();
    heap = mallinfo2();
    run();
    grown = pages_used() != used || mallinfo2().uordblks != heap.uordblks || mallinfo2().hblkhd != heap.hblkhd;
    setrlimit(RLIMIT_AS, &before);
    return grown;
}

#endif

#endif
