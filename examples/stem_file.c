/*
 * A host that opens a stem file, folds each of its points and prints it; then it is given a crafted file.
 *
 *   stem_file [FILE]    without a file, a sample that is written here
 *
 * What a file says of itself decides nothing here: it is read into a room for the longest one, and the library compares the count with the
 * length that was read.
 */
#include "zukemoriha.h"

#include <math.h>
#include <stdio.h>
#include <stdlib.h>

enum { LONGEST = ZK_STEM_HEADER + ZK_STEM_POINT * ZK_STEM_MOST };

static uint64_t pattern_at(const uint8_t *bytes) {
    uint64_t pattern = 0;
    int i;
    for (i = 7; i >= 0; i--)
        pattern = pattern << 8 | bytes[i];
    return pattern;
}

/* A roller of 812.5 mm whose gauge began at 100.25 mm. It lost the log at the last reading. Gives the length. */
static size_t write_sample(uint8_t *room, size_t length) {
    static const double points[][2] = {{150.75, 161.5}, {3400.25, 158.25}, {-712.5, 155.0}, {1e15 + 0.125, 151.75}, {INFINITY, 150.0}};
    enum { COUNT = sizeof points / sizeof *points };
    uint64_t period = zk_pattern_of_double(812.5), origin = zk_pattern_of_double(100.25), readings[COUNT], radii[COUNT];
    size_t i, written;
    uint8_t number;
    for (i = 0; i < COUNT; i++) {
        readings[i] = zk_pattern_of_double(points[i][0]);
        radii[i] = zk_pattern_of_double(points[i][1]);
    }
    number = zk_stem_write(ZK_ROLLER, period, origin, readings, COUNT, radii, COUNT, room, length, &written);
    if (number != ZK_FINISHED) {
        printf("the sample: refused with %u\n", number);
        exit(1);
    }
    return written;
}

/* No good file is longer than LONGEST bytes. Of a longer one a byte more is read: no count asks for that length, so it is refused. */
static int read_file(const char *name, uint8_t *file, size_t *length) {
    FILE *stream = fopen(name, "rb");
    int failed;
    if (!stream)
        return 0;
    *length = fread(file, 1, LONGEST + 1, stream);
    failed = ferror(stream);
    fclose(stream);
    return !failed;
}

/* The radius is not folded: its pattern stays as it is. */
static void fold_point(uint32_t kind, uint64_t period, uint64_t origin, const uint8_t *point) {
    uint64_t before = pattern_at(point), radius = pattern_at(point + 8), reading = before;
    uint8_t number = zk_stem_fold(kind, period, origin, &reading);
    printf("%24.17g: ", zk_double_of_pattern(before));
    if (number != ZK_FINISHED)
        printf("refused with %u\n", number); /* not with a gauge that zk_stem_open gave */
    else if (reading == ZK_HOUSE_NAN64)
        printf("no place\n");
    else
        printf("at %.17g, radius %g\n", zk_double_of_pattern(reading), zk_double_of_pattern(radius));
}

static int fold_file(const char *name, const uint8_t *file, size_t length) {
    uint32_t kind;
    uint64_t period, origin;
    size_t start, count, i;
    uint8_t number = zk_stem_open(file, length, &kind, &period, &origin, &start, &count);
    if (number != ZK_FINISHED) {
        printf("%s, %lu bytes: refused with %u\n", name, (unsigned long)length, number);
        return 1;
    }
    printf("%s: %lu points of a %s, period %g, origin %g\n", name, (unsigned long)count, kind == ZK_TURN ? "turn" : "roller",
           zk_double_of_pattern(period), zk_double_of_pattern(origin));
    for (i = 0; i < count; i++)
        fold_point(kind, period, origin, file + start + ZK_STEM_POINT * i);
    return 0;
}

int main(int argc, char **argv) {
    static uint8_t file[LONGEST + 1], crafted[ZK_STEM_HEADER];
    size_t length;
    int refused;
    if (argc < 2) {
        length = write_sample(file, sizeof file);
    } else if (!read_file(argv[1], file, &length)) {
        perror(argv[1]);
        return 2;
    }
    refused = fold_file(argc < 2 ? "the sample" : argv[1], file, length);
    /* a header that says that 64 GiB of points follow, and none does */
    write_sample(file, sizeof file);
    memcpy(crafted, file, sizeof crafted);
    memset(crafted + 6, 0xFF, 4);
    fold_file("a crafted file", crafted, sizeof crafted);
    return refused;
}
