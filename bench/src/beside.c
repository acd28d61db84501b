/* Times girth_add of two archives, before_ and after_, in turns within one run. Both have to answer the same and to leave the same table and an empty work buffer. An archive that knows
 * doubles alone, whose calls have no width, may be the first. */
#define _POSIX_C_SOURCE 200809L
#include "girths.h"
#include <stdio.h>
#include <stdlib.h>
#include <string.h>
#include <time.h>

enum { ROWS = 5460, ROUNDS = 301, TABLE = 65536 };

typedef __typeof__(girth_add) add;
typedef __typeof__(girth_read) read;
typedef int64_t add_without_width(uint8_t *, size_t, uint64_t, const uint8_t *, size_t, const uint8_t *, size_t, uint8_t *, size_t);
add before_girth_add, after_girth_add;
read before_girth_read, after_girth_read;

/* One archive's add, whether it is told a width, and the values that it is given with theirs. */
struct side { void (*call)(void); int has_width; const uint8_t *values; uint64_t width; };

static uint64_t state;
static uint8_t keys[4 * ROWS], values[8 * ROWS], short_values[4 * ROWS], tables[2][TABLE], work[TABLE], zeros[TABLE];
static int64_t answers[2];

/* Whether an archive's reader gives a width of a file without rows: one that knows none leaves the last number alone. */
static int gives_width(read *call) {
    static const uint8_t empty[16] = {0, 0, 0, 0, 16, 0, 0, 0, 16, 0, 0, 0, 'L', 'A', 'S', 'T'};
    uint64_t keys_at, values_at, width = 0;
    return call(empty, sizeof empty, &keys_at, &values_at, &width) == 0 && width == 8;
}

static uint64_t next(void) {
    state ^= state << 13;
    state ^= state >> 7;
    state ^= state << 17;
    return state * 0x2545F4914F6CDD1D;
}

/* Lengths in millimetres with both signs, times a scale; or any finite double, for a scale of 0. */
static uint64_t bits_of_row(double scale) {
    double x = ((double)(next() >> 11) / (double)((uint64_t)1 << 40) - 3000.0) * scale;
    uint64_t bits;
    memcpy(&bits, &x, 8);
    while (scale == 0 && ((bits = next()) >> 52 & 2047) == 2047)
        ;
    return bits;
}

static void fill(uint32_t sections, int run, double scale) {
    uint32_t key = 0;
    state = 88172645463325252;
    for (int i = 0; i < ROWS; i++) {
        if (i % run == 0)
            key = (uint32_t)((next() >> 20) % sections) * 7;
        uint64_t bits = bits_of_row(scale);
        memcpy(keys + 4 * i, &key, 4);
        memcpy(values + 8 * i, &bits, 8);
    }
}

/* The same rows as short floats, and the doubles that these are. */
static void shorten(void) {
    for (int i = 0; i < ROWS; i++) {
        double x;
        memcpy(&x, values + 8 * i, 8);
        float rounded = (float)x;
        x = rounded;
        memcpy(short_values + 4 * i, &rounded, 4);
        memcpy(values + 8 * i, &x, 8);
    }
}

static double nanoseconds(void) {
    struct timespec t;
    clock_gettime(CLOCK_MONOTONIC, &t);
    return (double)t.tv_sec * 1e9 + (double)t.tv_nsec;
}

static int by_size(const void *a, const void *b) {
    double x = *(const double *)a, y = *(const double *)b;
    return (x > y) - (x < y);
}

static int64_t call_add(const struct side *s, uint8_t *table) {
    if (s->has_width)
        return ((add *)s->call)(table, TABLE, 0, keys, sizeof keys, s->values, s->width * ROWS, s->width, work, TABLE);
    return ((add_without_width *)s->call)(table, TABLE, 0, keys, sizeof keys, s->values, s->width * ROWS, work, TABLE);
}

static double timed(const struct side *s, int side) {
    double start = nanoseconds();
    for (int i = 0; i < 3; i++)
        answers[side] = call_add(s, tables[side]);
    return (nanoseconds() - start) / (3.0 * ROWS);
}

/* With a width of 4 the second archive is given short floats, and the first one the same rows as doubles. */
static void compare(const char *name, uint32_t sections, int run, double scale, uint64_t width) {
    static double times[2][ROUNDS];
    struct side sides[2] = {{(void (*)(void))before_girth_add, gives_width(before_girth_read), values, 8},
                            {(void (*)(void))after_girth_add, gives_width(after_girth_read), values, 8}};
    fill(sections, run, scale);
    if (width == 4) {
        shorten();
        sides[1].values = short_values;
        sides[1].width = 4;
    }
    for (int round = 0; round < ROUNDS; round++)
        for (int turn = 0; turn < 2; turn++) {
            int side = (round + turn) % 2;
            times[side][round] = timed(&sides[side], side);
            if (answers[side] < 0 || memcmp(work, zeros, TABLE) != 0)
                abort();
        }
    if (answers[0] != answers[1] || memcmp(tables[0], tables[1], TABLE) != 0)
        abort();
    for (int side = 0; side < 2; side++)
        qsort(times[side], ROUNDS, sizeof(double), by_size);
    printf("| %s | %.2f | %.2f to %.2f | %.2f | %.2f to %.2f | %.2f |\n", name, times[0][ROUNDS / 2], times[0][ROUNDS / 4], times[0][ROUNDS * 3 / 4],
           times[1][ROUNDS / 2], times[1][ROUNDS / 4], times[1][ROUNDS * 3 / 4], times[1][ROUNDS / 2] / times[0][ROUNDS / 2]);
}

int main(void) {
    puts("| add, ns/row | before | quarters | after | quarters | after / before |\n|---|---|---|---|---|---|");
    compare("1 section", 1, 1, 1, 8);
    compare("64 sections", 64, 1, 1, 8);
    compare("64 sections in runs", 64, 40, 1, 8);
    compare("1,024 sections", 1024, 1, 1, 8);
    compare("1 section, lengths times 1e-30", 1, 1, 1e-30, 8);
    compare("1 section, any finite doubles", 1, 1, 0, 8);
    if (gives_width(after_girth_read)) {
        compare("1 section, doubles before, short floats after", 1, 1, 1, 4);
        compare("64 sections, doubles before, short floats after", 64, 1, 1, 4);
        compare("1 section, the same with subnormal short floats", 1, 1, 1e-42, 4);
    }
    return 0;
}
