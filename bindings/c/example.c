/* Reads a patch file of doubles or of short floats named on the command line, and prints each section's sum in millimetres, and which way it was rounded.
 *
 * From the root of the repository:
 *
 *   bash bindings/build
 *   cc -Wall -Wextra -Ibindings/c -o target/example bindings/c/example.c target/staticlib/libexports.a
 *   target/example samples/two-sections.patch
 */
#include "girths.h"
#include <inttypes.h>
#include <stdio.h>
#include <string.h>

enum { LONGEST = 65536, SECTIONS = 64, RECORD = 64 };

static uint8_t file[LONGEST + 1], table[SECTIONS * RECORD], work[sizeof table];

static int refused(int64_t answer) {
    fprintf(stderr, "refused %" PRId64 "\n", -answer);
    return 1;
}

/* A record begins with its section number, little-endian. */
static uint32_t key_of(const uint8_t *record) {
    return (uint32_t)record[0] | (uint32_t)record[1] << 8 | (uint32_t)record[2] << 16 | (uint32_t)record[3] << 24;
}

static int print_sections(uint64_t g) {
    for (uint64_t i = 0; i < g; i++) {
        uint32_t key = key_of(table + RECORD * i);
        uint64_t bits;
        int64_t side, answer = girth_sum(table, sizeof table, g, key, &bits, &side);
        if (answer < 0) {
            printf("section %" PRIu32 ": refused %" PRId64 "\n", key, -answer);
            continue;
        }
        double sum;
        memcpy(&sum, &bits, sizeof sum);
        printf("section %" PRIu32 ": %.17g mm%s\n", key, sum, side < 0 ? ", rounded down" : side > 0 ? ", rounded up" : "");
    }
    return 0;
}

int main(int argc, char **argv) {
    FILE *in = argc == 2 ? fopen(argv[1], "rb") : NULL;
    if (!in) {
        fprintf(stderr, "usage: example PATCH-FILE\n");
        return 2;
    }
    size_t length = fread(file, 1, sizeof file, in);
    int failed = ferror(in);
    fclose(in);
    if (failed) {
        fprintf(stderr, "example: %s cannot be read\n", argv[1]);
        return 2;
    }
    uint64_t keys, values, width;
    int64_t rows = girth_read(file, length, &keys, &values, &width);
    if (rows < 0) return refused(rows);
    size_t n = (size_t)rows;
    int64_t g = girth_add(table, sizeof table, 0, file + keys, 4 * n, file + values, width * n, width, work, sizeof work);
    if (g < 0) return refused(g);
    return print_sections((uint64_t)g);
}
