/* A C program over the exported calls: the report of a file by way of girth_report, and again from read, add, line and totals; sums of every side;
 * finest powers and exactness; totals of tables that no rows made; then the file written from its two columns, and what girth_write refuses; the table saved and loaded, and what
 * girth_save and girth_load refuse; short floats beside doubles, files of both kinds, and widths that no value has; last patches taken back out, and what girth_remove refuses. */
#include "girths.h"
#include <inttypes.h>
#include <stdio.h>
#include <string.h>
#include <sys/mman.h>

enum { MOST = 5460, LONGEST = 12 * MOST + 16 };

static uint8_t file[LONGEST + 1], table[4096], work[4096], text[4096];
static uint8_t columns[8 * (MOST + 1)], out[LONGEST + 99];

/* What girth_sum and girth_line give of section key in the table one, of g records. Before a call each number that it gives is 9. */
static uint8_t one[64];

static int gives_sum(uint64_t g, uint32_t key, int64_t answer, uint64_t bits, int64_t side) {
    uint64_t b = 9;
    int64_t s = 9;
    return girth_sum(one, sizeof one, g, key, &b, &s) == answer && b == bits && s == side;
}

static int gives_line(uint64_t g, uint32_t key, int64_t answer, uint64_t count, uint64_t bits, int64_t figure, int64_t side) {
    uint64_t n = 9, b = 9;
    int64_t f = 9, s = 9;
    return girth_line(one, sizeof one, g, key, &n, &b, &f, &s) == answer && n == count && b == bits && f == figure && s == side;
}

/* Sections of three rows, and the same with the signs turned: ties that go down and up, one of them to a power of 2; a sum that is not
 * rounded; one whose mill figure is an exact half; one whose mill figure is refused; and a refused sum. A refused call gives zeros. */
static int finishes(void) {
    static const struct { uint64_t rows[3], bits; int64_t sum, line, figure, side; } sections[] = {
        {{0x3FF0000000000000, 0x3CA0000000000000, 0}, 0x3FF0000000000000, 0, 0, 100, -1},
        {{0x3FF0000000000001, 0x3CA0000000000000, 0}, 0x3FF0000000000002, 0, 0, 100, 1},
        {{0x3FFFFFFFFFFFFFFF, 0x3CA0000000000000, 0}, 0x4000000000000000, 0, 0, 200, 1},
        {{0x3FF0000000000000, 0x3FE0000000000000, 0}, 0x3FF8000000000000, 0, 0, 150, 0},
        {{0x3FC0000000000000, 0, 0}, 0x3FC0000000000000, 0, 0, 13, 0},
        {{0x41747AE148000000, 0x3E10000000000000, 0}, 0x41747AE148000000, 0, -15, 0, -1},
        {{0x7FEFFFFFFFFFFFFF, 0x7FEFFFFFFFFFFFFF, 0}, 0, -14, -14, 0, 0},
    };
    static const uint32_t keys[] = {7, 7, 7};
    for (size_t i = 0; i < 2 * (sizeof sections / sizeof *sections); i++) {
        int64_t sum = sections[i / 2].sum, line = sections[i / 2].line, sign = i % 2 ? -1 : 1;
        uint64_t rows[3], minus = i % 2 ? (uint64_t)1 << 63 : 0, bits = sections[i / 2].bits ^ (sum == 0 ? minus : 0);
        int64_t figure = sign * sections[i / 2].figure, side = sign * sections[i / 2].side;
        for (int j = 0; j < 3; j++) rows[j] = sections[i / 2].rows[j] ^ minus;
        if (girth_add(one, sizeof one, 0, (const uint8_t *)keys, sizeof keys, (const uint8_t *)rows, sizeof rows, 8, work, sizeof work) != 1) return 0;
        if (!gives_sum(1, 7, sum, bits, side) || !gives_sum(1, 8, -13, 0, 0) || !gives_sum(2, 7, -7, 0, 0)) return 0;
        if (!(line == 0 ? gives_line(1, 7, 0, 3, bits, figure, side) : gives_line(1, 7, line, 0, 0, 0, 0))) return 0;
        if (!gives_line(1, 8, -13, 0, 0, 0, 0) || !gives_line(2, 7, -7, 0, 0, 0, 0)) return 0;
    }
    return 1;
}

/* The bits of 2^(z - 1074). */
static uint64_t power(uint32_t z) {
    return z < 52 ? (uint64_t)1 << z : (uint64_t)(z - 51) << 52;
}

/* The row, and a second one where it is not 0, make a section of this top and this finest power, about which the answer is given. */
static int makes(uint64_t row, uint64_t second, uint32_t top, uint32_t finest, int64_t answer) {
    static const uint32_t keys[] = {7, 7};
    const uint64_t rows[] = {row, second};
    size_t n = second ? 2 : 1;
    uint32_t fields[4];
    if (girth_add(one, sizeof one, 0, (const uint8_t *)keys, 4 * n, (const uint8_t *)rows, 8 * n, 8, work, sizeof work) != 1) return 0;
    memcpy(fields, one, sizeof fields);
    return fields[2] == top && fields[3] == finest && girth_exact(one, sizeof one, 1, 7) == answer && girth_exact(one, sizeof one, 1, 8) == -13;
}

/* The same with the two rows in either order. */
static int both_make(uint64_t row, uint64_t second, uint32_t top, uint32_t finest, int64_t answer) {
    return makes(row, second, top, finest, answer) && makes(second, row, top, finest, answer);
}

/* The tables of these two rows, merged, have the finest power. */
static int merge_gives(uint64_t row, uint64_t second, uint32_t top, uint32_t second_top, uint32_t finest, uint32_t second_finest, uint32_t smaller) {
    uint8_t other[64];
    uint32_t z;
    if (!makes(second, 0, second_top, second_finest, 1)) return 0;
    memcpy(other, one, sizeof other);
    if (!makes(row, 0, top, finest, 1) || girth_merge(one, sizeof one, 1, other, sizeof other, 1) != 1) return 0;
    memcpy(&z, one + 12, sizeof z);
    return z == smaller;
}

/* Every power of two that a double can be, of both signs, and three of it and two where there are; zeros; the edge at each top, and one less; merges; a field that is not sound,
 * which the calls tell, and before 13. */
static int answers_exact(void) {
    const uint64_t minus = (uint64_t)1 << 63;
    for (uint32_t z = 0; z < 2098; z++) {
        /* the top by its definition: the first level with more than 2^z in its 2^39 units */
        uint32_t top = 0, top_of_three = 0;
        while (39 + 40 * top <= z) top++;
        while (39 + 40 * top_of_three <= z + 1) top_of_three++;
        uint64_t three = power(z + 1) + (z < 52 ? power(z) : (uint64_t)1 << 51);
        if (!makes(power(z), 0, top, z, 1) || !makes(power(z) | minus, 0, top, z, 1)) return 0;
        if (z < 2097 && (!both_make(three, power(z) | minus, top_of_three, z, 1) || !both_make(power(z + 1), power(z), top_of_three, z, 1))) return 0;
    }
    if (!makes(0, 0, 0, 2098, 1) || !makes(minus, minus, 0, 2098, 1) || !makes(minus, power(2097), 52, 2097, 1)) return 0;
    for (uint32_t top = 1; top <= 52; top++) {
        uint32_t edge = top < 2 ? 0 : 40 * (top - 2);
        if (!both_make(power(40 * top - 1), power(edge) | minus, top, edge, 1)) return 0;
        if (edge > 0 && !both_make(power(40 * top - 1), power(edge - 1) | minus, top, edge - 1, 0)) return 0;
    }
    if (!merge_gives(power(1074), power(1073), 26, 26, 1074, 1073, 1073) || !merge_gives(power(1073), power(1074), 26, 26, 1073, 1074, 1073)) return 0;
    if (!merge_gives(power(2000), power(5), 50, 0, 2000, 5, 5) || !merge_gives(power(5), power(2000), 0, 50, 5, 2000, 5) || !merge_gives(minus, power(5), 0, 0, 2098, 5, 5)) return 0;
    static const uint32_t fields[] = {2099, 1u << 16, 1u << 31, UINT32_MAX, 2098, 0};
    for (size_t i = 0; i < sizeof fields / sizeof *fields; i++) {
        int64_t seven = fields[i] > 2098 ? -7 : 0;
        uint64_t bits, rows;
        int64_t side;
        uint8_t other[64];
        makes(power(1074), 0, 26, 1074, 1);
        memcpy(one + 12, fields + i, 4);
        memcpy(other, one, sizeof other);
        if (girth_exact(one, sizeof one, 1, 7) != (seven ? seven : fields[i] > 0) || girth_exact(one, sizeof one, 1, 8) != (seven ? seven : -13)) return 0;
        if (girth_sum(one, sizeof one, 1, 7, &bits, &side) != seven || girth_totals(one, sizeof one, 1, &bits, &rows) != seven) return 0;
        if (girth_merge(one, sizeof one, 1, other, sizeof other, 1) != (seven ? seven : 1) || memcmp(one + 12, fields + i, 4) != 0) return 0;
    }
    return 1;
}

/* What girth_totals gives of the first bytes of the table lent, which it only reads. Before a call each number that it gives is 9. */
static uint8_t lent[64 * 1026], before[sizeof lent];

static int gives_totals(size_t length, uint64_t g, int64_t answer, uint64_t sections, uint64_t rows) {
    uint64_t s = 9, r = 9;
    memcpy(before, lent, sizeof lent);
    return girth_totals(lent, length, g, &s, &r) == answer && s == sections && r == rows && memcmp(before, lent, sizeof lent) == 0;
}

static void fill_lent(void) {
    for (uint32_t i = 0; i < sizeof lent / 64; i++) {
        const uint32_t fields[] = {i, 4294967295, 0, 0};
        memcpy(lent + 64 * i, fields, sizeof fields);
    }
}

/* As many records as there may be, with as many rows as they may have; then the last one not sound. */
static int counts(void) {
    fill_lent();
    static const struct { size_t length; uint64_t g; int64_t answer; uint64_t sections, rows; } tables[] = {
        {0, 0, 0, 0, 0}, {sizeof lent, 0, 0, 0, 0}, {64, 1, 0, 1, 4294967295}, {sizeof lent, 2, 0, 2, 8589934590},
        {64 * 1024, 1024, 0, 1024, 4398046510080}, {sizeof lent, 1024, 0, 1024, 4398046510080}, {sizeof lent, 1023, 0, 1023, 4393751542785},
        {63, 1, -7, 0, 0}, {64 * 1024 - 1, 1024, -7, 0, 0}, {sizeof lent, 1025, -7, 0, 0}, {64, ((uint64_t)1 << 32) + 1, -7, 0, 0}, {0, UINT64_MAX, -7, 0, 0},
    };
    for (size_t i = 0; i < sizeof tables / sizeof *tables; i++) {
        if (!gives_totals(tables[i].length, tables[i].g, tables[i].answer, tables[i].sections, tables[i].rows)) return 0;
    }
    lent[64 * 1023 + 14] = 1;
    return gives_totals(sizeof lent, 1024, -7, 0, 0) && gives_totals(sizeof lent, 1023, 0, 1023, 4393751542785);
}

/* A call of girth_write on an output of which every byte is 0xA5. */
static int64_t write_file(const uint8_t *keys, size_t keys_len, const uint8_t *values, size_t values_len, size_t room) {
    memset(out, 0xA5, sizeof out);
    return girth_write(keys, keys_len, values, values_len, out, room);
}

static int untouched_from(size_t at) {
    for (; at < sizeof out; at++) {
        if (out[at] != 0xA5) return 0;
    }
    return 1;
}

/* 9, then 17, then 16, each also where those after it hold too. */
static int refuses(void) {
    static const struct { size_t keys, values, room; int64_t answer; } calls[] = {
        {8, 8, sizeof out, -9}, {7, 8, sizeof out, -9}, {4, 9, 27, -9}, {4 * (MOST + 1), 8 * MOST, sizeof out, -9}, {4 * MOST, 8 * (MOST + 1), 0, -9},
        {4 * (MOST + 1), 8 * (MOST + 1), sizeof out, -17}, {4 * (MOST + 1), 8 * (MOST + 1), LONGEST, -17}, {4 * (MOST + 1), 8 * (MOST + 1), 0, -17},
        {4 * MOST, 8 * MOST, LONGEST - 1, -16}, {4, 8, 27, -16}, {0, 0, 15, -16}, {0, 0, 0, -16},
    };
    for (size_t i = 0; i < sizeof calls / sizeof *calls; i++) {
        if (write_file(columns, calls[i].keys, columns, calls[i].values, calls[i].room) != calls[i].answer || !untouched_from(0)) return 0;
    }
    return 1;
}

/* Columns of 2^32 + 1 rows, which a row count of 32 bits would take for one row. Nobody reads them, so they need no memory. */
static int refuses_wide(void) {
    size_t rows = ((size_t)1 << 32) + 1;
    void *both = mmap(NULL, 8 * rows, PROT_READ, MAP_PRIVATE | MAP_ANONYMOUS | MAP_NORESERVE, -1, 0);
    if (both == MAP_FAILED) {
        fprintf(stderr, "use.c: there is no address space for 2^32 rows, which were not tried\n");
        return 1;
    }
    return write_file(both, 4 * rows, both, 8 * rows, sizeof out) == -17 && untouched_from(0) &&
           write_file(both, 4 * rows, both, 8, sizeof out) == -9 && untouched_from(0) &&
           write_file(both, 4, both, 8 * rows, sizeof out) == -9 && untouched_from(0);
}

/* In an output of this room: the file of these columns, its bytes one by one, and what a reader finds in it. */
static int writes(const uint8_t *keys, const uint8_t *values, uint32_t rows, size_t room) {
    size_t length = 12 * (size_t)rows + 16;
    if (write_file(keys, 4 * (size_t)rows, values, 8 * (size_t)rows, room) != (int64_t)length || !untouched_from(length)) return 0;
    const uint8_t *trailer = out + 12 * (size_t)rows;
    const uint32_t fields[] = {rows, 12 * rows + 16, 8 * rows + 16, 0x5453414C};
    for (int i = 0; i < 16; i++) {
        if (trailer[i] != (uint8_t)(fields[i / 4] >> 8 * (i % 4))) return 0;
    }
    uint64_t keys_at, values_at, width;
    return memcmp(out, keys, 4 * (size_t)rows) == 0 && memcmp(out + 4 * (size_t)rows, values, 8 * (size_t)rows) == 0 &&
           girth_read(out, length, &keys_at, &values_at, &width) == rows && keys_at == 0 && values_at == 4 * (uint64_t)rows && width == 8;
}

/* The file of these columns in outputs of several lengths, with the report of the file that they were read from. */
static int rewrites(const uint8_t *keys, const uint8_t *values, uint32_t rows, int64_t report) {
    static uint8_t once[LONGEST], same[sizeof text];
    size_t length = 12 * (size_t)rows + 16;
    if (write_file(keys, 4 * (size_t)rows, values, 8 * (size_t)rows, length - 1) != -16 || !untouched_from(0)) return 0;
    if (!writes(keys, values, rows, length) || !writes(keys, values, rows, length + 1) || !writes(keys, values, rows, sizeof out)) return 0;
    memcpy(once, out, length);
    return girth_report(once, length, same, sizeof same) == report && memcmp(same, text, (size_t)report) == 0 &&
           writes(once, once + 4 * (size_t)rows, rows, sizeof out) && memcmp(once, out, length) == 0;
}

/* A call of girth_save on the first bytes of the table lent, which it only reads, and on an output of which every byte is 0xA5. */
static int gives_save(size_t length, uint64_t g, size_t room, int64_t answer) {
    memcpy(before, lent, sizeof lent);
    memset(out, 0xA5, sizeof out);
    if (girth_save(lent, length, g, out, room) != answer || memcmp(before, lent, sizeof lent) != 0) return 0;
    if (answer < 0) return untouched_from(0);
    const uint32_t fields[] = {(uint32_t)g, (uint32_t)(64 * g + 16), 0, 0x4C424154};
    for (int i = 0; i < 16; i++) {
        if (out[64 * g + (size_t)i] != (uint8_t)(fields[i / 4] >> 8 * (i % 4))) return 0;
    }
    return memcmp(out, lent, 64 * g) == 0 && untouched_from((size_t)answer);
}

/* 7, then 18, then 16, each also where those after it hold too; and files of no record up to the most. */
static int saves(void) {
    static const struct { size_t length; uint64_t g; size_t room; int64_t answer; } calls[] = {
        {sizeof lent, 1025, sizeof out, -7}, {sizeof lent, 1025, 0, -7}, {63, 1, sizeof out, -7}, {64 * 1024 - 1, 1024, 0, -7},
        {sizeof lent, (uint64_t)1 << 58, 16, -7}, {sizeof lent, (uint64_t)1 << 63, 16, -7}, {sizeof lent, UINT64_MAX, 0, -7}, {64, ((uint64_t)1 << 32) + 1, 80, -7},
        {sizeof lent, 1024, sizeof out, -18}, {64 * 1024, 1024, 65552, -18}, {sizeof lent, 1024, 65551, -18}, {sizeof lent, 1024, 0, -18},
        {sizeof lent, 1023, 65487, -16}, {64, 1, 79, -16}, {0, 0, 15, -16}, {0, 0, 0, -16},
        {sizeof lent, 1023, 65488, 65488}, {64 * 1023, 1023, sizeof out, 65488}, {64, 1, 80, 80}, {sizeof lent, 2, 145, 144}, {0, 0, 16, 16}, {sizeof lent, 0, 17, 16},
    };
    fill_lent();
    for (size_t i = 0; i < sizeof calls / sizeof *calls; i++) {
        if (!gives_save(calls[i].length, calls[i].g, calls[i].room, calls[i].answer)) return 0;
    }
    lent[64 * 1023 + 14] = 1;
    return gives_save(sizeof lent, 1024, 0, -7) && gives_save(sizeof lent, 1024, sizeof out, -7) && gives_save(sizeof lent, 1023, sizeof out, 65488);
}

/* A call of girth_load on so many bytes of the file kept, which it only reads, and on a table of which every byte is 0xA5. */
static uint8_t kept[64 * 1024 + 16], given[sizeof kept], into[sizeof kept];

static int gives_load(size_t length, size_t room, int64_t answer) {
    memcpy(given, kept, sizeof kept);
    memset(into, 0xA5, sizeof into);
    if (girth_load(kept, length, into, room) != answer || memcmp(given, kept, sizeof kept) != 0) return 0;
    size_t used = answer > 0 ? 64 * (size_t)answer : 0;
    for (size_t i = used; i < sizeof into; i++) {
        if (into[i] != 0xA5) return 0;
    }
    return memcmp(into, given, used) == 0;
}

/* The file kept becomes the first g records of the table lent, and a trailer of these fields. */
static void keep(uint32_t g, uint32_t count, uint32_t distance, uint32_t zero, const char *mark) {
    memcpy(kept, lent, 64 * (size_t)g);
    uint8_t *trailer = kept + 64 * (size_t)g;
    const uint32_t fields[] = {count, distance, zero};
    memcpy(trailer, fields, sizeof fields);
    memcpy(trailer + sizeof fields, mark, 4);
}

/* 1, 2, 3, 19, 16 and 7 in this order, each also where those after it hold too; files of no record up to the most, in tables of several lengths. */
static int loads(void) {
    static const struct { uint32_t g, count, distance, zero; const char *mark; int64_t short_table, answer; } files[] = {
        {2, 2, 144, 0, "LAST", -3, -3}, {2, 3, 128, 1, "TABM", -3, -3}, {2, 3, 144, 0, "TABL", -19, -19}, {2, 1, 144, 0, "TABL", -19, -19}, {2, 1, 80, 0, "TABL", -19, -19},
        {2, 2, 128, 0, "TABL", -19, -19}, {2, 2, 145, 0, "TABL", -19, -19}, {2, 2, 144, 1, "TABL", -19, -19}, {2, 2, 144, 1u << 31, "TABL", -19, -19},
        {2, 2 + (1u << 26), 144, 0, "TABL", -19, -19}, {2, 2, 144, 0, "TABL", -16, 2}, {1023, 1023, 65488, 0, "TABL", -16, 1023}, {1024, 1024, 65552, 0, "TABL", -1, -1},
    };
    fill_lent();
    for (int unsound = 0; unsound < 2; unsound++) {
        lent[4] = lent[5] = lent[6] = lent[7] = unsound ? 0 : 255; /* a row count of 0 */
        for (size_t i = 0; i < sizeof files / sizeof *files; i++) {
            size_t length = 64 * (size_t)files[i].g + 16;
            int64_t answer = unsound && files[i].answer > 0 ? -7 : files[i].answer;
            keep(files[i].g, files[i].count, files[i].distance, files[i].zero, files[i].mark);
            if (!gives_load(length, length - 17, files[i].short_table) || !gives_load(length, length - 16, answer) || !gives_load(length, sizeof into, answer)) return 0;
        }
    }
    keep(0, 0, 16, 0, "TABL");
    if (!gives_load(16, 0, 0) || !gives_load(16, sizeof into, 0) || !gives_load(15, sizeof into, -2) || !gives_load(0, 0, -2)) return 0;
    return gives_load(17, sizeof into, -3) && gives_load(65537, 0, -1);
}

/* A table of g records saved, loaded into another and saved again; what is loaded has the totals and the first line of what was saved. */
static int goes_on(uint64_t g, uint64_t rows) {
    memset(kept, 0xA5, sizeof kept);
    int64_t length = girth_save(table, sizeof table, g, kept, sizeof kept);
    if (length != (int64_t)(64 * g + 16) || !gives_load((size_t)length, sizeof into, (int64_t)g)) return 0;
    uint64_t sections, all, count[2] = {7, 8}, bits[2] = {7, 8};
    static uint8_t older[sizeof kept];
    int64_t figure[2] = {7, 8}, side[2] = {7, 8};
    uint32_t key;
    memcpy(&key, table, sizeof key);
    if (girth_totals(into, sizeof into, g, &sections, &all) != 0 || sections != g || all != rows || memcmp(into, table, 64 * g) != 0) return 0;
    if (girth_line(table, sizeof table, g, key, count, bits, figure, side) != girth_line(into, sizeof into, g, key, count + 1, bits + 1, figure + 1, side + 1)) return 0;
    if (count[0] != count[1] || bits[0] != bits[1] || figure[0] != figure[1] || side[0] != side[1]) return 0;
    /* the same as an older version saved it, with 0 in place of finest powers: it is loaded, and its sections are answered exact for tops up to 2 alone */
    memcpy(older, kept, sizeof older);
    for (uint64_t i = 0; i < g; i++) memset(older + 64 * i + 12, 0, 4);
    if (girth_load(older, (size_t)length, older + length, sizeof older - (size_t)length) != (int64_t)g) return 0;
    for (uint64_t i = 0; i < g; i++) {
        uint32_t fields[4];
        memcpy(fields, older + length + 64 * i, sizeof fields);
        if (girth_exact(older + length, sizeof older - (size_t)length, g, fields[0]) != (fields[2] <= 2) || fields[3] != 0) return 0;
        if (girth_line(table, sizeof table, g, fields[0], count, bits, figure, side) !=
            girth_line(older + length, sizeof older - (size_t)length, g, fields[0], count + 1, bits + 1, figure + 1, side + 1)) return 0;
        if (count[0] != count[1] || bits[0] != bits[1] || figure[0] != figure[1] || side[0] != side[1]) return 0;
    }
    memset(out, 0xA5, sizeof out);
    return girth_save(into, sizeof into, g, out, sizeof out) == length && memcmp(out, kept, (size_t)length) == 0 && untouched_from((size_t)length);
}

/* An add of one value of this width to a table of which every byte is 0xA5, with a work buffer of which none is 0. */
static int64_t add_one(uint8_t *into_table, const void *value, size_t width) {
    static const uint8_t key[4] = {7, 0, 0, 0};
    memset(into_table, 0xA5, 64);
    memset(work, 0xA5, sizeof work);
    return girth_add(into_table, 64, 0, key, sizeof key, value, width, width, work, 64);
}

static int work_is_zero(size_t n) {
    for (size_t i = 0; i < n; i++) {
        if (work[i] != 0) return 0;
    }
    return 1;
}

/* One short float: the table of the double that the compiler's own widening gives, or -10 where it is infinite or not a number. */
static int widens_one(uint32_t bits) {
    uint8_t doubles[64], untouched[64];
    float x;
    memcpy(&x, &bits, sizeof x);
    double wide = x;
    int64_t answer = (bits >> 23 & 255) == 255 ? -10 : 1;
    memset(untouched, 0xA5, sizeof untouched);
    if (add_one(one, &bits, 4) != answer || !work_is_zero(64) || add_one(doubles, &wide, 8) != answer) return 0;
    return memcmp(one, doubles, 64) == 0 && (memcmp(one, untouched, 64) == 0) == (answer < 0);
}

/* Every exponent field of both signs, with the smallest and the largest fraction and some others. */
static int widens(void) {
    uint32_t other = 12345;
    for (uint32_t head = 0; head < 512; head++) {
        const uint32_t fractions[] = {0, 1, 2, (1u << 22) - 1, 1u << 22, (1u << 23) - 1};
        for (size_t i = 0; i < sizeof fractions / sizeof *fractions; i++) {
            if (!widens_one(head << 23 | fractions[i])) return 0;
        }
        for (int i = 0; i < 30; i++) {
            other = other * 1664525 + 1013904223;
            if (!widens_one(head << 23 | (other >> 9 >> (i % 23)))) return 0;
        }
    }
    return 1;
}

typedef int64_t change(uint8_t *, size_t, uint64_t, const uint8_t *, size_t, const uint8_t *, size_t, uint64_t, uint8_t *, size_t);

/* The answer of an add, and of a removal, with columns of these lengths; the table keeps its bytes, and the work buffer holds zeros. */
static int refuses_width(uint64_t g, size_t keys, size_t values, uint64_t width, size_t room, int64_t answer) {
    static change *const both[] = {girth_add, girth_remove};
    uint8_t lent_before[128];
    memcpy(lent_before, lent, sizeof lent_before);
    for (int i = 0; i < 2; i++) {
        memset(work, 0xA5, sizeof work);
        if (both[i](lent, sizeof lent_before, g, columns, keys, columns, values, width, work, room) != answer || !work_is_zero(room)) return 0;
        if (memcmp(lent, lent_before, sizeof lent_before) != 0) return 0;
    }
    return 1;
}

/* 7, then 8, then 9 for every width but 4 and 8, with columns that fit either, and for those with columns that fit the other alone. */
static int refuses_widths(void) {
    static const uint64_t widths[] = {0, 1, 2, 3, 5, 6, 7, 9, 12, 16, (uint64_t)1 << 32, ((uint64_t)1 << 32) + 4, ((uint64_t)1 << 32) + 8, UINT64_MAX - 7, UINT64_MAX - 3, UINT64_MAX};
    static const struct { size_t keys, values; } lengths[] = {{0, 0}, {4, 4}, {4, 8}, {8, 8}, {8, 16}, {4, 5}, {4, 16}};
    fill_lent();
    for (size_t i = 0; i < sizeof widths / sizeof *widths; i++) {
        for (size_t j = 0; j < sizeof lengths / sizeof *lengths; j++) {
            size_t keys = lengths[j].keys, values = lengths[j].values;
            if (!refuses_width(3, keys, values, widths[i], 0, -7) || !refuses_width(2, keys, values, widths[i], 127, -8)) return 0;
            if (!refuses_width(2, keys, values, widths[i], 128, -9) || !refuses_width(0, keys, values, widths[i], 128, -9)) return 0;
        }
    }
    for (size_t n = 1; n < 9; n++) {
        if (!refuses_width(2, 4 * n, 4 * n, 8, 128, -9) || !refuses_width(2, 4 * n, 8 * n, 4, 128, -9)) return 0;
        if (!refuses_width(2, 4 * n, 4 * n, 8, 127, -8) || !refuses_width(3, 4 * n, 8 * n, 4, 128, -7)) return 0;
    }
    return refuses_width(2, 0, 0, 4, 128, 2) && refuses_width(2, 0, 0, 8, 128, 2);
}

/* What girth_read gives of a file of so many bytes before a trailer of these fields. Before a call each number that it gives is 9. */
static int reads(size_t front, uint32_t n, uint32_t k, uint32_t v, const char *mark, int64_t answer, uint64_t width) {
    uint64_t keys_at = 9, values_at = 9, w = 9;
    size_t length = front + 16;
    const uint32_t fields[] = {n, k, v};
    memcpy(kept + front, fields, sizeof fields);
    memcpy(kept + front + sizeof fields, mark, 4);
    if (girth_read(kept, length, &keys_at, &values_at, &w) != answer || w != width) return 0;
    return answer < 0 ? keys_at == 0 && values_at == 0 : keys_at == length - k && values_at == length - v;
}

/* Files of both kinds and of neither: the most rows, one more, and the bounds of the value column and of the overlap, which follow the width. */
static int reads_both(void) {
    static const struct { size_t front; uint32_t n, k, v; int64_t doubles, short_floats; } files[] = {
        {0, 0, 16, 16, 0, 0}, {0, 0, 15, 16, -4, -4}, {0, 0, 16, 17, -5, -5}, {8, 1, 24, 20, -5, 1}, {8, 1, 20, 24, -6, 1}, {12, 1, 28, 24, 1, 1}, {12, 1, 20, 28, 1, 1}, {8, 1, 24, 19, -5, -5},
        {8, 1, 23, 20, -5, -6}, {12, 1, 28, 25, -6, -6}, {12, 1, 24, 20, -5, 1}, {12, 1, 24, 28, -6, 1}, {12, 1, 20, 29, -5, -5}, {65520, 5460, 65536, 43696, 5460, 5460},
        {65520, 5461, 65536, 43704, -6, -6}, {65520, 5461, 65536, 43692, -5, 5461}, {65520, 8190, 65536, 32776, -5, 8190}, {65520, 8190, 32776, 65536, -6, 8190}, {65520, 8191, 65536, 32780, -5, -6}, {65520, 8191, 65536, 32779, -5, -5},
        {65520, 8191, 32779, 65536, -4, -4}, {65521, 8190, 65536, 32776, -1, -1}, {8, 1u << 30, 24, 20, -4, -4}, {8, UINT32_MAX, 24, 20, -4, -4},
    };
    static const char *others[] = {"LAS5", "LASt", "LAT4", "LBS4", "MAS4", "TABL", "4SAL"};
    for (size_t i = 0; i < sizeof files / sizeof *files; i++) {
        int64_t doubles = files[i].doubles, short_floats = files[i].short_floats;
        if (!reads(files[i].front, files[i].n, files[i].k, files[i].v, "LAST", doubles, doubles < 0 ? 0 : 8)) return 0;
        if (!reads(files[i].front, files[i].n, files[i].k, files[i].v, "LAS4", short_floats, short_floats < 0 ? 0 : 4)) return 0;
        for (size_t j = 0; j < sizeof others / sizeof *others; j++) {
            if (!reads(files[i].front, files[i].n, files[i].k, files[i].v, others[j], doubles == -1 ? -1 : -3, 0)) return 0;
        }
    }
    return 1;
}

enum { ROOM = 64 * 4, MANY = 6 };

/* An add or a removal of so many rows of this width on a table of four records' length; the work buffer holds zeros afterwards, and no byte after it is touched. */
static int64_t changes(change *call, uint8_t *t, uint64_t g, const uint32_t *keys, const void *rows, size_t n, size_t width) {
    memset(work, 0xA5, sizeof work);
    int64_t answer = call(t, ROOM, g, (const uint8_t *)keys, 4 * n, rows, width * n, width, work, ROOM);
    return work_is_zero(ROOM) && work[ROOM] == 0xA5 ? answer : INT64_MIN;
}

/* The table of so many doubles, in bytes that are 0xA5: its group count. */
static int64_t fill(uint8_t *t, const uint32_t *keys, const uint64_t *rows, size_t n) {
    memset(t, 0xA5, ROOM);
    return changes(girth_add, t, 0, keys, rows, n, 8);
}

/* Patches taken from sections with the rows 1 and 1, 1, and 1, -1 and 0: what is left is the table of the remaining rows, at the front, zeros in place of the other records, and untouched bytes. Refused
 * ones leave all bytes: 10, 20, 21 and 22 in this order, the last three looked for in every section before the next. */
static int removes(void) {
    const uint64_t I = 0x3FF0000000000000, minus = (uint64_t)1 << 63, more = 0x4040000000000000; /* 32, of the next top */
    static const uint32_t keys[MANY] = {5, 5, 6, 7, 7, 7};
    const uint64_t rows[MANY] = {I, I, I, I, I | minus, 0};
    const struct { size_t n; uint32_t keys[MANY]; uint64_t rows[MANY]; size_t left; uint32_t left_keys[MANY]; uint64_t left_rows[MANY]; int64_t answer; } patches[] = {
        {0, {0}, {0}, 6, {5, 5, 6, 7, 7, 7}, {I, I, I, I, I | minus, 0}, 3},
        {2, {7, 5}, {0, I}, 4, {5, 6, 7, 7}, {I, I, I, I | minus}, 3},
        {2, {5, 5}, {I, I}, 4, {6, 7, 7, 7}, {I, I, I | minus, 0}, 2},
        {1, {6}, {I}, 5, {5, 5, 7, 7, 7}, {I, I, I, I | minus, 0}, 2},
        {3, {7, 7, 7}, {0, I | minus, I}, 3, {5, 5, 6}, {I, I, I}, 2},
        {4, {6, 7, 7, 7}, {I, I, 0, I | minus}, 2, {5, 5}, {I, I}, 1},
        {6, {7, 6, 5, 7, 5, 7}, {0, I, I, I, I, I | minus}, 0, {0}, {0}, 0},
        {2, {8, 5}, {I, 0x7FF0000000000000}, 0, {0}, {0}, -10}, {1, {4}, {I}, 0, {0}, {0}, -20}, {1, {8}, {0}, 0, {0}, {0}, -20}, {2, {6, 6}, {I, 0}, 0, {0}, {0}, -20},
        {3, {5, 6, 8}, {more, 0, I}, 0, {0}, {0}, -20}, {4, {5, 6, 6, 7}, {more, 0, 0, I}, 0, {0}, {0}, -20},
        {1, {5}, {more}, 0, {0}, {0}, -21}, {2, {6, 7}, {0, more}, 0, {0}, {0}, -21},
        {1, {6}, {0}, 0, {0}, {0}, -22}, {3, {7, 7, 7}, {I, I, 0}, 0, {0}, {0}, -22}, {3, {6, 5, 5}, {I, I, 0}, 0, {0}, {0}, -22},
    };
    for (size_t i = 0; i < sizeof patches / sizeof *patches; i++) {
        int64_t answer = patches[i].answer;
        if (fill(lent, keys, rows, MANY) != 3) return 0;
        memcpy(before, lent, ROOM);
        if (changes(girth_remove, lent, 3, patches[i].keys, patches[i].rows, patches[i].n, 8) != answer) return 0;
        if (answer >= 0) {
            if (fill(into, patches[i].left_keys, patches[i].left_rows, patches[i].left) != answer) return 0;
            memcpy(before, into, 64 * (size_t)answer);
            memset(before + 64 * answer, 0, 64 * (size_t)(3 - answer));
        }
        if (memcmp(lent, before, ROOM) != 0) return 0;
    }
    /* a work buffer that is one byte short, and a group too many */
    if (fill(lent, keys, rows, MANY) != 3) return 0;
    memcpy(before, lent, ROOM);
    if (girth_remove(lent, ROOM, 3, (const uint8_t *)keys, 4, (const uint8_t *)rows, 8, 8, work, ROOM - 1) != -8) return 0;
    return girth_remove(lent, ROOM, 5, (const uint8_t *)keys, 4, (const uint8_t *)rows, 8, 8, work, ROOM) == -7 && memcmp(lent, before, ROOM) == 0;
}

/* The row that set the top goes: the top and the finest power stay, and so does what was kept of the other row at the held levels. */
static int keeps_the_top(void) {
    static const uint32_t keys[] = {7, 7};
    const uint64_t rows[] = {power(1074 + 60), power(1074)};
    uint32_t fields[4];
    uint64_t bits;
    int64_t side;
    if (fill(lent, keys, rows, 2) != 1 || changes(girth_remove, lent, 1, keys, rows, 1, 8) != 1) return 0;
    memcpy(fields, lent, sizeof fields);
    if (fields[1] != 1 || fields[2] != 28 || fields[3] != 1074) return 0;
    if (girth_sum(lent, ROOM, 1, 7, &bits, &side) != 0 || bits != rows[1] || girth_exact(lent, ROOM, 1, 7) != 1) return 0;
    return changes(girth_remove, lent, 1, keys, rows + 1, 1, 8) == 0;
}

/* Many adds taken back at once, of doubles and of short floats: the former records are back, but for a top that rose and a finest power that fell. */
static int undoes(void) {
    uint32_t state = 2463534242;
    int raised = 0, lowered = 0, equal = 0;
    for (int turn = 0; turn < 4000; turn++) {
        uint32_t keys[MANY], shorts[MANY];
        uint64_t rows[MANY];
        size_t width = turn % 2 ? 4 : 8;
        for (int i = 0; i < MANY; i++) {
            state = state * 1664525 + 1013904223;
            keys[i] = state >> 28 & 3;
            shorts[i] = (state & 1) << 31 | (100 + (state >> 8) % 60) << 23 | (state >> 9 & 0x700000);
            rows[i] = (uint64_t)(state & 1) << 63 | (uint64_t)(1000 + (state >> 8) % 60) << 52 | (uint64_t)(state >> 9) << 40 >> 12;
        }
        int64_t g = fill(lent, keys, rows, 3);
        memcpy(before, lent, ROOM);
        const void *values = width == 8 ? (const void *)(rows + 3) : (const void *)(shorts + 3);
        int64_t after = changes(girth_add, lent, (uint64_t)g, keys + 3, values, 3, width);
        if (g < 1 || after < g || changes(girth_remove, lent, (uint64_t)after, keys + 3, values, 3, width) != g) return 0;
        memset(before + 64 * g, 0, 64 * (size_t)(after - g));
        for (int64_t i = 0; i < g; i++) {
            uint32_t old[4], new[4];
            memcpy(old, before + 64 * i, sizeof old);
            memcpy(new, lent + 64 * i, sizeof new);
            if (new[0] != old[0] || new[1] != old[1] || new[2] < old[2] || new[3] > old[3]) return 0;
            raised += new[2] > old[2], lowered += new[2] == old[2] && new[3] < old[3], equal += new[2] == old[2] && new[3] == old[3];
            memcpy(before + 64 * i + 12, new + 3, 4);
            if (new[2] > old[2]) memcpy(before + 64 * i, lent + 64 * i, 64);
        }
        if (memcmp(lent, before, ROOM) != 0) return 0;
    }
    return raised > 100 && lowered > 100 && equal > 100;
}

int main(int argc, char **argv) {
    FILE *in = argc == 2 ? fopen(argv[1], "rb") : NULL;
    if (!in) return 2;
    size_t length = fread(file, 1, sizeof file, in);
    fclose(in);

    int64_t n = girth_report(file, length, text, sizeof text);
    if (n < 0 || girth_report(file, length, text, (size_t)n - 1) != -16) return 3;

    uint64_t keys, values, width;
    int64_t rows = girth_read(file, length, &keys, &values, &width);
    if (rows < 0 || width != (file[length - 1] == '4' ? 4 : 8)) return 4;
    int64_t g = girth_add(table, sizeof table, 0, file + keys, 4 * (size_t)rows, file + values, width * (size_t)rows, width, work, sizeof work);
    if (g < 0) return 5;

    char again[4096];
    int at = sprintf(again, "section rows bits hundredths side\n");
    for (int64_t i = 0; i < g; i++) {
        uint32_t key;
        memcpy(&key, table + 64 * i, sizeof key);
        uint64_t count, bits, sum;
        int64_t figure, side, same;
        if (girth_line(table, sizeof table, (uint64_t)g, key, &count, &bits, &figure, &side) != 0) return 6;
        if (girth_sum(table, sizeof table, (uint64_t)g, key, &sum, &same) != 0 || sum != bits || same != side) return 7;
        if (girth_figure(table, sizeof table, (uint64_t)g, key, &same) != 0 || same != figure) return 8;
        at += sprintf(again + at, "%" PRIu32 " %" PRIu64 " %016" PRIX64 " %" PRId64 " %" PRId64 "\n", key, count, bits, figure, side);
    }
    uint64_t sections, all;
    if (girth_totals(table, sizeof table, (uint64_t)g, &sections, &all) != 0 || sections != (uint64_t)g || all != (uint64_t)rows) return 15;
    at += sprintf(again + at, "total %" PRIu64 " %" PRIu64 "\n", sections, all);
    if (at != n || memcmp(again, text, (size_t)n) != 0) return 9;

    for (size_t i = 0; i < sizeof columns; i++) columns[i] = (uint8_t)(37 * i + 11);
    memset(columns, 0xFF, 8); /* as a value it is not a number */
    if (!refuses()) return 10;
    if (!refuses_wide()) return 11;
    if (!writes(columns, columns, MOST, LONGEST) || !writes(columns, columns, 0, sizeof out)) return 12;
    if (width == 8 && !rewrites(file + keys, file + values, (uint32_t)rows, n)) return 13;
    if (width == 4 && (write_file(file + keys, 4 * (size_t)rows, file + values, 4 * (size_t)rows, sizeof out) != -9 || !untouched_from(0))) return 13;
    if (!finishes()) return 14;
    if (!counts()) return 16;
    if (!saves()) return 17;
    if (!loads()) return 18;
    if (!goes_on((uint64_t)g, (uint64_t)rows)) return 19;
    if (!answers_exact()) return 20;
    if (!widens()) return 21;
    if (!refuses_widths()) return 22;
    if (!reads_both()) return 23;
    if (!removes()) return 24;
    if (!keeps_the_top()) return 25;
    if (!undoes()) return 26;
    fwrite(text, 1, (size_t)n, stdout);
    return 0;
}
