/* The calls of the proved library, for C. Build the archive with `bash bindings/build`, and link target/staticlib/libexports.a; example.c
 * beside this file has the command. docs/FORMATS.md has the patch file, the table, the saved table and the report byte by byte, docs/RULES.md the
 * refusals.
 *
 * A slice is a pointer and a length in bytes. The pointer is not null, even for length 0, and no lent buffer overlaps another that is
 * lent for writing. A call returns a number of at least 0, or minus the refusal's number; a number that it gives by a pointer is 0 when it
 * is refused. A refused call changes no byte of a table, nor of out. */
#ifndef GIRTHS_H
#define GIRTHS_H

#include <stddef.h>
#include <stdint.h>

#ifdef __cplusplus
extern "C" {
#endif

/* The row count of a patch file, or -1 to -6. The columns start so many bytes after the front: 4n bytes of keys, and width x n of values. The width is
 * 8 in a file of doubles and 4 in one of short floats (binary32), as the mark tells; -3 where it is neither mark. */
int64_t girth_read(const uint8_t *file, size_t file_len, uint64_t *keys_at, uint64_t *values_at, uint64_t *width);

/* Writes a patch file of two columns, 4n bytes of keys and 8n of doubles, at the front of out: the file's length, 12n + 16. Refused, in this
 * order: -9 where no n fits both columns, -17 where n is more than 5,460, -16 where out is shorter than the file. The file has no notes, its
 * keys stand before its values, and every value is written as it stands, infinite ones too. The bytes of out after the file are untouched. */
int64_t girth_write(const uint8_t *keys, size_t keys_len, const uint8_t *values, size_t values_len, uint8_t *out, size_t out_len);

/* Adds the rows of two columns to a table of g records: the new group count, or -7 to -12. A table has 64 bytes a group, 1,024 groups at
 * most. The width is that of a value, as girth_read gives it: 8 for doubles, 4 for short floats, each of which counts as the double of equal value; both may go
 * into one table. Any other width is refused whatever the lengths are: -9, where neither -7 nor -8 holds. The work buffer is at least as long as the table, and holds only zeros
 * afterwards. */
int64_t girth_add(uint8_t *table, size_t table_len, uint64_t g, const uint8_t *keys, size_t keys_len, const uint8_t *values,
                  size_t values_len, uint64_t width, uint8_t *work, size_t work_len);

/* Removes the rows of two columns, lent as to girth_add, from a table of g records, all of them or none: the new group count. Each section loses the row count and the
 * totals of its rows in the columns, and keeps its top and its finest power. A section left without rows leaves the table: later records move down, and the bytes
 * vacated at the end of the former records become zero. Refused, in this order: -7 to -10 as in girth_add; -20 where a section is absent or has fewer rows than the
 * columns have for it; -21 where the top of its rows in the columns exceeds the held one; -22 where a remaining total would be larger in size than (remaining rows) x 2^39.
 * The work buffer is at least as long as the table, and holds only zeros afterwards. Right after an accepted girth_add of the same columns, with equal lent lengths, the former
 * records and group count are back, provided that the add raised no held top and lowered no held finest power. Remove only rows that the table has: not all others are
 * refused. */
int64_t girth_remove(uint8_t *table, size_t table_len, uint64_t g, const uint8_t *keys, size_t keys_len, const uint8_t *values,
                     size_t values_len, uint64_t width, uint8_t *work, size_t work_len);

/* Merges a table of g2 records into one of g1: the first one's new group count, or -7, -11 or -12. */
int64_t girth_merge(uint8_t *first, size_t first_len, uint64_t g1, const uint8_t *second, size_t second_len, uint64_t g2);

/* The sum of a section, as the 64 bits of a double, and its side: -1, 0 or 1 as the double is below, equal to or above the kept value; a sum of
 * side 0 was not rounded. The answer is 0, or -7, -13 or -14. */
int64_t girth_sum(const uint8_t *table, size_t table_len, uint64_t g, uint32_t key, uint64_t *bits, int64_t *side);

/* The mill figure of a section: 0, or -7, -13, -14 or -15. */
int64_t girth_figure(const uint8_t *table, size_t table_len, uint64_t g, uint32_t key, int64_t *figure);

/* The finished line of a section: its row count, its sum, its mill figure and its side. The answer is 0, or -7, -13, -14 or -15. */
int64_t girth_line(const uint8_t *table, size_t table_len, uint64_t g, uint32_t key, uint64_t *count, uint64_t *bits, int64_t *figure,
                   int64_t *side);

/* Whether a section's kept value is known to be the exact sum of its rows: 1 for exact, 0 for not known, or -7 or -13. A table is grown from empty where adds
 * and merges made it from an empty one, and every table merged into it was grown from empty too; saving and loading on the way changes nothing of that, nor does a
 * removal of rows that the table has. In such a table 1 says that nothing was dropped of any row. 0 says that something may have been dropped, and need not have been;
 * it is also the answer for a section with a top above 2 that a file of an older version brought. */
int64_t girth_exact(const uint8_t *table, size_t table_len, uint64_t g, uint32_t key);

/* How many sections and how many rows a table of g records has, the rows being the row counts of its records added up. The answer is 0, or -7. */
int64_t girth_totals(const uint8_t *table, size_t table_len, uint64_t g, uint64_t *sections, uint64_t *rows);

/* Writes a saved table, g records and a trailer of 16 bytes, at the front of out: the file's length, 64g + 16. Refused, in this order: -7 where the
 * table is not sound, -18 where g is more than 1,023, -16 where out is shorter than the file. The bytes of out after the file are untouched. */
int64_t girth_save(const uint8_t *table, size_t table_len, uint64_t g, uint8_t *out, size_t out_len);

/* Reads a saved table into the front of a table: its group count g. What the table held before is given up; its bytes after the g records are
 * untouched. Refused, in this order: -1, -2 and -3 as in girth_read, with the mark of a saved table, -19 where the length, the distance or the zero
 * field is wrong, -16 where the table is shorter than 64g bytes, -7 where the records are not sound. */
int64_t girth_load(const uint8_t *file, size_t file_len, uint8_t *table, size_t table_len);

/* The report of a patch file of either width, at the front of out: the length of its text, at most 4,096 bytes, or -16 where out is shorter than the text. */
int64_t girth_report(const uint8_t *file, size_t file_len, uint8_t *out, size_t out_len);

#ifdef __cplusplus
}
#endif

#endif
