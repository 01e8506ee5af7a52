/* Duthlan: thirteen operations on Arrow list columns of 64-bit integers, over buffers that the caller lends.
 *
 * The shortest useful call, with target/staticlib/libduthlan.a linked:
 *
 *     const int32_t offsets[] = {0, 3, 5, 5};                // three rows
 *     const int64_t values[] = {12, -3, 99, 40, 41};
 *     const uint8_t rows[] = {5};                            // row 1 is null, over 40 and 41
 *     const duthlan_list list = {offsets, 4, {rows, 1, 0}, values, 5, {0, 0, 0}};
 *     int32_t out_offsets[4];
 *     int64_t out_values[5];
 *     uint8_t out_rows[1], out_elements[1];
 *     const duthlan_out out = {out_offsets, 4, out_rows, 1, out_values, 5, out_elements, 1};
 *     duthlan_counts counts = {0, 0, 0, 0};
 *     uint32_t number = duthlan_reverse(&list, &out, &counts);
 *     if (number != DUTHLAN_ACCEPTED) puts(duthlan_refusal(number));
 *
 * A call is accepted, returns 0 and writes its counts; or it is refused, returns the refusal's number and changes no output and
 * no count. Nothing is allocated and no pointer is kept. What a caller must see to: each pointer is good for its length, and no
 * output overlaps another buffer of the same call; inputs may overlap each other. A pointer with a length of 0 may be NULL.
 * How long the outputs must be can be asked first: duthlan_reverse_lengths for this call, and so for every other. */
#ifndef DUTHLAN_H
#define DUTHLAN_H

#include <stddef.h>
#include <stdint.h>

#ifdef __cplusplus
extern "C" {
#endif

/* ---- Columns that are lent ------------------------------------------------------------------------------------------------ */

/* A validity bitmap, lowest bit first, that starts at a bit of its first byte, 0 to 7; one of no bytes means all valid. */
typedef struct duthlan_bits {
    const uint8_t *bytes;
    size_t byte_count;
    size_t start;
} duthlan_bits;

/* A list column: one offset more than its rows (or none, for zero rows), a bit a row, the values, a bit a value. */
typedef struct duthlan_list {
    const int32_t *offsets;
    size_t offset_count;
    duthlan_bits rows;
    const int64_t *values;
    size_t value_count;
    duthlan_bits elements;
} duthlan_list;

/* A ListView column: an offset and a size for each row, in any order, which may overlap; a bit a row, the values, a bit a value. */
typedef struct duthlan_view {
    const int32_t *offsets;
    size_t offset_count;
    const int32_t *sizes;
    size_t size_count;
    duthlan_bits rows;
    const int64_t *values;
    size_t value_count;
    duthlan_bits elements;
} duthlan_view;

/* An argument column: a value for each row, and a bit a value; a limit may have one value, used for all rows. */
typedef struct duthlan_values {
    const int64_t *values;
    size_t value_count;
    duthlan_bits valid;
} duthlan_values;

/* ---- Buffers for results -------------------------------------------------------------------------------------------------- */

/* The bytes of a bitmap of n bits. */
#define DUTHLAN_BITMAP_BYTES(n) ((n) / 8 + ((n) % 8 != 0))

/* Room for a list column, as an output or as a tray: rows + 1 offsets, a bit a row, the elements, a bit an element.
 * A result begins at offset 0, both bitmaps start at bit 0 and have spare bits 0, null rows are empty, and null elements hold
 * -9223372036854775808. What lies past the result keeps its content. */
typedef struct duthlan_out {
    int32_t *offsets;
    size_t offset_count;
    uint8_t *rows;
    size_t row_bytes;
    int64_t *values;
    size_t value_count;
    uint8_t *elements;
    size_t element_bytes;
} duthlan_out;

/* Room for a ListView column: an offset and a size for each row, a bit a row, the elements, a bit an element; none for no rows. */
typedef struct duthlan_view_out {
    int32_t *offsets;
    size_t offset_count;
    int32_t *sizes;
    size_t size_count;
    uint8_t *rows;
    size_t row_bytes;
    int64_t *values;
    size_t value_count;
    uint8_t *elements;
    size_t element_bytes;
} duthlan_view_out;

/* Room for one value a row: the values, and a bit a row. */
typedef struct duthlan_value_out {
    int64_t *values;
    size_t value_count;
    uint8_t *rows;
    size_t row_bytes;
} duthlan_value_out;

/* Room for a column of lists of lists: the outer offsets and row bits, the inner ones, the values, a bit a value. */
typedef struct duthlan_repeat_out {
    int32_t *offsets;
    size_t offset_count;
    uint8_t *rows;
    size_t row_bytes;
    int32_t *inner_offsets;
    size_t inner_offset_count;
    uint8_t *inner_rows;
    size_t inner_row_bytes;
    int64_t *values;
    size_t value_count;
    uint8_t *elements;
    size_t element_bytes;
} duthlan_repeat_out;

/* ---- Answers -------------------------------------------------------------------------------------------------------------- */

/* What an accepted list answer counts. */
typedef struct duthlan_counts {
    uint64_t rows;
    uint64_t elements;
    uint64_t null_rows;
    uint64_t null_elements;
} duthlan_counts;

/* What an accepted value answer counts. */
typedef struct duthlan_value_counts {
    uint64_t rows;
    uint64_t null_rows;
} duthlan_value_counts;

/* What an accepted list-repeat counts: rows are the outer ones, elements the innermost values. */
typedef struct duthlan_repeat_counts {
    uint64_t rows;
    uint64_t elements;
    uint64_t null_rows;
    uint64_t null_elements;
    uint64_t inner_rows;
    uint64_t null_inner_rows;
} duthlan_repeat_counts;

/* Recipes finished and refused, a count for each of the stations 0 to 15; a count stops at its largest value. */
typedef struct duthlan_tally {
    uint64_t finished[16];
    uint64_t refused[16];
} duthlan_tally;

/* The numbers that a call returns. They are tested in the order 15, 10, 13, 1, 2, 3, 16, 14, then those of the rows, and 9 last; where
 * grades are asked for, 12 comes before all of them, and right after it 9 for the grades. */
enum duthlan_number {
    DUTHLAN_ACCEPTED = 0,
    DUTHLAN_BAD_OFFSETS = 1,        /* The first offset is negative, one falls, or the last lies past the values. */
    DUTHLAN_SHORT_BITMAP = 2,       /* A bitmap that has bytes is too short for its rows, or for all the values lent. */
    DUTHLAN_ROW_COUNTS_DIFFER = 3,  /* Two columns have different numbers of rows, or offsets and sizes of views different numbers, or a
                                     * recipe's arguments are not columns times rows. */
    DUTHLAN_WIDE_INDEX = 4,         /* An index or a bound does not fit 32 signed bits. */
    DUTHLAN_ZERO_STRIDE = 5,        /* The stride is 0 where both bounds fall in the row. */
    DUTHLAN_WIDE_STRIDE = 6,        /* The stride does not fit 32 signed bits where its direction suits the bounds. */
    DUTHLAN_NEGATIVE_COUNT = 7,     /* Resize has a negative count. */
    DUTHLAN_TOO_MANY = 8,           /* The result would have more than 2147483647 elements or outer lists. */
    DUTHLAN_SHORT_OUTPUT = 9,       /* An output, or a tray that a step writes, is too short for the result, or the grades for the rows. */
    DUTHLAN_MALFORMED_RECIPE = 10,  /* The recipe is malformed. */
    DUTHLAN_VIEW_OUTSIDE = 11,      /* The offset of a view, its size or their sum is below 0 or over the number of values. */
    DUTHLAN_ZERO_RUN = 12,          /* The run that gives a row grade 2 is to have at least 0 elements. */
    DUTHLAN_BAD_STARTING_BIT = 13,  /* A starting bit is over 7, also beside a bitmap of no bytes. */
    DUTHLAN_SHORT_AREA = 14,        /* A work area has fewer slots than twice the elements of the longest valid row, or pair of rows. */
    DUTHLAN_NO_SUCH_STATION = 15,   /* The station is over 15. */
    DUTHLAN_ROWS_OUTSIDE = 16,      /* The rows to be looked at begin behind their end, or end behind the last row. */
    DUTHLAN_BAD_CALL = 100          /* A raw entry got a code that it does not serve, or too few places for what it tells. */
};

/* The grade of a row, the lowest that fits. */
enum duthlan_grades {
    DUTHLAN_GRADE_NULL = 0,  /* The row is null. */
    DUTHLAN_GRADE_EMPTY = 1, /* It has no valid element. */
    DUTHLAN_GRADE_RUN = 2,   /* It has a run of at least k adjacent valid equal elements; a null ends a run. */
    DUTHLAN_GRADE_OTHER = 3  /* All else. */
};

/* ---- The operations -------------------------------------------------------------------------------------------------------
 * `counts` may be NULL where the counts are not wanted. Rows are treated one by one; a null list gives a null row. */

/* Turns each row round. */
static inline uint32_t duthlan_reverse(const duthlan_list *list, const duthlan_out *out, duthlan_counts *counts);

/* Keeps the first occurrence of each element; null equals null. */
static inline uint32_t duthlan_distinct(const duthlan_list *list, const duthlan_out *out, duthlan_counts *counts);

/* Leaves out the first element of each row. */
static inline uint32_t duthlan_pop_front(const duthlan_list *list, const duthlan_out *out, duthlan_counts *counts);

/* Leaves out the last element of each row. */
static inline uint32_t duthlan_pop_back(const duthlan_list *list, const duthlan_out *out, duthlan_counts *counts);

/* Takes the places from `from` to `to`, both included, by `stride`: 1 is the first, -1 the last, and a stride of NULL is 1. */
static inline uint32_t duthlan_slice(
    const duthlan_list *list, const duthlan_values *from, const duthlan_values *to, const duthlan_values *stride,
    const duthlan_out *out, duthlan_counts *counts);

/* Cuts each row to `count` elements, or fills it up with `fill`; a fill that is null, or NULL, fills with nulls. */
static inline uint32_t duthlan_resize(
    const duthlan_list *list, const duthlan_values *count, const duthlan_values *fill,
    const duthlan_out *out, duthlan_counts *counts);

/* Puts `to` in place of the first `limit` elements equal to `from`; a null `from` matches nulls. */
static inline uint32_t duthlan_replace(
    const duthlan_list *list, const duthlan_values *from, const duthlan_values *to, const duthlan_values *limit,
    const duthlan_out *out, duthlan_counts *counts);

/* Leaves out the first `limit` elements equal to `element`; a null `element` gives a null row. */
static inline uint32_t duthlan_remove(
    const duthlan_list *list, const duthlan_values *element, const duthlan_values *limit,
    const duthlan_out *out, duthlan_counts *counts);

/* Gives the distinct elements of the left row and then the right; a null on either side gives a null row. */
static inline uint32_t duthlan_union(
    const duthlan_list *left, const duthlan_list *right, const duthlan_out *out, duthlan_counts *counts);

/* Gives each common element once, in the order of the longer row, the left one where they are equally long. */
static inline uint32_t duthlan_intersect(
    const duthlan_list *left, const duthlan_list *right, const duthlan_out *out, duthlan_counts *counts);

/* Distinct, union and intersect for rows of thousands of elements, where each is compared with few others by a table in a lent work
 * area. They answer and write as duthlan_distinct, duthlan_union and duthlan_intersect do, but for DUTHLAN_SHORT_AREA, which comes
 * after 3: an area has at least twice as many slots as the longest valid row has elements, or of two lists the longest pair of rows
 * that are valid on both sides, the two lengths added. What it held has no effect, and after every call, a refused one too, it is
 * all zero. It may be NULL with no slots. */
static inline uint32_t duthlan_distinct_hashed(
    const duthlan_list *list, uint32_t *area, size_t area_slots, const duthlan_out *out, duthlan_counts *counts);
static inline uint32_t duthlan_union_hashed(
    const duthlan_list *left, const duthlan_list *right, uint32_t *area, size_t area_slots,
    const duthlan_out *out, duthlan_counts *counts);
static inline uint32_t duthlan_intersect_hashed(
    const duthlan_list *left, const duthlan_list *right, uint32_t *area, size_t area_slots,
    const duthlan_out *out, duthlan_counts *counts);

/* Gives the first valid element of each row, or null. */
static inline uint32_t duthlan_any_value(
    const duthlan_list *list, const duthlan_value_out *out, duthlan_value_counts *counts);

/* Gives the element of each row at `index`: 1 is the first, -1 the last, and 0 or outside gives null. */
static inline uint32_t duthlan_element(
    const duthlan_list *list, const duthlan_values *index, const duthlan_value_out *out, duthlan_value_counts *counts);

/* Repeats each list `times` times in an outer row; a null count gives a null outer row, 0 or less an empty one. */
static inline uint32_t duthlan_list_repeat(
    const duthlan_list *list, const duthlan_values *times, const duthlan_repeat_out *out, duthlan_repeat_counts *counts);

/* Writes the rows that a ListView column shows as a list column. Refused by 13, 2 (the rows are those of the offsets), 3, 11 (null
 * rows' views too), 8 and 9. The result has as many elements as the sizes of its valid rows add up to. */
static inline uint32_t duthlan_import_view(const duthlan_view *view, const duthlan_out *out, duthlan_counts *counts);

/* Writes a list column as a ListView: the values and bitmaps of a result, where each valid row begins in them and its size, and 0 and
 * 0 for a null row. Import of that gives the list column as a result. */
static inline uint32_t duthlan_export_view(const duthlan_list *list, const duthlan_view_out *out, duthlan_counts *counts);

/* Runs a recipe for a station, 0 to 15, and counts it in the tally as finished or as refused; both trays are zero afterwards.
 * `second` serves union and intersect and has as many rows as `list`; where it is NULL, the list itself is lent again. Row r of
 * argument column k, of n rows, is value k * n + r of `arguments`, which may be NULL where `columns` is 0. Steps 1, 3, 5.. write
 * tray `one`, 2, 4, 6.. tray `two`, and the last the output, so a recipe of one step may have NULL for both. `tally` may be NULL. */
static inline uint32_t duthlan_recipe(
    uint32_t station, const uint32_t *numbers, size_t number_count,
    const duthlan_list *list, const duthlan_list *second, const duthlan_values *arguments, size_t columns,
    const duthlan_out *one, const duthlan_out *two, const duthlan_out *out, duthlan_counts *counts, duthlan_tally *tally);

/* Runs a recipe for the rows from `begin` up to, not including, `end`: the answer and the output are those of the recipe on a copy
 * that holds just these rows of both lists and of every argument column, so a row outside gives no refusal. The columns are lent
 * whole, with the same pitch, and are refused as a whole, by 10, 13, 1, 2 and 3, and then by 16. No station is named and no tally
 * moves; both trays are zero afterwards. NULL may stand where it may for duthlan_recipe. */
static inline uint32_t duthlan_recipe_rows(
    size_t begin, size_t end, const uint32_t *numbers, size_t number_count,
    const duthlan_list *list, const duthlan_list *second, const duthlan_values *arguments, size_t columns,
    const duthlan_out *one, const duthlan_out *two, const duthlan_out *out, duthlan_counts *counts);

/* A recipe's steps, 0 to 32, four numbers each; what stands in brackets is the number of an argument column, from 0 to 7:
 *     static const uint32_t numbers[] = {DUTHLAN_STEP_SLICE(0, 1, 2), DUTHLAN_STEP_REVERSE}; */
#define DUTHLAN_STEP_REVERSE 0, 0, 0, 0
#define DUTHLAN_STEP_DISTINCT 1, 0, 0, 0
#define DUTHLAN_STEP_POP_FRONT 2, 0, 0, 0
#define DUTHLAN_STEP_POP_BACK 3, 0, 0, 0
#define DUTHLAN_STEP_SLICE(from, to, stride) 4, (from), (to), (stride)
#define DUTHLAN_STEP_SLICE_WITHOUT_STRIDE(from, to) 5, (from), (to), 0
#define DUTHLAN_STEP_RESIZE(count, fill) 6, (count), (fill), 0
#define DUTHLAN_STEP_REPLACE(from, to, limit) 7, (from), (to), (limit)
#define DUTHLAN_STEP_REMOVE(element, limit) 8, (element), (limit), 0
#define DUTHLAN_STEP_UNION 9, 0, 0, 0
#define DUTHLAN_STEP_INTERSECT 10, 0, 0, 0

/* Grades each row of a list, a byte a row, by runs of at least k elements, and tells how many rows there are. Refused by 12, where k is 0;
 * 9, where there are fewer grades than rows; 13, 1 and 2, and then no grade is written. Grades past the rows keep their content. `rows` may
 * be NULL where their number is not wanted. */
static inline uint32_t duthlan_grade(uint64_t k, const duthlan_list *list, uint8_t *grades, size_t grade_count, uint64_t *rows);

/* Runs a recipe as duthlan_recipe does and grades the rows of its result: it returns, counts in the tally and leaves the output as that
 * would, and writes the grades where it is accepted. Before all else it is refused by 12, where k is 0, and by 9, where there are fewer
 * grades than `list` has rows; these two change neither tally nor output, and leave both trays zero. */
static inline uint32_t duthlan_grade_recipe(
    uint64_t k, uint32_t station, const uint32_t *numbers, size_t number_count,
    const duthlan_list *list, const duthlan_list *second, const duthlan_values *arguments, size_t columns,
    const duthlan_out *one, const duthlan_out *two, const duthlan_out *out,
    uint8_t *grades, size_t grade_count, duthlan_counts *counts, duthlan_tally *tally);

/* ---- How much to lend -----------------------------------------------------------------------------------------------------
 * Each operation can be asked first how long its outputs must be. The question takes what the operation takes, but no output; it
 * returns 0 and writes the lengths, or returns the refusal that the operation would give before 9, and keeps the lengths as they
 * were. Outputs at least so long in every buffer are never refused by 9, and one that is shorter always is. To ask first and lend
 * then, in a single block whose values come first, as they are the widest:
 *
 *     duthlan_lengths need = {0, 0, 0, 0};
 *     uint32_t number = duthlan_distinct_lengths(&list, &need);
 *     if (number == DUTHLAN_ACCEPTED) {
 *         int64_t *block = malloc(8 * need.values + 4 * need.offsets + need.row_bytes + need.element_bytes);
 *         if (!block) abort();
 *         int32_t *out_offsets = (int32_t *)(block + need.values);
 *         uint8_t *out_rows = (uint8_t *)(out_offsets + need.offsets), *out_elements = out_rows + need.row_bytes;
 *         const duthlan_out out = {out_offsets, need.offsets, out_rows, need.row_bytes,
 *                                  block, need.values, out_elements, need.element_bytes};
 *         number = duthlan_distinct(&list, &out, &counts);       // accepted: there is room
 *         free(block);
 *     }
 *
 * `lengths` and `limits` may be NULL where only the number is wanted; an argument may be NULL where the operation's may. */

/* How long the buffers of a duthlan_out must be. */
typedef struct duthlan_lengths {
    uint64_t offsets;
    uint64_t row_bytes;
    uint64_t values;
    uint64_t element_bytes;
} duthlan_lengths;

/* How long the buffers of a duthlan_value_out must be. */
typedef struct duthlan_value_lengths {
    uint64_t values;
    uint64_t row_bytes;
} duthlan_value_lengths;

/* How long the buffers of a duthlan_repeat_out must be. */
typedef struct duthlan_repeat_lengths {
    uint64_t offsets;
    uint64_t row_bytes;
    uint64_t inner_offsets;
    uint64_t inner_row_bytes;
    uint64_t values;
    uint64_t element_bytes;
} duthlan_repeat_lengths;

/* The most elements that a recipe may put into tray one, tray two and the output; 0 for a tray that no step writes. */
typedef struct duthlan_limits {
    uint64_t one;
    uint64_t two;
    uint64_t output;
} duthlan_limits;

/* Tells how much duthlan_reverse needs. */
static inline uint32_t duthlan_reverse_lengths(const duthlan_list *list, duthlan_lengths *lengths);

/* Tells how much duthlan_distinct needs. */
static inline uint32_t duthlan_distinct_lengths(const duthlan_list *list, duthlan_lengths *lengths);

/* Tells how much duthlan_pop_front needs. */
static inline uint32_t duthlan_pop_front_lengths(const duthlan_list *list, duthlan_lengths *lengths);

/* Tells how much duthlan_pop_back needs. */
static inline uint32_t duthlan_pop_back_lengths(const duthlan_list *list, duthlan_lengths *lengths);

/* Tells how much duthlan_slice needs. */
static inline uint32_t duthlan_slice_lengths(
    const duthlan_list *list, const duthlan_values *from, const duthlan_values *to, const duthlan_values *stride,
    duthlan_lengths *lengths);

/* Tells how much duthlan_resize needs. */
static inline uint32_t duthlan_resize_lengths(
    const duthlan_list *list, const duthlan_values *count, const duthlan_values *fill, duthlan_lengths *lengths);

/* Tells how much duthlan_replace needs. */
static inline uint32_t duthlan_replace_lengths(
    const duthlan_list *list, const duthlan_values *from, const duthlan_values *to, const duthlan_values *limit,
    duthlan_lengths *lengths);

/* Tells how much duthlan_remove needs. */
static inline uint32_t duthlan_remove_lengths(
    const duthlan_list *list, const duthlan_values *element, const duthlan_values *limit, duthlan_lengths *lengths);

/* Tells how much duthlan_union needs. */
static inline uint32_t duthlan_union_lengths(const duthlan_list *left, const duthlan_list *right, duthlan_lengths *lengths);

/* Tells how much duthlan_intersect needs. */
static inline uint32_t duthlan_intersect_lengths(const duthlan_list *left, const duthlan_list *right, duthlan_lengths *lengths);

/* Tells how much duthlan_any_value needs. */
static inline uint32_t duthlan_any_value_lengths(const duthlan_list *list, duthlan_value_lengths *lengths);

/* Tells how much duthlan_element needs. */
static inline uint32_t duthlan_element_lengths(
    const duthlan_list *list, const duthlan_values *index, duthlan_value_lengths *lengths);

/* Tells how much duthlan_list_repeat needs. */
static inline uint32_t duthlan_list_repeat_lengths(
    const duthlan_list *list, const duthlan_values *times, duthlan_repeat_lengths *lengths);

/* Tells how many elements at most a recipe makes in each tray and in the output; it runs nothing and names no station. Refused,
 * as the run would be, by 10, 13, 1, 2 and 3; a run may still be refused for its rows, but never by 9 where each tray that a step
 * writes, and the output, has so many values, an offset more than the list has rows, and bitmaps of DUTHLAN_BITMAP_BYTES of its
 * rows and values. A limit is at most 2147483647. */
static inline uint32_t duthlan_recipe_limits(
    const uint32_t *numbers, size_t number_count,
    const duthlan_list *list, const duthlan_list *second, const duthlan_values *arguments, size_t columns,
    duthlan_limits *limits);

/* ---- What came back ------------------------------------------------------------------------------------------------------- */

/* Says in words what a call returned. */
static inline const char *duthlan_refusal(uint32_t number);

/* Gives the result that an accepted call wrote as a column, to read or to lend to the next call. */
static inline duthlan_list duthlan_written(const duthlan_out *out, const duthlan_counts *counts);

/* Gives the ListView that an accepted export wrote. */
static inline duthlan_view duthlan_written_view(const duthlan_view_out *out, const duthlan_counts *counts);

/* Says whether place i is valid; i lies within the bitmap, if that has bytes. */
static inline int duthlan_is_valid(duthlan_bits bits, size_t i);

/* ---- The entries of the archive -------------------------------------------------------------------------------------------
 * Each buffer is a pointer, which must not be NULL, and its length in numbers; the functions above fill these lists of
 * parameters. Counts, lengths and limits are written in the order of the structs above. */

/* Runs an operation on one list by its code: 0 to 8 as in a recipe's steps, and 11 for resize without fill. */
uint32_t duthlan_typed_list(
    uint32_t op,
    const int32_t *offsets, size_t offset_count, const uint8_t *rows, size_t row_bytes, size_t rows_start,
    const int64_t *values, size_t value_count, const uint8_t *elements, size_t element_bytes, size_t elements_start,
    const int64_t *first, size_t first_count, const uint8_t *first_bits, size_t first_bytes, size_t first_start,
    const int64_t *second, size_t second_count, const uint8_t *second_bits, size_t second_bytes, size_t second_start,
    const int64_t *third, size_t third_count, const uint8_t *third_bits, size_t third_bytes, size_t third_start,
    int32_t *out_offsets, size_t out_offset_count, uint8_t *out_rows, size_t out_row_bytes,
    int64_t *out_values, size_t out_value_count, uint8_t *out_elements, size_t out_element_bytes,
    uint64_t *counts, size_t count_places);

/* Runs an operation on two lists by its code: 9 union, 10 intersect. */
uint32_t duthlan_typed_lists(
    uint32_t op,
    const int32_t *l_offsets, size_t l_offset_count, const uint8_t *l_rows, size_t l_row_bytes, size_t l_rows_start,
    const int64_t *l_values, size_t l_value_count, const uint8_t *l_elements, size_t l_element_bytes, size_t l_elements_start,
    const int32_t *r_offsets, size_t r_offset_count, const uint8_t *r_rows, size_t r_row_bytes, size_t r_rows_start,
    const int64_t *r_values, size_t r_value_count, const uint8_t *r_elements, size_t r_element_bytes, size_t r_elements_start,
    int32_t *out_offsets, size_t out_offset_count, uint8_t *out_rows, size_t out_row_bytes,
    int64_t *out_values, size_t out_value_count, uint8_t *out_elements, size_t out_element_bytes,
    uint64_t *counts, size_t count_places);

/* Runs distinct with a work area. */
uint32_t duthlan_typed_distinct_hashed(
    const int32_t *offsets, size_t offset_count, const uint8_t *rows, size_t row_bytes, size_t rows_start,
    const int64_t *values, size_t value_count, const uint8_t *elements, size_t element_bytes, size_t elements_start,
    int32_t *out_offsets, size_t out_offset_count, uint8_t *out_rows, size_t out_row_bytes,
    int64_t *out_values, size_t out_value_count, uint8_t *out_elements, size_t out_element_bytes,
    uint32_t *area, size_t area_slots, uint64_t *counts, size_t count_places);

/* Runs an operation on two lists with a work area by its code: 9 union, 10 intersect. */
uint32_t duthlan_typed_lists_hashed(
    uint32_t op,
    const int32_t *l_offsets, size_t l_offset_count, const uint8_t *l_rows, size_t l_row_bytes, size_t l_rows_start,
    const int64_t *l_values, size_t l_value_count, const uint8_t *l_elements, size_t l_element_bytes, size_t l_elements_start,
    const int32_t *r_offsets, size_t r_offset_count, const uint8_t *r_rows, size_t r_row_bytes, size_t r_rows_start,
    const int64_t *r_values, size_t r_value_count, const uint8_t *r_elements, size_t r_element_bytes, size_t r_elements_start,
    int32_t *out_offsets, size_t out_offset_count, uint8_t *out_rows, size_t out_row_bytes,
    int64_t *out_values, size_t out_value_count, uint8_t *out_elements, size_t out_element_bytes,
    uint32_t *area, size_t area_slots, uint64_t *counts, size_t count_places);

/* Runs any-value. */
uint32_t duthlan_typed_any_value(
    const int32_t *offsets, size_t offset_count, const uint8_t *rows, size_t row_bytes, size_t rows_start,
    const int64_t *values, size_t value_count, const uint8_t *elements, size_t element_bytes, size_t elements_start,
    int64_t *out_values, size_t out_value_count, uint8_t *out_rows, size_t out_row_bytes,
    uint64_t *counts, size_t count_places);

/* Runs element. */
uint32_t duthlan_typed_element(
    const int32_t *offsets, size_t offset_count, const uint8_t *rows, size_t row_bytes, size_t rows_start,
    const int64_t *values, size_t value_count, const uint8_t *elements, size_t element_bytes, size_t elements_start,
    const int64_t *indexes, size_t index_count, const uint8_t *index_bits, size_t index_bytes, size_t index_start,
    int64_t *out_values, size_t out_value_count, uint8_t *out_rows, size_t out_row_bytes,
    uint64_t *counts, size_t count_places);

/* Runs list-repeat. */
uint32_t duthlan_typed_list_repeat(
    const int32_t *offsets, size_t offset_count, const uint8_t *rows, size_t row_bytes, size_t rows_start,
    const int64_t *values, size_t value_count, const uint8_t *elements, size_t element_bytes, size_t elements_start,
    const int64_t *times, size_t times_count, const uint8_t *times_bits, size_t times_bytes, size_t times_start,
    int32_t *out_offsets, size_t out_offset_count, uint8_t *out_rows, size_t out_row_bytes,
    int32_t *inner_offsets, size_t inner_offset_count, uint8_t *inner_rows, size_t inner_row_bytes,
    int64_t *out_values, size_t out_value_count, uint8_t *out_elements, size_t out_element_bytes,
    uint64_t *counts, size_t count_places);

/* Runs the import of a ListView column. */
uint32_t duthlan_typed_import_view(
    const int32_t *offsets, size_t offset_count, const int32_t *sizes, size_t size_count,
    const uint8_t *rows, size_t row_bytes, size_t rows_start,
    const int64_t *values, size_t value_count, const uint8_t *elements, size_t element_bytes, size_t elements_start,
    int32_t *out_offsets, size_t out_offset_count, uint8_t *out_rows, size_t out_row_bytes,
    int64_t *out_values, size_t out_value_count, uint8_t *out_elements, size_t out_element_bytes,
    uint64_t *counts, size_t count_places);

/* Runs the export of a list column to a ListView. */
uint32_t duthlan_typed_export_view(
    const int32_t *offsets, size_t offset_count, const uint8_t *rows, size_t row_bytes, size_t rows_start,
    const int64_t *values, size_t value_count, const uint8_t *elements, size_t element_bytes, size_t elements_start,
    int32_t *out_offsets, size_t out_offset_count, int32_t *out_sizes, size_t out_size_count,
    uint8_t *out_rows, size_t out_row_bytes,
    int64_t *out_values, size_t out_value_count, uint8_t *out_elements, size_t out_element_bytes,
    uint64_t *counts, size_t count_places);

/* Runs a recipe; the tally is 16 finished counts, stations 0 to 15, and then 16 refused ones. */
uint32_t duthlan_typed_recipe(
    uint32_t station, const uint32_t *numbers, size_t number_count, size_t columns,
    const int32_t *offsets, size_t offset_count, const uint8_t *rows, size_t row_bytes, size_t rows_start,
    const int64_t *values, size_t value_count, const uint8_t *elements, size_t element_bytes, size_t elements_start,
    const int32_t *second_offsets, size_t second_offset_count,
    const uint8_t *second_rows, size_t second_row_bytes, size_t second_rows_start,
    const int64_t *second_values, size_t second_value_count,
    const uint8_t *second_elements, size_t second_element_bytes, size_t second_elements_start,
    const int64_t *arguments, size_t argument_count,
    const uint8_t *argument_bits, size_t argument_bytes, size_t argument_start,
    int32_t *one_offsets, size_t one_offset_count, uint8_t *one_rows, size_t one_row_bytes,
    int64_t *one_values, size_t one_value_count, uint8_t *one_elements, size_t one_element_bytes,
    int32_t *two_offsets, size_t two_offset_count, uint8_t *two_rows, size_t two_row_bytes,
    int64_t *two_values, size_t two_value_count, uint8_t *two_elements, size_t two_element_bytes,
    int32_t *out_offsets, size_t out_offset_count, uint8_t *out_rows, size_t out_row_bytes,
    int64_t *out_values, size_t out_value_count, uint8_t *out_elements, size_t out_element_bytes,
    uint64_t *counts, size_t count_places, uint64_t *tally, size_t tally_places);

/* Runs a recipe for some of its rows. */
uint32_t duthlan_typed_recipe_rows(
    size_t begin, size_t end, const uint32_t *numbers, size_t number_count, size_t columns,
    const int32_t *offsets, size_t offset_count, const uint8_t *rows, size_t row_bytes, size_t rows_start,
    const int64_t *values, size_t value_count, const uint8_t *elements, size_t element_bytes, size_t elements_start,
    const int32_t *second_offsets, size_t second_offset_count,
    const uint8_t *second_rows, size_t second_row_bytes, size_t second_rows_start,
    const int64_t *second_values, size_t second_value_count,
    const uint8_t *second_elements, size_t second_element_bytes, size_t second_elements_start,
    const int64_t *arguments, size_t argument_count,
    const uint8_t *argument_bits, size_t argument_bytes, size_t argument_start,
    int32_t *one_offsets, size_t one_offset_count, uint8_t *one_rows, size_t one_row_bytes,
    int64_t *one_values, size_t one_value_count, uint8_t *one_elements, size_t one_element_bytes,
    int32_t *two_offsets, size_t two_offset_count, uint8_t *two_rows, size_t two_row_bytes,
    int64_t *two_values, size_t two_value_count, uint8_t *two_elements, size_t two_element_bytes,
    int32_t *out_offsets, size_t out_offset_count, uint8_t *out_rows, size_t out_row_bytes,
    int64_t *out_values, size_t out_value_count, uint8_t *out_elements, size_t out_element_bytes,
    uint64_t *counts, size_t count_places);

/* Tells the lengths for duthlan_typed_list, four: offsets, row bytes, values, element bytes. */
uint32_t duthlan_typed_list_lengths(
    uint32_t op,
    const int32_t *offsets, size_t offset_count, const uint8_t *rows, size_t row_bytes, size_t rows_start,
    const int64_t *values, size_t value_count, const uint8_t *elements, size_t element_bytes, size_t elements_start,
    const int64_t *first, size_t first_count, const uint8_t *first_bits, size_t first_bytes, size_t first_start,
    const int64_t *second, size_t second_count, const uint8_t *second_bits, size_t second_bytes, size_t second_start,
    const int64_t *third, size_t third_count, const uint8_t *third_bits, size_t third_bytes, size_t third_start,
    uint64_t *lengths, size_t length_places);

/* Tells the same four lengths for duthlan_typed_lists. */
uint32_t duthlan_typed_lists_lengths(
    uint32_t op,
    const int32_t *l_offsets, size_t l_offset_count, const uint8_t *l_rows, size_t l_row_bytes, size_t l_rows_start,
    const int64_t *l_values, size_t l_value_count, const uint8_t *l_elements, size_t l_element_bytes, size_t l_elements_start,
    const int32_t *r_offsets, size_t r_offset_count, const uint8_t *r_rows, size_t r_row_bytes, size_t r_rows_start,
    const int64_t *r_values, size_t r_value_count, const uint8_t *r_elements, size_t r_element_bytes, size_t r_elements_start,
    uint64_t *lengths, size_t length_places);

/* Tells the lengths for duthlan_typed_any_value, two: values, row bytes. */
uint32_t duthlan_typed_any_value_lengths(
    const int32_t *offsets, size_t offset_count, const uint8_t *rows, size_t row_bytes, size_t rows_start,
    const int64_t *values, size_t value_count, const uint8_t *elements, size_t element_bytes, size_t elements_start,
    uint64_t *lengths, size_t length_places);

/* Tells the same two lengths for duthlan_typed_element. */
uint32_t duthlan_typed_element_lengths(
    const int32_t *offsets, size_t offset_count, const uint8_t *rows, size_t row_bytes, size_t rows_start,
    const int64_t *values, size_t value_count, const uint8_t *elements, size_t element_bytes, size_t elements_start,
    const int64_t *indexes, size_t index_count, const uint8_t *index_bits, size_t index_bytes, size_t index_start,
    uint64_t *lengths, size_t length_places);

/* Tells the lengths for duthlan_typed_list_repeat, six: offsets, row bytes, the inner two, values, element bytes. */
uint32_t duthlan_typed_list_repeat_lengths(
    const int32_t *offsets, size_t offset_count, const uint8_t *rows, size_t row_bytes, size_t rows_start,
    const int64_t *values, size_t value_count, const uint8_t *elements, size_t element_bytes, size_t elements_start,
    const int64_t *times, size_t times_count, const uint8_t *times_bits, size_t times_bytes, size_t times_start,
    uint64_t *lengths, size_t length_places);

/* Tells the limits for duthlan_typed_recipe, three: the elements in tray one, tray two and the output. */
uint32_t duthlan_typed_recipe_limits(
    const uint32_t *numbers, size_t number_count, size_t columns,
    const int32_t *offsets, size_t offset_count, const uint8_t *rows, size_t row_bytes, size_t rows_start,
    const int64_t *values, size_t value_count, const uint8_t *elements, size_t element_bytes, size_t elements_start,
    const int32_t *second_offsets, size_t second_offset_count,
    const uint8_t *second_rows, size_t second_row_bytes, size_t second_rows_start,
    const int64_t *second_values, size_t second_value_count,
    const uint8_t *second_elements, size_t second_element_bytes, size_t second_elements_start,
    const int64_t *arguments, size_t argument_count,
    const uint8_t *argument_bits, size_t argument_bytes, size_t argument_start,
    uint64_t *limits, size_t limit_places);

/* Grades a list; the one count is that of its rows. */
uint32_t duthlan_typed_grade(
    uint64_t k,
    const int32_t *offsets, size_t offset_count, const uint8_t *rows, size_t row_bytes, size_t rows_start,
    const int64_t *values, size_t value_count, const uint8_t *elements, size_t element_bytes, size_t elements_start,
    uint8_t *grades, size_t grade_count, uint64_t *counts, size_t count_places);

/* Runs a recipe and grades its result; counts and tally are those of duthlan_typed_recipe. */
uint32_t duthlan_typed_grade_recipe(
    uint64_t k, uint32_t station, const uint32_t *numbers, size_t number_count, size_t columns,
    const int32_t *offsets, size_t offset_count, const uint8_t *rows, size_t row_bytes, size_t rows_start,
    const int64_t *values, size_t value_count, const uint8_t *elements, size_t element_bytes, size_t elements_start,
    const int32_t *second_offsets, size_t second_offset_count,
    const uint8_t *second_rows, size_t second_row_bytes, size_t second_rows_start,
    const int64_t *second_values, size_t second_value_count,
    const uint8_t *second_elements, size_t second_element_bytes, size_t second_elements_start,
    const int64_t *arguments, size_t argument_count,
    const uint8_t *argument_bits, size_t argument_bytes, size_t argument_start,
    int32_t *one_offsets, size_t one_offset_count, uint8_t *one_rows, size_t one_row_bytes,
    int64_t *one_values, size_t one_value_count, uint8_t *one_elements, size_t one_element_bytes,
    int32_t *two_offsets, size_t two_offset_count, uint8_t *two_rows, size_t two_row_bytes,
    int64_t *two_values, size_t two_value_count, uint8_t *two_elements, size_t two_element_bytes,
    int32_t *out_offsets, size_t out_offset_count, uint8_t *out_rows, size_t out_row_bytes,
    int64_t *out_values, size_t out_value_count, uint8_t *out_elements, size_t out_element_bytes,
    uint8_t *grades, size_t grade_count, uint64_t *counts, size_t count_places, uint64_t *tally, size_t tally_places);

/* ---- How the functions above call the entries ----------------------------------------------------------------------------- */

/* Stands in for a pointer of NULL with a length of 0; nothing is read or written there. */
static inline const uint8_t *duthlan_in_u8(const uint8_t *p, size_t n) {
    static const uint8_t nothing = 0;
    return !p && n == 0 ? &nothing : p;
}

static inline const uint32_t *duthlan_in_u32(const uint32_t *p, size_t n) {
    static const uint32_t nothing = 0;
    return !p && n == 0 ? &nothing : p;
}

static inline const int32_t *duthlan_in_i32(const int32_t *p, size_t n) {
    static const int32_t nothing = 0;
    return !p && n == 0 ? &nothing : p;
}

static inline const int64_t *duthlan_in_i64(const int64_t *p, size_t n) {
    static const int64_t nothing = 0;
    return !p && n == 0 ? &nothing : p;
}

static inline uint8_t *duthlan_out_u8(uint8_t *p, size_t n) {
    static uint8_t nothing;
    return !p && n == 0 ? &nothing : p;
}

static inline uint32_t *duthlan_out_u32(uint32_t *p, size_t n) {
    static uint32_t nothing;
    return !p && n == 0 ? &nothing : p;
}

static inline int32_t *duthlan_out_i32(int32_t *p, size_t n) {
    static int32_t nothing;
    return !p && n == 0 ? &nothing : p;
}

static inline int64_t *duthlan_out_i64(int64_t *p, size_t n) {
    static int64_t nothing;
    return !p && n == 0 ? &nothing : p;
}

/* What a struct becomes in a list of arguments. */
#define DUTHLAN_INPUT_(type, p, n) duthlan_in_##type(p, n), n
#define DUTHLAN_OUTPUT_(type, p, n) duthlan_out_##type(p, n), n
#define DUTHLAN_BITS_(b) DUTHLAN_INPUT_(u8, (b).bytes, (b).byte_count), (b).start
#define DUTHLAN_LIST_(l)                                                                        \
    DUTHLAN_INPUT_(i32, (l)->offsets, (l)->offset_count), DUTHLAN_BITS_((l)->rows),             \
        DUTHLAN_INPUT_(i64, (l)->values, (l)->value_count), DUTHLAN_BITS_((l)->elements)
#define DUTHLAN_VALUES_(a) DUTHLAN_INPUT_(i64, (a)->values, (a)->value_count), DUTHLAN_BITS_((a)->valid)
#define DUTHLAN_ROWS_(o)                                                                        \
    DUTHLAN_OUTPUT_(i32, (o)->offsets, (o)->offset_count), DUTHLAN_OUTPUT_(u8, (o)->rows, (o)->row_bytes)
#define DUTHLAN_ELEMENTS_(o)                                                                    \
    DUTHLAN_OUTPUT_(i64, (o)->values, (o)->value_count), DUTHLAN_OUTPUT_(u8, (o)->elements, (o)->element_bytes)

static inline uint32_t duthlan_told_(uint32_t number, const uint64_t told[4], duthlan_counts *counts) {
    if (number == 0 && counts) {
        counts->rows = told[0];
        counts->elements = told[1];
        counts->null_rows = told[2];
        counts->null_elements = told[3];
    }
    return number;
}

static inline uint32_t duthlan_told_values_(uint32_t number, const uint64_t told[2], duthlan_value_counts *counts) {
    if (number == 0 && counts) {
        counts->rows = told[0];
        counts->null_rows = told[1];
    }
    return number;
}

static inline uint32_t duthlan_one_list_(
    uint32_t op, const duthlan_list *list,
    const duthlan_values *first, const duthlan_values *second, const duthlan_values *third,
    const duthlan_out *out, duthlan_counts *counts) {
    const duthlan_values none = {0, 0, {0, 0, 0}};
    uint64_t told[4] = {0, 0, 0, 0};
    if (!first) first = &none;
    if (!second) second = &none;
    if (!third) third = &none;
    return duthlan_told_(
        duthlan_typed_list(
            op, DUTHLAN_LIST_(list), DUTHLAN_VALUES_(first), DUTHLAN_VALUES_(second), DUTHLAN_VALUES_(third),
            DUTHLAN_ROWS_(out), DUTHLAN_ELEMENTS_(out), told, 4),
        told, counts);
}

static inline uint32_t duthlan_two_lists_(
    uint32_t op, const duthlan_list *left, const duthlan_list *right, const duthlan_out *out, duthlan_counts *counts) {
    uint64_t told[4] = {0, 0, 0, 0};
    return duthlan_told_(
        duthlan_typed_lists(
            op, DUTHLAN_LIST_(left), DUTHLAN_LIST_(right), DUTHLAN_ROWS_(out), DUTHLAN_ELEMENTS_(out), told, 4),
        told, counts);
}

static inline uint32_t duthlan_two_lists_hashed_(
    uint32_t op, const duthlan_list *left, const duthlan_list *right, uint32_t *area, size_t area_slots,
    const duthlan_out *out, duthlan_counts *counts) {
    uint64_t told[4] = {0, 0, 0, 0};
    return duthlan_told_(
        duthlan_typed_lists_hashed(
            op, DUTHLAN_LIST_(left), DUTHLAN_LIST_(right), DUTHLAN_ROWS_(out), DUTHLAN_ELEMENTS_(out),
            DUTHLAN_OUTPUT_(u32, area, area_slots), told, 4),
        told, counts);
}

static inline uint32_t duthlan_reverse(const duthlan_list *list, const duthlan_out *out, duthlan_counts *counts) {
    return duthlan_one_list_(0, list, 0, 0, 0, out, counts);
}

static inline uint32_t duthlan_distinct(const duthlan_list *list, const duthlan_out *out, duthlan_counts *counts) {
    return duthlan_one_list_(1, list, 0, 0, 0, out, counts);
}

static inline uint32_t duthlan_pop_front(const duthlan_list *list, const duthlan_out *out, duthlan_counts *counts) {
    return duthlan_one_list_(2, list, 0, 0, 0, out, counts);
}

static inline uint32_t duthlan_pop_back(const duthlan_list *list, const duthlan_out *out, duthlan_counts *counts) {
    return duthlan_one_list_(3, list, 0, 0, 0, out, counts);
}

static inline uint32_t duthlan_slice(
    const duthlan_list *list, const duthlan_values *from, const duthlan_values *to, const duthlan_values *stride,
    const duthlan_out *out, duthlan_counts *counts) {
    return duthlan_one_list_(stride ? 4 : 5, list, from, to, stride, out, counts);
}

static inline uint32_t duthlan_resize(
    const duthlan_list *list, const duthlan_values *count, const duthlan_values *fill,
    const duthlan_out *out, duthlan_counts *counts) {
    return duthlan_one_list_(fill ? 6 : 11, list, count, fill, 0, out, counts);
}

static inline uint32_t duthlan_replace(
    const duthlan_list *list, const duthlan_values *from, const duthlan_values *to, const duthlan_values *limit,
    const duthlan_out *out, duthlan_counts *counts) {
    return duthlan_one_list_(7, list, from, to, limit, out, counts);
}

static inline uint32_t duthlan_remove(
    const duthlan_list *list, const duthlan_values *element, const duthlan_values *limit,
    const duthlan_out *out, duthlan_counts *counts) {
    return duthlan_one_list_(8, list, element, limit, 0, out, counts);
}

static inline uint32_t duthlan_union(
    const duthlan_list *left, const duthlan_list *right, const duthlan_out *out, duthlan_counts *counts) {
    return duthlan_two_lists_(9, left, right, out, counts);
}

static inline uint32_t duthlan_intersect(
    const duthlan_list *left, const duthlan_list *right, const duthlan_out *out, duthlan_counts *counts) {
    return duthlan_two_lists_(10, left, right, out, counts);
}

static inline uint32_t duthlan_distinct_hashed(
    const duthlan_list *list, uint32_t *area, size_t area_slots, const duthlan_out *out, duthlan_counts *counts) {
    uint64_t told[4] = {0, 0, 0, 0};
    return duthlan_told_(
        duthlan_typed_distinct_hashed(
            DUTHLAN_LIST_(list), DUTHLAN_ROWS_(out), DUTHLAN_ELEMENTS_(out), DUTHLAN_OUTPUT_(u32, area, area_slots), told, 4),
        told, counts);
}

static inline uint32_t duthlan_union_hashed(
    const duthlan_list *left, const duthlan_list *right, uint32_t *area, size_t area_slots,
    const duthlan_out *out, duthlan_counts *counts) {
    return duthlan_two_lists_hashed_(9, left, right, area, area_slots, out, counts);
}

static inline uint32_t duthlan_intersect_hashed(
    const duthlan_list *left, const duthlan_list *right, uint32_t *area, size_t area_slots,
    const duthlan_out *out, duthlan_counts *counts) {
    return duthlan_two_lists_hashed_(10, left, right, area, area_slots, out, counts);
}

static inline uint32_t duthlan_any_value(
    const duthlan_list *list, const duthlan_value_out *out, duthlan_value_counts *counts) {
    uint64_t told[2] = {0, 0};
    return duthlan_told_values_(
        duthlan_typed_any_value(
            DUTHLAN_LIST_(list),
            DUTHLAN_OUTPUT_(i64, out->values, out->value_count), DUTHLAN_OUTPUT_(u8, out->rows, out->row_bytes), told, 2),
        told, counts);
}

static inline uint32_t duthlan_element(
    const duthlan_list *list, const duthlan_values *index, const duthlan_value_out *out, duthlan_value_counts *counts) {
    uint64_t told[2] = {0, 0};
    return duthlan_told_values_(
        duthlan_typed_element(
            DUTHLAN_LIST_(list), DUTHLAN_VALUES_(index),
            DUTHLAN_OUTPUT_(i64, out->values, out->value_count), DUTHLAN_OUTPUT_(u8, out->rows, out->row_bytes), told, 2),
        told, counts);
}

static inline uint32_t duthlan_list_repeat(
    const duthlan_list *list, const duthlan_values *times, const duthlan_repeat_out *out, duthlan_repeat_counts *counts) {
    uint64_t told[6] = {0, 0, 0, 0, 0, 0};
    uint32_t number = duthlan_typed_list_repeat(
        DUTHLAN_LIST_(list), DUTHLAN_VALUES_(times), DUTHLAN_ROWS_(out),
        DUTHLAN_OUTPUT_(i32, out->inner_offsets, out->inner_offset_count),
        DUTHLAN_OUTPUT_(u8, out->inner_rows, out->inner_row_bytes), DUTHLAN_ELEMENTS_(out), told, 6);
    if (number == 0 && counts) {
        counts->rows = told[0];
        counts->elements = told[1];
        counts->null_rows = told[2];
        counts->null_elements = told[3];
        counts->inner_rows = told[4];
        counts->null_inner_rows = told[5];
    }
    return number;
}

static inline uint32_t duthlan_import_view(const duthlan_view *view, const duthlan_out *out, duthlan_counts *counts) {
    uint64_t told[4] = {0, 0, 0, 0};
    return duthlan_told_(
        duthlan_typed_import_view(
            DUTHLAN_INPUT_(i32, view->offsets, view->offset_count), DUTHLAN_INPUT_(i32, view->sizes, view->size_count),
            DUTHLAN_BITS_(view->rows), DUTHLAN_INPUT_(i64, view->values, view->value_count), DUTHLAN_BITS_(view->elements),
            DUTHLAN_ROWS_(out), DUTHLAN_ELEMENTS_(out), told, 4),
        told, counts);
}

static inline uint32_t duthlan_export_view(const duthlan_list *list, const duthlan_view_out *out, duthlan_counts *counts) {
    uint64_t told[4] = {0, 0, 0, 0};
    return duthlan_told_(
        duthlan_typed_export_view(
            DUTHLAN_LIST_(list),
            DUTHLAN_OUTPUT_(i32, out->offsets, out->offset_count), DUTHLAN_OUTPUT_(i32, out->sizes, out->size_count),
            DUTHLAN_OUTPUT_(u8, out->rows, out->row_bytes), DUTHLAN_ELEMENTS_(out), told, 4),
        told, counts);
}

static inline uint32_t duthlan_recipe(
    uint32_t station, const uint32_t *numbers, size_t number_count,
    const duthlan_list *list, const duthlan_list *second, const duthlan_values *arguments, size_t columns,
    const duthlan_out *one, const duthlan_out *two, const duthlan_out *out, duthlan_counts *counts, duthlan_tally *tally) {
    const duthlan_values none = {0, 0, {0, 0, 0}};
    const duthlan_out no_tray = {0, 0, 0, 0, 0, 0, 0, 0};
    uint64_t told[4] = {0, 0, 0, 0};
    uint64_t tallied[32] = {0};
    uint32_t number;
    size_t i;
    if (!second) second = list;
    if (!arguments) arguments = &none;
    if (!one) one = &no_tray;
    if (!two) two = &no_tray;
    for (i = 0; tally && i < 16; i++) {
        tallied[i] = tally->finished[i];
        tallied[16 + i] = tally->refused[i];
    }
    number = duthlan_typed_recipe(
        station, DUTHLAN_INPUT_(u32, numbers, number_count), columns,
        DUTHLAN_LIST_(list), DUTHLAN_LIST_(second), DUTHLAN_VALUES_(arguments),
        DUTHLAN_ROWS_(one), DUTHLAN_ELEMENTS_(one), DUTHLAN_ROWS_(two), DUTHLAN_ELEMENTS_(two),
        DUTHLAN_ROWS_(out), DUTHLAN_ELEMENTS_(out), told, 4, tallied, 32);
    for (i = 0; tally && i < 16; i++) {
        tally->finished[i] = tallied[i];
        tally->refused[i] = tallied[16 + i];
    }
    return duthlan_told_(number, told, counts);
}

static inline uint32_t duthlan_recipe_rows(
    size_t begin, size_t end, const uint32_t *numbers, size_t number_count,
    const duthlan_list *list, const duthlan_list *second, const duthlan_values *arguments, size_t columns,
    const duthlan_out *one, const duthlan_out *two, const duthlan_out *out, duthlan_counts *counts) {
    const duthlan_values none = {0, 0, {0, 0, 0}};
    const duthlan_out no_tray = {0, 0, 0, 0, 0, 0, 0, 0};
    uint64_t told[4] = {0, 0, 0, 0};
    if (!second) second = list;
    if (!arguments) arguments = &none;
    if (!one) one = &no_tray;
    if (!two) two = &no_tray;
    return duthlan_told_(
        duthlan_typed_recipe_rows(
            begin, end, DUTHLAN_INPUT_(u32, numbers, number_count), columns,
            DUTHLAN_LIST_(list), DUTHLAN_LIST_(second), DUTHLAN_VALUES_(arguments),
            DUTHLAN_ROWS_(one), DUTHLAN_ELEMENTS_(one), DUTHLAN_ROWS_(two), DUTHLAN_ELEMENTS_(two),
            DUTHLAN_ROWS_(out), DUTHLAN_ELEMENTS_(out), told, 4),
        told, counts);
}

static inline uint32_t duthlan_told_lengths_(uint32_t number, const uint64_t told[4], duthlan_lengths *lengths) {
    if (number == 0 && lengths) {
        lengths->offsets = told[0];
        lengths->row_bytes = told[1];
        lengths->values = told[2];
        lengths->element_bytes = told[3];
    }
    return number;
}

static inline uint32_t duthlan_told_value_lengths_(uint32_t number, const uint64_t told[2], duthlan_value_lengths *lengths) {
    if (number == 0 && lengths) {
        lengths->values = told[0];
        lengths->row_bytes = told[1];
    }
    return number;
}

static inline uint32_t duthlan_one_list_lengths_(
    uint32_t op, const duthlan_list *list,
    const duthlan_values *first, const duthlan_values *second, const duthlan_values *third, duthlan_lengths *lengths) {
    const duthlan_values none = {0, 0, {0, 0, 0}};
    uint64_t told[4] = {0, 0, 0, 0};
    if (!first) first = &none;
    if (!second) second = &none;
    if (!third) third = &none;
    return duthlan_told_lengths_(
        duthlan_typed_list_lengths(
            op, DUTHLAN_LIST_(list), DUTHLAN_VALUES_(first), DUTHLAN_VALUES_(second), DUTHLAN_VALUES_(third), told, 4),
        told, lengths);
}

static inline uint32_t duthlan_two_lists_lengths_(
    uint32_t op, const duthlan_list *left, const duthlan_list *right, duthlan_lengths *lengths) {
    uint64_t told[4] = {0, 0, 0, 0};
    return duthlan_told_lengths_(
        duthlan_typed_lists_lengths(op, DUTHLAN_LIST_(left), DUTHLAN_LIST_(right), told, 4), told, lengths);
}

static inline uint32_t duthlan_reverse_lengths(const duthlan_list *list, duthlan_lengths *lengths) {
    return duthlan_one_list_lengths_(0, list, 0, 0, 0, lengths);
}

static inline uint32_t duthlan_distinct_lengths(const duthlan_list *list, duthlan_lengths *lengths) {
    return duthlan_one_list_lengths_(1, list, 0, 0, 0, lengths);
}

static inline uint32_t duthlan_pop_front_lengths(const duthlan_list *list, duthlan_lengths *lengths) {
    return duthlan_one_list_lengths_(2, list, 0, 0, 0, lengths);
}

static inline uint32_t duthlan_pop_back_lengths(const duthlan_list *list, duthlan_lengths *lengths) {
    return duthlan_one_list_lengths_(3, list, 0, 0, 0, lengths);
}

static inline uint32_t duthlan_slice_lengths(
    const duthlan_list *list, const duthlan_values *from, const duthlan_values *to, const duthlan_values *stride,
    duthlan_lengths *lengths) {
    return duthlan_one_list_lengths_(stride ? 4 : 5, list, from, to, stride, lengths);
}

static inline uint32_t duthlan_resize_lengths(
    const duthlan_list *list, const duthlan_values *count, const duthlan_values *fill, duthlan_lengths *lengths) {
    return duthlan_one_list_lengths_(fill ? 6 : 11, list, count, fill, 0, lengths);
}

static inline uint32_t duthlan_replace_lengths(
    const duthlan_list *list, const duthlan_values *from, const duthlan_values *to, const duthlan_values *limit,
    duthlan_lengths *lengths) {
    return duthlan_one_list_lengths_(7, list, from, to, limit, lengths);
}

static inline uint32_t duthlan_remove_lengths(
    const duthlan_list *list, const duthlan_values *element, const duthlan_values *limit, duthlan_lengths *lengths) {
    return duthlan_one_list_lengths_(8, list, element, limit, 0, lengths);
}

static inline uint32_t duthlan_union_lengths(const duthlan_list *left, const duthlan_list *right, duthlan_lengths *lengths) {
    return duthlan_two_lists_lengths_(9, left, right, lengths);
}

static inline uint32_t duthlan_intersect_lengths(const duthlan_list *left, const duthlan_list *right, duthlan_lengths *lengths) {
    return duthlan_two_lists_lengths_(10, left, right, lengths);
}

static inline uint32_t duthlan_any_value_lengths(const duthlan_list *list, duthlan_value_lengths *lengths) {
    uint64_t told[2] = {0, 0};
    return duthlan_told_value_lengths_(duthlan_typed_any_value_lengths(DUTHLAN_LIST_(list), told, 2), told, lengths);
}

static inline uint32_t duthlan_element_lengths(
    const duthlan_list *list, const duthlan_values *index, duthlan_value_lengths *lengths) {
    uint64_t told[2] = {0, 0};
    return duthlan_told_value_lengths_(
        duthlan_typed_element_lengths(DUTHLAN_LIST_(list), DUTHLAN_VALUES_(index), told, 2), told, lengths);
}

static inline uint32_t duthlan_list_repeat_lengths(
    const duthlan_list *list, const duthlan_values *times, duthlan_repeat_lengths *lengths) {
    uint64_t told[6] = {0, 0, 0, 0, 0, 0};
    uint32_t number = duthlan_typed_list_repeat_lengths(DUTHLAN_LIST_(list), DUTHLAN_VALUES_(times), told, 6);
    if (number == 0 && lengths) {
        lengths->offsets = told[0];
        lengths->row_bytes = told[1];
        lengths->inner_offsets = told[2];
        lengths->inner_row_bytes = told[3];
        lengths->values = told[4];
        lengths->element_bytes = told[5];
    }
    return number;
}

static inline uint32_t duthlan_recipe_limits(
    const uint32_t *numbers, size_t number_count,
    const duthlan_list *list, const duthlan_list *second, const duthlan_values *arguments, size_t columns,
    duthlan_limits *limits) {
    const duthlan_values none = {0, 0, {0, 0, 0}};
    uint64_t told[3] = {0, 0, 0};
    uint32_t number;
    if (!second) second = list;
    if (!arguments) arguments = &none;
    number = duthlan_typed_recipe_limits(
        DUTHLAN_INPUT_(u32, numbers, number_count), columns,
        DUTHLAN_LIST_(list), DUTHLAN_LIST_(second), DUTHLAN_VALUES_(arguments), told, 3);
    if (number == 0 && limits) {
        limits->one = told[0];
        limits->two = told[1];
        limits->output = told[2];
    }
    return number;
}

static inline uint32_t duthlan_grade(uint64_t k, const duthlan_list *list, uint8_t *grades, size_t grade_count, uint64_t *rows) {
    uint64_t told[1] = {0};
    const uint32_t number = duthlan_typed_grade(k, DUTHLAN_LIST_(list), DUTHLAN_OUTPUT_(u8, grades, grade_count), told, 1);
    if (number == 0 && rows) *rows = told[0];
    return number;
}

static inline uint32_t duthlan_grade_recipe(
    uint64_t k, uint32_t station, const uint32_t *numbers, size_t number_count,
    const duthlan_list *list, const duthlan_list *second, const duthlan_values *arguments, size_t columns,
    const duthlan_out *one, const duthlan_out *two, const duthlan_out *out,
    uint8_t *grades, size_t grade_count, duthlan_counts *counts, duthlan_tally *tally) {
    const duthlan_values none = {0, 0, {0, 0, 0}};
    const duthlan_out no_tray = {0, 0, 0, 0, 0, 0, 0, 0};
    uint64_t told[4] = {0, 0, 0, 0};
    uint64_t tallied[32] = {0};
    uint32_t number;
    size_t i;
    if (!second) second = list;
    if (!arguments) arguments = &none;
    if (!one) one = &no_tray;
    if (!two) two = &no_tray;
    for (i = 0; tally && i < 16; i++) {
        tallied[i] = tally->finished[i];
        tallied[16 + i] = tally->refused[i];
    }
    number = duthlan_typed_grade_recipe(
        k, station, DUTHLAN_INPUT_(u32, numbers, number_count), columns,
        DUTHLAN_LIST_(list), DUTHLAN_LIST_(second), DUTHLAN_VALUES_(arguments),
        DUTHLAN_ROWS_(one), DUTHLAN_ELEMENTS_(one), DUTHLAN_ROWS_(two), DUTHLAN_ELEMENTS_(two),
        DUTHLAN_ROWS_(out), DUTHLAN_ELEMENTS_(out), DUTHLAN_OUTPUT_(u8, grades, grade_count), told, 4, tallied, 32);
    for (i = 0; tally && i < 16; i++) {
        tally->finished[i] = tallied[i];
        tally->refused[i] = tallied[16 + i];
    }
    return duthlan_told_(number, told, counts);
}

#undef DUTHLAN_INPUT_
#undef DUTHLAN_OUTPUT_
#undef DUTHLAN_BITS_
#undef DUTHLAN_LIST_
#undef DUTHLAN_VALUES_
#undef DUTHLAN_ROWS_
#undef DUTHLAN_ELEMENTS_

static inline const char *duthlan_refusal(uint32_t number) {
    switch (number) {
    case DUTHLAN_ACCEPTED: return "accepted";
    case DUTHLAN_BAD_OFFSETS: return "offsets that begin below 0, fall, or end past the values";
    case DUTHLAN_SHORT_BITMAP: return "a bitmap too short for its rows, or for all the values lent";
    case DUTHLAN_ROW_COUNTS_DIFFER: return "columns that differ in their number of rows";
    case DUTHLAN_WIDE_INDEX: return "an index or a bound that does not fit 32 signed bits";
    case DUTHLAN_ZERO_STRIDE: return "a stride of 0 where both bounds fall in the row";
    case DUTHLAN_WIDE_STRIDE: return "a stride that does not fit 32 signed bits";
    case DUTHLAN_NEGATIVE_COUNT: return "a negative count";
    case DUTHLAN_TOO_MANY: return "a result of more elements or lists than its offsets may count";
    case DUTHLAN_SHORT_OUTPUT: return "an output or a tray too short for the result";
    case DUTHLAN_MALFORMED_RECIPE: return "a malformed recipe";
    case DUTHLAN_VIEW_OUTSIDE: return "a view that lies outside the values";
    case DUTHLAN_ZERO_RUN: return "a run of at least 0 elements to grade by";
    case DUTHLAN_BAD_STARTING_BIT: return "a starting bit over 7";
    case DUTHLAN_SHORT_AREA: return "a work area of fewer slots than twice the longest row, or pair of rows";
    case DUTHLAN_NO_SUCH_STATION: return "a station over 15";
    case DUTHLAN_ROWS_OUTSIDE: return "rows to be looked at that begin behind their end, or end behind the last row";
    case DUTHLAN_BAD_CALL: return "an unknown code, or too few places for what is told";
    default: return "a number that has no name here";
    }
}

static inline duthlan_list duthlan_written(const duthlan_out *out, const duthlan_counts *counts) {
    const size_t rows = (size_t)counts->rows;
    const size_t elements = (size_t)counts->elements;
    duthlan_list list;
    list.offsets = out->offsets;
    list.offset_count = rows + 1;
    list.rows.bytes = out->rows;
    list.rows.byte_count = DUTHLAN_BITMAP_BYTES(rows);
    list.rows.start = 0;
    list.values = out->values;
    list.value_count = elements;
    list.elements.bytes = out->elements;
    list.elements.byte_count = DUTHLAN_BITMAP_BYTES(elements);
    list.elements.start = 0;
    return list;
}

static inline duthlan_view duthlan_written_view(const duthlan_view_out *out, const duthlan_counts *counts) {
    const size_t rows = (size_t)counts->rows;
    const size_t elements = (size_t)counts->elements;
    duthlan_view view;
    view.offsets = out->offsets;
    view.offset_count = rows;
    view.sizes = out->sizes;
    view.size_count = rows;
    view.rows.bytes = out->rows;
    view.rows.byte_count = DUTHLAN_BITMAP_BYTES(rows);
    view.rows.start = 0;
    view.values = out->values;
    view.value_count = elements;
    view.elements.bytes = out->elements;
    view.elements.byte_count = DUTHLAN_BITMAP_BYTES(elements);
    view.elements.start = 0;
    return view;
}

static inline int duthlan_is_valid(duthlan_bits bits, size_t i) {
    const size_t place = bits.start + i;
    return bits.byte_count == 0 || (bits.bytes[place / 8] >> (place % 8) & 1) != 0;
}

#ifdef __cplusplus
}
#endif

#endif
