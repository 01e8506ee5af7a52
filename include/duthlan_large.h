/* Duthlan, large lists: the thirteen operations of duthlan.h on Arrow LargeList columns, whose offsets are signed 64-bit numbers.
 *
 * The shortest useful call, with target/staticlib/libduthlan_large.a linked:
 *
 *     const int64_t offsets[] = {0, 3, 5, 5};                // three rows
 *     const int64_t values[] = {12, -3, 99, 40, 41};
 *     const uint8_t rows[] = {5};                            // row 1 is null, over 40 and 41
 *     const duthlan_large list = {offsets, 4, {rows, 1, 0}, values, 5, {0, 0, 0}};
 *     int64_t out_offsets[4];
 *     int64_t out_values[5];
 *     uint8_t out_rows[1], out_elements[1];
 *     const duthlan_large_out out = {out_offsets, 4, out_rows, 1, out_values, 5, out_elements, 1};
 *     duthlan_counts counts = {0, 0, 0, 0};
 *     uint32_t number = duthlan_l_reverse(&list, &out, &counts);
 *     if (number != DUTHLAN_ACCEPTED) puts(duthlan_refusal(number));
 *
 * Names: duthlan_large is a column, duthlan_large_out and duthlan_large_repeat_out are room for one, and duthlan_l_NAME is what
 * duthlan_NAME is in duthlan.h, which has all other types, duthlan_refusal and duthlan_is_valid; duthlan_large_list,
 * duthlan_large_element and so on are the entries of the archive. A program may use both headers and link both archives.
 *
 * What differs from duthlan.h:
 * - Offsets have 64 bits, in columns, outputs and trays.
 * - Any 64-bit number is an index, a bound or a stride: DUTHLAN_WIDE_INDEX (4) and DUTHLAN_WIDE_STRIDE (6) are never returned.
 * - DUTHLAN_TOO_MANY (8) is returned for more than 1152921504606846975 elements of resize or repeated values of list-repeat, more
 *   than 1152921504606846974 outer lists of list-repeat, and more than 9223372036854775807 elements of union. A running sum of
 *   resize's counts past 18446744073709551615 gives it too, as there.
 * - The limits of a recipe are at most 9223372036854775807.
 * All else is as there: what a call returns and writes, what it asks of its caller, and that nothing is allocated or kept. */
#ifndef DUTHLAN_LARGE_H
#define DUTHLAN_LARGE_H

#include "duthlan.h"

#ifdef __cplusplus
extern "C" {
#endif

/* ---- Columns and buffers -------------------------------------------------------------------------------------------------- */

/* A large list column: one offset more than its rows (or none, for zero rows), a bit a row, the values, a bit a value. */
typedef struct duthlan_large {
    const int64_t *offsets;
    size_t offset_count;
    duthlan_bits rows;
    const int64_t *values;
    size_t value_count;
    duthlan_bits elements;
} duthlan_large;

/* Room for a large list column, as an output or as a tray: rows + 1 offsets, a bit a row, the elements, a bit an element. A result
 * has the form that duthlan_out says. */
typedef struct duthlan_large_out {
    int64_t *offsets;
    size_t offset_count;
    uint8_t *rows;
    size_t row_bytes;
    int64_t *values;
    size_t value_count;
    uint8_t *elements;
    size_t element_bytes;
} duthlan_large_out;

/* Room for a column of lists of lists: the outer offsets and row bits, the inner ones, the values, a bit a value. */
typedef struct duthlan_large_repeat_out {
    int64_t *offsets;
    size_t offset_count;
    uint8_t *rows;
    size_t row_bytes;
    int64_t *inner_offsets;
    size_t inner_offset_count;
    uint8_t *inner_rows;
    size_t inner_row_bytes;
    int64_t *values;
    size_t value_count;
    uint8_t *elements;
    size_t element_bytes;
} duthlan_large_repeat_out;

/* ---- The operations -------------------------------------------------------------------------------------------------------
 * `counts` may be NULL where the counts are not wanted. Rows are treated one by one; a null list gives a null row. */

/* Turns each row round. */
static inline uint32_t duthlan_l_reverse(const duthlan_large *list, const duthlan_large_out *out, duthlan_counts *counts);

/* Keeps the first occurrence of each element; null equals null. */
static inline uint32_t duthlan_l_distinct(const duthlan_large *list, const duthlan_large_out *out, duthlan_counts *counts);

/* Leaves out the first element of each row. */
static inline uint32_t duthlan_l_pop_front(const duthlan_large *list, const duthlan_large_out *out, duthlan_counts *counts);

/* Leaves out the last element of each row. */
static inline uint32_t duthlan_l_pop_back(const duthlan_large *list, const duthlan_large_out *out, duthlan_counts *counts);

/* Takes the places from `from` to `to`, both included, by `stride`: 1 is the first, -1 the last, and a stride of NULL is 1. */
static inline uint32_t duthlan_l_slice(
    const duthlan_large *list, const duthlan_values *from, const duthlan_values *to, const duthlan_values *stride,
    const duthlan_large_out *out, duthlan_counts *counts);

/* Cuts each row to `count` elements, or fills it up with `fill`; a fill that is null, or NULL, fills with nulls. */
static inline uint32_t duthlan_l_resize(
    const duthlan_large *list, const duthlan_values *count, const duthlan_values *fill,
    const duthlan_large_out *out, duthlan_counts *counts);

/* Puts `to` in place of the first `limit` elements equal to `from`; a null `from` matches nulls. */
static inline uint32_t duthlan_l_replace(
    const duthlan_large *list, const duthlan_values *from, const duthlan_values *to, const duthlan_values *limit,
    const duthlan_large_out *out, duthlan_counts *counts);

/* Leaves out the first `limit` elements equal to `element`; a null `element` gives a null row. */
static inline uint32_t duthlan_l_remove(
    const duthlan_large *list, const duthlan_values *element, const duthlan_values *limit,
    const duthlan_large_out *out, duthlan_counts *counts);

/* Gives the distinct elements of the left row and then the right; a null on either side gives a null row. */
static inline uint32_t duthlan_l_union(
    const duthlan_large *left, const duthlan_large *right, const duthlan_large_out *out, duthlan_counts *counts);

/* Gives each common element once, in the order of the longer row, the left one where they are equally long. */
static inline uint32_t duthlan_l_intersect(
    const duthlan_large *left, const duthlan_large *right, const duthlan_large_out *out, duthlan_counts *counts);

/* Gives the first valid element of each row, or null. */
static inline uint32_t duthlan_l_any_value(
    const duthlan_large *list, const duthlan_value_out *out, duthlan_value_counts *counts);

/* Gives the element of each row at `index`: 1 is the first, -1 the last, and 0 or outside gives null. */
static inline uint32_t duthlan_l_element(
    const duthlan_large *list, const duthlan_values *index, const duthlan_value_out *out, duthlan_value_counts *counts);

/* Repeats each list `times` times in an outer row; a null count gives a null outer row, 0 or less an empty one. */
static inline uint32_t duthlan_l_list_repeat(
    const duthlan_large *list, const duthlan_values *times, const duthlan_large_repeat_out *out, duthlan_repeat_counts *counts);

/* Runs a recipe for a station, 0 to 15, and counts it in the tally as finished or as refused; both trays are zero afterwards.
 * `second` serves union and intersect and has as many rows as `list`; where it is NULL, the list itself is lent again. Row r of
 * argument column k, of n rows, is value k * n + r of `arguments`, which may be NULL where `columns` is 0. Steps 1, 3, 5.. write
 * tray `one`, 2, 4, 6.. tray `two`, and the last the output, so a recipe of one step may have NULL for both. `tally` may be NULL. */
static inline uint32_t duthlan_l_recipe(
    uint32_t station, const uint32_t *numbers, size_t number_count,
    const duthlan_large *list, const duthlan_large *second, const duthlan_values *arguments, size_t columns,
    const duthlan_large_out *one, const duthlan_large_out *two, const duthlan_large_out *out,
    duthlan_counts *counts, duthlan_tally *tally);

/* ---- How much to lend -----------------------------------------------------------------------------------------------------
 * As in duthlan.h: 0 and the lengths, or the refusal that the operation would give before 9, and the lengths are kept. */

/* Tells how much duthlan_l_reverse needs. */
static inline uint32_t duthlan_l_reverse_lengths(const duthlan_large *list, duthlan_lengths *lengths);

/* Tells how much duthlan_l_distinct needs. */
static inline uint32_t duthlan_l_distinct_lengths(const duthlan_large *list, duthlan_lengths *lengths);

/* Tells how much duthlan_l_pop_front needs. */
static inline uint32_t duthlan_l_pop_front_lengths(const duthlan_large *list, duthlan_lengths *lengths);

/* Tells how much duthlan_l_pop_back needs. */
static inline uint32_t duthlan_l_pop_back_lengths(const duthlan_large *list, duthlan_lengths *lengths);

/* Tells how much duthlan_l_slice needs. */
static inline uint32_t duthlan_l_slice_lengths(
    const duthlan_large *list, const duthlan_values *from, const duthlan_values *to, const duthlan_values *stride,
    duthlan_lengths *lengths);

/* Tells how much duthlan_l_resize needs. */
static inline uint32_t duthlan_l_resize_lengths(
    const duthlan_large *list, const duthlan_values *count, const duthlan_values *fill, duthlan_lengths *lengths);

/* Tells how much duthlan_l_replace needs. */
static inline uint32_t duthlan_l_replace_lengths(
    const duthlan_large *list, const duthlan_values *from, const duthlan_values *to, const duthlan_values *limit,
    duthlan_lengths *lengths);

/* Tells how much duthlan_l_remove needs. */
static inline uint32_t duthlan_l_remove_lengths(
    const duthlan_large *list, const duthlan_values *element, const duthlan_values *limit, duthlan_lengths *lengths);

/* Tells how much duthlan_l_union needs. */
static inline uint32_t duthlan_l_union_lengths(const duthlan_large *left, const duthlan_large *right, duthlan_lengths *lengths);

/* Tells how much duthlan_l_intersect needs. */
static inline uint32_t duthlan_l_intersect_lengths(const duthlan_large *left, const duthlan_large *right, duthlan_lengths *lengths);

/* Tells how much duthlan_l_any_value needs. */
static inline uint32_t duthlan_l_any_value_lengths(const duthlan_large *list, duthlan_value_lengths *lengths);

/* Tells how much duthlan_l_element needs. */
static inline uint32_t duthlan_l_element_lengths(
    const duthlan_large *list, const duthlan_values *index, duthlan_value_lengths *lengths);

/* Tells how much duthlan_l_list_repeat needs. */
static inline uint32_t duthlan_l_list_repeat_lengths(
    const duthlan_large *list, const duthlan_values *times, duthlan_repeat_lengths *lengths);

/* Tells how many elements at most a recipe makes in each tray and in the output; it runs nothing and names no station. Refused,
 * as the run would be, by 10, 13, 1, 2 and 3; a run may still be refused for its rows, but never by 9 where each tray that a step
 * writes, and the output, has so many values, an offset more than the list has rows, and bitmaps of DUTHLAN_BITMAP_BYTES of its
 * rows and values. A limit is at most 9223372036854775807. */
static inline uint32_t duthlan_l_recipe_limits(
    const uint32_t *numbers, size_t number_count,
    const duthlan_large *list, const duthlan_large *second, const duthlan_values *arguments, size_t columns,
    duthlan_limits *limits);

/* ---- What came back ------------------------------------------------------------------------------------------------------- */

/* Gives the result that an accepted call wrote as a column, to read or to lend to the next call. */
static inline duthlan_large duthlan_l_written(const duthlan_large_out *out, const duthlan_counts *counts);

/* ---- The entries of the archive -------------------------------------------------------------------------------------------
 * Each buffer is a pointer, which must not be NULL, and its length in numbers; the functions above fill these lists of
 * parameters. Counts, lengths and limits are written in the order of the structs in duthlan.h. */

/* Runs an operation on one list by its code: 0 to 8 as in a recipe's steps, and 11 for resize without fill. */
uint32_t duthlan_large_list(
    uint32_t op,
    const int64_t *offsets, size_t offset_count, const uint8_t *rows, size_t row_bytes, size_t rows_start,
    const int64_t *values, size_t value_count, const uint8_t *elements, size_t element_bytes, size_t elements_start,
    const int64_t *first, size_t first_count, const uint8_t *first_bits, size_t first_bytes, size_t first_start,
    const int64_t *second, size_t second_count, const uint8_t *second_bits, size_t second_bytes, size_t second_start,
    const int64_t *third, size_t third_count, const uint8_t *third_bits, size_t third_bytes, size_t third_start,
    int64_t *out_offsets, size_t out_offset_count, uint8_t *out_rows, size_t out_row_bytes,
    int64_t *out_values, size_t out_value_count, uint8_t *out_elements, size_t out_element_bytes,
    uint64_t *counts, size_t count_places);

/* Runs an operation on two lists by its code: 9 union, 10 intersect. */
uint32_t duthlan_large_lists(
    uint32_t op,
    const int64_t *l_offsets, size_t l_offset_count, const uint8_t *l_rows, size_t l_row_bytes, size_t l_rows_start,
    const int64_t *l_values, size_t l_value_count, const uint8_t *l_elements, size_t l_element_bytes, size_t l_elements_start,
    const int64_t *r_offsets, size_t r_offset_count, const uint8_t *r_rows, size_t r_row_bytes, size_t r_rows_start,
    const int64_t *r_values, size_t r_value_count, const uint8_t *r_elements, size_t r_element_bytes, size_t r_elements_start,
    int64_t *out_offsets, size_t out_offset_count, uint8_t *out_rows, size_t out_row_bytes,
    int64_t *out_values, size_t out_value_count, uint8_t *out_elements, size_t out_element_bytes,
    uint64_t *counts, size_t count_places);

/* Runs any-value. */
uint32_t duthlan_large_any_value(
    const int64_t *offsets, size_t offset_count, const uint8_t *rows, size_t row_bytes, size_t rows_start,
    const int64_t *values, size_t value_count, const uint8_t *elements, size_t element_bytes, size_t elements_start,
    int64_t *out_values, size_t out_value_count, uint8_t *out_rows, size_t out_row_bytes,
    uint64_t *counts, size_t count_places);

/* Runs element. */
uint32_t duthlan_large_element(
    const int64_t *offsets, size_t offset_count, const uint8_t *rows, size_t row_bytes, size_t rows_start,
    const int64_t *values, size_t value_count, const uint8_t *elements, size_t element_bytes, size_t elements_start,
    const int64_t *indexes, size_t index_count, const uint8_t *index_bits, size_t index_bytes, size_t index_start,
    int64_t *out_values, size_t out_value_count, uint8_t *out_rows, size_t out_row_bytes,
    uint64_t *counts, size_t count_places);

/* Runs list-repeat. */
uint32_t duthlan_large_list_repeat(
    const int64_t *offsets, size_t offset_count, const uint8_t *rows, size_t row_bytes, size_t rows_start,
    const int64_t *values, size_t value_count, const uint8_t *elements, size_t element_bytes, size_t elements_start,
    const int64_t *times, size_t times_count, const uint8_t *times_bits, size_t times_bytes, size_t times_start,
    int64_t *out_offsets, size_t out_offset_count, uint8_t *out_rows, size_t out_row_bytes,
    int64_t *inner_offsets, size_t inner_offset_count, uint8_t *inner_rows, size_t inner_row_bytes,
    int64_t *out_values, size_t out_value_count, uint8_t *out_elements, size_t out_element_bytes,
    uint64_t *counts, size_t count_places);

/* Runs a recipe; the tally is 16 finished counts, stations 0 to 15, and then 16 refused ones. */
uint32_t duthlan_large_recipe(
    uint32_t station, const uint32_t *numbers, size_t number_count, size_t columns,
    const int64_t *offsets, size_t offset_count, const uint8_t *rows, size_t row_bytes, size_t rows_start,
    const int64_t *values, size_t value_count, const uint8_t *elements, size_t element_bytes, size_t elements_start,
    const int64_t *second_offsets, size_t second_offset_count,
    const uint8_t *second_rows, size_t second_row_bytes, size_t second_rows_start,
    const int64_t *second_values, size_t second_value_count,
    const uint8_t *second_elements, size_t second_element_bytes, size_t second_elements_start,
    const int64_t *arguments, size_t argument_count,
    const uint8_t *argument_bits, size_t argument_bytes, size_t argument_start,
    int64_t *one_offsets, size_t one_offset_count, uint8_t *one_rows, size_t one_row_bytes,
    int64_t *one_values, size_t one_value_count, uint8_t *one_elements, size_t one_element_bytes,
    int64_t *two_offsets, size_t two_offset_count, uint8_t *two_rows, size_t two_row_bytes,
    int64_t *two_values, size_t two_value_count, uint8_t *two_elements, size_t two_element_bytes,
    int64_t *out_offsets, size_t out_offset_count, uint8_t *out_rows, size_t out_row_bytes,
    int64_t *out_values, size_t out_value_count, uint8_t *out_elements, size_t out_element_bytes,
    uint64_t *counts, size_t count_places, uint64_t *tally, size_t tally_places);

/* Tells the lengths for duthlan_large_list, four: offsets, row bytes, values, element bytes. */
uint32_t duthlan_large_list_lengths(
    uint32_t op,
    const int64_t *offsets, size_t offset_count, const uint8_t *rows, size_t row_bytes, size_t rows_start,
    const int64_t *values, size_t value_count, const uint8_t *elements, size_t element_bytes, size_t elements_start,
    const int64_t *first, size_t first_count, const uint8_t *first_bits, size_t first_bytes, size_t first_start,
    const int64_t *second, size_t second_count, const uint8_t *second_bits, size_t second_bytes, size_t second_start,
    const int64_t *third, size_t third_count, const uint8_t *third_bits, size_t third_bytes, size_t third_start,
    uint64_t *lengths, size_t length_places);

/* Tells the same four lengths for duthlan_large_lists. */
uint32_t duthlan_large_lists_lengths(
    uint32_t op,
    const int64_t *l_offsets, size_t l_offset_count, const uint8_t *l_rows, size_t l_row_bytes, size_t l_rows_start,
    const int64_t *l_values, size_t l_value_count, const uint8_t *l_elements, size_t l_element_bytes, size_t l_elements_start,
    const int64_t *r_offsets, size_t r_offset_count, const uint8_t *r_rows, size_t r_row_bytes, size_t r_rows_start,
    const int64_t *r_values, size_t r_value_count, const uint8_t *r_elements, size_t r_element_bytes, size_t r_elements_start,
    uint64_t *lengths, size_t length_places);

/* Tells the lengths for duthlan_large_any_value, two: values, row bytes. */
uint32_t duthlan_large_any_value_lengths(
    const int64_t *offsets, size_t offset_count, const uint8_t *rows, size_t row_bytes, size_t rows_start,
    const int64_t *values, size_t value_count, const uint8_t *elements, size_t element_bytes, size_t elements_start,
    uint64_t *lengths, size_t length_places);

/* Tells the same two lengths for duthlan_large_element. */
uint32_t duthlan_large_element_lengths(
    const int64_t *offsets, size_t offset_count, const uint8_t *rows, size_t row_bytes, size_t rows_start,
    const int64_t *values, size_t value_count, const uint8_t *elements, size_t element_bytes, size_t elements_start,
    const int64_t *indexes, size_t index_count, const uint8_t *index_bits, size_t index_bytes, size_t index_start,
    uint64_t *lengths, size_t length_places);

/* Tells the lengths for duthlan_large_list_repeat, six: offsets, row bytes, the inner two, values, element bytes. */
uint32_t duthlan_large_list_repeat_lengths(
    const int64_t *offsets, size_t offset_count, const uint8_t *rows, size_t row_bytes, size_t rows_start,
    const int64_t *values, size_t value_count, const uint8_t *elements, size_t element_bytes, size_t elements_start,
    const int64_t *times, size_t times_count, const uint8_t *times_bits, size_t times_bytes, size_t times_start,
    uint64_t *lengths, size_t length_places);

/* Tells the limits for duthlan_large_recipe, three: the elements in tray one, tray two and the output. */
uint32_t duthlan_large_recipe_limits(
    const uint32_t *numbers, size_t number_count, size_t columns,
    const int64_t *offsets, size_t offset_count, const uint8_t *rows, size_t row_bytes, size_t rows_start,
    const int64_t *values, size_t value_count, const uint8_t *elements, size_t element_bytes, size_t elements_start,
    const int64_t *second_offsets, size_t second_offset_count,
    const uint8_t *second_rows, size_t second_row_bytes, size_t second_rows_start,
    const int64_t *second_values, size_t second_value_count,
    const uint8_t *second_elements, size_t second_element_bytes, size_t second_elements_start,
    const int64_t *arguments, size_t argument_count,
    const uint8_t *argument_bits, size_t argument_bytes, size_t argument_start,
    uint64_t *limits, size_t limit_places);

/* ---- How the functions above call the entries ----------------------------------------------------------------------------- */

/* What a struct becomes in a list of arguments. */
#define DUTHLAN_INPUT_(type, p, n) duthlan_in_##type(p, n), n
#define DUTHLAN_OUTPUT_(type, p, n) duthlan_out_##type(p, n), n
#define DUTHLAN_BITS_(b) DUTHLAN_INPUT_(u8, (b).bytes, (b).byte_count), (b).start
#define DUTHLAN_LIST_(l)                                                                        \
    DUTHLAN_INPUT_(i64, (l)->offsets, (l)->offset_count), DUTHLAN_BITS_((l)->rows),             \
        DUTHLAN_INPUT_(i64, (l)->values, (l)->value_count), DUTHLAN_BITS_((l)->elements)
#define DUTHLAN_VALUES_(a) DUTHLAN_INPUT_(i64, (a)->values, (a)->value_count), DUTHLAN_BITS_((a)->valid)
#define DUTHLAN_ROWS_(o)                                                                        \
    DUTHLAN_OUTPUT_(i64, (o)->offsets, (o)->offset_count), DUTHLAN_OUTPUT_(u8, (o)->rows, (o)->row_bytes)
#define DUTHLAN_ELEMENTS_(o)                                                                    \
    DUTHLAN_OUTPUT_(i64, (o)->values, (o)->value_count), DUTHLAN_OUTPUT_(u8, (o)->elements, (o)->element_bytes)

static inline uint32_t duthlan_l_one_list_(
    uint32_t op, const duthlan_large *list,
    const duthlan_values *first, const duthlan_values *second, const duthlan_values *third,
    const duthlan_large_out *out, duthlan_counts *counts) {
    const duthlan_values none = {0, 0, {0, 0, 0}};
    uint64_t told[4] = {0, 0, 0, 0};
    if (!first) first = &none;
    if (!second) second = &none;
    if (!third) third = &none;
    return duthlan_told_(
        duthlan_large_list(
            op, DUTHLAN_LIST_(list), DUTHLAN_VALUES_(first), DUTHLAN_VALUES_(second), DUTHLAN_VALUES_(third),
            DUTHLAN_ROWS_(out), DUTHLAN_ELEMENTS_(out), told, 4),
        told, counts);
}

static inline uint32_t duthlan_l_two_lists_(
    uint32_t op, const duthlan_large *left, const duthlan_large *right, const duthlan_large_out *out, duthlan_counts *counts) {
    uint64_t told[4] = {0, 0, 0, 0};
    return duthlan_told_(
        duthlan_large_lists(
            op, DUTHLAN_LIST_(left), DUTHLAN_LIST_(right), DUTHLAN_ROWS_(out), DUTHLAN_ELEMENTS_(out), told, 4),
        told, counts);
}

static inline uint32_t duthlan_l_reverse(const duthlan_large *list, const duthlan_large_out *out, duthlan_counts *counts) {
    return duthlan_l_one_list_(0, list, 0, 0, 0, out, counts);
}

static inline uint32_t duthlan_l_distinct(const duthlan_large *list, const duthlan_large_out *out, duthlan_counts *counts) {
    return duthlan_l_one_list_(1, list, 0, 0, 0, out, counts);
}

static inline uint32_t duthlan_l_pop_front(const duthlan_large *list, const duthlan_large_out *out, duthlan_counts *counts) {
    return duthlan_l_one_list_(2, list, 0, 0, 0, out, counts);
}

static inline uint32_t duthlan_l_pop_back(const duthlan_large *list, const duthlan_large_out *out, duthlan_counts *counts) {
    return duthlan_l_one_list_(3, list, 0, 0, 0, out, counts);
}

static inline uint32_t duthlan_l_slice(
    const duthlan_large *list, const duthlan_values *from, const duthlan_values *to, const duthlan_values *stride,
    const duthlan_large_out *out, duthlan_counts *counts) {
    return duthlan_l_one_list_(stride ? 4 : 5, list, from, to, stride, out, counts);
}

static inline uint32_t duthlan_l_resize(
    const duthlan_large *list, const duthlan_values *count, const duthlan_values *fill,
    const duthlan_large_out *out, duthlan_counts *counts) {
    return duthlan_l_one_list_(fill ? 6 : 11, list, count, fill, 0, out, counts);
}

static inline uint32_t duthlan_l_replace(
    const duthlan_large *list, const duthlan_values *from, const duthlan_values *to, const duthlan_values *limit,
    const duthlan_large_out *out, duthlan_counts *counts) {
    return duthlan_l_one_list_(7, list, from, to, limit, out, counts);
}

static inline uint32_t duthlan_l_remove(
    const duthlan_large *list, const duthlan_values *element, const duthlan_values *limit,
    const duthlan_large_out *out, duthlan_counts *counts) {
    return duthlan_l_one_list_(8, list, element, limit, 0, out, counts);
}

static inline uint32_t duthlan_l_union(
    const duthlan_large *left, const duthlan_large *right, const duthlan_large_out *out, duthlan_counts *counts) {
    return duthlan_l_two_lists_(9, left, right, out, counts);
}

static inline uint32_t duthlan_l_intersect(
    const duthlan_large *left, const duthlan_large *right, const duthlan_large_out *out, duthlan_counts *counts) {
    return duthlan_l_two_lists_(10, left, right, out, counts);
}

static inline uint32_t duthlan_l_any_value(
    const duthlan_large *list, const duthlan_value_out *out, duthlan_value_counts *counts) {
    uint64_t told[2] = {0, 0};
    return duthlan_told_values_(
        duthlan_large_any_value(
            DUTHLAN_LIST_(list),
            DUTHLAN_OUTPUT_(i64, out->values, out->value_count), DUTHLAN_OUTPUT_(u8, out->rows, out->row_bytes), told, 2),
        told, counts);
}

static inline uint32_t duthlan_l_element(
    const duthlan_large *list, const duthlan_values *index, const duthlan_value_out *out, duthlan_value_counts *counts) {
    uint64_t told[2] = {0, 0};
    return duthlan_told_values_(
        duthlan_large_element(
            DUTHLAN_LIST_(list), DUTHLAN_VALUES_(index),
            DUTHLAN_OUTPUT_(i64, out->values, out->value_count), DUTHLAN_OUTPUT_(u8, out->rows, out->row_bytes), told, 2),
        told, counts);
}

static inline uint32_t duthlan_l_list_repeat(
    const duthlan_large *list, const duthlan_values *times, const duthlan_large_repeat_out *out, duthlan_repeat_counts *counts) {
    uint64_t told[6] = {0, 0, 0, 0, 0, 0};
    uint32_t number = duthlan_large_list_repeat(
        DUTHLAN_LIST_(list), DUTHLAN_VALUES_(times), DUTHLAN_ROWS_(out),
        DUTHLAN_OUTPUT_(i64, out->inner_offsets, out->inner_offset_count),
        DUTHLAN_OUTPUT_(u8, out->inner_rows, out->inner_row_bytes), DUTHLAN_ELEMENTS_(out), told, 6);
    if (number == 0 && counts) {
        counts->rows = told[0];
        counts->elements = told[1];
        counts->null_rows = told[2];
        counts->null_elements = told[3];
        counts->inner_rows = told[4];
        counts->null_inner_rows = told[5];
    }
    return number;
}

static inline uint32_t duthlan_l_recipe(
    uint32_t station, const uint32_t *numbers, size_t number_count,
    const duthlan_large *list, const duthlan_large *second, const duthlan_values *arguments, size_t columns,
    const duthlan_large_out *one, const duthlan_large_out *two, const duthlan_large_out *out,
    duthlan_counts *counts, duthlan_tally *tally) {
    const duthlan_values none = {0, 0, {0, 0, 0}};
    const duthlan_large_out no_tray = {0, 0, 0, 0, 0, 0, 0, 0};
    uint64_t told[4] = {0, 0, 0, 0};
    uint64_t tallied[32] = {0};
    uint32_t number;
    size_t i;
    if (!second) second = list;
    if (!arguments) arguments = &none;
    if (!one) one = &no_tray;
    if (!two) two = &no_tray;
    for (i = 0; tally && i < 16; i++) {
        tallied[i] = tally->finished[i];
        tallied[16 + i] = tally->refused[i];
    }
    number = duthlan_large_recipe(
        station, DUTHLAN_INPUT_(u32, numbers, number_count), columns,
        DUTHLAN_LIST_(list), DUTHLAN_LIST_(second), DUTHLAN_VALUES_(arguments),
        DUTHLAN_ROWS_(one), DUTHLAN_ELEMENTS_(one), DUTHLAN_ROWS_(two), DUTHLAN_ELEMENTS_(two),
        DUTHLAN_ROWS_(out), DUTHLAN_ELEMENTS_(out), told, 4, tallied, 32);
    for (i = 0; tally && i < 16; i++) {
        tally->finished[i] = tallied[i];
        tally->refused[i] = tallied[16 + i];
    }
    return duthlan_told_(number, told, counts);
}

static inline uint32_t duthlan_l_one_list_lengths_(
    uint32_t op, const duthlan_large *list,
    const duthlan_values *first, const duthlan_values *second, const duthlan_values *third, duthlan_lengths *lengths) {
    const duthlan_values none = {0, 0, {0, 0, 0}};
    uint64_t told[4] = {0, 0, 0, 0};
    if (!first) first = &none;
    if (!second) second = &none;
    if (!third) third = &none;
    return duthlan_told_lengths_(
        duthlan_large_list_lengths(
            op, DUTHLAN_LIST_(list), DUTHLAN_VALUES_(first), DUTHLAN_VALUES_(second), DUTHLAN_VALUES_(third), told, 4),
        told, lengths);
}

static inline uint32_t duthlan_l_two_lists_lengths_(
    uint32_t op, const duthlan_large *left, const duthlan_large *right, duthlan_lengths *lengths) {
    uint64_t told[4] = {0, 0, 0, 0};
    return duthlan_told_lengths_(
        duthlan_large_lists_lengths(op, DUTHLAN_LIST_(left), DUTHLAN_LIST_(right), told, 4), told, lengths);
}

static inline uint32_t duthlan_l_reverse_lengths(const duthlan_large *list, duthlan_lengths *lengths) {
    return duthlan_l_one_list_lengths_(0, list, 0, 0, 0, lengths);
}

static inline uint32_t duthlan_l_distinct_lengths(const duthlan_large *list, duthlan_lengths *lengths) {
    return duthlan_l_one_list_lengths_(1, list, 0, 0, 0, lengths);
}

static inline uint32_t duthlan_l_pop_front_lengths(const duthlan_large *list, duthlan_lengths *lengths) {
    return duthlan_l_one_list_lengths_(2, list, 0, 0, 0, lengths);
}

static inline uint32_t duthlan_l_pop_back_lengths(const duthlan_large *list, duthlan_lengths *lengths) {
    return duthlan_l_one_list_lengths_(3, list, 0, 0, 0, lengths);
}

static inline uint32_t duthlan_l_slice_lengths(
    const duthlan_large *list, const duthlan_values *from, const duthlan_values *to, const duthlan_values *stride,
    duthlan_lengths *lengths) {
    return duthlan_l_one_list_lengths_(stride ? 4 : 5, list, from, to, stride, lengths);
}

static inline uint32_t duthlan_l_resize_lengths(
    const duthlan_large *list, const duthlan_values *count, const duthlan_values *fill, duthlan_lengths *lengths) {
    return duthlan_l_one_list_lengths_(fill ? 6 : 11, list, count, fill, 0, lengths);
}

static inline uint32_t duthlan_l_replace_lengths(
    const duthlan_large *list, const duthlan_values *from, const duthlan_values *to, const duthlan_values *limit,
    duthlan_lengths *lengths) {
    return duthlan_l_one_list_lengths_(7, list, from, to, limit, lengths);
}

static inline uint32_t duthlan_l_remove_lengths(
    const duthlan_large *list, const duthlan_values *element, const duthlan_values *limit, duthlan_lengths *lengths) {
    return duthlan_l_one_list_lengths_(8, list, element, limit, 0, lengths);
}

static inline uint32_t duthlan_l_union_lengths(const duthlan_large *left, const duthlan_large *right, duthlan_lengths *lengths) {
    return duthlan_l_two_lists_lengths_(9, left, right, lengths);
}

static inline uint32_t duthlan_l_intersect_lengths(const duthlan_large *left, const duthlan_large *right, duthlan_lengths *lengths) {
    return duthlan_l_two_lists_lengths_(10, left, right, lengths);
}

static inline uint32_t duthlan_l_any_value_lengths(const duthlan_large *list, duthlan_value_lengths *lengths) {
    uint64_t told[2] = {0, 0};
    return duthlan_told_value_lengths_(duthlan_large_any_value_lengths(DUTHLAN_LIST_(list), told, 2), told, lengths);
}

static inline uint32_t duthlan_l_element_lengths(
    const duthlan_large *list, const duthlan_values *index, duthlan_value_lengths *lengths) {
    uint64_t told[2] = {0, 0};
    return duthlan_told_value_lengths_(
        duthlan_large_element_lengths(DUTHLAN_LIST_(list), DUTHLAN_VALUES_(index), told, 2), told, lengths);
}

static inline uint32_t duthlan_l_list_repeat_lengths(
    const duthlan_large *list, const duthlan_values *times, duthlan_repeat_lengths *lengths) {
    uint64_t told[6] = {0, 0, 0, 0, 0, 0};
    uint32_t number = duthlan_large_list_repeat_lengths(DUTHLAN_LIST_(list), DUTHLAN_VALUES_(times), told, 6);
    if (number == 0 && lengths) {
        lengths->offsets = told[0];
        lengths->row_bytes = told[1];
        lengths->inner_offsets = told[2];
        lengths->inner_row_bytes = told[3];
        lengths->values = told[4];
        lengths->element_bytes = told[5];
    }
    return number;
}

static inline uint32_t duthlan_l_recipe_limits(
    const uint32_t *numbers, size_t number_count,
    const duthlan_large *list, const duthlan_large *second, const duthlan_values *arguments, size_t columns,
    duthlan_limits *limits) {
    const duthlan_values none = {0, 0, {0, 0, 0}};
    uint64_t told[3] = {0, 0, 0};
    uint32_t number;
    if (!second) second = list;
    if (!arguments) arguments = &none;
    number = duthlan_large_recipe_limits(
        DUTHLAN_INPUT_(u32, numbers, number_count), columns,
        DUTHLAN_LIST_(list), DUTHLAN_LIST_(second), DUTHLAN_VALUES_(arguments), told, 3);
    if (number == 0 && limits) {
        limits->one = told[0];
        limits->two = told[1];
        limits->output = told[2];
    }
    return number;
}

#undef DUTHLAN_INPUT_
#undef DUTHLAN_OUTPUT_
#undef DUTHLAN_BITS_
#undef DUTHLAN_LIST_
#undef DUTHLAN_VALUES_
#undef DUTHLAN_ROWS_
#undef DUTHLAN_ELEMENTS_

static inline duthlan_large duthlan_l_written(const duthlan_large_out *out, const duthlan_counts *counts) {
    const size_t rows = (size_t)counts->rows;
    const size_t elements = (size_t)counts->elements;
    duthlan_large list;
    list.offsets = out->offsets;
    list.offset_count = rows + 1;
    list.rows.bytes = out->rows;
    list.rows.byte_count = DUTHLAN_BITMAP_BYTES(rows);
    list.rows.start = 0;
    list.values = out->values;
    list.value_count = elements;
    list.elements.bytes = out->elements;
    list.elements.byte_count = DUTHLAN_BITMAP_BYTES(elements);
    list.elements.start = 0;
    return list;
}

#ifdef __cplusplus
}
#endif

#endif
