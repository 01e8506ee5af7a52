/* Calls every function of duthlan.h, or with CALLS_LARGE defined of duthlan_large.h, and compares what comes back. It is compiled
 * as C and as C++; the last line is 'N passed, M failed', and the status is 0 only where none failed. */
#ifdef CALLS_LARGE
#include "duthlan_large.h"
#include "duthlan_large.h" /* a second time, which must change nothing */
#else
#include "duthlan.h"
#include "duthlan.h"
#endif

#include <inttypes.h>
#include <stdio.h>
#include <string.h>

/* ---- What the two headers do not share ------------------------------------------------------------------------------------ */

#ifdef CALLS_LARGE
/* The calls below name what duthlan.h names. */
#define duthlan_list duthlan_large
#define duthlan_out duthlan_large_out
#define duthlan_repeat_out duthlan_large_repeat_out
#define duthlan_reverse duthlan_l_reverse
#define duthlan_distinct duthlan_l_distinct
#define duthlan_pop_front duthlan_l_pop_front
#define duthlan_pop_back duthlan_l_pop_back
#define duthlan_slice duthlan_l_slice
#define duthlan_resize duthlan_l_resize
#define duthlan_replace duthlan_l_replace
#define duthlan_remove duthlan_l_remove
#define duthlan_union duthlan_l_union
#define duthlan_intersect duthlan_l_intersect
#define duthlan_any_value duthlan_l_any_value
#define duthlan_element duthlan_l_element
#define duthlan_list_repeat duthlan_l_list_repeat
#define duthlan_recipe duthlan_l_recipe
#define duthlan_reverse_lengths duthlan_l_reverse_lengths
#define duthlan_distinct_lengths duthlan_l_distinct_lengths
#define duthlan_pop_front_lengths duthlan_l_pop_front_lengths
#define duthlan_pop_back_lengths duthlan_l_pop_back_lengths
#define duthlan_slice_lengths duthlan_l_slice_lengths
#define duthlan_resize_lengths duthlan_l_resize_lengths
#define duthlan_replace_lengths duthlan_l_replace_lengths
#define duthlan_remove_lengths duthlan_l_remove_lengths
#define duthlan_union_lengths duthlan_l_union_lengths
#define duthlan_intersect_lengths duthlan_l_intersect_lengths
#define duthlan_any_value_lengths duthlan_l_any_value_lengths
#define duthlan_element_lengths duthlan_l_element_lengths
#define duthlan_list_repeat_lengths duthlan_l_list_repeat_lengths
#define duthlan_recipe_limits duthlan_l_recipe_limits
#define duthlan_written duthlan_l_written
#define duthlan_typed_list duthlan_large_list
#define duthlan_typed_lists duthlan_large_lists
#define duthlan_typed_any_value duthlan_large_any_value
#define duthlan_typed_element duthlan_large_element
#define duthlan_typed_list_repeat duthlan_large_list_repeat
#define duthlan_typed_recipe duthlan_large_recipe
#define duthlan_typed_list_lengths duthlan_large_list_lengths
#define duthlan_typed_lists_lengths duthlan_large_lists_lengths
#define duthlan_typed_any_value_lengths duthlan_large_any_value_lengths
#define duthlan_typed_element_lengths duthlan_large_element_lengths
#define duthlan_typed_list_repeat_lengths duthlan_large_list_repeat_lengths
#define duthlan_typed_recipe_limits duthlan_large_recipe_limits

typedef int64_t offset_number;
static const int64_t far_number = INT64_MAX, most_elements = 1152921504606846975, largest_limit = INT64_MAX;
static const offset_number kept_offset = 0x5555555555555555;
#else
typedef int32_t offset_number;
static const int64_t far_number = 2147483648, most_elements = 2147483647, largest_limit = 2147483647;
static const offset_number kept_offset = 0x55555555;
#endif

/* What a far index or bound, and a far stride, are answered. */
#ifdef CALLS_LARGE
static const uint32_t far_index = DUTHLAN_ACCEPTED, far_stride = DUTHLAN_ACCEPTED;
#else
static const uint32_t far_index = DUTHLAN_WIDE_INDEX, far_stride = DUTHLAN_WIDE_STRIDE;
#endif

static int passed, failed;

static void check(const char *what, int is_right) {
    if (is_right) passed++;
    else {
        failed++;
        printf("failed: %s\n", what);
    }
}

/* ---- Results as text ------------------------------------------------------------------------------------------------------ */

static char shown[1000];

static void show(const char *text) { strncat(shown, text, sizeof shown - strlen(shown) - 1); }

static void show_value(const int64_t *values, duthlan_bits valid, size_t i) {
    char number[32];
    snprintf(number, sizeof number, "%" PRId64, values[i]);
    show(duthlan_is_valid(valid, i) ? number : "null");
}

static void show_row(duthlan_list list, size_t row) {
    size_t i;
    if (!duthlan_is_valid(list.rows, row)) {
        show("null");
        return;
    }
    show("[");
    for (i = (size_t)list.offsets[row]; i < (size_t)list.offsets[row + 1]; i++) {
        if (i > (size_t)list.offsets[row]) show(",");
        show_value(list.values, list.elements, i);
    }
    show("]");
}

static const char *show_list(duthlan_list list) {
    size_t row;
    shown[0] = 0;
    for (row = 0; row + 1 < list.offset_count; row++) {
        if (row > 0) show(" ");
        show_row(list, row);
    }
    return shown;
}

/* ---- Room for results ----------------------------------------------------------------------------------------------------- */

enum { ROOM = 24 };

static offset_number offsets[ROOM], inner_offsets[ROOM];
static uint8_t rows[ROOM], inner_rows[ROOM], elements[ROOM];
static int64_t values[ROOM];
static const duthlan_out out = {offsets, ROOM, rows, ROOM, values, ROOM, elements, ROOM};
static const duthlan_value_out value_out = {values, ROOM, rows, ROOM};
static const duthlan_repeat_out repeat_out = {offsets, ROOM, rows, ROOM, inner_offsets, ROOM, inner_rows, ROOM,
                                              values, ROOM, elements, ROOM};
static duthlan_counts counts;
static duthlan_value_counts value_counts;

/* Whether an accepted call made these rows. */
static int made(uint32_t number, const char *expected) {
    return number == DUTHLAN_ACCEPTED && strcmp(show_list(duthlan_written(&out, &counts)), expected) == 0;
}

/* Whether an accepted call made these values. */
static int made_values(uint32_t number, const char *expected) {
    const duthlan_bits valid = {rows, ROOM, 0};
    size_t i;
    shown[0] = 0;
    for (i = 0; i < value_counts.rows; i++) {
        if (i > 0) show(" ");
        show_value(values, valid, i);
    }
    return number == DUTHLAN_ACCEPTED && strcmp(shown, expected) == 0;
}

/* ---- The column [12, -3, null], a null row over 40 and 41, [], [7, 7, 9] --------------------------------------------------- */

static const offset_number in_offsets[] = {0, 3, 5, 5, 8};
static const int64_t in_values[] = {12, -3, 99, 40, 41, 7, 7, 9};
static const uint8_t row_bits[] = {0x0d}, element_bits[] = {0xfb};
static const duthlan_list list = {in_offsets, 5, {row_bits, 1, 0}, in_values, 8, {element_bits, 1, 0}};

/* The same with bitmaps from the middle of a byte, all other bits 1. */
static const uint8_t row_bits_2[] = {0xf7}, element_bits_3[] = {0xdf, 0xff};
static const duthlan_list shifted = {in_offsets, 5, {row_bits_2, 1, 2}, in_values, 8, {element_bits_3, 2, 3}};

/* Another: [9, 12] [1] [3] [7] */
static const offset_number other_offsets[] = {0, 2, 3, 4, 5};
static const int64_t other_values[] = {9, 12, 1, 3, 7};
static const duthlan_list other = {other_offsets, 5, {0, 0, 0}, other_values, 5, {0, 0, 0}};

/* Argument columns of four values, plain, or with the second one null by a bitmap that starts at another bit. */
static const uint8_t bits_1[] = {0xfb}, bits_4[] = {0xdf}, bits_6[] = {0x7f, 0xff};
static const int64_t ones[] = {1, 1, 1, 1}, twos[] = {2, 2, 2, 2}, lasts[] = {-1, -1, -1, -1}, sevens[] = {7, 7, 7, 7};
static const duthlan_values plain_one = {ones, 4, {0, 0, 0}};
static const duthlan_values plain_last = {lasts, 4, {0, 0, 0}};
static const duthlan_values plain_seven = {sevens, 4, {0, 0, 0}};
static const duthlan_values null_one = {ones, 4, {bits_1, 1, 1}};
static const duthlan_values null_two = {twos, 4, {bits_4, 1, 4}};
static const duthlan_values null_last = {lasts, 4, {bits_6, 2, 6}};

/* Columns of four rows that are refused: by 1, by 2 and by 13. */
static const offset_number falling[] = {0, 2, 1, 1, 1};
static const uint8_t one_byte[] = {255};
static const duthlan_list bad_offsets = {falling, 5, {0, 0, 0}, in_values, 8, {0, 0, 0}};
static const duthlan_list short_bitmap = {in_offsets, 5, {one_byte, 1, 5}, in_values, 8, {0, 0, 0}};
static const duthlan_list bad_start = {in_offsets, 5, {0, 0, 8}, in_values, 8, {0, 0, 0}};

/* Argument columns of four values that some operations refuse. */
static const int64_t zeros[] = {0, 0, 0, 0};
static int64_t wide[] = {0, 1, 1, 1}, many[] = {0, 1, 1, 1};
static const duthlan_values plain_zero = {zeros, 4, {0, 0, 0}}, wides = {wide, 4, {0, 0, 0}}, manys = {many, 4, {0, 0, 0}};

static void operations(void) {
    static const int64_t five[] = {5, 5, 5, 5};
    static const int64_t three[] = {3, 3, 3, 3};
    const duthlan_values fives = {five, 4, {0, 0, 0}}, threes = {three, 4, {0, 0, 0}};
    const duthlan_values one_limit = {ones, 1, {0, 0, 0}};
    const duthlan_values strides = {lasts, 4, {bits_1, 1, 1}};
    duthlan_repeat_counts repeat_counts = {0, 0, 0, 0, 0, 0};
    check("reverse", made(duthlan_reverse(&list, &out, &counts), "[null,-3,12] null [] [9,7,7]"));
    check("counts", counts.rows == 4 && counts.elements == 6 && counts.null_rows == 1 && counts.null_elements == 1);
    check("a null element's number", values[0] == INT64_MIN);
    check("reverse, shifted", made(duthlan_reverse(&shifted, &out, &counts), "[null,-3,12] null [] [9,7,7]"));
    check("distinct", made(duthlan_distinct(&shifted, &out, &counts), "[12,-3,null] null [] [7,9]"));
    check("pop front", made(duthlan_pop_front(&shifted, &out, &counts), "[-3,null] null [] [7,9]"));
    check("pop back", made(duthlan_pop_back(&shifted, &out, &counts), "[12,-3] null [] [7,7]"));
    check("slice", made(duthlan_slice(&shifted, &null_last, &null_two, &strides, &out, &counts), "[null,-3] null [] [9,7]"));
    check("slice without stride", made(duthlan_slice(&shifted, &null_two, &null_last, 0, &out, &counts), "[-3,null] null [] [7,9]"));
    check("resize", made(duthlan_resize(&shifted, &plain_one, &null_two, &out, &counts), "[12] null [2] [7]"));
    check("resize without fill", made(duthlan_resize(&shifted, &threes, 0, &out, &counts), "[12,-3,null] null [null,null,null] [7,7,9]"));
    check("its counts", counts.rows == 4 && counts.elements == 9 && counts.null_rows == 1 && counts.null_elements == 4);
    check("replace", made(duthlan_replace(&shifted, &plain_seven, &fives, &null_one, &out, &counts), "[12,-3,null] null [] [5,7,9]"));
    check("remove", made(duthlan_remove(&shifted, &plain_seven, &one_limit, &out, &counts), "[12,-3,null] null [] [7,9]"));
    check("union", made(duthlan_union(&shifted, &other, &out, &counts), "[12,-3,null,9] null [3] [7,9]"));
    check("union, the other way", made(duthlan_union(&other, &shifted, &out, &counts), "[9,12,-3,null] null [3] [7,9]"));
    check("union with itself", made(duthlan_union(&list, &list, &out, &counts), "[12,-3,null] null [] [7,9]"));
    check("intersect", made(duthlan_intersect(&shifted, &other, &out, &counts), "[12] null [] [7]"));
    check("any value", made_values(duthlan_any_value(&shifted, &value_out, &value_counts), "12 null null 7"));
    check("its counts", value_counts.rows == 4 && value_counts.null_rows == 2);
    check("element", made_values(duthlan_element(&shifted, &null_last, &value_out, &value_counts), "null null null 9"));
    check("list repeat", duthlan_list_repeat(&shifted, &plain_one, &repeat_out, &repeat_counts) == DUTHLAN_ACCEPTED);
    check("its counts", repeat_counts.rows == 4 && repeat_counts.elements == 6 && repeat_counts.null_rows == 0 &&
                            repeat_counts.null_elements == 1 && repeat_counts.inner_rows == 4 && repeat_counts.null_inner_rows == 1);
    check("its offsets", offsets[4] == 4 && inner_offsets[1] == 3 && inner_offsets[4] == 6 && rows[0] == 15 && inner_rows[0] == 13);
    check("list repeat, a null count", duthlan_list_repeat(&list, &null_two, &repeat_out, &repeat_counts) == DUTHLAN_ACCEPTED &&
                                           repeat_counts.null_rows == 1 && repeat_counts.inner_rows == 6 && repeat_counts.elements == 12);
}

/* Far numbers, which give 4 and 6 where offsets have 32 bits. */
static void far_numbers(void) {
    check("a far bound", duthlan_slice(&list, &wides, &plain_one, 0, &out, &counts) == far_index &&
                             (far_index != DUTHLAN_ACCEPTED || made(far_index, "[] null [] [7]")));
    check("a far stride", duthlan_slice(&list, &plain_one, &plain_last, &wides, &out, &counts) == far_stride &&
                              (far_stride != DUTHLAN_ACCEPTED || made(far_stride, "[12] null [] [7,7,9]")));
    check("a far index", duthlan_element(&list, &wides, &value_out, &value_counts) == far_index &&
                             (far_index != DUTHLAN_ACCEPTED || made_values(far_index, "null null null 7")));
}

/* Each other refusal, and that outputs and counts keep their content. */
static void refusals(void) {
    const duthlan_values pair = {ones, 2, {0, 0, 0}};
    const duthlan_out one_short = {offsets, ROOM, rows, ROOM, values, 5, elements, ROOM};
    memset(offsets, 85, sizeof offsets);
    memset(rows, 85, sizeof rows);
    memset(values, 85, sizeof values);
    memset(elements, 85, sizeof elements);
    memset(&counts, 85, sizeof counts);
    check("1", duthlan_reverse(&bad_offsets, &out, &counts) == DUTHLAN_BAD_OFFSETS);
    check("2", duthlan_reverse(&short_bitmap, &out, &counts) == DUTHLAN_SHORT_BITMAP);
    check("3", duthlan_remove(&list, &pair, &plain_one, &out, &counts) == DUTHLAN_ROW_COUNTS_DIFFER);
    check("5", duthlan_slice(&list, &plain_one, &plain_one, &plain_zero, &out, &counts) == DUTHLAN_ZERO_STRIDE);
    check("7", duthlan_resize(&list, &plain_last, 0, &out, &counts) == DUTHLAN_NEGATIVE_COUNT);
    check("8", duthlan_resize(&list, &manys, 0, &out, &counts) == DUTHLAN_TOO_MANY);
    check("9", duthlan_reverse(&list, &one_short, &counts) == DUTHLAN_SHORT_OUTPUT);
    check("13", duthlan_reverse(&bad_start, &out, &counts) == DUTHLAN_BAD_STARTING_BIT);
    check("kept counts", counts.rows == 0x5555555555555555 && counts.null_elements == counts.rows);
    check("kept outputs", offsets[0] == kept_offset && rows[0] == 85 && values[0] == 0x5555555555555555 && elements[0] == 85);
    check("past the result", made(duthlan_reverse(&list, &out, &counts), "[null,-3,12] null [] [9,7,7]") && offsets[5] == kept_offset &&
                                 rows[1] == 85 && values[6] == 0x5555555555555555 && elements[1] == 85);
}

/* Room that is just enough, and each buffer one too short in turn. */
static void lengths(void) {
    int less;
    for (less = -1; less < 4; less++) {
        const duthlan_out tight = {offsets, less == 0 ? 4u : 5u, rows, less == 1 ? 0u : 1u,
                                   values, less == 2 ? 5u : 6u, elements, less == 3 ? 0u : 1u};
        const uint32_t expected = less < 0 ? DUTHLAN_ACCEPTED : DUTHLAN_SHORT_OUTPUT;
        check("room for lists", duthlan_reverse(&list, &tight, 0) == expected);
        check("room for lists of two", duthlan_union(&list, &list, &tight, 0) == (less == 2 ? 0u : expected)); /* it has five elements */
        check("room for a recipe", duthlan_recipe(0, 0, 0, &list, 0, 0, 0, 0, 0, &tight, 0, 0) == expected);
    }
    for (less = -1; less < 2; less++) {
        const duthlan_value_out tight = {values, less == 0 ? 3u : 4u, rows, less == 1 ? 0u : 1u};
        const uint32_t expected = less < 0 ? DUTHLAN_ACCEPTED : DUTHLAN_SHORT_OUTPUT;
        check("room for values", duthlan_any_value(&list, &tight, 0) == expected);
        check("room for values", duthlan_element(&list, &plain_one, &tight, 0) == expected);
    }
    for (less = -1; less < 6; less++) {
        const duthlan_repeat_out tight = {offsets, less == 0 ? 4u : 5u, rows, less == 1 ? 0u : 1u,
                                          inner_offsets, less == 2 ? 4u : 5u, inner_rows, less == 3 ? 0u : 1u,
                                          values, less == 4 ? 5u : 6u, elements, less == 5 ? 0u : 1u};
        const uint32_t expected = less < 0 ? DUTHLAN_ACCEPTED : DUTHLAN_SHORT_OUTPUT;
        check("room for lists of lists", duthlan_list_repeat(&list, &plain_one, &tight, 0) == expected);
    }
}

/* ---- How much to lend ----------------------------------------------------------------------------------------------------- */

/* What the operations are lent to try them: a list, its right side, and three argument columns. */
typedef struct lent {
    const duthlan_list *list, *right;
    const duthlan_values *a, *b, *c;
} lent;

enum { LIST_OPERATIONS = 12 };

static uint32_t ask(int operation, const lent *in, duthlan_lengths *need) {
    switch (operation) {
    case 0: return duthlan_reverse_lengths(in->list, need);
    case 1: return duthlan_distinct_lengths(in->list, need);
    case 2: return duthlan_pop_front_lengths(in->list, need);
    case 3: return duthlan_pop_back_lengths(in->list, need);
    case 4: return duthlan_slice_lengths(in->list, in->a, in->b, in->c, need);
    case 5: return duthlan_slice_lengths(in->list, in->a, in->b, 0, need);
    case 6: return duthlan_resize_lengths(in->list, in->a, in->b, need);
    case 7: return duthlan_resize_lengths(in->list, in->a, 0, need);
    case 8: return duthlan_replace_lengths(in->list, in->a, in->b, in->c, need);
    case 9: return duthlan_remove_lengths(in->list, in->a, in->c, need);
    case 10: return duthlan_union_lengths(in->list, in->right, need);
    default: return duthlan_intersect_lengths(in->list, in->right, need);
    }
}

static uint32_t run(int operation, const lent *in, const duthlan_out *to, duthlan_counts *told) {
    switch (operation) {
    case 0: return duthlan_reverse(in->list, to, told);
    case 1: return duthlan_distinct(in->list, to, told);
    case 2: return duthlan_pop_front(in->list, to, told);
    case 3: return duthlan_pop_back(in->list, to, told);
    case 4: return duthlan_slice(in->list, in->a, in->b, in->c, to, told);
    case 5: return duthlan_slice(in->list, in->a, in->b, 0, to, told);
    case 6: return duthlan_resize(in->list, in->a, in->b, to, told);
    case 7: return duthlan_resize(in->list, in->a, 0, to, told);
    case 8: return duthlan_replace(in->list, in->a, in->b, in->c, to, told);
    case 9: return duthlan_remove(in->list, in->a, in->c, to, told);
    case 10: return duthlan_union(in->list, in->right, to, told);
    default: return duthlan_intersect(in->list, in->right, to, told);
    }
}

/* A length that a call is lent: just enough, or one less. */
static size_t lend(uint64_t need, int one_less) { return (size_t)(one_less ? need - 1 : need); }

/* Whether all these numbers still are what memset with 85 made of them. */
static int kept(const void *told, size_t bytes) {
    const uint8_t *byte = (const uint8_t *)told;
    while (bytes > 0 && byte[bytes - 1] == 85) bytes--;
    return bytes == 0;
}

static uint32_t numbers_seen; /* A bit for each number that a question returned. */

/* Asks each list operation, lends just as much, and one less in each buffer in turn; a refusal is the operation's own. */
static void asked_lists(const lent *in) {
    int operation, less;
    for (operation = 0; operation < LIST_OPERATIONS; operation++) {
        duthlan_lengths need;
        const uint32_t wanted = run(operation, in, &out, &counts);
        uint32_t number;
        memset(&need, 85, sizeof need);
        number = ask(operation, in, &need);
        numbers_seen |= 1u << (number & 31);
        check("asked, no lengths wanted", ask(operation, in, 0) == number);
        if (number != DUTHLAN_ACCEPTED) {
            check("asked, a refusal", number == wanted && number != DUTHLAN_SHORT_OUTPUT && kept(&need, sizeof need));
            continue;
        }
        check("asked, lengths", wanted == DUTHLAN_ACCEPTED && need.offsets == counts.rows + 1 && need.values == counts.elements &&
                                    need.row_bytes == DUTHLAN_BITMAP_BYTES(counts.rows) &&
                                    need.element_bytes == DUTHLAN_BITMAP_BYTES(counts.elements));
        for (less = -1; less < 4; less++) {
            const uint64_t length = less == 0 ? need.offsets : less == 1 ? need.row_bytes : less == 2 ? need.values : need.element_bytes;
            const int shorter = less >= 0 && length > 0;
            const duthlan_out tight = {offsets, lend(need.offsets, less == 0), rows, lend(need.row_bytes, shorter && less == 1),
                                       values, lend(need.values, shorter && less == 2), elements, lend(need.element_bytes, shorter && less == 3)};
            check("asked and lent", run(operation, in, &tight, 0) == (shorter ? DUTHLAN_SHORT_OUTPUT : DUTHLAN_ACCEPTED));
        }
    }
}

/* The same of any-value (0) and element (1). */
static void asked_values(const lent *in) {
    int operation, less;
    for (operation = 0; operation < 2; operation++) {
        duthlan_value_lengths need;
        const uint32_t wanted = operation ? duthlan_element(in->list, in->a, &value_out, &value_counts)
                                          : duthlan_any_value(in->list, &value_out, &value_counts);
        uint32_t number;
        memset(&need, 85, sizeof need);
        number = operation ? duthlan_element_lengths(in->list, in->a, &need) : duthlan_any_value_lengths(in->list, &need);
        check("asked, no value lengths wanted",
              (operation ? duthlan_element_lengths(in->list, in->a, 0) : duthlan_any_value_lengths(in->list, 0)) == number);
        if (number != DUTHLAN_ACCEPTED) {
            check("asked for values, a refusal", number == wanted && number != DUTHLAN_SHORT_OUTPUT && kept(&need, sizeof need));
            continue;
        }
        check("asked, value lengths", wanted == DUTHLAN_ACCEPTED && need.values == value_counts.rows &&
                                          need.row_bytes == DUTHLAN_BITMAP_BYTES(value_counts.rows));
        for (less = -1; less < 2; less++) {
            const int shorter = less >= 0 && need.values > 0;
            const duthlan_value_out tight = {values, lend(need.values, shorter && less == 0), rows, lend(need.row_bytes, shorter && less == 1)};
            check("asked and lent values", (operation ? duthlan_element(in->list, in->a, &tight, 0) : duthlan_any_value(in->list, &tight, 0)) ==
                                               (shorter ? DUTHLAN_SHORT_OUTPUT : DUTHLAN_ACCEPTED));
        }
    }
}

/* The same of list-repeat. */
static void asked_repeat(const lent *in) {
    duthlan_repeat_counts told = {0, 0, 0, 0, 0, 0};
    duthlan_repeat_lengths need;
    const uint32_t wanted = duthlan_list_repeat(in->list, in->a, &repeat_out, &told);
    uint32_t number;
    int less;
    memset(&need, 85, sizeof need);
    number = duthlan_list_repeat_lengths(in->list, in->a, &need);
    check("asked, no repeat lengths wanted", duthlan_list_repeat_lengths(in->list, in->a, 0) == number);
    if (number != DUTHLAN_ACCEPTED) {
        check("asked for list repeat, a refusal", number == wanted && number != DUTHLAN_SHORT_OUTPUT && kept(&need, sizeof need));
        return;
    }
    check("asked, repeat lengths", wanted == DUTHLAN_ACCEPTED && need.offsets == told.rows + 1 && need.inner_offsets == told.inner_rows + 1 &&
                                       need.row_bytes == DUTHLAN_BITMAP_BYTES(told.rows) && need.values == told.elements &&
                                       need.inner_row_bytes == DUTHLAN_BITMAP_BYTES(told.inner_rows) &&
                                       need.element_bytes == DUTHLAN_BITMAP_BYTES(told.elements));
    for (less = -1; less < 6; less++) {
        const uint64_t lengths_of[] = {need.offsets, need.row_bytes, need.inner_offsets, need.inner_row_bytes, need.values, need.element_bytes};
        const int shorter = less >= 0 && lengths_of[less] > 0;
        const duthlan_repeat_out tight = {offsets, lend(need.offsets, less == 0), rows, lend(need.row_bytes, shorter && less == 1),
                                          inner_offsets, lend(need.inner_offsets, less == 2),
                                          inner_rows, lend(need.inner_row_bytes, shorter && less == 3),
                                          values, lend(need.values, shorter && less == 4),
                                          elements, lend(need.element_bytes, shorter && less == 5)};
        check("asked and lent for list repeat",
              duthlan_list_repeat(in->list, in->a, &tight, 0) == (shorter ? DUTHLAN_SHORT_OUTPUT : DUTHLAN_ACCEPTED));
    }
}

static void asking(void) {
    static const offset_number one_row[] = {0, 2};
    const int64_t most[] = {most_elements, 0, 0, 0};
    const duthlan_list one = {one_row, 2, {0, 0, 0}, in_values, 2, {0, 0, 0}}, no_rows = {0, 0, {0, 0, 0}, 0, 0, {0, 0, 0}};
    const duthlan_values mosts = {most, 4, {0, 0, 0}}, late = {ones, 4, {0, 0, 8}}, none = {0, 0, {0, 0, 0}};
    const lent tried[] = {
        {&list, &other, &plain_one, &plain_last, &plain_one}, {&shifted, &other, &null_two, &null_last, &null_one},
        {&other, &shifted, &plain_one, &null_two, &plain_one}, {&no_rows, &no_rows, &none, &none, &none},
        {&one, &one, &none, &none, &none}, {&list, &one, &plain_one, &plain_one, &none},
        {&list, &list, &wides, &plain_one, &plain_one}, {&list, &list, &plain_one, &plain_one, &plain_zero},
        {&list, &list, &plain_one, &plain_one, &wides}, {&list, &list, &plain_last, &plain_last, &plain_one},
        {&list, &list, &manys, &plain_one, &plain_one}, {&list, &list, &late, &late, &late},
        {&bad_offsets, &list, &plain_one, &plain_one, &plain_one}, {&list, &bad_offsets, &plain_one, &plain_one, &plain_one},
        {&short_bitmap, &list, &plain_one, &plain_one, &plain_one}, {&list, &short_bitmap, &plain_one, &plain_one, &plain_one},
        {&bad_start, &list, &plain_one, &plain_one, &plain_one}, {&list, &bad_start, &plain_one, &plain_one, &plain_one}};
    duthlan_lengths need = {0, 0, 0, 0};
    duthlan_value_lengths value_need = {0, 0};
    duthlan_repeat_lengths repeat_need = {0, 0, 0, 0, 0, 0};
    size_t i;
    for (i = 0; i < sizeof tried / sizeof *tried; i++) {
        asked_lists(&tried[i]);
        asked_values(&tried[i]);
        asked_repeat(&tried[i]);
    }
    check("asked, every number", numbers_seen == (1u << 0 | 0x1aeu | 1u << far_index | 1u << far_stride | 1u << 13));
    memset(offsets, 85, sizeof offsets);
    memset(values, 85, sizeof values);
    check("reverse's lengths", duthlan_reverse_lengths(&shifted, &need) == DUTHLAN_ACCEPTED && need.offsets == 5 && need.row_bytes == 1 &&
                                   need.values == 6 && need.element_bytes == 1);
    check("union's lengths", duthlan_union_lengths(&shifted, &other, &need) == DUTHLAN_ACCEPTED && need.values == 7);
    check("element's lengths", duthlan_element_lengths(&list, &null_last, &value_need) == DUTHLAN_ACCEPTED &&
                                   value_need.values == 4 && value_need.row_bytes == 1);
    check("list repeat's lengths", duthlan_list_repeat_lengths(&list, &null_two, &repeat_need) == DUTHLAN_ACCEPTED &&
                                       repeat_need.offsets == 5 && repeat_need.row_bytes == 1 && repeat_need.inner_offsets == 7 &&
                                       repeat_need.inner_row_bytes == 1 && repeat_need.values == 12 && repeat_need.element_bytes == 2);
    check("asked, the most elements", duthlan_resize_lengths(&list, &mosts, 0, &need) == DUTHLAN_ACCEPTED && need.values == (uint64_t)most_elements &&
                                          need.element_bytes == (uint64_t)most_elements / 8 + 1 &&
                                          duthlan_resize(&list, &mosts, 0, &out, 0) == DUTHLAN_SHORT_OUTPUT);
    check("asked, nothing written", kept(offsets, sizeof offsets) && kept(values, sizeof values));
}

/* Recipes that are lent just their limits. */
static void asked_recipes(void) {
    enum { MOST = 64 };
    static const uint32_t steps[][4] = {
        {DUTHLAN_STEP_REVERSE}, {DUTHLAN_STEP_DISTINCT}, {DUTHLAN_STEP_POP_FRONT}, {DUTHLAN_STEP_POP_BACK},
        {DUTHLAN_STEP_SLICE(0, 2, 0)}, {DUTHLAN_STEP_SLICE_WITHOUT_STRIDE(0, 2)}, {DUTHLAN_STEP_RESIZE(1, 0)},
        {DUTHLAN_STEP_REPLACE(0, 1, 0)}, {DUTHLAN_STEP_REMOVE(1, 0)}, {DUTHLAN_STEP_UNION}, {DUTHLAN_STEP_INTERSECT}};
    static const int64_t columns[] = {1, 1, 1, 1, 4, 9, 5, 2, -1, -1, -1, -1};
    static const int64_t three_counts[] = {3, 4, -1};
    const int64_t most[] = {largest_limit, 0, largest_limit, 0};
    static const offset_number three_rows[] = {0, 2, 3, 3}; /* the second is null */
    static offset_number tray_offsets[2][5];
    static uint8_t tray_rows[2][1], tray_elements[2][MOST / 8], last_elements[MOST / 8];
    static int64_t tray_values[2][MOST], last_values[MOST];
    const duthlan_list three = {three_rows, 4, {row_bits, 1, 0}, in_values, 3, {0, 0, 0}};
    const duthlan_values arguments = {columns, 12, {0, 0, 0}}, threes = {three_counts, 3, {0, 0, 0}}, mosts = {most, 4, {0, 0, 0}};
    static const uint32_t resize[] = {DUTHLAN_STEP_RESIZE(0, 0)}, slice[] = {DUTHLAN_STEP_SLICE_WITHOUT_STRIDE(0, 0)};
    static const uint32_t unions[] = {DUTHLAN_STEP_UNION, DUTHLAN_STEP_UNION, DUTHLAN_STEP_UNION, DUTHLAN_STEP_DISTINCT};
    const struct {
        uint32_t number;
        const duthlan_list *first, *second;
        size_t number_count, column_count;
    } refused[] = {{DUTHLAN_MALFORMED_RECIPE, &bad_start, &bad_start, 3, 3}, {DUTHLAN_BAD_STARTING_BIT, &bad_start, &bad_offsets, 4, 3},
                   {DUTHLAN_BAD_STARTING_BIT, &bad_offsets, &bad_start, 4, 3}, {DUTHLAN_BAD_OFFSETS, &bad_offsets, &list, 4, 3},
                   {DUTHLAN_BAD_OFFSETS, &list, &bad_offsets, 4, 3}, {DUTHLAN_SHORT_BITMAP, &short_bitmap, &list, 4, 3},
                   {DUTHLAN_SHORT_BITMAP, &list, &short_bitmap, 4, 3}, {DUTHLAN_ROW_COUNTS_DIFFER, &list, &three, 4, 3},
                   {DUTHLAN_ROW_COUNTS_DIFFER, &list, &list, 4, 2}};
    duthlan_limits limit = {9, 9, 9};
    size_t count, code, i;
    int is_right = 1;
    for (count = 0, code = 1; count < 4; count++, code *= 11) {
        size_t recipe;
        for (recipe = 0; recipe < code; recipe++) {
            uint32_t numbers[12];
            size_t left = recipe;
            for (i = 0; i < count; i++, left /= 11) memcpy(numbers + 4 * i, steps[left % 11], sizeof steps[0]);
            is_right &= duthlan_recipe_limits(numbers, 4 * count, &shifted, &other, &arguments, 3, &limit) == DUTHLAN_ACCEPTED;
            is_right &= limit.one <= MOST && limit.two <= MOST && limit.output <= MOST;
            if (is_right) {
                const duthlan_out one = {tray_offsets[0], 5, tray_rows[0], 1, tray_values[0], (size_t)limit.one,
                                         tray_elements[0], (size_t)DUTHLAN_BITMAP_BYTES(limit.one)};
                const duthlan_out two = {tray_offsets[1], 5, tray_rows[1], 1, tray_values[1], (size_t)limit.two,
                                         tray_elements[1], (size_t)DUTHLAN_BITMAP_BYTES(limit.two)};
                const duthlan_out last = {offsets, 5, rows, 1, last_values, (size_t)limit.output,
                                          last_elements, (size_t)DUTHLAN_BITMAP_BYTES(limit.output)};
                is_right &= duthlan_recipe(0, numbers, 4 * count, &shifted, &other, &arguments, 3, count > 1 ? &one : 0,
                                           count > 2 ? &two : 0, &last, 0, 0) == DUTHLAN_ACCEPTED;
            }
        }
    }
    check("recipes lent their limits", is_right);
    check("limits of no steps", duthlan_recipe_limits(0, 0, &shifted, 0, 0, 0, &limit) == DUTHLAN_ACCEPTED && limit.one == 0 &&
                                    limit.two == 0 && limit.output == 6);
    check("limits of resize", duthlan_recipe_limits(resize, 4, &three, 0, &threes, 1, &limit) == DUTHLAN_ACCEPTED && limit.one == 0 &&
                                  limit.two == 0 && limit.output == 3);
    check("limits of unions", duthlan_recipe_limits(unions, 16, &shifted, &list, 0, 0, &limit) == DUTHLAN_ACCEPTED && limit.one == 24 &&
                                  limit.two == 18 && limit.output == 24);
    check("a limit stops", duthlan_recipe_limits(resize, 4, &shifted, 0, &mosts, 1, &limit) == DUTHLAN_ACCEPTED && limit.output == (uint64_t)largest_limit &&
                               duthlan_recipe(0, resize, 4, &shifted, 0, &mosts, 1, 0, 0, &out, 0, 0) == DUTHLAN_TOO_MANY);
    check("limits, a bad row", duthlan_recipe_limits(slice, 4, &shifted, 0, &wides, 1, &limit) == DUTHLAN_ACCEPTED && limit.output == 6 &&
                                   duthlan_recipe(0, slice, 4, &shifted, 0, &wides, 1, 0, 0, &out, 0, 0) == far_index);
    for (i = 0; i < sizeof refused / sizeof *refused; i++) {
        const uint32_t number = duthlan_recipe(0, steps[0], refused[i].number_count, refused[i].first, refused[i].second,
                                               &arguments, refused[i].column_count, 0, 0, &out, 0, 0);
        memset(&limit, 85, sizeof limit);
        check("limits, a refusal", number == refused[i].number && kept(&limit, sizeof limit) &&
                                       duthlan_recipe_limits(steps[0], refused[i].number_count, refused[i].first, refused[i].second,
                                                             &arguments, refused[i].column_count, &limit) == number &&
                                       kept(&limit, sizeof limit));
        check("limits that are not wanted", duthlan_recipe_limits(steps[0], refused[i].number_count, refused[i].first, refused[i].second,
                                                                  &arguments, refused[i].column_count, 0) == number);
    }
}

static void sentences(void) {
    static const uint32_t named[] = {0, 1, 2, 3, 4, 5, 6, 7, 8, 9, 10, 11, 12, 13, 14, 15, 16, 100};
    const char *unnamed = duthlan_refusal(99);
    size_t i;
    int have_words = 1;
    for (i = 0; i < sizeof named / sizeof *named; i++) have_words &= strcmp(duthlan_refusal(named[i]), unnamed) != 0;
    check("a sentence for each number", have_words);
    check("the sentence of 5", strcmp(duthlan_refusal(5), "a stride of 0 where both bounds fall in the row") == 0);
}

/* What only a raw entry can say: 100, for a code that it does not serve or too few places for what it tells. */
static void raw(void) {
    uint64_t told[4] = {5, 5, 5, 5}, tally[32] = {0};
    const offset_number zero = 0;
    const int64_t none = 0;
    const uint8_t bits = 0;
    const uint32_t reverse[] = {DUTHLAN_STEP_REVERSE};
    const uint32_t number = duthlan_typed_list(
        9, &zero, 1, &bits, 0, 0, &none, 0, &bits, 0, 0, &none, 0, &bits, 0, 0, &none, 0, &bits, 0, 0, &none, 0, &bits, 0, 0,
        offsets, ROOM, rows, ROOM, values, ROOM, elements, ROOM, told, 4);
    const uint32_t lists = duthlan_typed_lists(
        9, &zero, 1, &bits, 0, 0, &none, 0, &bits, 0, 0, &zero, 1, &bits, 0, 0, &none, 0, &bits, 0, 0,
        offsets, ROOM, rows, ROOM, values, ROOM, elements, ROOM, told, 3);
    const uint32_t recipe = duthlan_typed_recipe(
        0, reverse, 4, 0, &zero, 1, &bits, 0, 0, &none, 0, &bits, 0, 0, &zero, 1, &bits, 0, 0, &none, 0, &bits, 0, 0,
        &none, 0, &bits, 0, 0,
        inner_offsets, ROOM, inner_rows, ROOM, values, 1, elements, 1, inner_offsets, 0, inner_rows, 0, values, 0, elements, 0,
        offsets, ROOM, rows, ROOM, values + 1, 1, elements + 1, 1, told, 4, tally, 31);
    check("100, a code", number == DUTHLAN_BAD_CALL);
    check("100, counts", lists == DUTHLAN_BAD_CALL && told[0] == 5);
    check("100, a tally", recipe == DUTHLAN_BAD_CALL && told[0] == 5 && tally[0] == 0 && tally[16] == 0);
}

/* The same of the entries that tell lengths; whatever is refused keeps them. */
static void raw_lengths(void) {
#define NO_ROWS(offset) &offset, 1, &bits, 0, 0, &none, 0, &bits, 0, 0
#define NO_VALUES &none, 0, &bits, 0, 0
    static const uint32_t reverse[] = {DUTHLAN_STEP_REVERSE};
    uint64_t told[7];
    const offset_number zero = 0, below = -1;
    const int64_t none = 0;
    const uint8_t bits = 0;
    memset(told, 85, sizeof told);
    check("100, a code for lengths", duthlan_typed_list_lengths(9, NO_ROWS(zero), NO_VALUES, NO_VALUES, NO_VALUES, told, 7) == DUTHLAN_BAD_CALL &&
                                         duthlan_typed_lists_lengths(0, NO_ROWS(zero), NO_ROWS(zero), told, 7) == DUTHLAN_BAD_CALL);
    check("100, lengths", duthlan_typed_list_lengths(0, NO_ROWS(zero), NO_VALUES, NO_VALUES, NO_VALUES, told, 3) == DUTHLAN_BAD_CALL &&
                              duthlan_typed_lists_lengths(9, NO_ROWS(zero), NO_ROWS(zero), told, 3) == DUTHLAN_BAD_CALL &&
                              duthlan_typed_any_value_lengths(NO_ROWS(zero), told, 1) == DUTHLAN_BAD_CALL &&
                              duthlan_typed_element_lengths(NO_ROWS(zero), NO_VALUES, told, 1) == DUTHLAN_BAD_CALL &&
                              duthlan_typed_list_repeat_lengths(NO_ROWS(zero), NO_VALUES, told, 5) == DUTHLAN_BAD_CALL &&
                              duthlan_typed_recipe_limits(reverse, 4, 0, NO_ROWS(zero), NO_ROWS(zero), NO_VALUES, told, 2) == DUTHLAN_BAD_CALL);
    check("1, lengths", duthlan_typed_list_lengths(0, NO_ROWS(below), NO_VALUES, NO_VALUES, NO_VALUES, told, 7) == DUTHLAN_BAD_OFFSETS &&
                            duthlan_typed_lists_lengths(9, NO_ROWS(zero), NO_ROWS(below), told, 7) == DUTHLAN_BAD_OFFSETS &&
                            duthlan_typed_any_value_lengths(NO_ROWS(below), told, 7) == DUTHLAN_BAD_OFFSETS &&
                            duthlan_typed_element_lengths(NO_ROWS(below), NO_VALUES, told, 7) == DUTHLAN_BAD_OFFSETS &&
                            duthlan_typed_list_repeat_lengths(NO_ROWS(below), NO_VALUES, told, 7) == DUTHLAN_BAD_OFFSETS &&
                            duthlan_typed_recipe_limits(reverse, 4, 0, NO_ROWS(zero), NO_ROWS(below), NO_VALUES, told, 7) == DUTHLAN_BAD_OFFSETS);
    check("kept lengths", kept(told, sizeof told));
    check("past the lengths", duthlan_typed_any_value_lengths(NO_ROWS(zero), told, 7) == DUTHLAN_ACCEPTED && kept(told + 2, 5 * sizeof *told) &&
                                  duthlan_typed_recipe_limits(reverse, 4, 0, NO_ROWS(zero), NO_ROWS(zero), NO_VALUES, told, 7) == DUTHLAN_ACCEPTED &&
                                  kept(told + 3, 4 * sizeof *told) &&
                                  duthlan_typed_list_lengths(0, NO_ROWS(zero), NO_VALUES, NO_VALUES, NO_VALUES, told, 7) == DUTHLAN_ACCEPTED &&
                                  kept(told + 4, 3 * sizeof *told) &&
                                  duthlan_typed_list_repeat_lengths(NO_ROWS(zero), NO_VALUES, told, 7) == DUTHLAN_ACCEPTED &&
                                  kept(told + 6, sizeof *told) && told[0] == 1 && told[2] == 1 && told[5] == 0);
#undef NO_ROWS
#undef NO_VALUES
}

/* Pointers of NULL beside lengths of 0, and counts that are not wanted. */
static void nothing(void) {
    const duthlan_list no_rows = {0, 0, {0, 0, 0}, 0, 0, {0, 0, 0}};
    const duthlan_values no_values = {0, 0, {0, 0, 0}};
    const duthlan_out no_room = {0, 0, 0, 0, 0, 0, 0, 0};
    const duthlan_out one_slot = {offsets, 1, 0, 0, 0, 0, 0, 0};
    const duthlan_value_out no_value_room = {0, 0, 0, 0};
    const duthlan_repeat_out two_slots = {offsets, 1, 0, 0, inner_offsets, 1, 0, 0, 0, 0, 0, 0};
    duthlan_lengths need = {9, 9, 9, 9};
    duthlan_value_lengths value_need = {9, 9};
    duthlan_repeat_lengths repeat_need = {9, 9, 9, 9, 9, 9};
    duthlan_limits limit = {9, 9, 9};
    check("a pointer for NULL", duthlan_in_u8(0, 0) && duthlan_in_u32(0, 0) && duthlan_in_i32(0, 0) && duthlan_in_i64(0, 0) &&
                                    duthlan_out_u8(0, 0) && duthlan_out_u32(0, 0) && duthlan_out_i32(0, 0) && duthlan_out_i64(0, 0));
    offsets[0] = 9;
    check("no rows, no room", duthlan_reverse(&no_rows, &no_room, 0) == DUTHLAN_SHORT_OUTPUT && offsets[0] == 9);
    check("no rows", duthlan_reverse(&no_rows, &one_slot, 0) == DUTHLAN_ACCEPTED && offsets[0] == 0);
    check("no rows, arguments", duthlan_slice(&no_rows, &no_values, &no_values, &no_values, &one_slot, 0) == DUTHLAN_ACCEPTED);
    check("no rows, two lists", duthlan_union(&no_rows, &no_rows, &one_slot, 0) == DUTHLAN_ACCEPTED);
    check("no rows, any value", duthlan_any_value(&no_rows, &no_value_room, 0) == DUTHLAN_ACCEPTED);
    check("no rows, element", duthlan_element(&no_rows, &no_values, &no_value_room, 0) == DUTHLAN_ACCEPTED);
    check("no rows, list repeat", duthlan_list_repeat(&no_rows, &no_values, &two_slots, 0) == DUTHLAN_ACCEPTED);
    check("no rows, recipe", duthlan_recipe(0, 0, 0, &no_rows, 0, 0, 0, 0, 0, &one_slot, 0, 0) == DUTHLAN_ACCEPTED);
    check("no rows, lengths", duthlan_slice_lengths(&no_rows, &no_values, &no_values, &no_values, &need) == DUTHLAN_ACCEPTED &&
                                  need.offsets == 1 && need.row_bytes == 0 && need.values == 0 && need.element_bytes == 0);
    check("no rows, lengths of two lists", duthlan_intersect_lengths(&no_rows, &no_rows, &need) == DUTHLAN_ACCEPTED && need.offsets == 1);
    check("no rows, lengths of values", duthlan_any_value_lengths(&no_rows, &value_need) == DUTHLAN_ACCEPTED && value_need.values == 0 &&
                                            duthlan_element_lengths(&no_rows, &no_values, &value_need) == DUTHLAN_ACCEPTED &&
                                            value_need.row_bytes == 0);
    check("no rows, lengths of list repeat", duthlan_list_repeat_lengths(&no_rows, &no_values, &repeat_need) == DUTHLAN_ACCEPTED &&
                                                 repeat_need.offsets == 1 && repeat_need.inner_offsets == 1 && repeat_need.values == 0);
    check("no rows, limits", duthlan_recipe_limits(0, 0, &no_rows, 0, 0, 0, &limit) == DUTHLAN_ACCEPTED && limit.output == 0);
}

static void recipes(void) {
    static const uint32_t two_steps[] = {DUTHLAN_STEP_SLICE_WITHOUT_STRIDE(0, 1), DUTHLAN_STEP_REVERSE};
    static const uint32_t union_step[] = {DUTHLAN_STEP_UNION};
    static const uint32_t all_steps[] = {
        DUTHLAN_STEP_REVERSE, DUTHLAN_STEP_DISTINCT, DUTHLAN_STEP_SLICE(3, 2, 3), DUTHLAN_STEP_RESIZE(0, 1),
        DUTHLAN_STEP_REPLACE(1, 2, 3), DUTHLAN_STEP_UNION, DUTHLAN_STEP_REMOVE(2, 3),
        DUTHLAN_STEP_INTERSECT, DUTHLAN_STEP_POP_FRONT, DUTHLAN_STEP_POP_BACK};
    static const int64_t bounds[] = {2, 2, 2, 2, -1, -1, -1, -1};
    static const int64_t columns[] = {4, 4, 4, 4, 12, 12, 12, 12, -1, -1, -1, -1, 1, 1, 1, 1};
    static offset_number one_offsets[ROOM], two_offsets[ROOM];
    static uint8_t one_rows[ROOM], one_elements[ROOM], two_rows[ROOM], two_elements[ROOM];
    static int64_t one_values[ROOM], two_values[ROOM];
    static const offset_number no_offsets[ROOM] = {0};
    static const int64_t no_values[ROOM] = {0};
    const duthlan_out one = {one_offsets, ROOM, one_rows, ROOM, one_values, ROOM, one_elements, ROOM};
    const duthlan_out two = {two_offsets, ROOM, two_rows, ROOM, two_values, ROOM, two_elements, ROOM};
    const uint8_t bits[] = {0xfe, 0xff};
    const duthlan_values arguments = {bounds, 8, {0, 0, 0}}, first_null = {bounds, 8, {bits, 2, 0}};
    const duthlan_values sixteen = {columns, 16, {0, 0, 0}};
    duthlan_tally tally;
    uint32_t number;
    memset(&tally, 0, sizeof tally);
    tally.refused[3] = UINT64_MAX;
    number = duthlan_recipe(2, two_steps, 8, &shifted, 0, &arguments, 2, &one, 0, &out, &counts, &tally);
    check("recipe", made(number, "[null,-3] null [] [9,7]"));
    number = duthlan_recipe(2, two_steps, 8, &shifted, &list, &first_null, 2, &one, &two, &out, &counts, &tally);
    check("recipe, a null", made(number, "null null [] [9,7]"));
    number = duthlan_recipe(2, union_step, 4, &list, &other, 0, 0, 0, 0, &out, &counts, 0);
    check("recipe, union", made(number, "[12,-3,null,9] null [3] [7,9]"));
    number = duthlan_recipe(0, all_steps, sizeof all_steps / sizeof *all_steps, &list, &shifted, &sixteen, 4, &one, &two, &out, &counts, 0);
    check("every step", made(number, "[-3] null [] []"));
    check("finished", tally.finished[2] == 2 && tally.finished[1] == 0 && tally.refused[2] == 0);
    check("no steps", made(duthlan_recipe(0, 0, 0, &shifted, 0, 0, 0, 0, 0, &out, &counts, 0), "[12,-3,null] null [] [7,7,9]"));
    memset(one_values, 1, sizeof one_values);
    two_offsets[5] = 1;
    check("15", duthlan_recipe(16, two_steps, 8, &list, 0, &arguments, 2, &one, &two, &out, 0, &tally) == DUTHLAN_NO_SUCH_STATION);
    check("zero trays", memcmp(one_values, no_values, sizeof no_values) == 0 && memcmp(two_offsets, no_offsets, sizeof no_offsets) == 0);
    check("10", duthlan_recipe(3, two_steps, 7, &list, 0, &arguments, 2, &one, &two, &out, 0, &tally) == DUTHLAN_MALFORMED_RECIPE);
    check("3", duthlan_recipe(4, two_steps, 8, &list, 0, &arguments, 3, &one, &two, &out, 0, &tally) == DUTHLAN_ROW_COUNTS_DIFFER);
    check("9", duthlan_recipe(5, two_steps, 8, &list, 0, &arguments, 2, 0, &two, &out, 0, &tally) == DUTHLAN_SHORT_OUTPUT);
    check("refused", tally.refused[3] == UINT64_MAX && tally.refused[4] == 1 && tally.refused[5] == 1 && tally.finished[2] == 2);
}

#ifndef CALLS_LARGE
/* Grades, which are for offsets of 32 bits. */

static const uint8_t kept_grade = 85;

static uint8_t grades[ROOM];

/* Whether the grades are these, and all behind them are kept. */
static int graded(const uint8_t *expected, size_t n) {
    size_t i;
    for (i = 0; i < ROOM; i++) {
        if (grades[i] != (i < n ? expected[i] : kept_grade)) return 0;
    }
    return 1;
}

static void grade_columns(void) {
    static const uint8_t by_1[] = {2, 0, 1, 2}, by_2[] = {3, 0, 1, 2}, by_3[] = {3, 0, 1, 3};
    static const int32_t two_rows[] = {0, 2, 4};
    static const int64_t fours[] = {4, 4, 4, 4};
    static const uint8_t split[] = {0x0d}, two_threes[] = {DUTHLAN_GRADE_OTHER, DUTHLAN_GRADE_OTHER}, three_and_run[] = {3, 2};
    const duthlan_list across = {two_rows, 3, {0, 0, 0}, fours, 4, {0, 0, 0}};
    const duthlan_list with_null = {two_rows, 3, {0, 0, 0}, fours, 4, {split, 1, 0}};
    const duthlan_list no_rows = {0, 0, {0, 0, 0}, 0, 0, {0, 0, 0}};
    uint64_t told = kept_grade;
    memset(grades, kept_grade, sizeof grades);
    check("grade, 12", duthlan_grade(0, &bad_start, grades, 0, &told) == DUTHLAN_ZERO_RUN);
    check("grade, 9 before 13", duthlan_grade(1, &bad_start, grades, 3, &told) == DUTHLAN_SHORT_OUTPUT);
    check("grade, 13", duthlan_grade(1, &bad_start, grades, 4, &told) == DUTHLAN_BAD_STARTING_BIT);
    check("grade, 9 before 1", duthlan_grade(1, &bad_offsets, grades, 3, &told) == DUTHLAN_SHORT_OUTPUT);
    check("grade, 1", duthlan_grade(1, &bad_offsets, grades, 4, &told) == DUTHLAN_BAD_OFFSETS);
    check("grade, 2", duthlan_grade(1, &short_bitmap, grades, 4, &told) == DUTHLAN_SHORT_BITMAP);
    check("grade, kept", graded(0, 0) && told == kept_grade);
    check("grade", duthlan_grade(2, &list, grades, ROOM, &told) == DUTHLAN_ACCEPTED && told == 4 && graded(by_2, 4));
    check("its names", grades[0] == DUTHLAN_GRADE_OTHER && grades[1] == DUTHLAN_GRADE_NULL && grades[2] == DUTHLAN_GRADE_EMPTY &&
                           grades[3] == DUTHLAN_GRADE_RUN);
    check("grade, k 1", duthlan_grade(1, &shifted, grades, 4, 0) == DUTHLAN_ACCEPTED && graded(by_1, 4));
    check("grade, k 3", duthlan_grade(3, &shifted, grades, 4, 0) == DUTHLAN_ACCEPTED && graded(by_3, 4));
    check("grade, the largest k", duthlan_grade(UINT64_MAX, &list, grades, 4, 0) == DUTHLAN_ACCEPTED && graded(by_3, 4));
    memset(grades, kept_grade, sizeof grades);
    check("grade, a run across two rows", duthlan_grade(3, &across, grades, ROOM, 0) == DUTHLAN_ACCEPTED && graded(two_threes, 2));
    check("grade, a run across a null", duthlan_grade(2, &with_null, grades, ROOM, 0) == DUTHLAN_ACCEPTED && graded(three_and_run, 2));
    check("grade, no rows", duthlan_grade(1, &no_rows, 0, 0, &told) == DUTHLAN_ACCEPTED && told == 0);
}

static void grade_recipes(void) {
    static const uint32_t pop_twice[] = {DUTHLAN_STEP_POP_FRONT, DUTHLAN_STEP_POP_FRONT};
    static const uint32_t fill[] = {DUTHLAN_STEP_RESIZE(0, 1)};
    static const uint8_t popped[] = {1, 0, 1, 3}, filled[] = {3, 0, 2, 2};
    static const int64_t columns[] = {4, 4, 4, 4, 7, 7, 7, 7};
    static int32_t one_offsets[ROOM];
    static uint8_t one_rows[ROOM], one_elements[ROOM];
    static int64_t one_values[ROOM];
    static const int64_t no_values[ROOM] = {0};
    const duthlan_out one = {one_offsets, ROOM, one_rows, ROOM, one_values, ROOM, one_elements, ROOM};
    const duthlan_out no_room = {0, 0, 0, 0, 0, 0, 0, 0};
    const duthlan_values arguments = {columns, 8, {0, 0, 0}};
    duthlan_tally tally;
    uint32_t number;
    memset(&tally, 0, sizeof tally);
    memset(grades, kept_grade, sizeof grades);
    memset(&counts, kept_grade, sizeof counts);
    memset(offsets, kept_grade, sizeof offsets);
    memset(one_values, kept_grade, sizeof one_values);
    number = duthlan_grade_recipe(0, 16, pop_twice, 7, &shifted, 0, 0, 0, &one, 0, &out, grades, 0, &counts, &tally);
    check("graded recipe, 12", number == DUTHLAN_ZERO_RUN && memcmp(one_values, no_values, sizeof no_values) == 0);
    memset(one_values, kept_grade, sizeof one_values);
    number = duthlan_grade_recipe(2, 16, pop_twice, 8, &shifted, 0, 0, 0, &one, 0, &out, grades, 3, &counts, &tally);
    check("graded recipe, 9 of the grades", number == DUTHLAN_SHORT_OUTPUT && memcmp(one_values, no_values, sizeof no_values) == 0);
    number = duthlan_grade_recipe(2, 16, pop_twice, 8, &shifted, 0, 0, 0, &one, 0, &out, grades, 4, &counts, &tally);
    check("graded recipe, 15", number == DUTHLAN_NO_SUCH_STATION && tally.refused[0] == 0 && tally.refused[15] == 0);
    number = duthlan_grade_recipe(2, 7, pop_twice, 7, &shifted, 0, 0, 0, &one, 0, &out, grades, 4, &counts, &tally);
    check("graded recipe, 10", number == DUTHLAN_MALFORMED_RECIPE && tally.refused[7] == 1);
    number = duthlan_grade_recipe(2, 7, pop_twice, 8, &shifted, 0, 0, 0, &one, 0, &no_room, grades, 4, &counts, &tally);
    check("graded recipe, 9 of the output", number == DUTHLAN_SHORT_OUTPUT && tally.refused[7] == 2);
    check("graded recipe, kept", graded(0, 0) && offsets[0] == kept_offset && counts.rows == 0x5555555555555555);
    number = duthlan_grade_recipe(1, 7, pop_twice, 8, &shifted, 0, 0, 0, &one, 0, &out, grades, ROOM, &counts, &tally);
    check("graded recipe", made(number, "[null] null [] [9]") && tally.finished[7] == 1 && tally.refused[7] == 2);
    check("its grades", grades[0] == 1 && grades[1] == 0 && grades[2] == 1 && grades[3] == 2 && grades[4] == kept_grade);
    number = duthlan_grade_recipe(2, 7, pop_twice, 8, &list, &other, 0, 0, &one, 0, &out, grades, 4, 0, 0);
    check("graded recipe, k 2", number == DUTHLAN_ACCEPTED && graded(popped, 4));
    number = duthlan_grade_recipe(2, 3, fill, 4, &list, 0, &arguments, 2, 0, 0, &out, grades, 4, &counts, &tally);
    check("graded recipe, a run made", made(number, "[12,-3,null,7] null [7,7,7,7] [7,7,9,7]") && graded(filled, 4));
    check("its tally", tally.finished[3] == 1 && tally.finished[7] == 1);
}

/* What only the raw entries can say of grades. */
static void raw_grades(void) {
    uint64_t told[5] = {5, 5, 5, 5, 5}, tally[32] = {0};
    const int32_t zero = 0;
    const int64_t none = 0;
    const uint8_t bits = 0;
    const uint32_t no_numbers = 0;
    int32_t tray = 85;
    uint32_t number;
    check("100, grade", duthlan_typed_grade(0, &zero, 1, &bits, 0, 0, &none, 0, &bits, 0, 0, grades, 0, told, 0) == DUTHLAN_BAD_CALL);
    check("past the count", duthlan_typed_grade(1, &zero, 1, &bits, 0, 0, &none, 0, &bits, 0, 0, grades, 0, told, 5) == DUTHLAN_ACCEPTED &&
                                told[0] == 0 && told[1] == 5);
    told[0] = 5;
    number = duthlan_typed_grade_recipe(
        0, 0, &no_numbers, 0, 0, &zero, 1, &bits, 0, 0, &none, 0, &bits, 0, 0, &zero, 1, &bits, 0, 0, &none, 0, &bits, 0, 0,
        &none, 0, &bits, 0, 0, &tray, 1, inner_rows, 0, values, 0, elements, 0, inner_offsets, 0, inner_rows, 0, values, 0, elements, 0,
        offsets, ROOM, rows, 0, values, 0, elements, 0, grades, 0, told, 4, tally, 31);
    check("100, a graded recipe", number == DUTHLAN_BAD_CALL && tray == 0 && told[0] == 5 && tally[0] == 0 && tally[16] == 0);
}
#endif

#ifndef CALLS_LARGE
/* ListView columns, which have offsets of 32 bits. */

static int32_t view_offsets[ROOM], view_sizes[ROOM];
static const duthlan_view_out view_out = {view_offsets, ROOM, view_sizes, ROOM, rows, ROOM, values, ROOM, elements, ROOM};

/* The column `list` as views out of order, the null row over the last three values. */
static const int64_t viewed[] = {7, 7, 9, 12, -3, 99, 40, 41, 7};
static const int32_t starts[] = {3, 6, 9, 0}, sizes[] = {3, 3, 0, 3};
static const uint8_t viewed_bits_2[] = {0x7f, 0xff};
static const duthlan_view view = {starts, 4, sizes, 4, {row_bits_2, 1, 2}, viewed, 9, {viewed_bits_2, 2, 2}};

static void views(void) {
    static const int32_t below[] = {3, -1, 9, 0}, negative[] = {3, 3, -1, 3}, past[] = {3, 4, 0, 3};
    static const int32_t far_offsets[] = {INT32_MAX, 0, 0, 0}, over[] = {0, 0, 0}, three[] = {3, 3, 3};
    const duthlan_view overlapping = {over, 3, three, 3, {0, 0, 0}, in_values, 3, {element_bits, 1, 0}};
    const duthlan_view fewer = {starts, 4, sizes, 3, {0, 0, 0}, viewed, 9, {0, 0, 0}};
    const duthlan_view nothing_viewed = {0, 0, 0, 0, {0, 0, 0}, 0, 0, {0, 0, 0}};
    const duthlan_list no_rows = {0, 0, {0, 0, 0}, 0, 0, {0, 0, 0}};
    const duthlan_out one_slot = {offsets, 1, 0, 0, 0, 0, 0, 0};
    const duthlan_out no_slot = {0, 0, 0, 0, 0, 0, 0, 0};
    const duthlan_view_out no_room = {0, 0, 0, 0, 0, 0, 0, 0, 0, 0};
    duthlan_view bad = view, back;
    uint32_t number;
    size_t less;
    check("import", made(duthlan_import_view(&view, &out, &counts), "[12,-3,null] null [] [7,7,9]"));
    check("its counts", counts.rows == 4 && counts.elements == 6 && counts.null_rows == 1 && counts.null_elements == 1);
    check("import, overlaps", made(duthlan_import_view(&overlapping, &out, &counts), "[12,-3,null] [12,-3,null] [12,-3,null]"));
    check("import, no rows", duthlan_import_view(&nothing_viewed, &one_slot, 0) == DUTHLAN_ACCEPTED && offsets[0] == 0);
    check("import, no slot", duthlan_import_view(&nothing_viewed, &no_slot, 0) == DUTHLAN_SHORT_OUTPUT);
    memset(offsets, 85, sizeof offsets);
    memset(&counts, 85, sizeof counts);
    check("import, 3", duthlan_import_view(&fewer, &out, &counts) == DUTHLAN_ROW_COUNTS_DIFFER);
    bad.offsets = below;
    check("import, 11 of a null row", duthlan_import_view(&bad, &out, &counts) == DUTHLAN_VIEW_OUTSIDE);
    bad.offsets = far_offsets;
    check("import, 11 of a far offset", duthlan_import_view(&bad, &out, &counts) == DUTHLAN_VIEW_OUTSIDE);
    bad = view;
    bad.sizes = negative;
    check("import, 11 of a size", duthlan_import_view(&bad, &out, &counts) == DUTHLAN_VIEW_OUTSIDE);
    bad.sizes = past;
    check("import, 11 of a sum", duthlan_import_view(&bad, &out, &counts) == DUTHLAN_VIEW_OUTSIDE);
    bad.rows.start = 5;
    check("import, 2 before 11", duthlan_import_view(&bad, &out, &counts) == DUTHLAN_SHORT_BITMAP);
    bad.elements.start = 8;
    check("import, 13 before 2", duthlan_import_view(&bad, &out, &counts) == DUTHLAN_BAD_STARTING_BIT);
    check("import, kept", offsets[0] == kept_offset && counts.rows == 0x5555555555555555);
    for (less = 0; less < 5; less++) {
        const duthlan_out tight = {offsets, less == 1 ? 4u : 5u, rows, less == 2 ? 0u : 1u,
                                   values, less == 3 ? 5u : 6u, elements, less == 4 ? 0u : 1u};
        number = duthlan_import_view(&view, &tight, 0);
        check("import, room", number == (less == 0 ? DUTHLAN_ACCEPTED : DUTHLAN_SHORT_OUTPUT));
    }

    memset(view_offsets, 85, sizeof view_offsets);
    memset(view_sizes, 85, sizeof view_sizes);
    check("export, 1", duthlan_export_view(&bad_offsets, &view_out, &counts) == DUTHLAN_BAD_OFFSETS);
    check("export, 2", duthlan_export_view(&short_bitmap, &view_out, &counts) == DUTHLAN_SHORT_BITMAP);
    check("export, 13", duthlan_export_view(&bad_start, &view_out, &counts) == DUTHLAN_BAD_STARTING_BIT);
    check("export, kept", view_offsets[0] == kept_offset && view_sizes[0] == kept_offset);
    check("export", duthlan_export_view(&shifted, &view_out, &counts) == DUTHLAN_ACCEPTED && counts.rows == 4 && counts.elements == 6);
    check("its offsets", view_offsets[0] == 0 && view_offsets[1] == 0 && view_offsets[2] == 3 && view_offsets[3] == 3);
    check("its sizes", view_sizes[0] == 3 && view_sizes[1] == 0 && view_sizes[2] == 0 && view_sizes[3] == 3);
    check("past the views", view_offsets[4] == kept_offset && view_sizes[4] == kept_offset && values[2] == INT64_MIN);
    back = duthlan_written_view(&view_out, &counts);
    {
        int64_t again_values[6];
        uint8_t again_rows[1], again_elements[1];
        const duthlan_out again = {offsets, ROOM, again_rows, 1, again_values, 6, again_elements, 1};
        number = duthlan_import_view(&back, &again, &counts);
        check("export, then import", number == DUTHLAN_ACCEPTED &&
                                         strcmp(show_list(duthlan_written(&again, &counts)), "[12,-3,null] null [] [7,7,9]") == 0 &&
                                         memcmp(again_values, values, sizeof again_values) == 0 && again_rows[0] == 0x0d);
    }
    for (less = 0; less < 6; less++) {
        const duthlan_view_out tight = {view_offsets, less == 1 ? 3u : 4u, view_sizes, less == 2 ? 3u : 4u, rows, less == 3 ? 0u : 1u,
                                        values, less == 4 ? 5u : 6u, elements, less == 5 ? 0u : 1u};
        number = duthlan_export_view(&list, &tight, 0);
        check("export, room", number == (less == 0 ? DUTHLAN_ACCEPTED : DUTHLAN_SHORT_OUTPUT));
    }
    check("export, no rows", duthlan_export_view(&no_rows, &no_room, 0) == DUTHLAN_ACCEPTED);
}

/* What only the raw entries can say of views. */
static void raw_views(void) {
    uint64_t told[5] = {5, 5, 5, 5, 5};
    const int32_t zero = 0;
    const int64_t none = 0;
    const uint8_t bits = 0;
    check("100, import", duthlan_typed_import_view(&zero, 0, &zero, 0, &bits, 0, 0, &none, 0, &bits, 0, 0, offsets, ROOM, rows, ROOM,
                                                   values, ROOM, elements, ROOM, told, 3) == DUTHLAN_BAD_CALL);
    check("100, export", duthlan_typed_export_view(&zero, 1, &bits, 0, 0, &none, 0, &bits, 0, 0, view_offsets, ROOM, view_sizes, ROOM,
                                                   rows, ROOM, values, ROOM, elements, ROOM, told, 3) == DUTHLAN_BAD_CALL && told[0] == 5);
    check("past the counts", duthlan_typed_export_view(&zero, 1, &bits, 0, 0, &none, 0, &bits, 0, 0, view_offsets, 0, view_sizes, 0,
                                                       rows, 0, values, 0, elements, 0, told, 5) == DUTHLAN_ACCEPTED &&
                                 told[0] == 0 && told[3] == 0 && told[4] == 5);
}

/* Distinct, union and intersect with a work area. */

enum { AREA = 40 };

static uint32_t area[AREA];

/* Whether so many slots of the work area are zero and the others as they were; all are filled again. */
static int cleared(size_t slots) {
    size_t i;
    int is_right = 1;
    for (i = 0; i < AREA; i++) {
        is_right &= area[i] == (i < slots ? 0 : 0x55555555);
        area[i] = 0x55555555;
    }
    return is_right;
}

static void areas(void) {
    static const duthlan_out short_out = {offsets, ROOM, rows, ROOM, values, 1, elements, ROOM};
    static const int64_t long_values[] = {7, -8, 9};
    static const int32_t long_offsets[] = {0, 3, 3, 3, 3};
    static const uint8_t no_row[] = {0};
    const duthlan_list nulls = {long_offsets, 5, {no_row, 1, 0}, long_values, 3, {0, 0, 0}};
    const duthlan_list no_rows = {0, 0, {0, 0, 0}, 0, 0, {0, 0, 0}};
    const duthlan_out one_slot = {offsets, 1, 0, 0, 0, 0, 0, 0};
    size_t slots;
    cleared(0);
    for (slots = 0; slots < 9; slots++) { /* The longest row has three elements, the longest pair five. */
        const uint32_t number = duthlan_distinct_hashed(&shifted, area, slots, &out, &counts);
        check("distinct hashed", slots < 6 ? number == DUTHLAN_SHORT_AREA : made(number, "[12,-3,null] null [] [7,9]"));
        check("its area", cleared(slots));
    }
    for (slots = 0; slots < 13; slots++) {
        uint32_t number = duthlan_union_hashed(&shifted, &other, area, slots, &out, &counts);
        check("union hashed", slots < 10 ? number == DUTHLAN_SHORT_AREA : made(number, "[12,-3,null,9] null [3] [7,9]"));
        check("its area", cleared(slots));
        number = duthlan_intersect_hashed(&shifted, &other, area, slots, &out, &counts);
        check("intersect hashed", slots < 10 ? number == DUTHLAN_SHORT_AREA : made(number, "[12] null [] [7]"));
        check("its area", cleared(slots));
    }
    check("union with itself", made(duthlan_union_hashed(&list, &list, area, AREA, &out, &counts), "[12,-3,null] null [] [7,9]"));
    check("counts not wanted", duthlan_intersect_hashed(&other, &list, area, AREA, &out, 0) == DUTHLAN_ACCEPTED);
    check("null rows need no area", made(duthlan_distinct_hashed(&nulls, 0, 0, &out, &counts), "null null null null") &&
                                        made(duthlan_union_hashed(&list, &nulls, 0, 0, &out, &counts), "null null null null"));
    check("no rows need no area", duthlan_distinct_hashed(&no_rows, 0, 0, &one_slot, 0) == DUTHLAN_ACCEPTED &&
                                      duthlan_union_hashed(&no_rows, &no_rows, 0, 0, &one_slot, 0) == DUTHLAN_ACCEPTED);
    cleared(0);
    memset(&counts, 85, sizeof counts);
    memset(offsets, 85, sizeof offsets);
    check("1 before 14", duthlan_distinct_hashed(&bad_offsets, area, 1, &out, &counts) == DUTHLAN_BAD_OFFSETS && cleared(1));
    check("2 before 14", duthlan_union_hashed(&list, &short_bitmap, area, 2, &out, &counts) == DUTHLAN_SHORT_BITMAP && cleared(2));
    check("13 before 14", duthlan_intersect_hashed(&bad_start, &list, area, 3, &out, &counts) == DUTHLAN_BAD_STARTING_BIT && cleared(3));
    check("3 before 14", duthlan_union_hashed(&list, &no_rows, area, 4, &out, &counts) == DUTHLAN_ROW_COUNTS_DIFFER && cleared(4));
    check("14 before 9", duthlan_distinct_hashed(&list, area, 5, &short_out, &counts) == DUTHLAN_SHORT_AREA && cleared(5));
    check("9", duthlan_distinct_hashed(&list, area, 6, &short_out, &counts) == DUTHLAN_SHORT_OUTPUT && cleared(6) &&
                   duthlan_union_hashed(&list, &other, area, 10, &short_out, &counts) == DUTHLAN_SHORT_OUTPUT && cleared(10));
    check("kept by refusals", kept(&counts, sizeof counts) && kept(offsets, sizeof offsets));
}

/* What only the raw entries can say of them. */
static void raw_areas(void) {
#define NO_ROWS &zero, 1, &bits, 0, 0, &none, 0, &bits, 0, 0
#define ROOM_FOR_ROWS offsets, ROOM, rows, ROOM, values, ROOM, elements, ROOM
    uint64_t told[5] = {5, 5, 5, 5, 5};
    const int32_t zero = 0;
    const int64_t none = 0;
    const uint8_t bits = 0;
    uint32_t code;
    size_t places;
    cleared(0);
    for (code = 0; code < 13; code++) {
        const uint32_t number = duthlan_typed_lists_hashed(code, NO_ROWS, NO_ROWS, ROOM_FOR_ROWS, area, 7, told, 3 + (code == 9 || code == 10));
        check("100, a code beside an area", number == (code == 9 || code == 10 ? DUTHLAN_ACCEPTED : DUTHLAN_BAD_CALL) && cleared(7));
    }
    for (places = 3; places < 6; places++) {
        uint32_t number = duthlan_typed_distinct_hashed(NO_ROWS, ROOM_FOR_ROWS, area, 8, told, places);
        check("100, counts beside an area", number == (places < 4 ? DUTHLAN_BAD_CALL : DUTHLAN_ACCEPTED) && cleared(8) && told[4] == 5);
        number = duthlan_typed_lists_hashed(10, NO_ROWS, NO_ROWS, ROOM_FOR_ROWS, area, AREA, told, places);
        check("100, counts beside an area", number == (places < 4 ? DUTHLAN_BAD_CALL : DUTHLAN_ACCEPTED) && cleared(AREA) && told[4] == 5);
    }
#undef NO_ROWS
#undef ROOM_FOR_ROWS
}

/* Recipes over some of their rows. */

static int32_t tray_offsets[ROOM];
static uint8_t tray_rows[ROOM], tray_elements[ROOM];
static int64_t tray_values[ROOM];

/* Whether a tray that was filled with 85 is all zero now, and filled again. */
static int zeroed(void) {
    static const int32_t no_offsets[ROOM] = {0};
    static const uint8_t no_bits[ROOM] = {0};
    static const int64_t no_values[ROOM] = {0};
    const int is_zero = memcmp(tray_offsets, no_offsets, sizeof no_offsets) == 0 && memcmp(tray_rows, no_bits, sizeof no_bits) == 0 &&
                        memcmp(tray_values, no_values, sizeof no_values) == 0 && memcmp(tray_elements, no_bits, sizeof no_bits) == 0;
    memset(tray_offsets, 85, sizeof tray_offsets);
    memset(tray_rows, 85, sizeof tray_rows);
    memset(tray_values, 85, sizeof tray_values);
    memset(tray_elements, 85, sizeof tray_elements);
    return is_zero;
}

static void windows(void) {
    static const uint32_t two_steps[] = {DUTHLAN_STEP_SLICE_WITHOUT_STRIDE(0, 1), DUTHLAN_STEP_REVERSE};
    static const uint32_t union_step[] = {DUTHLAN_STEP_UNION}, resize_step[] = {DUTHLAN_STEP_RESIZE(0, 0)};
    static const int64_t bounds[] = {2, 1, 1, 2, -1, -1, -1, 3}, counted[] = {-1, 3, 2, 1};
    const duthlan_values arguments = {bounds, 8, {0, 0, 0}}, resized = {counted, 4, {0, 0, 0}};
    const duthlan_list no_rows = {0, 0, {0, 0, 0}, 0, 0, {0, 0, 0}};
    const duthlan_out tray = {tray_offsets, ROOM, tray_rows, ROOM, tray_values, ROOM, tray_elements, ROOM};
    const duthlan_out one_slot = {offsets, 1, 0, 0, 0, 0, 0, 0}, no_slot = {0, 0, 0, 0, 0, 0, 0, 0};
    size_t begin, end;
    uint32_t number;
    zeroed();
    number = duthlan_recipe_rows(0, 4, two_steps, 8, &shifted, 0, &arguments, 2, &tray, 0, &out, &counts);
    check("all rows", made(number, "[null,-3] null [] [9,7]") && zeroed());
    number = duthlan_recipe_rows(1, 4, two_steps, 8, &shifted, 0, &arguments, 2, &tray, 0, &out, &counts);
    check("rows 1 to 3", made(number, "null [] [9,7]") && counts.rows == 3 && counts.null_rows == 1 && zeroed());
    number = duthlan_recipe_rows(3, 4, union_step, 4, &shifted, &other, 0, 0, 0, 0, &out, &counts);
    check("the last row", made(number, "[7,9]"));
    number = duthlan_recipe_rows(0, 1, union_step, 4, &shifted, &other, 0, 0, 0, 0, &out, &counts);
    check("the first row", made(number, "[12,-3,null,9]"));
    number = duthlan_recipe_rows(1, 3, 0, 0, &shifted, 0, 0, 0, 0, 0, &out, 0);
    check("no steps, counts not wanted", number == DUTHLAN_ACCEPTED && offsets[2] == 0);
    check("a negative count", duthlan_recipe_rows(0, 4, resize_step, 4, &list, 0, &resized, 1, 0, 0, &out, &counts) == DUTHLAN_NEGATIVE_COUNT);
    number = duthlan_recipe_rows(1, 4, resize_step, 4, &list, 0, &resized, 1, 0, 0, &out, &counts);
    check("outside the rows", made(number, "null [2,2] [7]"));
    for (begin = 0; begin < 6; begin++) {
        for (end = 0; end < 6; end++) {
            memset(offsets, 85, sizeof offsets);
            memset(&counts, 85, sizeof counts);
            number = duthlan_recipe_rows(begin, end, two_steps, 8, &list, 0, &arguments, 2, &tray, 0, &out, &counts);
            check("every window", zeroed() && number == (begin > end || end > 4 ? DUTHLAN_ROWS_OUTSIDE : DUTHLAN_ACCEPTED));
            check("its rows", number == DUTHLAN_ACCEPTED ? counts.rows == end - begin && offsets[end - begin + 1] == kept_offset
                                                         : kept(offsets, sizeof offsets) && kept(&counts, sizeof counts));
        }
    }
    check("16, far ends", duthlan_recipe_rows(0, SIZE_MAX, 0, 0, &list, 0, 0, 0, 0, 0, &out, 0) == DUTHLAN_ROWS_OUTSIDE &&
                              duthlan_recipe_rows(SIZE_MAX, SIZE_MAX, 0, 0, &list, 0, 0, 0, 0, 0, &out, 0) == DUTHLAN_ROWS_OUTSIDE &&
                              duthlan_recipe_rows(SIZE_MAX, 0, 0, 0, &list, 0, 0, 0, 0, 0, &out, 0) == DUTHLAN_ROWS_OUTSIDE);
    check("10 before 16", duthlan_recipe_rows(2, 1, two_steps, 7, &list, 0, &arguments, 2, &tray, 0, &out, 0) == DUTHLAN_MALFORMED_RECIPE);
    check("13 before 16", duthlan_recipe_rows(2, 1, 0, 0, &bad_start, 0, 0, 0, 0, 0, &out, 0) == DUTHLAN_BAD_STARTING_BIT);
    check("1 before 16", duthlan_recipe_rows(2, 1, 0, 0, &bad_offsets, 0, 0, 0, 0, 0, &out, 0) == DUTHLAN_BAD_OFFSETS);
    check("2 before 16", duthlan_recipe_rows(2, 1, 0, 0, &short_bitmap, 0, 0, 0, 0, 0, &out, 0) == DUTHLAN_SHORT_BITMAP);
    check("3 before 16", duthlan_recipe_rows(2, 1, 0, 0, &list, 0, &arguments, 3, 0, 0, &out, 0) == DUTHLAN_ROW_COUNTS_DIFFER);
    check("1 outside", duthlan_recipe_rows(0, 1, 0, 0, &bad_offsets, 0, 0, 0, 0, 0, &out, 0) == DUTHLAN_BAD_OFFSETS);
    check("9", duthlan_recipe_rows(0, 4, two_steps, 8, &list, 0, &arguments, 2, 0, 0, &out, 0) == DUTHLAN_SHORT_OUTPUT);
    check("none of the rows", duthlan_recipe_rows(2, 2, 0, 0, &list, 0, 0, 0, 0, 0, &one_slot, 0) == DUTHLAN_ACCEPTED && offsets[0] == 0);
    check("none, no slot", duthlan_recipe_rows(2, 2, 0, 0, &list, 0, 0, 0, 0, 0, &no_slot, 0) == DUTHLAN_SHORT_OUTPUT);
    check("none of no rows", duthlan_recipe_rows(0, 0, 0, 0, &no_rows, 0, 0, 0, 0, 0, &one_slot, 0) == DUTHLAN_ACCEPTED);
    for (end = 0; end < 5; end++) {
        const duthlan_out tight = {offsets, end == 1 ? 2u : 3u, rows, end == 2 ? 0u : 1u,
                                   values, end == 3 ? 2u : 3u, elements, end == 4 ? 0u : 1u};
        number = duthlan_recipe_rows(0, 2, 0, 0, &list, 0, 0, 0, 0, 0, &tight, 0);
        check("room for the rows", number == (end == 0 ? DUTHLAN_ACCEPTED : DUTHLAN_SHORT_OUTPUT));
    }
}

/* What only the raw entry can say of them. */
static void raw_windows(void) {
    uint64_t told[5] = {5, 5, 5, 5, 5};
    const int32_t zero = 0;
    const int64_t none = 0;
    const uint8_t bits = 0;
    const uint32_t reverse[] = {DUTHLAN_STEP_REVERSE};
    size_t places;
    for (places = 3; places < 6; places++) {
        const uint32_t number = duthlan_typed_recipe_rows(
            0, 0, reverse, 4, 0, &zero, 1, &bits, 0, 0, &none, 0, &bits, 0, 0, &zero, 1, &bits, 0, 0, &none, 0, &bits, 0, 0,
            &none, 0, &bits, 0, 0, tray_offsets, ROOM, tray_rows, ROOM, tray_values, ROOM, tray_elements, ROOM,
            inner_offsets, 0, inner_rows, 0, values, 0, elements, 0, offsets, ROOM, rows, ROOM, values + 1, 1, elements + 1, 1,
            told, places);
        check("counts of some rows", zeroed() && number == (places < 4 ? DUTHLAN_BAD_CALL : DUTHLAN_ACCEPTED));
        check("past them", told[4] == 5 && told[0] == (places < 4 ? 5u : 0u));
    }
}
#endif

int main(void) {
    wide[0] = far_number;
    many[0] = most_elements;
    operations();
    far_numbers();
    refusals();
    nothing();
    recipes();
    lengths();
    asking();
    asked_recipes();
    sentences();
    raw();
    raw_lengths();
#ifndef CALLS_LARGE
    grade_columns();
    grade_recipes();
    raw_grades();
    views();
    raw_views();
    areas();
    raw_areas();
    windows();
    raw_windows();
#endif
    printf("%d passed, %d failed\n", passed, failed);
    return failed != 0;
}
