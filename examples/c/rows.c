/* rows: runs an operation, or a recipe, on rows that are typed in, and prints the rows that it makes. It has no heap: each
 * buffer has a fixed size, and a result that does not fit is refused. `rows --help` says how to call it; main, at the end, is
 * where the operations are called. */
#include "duthlan.h"

#include <inttypes.h>
#include <stdarg.h>
#include <stdio.h>
#include <stdlib.h>
#include <string.h>

enum { MOST_ROWS = 1024, MOST_ELEMENTS = 16384, MOST_BYTES = 65536, MOST_STEPS = 64, MOST_COLUMNS = 16 };

#define LENGTH(array) (sizeof(array) / sizeof *(array))

static const char usage[] =
    "rows OPERATION [--NAME VALUES].. [--counts] [ROWS]..\n"
    "runs an operation on rows and prints the rows that it makes\n"
    "\n"
    "  rows reverse '[12, -3, null] null [] [7, 7, 9]'\n"
    "  rows slice --from 2 --to -1 '[10, 20, 30] [7]'\n"
    "  rows element --index '1, null' '[10, 20, 30] [7]'\n"
    "  rows union '[2, 1, 2]' '[1, 5, null]'\n"
    "  rows recipe 'slice 2 -1; reverse; union' '[10, 20, 30]' '[7]'\n"
    "\n"
    "reverse   distinct   pop_front   pop_back   any_value\n"
    "slice --from --to [--stride]   resize --count [--fill]   replace --from --to --limit\n"
    "remove --element --limit   element --index   list_repeat --count\n"
    "union ROWS ROWS   intersect ROWS ROWS\n"
    "recipe [--station] STEPS ROWS [ROWS]\n"
    "  steps stand between semicolons, with their arguments: reverse; distinct; pop_front; pop_back;\n"
    "  slice FROM TO [STRIDE]; resize COUNT FILL; replace FROM TO LIMIT; remove ELEMENT LIMIT;\n"
    "  union; intersect, with the second ROWS\n"
    "\n"
    "VALUES are one for all rows, or one a row between commas; null is a value. --counts prints the counts\n"
    "of the result below it. ROWS that are - or left out are read from standard input. The status is 1\n"
    "where the call is refused and 2 where the input cannot be read.\n";

/* ---- Reading ------------------------------------------------------------------------------------------------------------ */

/* Says what is wrong with the input, and ends. */
static void stop(const char *format, ...) {
    va_list parts;
    va_start(parts, format);
    vfprintf(stderr, format, parts);
    va_end(parts);
    fputc('\n', stderr);
    exit(2);
}

/* A text that is being read, and what sentences call it. */
struct text {
    const char *name;
    const char *bytes;
    size_t end;
    size_t at;
};

static void stop_at(const struct text *text, size_t at, const char *sentence) {
    stop("%s, character %zu: %s", text->name, at + 1, sentence);
}

/* The next character, or -1 at the end. */
static int next(const struct text *text) {
    return text->at < text->end ? (unsigned char)text->bytes[text->at] : -1;
}

static int is_space(int c) { return c == ' ' || c == '\t' || c == '\n' || c == '\r'; }
static int is_digit(int c) { return c >= '0' && c <= '9'; }
static int is_letter(int c) { return (c >= 'a' && c <= 'z') || c == '_'; }

static void skip_spaces(struct text *text) {
    while (is_space(next(text))) text->at++;
}

/* Takes a character, if it comes next. */
static int take(struct text *text, char c) {
    skip_spaces(text);
    if (next(text) != c) return 0;
    text->at++;
    return 1;
}

/* Takes a word, if it comes next. */
static int take_word(struct text *text, const char *word) {
    struct text after = *text;
    size_t start;
    skip_spaces(&after);
    start = after.at;
    while (is_letter(next(&after))) after.at++;
    if (after.at - start != strlen(word) || memcmp(text->bytes + start, word, after.at - start) != 0) return 0;
    *text = after;
    return 1;
}

/* Values with their bitmap, which grow up to the room there is. */
struct values {
    int64_t *numbers;
    uint8_t *valid;
    size_t count;
    size_t most;
};

static void set_bit(uint8_t *bytes, size_t i) { bytes[i / 8] = (uint8_t)(bytes[i / 8] | 1u << i % 8); }

static void push(struct values *values, int64_t number, int valid, const char *name) {
    if (values->count == values->most) stop("%s: more than %zu values", name, values->most);
    values->numbers[values->count] = number;
    if (valid) set_bit(values->valid, values->count);
    values->count++;
}

/* Reads a number or null. */
static void read_value(struct text *text, struct values *values) {
    int64_t least, number = 0; /* below 0 until its sign is put on: the smallest number has no opposite */
    size_t start;
    if (take_word(text, "null")) {
        push(values, 0, 0, text->name);
        return;
    }
    skip_spaces(text);
    start = text->at;
    least = take(text, '-') ? INT64_MIN : -INT64_MAX;
    if (!is_digit(next(text))) stop_at(text, start, "expected a number or null");
    for (; is_digit(next(text)); text->at++) {
        const int digit = next(text) - '0';
        if (number < (least + digit) / 10) stop_at(text, start, "the number does not fit 64 signed bits");
        number = number * 10 - digit;
    }
    push(values, least == INT64_MIN ? number : -number, 1, text->name);
}

/* Reads values between commas, up to the end of the text. */
static void read_values(struct text *text, struct values *values) {
    do read_value(text, values);
    while (take(text, ','));
    if (next(text) >= 0) stop_at(text, text->at, "expected a comma or the end");
}

/* Makes the one value from `first` on as many as there are rows; more than one stay as they are. */
static void spread(struct values *values, size_t first, size_t rows, const char *name) {
    const int valid = values->valid[first / 8] >> first % 8 & 1;
    if (values->count - first != 1) return;
    if (rows == 0) values->count = first;
    while (values->count - first < rows) push(values, values->numbers[first], valid, name);
}

static duthlan_values lent(const struct values *values) {
    const duthlan_values column = {values->numbers, values->count, {values->valid, DUTHLAN_BITMAP_BYTES(values->count), 0}};
    return column;
}

/* The buffers of a list column: an input, a tray or the output. */
struct column {
    int32_t offsets[MOST_ROWS + 1];
    uint8_t rows[DUTHLAN_BITMAP_BYTES(MOST_ROWS)];
    int64_t values[MOST_ELEMENTS];
    uint8_t elements[DUTHLAN_BITMAP_BYTES(MOST_ELEMENTS)];
};

static duthlan_out room(struct column *column) {
    const duthlan_out out = {column->offsets, LENGTH(column->offsets), column->rows,     LENGTH(column->rows),
                             column->values,  LENGTH(column->values),  column->elements, LENGTH(column->elements)};
    return out;
}

/* Reads rows, up to the end of the text, into a column. */
static duthlan_list read_rows(struct text *text, struct column *column) {
    struct values elements = {column->values, column->elements, 0, MOST_ELEMENTS};
    const duthlan_out whole = room(column);
    duthlan_counts counts = {0, 0, 0, 0};
    for (skip_spaces(text); next(text) >= 0; skip_spaces(text)) {
        if (counts.rows == MOST_ROWS) stop("%s: more than %d rows", text->name, MOST_ROWS);
        if (!take_word(text, "null")) {
            if (!take(text, '[')) stop_at(text, text->at, "expected [ or null");
            if (!take(text, ']')) {
                do read_value(text, &elements);
                while (take(text, ','));
                if (!take(text, ']')) stop_at(text, text->at, "expected a comma or ]");
            }
            set_bit(column->rows, counts.rows);
        }
        counts.elements = elements.count;
        column->offsets[++counts.rows] = (int32_t)elements.count;
    }
    return duthlan_written(&whole, &counts);
}

/* The text of an argument, or of standard input where that is - or is not there. */
static struct text text_of(const char *name, const char *argument) {
    static char input[MOST_BYTES + 1];
    static int is_read = 0;
    struct text text = {name, argument, 0, 0};
    if (argument && strcmp(argument, "-") != 0) {
        text.end = strlen(argument);
        return text;
    }
    if (is_read) stop("standard input can be read once");
    is_read = 1;
    text.bytes = input;
    text.end = fread(input, 1, sizeof input, stdin);
    if (text.end > MOST_BYTES) stop("standard input: more than %d bytes", MOST_BYTES);
    return text;
}

/* ---- Recipes ------------------------------------------------------------------------------------------------------------- */

static const struct step {
    const char *name;
    uint32_t code;
    size_t columns;
} step_names[] = {{"reverse", 0, 0}, {"distinct", 1, 0}, {"pop_front", 2, 0}, {"pop_back", 3, 0}, {"slice", 4, 3},
                  {"resize", 6, 2},  {"replace", 7, 3},  {"remove", 8, 2},    {"union", 9, 0},    {"intersect", 10, 0}};

/* A recipe's numbers and argument columns. Arguments of equal text share a column. */
struct recipe {
    uint32_t numbers[4 * MOST_STEPS];
    size_t steps;
    struct values arguments;
    struct text columns[MOST_COLUMNS];
    size_t column_count;
    size_t rows;
};

/* Reads an argument of a step, up to a space or a semicolon, and gives the number of its column. */
static uint32_t read_column(struct text *text, struct recipe *recipe) {
    struct text column = *text;
    const size_t first = recipe->arguments.count;
    size_t k;
    while (next(text) >= 0 && !is_space(next(text)) && next(text) != ';') text->at++;
    column.end = text->at;
    for (k = 0; k < recipe->column_count; k++) {
        const struct text *other = &recipe->columns[k];
        const size_t length = column.end - column.at;
        if (other->end - other->at == length && memcmp(other->bytes + other->at, column.bytes + column.at, length) == 0)
            return (uint32_t)k;
    }
    if (k == MOST_COLUMNS) stop("%s: more than %d different arguments", text->name, MOST_COLUMNS);
    recipe->columns[recipe->column_count++] = column;
    read_values(&column, &recipe->arguments);
    spread(&recipe->arguments, first, recipe->rows, text->name);
    if (recipe->arguments.count - first != recipe->rows)
        stop_at(text, recipe->columns[k].at, "expected one value, or one for each row");
    return (uint32_t)k;
}

static void read_step(struct text *text, struct recipe *recipe, int has_second) {
    uint32_t *numbers = recipe->numbers + 4 * recipe->steps;
    const struct step *step = NULL;
    size_t start, i, columns = 0;
    skip_spaces(text);
    start = text->at;
    for (i = 0; i < LENGTH(step_names) && !step; i++)
        if (take_word(text, step_names[i].name)) step = &step_names[i];
    if (!step) {
        stop_at(text, start, "expected the name of a step");
        return;
    }
    if (recipe->steps++ == MOST_STEPS) stop("%s: more than %d steps", text->name, MOST_STEPS);
    if (step->code >= 9 && !has_second) stop_at(text, start, "this step needs second rows");
    for (skip_spaces(text); next(text) >= 0 && next(text) != ';'; skip_spaces(text)) {
        if (columns == step->columns) stop_at(text, text->at, "too many arguments");
        numbers[++columns] = read_column(text, recipe);
    }
    numbers[0] = step->code;
    if (step->code == 4 && columns == 2) numbers[0] = 5; /* a slice without stride */
    else if (columns < step->columns) stop_at(text, start, "too few arguments");
}

/* Reads steps between semicolons, or none. */
static void read_recipe(struct text *text, struct recipe *recipe, int has_second) {
    skip_spaces(text);
    if (next(text) < 0) return;
    do read_step(text, recipe, has_second);
    while (take(text, ';'));
}

/* ---- Printing ------------------------------------------------------------------------------------------------------------ */

static void print_value(const int64_t *values, duthlan_bits valid, size_t i) {
    if (duthlan_is_valid(valid, i)) printf("%" PRId64, values[i]);
    else printf("null");
}

static void print_row(const duthlan_list *list, size_t row) {
    const size_t from = (size_t)list->offsets[row], to = (size_t)list->offsets[row + 1];
    size_t i;
    if (!duthlan_is_valid(list->rows, row)) {
        printf("null");
        return;
    }
    putchar('[');
    for (i = from; i < to; i++) {
        if (i > from) printf(", ");
        print_value(list->values, list->elements, i);
    }
    putchar(']');
}

static void print_counts(const duthlan_counts *counts) {
    printf("rows %" PRIu64 ", elements %" PRIu64 ", null rows %" PRIu64 ", null elements %" PRIu64, counts->rows, counts->elements,
           counts->null_rows, counts->null_elements);
}

static int refused(uint32_t number) {
    fprintf(stderr, "refused (%" PRIu32 "): %s\n", number, duthlan_refusal(number));
    return 1;
}

/* ---- The command line ---------------------------------------------------------------------------------------------------- */

static const struct operation {
    const char *name;
    const char *options[3];
    size_t needed; /* the first so many of its options must be given */
    size_t least, most; /* how many texts it takes: ROWS, and a recipe's steps */
} operations[] = {
    {"reverse", {NULL, NULL, NULL}, 0, 0, 1},
    {"distinct", {NULL, NULL, NULL}, 0, 0, 1},
    {"pop_front", {NULL, NULL, NULL}, 0, 0, 1},
    {"pop_back", {NULL, NULL, NULL}, 0, 0, 1},
    {"slice", {"--from", "--to", "--stride"}, 2, 0, 1},
    {"resize", {"--count", "--fill", NULL}, 1, 0, 1},
    {"replace", {"--from", "--to", "--limit"}, 3, 0, 1},
    {"remove", {"--element", "--limit", NULL}, 2, 0, 1},
    {"union", {NULL, NULL, NULL}, 0, 2, 2},
    {"intersect", {NULL, NULL, NULL}, 0, 2, 2},
    {"any_value", {NULL, NULL, NULL}, 0, 0, 1},
    {"element", {"--index", NULL, NULL}, 1, 0, 1},
    {"list_repeat", {"--count", NULL, NULL}, 1, 0, 1},
    {"recipe", {"--station", NULL, NULL}, 0, 1, 3},
};

struct call {
    const struct operation *operation;
    const char *options[3]; /* the VALUES given */
    const char *texts[3];
    size_t text_count;
    int wants_counts;
};

static struct call read_command(int count, char **words) {
    struct call call = {NULL, {NULL, NULL, NULL}, {NULL, NULL, NULL}, 0, 0};
    size_t k;
    int i;
    if (count < 2 || strcmp(words[1], "--help") == 0) {
        fputs(usage, count < 2 ? stderr : stdout);
        exit(count < 2 ? 2 : 0);
    }
    for (k = 0; k < LENGTH(operations); k++)
        if (strcmp(words[1], operations[k].name) == 0) call.operation = &operations[k];
    if (!call.operation) {
        stop("no operation is named %s; rows --help lists them", words[1]);
        return call;
    }
    for (i = 2; i < count; i++) {
        if (strcmp(words[i], "--counts") == 0) {
            call.wants_counts = 1;
        } else if (strncmp(words[i], "--", 2) == 0) {
            for (k = 0; k < 3; k++)
                if (call.operation->options[k] && strcmp(words[i], call.operation->options[k]) == 0) break;
            if (k == 3) stop("%s takes no %s", words[1], words[i]);
            else if (call.options[k]) stop("%s stands twice", words[i]);
            else if (i + 1 == count) stop("%s needs a value", words[i]);
            else call.options[k] = words[++i];
        } else {
            if (call.text_count == call.operation->most) stop("%s takes no more than what stands before %s", words[1], words[i]);
            call.texts[call.text_count++] = words[i];
        }
    }
    for (k = 0; k < call.operation->needed; k++)
        if (!call.options[k]) stop("%s needs %s", words[1], call.operation->options[k]);
    if (call.text_count < call.operation->least) stop("%s needs more; rows --help says what", words[1]);
    return call;
}

/* ---- The operations ------------------------------------------------------------------------------------------------------ */

/* What a call works on. `second` is NULL where no second rows were given, and an argument where its option was not. */
struct inputs {
    duthlan_list list;
    const duthlan_list *second;
    const duthlan_values *argument[3];
};

/* Runs a recipe, given by its steps. */
static uint32_t make_by_recipe(const struct call *call, const struct inputs *in, const duthlan_out *out, duthlan_counts *counts) {
    static int64_t numbers[MOST_COLUMNS * MOST_ROWS];
    static uint8_t valid[DUTHLAN_BITMAP_BYTES(MOST_COLUMNS * MOST_ROWS)];
    static struct column tray_one, tray_two;
    static struct recipe recipe;
    const duthlan_out one = room(&tray_one), two = room(&tray_two);
    struct text text = {"recipe", call->texts[0], strlen(call->texts[0]), 0};
    duthlan_values arguments;
    uint32_t station = 0;
    if (in->argument[0]) {
        const int64_t number = in->argument[0]->values[0];
        const int is_one = in->argument[0]->value_count == 1 && duthlan_is_valid(in->argument[0]->valid, 0);
        if (!is_one || number < 0 || number > UINT32_MAX) stop("--station: expected one number from 0 to 4294967295");
        station = (uint32_t)number;
    }
    recipe.arguments.numbers = numbers;
    recipe.arguments.valid = valid;
    recipe.arguments.most = LENGTH(numbers);
    recipe.rows = in->list.offset_count - 1;
    read_recipe(&text, &recipe, in->second != NULL);
    arguments = lent(&recipe.arguments);
    return duthlan_recipe(station, recipe.numbers, 4 * recipe.steps, &in->list, in->second, &arguments, recipe.column_count, &one,
                          &two, out, counts, NULL);
}

/* Runs an operation that makes lists, and prints them. */
static int make_lists(const struct call *call, const struct inputs *in) {
    static struct column result;
    const char *name = call->operation->name;
    const duthlan_list *list = &in->list;
    const duthlan_values *const *argument = in->argument;
    const duthlan_out out = room(&result);
    duthlan_counts counts = {0, 0, 0, 0};
    duthlan_list rows;
    uint32_t number;
    size_t row;
    if (strcmp(name, "reverse") == 0) number = duthlan_reverse(list, &out, &counts);
    else if (strcmp(name, "distinct") == 0) number = duthlan_distinct(list, &out, &counts);
    else if (strcmp(name, "pop_front") == 0) number = duthlan_pop_front(list, &out, &counts);
    else if (strcmp(name, "pop_back") == 0) number = duthlan_pop_back(list, &out, &counts);
    else if (strcmp(name, "slice") == 0) number = duthlan_slice(list, argument[0], argument[1], argument[2], &out, &counts);
    else if (strcmp(name, "resize") == 0) number = duthlan_resize(list, argument[0], argument[1], &out, &counts);
    else if (strcmp(name, "replace") == 0) number = duthlan_replace(list, argument[0], argument[1], argument[2], &out, &counts);
    else if (strcmp(name, "remove") == 0) number = duthlan_remove(list, argument[0], argument[1], &out, &counts);
    else if (strcmp(name, "union") == 0) number = duthlan_union(list, in->second, &out, &counts);
    else if (strcmp(name, "intersect") == 0) number = duthlan_intersect(list, in->second, &out, &counts);
    else number = make_by_recipe(call, in, &out, &counts);
    if (number != DUTHLAN_ACCEPTED) return refused(number);
    rows = duthlan_written(&out, &counts);
    for (row = 0; row < counts.rows; row++) {
        if (row > 0) putchar(' ');
        print_row(&rows, row);
    }
    putchar('\n');
    if (call->wants_counts) {
        print_counts(&counts);
        putchar('\n');
    }
    return 0;
}

/* Runs an operation that makes a value a row, and prints these. */
static int make_values(const struct call *call, const struct inputs *in) {
    static int64_t values[MOST_ROWS];
    static uint8_t rows[DUTHLAN_BITMAP_BYTES(MOST_ROWS)];
    const duthlan_value_out out = {values, LENGTH(values), rows, LENGTH(rows)};
    const duthlan_bits valid = {rows, LENGTH(rows), 0};
    duthlan_value_counts counts = {0, 0};
    uint32_t number;
    size_t row;
    if (strcmp(call->operation->name, "element") == 0) number = duthlan_element(&in->list, in->argument[0], &out, &counts);
    else number = duthlan_any_value(&in->list, &out, &counts);
    if (number != DUTHLAN_ACCEPTED) return refused(number);
    for (row = 0; row < counts.rows; row++) {
        if (row > 0) putchar(' ');
        print_value(values, valid, row);
    }
    putchar('\n');
    if (call->wants_counts) printf("rows %" PRIu64 ", null rows %" PRIu64 "\n", counts.rows, counts.null_rows);
    return 0;
}

/* Runs list-repeat, and prints the lists of lists that it makes. */
static int make_nested(const struct call *call, const struct inputs *in) {
    static int32_t offsets[MOST_ROWS + 1], inner_offsets[MOST_ELEMENTS + 1];
    static uint8_t rows[DUTHLAN_BITMAP_BYTES(MOST_ROWS)], inner_rows[DUTHLAN_BITMAP_BYTES(MOST_ELEMENTS)];
    static int64_t values[MOST_ELEMENTS];
    static uint8_t elements[DUTHLAN_BITMAP_BYTES(MOST_ELEMENTS)];
    const duthlan_repeat_out out = {
        offsets, LENGTH(offsets), rows, LENGTH(rows), inner_offsets, LENGTH(inner_offsets), inner_rows, LENGTH(inner_rows),
        values, LENGTH(values), elements, LENGTH(elements)};
    const duthlan_list inner = {inner_offsets, LENGTH(inner_offsets), {inner_rows, LENGTH(inner_rows), 0},
                                values, LENGTH(values), {elements, LENGTH(elements), 0}};
    const duthlan_bits valid = {rows, LENGTH(rows), 0};
    duthlan_repeat_counts counts = {0, 0, 0, 0, 0, 0};
    const uint32_t number = duthlan_list_repeat(&in->list, in->argument[0], &out, &counts);
    size_t row;
    int32_t i;
    if (number != DUTHLAN_ACCEPTED) return refused(number);
    for (row = 0; row < counts.rows; row++) {
        if (row > 0) putchar(' ');
        if (!duthlan_is_valid(valid, row)) {
            printf("null");
            continue;
        }
        putchar('[');
        for (i = offsets[row]; i < offsets[row + 1]; i++) {
            if (i > offsets[row]) printf(", ");
            print_row(&inner, (size_t)i);
        }
        putchar(']');
    }
    putchar('\n');
    if (call->wants_counts) {
        const duthlan_counts four = {counts.rows, counts.elements, counts.null_rows, counts.null_elements};
        print_counts(&four);
        printf(", inner rows %" PRIu64 ", null inner rows %" PRIu64 "\n", counts.inner_rows, counts.null_inner_rows);
    }
    return 0;
}

int main(int count, char **words) {
    static struct column first_column, second_column;
    static int64_t numbers[3][MOST_ROWS];
    static uint8_t valid[3][DUTHLAN_BITMAP_BYTES(MOST_ROWS)];
    const struct call call = read_command(count, words);
    const char *name = call.operation->name;
    const size_t steps = strcmp(name, "recipe") == 0; /* the first text of a recipe is its steps */
    struct text text = text_of("rows", call.texts[steps]);
    struct inputs in = {read_rows(&text, &first_column), NULL, {NULL, NULL, NULL}};
    duthlan_list second;
    duthlan_values columns[3];
    size_t k;
    if (call.text_count == steps + 2) {
        text = text_of("second rows", call.texts[steps + 1]);
        second = read_rows(&text, &second_column);
        in.second = &second;
    }
    for (k = 0; k < 3; k++) {
        struct values values = {numbers[k], valid[k], 0, MOST_ROWS};
        if (!call.options[k]) continue;
        text = text_of(call.operation->options[k], call.options[k]);
        read_values(&text, &values);
        if (!steps) spread(&values, 0, in.list.offset_count - 1, text.name);
        columns[k] = lent(&values);
        in.argument[k] = &columns[k];
    }
    if (strcmp(name, "any_value") == 0 || strcmp(name, "element") == 0) return make_values(&call, &in);
    if (strcmp(name, "list_repeat") == 0) return make_nested(&call, &in);
    return make_lists(&call, &in);
}
