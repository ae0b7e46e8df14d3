/*
 * Measures how much stack each call uses, and compares with what norbelath.h states. A call runs in a thread whose stack
 * was filled with one byte before; what is no longer that byte was used. The inputs are those that go deepest: combs of
 * 64 leaves in either direction, tables of 160 of them, copies, unrooted trees whose top has to be turned, texts that are
 * refused at full depth, the longest row, and an index that is empty, almost full, full or damaged.
 *
 * The exit status is 1 where a call uses more than is stated. It is 1 too where it uses less than half of that, as the
 * number or this measurement is wrong then. The stated numbers are for x86-64: on another machine only more than twice
 * as much is wrong.
 */
/* For pthread_attr_setstack. */
#define _XOPEN_SOURCE 700

#include <pthread.h>
#include <stdio.h>
#include <stdlib.h>
#include <string.h>

#include "norbelath.h"

#if defined(__x86_64__)
enum { STATED_HERE = 1 };
#else
enum { STATED_HERE = 0 };
#endif

/* A stack that is more than twice what any call needs, and the byte that it is filled with. */
enum { STACK = 1024 * 1024, PAINT = 0xA5 };

/* What the calls are given: a text and another, a row and another, an index and a number. */
static char text[NORBELATH_MAX_TEXT + 1], other[NORBELATH_MAX_TEXT + 1];
static size_t text_len, other_len;
static uint64_t row[NORBELATH_ROW], other_row[NORBELATH_ROW];
static size_t row_len, other_row_len;
static uint8_t memory[NORBELATH_INDEX_BYTES];
static size_t number;

/* What they write into. */
static uint8_t out[NORBELATH_SHEET_OUT];
static uint32_t ends[NORBELATH_TABLE_ENDS];
static uint16_t pairs[NORBELATH_GRAPH_PAIRS], counts[NORBELATH_GRAPH_COUNTS], firsts[NORBELATH_GRAPH_FIRSTS];
static uint16_t islands[NORBELATH_ISLANDS], trees[NORBELATH_SUPPORT_TREES], columns[NORBELATH_PLOT_COLUMNS];
static uint16_t list[NORBELATH_INDEX_LIST];
static uint64_t clades[NORBELATH_SUPPORT_CLADES], row_out[NORBELATH_ROW];
static double rows[NORBELATH_PLOT_ROWS];
static uint64_t first, second, third;
static uint8_t result;

#define TEXT (const uint8_t *)text, text_len
#define LENT(slice) slice, sizeof slice / sizeof slice[0]

static void form(void)
{
    result = norbelath_form(TEXT, LENT(out), &first, &second);
}

static void cut(void)
{
    result = norbelath_cut(TEXT, number, LENT(out), &first, &second);
}

static void pair(void)
{
    result = norbelath_pair(TEXT, (const uint8_t *)other, other_len, &first, &second);
}

static void table(void)
{
    result = norbelath_table(TEXT, LENT(out), LENT(ends), &first, &second);
}

static void graph(void)
{
    result = norbelath_graph(TEXT, LENT(pairs), LENT(counts), LENT(firsts), &first, &second);
}

static void graph_choosing(void)
{
    result = norbelath_graph_choosing(TEXT, NORBELATH_KEEP_COPIES, LENT(pairs), LENT(counts), LENT(firsts), &first,
                                      &second);
}

static void interchanges(void)
{
    result = norbelath_interchanges(TEXT, LENT(pairs), LENT(counts), &first, &second);
}

static void call_islands(void)
{
    result = norbelath_islands(TEXT, LENT(pairs), LENT(counts), LENT(firsts), LENT(islands), &first, &second);
}

static void support(void)
{
    result = norbelath_support(TEXT, LENT(clades), LENT(trees), LENT(out), &first, &second, &third);
}

static void call_row(void)
{
    result = norbelath_row(TEXT, LENT(row_out), &first, &second);
}

static void row_text(void)
{
    result = norbelath_row_text(row, row_len, LENT(out), &first, &second);
}

static void row_pair(void)
{
    result = norbelath_row_pair(row, row_len, other_row, other_row_len, &first, &second);
}

static void plot(void)
{
    result = norbelath_plot(TEXT, LENT(rows), LENT(columns), &first, &second);
}

static void index_add(void)
{
    result = norbelath_index_add(LENT(memory), TEXT, &first, &second);
}

static void index_neighbours(void)
{
    result = norbelath_index_neighbours(LENT(memory), number, LENT(list), &first, &second);
}

static void index_remove(void)
{
    result = norbelath_index_remove(LENT(memory), number, &first, &second);
}

static void sheet(void)
{
    result = norbelath_sheet(TEXT, LENT(out), &first, &second);
}

/* A call, what norbelath.h states, the most that it used, and whether it was ever accepted. */
struct call {
    const char *name;
    void (*run)(void);
    size_t stated, used;
    int accepted;
};

/* Where two of them stand in the list; from the index add call on they are the calls on an index. */
enum { CUT = 1, ADD = 14, CALLS = 17 };

static struct call calls[CALLS] = {
    {"form", form, NORBELATH_FORM_STACK, 0, 0},
    {"cut", cut, NORBELATH_CUT_STACK, 0, 0},
    {"pair", pair, NORBELATH_PAIR_STACK, 0, 0},
    {"table", table, NORBELATH_TABLE_STACK, 0, 0},
    {"graph", graph, NORBELATH_GRAPH_STACK, 0, 0},
    {"graph_choosing", graph_choosing, NORBELATH_GRAPH_CHOOSING_STACK, 0, 0},
    {"interchanges", interchanges, NORBELATH_INTERCHANGES_STACK, 0, 0},
    {"islands", call_islands, NORBELATH_ISLANDS_STACK, 0, 0},
    {"support", support, NORBELATH_SUPPORT_STACK, 0, 0},
    {"row", call_row, NORBELATH_ROW_STACK, 0, 0},
    {"row_text", row_text, NORBELATH_ROW_TEXT_STACK, 0, 0},
    {"row_pair", row_pair, NORBELATH_ROW_PAIR_STACK, 0, 0},
    {"plot", plot, NORBELATH_PLOT_STACK, 0, 0},
    {"sheet", sheet, NORBELATH_SHEET_STACK, 0, 0},
    {"index_add", index_add, NORBELATH_INDEX_ADD_STACK, 0, 0},
    {"index_neighbours", index_neighbours, NORBELATH_INDEX_NEIGHBOURS_STACK, 0, 0},
    {"index_remove", index_remove, NORBELATH_INDEX_REMOVE_STACK, 0, 0},
};

static void stop(const char *what)
{
    fprintf(stderr, "stack: %s\n", what);
    exit(2);
}

/* Where the stack of a call begins. What the thread itself needs lies above. */
static uint8_t *begin;

static void *run_in_thread(void *call)
{
    uint8_t here = 0;
    begin = &here;
    ((struct call *)call)->run();
    return NULL;
}

static void measure(struct call *call)
{
    static _Alignas(65536) uint8_t stack[STACK];
    pthread_attr_t attributes;
    pthread_t thread;
    size_t lowest = 0;
    memset(stack, PAINT, sizeof stack);
    if (pthread_attr_init(&attributes) != 0 || pthread_attr_setstack(&attributes, stack, sizeof stack) != 0 ||
        pthread_create(&thread, &attributes, run_in_thread, call) != 0 || pthread_join(thread, NULL) != 0) {
        stop("no thread could be run on a stack of its own");
    }
    pthread_attr_destroy(&attributes);
    while (stack[lowest] == PAINT) {
        lowest++;
    }
    const size_t used = (size_t)(begin - (stack + lowest));
    call->used = used > call->used ? used : call->used;
    call->accepted |= result == NORBELATH_ACCEPTED;
}

/* Combs of 64 leaves, with their labels going round 1 to 64 by an odd number at a step, written in several ways. */
enum shape { LEFT, RIGHT, UNROOTED_LEFT, UNROOTED_RIGHT, SHAPES };

static unsigned label_at(unsigned from, unsigned by, unsigned steps)
{
    return 1 + (from + steps * by) % NORBELATH_MAX_LABEL;
}

/* Writes a comb with all brackets at its start, ((1,2),3); or at its end, (1,(2,3)); and gives its end. */
static char *write_left(char *at, unsigned from, unsigned by, unsigned leaves)
{
    memset(at, '(', leaves - 1);
    at += leaves - 1;
    at += sprintf(at, "%u", label_at(from, by, 0));
    for (unsigned steps = 1; steps < leaves; steps++) {
        at += sprintf(at, ",%u)", label_at(from, by, steps));
    }
    return at;
}

static char *write_right(char *at, unsigned from, unsigned by, unsigned leaves)
{
    for (unsigned steps = 0; steps + 1 < leaves; steps++) {
        at += sprintf(at, "(%u,", label_at(from, by, steps));
    }
    at += sprintf(at, "%u", label_at(from, by, leaves - 1));
    memset(at, ')', leaves - 1);
    return at + leaves - 1;
}

/* An unrooted one has the last two labels beside a comb of the others. */
static char *write_tree(char *at, enum shape shape, unsigned from, unsigned by)
{
    if (shape == LEFT || shape == RIGHT) {
        at = (shape == LEFT ? write_left : write_right)(at, from, by, NORBELATH_MAX_LABEL);
    } else {
        at += sprintf(at, "[&U](");
        at = (shape == UNROOTED_LEFT ? write_left : write_right)(at, from, by, NORBELATH_MAX_LABEL - 2);
        at += sprintf(at, ",%u,%u)", label_at(from, by, 62), label_at(from, by, 63));
    }
    *at++ = ';';
    return at;
}

/* The tree at a position of a table in which no two topologies are the same. */
static char *write_position(char *at, enum shape shape, unsigned position)
{
    return write_tree(at, shape, position % NORBELATH_MAX_LABEL, 1 + 2 * (position / NORBELATH_MAX_LABEL));
}

/* All calls that take a text or a row. The index is empty. */
static void measure_texts(void)
{
    memset(memory, 0, sizeof memory);
    for (int i = 0; i <= ADD; i++) {
        measure(&calls[i]);
    }
}

/* The rows of the text and the other one where they have them, and else what they were. */
static void make_rows(void)
{
    if (norbelath_row(TEXT, LENT(row_out), &first, &second) == NORBELATH_ACCEPTED) {
        memcpy(row, row_out, sizeof row);
        row_len = first;
    }
    if (norbelath_row((const uint8_t *)other, other_len, LENT(row_out), &first, &second) == NORBELATH_ACCEPTED) {
        memcpy(other_row, row_out, sizeof other_row);
        other_row_len = first;
    }
}

/* One tree beside others, and each of its cuts. */
static void single_trees(enum shape shape, unsigned from, unsigned by)
{
    text_len = (size_t)(write_tree(text, shape, from, by) - text);
    for (unsigned beside = 0; beside < 3; beside++) {
        other_len = (size_t)(write_position(other, shape, NORBELATH_MAX_LABEL * beside) - other);
        make_rows();
        measure_texts();
    }
    for (number = 0; number < 2 * NORBELATH_MAX_LABEL - 2; number++) {
        measure(&calls[CUT]);
    }
}

/* Refused at any depth: a text that ends too soon, and one bracket more than may be open. */
static void refused_trees(enum shape shape)
{
    const size_t len = (size_t)(write_position(text, shape, 0) - text);
    memcpy(other, text, len);
    other_len = len;
    for (text_len = 0; text_len < len; text_len += 23) {
        measure_texts();
    }
    text_len = NORBELATH_MAX_DEPTH + 1;
    memset(text, '(', text_len);
    measure_texts();
}

/* 160 trees of so many topologies; then without the end of the last one, and with one more. */
static void tables(enum shape shape, unsigned topologies)
{
    char *at = text;
    for (unsigned i = 0; i < NORBELATH_MAX_TREES; i++) {
        at = write_position(at, shape, i % topologies);
    }
    text_len = (size_t)(at - text);
    measure_texts();
    text_len -= 2;
    measure_texts();
    text_len = (size_t)(write_position(at, shape, 0) - text);
    measure_texts();
}

static void add_tree(enum shape shape, unsigned position)
{
    text_len = (size_t)(write_position(text, shape, position) - text);
    index_add();
    if (result != NORBELATH_ACCEPTED) {
        stop("a tree could not be added");
    }
}

static void measure_index(void)
{
    static uint8_t before[NORBELATH_INDEX_BYTES];
    static const size_t numbers[] = {0, NORBELATH_MAX_TREES - 1};
    memcpy(before, memory, sizeof memory);
    for (size_t i = 0; i < sizeof numbers / sizeof numbers[0]; i++) {
        number = numbers[i];
        for (int call = ADD; call < CALLS; call++) {
            measure(&calls[call]);
            memcpy(memory, before, sizeof memory);
        }
    }
}

/* An index with room for one more tree of 64 leaves, a full one and a damaged one. */
static void indices(enum shape shape)
{
    const unsigned last = NORBELATH_MAX_TREES - 1;
    memset(memory, 0, sizeof memory);
    for (unsigned position = 0; position < last; position++) {
        add_tree(shape, position);
    }
    measure_index();
    add_tree(shape, last);
    measure_index();
    memory[NORBELATH_INDEX_BYTES - 1] ^= 1;
    measure_index();
}

/* A call that was never accepted was not measured at its deepest. */
static int is_wrong(struct call call)
{
    if (!call.accepted) {
        return 1;
    }
    return STATED_HERE ? call.used > call.stated || call.used < call.stated / 2 : call.used > 2 * call.stated;
}

int main(void)
{
    int wrong = 0;
    for (enum shape shape = 0; shape < SHAPES; shape++) {
        single_trees(shape, 0, 1);
        single_trees(shape, 1, 63);
        single_trees(shape, 40, 3);
        refused_trees(shape);
        tables(shape, NORBELATH_MAX_TREES);
        tables(shape, 1);
    }
    indices(LEFT);
    indices(RIGHT);

    printf("stack in bytes     used  stated\n");
    for (int i = 0; i < CALLS; i++) {
        const struct call call = calls[i];
        printf("%-16s %6zu  %6zu%s\n", call.name, call.used, call.stated, is_wrong(call) ? "  wrong" : "");
        wrong |= is_wrong(call);
    }
    if (!STATED_HERE) {
        printf("what is stated is for x86-64; here only more than twice as much is wrong\n");
    }
    return wrong;
}
