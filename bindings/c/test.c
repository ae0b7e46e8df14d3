/*
 * Calls each function of the library and compares with known answers. Prints for each call the refusals that it gave, in
 * a line `norbelath_form refuses 1 2 3`. The exit status is 1 if an answer differs.
 */
#include <stdio.h>
#include <stdlib.h>
#include <string.h>

#include "norbelath.h"

/* What lent memory holds before a call, to see what a call changed. */
#define UNTOUCHED 0xA5

/* Bytes of the longest canonical text of a rooted tree, and of an unrooted one. */
#define LONGEST 309
#define LONGEST_UNROOTED 311

static int checks;
static int failures;

static void check(int holds, const char *call, const char *text, const char *what)
{
    checks++;
    if (!holds) {
        failures++;
        printf("%s of %.40s: %s\n", call, text, what);
    }
}

static int untouched(const void *memory, size_t from, size_t to)
{
    const uint8_t *bytes = memory;
    for (size_t i = from; i < to; i++) {
        if (bytes[i] != UNTOUCHED) {
            return 0;
        }
    }
    return 1;
}

/* The exported calls, and which results each of them gave. */
static struct {
    const char *name;
    uint8_t gave[UINT8_MAX + 1];
} seen[] = {
    {"form", {0}}, {"cut", {0}}, {"pair", {0}}, {"table", {0}}, {"graph", {0}}, {"graph_choosing", {0}},
    {"interchanges", {0}}, {"islands", {0}}, {"support", {0}}, {"row", {0}}, {"row_text", {0}}, {"row_pair", {0}},
    {"plot", {0}}, {"index_add", {0}}, {"index_neighbours", {0}}, {"index_remove", {0}}, {"sheet", {0}},
};

#define SEEN (sizeof seen / sizeof seen[0])

/* Notes the result of a call, and gives it. */
static uint8_t noted(const char *call, uint8_t result)
{
    size_t i = 0;
    while (strcmp(seen[i].name, call) != 0) {
        i++;
    }
    seen[i].gave[result] = 1;
    return result;
}

static void print_refusals(void)
{
    for (size_t i = 0; i < SEEN; i++) {
        printf("norbelath_%s refuses", seen[i].name);
        for (unsigned number = 1; number <= UINT8_MAX; number++) {
            if (seen[i].gave[number]) {
                printf(" %u", number);
            }
        }
        printf("\n");
    }
}

/* The result and the two numbers of a call. */
struct reply {
    uint8_t result;
    uint64_t first;
    uint64_t second;
};

static int same(struct reply r, uint8_t result, uint64_t first, uint64_t second)
{
    return r.result == result && r.first == first && r.second == second;
}

/* Form call, cut call and sheet call: `expected` is the text, or NULL where the refusal is expected. */
static void text_answer(const char *call, const char *text, struct reply r, const uint8_t *out, size_t out_len,
                        const char *expected, uint8_t number, uint64_t place)
{
    if (expected == NULL) {
        check(same(r, number, 0, place), call, text, "another refusal was expected");
        check(untouched(out, 0, out_len), call, text, "a refusal changed the slice");
        return;
    }
    size_t bytes = strlen(expected);
    check(same(r, NORBELATH_ACCEPTED, bytes, 0), call, text, "another answer was expected");
    check(memcmp(out, expected, bytes) == 0, call, text, "another text was expected");
    check(untouched(out, bytes, out_len), call, text, "the slice was changed behind the text");
}

static void form(const char *text, size_t out_len, const char *expected, uint8_t number, uint64_t place)
{
    uint8_t out[NORBELATH_FORM_OUT + 1];
    struct reply r = {99, 99, 99};
    memset(out, UNTOUCHED, sizeof out);
    r.result = noted("form", norbelath_form((const uint8_t *)text, strlen(text), out, out_len, &r.first, &r.second));
    text_answer("form", text, r, out, sizeof out, expected, number, place);
}

static void cut(const char *text, uint64_t number_of_cut, size_t out_len, const char *expected, uint8_t number,
                uint64_t place)
{
    uint8_t out[NORBELATH_CUT_OUT + 1];
    struct reply r = {99, 99, 99};
    memset(out, UNTOUCHED, sizeof out);
    r.result = noted("cut", norbelath_cut((const uint8_t *)text, strlen(text), number_of_cut, out, out_len, &r.first,
                                          &r.second));
    text_answer("cut", text, r, out, sizeof out, expected, number, place);
}

static void pair(const char *text, const char *other, uint8_t result, uint64_t first, uint64_t second)
{
    struct reply r = {99, 99, 99};
    r.result = noted("pair", norbelath_pair((const uint8_t *)text, strlen(text), (const uint8_t *)other,
                                            strlen(other), &r.first, &r.second));
    check(same(r, result, first, second), "pair", text, "another answer was expected");
}

static uint8_t texts[NORBELATH_TABLE_TEXTS];
static uint32_t ends[NORBELATH_TABLE_ENDS];
/* The slices of the calls that list pairs, each with one number more than is asked for. */
static uint16_t pairs[NORBELATH_GRAPH_PAIRS + 1];
static uint16_t counts[NORBELATH_GRAPH_COUNTS + 1];
static uint16_t first_of[NORBELATH_GRAPH_FIRSTS + 1];
static uint16_t island_of[NORBELATH_ISLANDS + 1];

static struct reply table(const char *text, size_t text_len, size_t texts_len, size_t ends_len)
{
    struct reply r = {99, 99, 99};
    memset(texts, UNTOUCHED, sizeof texts);
    memset(ends, UNTOUCHED, sizeof ends);
    r.result = noted("table", norbelath_table((const uint8_t *)text, text_len, texts, texts_len, ends, ends_len,
                                              &r.first, &r.second));
    return r;
}

static void table_refused(const char *text, size_t text_len, size_t texts_len, size_t ends_len, uint8_t number,
                          uint64_t place)
{
    struct reply r = table(text, text_len, texts_len, ends_len);
    check(same(r, number, 0, place), "table", text, "another refusal was expected");
    check(untouched(texts, 0, sizeof texts) && untouched(ends, 0, sizeof ends), "table", text,
          "a refusal changed a slice");
}

/* How much is lent to a call that lists pairs. Only the islands call has islands, and interchanges have no firsts. */
struct lent {
    size_t pairs, counts, firsts, islands;
};

static const struct lent enough = {NORBELATH_GRAPH_PAIRS, NORBELATH_GRAPH_COUNTS, NORBELATH_GRAPH_FIRSTS,
                                   NORBELATH_ISLANDS};
static const struct lent more = {NORBELATH_GRAPH_PAIRS + 1, NORBELATH_GRAPH_COUNTS + 1, NORBELATH_GRAPH_FIRSTS + 1,
                                 NORBELATH_ISLANDS + 1};

/* The pairs that a call lists: one move apart, copies merged or kept apart, or one interchange apart. */
enum kind { MERGED, KEPT_APART, INTERCHANGES };

/* A call that lists pairs, and which slices it has besides pairs and counts. */
struct lister {
    const char *name;
    uint8_t (*call)(const uint8_t *text, size_t text_len, struct lent lent, uint64_t *first, uint64_t *second);
    enum kind kind;
    int has_firsts, has_islands;
};

static uint8_t call_graph(const uint8_t *text, size_t text_len, struct lent lent, uint64_t *first, uint64_t *second)
{
    return noted("graph", norbelath_graph(text, text_len, pairs, lent.pairs, counts, lent.counts, first_of,
                                          lent.firsts, first, second));
}

static uint8_t call_choosing(const uint8_t *text, size_t text_len, uint8_t choice, struct lent lent, uint64_t *first,
                             uint64_t *second)
{
    return noted("graph_choosing", norbelath_graph_choosing(text, text_len, choice, pairs, lent.pairs, counts,
                                                            lent.counts, first_of, lent.firsts, first, second));
}

static uint8_t call_merging(const uint8_t *text, size_t text_len, struct lent lent, uint64_t *first, uint64_t *second)
{
    return call_choosing(text, text_len, NORBELATH_MERGE_COPIES, lent, first, second);
}

static uint8_t call_keeping(const uint8_t *text, size_t text_len, struct lent lent, uint64_t *first, uint64_t *second)
{
    return call_choosing(text, text_len, NORBELATH_KEEP_COPIES, lent, first, second);
}

static uint8_t call_with_255(const uint8_t *text, size_t text_len, struct lent lent, uint64_t *first, uint64_t *second)
{
    return call_choosing(text, text_len, 255, lent, first, second);
}

static uint8_t call_interchanges(const uint8_t *text, size_t text_len, struct lent lent, uint64_t *first,
                                 uint64_t *second)
{
    return noted("interchanges", norbelath_interchanges(text, text_len, pairs, lent.pairs, counts, lent.counts,
                                                        first, second));
}

static uint8_t call_islands(const uint8_t *text, size_t text_len, struct lent lent, uint64_t *first, uint64_t *second)
{
    return noted("islands", norbelath_islands(text, text_len, pairs, lent.pairs, counts, lent.counts, first_of,
                                              lent.firsts, island_of, lent.islands, first, second));
}

static const struct lister listers[] = {
    {"graph", call_graph, MERGED, 1, 0},
    {"graph choosing 0", call_merging, MERGED, 1, 0},
    {"graph choosing 1", call_keeping, KEPT_APART, 1, 0},
    {"graph choosing 255", call_with_255, KEPT_APART, 1, 0},
    {"interchanges", call_interchanges, INTERCHANGES, 0, 0},
    {"islands", call_islands, MERGED, 1, 1},
};

#define LISTERS (sizeof listers / sizeof listers[0])

static struct reply list(struct lister l, const char *text, size_t text_len, struct lent lent)
{
    struct reply r = {99, 99, 99};
    memset(pairs, UNTOUCHED, sizeof pairs);
    memset(counts, UNTOUCHED, sizeof counts);
    memset(first_of, UNTOUCHED, sizeof first_of);
    memset(island_of, UNTOUCHED, sizeof island_of);
    r.result = l.call((const uint8_t *)text, text_len, lent, &r.first, &r.second);
    return r;
}

static void list_refused(struct lister l, const char *text, size_t text_len, struct lent lent, uint8_t number,
                         uint64_t place)
{
    struct reply r = list(l, text, text_len, lent);
    check(same(r, number, 0, place), l.name, text, "another refusal was expected");
    check(untouched(pairs, 0, sizeof pairs) && untouched(counts, 0, sizeof counts) &&
              untouched(first_of, 0, sizeof first_of) && untouched(island_of, 0, sizeof island_of),
          l.name, text, "a refusal changed a slice");
}

/* What a slice of so many bytes holds: these numbers, and behind them what it held before. */
static void holds(struct lister l, const char *text, const uint16_t *slice, size_t size, const uint16_t *expected,
                  size_t numbers, const char *what)
{
    const size_t written = numbers * sizeof expected[0];
    check(memcmp(slice, expected, written) == 0, l.name, text, what);
    check(untouched(slice, written, size), l.name, text, "a slice was changed behind what was written");
}

/* A table, with the first position and the island of each of its trees. */
struct sample {
    const char *text;
    size_t trees;
    const uint16_t *firsts, *islands;
};

static void listed_in(struct lent lent, struct lister l, struct sample t, const uint16_t *expected,
                      size_t number_of_pairs, const uint16_t *neighbours)
{
    struct reply r = list(l, t.text, strlen(t.text), lent);
    check(same(r, NORBELATH_ACCEPTED, t.trees, number_of_pairs), l.name, t.text, "another answer was expected");
    holds(l, t.text, pairs, sizeof pairs, expected, 2 * number_of_pairs, "other pairs were expected");
    holds(l, t.text, counts, sizeof counts, neighbours, t.trees, "other counts were expected");
    holds(l, t.text, first_of, sizeof first_of, t.firsts, l.has_firsts ? t.trees : 0, "other firsts were expected");
    holds(l, t.text, island_of, sizeof island_of, t.islands, l.has_islands ? t.trees : 0,
          "other islands were expected");
}

/* The numbers of `expected` are i and then j of each pair, those of `neighbours` are the counts. */
static void listed(struct lister l, struct sample t, const uint16_t *expected, size_t number_of_pairs,
                   const uint16_t *neighbours)
{
    listed_in(enough, l, t, expected, number_of_pairs, neighbours);
    listed_in(more, l, t, expected, number_of_pairs, neighbours);
}

/* The slices of the support call, each with one element more than is asked for. */
static uint64_t clades[NORBELATH_SUPPORT_CLADES + 1];
static uint16_t trees_with[NORBELATH_SUPPORT_TREES + 1];
static uint8_t majority[NORBELATH_SUPPORT_OUT + 1];

/* How much is lent to the support call. */
struct support_lent {
    size_t clades, trees, out;
};

static const struct support_lent support_enough = {NORBELATH_SUPPORT_CLADES, NORBELATH_SUPPORT_TREES,
                                                   NORBELATH_SUPPORT_OUT};
static const struct support_lent support_more = {NORBELATH_SUPPORT_CLADES + 1, NORBELATH_SUPPORT_TREES + 1,
                                                 NORBELATH_SUPPORT_OUT + 1};

static struct reply support(const char *text, size_t text_len, struct support_lent lent, uint64_t *third)
{
    struct reply r = {99, 99, 99};
    *third = 99;
    memset(clades, UNTOUCHED, sizeof clades);
    memset(trees_with, UNTOUCHED, sizeof trees_with);
    memset(majority, UNTOUCHED, sizeof majority);
    r.result = noted("support", norbelath_support((const uint8_t *)text, text_len, clades, lent.clades, trees_with,
                                                  lent.trees, majority, lent.out, &r.first, &r.second, third));
    return r;
}

/* So many clades and bytes are written, and what is behind them is as before. */
static int support_ends(size_t number_of_clades, size_t bytes)
{
    return untouched(clades, number_of_clades * sizeof clades[0], sizeof clades) &&
           untouched(trees_with, number_of_clades * sizeof trees_with[0], sizeof trees_with) &&
           untouched(majority, bytes, sizeof majority);
}

static void support_refused(const char *text, size_t text_len, struct support_lent lent, uint8_t number,
                            uint64_t place)
{
    uint64_t third;
    struct reply r = support(text, text_len, lent, &third);
    check(same(r, number, 0, place), "support", text, "another refusal was expected");
    check(third == 0, "support", text, "the third number of a refusal is not 0");
    check(support_ends(0, 0), "support", text, "a refusal changed a slice");
}

#define BIT(label) (UINT64_C(1) << ((label)-1))

/* A clade, a bit for each label, and the number of trees that have it. */
struct clade {
    uint64_t labels;
    uint16_t trees;
};

/* The labels from the smallest on. The list ends in zeros, so that one which ends first is the lesser. */
static void list_labels(uint64_t labels, uint8_t list[65])
{
    size_t at = 0;
    memset(list, 0, 65);
    for (uint8_t label = 1; label <= 64; label++) {
        if (labels & BIT(label)) {
            list[at++] = label;
        }
    }
}

static int compare_labels(uint64_t one, uint64_t other)
{
    uint8_t list[65], other_list[65];
    list_labels(one, list);
    list_labels(other, other_list);
    return memcmp(list, other_list, sizeof list);
}

/* More trees first, and as many in ascending order of labels; so no clade stands twice. */
static int in_order(size_t number_of_clades)
{
    for (size_t k = 1; k < number_of_clades; k++) {
        if (trees_with[k - 1] < trees_with[k] ||
            (trees_with[k - 1] == trees_with[k] && compare_labels(clades[k - 1], clades[k]) >= 0)) {
            return 0;
        }
    }
    return 1;
}

static int are_clades(const struct clade *expected, size_t number_of_clades)
{
    for (size_t k = 0; k < number_of_clades; k++) {
        if (clades[k] != expected[k].labels || trees_with[k] != expected[k].trees) {
            return 0;
        }
    }
    return 1;
}

static void supports_in(struct support_lent lent, const char *text, size_t trees, const struct clade *expected,
                        size_t number_of_clades, const char *tree)
{
    const size_t bytes = strlen(tree);
    uint64_t third;
    struct reply r = support(text, strlen(text), lent, &third);
    check(same(r, NORBELATH_ACCEPTED, number_of_clades, bytes), "support", text, "another answer was expected");
    check(third == trees, "support", text, "another number of trees was expected");
    check(are_clades(expected, number_of_clades), "support", text, "other clades were expected");
    check(in_order(number_of_clades), "support", text, "another order was expected");
    check(memcmp(majority, tree, bytes) == 0, "support", text, "another majority tree was expected");
    check(support_ends(number_of_clades, bytes), "support", text, "a slice was changed behind what was written");
}

/* So many trees, their clades in the order of the call, and the text of their majority tree. */
static void supports(const char *text, size_t trees, const struct clade *expected, size_t number_of_clades,
                     const char *tree)
{
    supports_in(support_enough, text, trees, expected, number_of_clades, tree);
    supports_in(support_more, text, trees, expected, number_of_clades, tree);
}

/* The slices of the row calls, with one element more than is asked for. */
static uint64_t row_of[NORBELATH_ROW + 1];
static uint8_t row_text_of[NORBELATH_ROW_TEXT_OUT + 1];

static struct reply call_row(const char *text, size_t text_len, size_t row_len)
{
    struct reply r = {99, 99, 99};
    memset(row_of, UNTOUCHED, sizeof row_of);
    r.result = noted("row", norbelath_row((const uint8_t *)text, text_len, row_of, row_len, &r.first, &r.second));
    return r;
}

static void row_refused(const char *text, size_t text_len, size_t row_len, uint8_t number, uint64_t place)
{
    struct reply r = call_row(text, text_len, row_len);
    check(same(r, number, 0, place), "row", text, "another refusal was expected");
    check(untouched(row_of, 0, sizeof row_of), "row", text, "a refusal changed the slice");
}

/* Row text call: `expected` is the text, or NULL where a refusal is; `what` stands for the row in messages. */
static void row_text(const char *what, const uint64_t *row, size_t row_len, size_t out_len, const char *expected,
                     uint8_t number)
{
    struct reply r = {99, 99, 99};
    memset(row_text_of, UNTOUCHED, sizeof row_text_of);
    r.result = noted("row_text", norbelath_row_text(row, row_len, row_text_of, out_len, &r.first, &r.second));
    text_answer("row text", what, r, row_text_of, sizeof row_text_of, expected, number, 0);
}

static void row_pair(const char *what, const uint64_t *row, size_t row_len, const uint64_t *other, size_t other_len,
                     uint8_t result, uint64_t first, uint64_t second)
{
    struct reply r = {99, 99, 99};
    r.result = noted("row_pair", norbelath_row_pair(row, row_len, other, other_len, &r.first, &r.second));
    check(same(r, result, first, second), "row pair", what, "another answer was expected");
}

/* A tree in canonical form and its row, in both directions, with just enough lent and with more. */
static void rows(const char *text, const char *form, const uint64_t *expected, size_t numbers)
{
    for (size_t extra = 0; extra < 2; extra++) {
        struct reply r = call_row(text, strlen(text), NORBELATH_ROW + extra);
        check(same(r, NORBELATH_ACCEPTED, numbers, 0), "row", text, "another answer was expected");
        check(memcmp(row_of, expected, numbers * sizeof expected[0]) == 0, "row", text, "another row was expected");
        check(untouched(row_of, numbers * sizeof expected[0], sizeof row_of), "row", text,
              "the slice was changed behind the row");
        row_text(text, expected, numbers, NORBELATH_ROW_TEXT_OUT + extra, form, 0);
    }
}

/* Where parts of an index stand in its memory. */
enum { SLOT = 127, ENTRIES_AT = 20320 };

/* The memory of an index and a list, each with more than is asked for, and the memory before a call. */
static uint8_t index_memory[NORBELATH_INDEX_BYTES + 100];
static uint8_t memory_before[sizeof index_memory];
static uint16_t index_list[NORBELATH_INDEX_LIST + 1];

/* The bytes that stand where this is used, and how many they are; or none. */
#define BYTES(...) (const uint8_t[]){__VA_ARGS__}, sizeof((const uint8_t[]){__VA_ARGS__})
#define NO_BYTES (const uint8_t[]){0}, 0

/* Writes an index: from a number on slots that begin with so many bytes each, and the entries. */
static void write_index(uint8_t *to, size_t number, size_t width, const uint8_t *slots, size_t slots_len,
                        const uint8_t *entries, size_t entries_len)
{
    memset(to, 0, NORBELATH_INDEX_BYTES);
    for (size_t at = 0; at < slots_len; at += width) {
        memcpy(to + SLOT * number++, slots + at, width);
    }
    memcpy(to + ENTRIES_AT, entries, entries_len);
}

/* The empty index, with something behind it that is no part of it. */
static void clear_index(void)
{
    memset(index_memory, 0, NORBELATH_INDEX_BYTES);
    memset(index_memory + NORBELATH_INDEX_BYTES, UNTOUCHED, sizeof index_memory - NORBELATH_INDEX_BYTES);
}

static void index_is(const char *what, size_t number, size_t width, const uint8_t *slots, size_t slots_len,
                     const uint8_t *entries, size_t entries_len)
{
    static uint8_t expected[NORBELATH_INDEX_BYTES];
    write_index(expected, number, width, slots, slots_len, entries, entries_len);
    check(memcmp(index_memory, expected, sizeof expected) == 0, "index", what, "other bytes were expected");
}

static struct reply call_index_add(const char *text, size_t text_len, size_t memory_len)
{
    struct reply r = {99, 99, 99};
    memcpy(memory_before, index_memory, sizeof index_memory);
    r.result = noted("index_add", norbelath_index_add(index_memory, memory_len, (const uint8_t *)text, text_len,
                                                      &r.first, &r.second));
    check(untouched(index_memory, NORBELATH_INDEX_BYTES, sizeof index_memory), "index add", text,
          "the memory was changed behind the index");
    return r;
}

static void add_in(size_t memory_len, const char *text, uint64_t number)
{
    struct reply r = call_index_add(text, strlen(text), memory_len);
    check(same(r, NORBELATH_ACCEPTED, number, 0), "index add", text, "another number was expected");
}

static void add(const char *text, uint64_t number)
{
    add_in(NORBELATH_INDEX_BYTES, text, number);
}

static void add_refused(const char *text, size_t text_len, size_t memory_len, uint8_t number, uint64_t place)
{
    struct reply r = call_index_add(text, text_len, memory_len);
    check(same(r, number, 0, place), "index add", text, "another refusal was expected");
    check(memcmp(index_memory, memory_before, sizeof index_memory) == 0, "index add", text,
          "a refusal changed the memory");
}

static struct reply call_index_neighbours(const char *what, size_t memory_len, size_t number, size_t list_len)
{
    struct reply r = {99, 99, 99};
    memset(index_list, UNTOUCHED, sizeof index_list);
    memcpy(memory_before, index_memory, sizeof index_memory);
    r.result = noted("index_neighbours", norbelath_index_neighbours(index_memory, memory_len, number, index_list,
                                                                    list_len, &r.first, &r.second));
    check(memcmp(index_memory, memory_before, sizeof index_memory) == 0, "index neighbours", what,
          "the memory was changed");
    return r;
}

/* These are the neighbours, with so much more lent than is asked for. */
static void neighbours_in(size_t extra, const char *what, size_t number, const uint16_t *expected, size_t numbers)
{
    struct reply r = call_index_neighbours(what, NORBELATH_INDEX_BYTES + extra, number, NORBELATH_INDEX_LIST + extra);
    const size_t written = numbers * sizeof expected[0];
    check(same(r, NORBELATH_ACCEPTED, numbers, 0), "index neighbours", what, "another answer was expected");
    check(memcmp(index_list, expected, written) == 0, "index neighbours", what, "another list was expected");
    check(untouched(index_list, written, sizeof index_list), "index neighbours", what,
          "the slice was changed behind the list");
}

static void neighbours(const char *what, size_t number, const uint16_t *expected, size_t numbers)
{
    neighbours_in(0, what, number, expected, numbers);
    neighbours_in(1, what, number, expected, numbers);
}

static void neighbours_refused(const char *what, size_t memory_len, size_t number, size_t list_len, uint8_t refusal)
{
    struct reply r = call_index_neighbours(what, memory_len, number, list_len);
    check(same(r, refusal, 0, 0), "index neighbours", what, "another refusal was expected");
    check(untouched(index_list, 0, sizeof index_list), "index neighbours", what, "a refusal changed the list");
}

static struct reply call_index_remove(const char *what, size_t memory_len, size_t number)
{
    struct reply r = {99, 99, 99};
    memcpy(memory_before, index_memory, sizeof index_memory);
    r.result = noted("index_remove", norbelath_index_remove(index_memory, memory_len, number, &r.first, &r.second));
    check(untouched(index_memory, NORBELATH_INDEX_BYTES, sizeof index_memory), "index remove", what,
          "the memory was changed behind the index");
    return r;
}

/* Whether the memory is that before the call without the slot and the entries of the number, and without gaps. */
static int is_taken_out(size_t number)
{
    static uint8_t expected[NORBELATH_INDEX_BYTES];
    memset(expected, 0, sizeof expected);
    memcpy(expected, memory_before, ENTRIES_AT);
    memset(expected + SLOT * number, 0, SLOT);
    for (size_t from = ENTRIES_AT, to = ENTRIES_AT; from < sizeof expected; from += 2) {
        /* The zeros behind the entries go with the number 0, which leaves zeros. */
        if (memory_before[from] != number) {
            memcpy(expected + to, memory_before + from, 2);
            to += 2;
        }
    }
    return memcmp(index_memory, expected, sizeof expected) == 0;
}

static void take_out_in(size_t memory_len, const char *what, size_t number)
{
    struct reply r = call_index_remove(what, memory_len, number);
    check(same(r, NORBELATH_ACCEPTED, 0, 0), "index remove", what, "another answer was expected");
    check(is_taken_out(number), "index remove", what, "other bytes were expected");
}

static void take_out(const char *what, size_t number)
{
    take_out_in(NORBELATH_INDEX_BYTES, what, number);
}

static void removal_refused(const char *what, size_t memory_len, size_t number, uint8_t refusal)
{
    struct reply r = call_index_remove(what, memory_len, number);
    check(same(r, refusal, 0, 0), "index remove", what, "another refusal was expected");
    check(memcmp(index_memory, memory_before, sizeof index_memory) == 0, "index remove", what,
          "a refusal changed the memory");
}

/* Neither asking nor removing finds a tree with this number. */
static void not_held(const char *what, size_t number)
{
    neighbours_refused(what, NORBELATH_INDEX_BYTES, number, NORBELATH_INDEX_LIST, NORBELATH_NOT_HELD);
    removal_refused(what, NORBELATH_INDEX_BYTES, number, NORBELATH_NOT_HELD);
}

/* The slices of the plot call, each with one cell more than is asked for, and what they hold before a call. */
static double plot_rows[NORBELATH_PLOT_ROWS + 1], plot_rows_before[NORBELATH_PLOT_ROWS + 1];
static uint16_t plot_columns[NORBELATH_PLOT_COLUMNS + 1], plot_columns_before[NORBELATH_PLOT_COLUMNS + 1];

/* Bits of a row before a call: NaNs that signal or do not, of either sign, an infinity, -0, the least number, any. */
static const uint64_t plot_noise[] = {
    0x7FF0000000000001, 0x7FF8000000000000, 0xFFF4000000000BAD, 0xFFFFFFFFFFFFFFFF,
    0xFFF0000000000000, 0x8000000000000000, 0x0000000000000001, 0xA5A5A5A5A5A5A5A5,
};

static struct reply plot(const char *text, size_t text_len, size_t rows_len, size_t columns_len)
{
    static size_t calls;
    struct reply r = {99, 99, 99};
    for (size_t i = 0; i < sizeof plot_rows / sizeof plot_rows[0]; i++) {
        memcpy(&plot_rows_before[i], &plot_noise[(i + calls) % 8], sizeof plot_rows[0]);
    }
    calls++;
    memset(plot_columns_before, UNTOUCHED, sizeof plot_columns);
    memcpy(plot_rows, plot_rows_before, sizeof plot_rows);
    memcpy(plot_columns, plot_columns_before, sizeof plot_columns);
    r.result = noted("plot", norbelath_plot((const uint8_t *)text, text_len, plot_rows, rows_len, plot_columns,
                                            columns_len, &r.first, &r.second));
    return r;
}

/* Whether the slices are as they were from this node on, by their bits. */
static int plot_kept(size_t nodes)
{
    return memcmp(plot_rows + nodes, plot_rows_before + nodes, sizeof plot_rows - nodes * sizeof plot_rows[0]) == 0
           && memcmp(plot_columns + nodes, plot_columns_before + nodes,
                     sizeof plot_columns - nodes * sizeof plot_columns[0]) == 0;
}

static void plot_refused(const char *text, size_t text_len, size_t rows_len, size_t columns_len, uint8_t number,
                         uint64_t place)
{
    struct reply r = plot(text, text_len, rows_len, columns_len);
    check(same(r, number, 0, place), "plot", text, "another refusal was expected");
    check(plot_kept(0), "plot", text, "a refusal changed a slice");
}

/* Rows are compared by their bits. */
static void plots_in(size_t rows_len, size_t columns_len, const char *text, const double *expected_rows,
                     const uint16_t *expected_columns, size_t nodes)
{
    struct reply r = plot(text, strlen(text), rows_len, columns_len);
    check(same(r, NORBELATH_ACCEPTED, nodes, 0), "plot", text, "another answer was expected");
    check(memcmp(plot_rows, expected_rows, nodes * sizeof plot_rows[0]) == 0, "plot", text, "other rows were expected");
    check(memcmp(plot_columns, expected_columns, nodes * sizeof plot_columns[0]) == 0, "plot", text,
          "other columns were expected");
    check(plot_kept(nodes), "plot", text, "a slice was changed behind the nodes");
}

static void plots(const char *text, const double *expected_rows, const uint16_t *expected_columns, size_t nodes)
{
    plots_in(NORBELATH_PLOT_ROWS, NORBELATH_PLOT_COLUMNS, text, expected_rows, expected_columns, nodes);
    plots_in(NORBELATH_PLOT_ROWS + 1, NORBELATH_PLOT_COLUMNS + 1, text, expected_rows, expected_columns, nodes);
}

/* One byte more than the sheet call asks for. */
static uint8_t printed[NORBELATH_SHEET_OUT + 1];

static void sheet(const char *text, size_t text_len, size_t out_len, const char *expected)
{
    struct reply r = {99, 99, 99};
    memset(printed, UNTOUCHED, sizeof printed);
    r.result = noted("sheet", norbelath_sheet((const uint8_t *)text, text_len, printed, out_len, &r.first,
                                              &r.second));
    text_answer("sheet", text, r, printed, sizeof printed, expected, NORBELATH_SHORT_SLICE, 0);
}

static void forms(void)
{
    const size_t enough = NORBELATH_FORM_OUT;
    form("(3,(2,1));", enough, "((1,2),3);", 0, 0);
    form("(10,2);", enough + 1, "(2,10);", 0, 0);
    form(" 7 ;", enough, "7;", 0, 0);
    form("(1,64);", enough, "(1,64);", 0, 0);
    form("", enough, NULL, NORBELATH_WRONG_BYTE, 0);
    form("(1,2,3);", enough, NULL, NORBELATH_WRONG_BYTE, 4);
    form("(1,2)", enough, NULL, NORBELATH_WRONG_BYTE, 5);
    form("(1,2);x", enough, NULL, NORBELATH_WRONG_BYTE, 6);
    form("(1,65);", enough, NULL, NORBELATH_BAD_LABEL, 3);
    form("(1,1);", enough, NULL, NORBELATH_LABEL_AGAIN, 3);
    form("(1,2);", enough - 1, NULL, NORBELATH_SHORT_SLICE, 0);
}

/* The label that follows so many steps behind this one, going round 1 to 64 by so many at a step. */
static unsigned label_behind(unsigned label, unsigned by, unsigned steps)
{
    return 1 + (label - 1 + steps * by) % 64;
}

/* Writes a comb of so many labels, from this one on and a step behind each other. Gives its end. */
static char *write_comb(char *at, unsigned label, unsigned by, unsigned leaves)
{
    memset(at, '(', leaves - 1);
    at += leaves - 1;
    at += sprintf(at, "%u", label);
    for (unsigned steps = 1; steps < leaves; steps++) {
        at += sprintf(at, ",%u)", label_behind(label, by, steps));
    }
    return at;
}

/* The deepest tree is also the longest text; one bracket more is refused. */
static void deepest_form(void)
{
    char deepest[LONGEST + 1] = "";
    strcpy(write_comb(deepest, 1, 1, 64), ";");
    check(strlen(deepest) == LONGEST, "form", deepest, "the text has another length");
    form(deepest, NORBELATH_FORM_OUT, deepest, 0, 0);

    char deeper[LONGEST + 2] = "(";
    memcpy(deeper + 1, deepest, sizeof deepest);
    form(deeper, NORBELATH_FORM_OUT, NULL, NORBELATH_TOO_DEEP, 63);
}

/* The top is next to the smallest label, wherever it was; a rooted tree's mark is not written. */
static void unrooted_forms(void)
{
    const size_t enough = NORBELATH_FORM_OUT;
    form("[&U](1,(2,3),4);", enough, "[&U](1,(2,3),4);", 0, 0);
    form("[&U]((1,2),3,(4,5));", enough, "[&U](1,2,(3,(4,5)));", 0, 0);
    form("[&U]((3,(02,1)),5,4);", enough, "[&U](1,2,(3,(4,5)));", 0, 0);
    form("\t[&U] ( (3,10) ,\n2, 9 ) ; ", enough + 1, "[&U](2,(3,10),9);", 0, 0);
    form("[&U](10,2);", enough, "[&U](2,10);", 0, 0);
    form(" [&U] 7 ;", enough, "[&U]7;", 0, 0);
    form("[&R](3,(2,1));", enough, "((1,2),3);", 0, 0);
    form("[&R] 7;", enough, "7;", 0, 0);
    form("[&U](1,2);", enough - 1, NULL, NORBELATH_SHORT_SLICE, 0);
    form("[&U](1,2);", LONGEST, NULL, NORBELATH_SHORT_SLICE, 0);
    form("[&U](1,2,2);", enough, NULL, NORBELATH_LABEL_AGAIN, 9);
    form("[&U](1,2,65);", enough, NULL, NORBELATH_BAD_LABEL, 9);
    form("[&U](1,2,3);x", enough, NULL, NORBELATH_WRONG_BYTE, 12);
}

/* A mark is one token in capitals, once before a tree; any `[` there begins one. */
static void broken_marks(void)
{
    const size_t enough = NORBELATH_FORM_OUT;
    form("[", enough, NULL, NORBELATH_WRONG_BYTE, 1);
    form("[1,2];", enough, NULL, NORBELATH_WRONG_BYTE, 1);
    form("[ &U]1;", enough, NULL, NORBELATH_WRONG_BYTE, 1);
    form("[&", enough, NULL, NORBELATH_WRONG_BYTE, 2);
    form("[&u]1;", enough, NULL, NORBELATH_WRONG_BYTE, 2);
    form("[&W 1]1;", enough, NULL, NORBELATH_WRONG_BYTE, 2);
    form("[&U 1;", enough, NULL, NORBELATH_WRONG_BYTE, 3);
    form("[&R", enough, NULL, NORBELATH_WRONG_BYTE, 3);
    form("[&U]", enough, NULL, NORBELATH_WRONG_BYTE, 4);
    form("[&U][&U]1;", enough, NULL, NORBELATH_WRONG_BYTE, 4);
    form("[&R] [&U]1;", enough, NULL, NORBELATH_WRONG_BYTE, 5);
    form("([&U]1,2);", enough, NULL, NORBELATH_WRONG_BYTE, 1);
    form("1[&U];", enough, NULL, NORBELATH_WRONG_BYTE, 1);
}

/* At the comma or the closing bracket that shows it. */
static void wrong_numbers_of_children(void)
{
    const size_t enough = NORBELATH_FORM_OUT;
    form("[&U](1);", enough, NULL, NORBELATH_WRONG_BYTE, 6);
    form("[&U]((1,2),3);", enough, NULL, NORBELATH_WRONG_BYTE, 12);
    form("[&U](1,(2,3) );", enough, NULL, NORBELATH_WRONG_BYTE, 13);
    form("[&U](1,2,3,4);", enough, NULL, NORBELATH_WRONG_BYTE, 10);
    form("[&U]((1,2,3),4,5);", enough, NULL, NORBELATH_WRONG_BYTE, 9);
    form("[&U](1,2,(3));", enough, NULL, NORBELATH_WRONG_BYTE, 11);
    form("[&R](1,2,3);", enough, NULL, NORBELATH_WRONG_BYTE, 8);
    form("((1,2),3,4);", enough, NULL, NORBELATH_WRONG_BYTE, 8);
}

/* Writes the longest text of an unrooted tree: a comb from its smallest label on. */
static void write_longest_unrooted(char text[LONGEST_UNROOTED + 1])
{
    char *at = text + sprintf(text, "[&U](1,2");
    for (unsigned label = 3; label < 64; label++) {
        at += sprintf(at, ",(%u", label);
    }
    at += sprintf(at, ",64");
    memset(at, ')', 62);
    strcpy(at + 62, ";");
}

static void longest_unrooted_form(void)
{
    char longest[LONGEST_UNROOTED + 1];
    write_longest_unrooted(longest);
    check(strlen(longest) == LONGEST_UNROOTED, "form", longest, "the text has another length");
    form(longest, NORBELATH_FORM_OUT, longest, 0, 0);
}

static void cuts(void)
{
    const size_t enough = NORBELATH_CUT_OUT;
    const char *tree = "((1,2),(3,4));";
    cut(tree, 0, enough, "(3,4) (1,2);", 0, 0);
    cut(tree, 1, enough, "(2,(3,4)) 1;", 0, 0);
    cut(tree, 2, enough, "(1,(3,4)) 2;", 0, 0);
    cut(tree, 3, enough + 1, "(1,2) (3,4);", 0, 0);
    cut(tree, 4, enough, "((1,2),4) 3;", 0, 0);
    cut(tree, 5, enough, "((1,2),3) 4;", 0, 0);
    cut(tree, 6, enough, NULL, NORBELATH_NO_SUCH_CUT, 0);
    cut(tree, UINT64_MAX, enough, NULL, NORBELATH_NO_SUCH_CUT, 0);
    cut(" 7 ;", 0, enough, NULL, NORBELATH_NO_SUCH_CUT, 0);
    cut("(1,2);x", 9, enough, NULL, NORBELATH_WRONG_BYTE, 6);
    cut(tree, 0, enough - 1, NULL, NORBELATH_SHORT_SLICE, 0);
}

/* An unrooted tree is refused at its `;`, before a byte behind it and before the cut number. */
static void cuts_of_unrooted_trees(void)
{
    const size_t enough = NORBELATH_CUT_OUT;
    cut("[&R](2,1);", 0, enough, "2 1;", 0, 0);
    cut("[&U](1,2,3);", 0, enough, NULL, NORBELATH_OTHER_KIND, 11);
    cut("[&U](1,2,3);", 99, enough, NULL, NORBELATH_OTHER_KIND, 11);
    cut("[&U]7 ;x", 0, enough, NULL, NORBELATH_OTHER_KIND, 6);
    cut("[&U](1,2,3)", 0, enough, NULL, NORBELATH_WRONG_BYTE, 11);
    cut("[&U]((1,2),3);", 0, enough, NULL, NORBELATH_WRONG_BYTE, 12);
    cut("[&U](1,2,3);", 0, enough - 1, NULL, NORBELATH_SHORT_SLICE, 0);
}

/* The answer, and the number of forests that were compared; or a refusal. */
static void pair_answers(void)
{
    /* Cut 0 prunes a clade that the other tree has not, and cut 1 leaves a forest of both; exchanged, cut 0 does. */
    pair("(((1,2),3),4);", "((1,2),(3,4));", NORBELATH_ACCEPTED, 1, 1);
    pair("((1,2),(3,4));", "(((1,2),3),4);", NORBELATH_ACCEPTED, 1, 1);
    /* All leaves, and nothing else that both have. */
    pair("(((1,2),3),4);", "(((3,4),1),2);", NORBELATH_ACCEPTED, 0, 4);
    pair("((((4,5),1),2),3);", "((((1,2),3),4),5);", NORBELATH_ACCEPTED, 0, 5);
    /* Leaf 4 is the last cut of the one tree, and comes behind leaf 1 in the other. */
    pair("(((1,2),3),4);", "(((1,4),2),3);", NORBELATH_ACCEPTED, 1, 4);
    pair("(((1,4),2),3);", "(((1,2),3),4);", NORBELATH_ACCEPTED, 1, 2);
    pair("[&R](4,(3,(2,1)));", "( 3 , ( 2 , ( 04 , 1 ) ) ) ;", NORBELATH_ACCEPTED, 1, 4);
    /* The same with leaf 5, and (1,2) counts too. */
    pair("((((1,2),3),4),5);", "((((1,2),5),3),4);", NORBELATH_ACCEPTED, 1, 6);
    pair("((((1,2),5),3),4);", "((((1,2),3),4),5);", NORBELATH_ACCEPTED, 1, 4);
    pair("((((1,2),3),4),5);", "(((1,2),(4,5)),3);", NORBELATH_ACCEPTED, 0, 6);
    /* Equal topologies. */
    pair("((1,2),3);", "(3,(2,1));", NORBELATH_ACCEPTED, 0, 0);
    pair("(10,2);", "(2,10);", NORBELATH_ACCEPTED, 0, 0);
    pair("7;", " 7 ;", NORBELATH_ACCEPTED, 0, 0);
    pair("1;x", "x", NORBELATH_WRONG_BYTE, 0, 2);
    pair("1;", "2;x", NORBELATH_WRONG_BYTE, 1, 2);
    pair("1;", " 2 ; ", NORBELATH_LABELS_DIFFER, 1, 3);
}

/* No forests are counted of unrooted trees. */
static void unrooted_pair_answers(void)
{
    pair("[&U]7;", "[&U]7;", NORBELATH_ACCEPTED, 0, 0);
    pair("[&U](1,2);", "[&U](2,1);", NORBELATH_ACCEPTED, 0, 0);
    pair("[&U](1,2,3);", "[&U](3,1,2);", NORBELATH_ACCEPTED, 0, 0);
    pair("[&U](1,2,(3,4));", "[&U]((1,2),3,4);", NORBELATH_ACCEPTED, 0, 0);
    pair("[&U](1,2,(3,4));", "[&U](1,(2,3),4);", NORBELATH_ACCEPTED, 1, 0);
    pair("[&U](1,2,(3,(4,5)));", "[&U](1,4,(3,(2,5)));", NORBELATH_ACCEPTED, 0, 0);
    pair("[&U](1,2,(3,(4,5)));", "[&U](1,(2,3),(4,5));", NORBELATH_ACCEPTED, 1, 0);
    /* Only the side with the smallest label can be the one that is moved. */
    pair("[&U](1,2,(3,(4,(5,6))));", "[&U](1,2,(((3,4),5),6));", NORBELATH_ACCEPTED, 1, 0);
    /* The edge is the same, but each side has another cut end. */
    pair("[&U]((1,2),3,((4,5),6));", "[&U]((1,3),2,((4,6),5));", NORBELATH_ACCEPTED, 0, 0);
    /* Rooted, these two are no neighbours; without their roots they are one topology. */
    pair("(((1,2),3),4);", "(((3,4),1),2);", NORBELATH_ACCEPTED, 0, 4);
    pair("[&U](1,2,(3,4));", "[&U]((3,4),1,2);", NORBELATH_ACCEPTED, 0, 0);
}

/* Another kind goes before other labels, and behind all that is wrong in either text. */
static void pairs_of_two_kinds(void)
{
    pair("1;", "[&U]1;", NORBELATH_OTHER_KIND, 1, 5);
    pair("[&U](1,2);", "[&R](1,2) ;", NORBELATH_OTHER_KIND, 1, 10);
    pair("[&U]1;", " 2 ; ", NORBELATH_OTHER_KIND, 1, 3);
    pair("[&U]1;", "[&U]2;", NORBELATH_LABELS_DIFFER, 1, 5);
    pair("1;", "[&U]2;x", NORBELATH_WRONG_BYTE, 1, 6);
    pair("[&U]1;x", "1;", NORBELATH_WRONG_BYTE, 0, 6);
}

static void tables(void)
{
    const size_t bytes = NORBELATH_TABLE_TEXTS, numbers = NORBELATH_TABLE_ENDS;
    const char *text = "(10,(2,1));\n(2,(10,1));";
    const char *expected = "((1,2),10);((1,10),2);";
    struct reply r = table(text, strlen(text), bytes, numbers);
    check(same(r, NORBELATH_ACCEPTED, 22, 2), "table", text, "another answer was expected");
    check(memcmp(texts, expected, 22) == 0 && ends[0] == 11 && ends[1] == 22, "table", text,
          "other texts were expected");
    check(untouched(texts, 22, sizeof texts) && untouched(ends, 2 * sizeof ends[0], sizeof ends), "table", text,
          "a slice was changed behind what was written");

    r = table("", 0, bytes, numbers);
    check(same(r, NORBELATH_ACCEPTED, 0, 0), "table", "", "no trees were expected");
    check(untouched(texts, 0, sizeof texts) && untouched(ends, 0, sizeof ends), "table", "", "a slice was changed");

    table_refused("(1,2);(1,3);", 12, bytes, numbers, NORBELATH_LABELS_DIFFER, 11);
    table_refused(text, strlen(text), bytes - 1, numbers, NORBELATH_SHORT_SLICE, 0);
    table_refused(text, strlen(text), bytes, numbers - 1, NORBELATH_SHORT_SLICE, 0);
}

static void unrooted_tables(void)
{
    const size_t bytes = NORBELATH_TABLE_TEXTS, numbers = NORBELATH_TABLE_ENDS;
    const char *text = "[&U]((1,2),3,10);\n[&U](2,(10,1),3);";
    const char *expected = "[&U](1,2,(3,10));[&U](1,(2,3),10);";
    struct reply r = table(text, strlen(text), bytes, numbers);
    check(same(r, NORBELATH_ACCEPTED, 34, 2), "table", text, "another answer was expected");
    check(memcmp(texts, expected, 34) == 0 && ends[0] == 17 && ends[1] == 34, "table", text,
          "other texts were expected");
    check(untouched(texts, 34, sizeof texts) && untouched(ends, 2 * sizeof ends[0], sizeof ends), "table", text,
          "a slice was changed behind what was written");

    table_refused("(1,2);[&U](1,2);", 16, bytes, numbers, NORBELATH_OTHER_KIND, 15);
    table_refused("[&U]1;2;x", 9, bytes, numbers, NORBELATH_OTHER_KIND, 7);
    table_refused("[&U]1;[&U]2;1;", 14, bytes, numbers, NORBELATH_LABELS_DIFFER, 11);
    table_refused("1;[&U]1", 7, bytes, numbers, NORBELATH_WRONG_BYTE, 7);
    table_refused("1;[&U", 5, bytes, numbers, NORBELATH_WRONG_BYTE, 5);
    table_refused(text, strlen(text), bytes - 1, numbers, NORBELATH_SHORT_SLICE, 0);
    table_refused(text, strlen(text), NORBELATH_MAX_TREES * LONGEST, numbers, NORBELATH_SHORT_SLICE, 0);
}

/* No trees, one, and copies alone, which are no pair. */
static void no_pairs(struct lister l)
{
    const uint16_t zeros[] = {0, 0};
    listed(l, (struct sample){"", 0, zeros, zeros}, zeros, 0, zeros);
    listed(l, (struct sample){" 7 ;", 1, zeros, zeros}, zeros, 0, zeros);
    listed(l, (struct sample){"(1,2); (2,1);", 2, zeros, zeros}, zeros, 0, zeros);
}

/* Two topologies twice and one once. Of three leaves, two trees that differ are one interchange apart. */
static void copies(struct lister l)
{
    const struct sample t = {"((2,1),3);\n(3,(2,1));\n(1,(2,3));\n((1,3),2);\n(1,(3,2));\n", 5,
                             (const uint16_t[]){0, 0, 2, 3, 2}, (const uint16_t[]){0, 0, 0, 0, 0}};
    if (l.kind == MERGED) {
        listed(l, t, (const uint16_t[]){0, 2, 0, 3, 2, 3}, 3, (const uint16_t[]){2, 0, 2, 2, 0});
    } else {
        listed(l, t, (const uint16_t[]){0, 2, 0, 3, 0, 4, 1, 2, 1, 3, 1, 4, 2, 3, 3, 4}, 8,
               (const uint16_t[]){3, 3, 3, 4, 3});
    }
}

/* Each slice of a call one number too short, and then all of them empty: refused before anything in the text. */
static void short_lists(struct lister l, const char *text, size_t text_len)
{
    struct lent lent = enough;
    lent.pairs--;
    list_refused(l, text, text_len, lent, NORBELATH_SHORT_SLICE, 0);
    lent = enough;
    lent.counts--;
    list_refused(l, text, text_len, lent, NORBELATH_SHORT_SLICE, 0);
    lent = enough;
    lent.firsts--;
    if (l.has_firsts) {
        list_refused(l, text, text_len, lent, NORBELATH_SHORT_SLICE, 0);
    }
    lent = enough;
    lent.islands--;
    if (l.has_islands) {
        list_refused(l, text, text_len, lent, NORBELATH_SHORT_SLICE, 0);
    }
    list_refused(l, text, text_len, (struct lent){0, 0, 0, 0}, NORBELATH_SHORT_SLICE, 0);
}

static void refused_lists(struct lister l)
{
    list_refused(l, "(1,2);(1,3);", 12, enough, NORBELATH_LABELS_DIFFER, 11);
    list_refused(l, "(1,2", 4, enough, NORBELATH_WRONG_BYTE, 4);
    short_lists(l, "(1,2);(1,2);", 12);
    short_lists(l, "(1,2", 4);
    short_lists(l, "", 0);
}

/* Three trees that are one move from each other; an interchange joins only the first two. */
static void moves_and_interchanges(struct lister l)
{
    const uint16_t positions[] = {0, 1, 2}, zeros[] = {0, 0, 0};
    const struct sample t = {"(((1,2),3),4);((1,2),(3,4));(((1,4),2),3);", 3, positions, zeros};
    if (l.kind == INTERCHANGES) {
        listed(l, t, (const uint16_t[]){0, 1}, 1, (const uint16_t[]){1, 1, 0});
    } else {
        listed(l, t, (const uint16_t[]){0, 1, 0, 2, 1, 2}, 3, (const uint16_t[]){2, 2, 2});
    }
}

/* Several islands that are mixed: two copies alone, two neighbours, and a chain of three with a copy of its end. */
static void mixed(struct lister l)
{
    const struct sample t = {"((((3,4),2),1),5);((((1,2),5),4),3);((((3,4),5),1),2);((((1,2),3),4),5);"
                             "((((2,5),1),4),3);((((3,4),2),1),5);((((2,3),4),5),1);(5,(4,(3,(2,1))));",
                             8, (const uint16_t[]){0, 1, 2, 3, 4, 0, 6, 3},
                             (const uint16_t[]){0, 1, 2, 2, 1, 0, 2, 2}};
    if (l.kind == INTERCHANGES) {
        listed(l, t, (const uint16_t[]){1, 4}, 1, (const uint16_t[]){0, 1, 0, 0, 1, 0, 0, 0});
    } else if (l.kind == MERGED) {
        listed(l, t, (const uint16_t[]){1, 4, 2, 6, 3, 6}, 3, (const uint16_t[]){0, 1, 1, 1, 1, 0, 2, 0});
    } else {
        listed(l, t, (const uint16_t[]){1, 4, 2, 6, 3, 6, 6, 7}, 4, (const uint16_t[]){0, 1, 1, 1, 1, 0, 3, 1});
    }
}

/* 159 copies, and behind them another tree in as many bytes, which is linked with them or not. */
static void full_of_copies(struct lister l, const char *copy, const char *other, int linked)
{
    static char text[NORBELATH_MAX_TREES * 20 + 1];
    const size_t size = strlen(copy);
    const uint16_t last = NORBELATH_MAX_TREES - 1;
    const uint16_t number_of_pairs = !linked ? 0 : l.kind == MERGED ? 1 : last;
    uint16_t firsts[NORBELATH_MAX_TREES] = {0}, islands[NORBELATH_MAX_TREES] = {0};
    uint16_t expected[2 * NORBELATH_MAX_TREES], neighbours[NORBELATH_MAX_TREES] = {0};
    for (uint16_t i = 0; i < last; i++) {
        memcpy(text + i * size, copy, size);
    }
    memcpy(text + last * size, other, size + 1);
    for (uint16_t i = 0; i < number_of_pairs; i++) {
        expected[2 * i] = i;
        expected[2 * i + 1] = last;
        neighbours[i] = 1;
    }
    neighbours[last] = number_of_pairs;
    firsts[last] = last;
    islands[last] = linked ? 0 : last;
    listed(l, (struct sample){text, NORBELATH_MAX_TREES, firsts, islands}, expected, number_of_pairs, neighbours);
}

/* Four trees of five leaves, the last a copy of the first; the third is one move from each other topology. */
static void unrooted_lists(struct lister l)
{
    const struct sample t = {"[&U](2,(3,(4,5)),1);[&U](((2,5),3),4,1);[&U]((4,5),(3,2),1);[&U]((3,(5,4)),2,1);", 4,
                             (const uint16_t[]){0, 1, 2, 0}, (const uint16_t[]){0, 0, 0, 0}};
    if (l.kind == INTERCHANGES) {
        list_refused(l, t.text, strlen(t.text), enough, NORBELATH_OTHER_KIND, 19);
    } else if (l.kind == MERGED) {
        listed(l, t, (const uint16_t[]){0, 2, 1, 2}, 2, (const uint16_t[]){1, 1, 2, 0});
    } else {
        listed(l, t, (const uint16_t[]){0, 2, 1, 2, 2, 3}, 3, (const uint16_t[]){1, 1, 3, 1});
    }
}

/* The first unrooted tree is refused where rooted ones are taken, and else the first tree of another kind. */
static void lists_of_two_kinds(struct lister l)
{
    const int rooted_only = l.kind == INTERCHANGES;
    list_refused(l, "(1,2);[&U](1,2);", 16, enough, NORBELATH_OTHER_KIND, 15);
    list_refused(l, "[&R]1;1;[&U]2;x", 15, enough, NORBELATH_OTHER_KIND, 13);
    list_refused(l, "[&U]1;1;", 8, enough, NORBELATH_OTHER_KIND, rooted_only ? 5 : 7);
    list_refused(l, "[&U]1;[&U]2;1;", 14, enough, rooted_only ? NORBELATH_OTHER_KIND : NORBELATH_LABELS_DIFFER,
                 rooted_only ? 5 : 11);
    list_refused(l, "[&U]((1,2),3);", 14, enough, NORBELATH_WRONG_BYTE, 12);
    list_refused(l, "[&u]1;", 6, enough, NORBELATH_WRONG_BYTE, 2);
    short_lists(l, "(1,2);[&U](1,2);", 16);
}

/* Any choice but 0 keeps copies apart. */
static void every_choice(void)
{
    const char *text = "(1,(2,3)); ((1,2),3); ((3,2),1);";
    for (unsigned choice = 0; choice <= UINT8_MAX; choice++) {
        struct reply r = {99, 99, 99};
        r.result = call_choosing((const uint8_t *)text, strlen(text), (uint8_t)choice, enough, &r.first, &r.second);
        check(same(r, NORBELATH_ACCEPTED, 3, choice == NORBELATH_MERGE_COPIES ? 1 : 2), "graph choosing", text,
              "another number of pairs was expected");
    }
}

static void lists(void)
{
    for (size_t i = 0; i < LISTERS; i++) {
        no_pairs(listers[i]);
        copies(listers[i]);
        refused_lists(listers[i]);
        moves_and_interchanges(listers[i]);
        mixed(listers[i]);
        full_of_copies(listers[i], "((1,2),3);", "((1,3),2);", 1);
        full_of_copies(listers[i], "(((1,2),3),4);", "(((3,4),1),2);", 0);
        unrooted_lists(listers[i]);
        lists_of_two_kinds(listers[i]);
        if (listers[i].kind != INTERCHANGES) {
            full_of_copies(listers[i], "[&U](1,2,(3,4));", "[&U](1,(2,3),4);", 1);
            full_of_copies(listers[i], "[&U](1,2,(3,(4,5)));", "[&U](1,4,(3,(2,5)));", 0);
        }
    }
}

/* No trees, one leaf and one fork. A label alone is not listed. */
static void smallest_supports(void)
{
    const struct clade none[] = {{0, 0}};
    supports("", 0, none, 0, "");
    supports(" \t\r\n", 0, none, 0, "");
    supports(" 7 ;", 1, none, 0, "7;");
    supports("64;[&R]064;", 2, none, 0, "64;");
    supports("(64,1);", 1, (const struct clade[]){{BIT(1) | BIT(64), 1}}, 1, "(1,64);");
}

/* More trees first, then the smaller labels, which is not the order of the numbers. */
static void orders_of_clades(void)
{
    supports("(3,(2,1));", 1, (const struct clade[]){{BIT(1) | BIT(2), 1}, {BIT(1) | BIT(2) | BIT(3), 1}}, 2,
             "((1,2),3);");
    supports("((3,2),1);", 1, (const struct clade[]){{BIT(1) | BIT(2) | BIT(3), 1}, {BIT(2) | BIT(3), 1}}, 2,
             "(1,(2,3));");
    supports("((64,1),(2,3));", 1,
             (const struct clade[]){{BIT(1) | BIT(2) | BIT(3) | BIT(64), 1}, {BIT(1) | BIT(64), 1},
                                    {BIT(2) | BIT(3), 1}},
             3, "((1,64),(2,3));");
    supports("(((1,2),3),4);((1,3),(2,4));(((2,3),4),1);", 3,
             (const struct clade[]){{BIT(1) | BIT(2) | BIT(3) | BIT(4), 3},
                                    {BIT(1) | BIT(2), 1},
                                    {BIT(1) | BIT(2) | BIT(3), 1},
                                    {BIT(1) | BIT(3), 1},
                                    {BIT(2) | BIT(3), 1},
                                    {BIT(2) | BIT(3) | BIT(4), 1},
                                    {BIT(2) | BIT(4), 1}},
             7, "(1,2,3,4);");
    supports("(((3,4),2),1);(((3,4),1),2);((1,2),(3,4));", 3,
             (const struct clade[]){{BIT(1) | BIT(2) | BIT(3) | BIT(4), 3},
                                    {BIT(3) | BIT(4), 3},
                                    {BIT(1) | BIT(2), 1},
                                    {BIT(1) | BIT(3) | BIT(4), 1},
                                    {BIT(2) | BIT(3) | BIT(4), 1}},
             5, "(1,2,(3,4));");
}

/* The clades of more than half of the trees, copies counted; half is not enough. */
static void majorities(void)
{
    const uint64_t all = BIT(1) | BIT(2) | BIT(3);
    supports("((1,2),3);((1,3),2);", 2,
             (const struct clade[]){{all, 2}, {BIT(1) | BIT(2), 1}, {BIT(1) | BIT(3), 1}}, 3, "(1,2,3);");
    supports("((1,3),2);((1,2),3);(3,(2,1));", 3,
             (const struct clade[]){{all, 3}, {BIT(1) | BIT(2), 2}, {BIT(1) | BIT(3), 1}}, 3, "((1,2),3);");
    supports("((1,3),2);((1,2),3);(3,(2,1));(2,(1,3));", 4,
             (const struct clade[]){{all, 4}, {BIT(1) | BIT(2), 2}, {BIT(1) | BIT(3), 2}}, 3, "(1,2,3);");
    supports("((1,3),2);((1,2),3);(3,(2,1));((2,3),1);", 4,
             (const struct clade[]){{all, 4}, {BIT(1) | BIT(2), 2}, {BIT(1) | BIT(3), 1}, {BIT(2) | BIT(3), 1}}, 4,
             "(1,2,3);");
}

/* Nodes of three and four children, alone and beside others. Children stand by smallest label: 2 before 10. */
static void majority_texts(void)
{
    const uint64_t five = BIT(1) | BIT(2) | BIT(3) | BIT(4) | BIT(5);
    supports("(((1,2),3),(4,5));((5,4),((1,3),2));", 2,
             (const struct clade[]){{BIT(1) | BIT(2) | BIT(3), 2},
                                    {five, 2},
                                    {BIT(4) | BIT(5), 2},
                                    {BIT(1) | BIT(2), 1},
                                    {BIT(1) | BIT(3), 1}},
             5, "((1,2,3),(4,5));");
    supports("((((2,3),1),5),4);((((2,3),5),1),4);", 2,
             (const struct clade[]){{five, 2},
                                    {BIT(1) | BIT(2) | BIT(3) | BIT(5), 2},
                                    {BIT(2) | BIT(3), 2},
                                    {BIT(1) | BIT(2) | BIT(3), 1},
                                    {BIT(2) | BIT(3) | BIT(5), 1}},
             5, "((1,(2,3),5),4);");
    supports("((30,2),10);((10,30),2);((2,10),30);", 3,
             (const struct clade[]){{BIT(2) | BIT(10) | BIT(30), 3},
                                    {BIT(2) | BIT(10), 1},
                                    {BIT(2) | BIT(30), 1},
                                    {BIT(10) | BIT(30), 1}},
             4, "(2,10,30);");
    supports("(10,(30,2));", 1, (const struct clade[]){{BIT(2) | BIT(10) | BIT(30), 1}, {BIT(2) | BIT(30), 1}}, 2,
             "((2,30),10);");
    supports("((9,10),(20,2));(((10,9),2),20);", 2,
             (const struct clade[]){{BIT(2) | BIT(9) | BIT(10) | BIT(20), 2},
                                    {BIT(9) | BIT(10), 2},
                                    {BIT(2) | BIT(9) | BIT(10), 1},
                                    {BIT(2) | BIT(20), 1}},
             4, "(2,(9,10),20);");
}

/* 160 trees of three leaves, so many of them with 1 and 2 together, the others with 1 and 3. */
static void shares_of_160(uint16_t with_2, const struct clade *expected, const char *tree)
{
    static char text[NORBELATH_MAX_TREES * 10 + 1];
    for (size_t i = 0; i < NORBELATH_MAX_TREES; i++) {
        strcpy(text + i * 10, i < with_2 ? "((1,2),3);" : "(2,(3,1));");
    }
    supports(text, NORBELATH_MAX_TREES, expected, 3, tree);
}

static void majorities_of_160(void)
{
    const uint64_t all = BIT(1) | BIT(2) | BIT(3), with_2 = BIT(1) | BIT(2), with_3 = BIT(1) | BIT(3);
    shares_of_160(79, (const struct clade[]){{all, 160}, {with_3, 81}, {with_2, 79}}, "((1,3),2);");
    shares_of_160(80, (const struct clade[]){{all, 160}, {with_2, 80}, {with_3, 80}}, "(1,2,3);");
    shares_of_160(81, (const struct clade[]){{all, 160}, {with_2, 81}, {with_3, 79}}, "((1,2),3);");
}

/* Lists the clades of a comb, which so many trees have. Gives the end of the list. */
static struct clade *list_comb(struct clade *at, unsigned label, unsigned by, unsigned leaves, uint16_t trees)
{
    uint64_t labels = BIT(label);
    for (unsigned steps = 1; steps < leaves; steps++) {
        labels |= BIT(label_behind(label, by, steps));
        *at++ = (struct clade){labels, trees};
    }
    return at;
}

/* 160 times the deepest tree, which is then the majority tree and fills its slice. */
static void deepest_majority(void)
{
    static char text[NORBELATH_MAX_TREES * LONGEST + 1];
    char deepest[LONGEST + 1];
    struct clade expected[63];
    strcpy(write_comb(deepest, 1, 1, 64), ";");
    list_comb(expected, 1, 1, 64, NORBELATH_MAX_TREES);
    for (size_t i = 0; i < NORBELATH_MAX_TREES; i++) {
        memcpy(text + i * LONGEST, deepest, sizeof deepest);
    }
    check(strlen(deepest) == NORBELATH_SUPPORT_OUT, "support", deepest, "the text has another length");
    supports(text, NORBELATH_MAX_TREES, expected, 63, deepest);
}

static int by_labels(const void *one, const void *other)
{
    return compare_labels(((const struct clade *)one)->labels, ((const struct clade *)other)->labels);
}

/*
 * As many clades as a table can have: 160 trees of 64 leaves that share none but the whole. Each is two combs of 32
 * leaves, and the labels of a comb go round 1 to 64 by an odd number below 32: its first 2 to 32 labels are then those
 * of no comb with another start or number. The majority tree has all labels side by side.
 */
static void most_clades(void)
{
    static char text[NORBELATH_MAX_TREES * LONGEST + 1];
    static struct clade expected[NORBELATH_SUPPORT_CLADES];
    const unsigned half = 32;
    char star[NORBELATH_SUPPORT_OUT + 1] = "(1", *at = text;
    struct clade *next = expected;
    *next++ = (struct clade){UINT64_MAX, NORBELATH_MAX_TREES};
    for (unsigned i = 0; i < NORBELATH_MAX_TREES; i++) {
        const unsigned label = 1 + i % half, by = 1 + 2 * (i / half), other = label_behind(label, by, half);
        *at++ = '(';
        at = write_comb(at, label, by, half);
        *at++ = ',';
        at = write_comb(at, other, by, half);
        *at++ = ')';
        *at++ = ';';
        next = list_comb(next, label, by, half, 1);
        next = list_comb(next, other, by, half, 1);
    }
    *at = '\0';
    check(next == expected + NORBELATH_SUPPORT_CLADES, "support", text, "there are not 9,921 clades");
    qsort(expected + 1, NORBELATH_SUPPORT_CLADES - 1, sizeof expected[0], by_labels);

    at = star + 2;
    for (unsigned label = 2; label <= 64; label++) {
        at += sprintf(at, ",%u", label);
    }
    strcpy(at, ");");
    supports(text, NORBELATH_MAX_TREES, expected, NORBELATH_SUPPORT_CLADES, star);
}

/* Each slice one element too short, and then all of them empty: refused before anything in the text. */
static void short_supports(const char *text, size_t text_len)
{
    struct support_lent lent = support_enough;
    lent.clades--;
    support_refused(text, text_len, lent, NORBELATH_SHORT_SLICE, 0);
    lent = support_enough;
    lent.trees--;
    support_refused(text, text_len, lent, NORBELATH_SHORT_SLICE, 0);
    lent = support_enough;
    lent.out--;
    support_refused(text, text_len, lent, NORBELATH_SHORT_SLICE, 0);
    support_refused(text, text_len, (struct support_lent){0, 0, 0}, NORBELATH_SHORT_SLICE, 0);
}

static void refused_supports(void)
{
    support_refused("(1,2", 4, support_enough, NORBELATH_WRONG_BYTE, 4);
    support_refused("(1,2,3);", 8, support_enough, NORBELATH_WRONG_BYTE, 4);
    support_refused("(1,2);(1,65);", 13, support_enough, NORBELATH_BAD_LABEL, 9);
    support_refused("(1,2);(2,2);", 12, support_enough, NORBELATH_LABEL_AGAIN, 9);
    support_refused("(1,2);(1,3);", 12, support_enough, NORBELATH_LABELS_DIFFER, 11);
    support_refused("(1,2);(1,3);x", 13, support_more, NORBELATH_LABELS_DIFFER, 11);
    support_refused("[&U](1,2,3);", 12, support_enough, NORBELATH_OTHER_KIND, 11);
    support_refused("[&U]7;x", 7, support_enough, NORBELATH_OTHER_KIND, 5);
    support_refused("(1,2);[&U](1,3);", 16, support_enough, NORBELATH_OTHER_KIND, 15);
    support_refused("(1,2);(1,3);[&U](1,2);", 22, support_enough, NORBELATH_LABELS_DIFFER, 11);
    support_refused("[&U]((1,2),3);", 14, support_enough, NORBELATH_WRONG_BYTE, 12);
    short_supports("[&U](1,2,3);", 12);
    short_supports("(1,2);(1,2);", 12);
    short_supports("(1,2", 4);
    short_supports("", 0);
}

/* The numbers of a list that stands where it is used, and how many they are. */
#define LIST(...) (const uint64_t[]){__VA_ARGS__}, sizeof((const uint64_t[]){__VA_ARGS__}) / sizeof(uint64_t)

/* One leaf is its label set alone, two leaves are the same number twice; clades ascend as numbers. */
static void small_rows(void)
{
    rows("1;", "1;", LIST(BIT(1)));
    rows(" 64 ;", "64;", LIST(BIT(64)));
    rows("(2,1);", "(1,2);", LIST(3, 3));
    rows("(64,1);", "(1,64);", LIST(BIT(1) | BIT(64), BIT(1) | BIT(64)));
    rows("[&R](3,(2,1));", "((1,2),3);", LIST(7, 3, 7));
    rows("((3,2),1);", "(1,(2,3));", LIST(7, 6, 7));
    rows("((4,3),(2,1));", "((1,2),(3,4));", LIST(15, 3, 12, 15));
    rows("((4,1),(3,2));", "((1,4),(2,3));", LIST(15, 6, 9, 15));
    rows("(((10,2),64),9);", "(((2,10),64),9);",
         LIST(BIT(2) | BIT(9) | BIT(10) | BIT(64), BIT(2) | BIT(10), BIT(2) | BIT(10) | BIT(64),
              BIT(2) | BIT(9) | BIT(10) | BIT(64)));
}

/* The deepest tree: its row fills 64 numbers and its text 309 bytes. One element less is refused. */
static void largest_rows(void)
{
    char deepest[LONGEST + 1];
    uint64_t row[65] = {UINT64_MAX};
    strcpy(write_comb(deepest, 1, 1, 64), ";");
    for (unsigned leaves = 2; leaves <= 64; leaves++) {
        row[leaves - 1] = UINT64_MAX >> (64 - leaves);
    }
    rows(deepest, deepest, row, 64);
    row_refused(deepest, LONGEST, NORBELATH_ROW - 1, NORBELATH_SHORT_SLICE, 0);
    row_text(deepest, row, 64, NORBELATH_ROW_TEXT_OUT - 1, NULL, NORBELATH_SHORT_SLICE);
    row_pair("64 leaves twice", row, 64, row, 64, NORBELATH_ACCEPTED, 0, 0);

    /*
     * The comb with leaf 64 hung above 61 of the others. Both have the forest without that leaf alone, which the last cut
     * of the comb leaves; the 60 smallest forks and all leaves count. In the other tree 62 and 63 come behind leaf 64.
     */
    uint64_t moved[64];
    memcpy(moved, row, sizeof moved);
    moved[61] = UINT64_MAX >> 3 | UINT64_C(1) << 63;
    moved[62] = UINT64_MAX >> 2 | UINT64_C(1) << 63;
    row_pair("the last of 64 leaves is moved", row, 64, moved, 64, NORBELATH_ACCEPTED, 1, 124);
    row_pair("it is moved back", moved, 64, row, 64, NORBELATH_ACCEPTED, 1, 122);

    row[64] = UINT64_MAX;
    row_text("65 numbers", row, 65, NORBELATH_ROW_TEXT_OUT, NULL, NORBELATH_NO_ROW);
    row_text("63 of 64 numbers", row, 63, NORBELATH_ROW_TEXT_OUT, NULL, NORBELATH_NO_ROW);
    row_text("the clades alone", row + 1, 63, NORBELATH_ROW_TEXT_OUT, NULL, NORBELATH_NO_ROW);
    row_text("a label less", row + 62, 2, NORBELATH_ROW_TEXT_OUT, NULL, NORBELATH_NO_ROW);
}

/* Too short a slice goes before the text and before the row; an unrooted tree is refused at its `;`. */
static void refused_rows(void)
{
    const size_t enough = NORBELATH_ROW;
    static char blanks[NORBELATH_MAX_TEXT + 1];
    row_refused("(1,2);", 6, enough - 1, NORBELATH_SHORT_SLICE, 0);
    row_refused("(1,2", 4, enough - 1, NORBELATH_SHORT_SLICE, 0);
    row_refused("7;", 2, 0, NORBELATH_SHORT_SLICE, 0);
    row_refused("", 0, enough, NORBELATH_WRONG_BYTE, 0);
    row_refused("(1,2", 4, enough, NORBELATH_WRONG_BYTE, 4);
    row_refused("(1,2);(1,2);", 12, enough, NORBELATH_WRONG_BYTE, 6);
    row_refused("(1,65);", 7, enough, NORBELATH_BAD_LABEL, 3);
    row_refused("(1,1);", 6, enough, NORBELATH_LABEL_AGAIN, 3);
    row_refused("[&U](1,2,3);", 12, enough, NORBELATH_OTHER_KIND, 11);
    row_refused("[&U]7;x", 7, enough, NORBELATH_OTHER_KIND, 5);
    row_refused("[&U]7", 5, enough, NORBELATH_WRONG_BYTE, 5);
    row_refused("[&U]((1,2),3);", 14, enough, NORBELATH_WRONG_BYTE, 12);
    memset(blanks, ' ', sizeof blanks);
    row_refused(blanks, NORBELATH_MAX_TEXT, enough, NORBELATH_WRONG_BYTE, NORBELATH_MAX_TEXT);
    row_refused(blanks, sizeof blanks, enough, NORBELATH_LONG_TEXT, 0);
    row_refused(blanks, sizeof blanks, enough - 1, NORBELATH_SHORT_SLICE, 0);
}

static void not_a_row(const char *what, const uint64_t *row, size_t row_len)
{
    row_text(what, row, row_len, NORBELATH_ROW_TEXT_OUT, NULL, NORBELATH_NO_ROW);
    row_text(what, row, row_len, NORBELATH_ROW_TEXT_OUT - 1, NULL, NORBELATH_SHORT_SLICE);
    row_pair(what, row, row_len, LIST(7, 3, 7), NORBELATH_NO_ROW, 0, 0);
    row_pair(what, LIST(7, 3, 7), row, row_len, NORBELATH_NO_ROW, 1, 0);
    row_pair(what, row, row_len, row, row_len, NORBELATH_NO_ROW, 0, 0);
}

/* A slice holds one row and nothing more. What lies behind it is not part of it, though it may fit. */
static void slices_that_are_no_rows(void)
{
    const uint64_t behind[] = {15, 3, 12, 15, 15};
    not_a_row("nothing", behind, 0);
    not_a_row("no labels", LIST(0));
    not_a_row("no labels twice", LIST(0, 0));
    not_a_row("one label twice", LIST(1, 1));
    not_a_row("two labels once", LIST(3));
    not_a_row("two labels three times", LIST(3, 3, 3));
    not_a_row("a part of the row", behind, 3);
    not_a_row("a number behind the row", behind, 5);
    not_a_row("the whole left out", LIST(15, 3, 12));
    not_a_row("one clade missing, another twice", LIST(15, 3, 3, 15));
    not_a_row("clades out of order", LIST(15, 12, 3, 15));
    not_a_row("the whole before its parts", LIST(7, 7, 3));
    not_a_row("crossing clades", LIST(15, 3, 6, 15));
    not_a_row("crossing clades, not side by side", LIST(15, 3, 12, 14));
    not_a_row("a clade of one label", LIST(7, 1, 7));
    not_a_row("a clade of none", LIST(7, 0, 7));
    not_a_row("a label that is not in the label set", LIST(7, 3, 15));
    not_a_row("another label set", LIST(11, 3, 7));
    not_a_row("a larger label set", LIST(15, 3, 7));
    not_a_row("a smaller label set", LIST(3, 3, 7));
}

/* The answers of the pair call; then which row is refused first, and other labels last. */
static void row_pairs(void)
{
    row_pair("one move apart", LIST(15, 3, 7, 15), LIST(15, 3, 12, 15), NORBELATH_ACCEPTED, 1, 1);
    row_pair("the same exchanged", LIST(15, 3, 12, 15), LIST(15, 3, 7, 15), NORBELATH_ACCEPTED, 1, 1);
    row_pair("not one move apart", LIST(15, 3, 7, 15), LIST(15, 12, 13, 15), NORBELATH_ACCEPTED, 0, 4);
    row_pair("what one keeps the other takes away", LIST(31, 24, 25, 27, 31), LIST(31, 3, 7, 15, 31),
             NORBELATH_ACCEPTED, 0, 5);
    row_pair("leaf 4 is moved", LIST(15, 3, 7, 15), LIST(15, 9, 11, 15), NORBELATH_ACCEPTED, 1, 4);
    row_pair("leaf 4 is moved back", LIST(15, 9, 11, 15), LIST(15, 3, 7, 15), NORBELATH_ACCEPTED, 1, 2);
    row_pair("a clade in common, and a move", LIST(31, 3, 7, 15, 31), LIST(31, 3, 19, 23, 31), NORBELATH_ACCEPTED, 1, 6);
    row_pair("the same back", LIST(31, 3, 19, 23, 31), LIST(31, 3, 7, 15, 31), NORBELATH_ACCEPTED, 1, 4);
    row_pair("a clade in common, and no move", LIST(31, 3, 7, 15, 31), LIST(31, 3, 24, 27, 31), NORBELATH_ACCEPTED, 0,
             6);
    row_pair("the same exchanged", LIST(31, 3, 24, 27, 31), LIST(31, 3, 7, 15, 31), NORBELATH_ACCEPTED, 0, 6);
    row_pair("equal", LIST(7, 3, 7), LIST(7, 3, 7), NORBELATH_ACCEPTED, 0, 0);
    row_pair("one leaf", LIST(64), LIST(64), NORBELATH_ACCEPTED, 0, 0);
    row_pair("two leaves", LIST(3, 3), LIST(3, 3), NORBELATH_ACCEPTED, 0, 0);
    row_pair("other labels", LIST(1), LIST(2), NORBELATH_LABELS_DIFFER, 1, 0);
    row_pair("a label more", LIST(3, 3), LIST(7, 3, 7), NORBELATH_LABELS_DIFFER, 1, 0);
    row_pair("another label", LIST(7, 3, 7), LIST(11, 3, 11), NORBELATH_LABELS_DIFFER, 1, 0);
    row_pair("both no rows", LIST(3), LIST(5), NORBELATH_NO_ROW, 0, 0);
    row_pair("row 1 is none, and has other labels", LIST(1), LIST(6), NORBELATH_NO_ROW, 1, 0);
    row_pair("row 0 is none, and has other labels", LIST(6), LIST(1), NORBELATH_NO_ROW, 0, 0);
}

/* The neighbours that stand where this is used, and how many they are; or none. */
#define NEIGHBOURS(...) (const uint16_t[]){__VA_ARGS__}, sizeof((const uint16_t[]){__VA_ARGS__}) / sizeof(uint16_t)
#define NO_NEIGHBOURS (const uint16_t[]){0}, 0

/* No tree is held, and a tree of any labels may be the first. */
static void small_plots(void)
{
    plots(" 7 ;", (double[]){0}, (uint16_t[]){0}, 1);
    plots("[&R](64,3);", (double[]){0.5, 0, 1}, (uint16_t[]){0, 1, 1}, 3);
    /* The order is that of the canonical texts ((1,2),3); and (1,(2,3)); and ((1,(2,4)),(3,5)); */
    plots("(3,(2,1));", (double[]){1.25, 0.5, 0, 1, 2}, (uint16_t[]){0, 1, 2, 2, 1}, 5);
    plots("((3,2),1);", (double[]){0.75, 0, 1.5, 1, 2}, (uint16_t[]){0, 1, 1, 2, 2}, 5);
    plots("((5,3),((4,2),1));", (double[]){2.125, 0.75, 0, 1.5, 1, 2, 3.5, 3, 4},
          (uint16_t[]){0, 1, 2, 2, 3, 3, 1, 2, 2}, 9);
}

/* Combs of 64 leaves, with all brackets at the start or at the end: a fork's row is halfway between its children's. */
static void largest_plots(void)
{
    static char text[1000];
    static double expected_rows[NORBELATH_PLOT_ROWS];
    static uint16_t expected_columns[NORBELATH_PLOT_COLUMNS];
    char *at = text;
    memset(at, '(', 63);
    at += 63;
    for (int label = 1; label <= 64; label++) {
        at += sprintf(at, label == 1 ? "%d" : ",%d)", label);
    }
    sprintf(at, ";");
    /* Forks 0 to 62 come first, the lowest of them last. Leaf i, the second child of fork 63 - i, is node 63 + i. */
    expected_rows[63] = 0;
    expected_columns[63] = 63;
    for (int i = 1; i < 64; i++) {
        expected_rows[63 + i] = i;
        expected_columns[63 + i] = (uint16_t)(64 - i);
        expected_rows[63 - i] = (expected_rows[64 - i] + i) * 0.5;
        expected_columns[63 - i] = (uint16_t)(63 - i);
    }
    plots(text, expected_rows, expected_columns, 127);
    /* 1 over 2 to the power 63 has no room behind 62. */
    check(plot_rows[0] == 62, "plot", text, "the root was expected in row 62");

    at = text;
    for (int label = 1; label < 64; label++) {
        at += sprintf(at, "(%d,", label);
    }
    at += sprintf(at, "64");
    memset(at, ')', 63);
    memcpy(at + 63, ";", 2);
    /* Fork i is node 2i, and leaf i, its first child, node 2i + 1; the last leaf is the second child of the last fork. */
    expected_rows[126] = 63;
    expected_columns[126] = 63;
    for (int i = 62; i >= 0; i--) {
        expected_rows[2 * i + 1] = i;
        expected_columns[2 * i + 1] = (uint16_t)(i + 1);
        expected_rows[2 * i] = (i + expected_rows[2 * i + 2]) * 0.5;
        expected_columns[2 * i] = (uint16_t)i;
    }
    plots(text, expected_rows, expected_columns, 127);
}

static void refused_plots(void)
{
    static char long_text[NORBELATH_MAX_TEXT + 1];
    const char *texts_of_all_sorts[] = {"(1,2);", "", "(1,1);", "[&U]7;"};
    size_t rows_len = NORBELATH_PLOT_ROWS, columns_len = NORBELATH_PLOT_COLUMNS;
    memset(long_text, ' ', sizeof long_text);
    for (size_t i = 0; i < 4; i++) {
        const char *text = texts_of_all_sorts[i];
        plot_refused(text, strlen(text), rows_len - 1, columns_len, NORBELATH_SHORT_SLICE, 0);
        plot_refused(text, strlen(text), rows_len, columns_len - 1, NORBELATH_SHORT_SLICE, 0);
        plot_refused(text, strlen(text), rows_len + 1, 3, NORBELATH_SHORT_SLICE, 0);
        plot_refused(text, strlen(text), 0, 0, NORBELATH_SHORT_SLICE, 0);
    }
    plot_refused(long_text, sizeof long_text, rows_len, columns_len - 1, NORBELATH_SHORT_SLICE, 0);
    plot_refused(long_text, sizeof long_text, rows_len, columns_len, NORBELATH_LONG_TEXT, 0);
    plot_refused(long_text, NORBELATH_MAX_TEXT, rows_len, columns_len, NORBELATH_WRONG_BYTE, NORBELATH_MAX_TEXT);
    plot_refused("", 0, rows_len, columns_len, NORBELATH_WRONG_BYTE, 0);
    plot_refused("(1,2);x", 7, rows_len, columns_len, NORBELATH_WRONG_BYTE, 6);
    plot_refused("(1,65);", 7, rows_len, columns_len, NORBELATH_BAD_LABEL, 3);
    plot_refused("(1,1);", 6, rows_len, columns_len, NORBELATH_LABEL_AGAIN, 3);
    memset(long_text, '(', 64);
    plot_refused(long_text, 64, rows_len, columns_len, NORBELATH_TOO_DEEP, 63);
    plot_refused("[&U]7;", 6, rows_len, columns_len, NORBELATH_OTHER_KIND, 5);
    plot_refused("[&U](1,2,3);x", 13, rows_len, columns_len, NORBELATH_OTHER_KIND, 11);
}

static void empty_index(void)
{
    const size_t numbers[] = {0, 1, 159, 160, 255, 256, (size_t)1 << 32, SIZE_MAX};
    clear_index();
    for (size_t i = 0; i < sizeof numbers / sizeof numbers[0]; i++) {
        not_held("the empty index", numbers[i]);
    }
    add(" [&R] 64 ;", 0);
    clear_index();
    add("(7,(9,8));", 0);
}

/* A leaf has no cuts. Of (1,2) the texts are 2 1; and 1 2;, so that the second cut stands first. */
static void smallest_indices(void)
{
    clear_index();
    add(" 07 ;", 0);
    add("7;", 1);
    index_is("leaves", 0, 1, BYTES(7, 7), NO_BYTES);
    neighbours("leaves", 0, NO_NEIGHBOURS);
    neighbours("leaves", 1, NO_NEIGHBOURS);
    not_held("leaves", 2);

    clear_index();
    add("(2,1);", 0);
    index_is("two leaves", 0, 3, BYTES(66, 1, 2), BYTES(0, 1, 0, 0));
    add("(1,2);", 1);
    index_is("two leaves twice", 0, 3, BYTES(66, 1, 2, 66, 1, 2), BYTES(0, 1, 1, 1, 0, 0, 1, 0));
    neighbours("two leaves twice", 0, NO_NEIGHBOURS);
}

/* The index of ((1,2),3), ((1,3),2) and a copy of the first, and its entries with their texts. */
static const uint8_t three_slots[] = {67, 66, 1, 2, 3, 67, 66, 1, 3, 2, 67, 66, 1, 2, 3};
static const uint8_t three_entries[] = {
    0, 3, 1, 2, 2, 3, /* (1,2) 3; */
    0, 2, 1, 3, 2, 2, /* (1,3) 2; */
    0, 1, 1, 1, 2, 1, /* (2,3) 1; */
    1, 0,             /* 2 (1,3); */
    0, 0, 2, 0,       /* 3 (1,2); */
};

static void write_three(void)
{
    write_index(index_memory, 0, 5, three_slots, sizeof three_slots, three_entries, sizeof three_entries);
}

static void is_three(const char *what)
{
    index_is(what, 0, 5, three_slots, sizeof three_slots, three_entries, sizeof three_entries);
}

/* Numbers in order of arrival, copies apart; the same bytes, however much is lent and whatever lies behind. */
static void small_index(void)
{
    const size_t lent[] = {NORBELATH_INDEX_BYTES, NORBELATH_INDEX_BYTES + 1, sizeof index_memory};
    for (size_t i = 0; i < sizeof lent / sizeof lent[0]; i++) {
        clear_index();
        add_in(lent[i], "((1,2),3);", 0);
        index_is("one tree", 0, 5, BYTES(67, 66, 1, 2, 3), BYTES(0, 3, 0, 2, 0, 1, 0, 0));
        neighbours("one tree", 0, NO_NEIGHBOURS);
        add_in(lent[i], "(2,(3,1));", 1);
        index_is("two trees", 0, 5, BYTES(67, 66, 1, 2, 3, 67, 66, 1, 3, 2),
                 BYTES(0, 3, 1, 2, 0, 2, 1, 3, 0, 1, 1, 1, 1, 0, 0, 0));
        neighbours("two trees", 0, NEIGHBOURS(1));
        neighbours("two trees", 1, NEIGHBOURS(0));
        add_in(lent[i], "[&R] (3,(2,1)) ;", 2);
        is_three("three trees");
        neighbours("three trees", 0, NEIGHBOURS(1));
        neighbours("three trees", 1, NEIGHBOURS(0, 2));
        neighbours("three trees", 2, NEIGHBOURS(1));
    }
}

/* 10 stands behind 2 in a tree, and before it in the order (1,10) 2; (1,2) 10; (2,10) 1; 1 (2,10); 10 (1,2); */
static void labels_of_two_digits(void)
{
    clear_index();
    add("(10,(2,1));", 0);
    add("(1,(10,2));", 1);
    index_is("10 and 2", 0, 5, BYTES(67, 66, 1, 2, 10, 67, 1, 66, 2, 10),
             BYTES(0, 2, 1, 2, 0, 3, 1, 3, 0, 1, 1, 0, 1, 1, 0, 0));
    neighbours("10 and 2", 0, NEIGHBOURS(1));
}

/* Of four leaves: the second is one move from the others, of which the last is a copy of the first. */
static void lists_of_an_index(void)
{
    clear_index();
    add("(((1,2),3),4);", 0);
    add("((1,2),(3,4));", 1);
    add("(((3,4),1),2);", 2);
    add("(4,(3,(2,1)));", 3);
    neighbours("four leaves", 0, NEIGHBOURS(1));
    neighbours("four leaves", 1, NEIGHBOURS(0, 2, 3));
    neighbours("four leaves", 2, NEIGHBOURS(1));
    neighbours("four leaves", 3, NEIGHBOURS(1));
}

/* Held trees may have any numbers: an addition takes the smallest free one. */
static void index_with_gaps(void)
{
    clear_index();
    write_index(index_memory, 1, 3, BYTES(66, 1, 2), BYTES(1, 1, 1, 0));
    not_held("a gap", 0);
    neighbours("a gap", 1, NO_NEIGHBOURS);
    add("(1,2);", 0);
    add("(1,2);", 2);
    index_is("the gap filled", 0, 3, BYTES(66, 1, 2, 66, 1, 2, 66, 1, 2),
             BYTES(0, 1, 1, 1, 2, 1, 0, 0, 1, 0, 2, 0));

    write_index(index_memory, 159, 1, BYTES(64), NO_BYTES);
    neighbours("the last number", 159, NO_NEIGHBOURS);
    add("64;", 0);
    add_refused("63;", 3, NORBELATH_INDEX_BYTES, NORBELATH_LABELS_DIFFER, 2);
    take_out("the last number", 159);
    index_is("64", 0, 1, BYTES(64), NO_BYTES);
}

/* Without the tree that was added last, the bytes are those before the addition. */
static void last_taken_out(void)
{
    static uint8_t before[NORBELATH_INDEX_BYTES];
    const char *trees[] = {"((1,2),3);", "(2,(3,1));", "(3,(2,1));", "(1,(2,3));"};
    clear_index();
    for (size_t i = 0; i < sizeof trees / sizeof trees[0]; i++) {
        memcpy(before, index_memory, sizeof before);
        add(trees[i], i);
        take_out(trees[i], i);
        check(memcmp(index_memory, before, sizeof before) == 0, "index remove", trees[i],
              "the bytes before the addition were expected");
        not_held(trees[i], i);
        add(trees[i], i);
    }
    neighbours("four trees", 3, NEIGHBOURS(0, 1, 2));
}

/* The one between two copies, and then either copy; the same bytes, however much is lent and whatever lies behind. */
static void middle_and_copies_taken_out(void)
{
    const size_t lent[] = {NORBELATH_INDEX_BYTES, NORBELATH_INDEX_BYTES + 1, sizeof index_memory};
    for (size_t i = 0; i < sizeof lent / sizeof lent[0]; i++) {
        clear_index();
        write_three();
        take_out_in(lent[i], "the second of three", 1);
        index_is("a gap between copies", 0, 5, BYTES(67, 66, 1, 2, 3, 0, 0, 0, 0, 0, 67, 66, 1, 2, 3),
                 BYTES(0, 3, 2, 3, 0, 2, 2, 2, 0, 1, 2, 1, 0, 0, 2, 0));
        not_held("a gap between copies", 1);
        neighbours("a gap between copies", 0, NO_NEIGHBOURS);
        neighbours("a gap between copies", 2, NO_NEIGHBOURS);
        add_in(lent[i], "((3,1),2);", 1);
        is_three("the gap filled");

        take_out_in(lent[i], "the first of two copies", 0);
        index_is("without the first", 1, 5, three_slots + 5, 10,
                 BYTES(1, 2, 2, 3, 1, 3, 2, 2, 1, 1, 2, 1, 1, 0, 2, 0));
        neighbours("without the first", 1, NEIGHBOURS(2));
        neighbours("without the first", 2, NEIGHBOURS(1));
        not_held("without the first", 0);
        add_in(lent[i], "(1,(3,2));", 0);
        neighbours("another first", 0, NEIGHBOURS(1, 2));
        take_out_in(lent[i], "another first", 0);
        add_in(lent[i], "(3,(1,2));", 0);
        is_three("the first again");

        take_out_in(lent[i], "the second of two copies", 2);
        index_is("without the copy", 0, 5, three_slots, 10, BYTES(0, 3, 1, 2, 0, 2, 1, 3, 0, 1, 1, 1, 1, 0, 0, 0));
        neighbours("without the copy", 0, NEIGHBOURS(1));
    }
}

/* Without its last tree an index is zeros, whatever number that had, and the next tree may have any labels. */
static void only_one_taken_out(void)
{
    const char *trees[] = {"7;", "((1,2),3);", "(64,(1,63));", "(2,1);", "1;"};
    clear_index();
    for (size_t i = 0; i < sizeof trees / sizeof trees[0]; i++) {
        add(trees[i], 0);
        take_out(trees[i], 0);
        index_is(trees[i], 0, 1, NO_BYTES, NO_BYTES);
        not_held(trees[i], 0);
    }
    write_three();
    take_out("three trees", 0);
    take_out("three trees", 2);
    add_refused("(1,2);", 6, NORBELATH_INDEX_BYTES, NORBELATH_LABELS_DIFFER, 5);
    take_out("three trees", 1);
    index_is("none of three trees", 0, 1, NO_BYTES, NO_BYTES);
    add("(1,2);", 0);
    add_refused("((1,2),3);", 10, NORBELATH_INDEX_BYTES, NORBELATH_LABELS_DIFFER, 9);
    index_is("other labels", 0, 3, BYTES(66, 1, 2), BYTES(0, 1, 0, 0));
}

/* Entry k, and the text that the cut call writes for it, with zeros behind. */
struct entry {
    uint8_t number, cut;
    uint8_t text[NORBELATH_CUT_OUT];
};

static int read_entry(char (*trees)[LONGEST + 1], size_t number_of_trees, size_t k, struct entry *e)
{
    uint64_t first, second;
    e->number = index_memory[ENTRIES_AT + 2 * k];
    e->cut = index_memory[ENTRIES_AT + 2 * k + 1];
    memset(e->text, 0, sizeof e->text);
    return e->number < number_of_trees &&
           norbelath_cut((const uint8_t *)trees[e->number], LONGEST, e->cut, e->text, sizeof e->text, &first,
                         &second) == NORBELATH_ACCEPTED;
}

static int comes_before(const struct entry *e, const struct entry *other)
{
    const int order = memcmp(e->text, other->text, sizeof e->text);
    return order < 0 ||
           (order == 0 && (e->number < other->number || (e->number == other->number && e->cut < other->cut)));
}

/* Each entry is a cut of a tree and stands before the next. They are as many as there are cuts, so all are there. */
static int entries_in_order(char (*trees)[LONGEST + 1], size_t number_of_trees)
{
    struct entry e, before;
    for (size_t k = 0; k < 126 * number_of_trees; k++) {
        if (!read_entry(trees, number_of_trees, k, &e) || (k > 0 && !comes_before(&before, &e))) {
            return 0;
        }
        before = e;
    }
    return 1;
}

/* The deepest tree fills its slot: 63 forks, then 64 leaves. */
static void deepest_in_index(void)
{
    static const uint8_t zeros[NORBELATH_INDEX_BYTES];
    char deepest[1][LONGEST + 1];
    uint8_t slot[SLOT];
    strcpy(write_comb(deepest[0], 1, 1, 64), ";");
    for (uint8_t i = 0; i < SLOT; i++) {
        slot[i] = i < 63 ? 128 - i : i - 62;
    }
    clear_index();
    add(deepest[0], 0);
    check(memcmp(index_memory, slot, SLOT) == 0, "index", deepest[0], "another slot was expected");
    check(memcmp(index_memory + SLOT, zeros, ENTRIES_AT - SLOT) == 0, "index", deepest[0], "another slot was changed");
    check(entries_in_order(deepest, 1), "index", deepest[0], "other entries were expected");
    check(memcmp(index_memory + ENTRIES_AT + 252, zeros, NORBELATH_INDEX_BYTES - ENTRIES_AT - 252) == 0, "index",
          deepest[0], "zeros were expected behind the entries");
    neighbours(deepest[0], 0, NO_NEIGHBOURS);
    take_out(deepest[0], 0);
    check(memcmp(index_memory, zeros, sizeof zeros) == 0, "index", deepest[0], "zeros were expected");
}

/* What the graph choosing call, which was just made, gives as neighbours of a position. */
static size_t partners(uint16_t position, uint64_t number_of_pairs, uint16_t *list)
{
    size_t listed = 0;
    for (size_t k = 0; k < number_of_pairs; k++) {
        if (pairs[2 * k] == position) {
            list[listed++] = pairs[2 * k + 1];
        } else if (pairs[2 * k + 1] == position) {
            list[listed++] = pairs[2 * k];
        }
    }
    return listed;
}

/*
 * 160 trees of 64 leaves: combs whose labels go round 1 to 64 from another start, by 1, by 3 and by 5. One move takes
 * the deepest label to the root and makes the next of them.
 */
static char full_trees[NORBELATH_MAX_TREES][LONGEST + 1];

/*
 * Of these numbers, which are those of the held trees, every third has the list that the graph choosing call gives, where
 * a position stands for the number at that place. There are so many pairs or more.
 */
static void lists_beside_the_graph(const char *what, const uint16_t *numbers, size_t held, size_t least)
{
    static char text[NORBELATH_MAX_TREES * LONGEST];
    const struct lister keeping = {"graph choosing", call_keeping, KEPT_APART, 1, 0};
    uint16_t expected[NORBELATH_MAX_TREES];
    for (size_t i = 0; i < held; i++) {
        memcpy(text + i * LONGEST, full_trees[numbers[i]], LONGEST);
    }
    struct reply r = list(keeping, text, held * LONGEST, enough);
    check(r.result == NORBELATH_ACCEPTED && r.second >= least, keeping.name, what, "more pairs were expected");
    for (uint16_t i = 0; i < held; i += 3) {
        size_t listed = partners(i, r.second, expected);
        for (size_t k = 0; k < listed; k++) {
            expected[k] = numbers[expected[k]];
        }
        neighbours_in(0, what, numbers[i], expected, listed);
    }
}

/* The full index: a number that was taken out is the only free one. Then all are taken out, in a mixed order. */
static void full_index_emptied(void)
{
    static uint8_t full[NORBELATH_INDEX_BYTES];
    const size_t some[] = {0, 77, 159};
    uint16_t numbers[NORBELATH_MAX_TREES];
    memcpy(full, index_memory, sizeof full);
    for (size_t i = 0; i < sizeof some / sizeof some[0]; i++) {
        take_out("160 trees", some[i]);
        not_held("159 trees", some[i]);
        add(full_trees[some[i]], some[i]);
        check(memcmp(index_memory, full, sizeof full) == 0, "index", "160 trees again", "the same bytes were expected");
        add_refused(full_trees[0], LONGEST, NORBELATH_INDEX_BYTES, NORBELATH_TOO_MANY_TREES, 0);
    }
    for (size_t i = 0; i < NORBELATH_MAX_TREES; i++) {
        take_out("fewer and fewer trees", (11 + 37 * i) % NORBELATH_MAX_TREES);
        if (i == 79) {
            size_t held = 0;
            for (uint16_t number = 0; number < NORBELATH_MAX_TREES; number++) {
                if (index_memory[SLOT * number] != 0) {
                    numbers[held++] = number;
                }
            }
            check(held == 80, "index", "half of the trees", "80 trees were expected");
            lists_beside_the_graph("half of the trees", numbers, held, 30);
        }
    }
    index_is("none of 160 trees", 0, 1, NO_BYTES, NO_BYTES);
    not_held("none of 160 trees", 0);
    add("(64,9);", 0);
    index_is("after 160 trees", 0, 3, BYTES(66, 9, 64), BYTES(0, 0, 0, 1));
}

/* When 160 trees are held no tree fits, whatever its kind and labels are, until one is taken out. */
static void full_index(void)
{
    uint16_t numbers[NORBELATH_MAX_TREES];
    clear_index();
    for (uint16_t i = 0; i < NORBELATH_MAX_TREES; i++) {
        strcpy(write_comb(full_trees[i], 1 + i % 64, 1 + 2 * (i / 64), 64), ";");
        add(full_trees[i], i);
        numbers[i] = i;
    }
    check(entries_in_order(full_trees, NORBELATH_MAX_TREES), "index", "160 trees", "other entries were expected");
    lists_beside_the_graph("160 trees", numbers, NORBELATH_MAX_TREES, 150);
    not_held("160 trees", 160);
    not_held("160 trees", 256);
    not_held("160 trees", SIZE_MAX);
    add_refused("(1,2", 4, sizeof index_memory, NORBELATH_WRONG_BYTE, 4);
    add_refused(full_trees[0], LONGEST - 1, NORBELATH_INDEX_BYTES, NORBELATH_WRONG_BYTE, LONGEST - 1);
    add_refused(full_trees[0], LONGEST, NORBELATH_INDEX_BYTES, NORBELATH_TOO_MANY_TREES, 0);
    add_refused("[&U](1,2,3);", 12, NORBELATH_INDEX_BYTES, NORBELATH_TOO_MANY_TREES, 0);
    add_refused("  7 ;", 5, NORBELATH_INDEX_BYTES, NORBELATH_TOO_MANY_TREES, 0);
    neighbours_refused("160 trees", NORBELATH_INDEX_BYTES - 1, 0, NORBELATH_INDEX_LIST, NORBELATH_SHORT_SLICE);
    removal_refused("160 trees", NORBELATH_INDEX_BYTES - 1, 0, NORBELATH_SHORT_SLICE);
    full_index_emptied();
}

/* 160 copies of one tree are all held, and none is a neighbour of another. */
static void index_of_copies(void)
{
    const char *copies[] = {"((1,2),3);", "(3,(2,1));"};
    clear_index();
    for (size_t i = 0; i < NORBELATH_MAX_TREES; i++) {
        add(copies[i % 2], i);
    }
    for (size_t i = 0; i < NORBELATH_MAX_TREES; i += 53) {
        neighbours("160 copies", i, NO_NEIGHBOURS);
    }
    /* The entries of the least text are those of the last leaf, in order of number. */
    check(index_memory[ENTRIES_AT + 2 * 159] == 159 && index_memory[ENTRIES_AT + 2 * 159 + 1] == 3 &&
              index_memory[ENTRIES_AT + 2 * 160] == 0 && index_memory[ENTRIES_AT + 2 * 160 + 1] == 2,
          "index", "160 copies", "ties by number were expected");
    add_refused("((1,2),3);", 10, NORBELATH_INDEX_BYTES, NORBELATH_TOO_MANY_TREES, 0);
    take_out("160 copies", 53);
    add("((1,3),2);", 53);
    neighbours("159 copies", 52, NEIGHBOURS(53));
}

/* A text is refused as in the form call, and only then an unrooted tree, and then other labels. */
static void refused_additions(void)
{
    const size_t enough = NORBELATH_INDEX_BYTES;
    static char blanks[NORBELATH_MAX_TEXT + 1];
    char deeper[65];
    clear_index();
    add_refused("[&U]7;", 6, enough, NORBELATH_OTHER_KIND, 5);
    add_refused("", 0, enough, NORBELATH_WRONG_BYTE, 0);
    write_three();
    add_refused("", 0, enough, NORBELATH_WRONG_BYTE, 0);
    add_refused("((1,2),3)", 9, enough, NORBELATH_WRONG_BYTE, 9);
    add_refused("((1,2),3);((1,2),3);", 20, enough, NORBELATH_WRONG_BYTE, 10);
    add_refused("((1,2),65);", 11, enough, NORBELATH_BAD_LABEL, 7);
    add_refused("((1,2),2);", 10, enough, NORBELATH_LABEL_AGAIN, 7);
    memset(deeper, '(', sizeof deeper);
    add_refused(deeper, 64, enough, NORBELATH_TOO_DEEP, 63);
    add_refused("[&U](1,2,3) ;", 13, enough, NORBELATH_OTHER_KIND, 12);
    add_refused("[&U](1,2,3);x", 13, enough, NORBELATH_WRONG_BYTE, 12);
    add_refused("[&U]((1,2),3);", 14, enough, NORBELATH_WRONG_BYTE, 12);
    add_refused("[&U](1,2,4);", 12, enough, NORBELATH_OTHER_KIND, 11);
    add_refused("((1,2),4);", 10, enough, NORBELATH_LABELS_DIFFER, 9);
    add_refused(" (1,2) ; ", 9, enough, NORBELATH_LABELS_DIFFER, 7);
    add_refused("(((1,2),3),4);", 14, enough, NORBELATH_LABELS_DIFFER, 13);
    add_refused("(1,2);x", 7, enough, NORBELATH_WRONG_BYTE, 6);
    memset(blanks, ' ', sizeof blanks);
    add_refused(blanks, NORBELATH_MAX_TEXT, enough, NORBELATH_WRONG_BYTE, NORBELATH_MAX_TEXT);
    add_refused(blanks, sizeof blanks, enough, NORBELATH_LONG_TEXT, 0);
    add_refused("((1,2),3);", 10, enough - 1, NORBELATH_SHORT_SLICE, 0);
    add_refused("(1,2", 4, enough - 1, NORBELATH_SHORT_SLICE, 0);
    add_refused(blanks, sizeof blanks, enough - 1, NORBELATH_SHORT_SLICE, 0);
    add_refused("((1,2),3);", 10, 0, NORBELATH_SHORT_SLICE, 0);
    is_three("after refusals");

    /* Memory of no index goes behind the lengths and before all else in the text. */
    index_memory[NORBELATH_INDEX_BYTES - 1] = 1;
    add_refused("((1,2),3);", 10, enough - 1, NORBELATH_SHORT_SLICE, 0);
    add_refused(blanks, sizeof blanks, enough, NORBELATH_LONG_TEXT, 0);
    add_refused("(1,2", 4, enough, NORBELATH_NO_INDEX, 0);
    add_refused("[&U](1,2);", 10, enough, NORBELATH_NO_INDEX, 0);
    add_refused("((1,2),3);", 10, sizeof index_memory, NORBELATH_NO_INDEX, 0);
}

/* Too short a memory or list goes before memory of no index, and that before a number that is not held. */
static void refused_questions(void)
{
    const size_t bytes = NORBELATH_INDEX_BYTES, numbers = NORBELATH_INDEX_LIST;
    const size_t others[] = {3, 159, 160, 255, 256, 257, (size_t)1 << 16, (size_t)1 << 32, SIZE_MAX - 1, SIZE_MAX};
    clear_index();
    write_three();
    for (size_t i = 0; i < sizeof others / sizeof others[0]; i++) {
        not_held("three trees", others[i]);
        neighbours_refused("three trees", bytes - 1, others[i], numbers, NORBELATH_SHORT_SLICE);
        neighbours_refused("three trees", bytes, others[i], numbers - 1, NORBELATH_SHORT_SLICE);
    }
    neighbours_refused("three trees", bytes - 1, 1, numbers, NORBELATH_SHORT_SLICE);
    neighbours_refused("three trees", bytes, 1, numbers - 1, NORBELATH_SHORT_SLICE);
    neighbours_refused("three trees", 0, 1, 0, NORBELATH_SHORT_SLICE);

    index_memory[SLOT - 1] = 1;
    neighbours_refused("no index", bytes - 1, 1, numbers, NORBELATH_SHORT_SLICE);
    neighbours_refused("no index", bytes, 1, numbers - 1, NORBELATH_SHORT_SLICE);
    neighbours_refused("no index", bytes, 1, numbers, NORBELATH_NO_INDEX);
    neighbours_refused("no index", sizeof index_memory, 160, numbers, NORBELATH_NO_INDEX);
}

/* Too short a memory goes before memory of no index, and that before a number that is not held. */
static void refused_removals(void)
{
    const size_t bytes = NORBELATH_INDEX_BYTES;
    const size_t others[] = {3, 159, 160, 255, 256, 257, (size_t)1 << 16, (size_t)1 << 32, SIZE_MAX - 1, SIZE_MAX};
    const size_t too_short[] = {0, 1, ENTRIES_AT, bytes - 1};
    clear_index();
    write_three();
    for (size_t i = 0; i < sizeof others / sizeof others[0]; i++) {
        removal_refused("three trees", bytes, others[i], NORBELATH_NOT_HELD);
        removal_refused("three trees", sizeof index_memory, others[i], NORBELATH_NOT_HELD);
        removal_refused("three trees", bytes - 1, others[i], NORBELATH_SHORT_SLICE);
    }
    for (size_t i = 0; i < sizeof too_short / sizeof too_short[0]; i++) {
        removal_refused("three trees", too_short[i], 1, NORBELATH_SHORT_SLICE);
    }
    is_three("after refusals");

    index_memory[NORBELATH_INDEX_BYTES - 1] = 1;
    removal_refused("no index", bytes - 1, 1, NORBELATH_SHORT_SLICE);
    removal_refused("no index", bytes, 1, NORBELATH_NO_INDEX);
    removal_refused("no index", sizeof index_memory, 1, NORBELATH_NO_INDEX);
    for (size_t i = 0; i < sizeof others / sizeof others[0]; i++) {
        removal_refused("no index", bytes - 1, others[i], NORBELATH_SHORT_SLICE);
        removal_refused("no index", bytes, others[i], NORBELATH_NO_INDEX);
    }
}

static void is_no_index(const char *what)
{
    add_refused("((1,2),3);", 10, NORBELATH_INDEX_BYTES, NORBELATH_NO_INDEX, 0);
    neighbours_refused(what, NORBELATH_INDEX_BYTES, 0, NORBELATH_INDEX_LIST, NORBELATH_NO_INDEX);
    removal_refused(what, NORBELATH_INDEX_BYTES, 0, NORBELATH_NO_INDEX);
}

/* Each of these bytes changed alone. */
static void damaged_bytes(size_t from, size_t to)
{
    const uint8_t changes[] = {1, 2, 64, 128, 255};
    for (size_t at = from; at < to; at++) {
        for (size_t i = 0; i < sizeof changes; i++) {
            write_three();
            index_memory[at] ^= changes[i];
            is_no_index("a byte changed");
        }
    }
}

/* No byte may be another, no two entries may change places, and none may stand twice. */
static void damaged_index(void)
{
    const size_t entries_end = ENTRIES_AT + sizeof three_entries;
    clear_index();
    damaged_bytes(0, 4 * SLOT + 1);
    damaged_bytes(ENTRIES_AT - 1, entries_end + 4);
    damaged_bytes(NORBELATH_INDEX_BYTES - 1, NORBELATH_INDEX_BYTES);
    for (size_t at = ENTRIES_AT; at + 2 < entries_end; at += 2) {
        write_three();
        memcpy(index_memory + at, three_entries + at + 2 - ENTRIES_AT, 2);
        is_no_index("an entry twice");
        memcpy(index_memory + at + 2, three_entries + at - ENTRIES_AT, 2);
        is_no_index("two entries in another order");
    }
    write_three();
    neighbours("after damage", 1, NEIGHBOURS(0, 2));
}

/* A slot that is no tree's, with the entries of a tree of its leaves. */
static void wrong_slot(const char *what, const uint8_t *slot, size_t slot_len, const uint8_t *entries,
                       size_t entries_len)
{
    write_index(index_memory, 0, slot_len, slot, slot_len, entries, entries_len);
    is_no_index(what);
    write_index(index_memory, 0, slot_len, slot, slot_len, NO_BYTES);
    is_no_index(what);
}

static void slots_that_are_no_trees(void)
{
    clear_index();
    wrong_slot("a fork of one leaf", BYTES(65, 1), NO_BYTES);
    wrong_slot("a fork without children", BYTES(66), BYTES(0, 1, 0, 0));
    wrong_slot("a fork with one child", BYTES(66, 1), BYTES(0, 1, 0, 0));
    wrong_slot("a label twice", BYTES(66, 1, 1), BYTES(0, 1, 0, 0));
    wrong_slot("children in another order", BYTES(66, 2, 1), BYTES(0, 0, 0, 1));
    wrong_slot("too many leaves", BYTES(67, 1, 2), BYTES(0, 1, 0, 0));
    wrong_slot("too few leaves", BYTES(66, 66, 1, 2, 3), BYTES(0, 3, 0, 2, 0, 1, 0, 0));
    wrong_slot("a leaf behind a leaf", BYTES(1, 2), NO_BYTES);
    wrong_slot("a leaf behind a free byte", BYTES(0, 1), NO_BYTES);
    wrong_slot("129", BYTES(129, 1, 2), BYTES(0, 1, 0, 0));
    wrong_slot("the mark of 192", BYTES(192, 1, 2), BYTES(0, 1, 0, 0));

    write_index(index_memory, 0, 1, BYTES(1, 2), NO_BYTES);
    is_no_index("two label sets");
    write_index(index_memory, 0, 3, BYTES(66, 1, 2, 3, 0, 0), BYTES(0, 1, 0, 0));
    is_no_index("two label sets of different sizes");
    write_index(index_memory, 1, 3, BYTES(66, 1, 2), BYTES(1, 1));
    is_no_index("an entry less");
    write_index(index_memory, 0, 3, BYTES(66, 1, 2), BYTES(0, 1, 0, 0, 0, 1));
    is_no_index("an entry more");
    write_index(index_memory, 0, 3, BYTES(66, 1, 2), BYTES(0, 1, 0, 2));
    is_no_index("an entry of no cut");
    write_index(index_memory, 0, 3, BYTES(66, 1, 2), BYTES(1, 1, 1, 0));
    is_no_index("entries of a free number");
    memset(index_memory, UNTOUCHED, sizeof index_memory);
    is_no_index("bytes that are all the same");
}

/* What the pair lister prints, of a table and of a text that is refused; line 7 is the only refusal. */
static void sheets(void)
{
    const size_t enough = NORBELATH_SHEET_OUT;
    const char *text = "((2,1),3);\n(3,(2,1));\n(1,(2,3));\n((1,3),2);\n";
    const char *expected = "trees 4 pairs 5\n"
                           "tree 0 neighbours 2 unlinked 0 ((1,2),3);\n"
                           "tree 1 neighbours 2 unlinked 0 ((1,2),3);\n"
                           "tree 2 neighbours 3 unlinked 0 (1,(2,3));\n"
                           "tree 3 neighbours 3 unlinked 0 ((1,3),2);\n"
                           "pair 0 2\npair 0 3\npair 1 2\npair 1 3\npair 2 3\n";
    sheet(text, strlen(text), enough, expected);
    sheet(text, strlen(text), enough + 1, expected);
    sheet(text, strlen(text), enough - 1, NULL);
    sheet("", 0, enough, "trees 0 pairs 0\n");
    sheet("(1,2);(1,3);", 12, enough, "refused 5 at 11\n");
    sheet("(1,2", 4, enough, "refused 1 at 4\n");
    sheet("(1,2", 4, enough - 1, NULL);
    sheet("(1,2", 4, 0, NULL);
}

static void unrooted_sheets(void)
{
    const size_t enough = NORBELATH_SHEET_OUT;
    const char *text = "[&U](2,(3,(4,5)),1);\n[&U](((2,5),3),4,1);\n[&U]((4,5),(3,2),1);\n[&U]((3,(5,4)),2,1);\n";
    const char *expected = "trees 4 pairs 3\n"
                           "tree 0 neighbours 1 unlinked 1 [&U](1,2,(3,(4,5)));\n"
                           "tree 1 neighbours 1 unlinked 2 [&U](1,((2,5),3),4);\n"
                           "tree 2 neighbours 3 unlinked 0 [&U](1,(2,3),(4,5));\n"
                           "tree 3 neighbours 1 unlinked 1 [&U](1,2,(3,(4,5)));\n"
                           "pair 0 2\npair 1 2\npair 2 3\n";
    sheet(text, strlen(text), enough, expected);
    sheet(text, strlen(text), enough + 1, expected);
    sheet(text, strlen(text), enough - 1, NULL);
    sheet("[&U] 7 ;", 8, enough, "trees 1 pairs 0\ntree 0 neighbours 0 unlinked 0 [&U]7;\n");
    sheet("(1,2);[&U](1,2);", 16, enough, "refused 10 at 15\n");
    sheet("[&U]((1,2),3);", 14, enough, "refused 1 at 12\n");
}

/* 160 copies in so many bytes, and something of this size behind them. */
static void list_limits(struct lister l, const char *text, size_t full, size_t size)
{
    struct reply r = list(l, text, full, enough);
    check(same(r, NORBELATH_ACCEPTED, NORBELATH_MAX_TREES, 0), l.name, text, "160 trees were expected");
    list_refused(l, text, full + size, enough, NORBELATH_TOO_MANY_TREES, full);
}

/* The same for the support call: the copies have one clade, and the majority tree is one more copy. */
static void support_limits(const char *text, size_t full, size_t size)
{
    uint64_t third;
    struct reply r = support(text, full, support_enough, &third);
    check(same(r, NORBELATH_ACCEPTED, 1, size) && third == NORBELATH_MAX_TREES, "support", text,
          "160 trees were expected");
    support_refused(text, full + size, support_enough, NORBELATH_TOO_MANY_TREES, full);
}

/* 160 of the longest unrooted trees are accepted, and even a `[` behind them is refused. */
static void unrooted_limits(void)
{
    static char text[NORBELATH_MAX_TREES * LONGEST_UNROOTED + 2];
    const size_t size = LONGEST_UNROOTED, full = NORBELATH_MAX_TREES * size;
    for (size_t i = 0; i < NORBELATH_MAX_TREES; i++) {
        write_longest_unrooted(text + i * size);
    }
    strcpy(text + full, "[");
    struct reply r = table(text, full, NORBELATH_TABLE_TEXTS, NORBELATH_TABLE_ENDS);
    check(same(r, NORBELATH_ACCEPTED, full, NORBELATH_MAX_TREES), "table", text, "160 trees were expected");
    check(memcmp(texts, text, full) == 0 && untouched(texts, full, sizeof texts), "table", text,
          "the same texts were expected");
    table_refused(text, full + 1, NORBELATH_TABLE_TEXTS, NORBELATH_TABLE_ENDS, NORBELATH_TOO_MANY_TREES, full);
    for (size_t i = 0; i < LISTERS; i++) {
        if (listers[i].kind == INTERCHANGES) {
            list_refused(listers[i], text, full + 1, enough, NORBELATH_OTHER_KIND, size - 1);
        } else {
            list_limits(listers[i], text, full, 1);
        }
    }
    support_refused(text, full + 1, support_enough, NORBELATH_OTHER_KIND, size - 1);
    sheet(text, full + 1, NORBELATH_SHEET_OUT, "refused 6 at 49760\n");
}

/* 160 trees are accepted and a 161st is refused; so is a text of one byte too many, whatever it holds. */
static void limits(void)
{
    static char text[NORBELATH_MAX_TEXT + 1];
    const size_t size = 6;
    uint64_t third;
    for (size_t i = 0; i <= NORBELATH_MAX_TREES; i++) {
        memcpy(text + i * size, "(1,2);", size);
    }
    const size_t full = NORBELATH_MAX_TREES * size;
    struct reply r = table(text, full, NORBELATH_TABLE_TEXTS, NORBELATH_TABLE_ENDS);
    check(same(r, NORBELATH_ACCEPTED, full, NORBELATH_MAX_TREES), "table", text, "160 trees were expected");
    table_refused(text, full + size, NORBELATH_TABLE_TEXTS, NORBELATH_TABLE_ENDS, NORBELATH_TOO_MANY_TREES, full);
    for (size_t i = 0; i < LISTERS; i++) {
        list_limits(listers[i], text, full, size);
    }
    support_limits(text, full, size);
    sheet(text, full + size, NORBELATH_SHEET_OUT, "refused 6 at 960\n");

    memset(text, 'x', sizeof text);
    support_refused(text, NORBELATH_MAX_TEXT, support_enough, NORBELATH_WRONG_BYTE, 0);
    support_refused(text, sizeof text, support_enough, NORBELATH_LONG_TEXT, 0);
    short_supports(text, sizeof text);
    memset(text, ' ', sizeof text);
    r = table(text, NORBELATH_MAX_TEXT, NORBELATH_TABLE_TEXTS, NORBELATH_TABLE_ENDS);
    check(same(r, NORBELATH_ACCEPTED, 0, 0), "table", "blanks", "no trees were expected");
    table_refused(text, sizeof text, NORBELATH_TABLE_TEXTS, NORBELATH_TABLE_ENDS, NORBELATH_LONG_TEXT, 0);
    for (size_t i = 0; i < LISTERS; i++) {
        list_refused(listers[i], text, sizeof text, enough, NORBELATH_LONG_TEXT, 0);
        short_lists(listers[i], text, sizeof text);
    }
    r = support(text, NORBELATH_MAX_TEXT, support_enough, &third);
    check(same(r, NORBELATH_ACCEPTED, 0, 0) && third == 0, "support", "blanks", "no trees were expected");
    support_refused(text, sizeof text, support_enough, NORBELATH_LONG_TEXT, 0);
    short_supports(text, sizeof text);
    sheet(text, NORBELATH_MAX_TEXT, NORBELATH_SHEET_OUT, "trees 0 pairs 0\n");
    sheet(text, sizeof text, NORBELATH_SHEET_OUT, "refused 8 at 0\n");
    sheet(text, sizeof text, NORBELATH_SHEET_OUT - 1, NULL);
}

/* All calls that read a text refuse this one alike. */
static void refused_by_all(const char *text, uint8_t number, uint64_t place)
{
    const size_t len = strlen(text);
    form(text, NORBELATH_FORM_OUT, NULL, number, place);
    cut(text, 0, NORBELATH_CUT_OUT, NULL, number, place);
    pair(text, "1;", number, 0, place);
    pair("1;", text, number, 1, place);
    table_refused(text, len, NORBELATH_TABLE_TEXTS, NORBELATH_TABLE_ENDS, number, place);
    for (size_t i = 0; i < LISTERS; i++) {
        list_refused(listers[i], text, len, enough, number, place);
    }
    support_refused(text, len, support_enough, number, place);
    row_refused(text, len, NORBELATH_ROW, number, place);
    plot_refused(text, len, NORBELATH_PLOT_ROWS, NORBELATH_PLOT_COLUMNS, number, place);
    add_refused(text, len, NORBELATH_INDEX_BYTES, number, place);
}

/* The largest label and the most brackets are those of the header. */
static void refused_texts(void)
{
    static char text[NORBELATH_MAX_TEXT + 2];
    char label[16];
    clear_index();
    sprintf(label, "(1,%d);", NORBELATH_MAX_LABEL + 1);
    refused_by_all("(1,2", NORBELATH_WRONG_BYTE, 4);
    refused_by_all(label, NORBELATH_BAD_LABEL, 3);
    refused_by_all("(1,0);", NORBELATH_BAD_LABEL, 3);
    refused_by_all("(1,01);", NORBELATH_LABEL_AGAIN, 3);
    memset(text, '(', NORBELATH_MAX_DEPTH);
    refused_by_all(text, NORBELATH_WRONG_BYTE, NORBELATH_MAX_DEPTH);
    memset(text, '(', NORBELATH_MAX_DEPTH + 1);
    refused_by_all(text, NORBELATH_TOO_DEEP, NORBELATH_MAX_DEPTH);
    memset(text, 'x', NORBELATH_MAX_TEXT + 1);
    refused_by_all(text, NORBELATH_LONG_TEXT, 0);

    /* Both texts too long, and the other one alone though the first is broken. */
    pair(text, text, NORBELATH_LONG_TEXT, 0, 0);
    pair("(1,2", text, NORBELATH_LONG_TEXT, 1, 0);
}

/* The version in words is the one in numbers. */
static void version(void)
{
    char words[32];
    sprintf(words, "%d.%d.%d", NORBELATH_VERSION_MAJOR, NORBELATH_VERSION_MINOR, NORBELATH_VERSION_PATCH);
    check(strcmp(words, NORBELATH_VERSION) == 0, "version", NORBELATH_VERSION, "other numbers were expected");
}

int main(void)
{
    version();
    refused_texts();
    forms();
    deepest_form();
    unrooted_forms();
    broken_marks();
    wrong_numbers_of_children();
    longest_unrooted_form();
    cuts();
    cuts_of_unrooted_trees();
    pair_answers();
    unrooted_pair_answers();
    pairs_of_two_kinds();
    tables();
    unrooted_tables();
    lists();
    every_choice();
    smallest_supports();
    orders_of_clades();
    majorities();
    majority_texts();
    majorities_of_160();
    deepest_majority();
    most_clades();
    refused_supports();
    small_rows();
    largest_rows();
    refused_rows();
    slices_that_are_no_rows();
    row_pairs();
    small_plots();
    largest_plots();
    refused_plots();
    empty_index();
    smallest_indices();
    small_index();
    labels_of_two_digits();
    lists_of_an_index();
    index_with_gaps();
    last_taken_out();
    middle_and_copies_taken_out();
    only_one_taken_out();
    deepest_in_index();
    full_index();
    index_of_copies();
    refused_additions();
    refused_questions();
    refused_removals();
    damaged_index();
    slots_that_are_no_trees();
    sheets();
    unrooted_sheets();
    limits();
    unrooted_limits();
    print_refusals();
    printf("C: %d checks, %d failed\n", checks, failures);
    return failures != 0;
}
