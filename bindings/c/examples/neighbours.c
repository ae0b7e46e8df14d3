/*
 * Reads a table of trees on standard input and prints which of them are neighbours: first how many trees, topologies,
 * pairs and islands there are, then a line for each tree, with its canonical text, its island and its neighbours, or the
 * position that it is a copy of.
 *
 * The exit status is 0 where all was written. A table that is refused gives nothing but a line on standard error,
 * `refused N at P`, and status 1. Input that cannot be read, or output that cannot be written whole, gives a line on
 * standard error and status 2.
 */
#include <inttypes.h>
#include <stdio.h>

#include "norbelath.h"

/* A byte more than a text may have, so that a longer input is refused as such. */
static uint8_t text[NORBELATH_MAX_TEXT + 1];
static uint8_t forms[NORBELATH_TABLE_TEXTS];
static uint32_t ends[NORBELATH_TABLE_ENDS];
static uint16_t pairs[NORBELATH_GRAPH_PAIRS];
static uint16_t counts[NORBELATH_GRAPH_COUNTS];
static uint16_t firsts[NORBELATH_GRAPH_FIRSTS];
static uint16_t islands[NORBELATH_ISLANDS];

static int failed(const char *what)
{
    fprintf(stderr, "%s\n", what);
    return 2;
}

/* Too short a slice and too long a text have no place. */
static int refused(uint8_t number, uint64_t place)
{
    if (number == NORBELATH_SHORT_SLICE || number == NORBELATH_LONG_TEXT) {
        fprintf(stderr, "refused %d\n", number);
    } else {
        fprintf(stderr, "refused %d at %" PRIu64 "\n", number, place);
    }
    return 1;
}

/* Reads to the end of the input, and keeps no more than what has to be refused. */
static size_t read_input(void)
{
    size_t len = fread(text, 1, sizeof text, stdin);
    if (len == sizeof text) {
        while (getchar() != EOF) {
        }
    }
    return len;
}

/* How many positions have themselves in this list: of firsts the topologies, of islands the islands. */
static size_t own_positions(const uint16_t *list, size_t trees)
{
    size_t own = 0;
    for (size_t i = 0; i < trees; i++) {
        own += list[i] == i;
    }
    return own;
}

/* The pairs stand in order, so those in which the tree is the larger come first, and its neighbours ascend. */
static void print_neighbours(size_t tree, size_t number_of_pairs)
{
    if (counts[tree] == 0) {
        printf(" none");
    }
    for (size_t k = 0; k < number_of_pairs; k++) {
        const uint16_t smaller = pairs[2 * k], larger = pairs[2 * k + 1];
        if (smaller == tree || larger == tree) {
            printf(" %d", smaller == tree ? larger : smaller);
        }
    }
}

static void print_tree(size_t tree, size_t number_of_pairs)
{
    const size_t start = tree == 0 ? 0 : ends[tree - 1];
    printf("tree %zu %.*s", tree, (int)(ends[tree] - start), (const char *)forms + start);
    if (firsts[tree] != tree) {
        printf(" copy of %d\n", firsts[tree]);
        return;
    }
    printf(" island %d neighbours", islands[tree]);
    print_neighbours(tree, number_of_pairs);
    printf("\n");
}

int main(void)
{
    const size_t text_len = read_input();
    if (ferror(stdin)) {
        return failed("standard input could not be read");
    }
    uint64_t bytes, trees, number_of_pairs;
    uint8_t number = norbelath_table(text, text_len, forms, NORBELATH_TABLE_TEXTS, ends, NORBELATH_TABLE_ENDS, &bytes,
                                     &trees);
    if (number != NORBELATH_ACCEPTED) {
        return refused(number, trees);
    }
    number = norbelath_islands(text, text_len, pairs, NORBELATH_GRAPH_PAIRS, counts, NORBELATH_GRAPH_COUNTS, firsts,
                               NORBELATH_GRAPH_FIRSTS, islands, NORBELATH_ISLANDS, &trees, &number_of_pairs);
    if (number != NORBELATH_ACCEPTED) {
        return refused(number, number_of_pairs);
    }
    printf("trees %" PRIu64 " topologies %zu pairs %" PRIu64 " islands %zu\n", trees, own_positions(firsts, trees),
           number_of_pairs, own_positions(islands, trees));
    for (size_t tree = 0; tree < trees; tree++) {
        print_tree(tree, number_of_pairs);
    }
    if (ferror(stdout) || fclose(stdout) != 0) {
        return failed("standard output could not be written whole");
    }
    return 0;
}
