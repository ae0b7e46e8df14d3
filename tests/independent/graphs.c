/*
 * Prints what the graph call gives for the trees on standard input, with copies merged and then with copies kept apart:
 * each time the numbers of trees and pairs, a line for each tree with its first position, a line for each pair; or the
 * line of its refusal. compare.py compares that with reference.py.
 * If standard input cannot be read nothing is printed. Then, or if standard output cannot be written, the exit status
 * is 1.
 */
#include <stdio.h>

#include "norbelath.h"

/* One byte above the limit is enough for the refusal. */
static uint8_t text[NORBELATH_MAX_TEXT + 1];
static size_t text_len;
static uint16_t pairs[NORBELATH_GRAPH_PAIRS];
static uint16_t counts[NORBELATH_GRAPH_COUNTS];
static uint16_t firsts[NORBELATH_GRAPH_FIRSTS];

static void print_graph(uint64_t number_of_trees, uint64_t number_of_pairs)
{
    printf("trees %llu pairs %llu\n", (unsigned long long)number_of_trees, (unsigned long long)number_of_pairs);
    for (size_t i = 0; i < number_of_trees; i++) {
        printf("tree %zu neighbours %u first %u\n", i, counts[i], firsts[i]);
    }
    for (size_t k = 0; k < number_of_pairs; k++) {
        printf("pair %u %u\n", pairs[2 * k], pairs[2 * k + 1]);
    }
}

static void print_answer(uint8_t result, uint64_t first, uint64_t second)
{
    if (result == NORBELATH_ACCEPTED) {
        print_graph(first, second);
    } else {
        printf("refused %d at %llu\n", result, (unsigned long long)second);
    }
}

int main(void)
{
    text_len = fread(text, 1, sizeof text, stdin);
    if (ferror(stdin)) {
        return 1;
    }
    uint64_t first, second;
    uint8_t result = norbelath_graph(text, text_len, pairs, NORBELATH_GRAPH_PAIRS, counts, NORBELATH_GRAPH_COUNTS,
                                     firsts, NORBELATH_GRAPH_FIRSTS, &first, &second);
    print_answer(result, first, second);
    result = norbelath_graph_choosing(text, text_len, NORBELATH_KEEP_COPIES, pairs, NORBELATH_GRAPH_PAIRS, counts,
                                      NORBELATH_GRAPH_COUNTS, firsts, NORBELATH_GRAPH_FIRSTS, &first, &second);
    print_answer(result, first, second);
    return fflush(stdout) != 0 || ferror(stdout);
}
