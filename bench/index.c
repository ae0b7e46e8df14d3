/*
 * Adds the trees on standard input, one after another, to an index, and prints the numbers of trees and pairs, a line
 * with the neighbours of each tree, the memory in base 16 and, if there are trees, the memory without the first; or the
 * line of a refusal. That is what the plain program prints with --index.
 * With --repeat N it goes N times over the calls and prints, in place of all but a refusal, the shortest times in
 * microseconds: of a question, the mean over all trees; of looking through the memory, told by a question for a number
 * that no tree has, which is refused; of adding the last tree to the others; of adding all trees from none on; of
 * removing the first tree from all; and of the graph choosing call on the same table, copies kept apart.
 * If standard input cannot be read nothing is printed. Then, or if standard output cannot be written, the exit status
 * is 1.
 */
#define _POSIX_C_SOURCE 199309L

#include <stdio.h>
#include <stdlib.h>
#include <string.h>
#include <time.h>

#include "norbelath.h"

/* One byte above the limit is enough for the refusal. */
static uint8_t text[NORBELATH_MAX_TEXT + 1];
static size_t text_len;

/* Where the tree of each number stands in the text; behind the last one, where it ends. */
static size_t start[NORBELATH_MAX_TREES + 1];
static size_t number_of_trees;

/* The index that is changed, that of all trees, and that of all but the last. */
static uint8_t memory[NORBELATH_INDEX_BYTES], of_all[NORBELATH_INDEX_BYTES], of_all_but_one[NORBELATH_INDEX_BYTES];
static uint16_t list[NORBELATH_INDEX_LIST];
static uint16_t pairs[NORBELATH_GRAPH_PAIRS], counts[NORBELATH_GRAPH_COUNTS], firsts[NORBELATH_GRAPH_FIRSTS];
static uint64_t first, second;

static uint8_t add(size_t from, size_t to)
{
    return norbelath_index_add(memory, sizeof memory, text + from, to - from, &first, &second);
}

/* Adds the trees of the text, each up to its `;`. Gives 0, or the number of a refusal, with the place. */
static uint8_t add_trees(void)
{
    const uint8_t *semicolon;
    size_t at = 0;
    while ((semicolon = memchr(text + at, ';', text_len - at)) != NULL) {
        size_t end = (size_t)(semicolon - text) + 1;
        memcpy(of_all_but_one, memory, sizeof memory);
        uint8_t result = add(at, end);
        if (result != NORBELATH_ACCEPTED) {
            second += at;
            return result;
        }
        at = start[++number_of_trees] = end;
    }
    memcpy(of_all, memory, sizeof memory);
    return NORBELATH_ACCEPTED;
}

static uint64_t ask(size_t number)
{
    norbelath_index_neighbours(of_all, sizeof of_all, number, list, NORBELATH_INDEX_LIST, &first, &second);
    return first;
}

static uint8_t take_out(size_t number)
{
    return norbelath_index_remove(memory, sizeof memory, number, &first, &second);
}

static void print_memory(const char *name)
{
    printf("%s ", name);
    for (size_t i = 0; i < sizeof memory; i++) {
        printf("%02x", memory[i]);
    }
    putchar('\n');
}

static void print_index(void)
{
    uint64_t listed = 0;
    for (size_t number = 0; number < number_of_trees; number++) {
        listed += ask(number);
    }
    printf("trees %zu pairs %llu\n", number_of_trees, (unsigned long long)listed / 2);
    for (size_t number = 0; number < number_of_trees; number++) {
        printf("tree %zu neighbours", number);
        uint64_t neighbours = ask(number);
        for (size_t i = 0; i < neighbours; i++) {
            printf(" %u", list[i]);
        }
        putchar('\n');
    }
    print_memory("memory");
    if (take_out(0) == NORBELATH_ACCEPTED) {
        print_memory("without 0");
    }
}

/* The rounds that are timed. */

static void ask_each(void)
{
    for (size_t number = 0; number < number_of_trees; number++) {
        ask(number);
    }
}

static void ask_for_none(void)
{
    ask(NORBELATH_MAX_TREES);
}

static void add_last(void)
{
    add(start[number_of_trees - 1], start[number_of_trees]);
}

static void add_all(void)
{
    for (size_t number = 0; number < number_of_trees; number++) {
        add(start[number], start[number + 1]);
    }
}

static void remove_first(void)
{
    take_out(0);
}

static void graph(void)
{
    norbelath_graph_choosing(text, text_len, NORBELATH_KEEP_COPIES, pairs, NORBELATH_GRAPH_PAIRS, counts,
                             NORBELATH_GRAPH_COUNTS, firsts, NORBELATH_GRAPH_FIRSTS, &first, &second);
}

static double microseconds(void (*round)(void))
{
    struct timespec begun, ended;
    clock_gettime(CLOCK_MONOTONIC, &begun);
    round();
    clock_gettime(CLOCK_MONOTONIC, &ended);
    return (double)(ended.tv_sec - begun.tv_sec) * 1e6 + (double)(ended.tv_nsec - begun.tv_nsec) / 1e3;
}

/* Each round is on a copy of this index. */
static double shortest_of(long rounds, const uint8_t *index, void (*round)(void))
{
    double shortest = 0;
    for (long k = 0; k < rounds; k++) {
        memcpy(memory, index, sizeof memory);
        double spent = microseconds(round);
        shortest = k == 0 || spent < shortest ? spent : shortest;
    }
    return shortest;
}

static void print_times(long rounds)
{
    static const uint8_t empty[NORBELATH_INDEX_BYTES];
    printf("%.3f", shortest_of(rounds, of_all, ask_each) / (double)number_of_trees);
    printf(" %.3f", shortest_of(rounds, of_all, ask_for_none));
    printf(" %.3f", shortest_of(rounds, of_all_but_one, add_last));
    printf(" %.3f", shortest_of(rounds, empty, add_all));
    printf(" %.3f", shortest_of(rounds, of_all, remove_first));
    printf(" %.3f\n", shortest_of(rounds, empty, graph));
}

int main(int argc, char **argv)
{
    long rounds = argc == 3 && strcmp(argv[1], "--repeat") == 0 ? strtol(argv[2], NULL, 10) : 0;
    if (argc != 1 && rounds < 1) {
        fprintf(stderr, "usage: index [--repeat N]\n");
        return 2;
    }
    text_len = fread(text, 1, sizeof text, stdin);
    if (ferror(stdin)) {
        return 1;
    }
    uint8_t result = add_trees();
    if (result != NORBELATH_ACCEPTED) {
        printf("refused %d at %llu\n", result, (unsigned long long)second);
    } else if (rounds > 0 && number_of_trees > 0) {
        print_times(rounds);
    } else {
        print_index();
    }
    return fflush(stdout) != 0 || ferror(stdout);
}
