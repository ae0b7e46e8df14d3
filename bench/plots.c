/*
 * Plots each tree on standard input, and prints the numbers of trees and nodes, and for each tree a line with the bits of
 * each node's row and its column; or the line of a refusal. That is what the plain program prints with --plots.
 * With --repeat N it goes N times over the same calls and prints, in place of all but a refusal, the shortest mean time
 * of a round in microseconds: of the plot call, and of the form call on the same texts.
 * If standard input cannot be read nothing is printed. Then, or if standard output cannot be written, the exit status
 * is 1.
 */
#define _POSIX_C_SOURCE 199309L

#include <inttypes.h>
#include <stdio.h>
#include <stdlib.h>
#include <string.h>
#include <time.h>

#include "norbelath.h"

/* One byte above the limit is enough for the refusal. */
static uint8_t text[NORBELATH_MAX_TEXT + 1];

/* A tree: where its text stands, and its plot. */
static struct tree {
    const uint8_t *text;
    size_t text_len;
    double rows[NORBELATH_PLOT_ROWS];
    uint16_t columns[NORBELATH_PLOT_COLUMNS];
    size_t nodes;
} trees[NORBELATH_MAX_TREES];

static size_t number_of_trees, number_of_nodes;
static uint64_t first, second;

static uint8_t plot(struct tree *t)
{
    return norbelath_plot(t->text, t->text_len, t->rows, NORBELATH_PLOT_ROWS, t->columns, NORBELATH_PLOT_COLUMNS, &first,
                          &second);
}

/* Finds the trees, each up to its `;`, and plots them. Gives 0, or the number of a refusal, with the place. */
static uint8_t read_trees(size_t text_len)
{
    const uint8_t *at = text, *end = text + text_len, *semicolon;
    while ((semicolon = memchr(at, ';', (size_t)(end - at))) != NULL && number_of_trees < NORBELATH_MAX_TREES) {
        struct tree *t = &trees[number_of_trees++];
        t->text = at;
        t->text_len = (size_t)(semicolon + 1 - at);
        uint8_t result = plot(t);
        if (result != NORBELATH_ACCEPTED) {
            second += (uint64_t)(at - text);
            return result;
        }
        t->nodes = first;
        number_of_nodes += t->nodes;
        at = semicolon + 1;
    }
    return NORBELATH_ACCEPTED;
}

static void print_plots(void)
{
    printf("trees %zu nodes %zu\n", number_of_trees, number_of_nodes);
    for (size_t i = 0; i < number_of_trees; i++) {
        for (size_t k = 0; k < trees[i].nodes; k++) {
            uint64_t bits;
            memcpy(&bits, &trees[i].rows[k], sizeof bits);
            printf(k == 0 ? "%016" PRIx64 ":%d" : " %016" PRIx64 ":%d", bits, trees[i].columns[k]);
        }
        printf("\n");
    }
}

/* Each makes the calls of one round. */

static void plots(void)
{
    for (size_t i = 0; i < number_of_trees; i++) {
        plot(&trees[i]);
    }
}

static void forms(void)
{
    static uint8_t out[NORBELATH_FORM_OUT];
    for (size_t i = 0; i < number_of_trees; i++) {
        norbelath_form(trees[i].text, trees[i].text_len, out, sizeof out, &first, &second);
    }
}

static double mean_microseconds(void (*round)(void))
{
    struct timespec begun, ended;
    clock_gettime(CLOCK_MONOTONIC, &begun);
    round();
    clock_gettime(CLOCK_MONOTONIC, &ended);
    double spent = (double)(ended.tv_sec - begun.tv_sec) * 1e6 + (double)(ended.tv_nsec - begun.tv_nsec) / 1e3;
    return spent / (double)number_of_trees;
}

static double shortest_of(long rounds, void (*round)(void))
{
    double shortest = mean_microseconds(round);
    for (long k = 1; k < rounds; k++) {
        double spent = mean_microseconds(round);
        shortest = spent < shortest ? spent : shortest;
    }
    return shortest;
}

int main(int argc, char **argv)
{
    long rounds = argc == 3 && strcmp(argv[1], "--repeat") == 0 ? strtol(argv[2], NULL, 10) : 0;
    if (argc != 1 && rounds < 1) {
        fprintf(stderr, "usage: plots [--repeat N]\n");
        return 2;
    }
    size_t text_len = fread(text, 1, sizeof text, stdin);
    if (ferror(stdin)) {
        return 1;
    }
    uint8_t result = read_trees(text_len);
    if (result != NORBELATH_ACCEPTED) {
        printf("refused %d at %" PRIu64 "\n", result, second);
    } else if (rounds > 0) {
        printf("%.3f %.3f\n", shortest_of(rounds, plots), shortest_of(rounds, forms));
    } else {
        print_plots();
    }
    return fflush(stdout) != 0 || ferror(stdout);
}
