/*
 * Makes the row of each tree on standard input, tries the row pair call on every two of them, and prints the numbers
 * of trees and pairs and a line for each pair; or the line of a refusal. That is what the plain program prints with
 * --rows.
 * With --repeat N it goes N times over the same calls and prints, in place of all but a refusal, the shortest mean time
 * of a round in microseconds: of the row pair call; of reading one row, told by a pair with an empty one, which is
 * refused; and of the pair call on the texts.
 * If standard input cannot be read nothing is printed. Then, or if standard output cannot be written, the exit status
 * is 1.
 */
#define _POSIX_C_SOURCE 199309L

#include <stdio.h>
#include <stdlib.h>
#include <string.h>
#include <time.h>

#include "norbelath.h"

/* One byte above the limit is enough for the refusal. */
static uint8_t text[NORBELATH_MAX_TEXT + 1];

/* A tree: where its text stands, and its row. */
static struct tree {
    const uint8_t *text;
    size_t text_len;
    uint64_t row[NORBELATH_ROW];
    size_t row_len;
} trees[NORBELATH_MAX_TREES];

static size_t number_of_trees;
static uint64_t first, second;

/* Finds the trees, each up to its `;`, and makes their rows. Gives 0, or the number of a refusal, with the place. */
static uint8_t read_trees(size_t text_len)
{
    const uint8_t *at = text, *end = text + text_len, *semicolon;
    while ((semicolon = memchr(at, ';', (size_t)(end - at))) != NULL && number_of_trees < NORBELATH_MAX_TREES) {
        struct tree *t = &trees[number_of_trees++];
        t->text = at;
        t->text_len = (size_t)(semicolon + 1 - at);
        uint8_t result = norbelath_row(t->text, t->text_len, t->row, NORBELATH_ROW, &first, &second);
        if (result != NORBELATH_ACCEPTED) {
            second += (uint64_t)(at - text);
            return result;
        }
        t->row_len = first;
        at = semicolon + 1;
    }
    return NORBELATH_ACCEPTED;
}

static int row_pair(size_t i, size_t j)
{
    return norbelath_row_pair(trees[i].row, trees[i].row_len, trees[j].row, trees[j].row_len, &first, &second)
               == NORBELATH_ACCEPTED
           && first == 1;
}

static void print_pairs(void)
{
    size_t pairs = 0;
    for (size_t i = 0; i < number_of_trees; i++) {
        for (size_t j = i + 1; j < number_of_trees; j++) {
            pairs += (size_t)row_pair(i, j);
        }
    }
    printf("trees %zu pairs %zu\n", number_of_trees, pairs);
    for (size_t i = 0; i < number_of_trees; i++) {
        for (size_t j = i + 1; j < number_of_trees; j++) {
            if (row_pair(i, j)) {
                printf("pair %zu %zu\n", i, j);
            }
        }
    }
}

/* Each makes the calls of one round and gives how many they are. */

static size_t row_pairs(void)
{
    for (size_t i = 0; i < number_of_trees; i++) {
        for (size_t j = i + 1; j < number_of_trees; j++) {
            row_pair(i, j);
        }
    }
    return number_of_trees * (number_of_trees - 1) / 2;
}

static size_t row_checks(void)
{
    for (size_t i = 0; i < number_of_trees; i++) {
        norbelath_row_pair(trees[i].row, trees[i].row_len, trees[i].row, 0, &first, &second);
    }
    return number_of_trees;
}

static size_t text_pairs(void)
{
    for (size_t i = 0; i < number_of_trees; i++) {
        for (size_t j = i + 1; j < number_of_trees; j++) {
            norbelath_pair(trees[i].text, trees[i].text_len, trees[j].text, trees[j].text_len, &first, &second);
        }
    }
    return number_of_trees * (number_of_trees - 1) / 2;
}

static double mean_microseconds(size_t (*round)(void))
{
    struct timespec begun, ended;
    clock_gettime(CLOCK_MONOTONIC, &begun);
    size_t calls = round();
    clock_gettime(CLOCK_MONOTONIC, &ended);
    double spent = (double)(ended.tv_sec - begun.tv_sec) * 1e6 + (double)(ended.tv_nsec - begun.tv_nsec) / 1e3;
    return spent / (double)calls;
}

static double shortest_of(long rounds, size_t (*round)(void))
{
    double shortest = mean_microseconds(round);
    for (long k = 1; k < rounds; k++) {
        double spent = mean_microseconds(round);
        shortest = spent < shortest ? spent : shortest;
    }
    return shortest;
}

int main(int argc, char **argv)
{
    long rounds = argc == 3 && strcmp(argv[1], "--repeat") == 0 ? strtol(argv[2], NULL, 10) : 0;
    if (argc != 1 && rounds < 1) {
        fprintf(stderr, "usage: rows [--repeat N]\n");
        return 2;
    }
    size_t text_len = fread(text, 1, sizeof text, stdin);
    if (ferror(stdin)) {
        return 1;
    }
    uint8_t result = read_trees(text_len);
    if (result != NORBELATH_ACCEPTED) {
        printf("refused %d at %llu\n", result, (unsigned long long)second);
    } else if (rounds > 0) {
        printf("%.3f %.3f %.3f\n", shortest_of(rounds, row_pairs), shortest_of(rounds, row_checks),
               shortest_of(rounds, text_pairs));
    } else {
        print_pairs();
    }
    return fflush(stdout) != 0 || ferror(stdout);
}
