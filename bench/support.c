/*
 * Prints what the support call gives for the trees on standard input: the numbers of trees and clades, a line for each
 * clade with its number in base 16 and how many trees have it, and the majority tree if there is one; or the line of
 * its refusal. That is what the plain program prints with --support.
 * With --repeat N it calls N times more and prints, in place of all but a refusal, the shortest time of those calls in
 * microseconds.
 * If standard input cannot be read nothing is printed. Then, or if standard output cannot be written, the exit status
 * is 1.
 */
#define _POSIX_C_SOURCE 199309L

#include <stdio.h>
#include <stdlib.h>
#include <string.h>
#include <time.h>

#include "norbelath.h"

/* One byte above the limit is enough for the refusal. */
static uint8_t text[NORBELATH_MAX_TEXT + 1];
static size_t text_len;
static uint64_t clades[NORBELATH_SUPPORT_CLADES];
static uint16_t trees[NORBELATH_SUPPORT_TREES];
static uint8_t out[NORBELATH_SUPPORT_OUT];
static uint64_t first, second, third;

static uint8_t call(void)
{
    return norbelath_support(text, text_len, clades, NORBELATH_SUPPORT_CLADES, trees, NORBELATH_SUPPORT_TREES, out,
                             NORBELATH_SUPPORT_OUT, &first, &second, &third);
}

static void print_support(uint64_t number_of_clades, uint64_t bytes, uint64_t number_of_trees)
{
    printf("trees %llu clades %llu\n", (unsigned long long)number_of_trees, (unsigned long long)number_of_clades);
    for (size_t k = 0; k < number_of_clades; k++) {
        printf("%llx %u\n", (unsigned long long)clades[k], trees[k]);
    }
    if (bytes > 0) {
        fwrite(out, 1, bytes, stdout);
        putchar('\n');
    }
}

static double microseconds_of_a_call(void)
{
    struct timespec begun, ended;
    clock_gettime(CLOCK_MONOTONIC, &begun);
    call();
    clock_gettime(CLOCK_MONOTONIC, &ended);
    return (double)(ended.tv_sec - begun.tv_sec) * 1e6 + (double)(ended.tv_nsec - begun.tv_nsec) / 1e3;
}

static double shortest_of(long calls)
{
    double shortest = microseconds_of_a_call();
    for (long k = 1; k < calls; k++) {
        double spent = microseconds_of_a_call();
        shortest = spent < shortest ? spent : shortest;
    }
    return shortest;
}

int main(int argc, char **argv)
{
    long calls = argc == 3 && strcmp(argv[1], "--repeat") == 0 ? strtol(argv[2], NULL, 10) : 0;
    if (argc != 1 && calls < 1) {
        fprintf(stderr, "usage: support [--repeat N]\n");
        return 2;
    }
    text_len = fread(text, 1, sizeof text, stdin);
    if (ferror(stdin)) {
        return 1;
    }
    uint8_t result = call();
    if (result != NORBELATH_ACCEPTED) {
        printf("refused %d at %llu\n", result, (unsigned long long)second);
    } else if (calls > 0) {
        printf("%.1f\n", shortest_of(calls));
    } else {
        print_support(first, second, third);
    }
    return fflush(stdout) != 0 || ferror(stdout);
}
