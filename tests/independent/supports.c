/*
 * Prints what the support call gives for the trees on standard input: the numbers of trees, clades and bytes, a line
 * for each clade with the number of trees that have it, a line with the text of the majority tree; or the line of its
 * refusal. One line more is printed if the call changed memory that it has to leave as it was, or if a number that is
 * always 0 in a refusal is another. compare.py compares that with reference.py.
 * If standard input cannot be read nothing is printed. Then, or if standard output cannot be written, the exit status
 * is 1.
 */
#include <stdio.h>
#include <string.h>

#include "norbelath.h"

/* What is lent is as short as ticket 7 of document 02 allows, whatever the library's own limits are. */
enum { CLADES = 9921, TREES = 9921, BYTES = 309 };

/* So many elements stand behind each slice and are not lent. */
enum { BEHIND = 16 };

/* What memory holds before the call, to see what the call changed. */
enum { UNTOUCHED = 0xA5 };

/* One byte above the limit is enough for the refusal. */
static uint8_t text[NORBELATH_MAX_TEXT + 1];
static uint64_t clades[CLADES + BEHIND];
static uint16_t trees[TREES + BEHIND];
static uint8_t out[BYTES + BEHIND];

static int untouched(const void *memory, size_t from, size_t to)
{
    const uint8_t *bytes = memory;
    for (size_t i = from; i < to; i++) {
        if (bytes[i] != UNTOUCHED) {
            return 0;
        }
    }
    return 1;
}

static void print_support(uint64_t number_of_clades, uint64_t number_of_bytes, uint64_t number_of_trees)
{
    printf("trees %llu clades %llu bytes %llu\n", (unsigned long long)number_of_trees,
           (unsigned long long)number_of_clades, (unsigned long long)number_of_bytes);
    for (size_t k = 0; k < number_of_clades; k++) {
        printf("clade %llu trees %u\n", (unsigned long long)clades[k], trees[k]);
    }
    printf("majority ");
    fwrite(out, 1, number_of_bytes, stdout);
    printf("\n");
}

int main(void)
{
    size_t text_len = fread(text, 1, sizeof text, stdin);
    if (ferror(stdin)) {
        return 1;
    }
    memset(clades, UNTOUCHED, sizeof clades);
    memset(trees, UNTOUCHED, sizeof trees);
    memset(out, UNTOUCHED, sizeof out);
    uint64_t first = UNTOUCHED, second = UNTOUCHED, third = UNTOUCHED;
    uint8_t result = norbelath_support(text, text_len, clades, CLADES, trees, TREES, out, BYTES, &first, &second,
                                       &third);
    uint64_t written_clades = 0, written_bytes = 0;
    if (result == NORBELATH_ACCEPTED) {
        print_support(first, second, third);
        written_clades = first;
        written_bytes = second;
    } else {
        printf("refused %d at %llu\n", result, (unsigned long long)second);
        if (first != 0 || third != 0) {
            printf("with %llu and %llu for 0\n", (unsigned long long)first, (unsigned long long)third);
        }
    }
    if (!untouched(clades, written_clades * sizeof clades[0], sizeof clades)
        || !untouched(trees, written_clades * sizeof trees[0], sizeof trees)
        || !untouched(out, written_bytes, sizeof out)) {
        printf("memory was changed that is not part of the answer\n");
    }
    return fflush(stdout) != 0 || ferror(stdout);
}
