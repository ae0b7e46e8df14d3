/*
 * Makes the row calls that standard input asks for, and prints a line for each: the row, the text, yes or no, or its
 * refusal. A call is one of
 *
 *   row LENGTH       and in a line of its own a text of so many bytes: text to row
 *   text N x ...     row to text; N is how many numbers the row has
 *   pair N x ... M y ...   the pair test on two rows, without the number of forests, which bounds.c prints
 *
 * One line more is printed if a call changed memory that it has to leave as it was, or if a number that is always 0 is
 * another. compare.py compares that with reference.py.
 * The exit status is 1 if standard input is not as it should be, or standard output cannot be written.
 */
#include <inttypes.h>
#include <stdio.h>
#include <string.h>

#include "norbelath.h"

/* What is lent to be written is as short as ticket 9 of document 02 allows, whatever the library's own limits are. */
enum { NUMBERS = 64, BYTES = 309 };

/* The most numbers of a row that is lent to be read; what is no row may have more than 64. */
enum { MOST = 1024 };

/* So many elements stand behind each slice and are not lent. */
enum { BEHIND = 16 };

/* What memory holds before a call, to see what the call changed. */
enum { UNTOUCHED = 0xA5 };

/* One byte above the limit is enough for the refusal, but a text may have more. */
static uint8_t text[4 * NORBELATH_MAX_TEXT];
static uint64_t written[NUMBERS + BEHIND];
static uint8_t out[BYTES + BEHIND];

/* A row to be read. Behind it stands its label set, which is the clade that it would lack if it were one too short. */
struct row {
    size_t len;
    uint64_t number[MOST + BEHIND];
};

static struct row one, other, before;

static int untouched(const void *memory, size_t from, size_t to)
{
    const uint8_t *bytes = memory;
    for (size_t i = from; i < to; i++) {
        if (bytes[i] != UNTOUCHED) {
            return 0;
        }
    }
    return 1;
}

static void tell_changes(int as_it_was)
{
    if (!as_it_was) {
        printf("memory was changed that is not part of the answer\n");
    }
}

static void print_refusal(uint8_t result, uint64_t first, uint64_t second)
{
    printf("refused %d in %" PRIu64 " at %" PRIu64 "\n", result, first, second);
}

static void tell_second(uint8_t result, uint64_t second)
{
    if (result == NORBELATH_ACCEPTED && second != 0) {
        printf("with %" PRIu64 " for 0\n", second);
    }
}

static void text_to_row(size_t text_len)
{
    uint64_t first = UNTOUCHED, second = UNTOUCHED;
    memset(written, UNTOUCHED, sizeof written);
    uint8_t result = norbelath_row(text, text_len, written, NUMBERS, &first, &second);
    uint64_t numbers = result == NORBELATH_ACCEPTED ? first : 0;
    if (result != NORBELATH_ACCEPTED) {
        print_refusal(result, first, second);
    } else {
        printf("row");
        for (size_t i = 0; i < numbers; i++) {
            printf(" %" PRIu64, written[i]);
        }
        printf("\n");
    }
    tell_second(result, second);
    tell_changes(untouched(written, numbers * sizeof written[0], sizeof written));
}

static void row_to_text(void)
{
    uint64_t first = UNTOUCHED, second = UNTOUCHED;
    memset(out, UNTOUCHED, sizeof out);
    before = one;
    uint8_t result = norbelath_row_text(one.number, one.len, out, BYTES, &first, &second);
    uint64_t bytes = result == NORBELATH_ACCEPTED ? first : 0;
    if (result != NORBELATH_ACCEPTED) {
        print_refusal(result, first, second);
    } else {
        printf("text ");
        fwrite(out, 1, bytes, stdout);
        printf("\n");
    }
    tell_second(result, second);
    tell_changes(untouched(out, bytes, sizeof out) && memcmp(&before, &one, sizeof one) == 0);
}

static void pair_of_rows(void)
{
    uint64_t first = UNTOUCHED, second = UNTOUCHED;
    uint8_t result = norbelath_row_pair(one.number, one.len, other.number, other.len, &first, &second);
    if (result != NORBELATH_ACCEPTED) {
        print_refusal(result, first, second);
    } else {
        printf("pair %s\n", first == 1 ? "yes" : first == 0 ? "no" : "neither yes nor no");
    }
}

static int read_row(struct row *row)
{
    if (scanf("%zu", &row->len) != 1 || row->len > MOST) {
        return 0;
    }
    for (size_t i = 0; i < row->len; i++) {
        if (scanf("%" SCNu64, &row->number[i]) != 1) {
            return 0;
        }
    }
    for (size_t i = row->len; i < MOST + BEHIND; i++) {
        row->number[i] = row->number[0];
    }
    return 1;
}

static int read_text(size_t *text_len)
{
    return scanf("%zu", text_len) == 1 && *text_len <= sizeof text && getchar() == '\n'
           && fread(text, 1, *text_len, stdin) == *text_len;
}

int main(void)
{
    char call[5];
    size_t text_len;
    while (scanf("%4s", call) == 1) {
        if (strcmp(call, "row") == 0 && read_text(&text_len)) {
            text_to_row(text_len);
        } else if (strcmp(call, "text") == 0 && read_row(&one)) {
            row_to_text();
        } else if (strcmp(call, "pair") == 0 && read_row(&one) && read_row(&other)) {
            pair_of_rows();
        } else {
            return 1;
        }
    }
    return ferror(stdin) || fflush(stdout) != 0 || ferror(stdout);
}
