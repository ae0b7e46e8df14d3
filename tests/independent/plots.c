/*
 * Makes the plot calls that standard input asks for, and prints a line for each: how many nodes there are, then the bits
 * of each node's row, as 16 hexadecimal digits, a colon and its column; or the refusal. A call is
 *
 *   plot ROWS COLUMNS LENGTH    and in a line of its own a text of so many bytes; so many rows and columns are lent
 *
 * One line more is printed if a call changed memory that it has to leave as it was, or if a number that is always 0 is
 * another. compare.py compares that with plots.py.
 * The exit status is 1 if standard input is not as it should be, or standard output cannot be written.
 */
#include <inttypes.h>
#include <stdio.h>
#include <string.h>

#include "norbelath.h"

/* The most cells that are lent, and how many more stand behind them and are not. */
enum { MOST = 1024, BEHIND = 16 };

/* What the numbers hold before a call. */
enum { UNTOUCHED = 0xA5 };

/*
 * The bits that rows hold before a call: NaNs of either sort and sign, infinities, zeros, the smallest and the largest
 * number, and others. A copy through a float register could change some.
 */
static const uint64_t noise[] = {
    0x7FF0000000000001, 0x7FF8000000000000, 0xFFF4000000000BAD, 0xFFFFFFFFFFFFFFFF, 0x7FF0000000000000,
    0xFFF0000000000000, 0x8000000000000000, 0x0000000000000001, 0x7FEFFFFFFFFFFFFF, 0xA5A5A5A5A5A5A5A5,
    0x0000000000000000,
};

enum { NOISES = sizeof noise / sizeof noise[0] };

/* One byte above the limit is enough for the refusal, but a text may have more. */
static uint8_t text[4 * NORBELATH_MAX_TEXT];
static double rows[MOST + BEHIND], rows_before[MOST + BEHIND];
static uint16_t columns[MOST + BEHIND], columns_before[MOST + BEHIND];

/* Each call finds other bits in each cell. */
static void fill(void)
{
    static size_t calls;
    for (size_t i = 0; i < MOST + BEHIND; i++) {
        memcpy(&rows_before[i], &noise[(i + calls) % NOISES], sizeof rows_before[i]);
        columns_before[i] = (uint16_t)(UNTOUCHED + 257 * (i + calls));
    }
    calls++;
    memcpy(rows, rows_before, sizeof rows);
    memcpy(columns, columns_before, sizeof columns);
}

static void print_plot(uint64_t nodes)
{
    printf("plot %" PRIu64, nodes);
    for (size_t i = 0; i < nodes && i < MOST; i++) {
        uint64_t bits;
        memcpy(&bits, &rows[i], sizeof bits);
        printf(" %016" PRIx64 ":%" PRIu16, bits, columns[i]);
    }
    printf("\n");
}

static void plot(size_t rows_len, size_t columns_len, size_t text_len)
{
    uint64_t first = UNTOUCHED, second = UNTOUCHED;
    fill();
    uint8_t result = norbelath_plot(text, text_len, rows, rows_len, columns, columns_len, &first, &second);
    size_t written = 0;
    if (result == NORBELATH_ACCEPTED) {
        print_plot(first);
        written = first < MOST ? first : MOST;
        if (second != 0) {
            printf("with %" PRIu64 " for 0\n", second);
        }
    } else {
        printf("refused %d in %" PRIu64 " at %" PRIu64 "\n", result, first, second);
    }
    if (memcmp(rows + written, rows_before + written, sizeof rows - written * sizeof rows[0]) != 0
        || memcmp(columns + written, columns_before + written, sizeof columns - written * sizeof columns[0]) != 0) {
        printf("memory was changed that is not part of the answer\n");
    }
}

int main(void)
{
    char call[5];
    size_t rows_len, columns_len, text_len;
    while (scanf("%4s", call) == 1) {
        if (strcmp(call, "plot") != 0 || scanf("%zu %zu %zu", &rows_len, &columns_len, &text_len) != 3
            || rows_len > MOST || columns_len > MOST || text_len > sizeof text || getchar() != '\n'
            || fread(text, 1, text_len, stdin) != text_len) {
            return 1;
        }
        plot(rows_len, columns_len, text_len);
    }
    return ferror(stdin) || fflush(stdout) != 0 || ferror(stdout);
}
