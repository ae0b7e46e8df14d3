/*
 * Makes the pair tests that standard input asks for, and prints a line for each: yes or no and the number of forests that
 * were compared, or its refusal. A call is one of
 *
 *   texts LENGTH LENGTH    and, each in a line of its own, two texts of so many bytes
 *   rows N x ... M y ...   N and M are how many numbers each row has
 *
 * One line more is printed if a call changed a text or a row that it was lent to read. compare.py compares that with
 * bound.py.
 * The exit status is 1 if standard input is not as it should be, or standard output cannot be written.
 */
#include <inttypes.h>
#include <stdio.h>
#include <string.h>

#include "norbelath.h"

/* The most numbers of a row that is lent to be read; what is no row may have more than 64. */
enum { MOST = 1024 };

/* So many elements stand behind what is lent. */
enum { BEHIND = 16 };

/* What the two lent numbers hold before a call. */
enum { UNTOUCHED = 0xA5 };

/* One byte above the limit is enough for the refusal, but a text may have more. What stands behind it is the rest of no
   tree. */
struct text {
    size_t len;
    uint8_t byte[4 * NORBELATH_MAX_TEXT + BEHIND];
};

/* Behind a row stands its label set, which is the clade that it would lack if it were one too short. */
struct row {
    size_t len;
    uint64_t number[MOST + BEHIND];
};

static struct text text[2], text_before[2];
static struct row row[2], row_before[2];

static void print_answer(uint8_t result, uint64_t first, uint64_t second)
{
    if (result != NORBELATH_ACCEPTED) {
        printf("refused %d in %" PRIu64 " at %" PRIu64 "\n", result, first, second);
    } else {
        printf("%s %" PRIu64 "\n", first == 1 ? "yes" : first == 0 ? "no" : "neither yes nor no", second);
    }
}

static void tell_changes(int as_it_was)
{
    if (!as_it_was) {
        printf("memory was changed that was lent to be read\n");
    }
}

static void copy_text(struct text *to, const struct text *from)
{
    to->len = from->len;
    memcpy(to->byte, from->byte, from->len + BEHIND);
}

static int same_text(const struct text *one, const struct text *other)
{
    return one->len == other->len && memcmp(one->byte, other->byte, one->len + BEHIND) == 0;
}

static void pair_of_texts(void)
{
    uint64_t first = UNTOUCHED, second = UNTOUCHED;
    copy_text(&text_before[0], &text[0]);
    copy_text(&text_before[1], &text[1]);
    uint8_t result = norbelath_pair(text[0].byte, text[0].len, text[1].byte, text[1].len, &first, &second);
    print_answer(result, first, second);
    tell_changes(same_text(&text_before[0], &text[0]) && same_text(&text_before[1], &text[1]));
}

static void pair_of_rows(void)
{
    uint64_t first = UNTOUCHED, second = UNTOUCHED;
    memcpy(row_before, row, sizeof row);
    uint8_t result = norbelath_row_pair(row[0].number, row[0].len, row[1].number, row[1].len, &first, &second);
    print_answer(result, first, second);
    tell_changes(memcmp(row_before, row, sizeof row) == 0);
}

static int read_bytes(struct text *t)
{
    if (fread(t->byte, 1, t->len, stdin) != t->len) {
        return 0;
    }
    memset(t->byte + t->len, ')', BEHIND);
    return getchar() == '\n';
}

static int read_texts(void)
{
    const size_t most = sizeof text[0].byte - BEHIND;
    return scanf("%zu %zu", &text[0].len, &text[1].len) == 2 && text[0].len <= most && text[1].len <= most
           && getchar() == '\n' && read_bytes(&text[0]) && read_bytes(&text[1]);
}

static int read_row(struct row *r)
{
    if (scanf("%zu", &r->len) != 1 || r->len > MOST) {
        return 0;
    }
    for (size_t i = 0; i < r->len; i++) {
        if (scanf("%" SCNu64, &r->number[i]) != 1) {
            return 0;
        }
    }
    for (size_t i = r->len; i < MOST + BEHIND; i++) {
        r->number[i] = r->number[0];
    }
    return 1;
}

int main(void)
{
    char call[6];
    while (scanf("%5s", call) == 1) {
        if (strcmp(call, "texts") == 0 && read_texts()) {
            pair_of_texts();
        } else if (strcmp(call, "rows") == 0 && read_row(&row[0]) && read_row(&row[1])) {
            pair_of_rows();
        } else {
            return 1;
        }
    }
    return ferror(stdin) || fflush(stdout) != 0 || ferror(stdout);
}
