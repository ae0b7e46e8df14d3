/*
 * Makes the calls on an index that standard input asks for, one after another on one memory, and prints a line for
 * each: the number of the added tree, the neighbours, that a tree was removed, or the refusal, and then what the call
 * changed in the memory. The calls, and what may stand between them, are
 *
 *   add LENGTH          and in a line of its own a text of so many bytes: add its tree
 *   remove NUMBER       take out the tree with this number
 *   ask NUMBER          list the neighbours of the tree with this number
 *   memory              print what the memory holds
 *   clear               make the memory that of the empty index, which it is at first
 *   put PLACE LENGTH    and in a line of its own so many bytes: they stand in the memory from this place on
 *   lend LENGTH         lend so many bytes to the calls that follow, 60,640 at first
 *   list LENGTH         lend so many numbers for a list, 160 at first
 *
 * The memory is printed as rows of 32 bytes: of a call those that it changed, else those in which a byte is not 0. More
 * words stand in the line if a call changed what it has to leave as it was, or if a number that is always 0 is another.
 * compare.py compares that with index.py.
 * The exit status is 1 if standard input is not as it should be, or standard output cannot be written.
 */
#define _DEFAULT_SOURCE
#include <inttypes.h>
#include <stdio.h>
#include <string.h>
#include <sys/mman.h>
#include <unistd.h>

#include "norbelath.h"

/* The memory of an index and the list are as short as docs/ states, whatever the library's own limits are. */
enum { BYTES = 60640, NUMBERS = 160 };

/* The most that can be lent. */
enum { MOST_BYTES = 1 << 23, MOST_NUMBERS = 1024 };

/* So many bytes stand before the memory, and so many numbers before and behind the list, and are not lent. */
enum { BEFORE = 64, BESIDE = 16 };

/* What they hold, and what the list does before a call, to see what the call changed. */
enum { UNTOUCHED = 0xA5 };

enum { ROW = 32 };

/*
 * The memory ends where memory ends that can be read or written at all. What is lent behind it is a wall: a call that
 * reads or changes a byte there is ended by a signal.
 */
static uint8_t *start, *memory;
static size_t accessible;

/* What stood in the accessible memory before a call. */
static uint8_t kept[1 << 18];

/* One byte above the limit is enough for the refusal, but a text may have more. */
static uint8_t text[4 * NORBELATH_MAX_TEXT];
static uint16_t list[BESIDE + MOST_NUMBERS + BESIDE];
static size_t lent = BYTES, room = NUMBERS;

static int build_wall(void)
{
    size_t page = (size_t)sysconf(_SC_PAGESIZE);
    accessible = (BEFORE + BYTES + page - 1) / page * page;
    start = mmap(NULL, accessible + MOST_BYTES, PROT_NONE, MAP_PRIVATE | MAP_ANONYMOUS, -1, 0);
    if (start == MAP_FAILED || accessible > sizeof kept || mprotect(start, accessible, PROT_READ | PROT_WRITE) != 0) {
        return 0;
    }
    memory = start + accessible - BYTES;
    memset(start, UNTOUCHED, accessible - BYTES);
    return 1;
}

static void print_rows(const uint8_t *before)
{
    for (size_t place = 0; place < BYTES; place += ROW) {
        if (memcmp(before + place, memory + place, ROW) != 0) {
            printf(" %zu:", place);
            for (size_t i = place; i < place + ROW; i++) {
                printf("%02x", memory[i]);
            }
        }
    }
}

static void keep(void)
{
    memcpy(kept, start, accessible);
}

static void print_unless_zero(uint64_t number)
{
    if (number != 0) {
        printf(" with %" PRIu64 " for 0", number);
    }
}

static void end_line(uint8_t result, uint64_t second)
{
    print_rows(kept + accessible - BYTES);
    if (result == NORBELATH_ACCEPTED) {
        print_unless_zero(second);
    }
    if (memcmp(kept, start, accessible - BYTES) != 0) {
        printf(" and changed before the memory");
    }
    printf("\n");
}

static void print_refusal(uint8_t result, uint64_t first, uint64_t second)
{
    printf("refused %d in %" PRIu64 " at %" PRIu64, result, first, second);
}

static void add(size_t text_len)
{
    uint64_t first = UNTOUCHED, second = UNTOUCHED;
    keep();
    uint8_t result = norbelath_index_add(memory, lent, text, text_len, &first, &second);
    if (result != NORBELATH_ACCEPTED) {
        print_refusal(result, first, second);
    } else {
        printf("added %" PRIu64, first);
    }
    end_line(result, second);
}

static void take_out(size_t number)
{
    uint64_t first = UNTOUCHED, second = UNTOUCHED;
    keep();
    uint8_t result = norbelath_index_remove(memory, lent, number, &first, &second);
    if (result != NORBELATH_ACCEPTED) {
        print_refusal(result, first, second);
    } else {
        printf("removed");
        print_unless_zero(first);
    }
    end_line(result, second);
}

static int list_untouched(size_t from, size_t to)
{
    static const uint16_t untouched = UNTOUCHED << 8 | UNTOUCHED;
    for (size_t i = from; i < to; i++) {
        if (list[i] != untouched) {
            return 0;
        }
    }
    return 1;
}

static void ask(size_t number)
{
    uint64_t first = UNTOUCHED, second = UNTOUCHED;
    keep();
    memset(list, UNTOUCHED, sizeof list);
    uint8_t result = norbelath_index_neighbours(memory, lent, number, list + BESIDE, room, &first, &second);
    size_t listed = result != NORBELATH_ACCEPTED ? 0 : first < room ? (size_t)first : room;
    if (result != NORBELATH_ACCEPTED) {
        print_refusal(result, first, second);
    } else {
        printf("neighbours %" PRIu64, first);
        for (size_t i = 0; i < listed; i++) {
            printf(" %d", list[BESIDE + i]);
        }
    }
    if (!list_untouched(0, BESIDE) || !list_untouched(BESIDE + listed, sizeof list / sizeof list[0])) {
        printf(" and changed more of the list");
    }
    end_line(result, second);
}

static void print_memory(void)
{
    static const uint8_t zeros[BYTES];
    printf("memory");
    print_rows(zeros);
    printf("\n");
}

static int read_bytes(uint8_t *bytes, size_t len)
{
    return getchar() == '\n' && fread(bytes, 1, len, stdin) == len;
}

static int read_size(size_t *size, size_t most)
{
    return scanf("%zu", size) == 1 && *size <= most;
}

int main(void)
{
    char name[7];
    size_t number, place;
    /* What was printed before a signal is then seen. */
    setvbuf(stdout, NULL, _IOLBF, BUFSIZ);
    if (!build_wall()) {
        return 1;
    }
    while (scanf("%6s", name) == 1) {
        if (strcmp(name, "add") == 0 && read_size(&number, sizeof text) && read_bytes(text, number)) {
            add(number);
        } else if (strcmp(name, "remove") == 0 && read_size(&number, SIZE_MAX)) {
            take_out(number);
        } else if (strcmp(name, "ask") == 0 && read_size(&number, SIZE_MAX)) {
            ask(number);
        } else if (strcmp(name, "memory") == 0) {
            print_memory();
        } else if (strcmp(name, "clear") == 0) {
            memset(memory, 0, BYTES);
        } else if (strcmp(name, "put") == 0 && read_size(&place, BYTES) && read_size(&number, BYTES - place)
                   && read_bytes(memory + place, number)) {
            continue;
        } else if (strcmp(name, "lend") == 0 && read_size(&lent, BYTES + MOST_BYTES)) {
            continue;
        } else if (strcmp(name, "list") == 0 && read_size(&room, MOST_NUMBERS)) {
            continue;
        } else {
            return 1;
        }
    }
    return ferror(stdin) || fflush(stdout) != 0 || ferror(stdout);
}
