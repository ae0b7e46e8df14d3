/*
 * Draws a rooted tree: reads the text of one tree on standard input and writes a picture of it, an SVG, to standard
 * output.
 *
 * Every place in it is from the plot call, and the labels are from the form call. A node is a dot: its x is its column and
 * its y its row, in steps of the sizes below. A branch is a straight line from a fork to its child. A tip stands in its
 * own column, with its label to the right, and not in line with the others: so each branch goes from one column to the
 * next, between the rows of its fork's leaves, and no two branches cross.
 *
 * The exit status is 0 where the whole picture was written. A text that is refused gives no picture but a line
 * `refused N at P` on standard error, and status 1; so does an input that cannot be read. Where the output cannot be
 * written whole, that is told in the same way, and what was written is not the whole picture.
 */
#include <inttypes.h>
#include <stdio.h>

#include "norbelath.h"

/* In the units of the picture: from a column to the next, from a row to the next, around the tree, and for a label. */
enum { COLUMN = 24, ROW = 16, MARGIN = 16, LABEL = 20 };

/* A byte more than a text may have, so that a longer input is refused as such. */
static uint8_t text[NORBELATH_MAX_TEXT + 1];
static uint8_t form[NORBELATH_FORM_OUT];
static double rows[NORBELATH_PLOT_ROWS];
static uint16_t columns[NORBELATH_PLOT_COLUMNS];

static int failed(const char *what)
{
    fprintf(stderr, "%s\n", what);
    return 1;
}

static int refused(uint8_t number, uint64_t place)
{
    fprintf(stderr, "refused %d at %" PRIu64 "\n", number, place);
    return 1;
}

static int is_digit(uint8_t byte)
{
    return '0' <= byte && byte <= '9';
}

static double x_of(size_t node)
{
    return MARGIN + COLUMN * (double)columns[node];
}

static double y_of(size_t node)
{
    return MARGIN + ROW * rows[node];
}

static void draw_branch(size_t from, size_t to)
{
    printf("<line x1=\"%.3f\" y1=\"%.3f\" x2=\"%.3f\" y2=\"%.3f\"/>\n", x_of(from), y_of(from), x_of(to), y_of(to));
}

static void draw_dot(size_t node)
{
    printf("<circle cx=\"%.3f\" cy=\"%.3f\" r=\"2\"/>\n", x_of(node), y_of(node));
}

static void draw_label(size_t node, const uint8_t *digits, size_t len)
{
    printf("<text x=\"%.3f\" y=\"%.3f\">%.*s</text>\n", x_of(node) + 6, y_of(node), (int)len, (const char *)digits);
}

/* Draws each node, with its label and the branch that leads to it, as they begin in the canonical text. */
static void draw_nodes(size_t len)
{
    size_t open[NORBELATH_PLOT_ROWS], brackets = 0, node = 0;
    for (size_t at = 0; at < len; at++) {
        if (form[at] == ')') {
            brackets--;
        } else if (form[at] == '(' || is_digit(form[at])) {
            if (brackets > 0) {
                draw_branch(open[brackets - 1], node);
            }
            draw_dot(node);
            if (form[at] == '(') {
                open[brackets++] = node;
            } else {
                size_t end = at + 1;
                while (is_digit(form[end])) {
                    end++;
                }
                draw_label(node, form + at, end - at);
                at = end - 1;
            }
            node++;
        }
    }
}

static void draw(size_t nodes, size_t len)
{
    uint16_t widest = 0;
    for (size_t i = 0; i < nodes; i++) {
        widest = columns[i] > widest ? columns[i] : widest;
    }
    /* A tree of n leaves has 2n - 1 nodes, and its last leaf is in row n - 1. */
    int width = 2 * MARGIN + COLUMN * widest + LABEL, height = 2 * MARGIN + ROW * (int)((nodes - 1) / 2);
    printf("<svg xmlns=\"http://www.w3.org/2000/svg\" width=\"%d\" height=\"%d\" viewBox=\"0 0 %d %d\"\n"
           "     stroke=\"black\" font-family=\"sans-serif\" font-size=\"12\">\n"
           "<style>text { stroke: none; dominant-baseline: central }</style>\n",
           width, height, width, height);
    draw_nodes(len);
    printf("</svg>\n");
}

int main(int count, char **arguments)
{
    if (count != 1) {
        fprintf(stderr, "usage: %s <tree.txt >tree.svg\n", arguments[0]);
        return 2;
    }
    size_t text_len = fread(text, 1, sizeof text, stdin);
    if (ferror(stdin)) {
        return failed("standard input could not be read");
    }
    uint64_t nodes, len, place;
    uint8_t number = norbelath_plot(text, text_len, rows, NORBELATH_PLOT_ROWS, columns, NORBELATH_PLOT_COLUMNS, &nodes,
                                    &place);
    if (number == NORBELATH_ACCEPTED) {
        number = norbelath_form(text, text_len, form, NORBELATH_FORM_OUT, &len, &place);
    }
    if (number != NORBELATH_ACCEPTED) {
        return refused(number, place);
    }
    draw(nodes, len);
    if (ferror(stdout) || fclose(stdout) != 0) {
        return failed("standard output could not be written whole");
    }
    return 0;
}
