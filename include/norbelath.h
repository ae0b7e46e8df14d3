/*
 * Norbelath: binary trees, rooted or unrooted, as texts, and which of them are one prune and regraft apart.
 *
 * Seventeen calls over lent memory. They allocate nothing, keep nothing between calls but what an index in lent memory
 * holds, and may be called from several threads at once, while none adds to the same index or removes from it. Any bytes
 * may be given as a text or as an index: what is not as it should be is refused, with the reason and the place.
 *
 * A text is a pointer and its length in bytes; it needs no byte 0 at its end. A lent slice is a pointer and its length in
 * elements. No pointer is NULL, not even one with the length 0. The slices and numbers that a call may write overlap
 * neither each other nor what it reads.
 *
 * TREE TEXTS
 *
 *   table = tree tree ...                  0 to 160 trees, all of one kind and with the same labels
 *   tree  = node ;   or   [&R] node ;      a rooted tree
 *           [&U] top ;                     an unrooted tree
 *   node  = label    or   ( node , node )
 *   top   = label    or   ( label , label )   or   ( node , node , node )
 *   label = a run of decimal digits        whose value is 1 to 64, no value twice in a tree; zeros in front are allowed
 *
 * Blanks (space, tab, CR, LF) may stand before each label, sign and mark, and behind the last `;`; a mark has none inside.
 * At most 63 brackets are open at once. A text has at most 65,535 bytes.
 *
 * A text of the form, cut, pair, row, plot and index add calls is one tree, that of the others a table. The form, pair,
 * table, graph, graph choosing, islands and sheet calls take trees of either kind; the cut, interchange, support, row,
 * plot and index add calls take rooted trees only. A canonical text has no blanks, and a mark only of an unrooted tree.
 *
 * ANSWERS
 *
 * The result is 0 where the call is accepted, and else the number of the refusal. The lent numbers receive:
 *
 *                   *first                       *second
 *   form, cut,      bytes written                0
 *   sheet
 *   pair            1 for yes, 0 for no          forests compared
 *   table           bytes written                trees
 *   graph, graph    trees                        pairs
 *   choosing,
 *   interchanges,
 *   islands
 *   support         clades                       bytes written
 *   row             numbers written              0
 *   row text        bytes written                0
 *   row pair        1 for yes, 0 for no          forests compared
 *   plot            nodes                        0
 *   index add       the tree's number            0
 *   index           neighbours                   0
 *   neighbours
 *   index remove    0                            0
 *   refused         which text or row: 0, or 1   the place: an offset in that text,
 *                   for the other of a pair      its length where it ends too soon
 *
 * The support call has a third number, *third: the trees, and 0 where it is refused.
 *
 * An accepted call writes from the start of each lent slice on and changes nothing behind what it writes; of an index,
 * nothing behind its 60,640 bytes. A refusal changes no lent slice.
 *
 * TREES
 *
 * A clade is the set of labels at and below a node, as a number with bit L - 1 set for each label L. The row of a rooted
 * tree is its label set, then its clades of two or more labels in ascending order: as many numbers as the tree has leaves.
 * A row that is lent to be read is the whole slice, so that its length is part of it.
 *
 * The plot of a rooted tree has a row, where each node is drawn from top to bottom, and a column, from left to right, for
 * each node in the order in which they begin in the canonical text. Leaves have the rows 0, 1, 2 and on; a fork's row is
 * half the sum of its children's, worked out in 64-bit floats as one sum and one product with 0.5. A node's column is the
 * number of forks above it. A tree of n leaves has 2n - 1 nodes: at most 127.
 *
 * One move of a rooted tree takes the subtree at a node away and hangs it on an edge of the rest, or above its root. One
 * move of an unrooted tree cuts an edge and joins one side, by its cut end, to an edge of the other; either side may be
 * the one that is moved.
 *
 * Trees of one topology are copies of each other, however they are written; two copies are never a pair. The first
 * position of a topology is the smallest position whose tree has it. The graph call and the islands call merge copies:
 * only first positions stand in pairs, and a later copy is in none. The graph choosing call can keep copies apart, so
 * that every position may stand in pairs; the interchange call and the index always keep them apart.
 *
 * An index holds up to 160 rooted trees of one label set, each under a number of 0 to 159, in 60,640 bytes of lent
 * memory. Zeros are the empty index. One set of held trees has one memory, so an index may be copied, stored and compared
 * as bytes:
 *
 *   from byte 127 x on    slot x, 127 bytes: the tree with the number x in canonical order, a byte for each node in the
 *                         order in which they begin in the canonical text: a leaf's is its label, a fork's 64 more than
 *                         it has leaves; then zeros. Zeros alone where no tree has the number.
 *   from byte 20,320 on   an entry for each cut of each held tree, two bytes: the tree's number and the cut. They stand
 *                         in byte order of what the cut call writes, ties by tree and then cut; then zeros.
 *
 * Each call looks whether the memory is that of a set of held trees. What lies behind it is neither read nor changed.
 */
#ifndef NORBELATH_H
#define NORBELATH_H

#include <stddef.h>
#include <stdint.h>

#ifdef __cplusplus
extern "C" {
#endif

/* The version of this header. */
#define NORBELATH_VERSION_MAJOR 1
#define NORBELATH_VERSION_MINOR 0
#define NORBELATH_VERSION_PATCH 0
#define NORBELATH_VERSION "1.0.0"

/* Limits: bytes of a text, trees of a table or an index, the largest label, brackets that are open at once. */
#define NORBELATH_MAX_TEXT 65535
#define NORBELATH_MAX_TREES 160
#define NORBELATH_MAX_LABEL 64
#define NORBELATH_MAX_DEPTH 63

/*
 * The least lengths of the lent slices, in elements. A shorter slice is refused, a longer one is used as far as
 * needed. The graph choosing call has those of the graph call, the interchange call those of its pairs and counts; the
 * islands call has those of the graph call, and NORBELATH_ISLANDS for its fourth slice.
 */
#define NORBELATH_FORM_OUT 313
#define NORBELATH_CUT_OUT 307
#define NORBELATH_TABLE_TEXTS 50080
#define NORBELATH_TABLE_ENDS 160
#define NORBELATH_GRAPH_PAIRS 25440
#define NORBELATH_GRAPH_COUNTS 160
#define NORBELATH_GRAPH_FIRSTS 160
#define NORBELATH_ISLANDS 160
#define NORBELATH_SUPPORT_CLADES 9921
#define NORBELATH_SUPPORT_TREES 9921
#define NORBELATH_SUPPORT_OUT 309
#define NORBELATH_ROW 64
#define NORBELATH_ROW_TEXT_OUT 309
#define NORBELATH_PLOT_ROWS 127
#define NORBELATH_PLOT_COLUMNS 127
#define NORBELATH_INDEX_BYTES 60640
#define NORBELATH_INDEX_LIST 160
#define NORBELATH_SHEET_OUT 221542

/*
 * The most stack that a call uses on x86-64, whatever it is given, in bytes. A thread needs that much for the call beside
 * what it uses itself. Other machines have other frames.
 */
#define NORBELATH_FORM_STACK (16 * 1024)
#define NORBELATH_CUT_STACK (16 * 1024)
#define NORBELATH_PAIR_STACK (16 * 1024)
#define NORBELATH_TABLE_STACK (120 * 1024)
#define NORBELATH_GRAPH_STACK (340 * 1024)
#define NORBELATH_GRAPH_CHOOSING_STACK (340 * 1024)
#define NORBELATH_INTERCHANGES_STACK (140 * 1024)
#define NORBELATH_ISLANDS_STACK (360 * 1024)
#define NORBELATH_SUPPORT_STACK (300 * 1024)
#define NORBELATH_ROW_STACK (17 * 1024)
#define NORBELATH_ROW_TEXT_STACK (8 * 1024)
#define NORBELATH_ROW_PAIR_STACK (7 * 1024)
#define NORBELATH_PLOT_STACK (16 * 1024)
#define NORBELATH_INDEX_ADD_STACK (18 * 1024)
#define NORBELATH_INDEX_NEIGHBOURS_STACK (18 * 1024)
#define NORBELATH_INDEX_REMOVE_STACK (12 * 1024)
#define NORBELATH_SHEET_STACK (440 * 1024)

/* The choices of the graph choosing call. Any number but 0 keeps copies apart. */
#define NORBELATH_MERGE_COPIES 0
#define NORBELATH_KEEP_COPIES 1

/*
 * Results. A result that is not listed is a refusal of a later version, so take any but 0 for a refusal. The place of a
 * refusal is given behind each; 7, 8, 9, 11, 12 and 13 have place 0, and so has every refusal of the row text and row
 * pair calls, and 6 of the index add call.
 */
#define NORBELATH_ACCEPTED 0
#define NORBELATH_WRONG_BYTE 1     /* a byte that cannot stand there, or the text ends too soon: that byte, or the length */
#define NORBELATH_BAD_LABEL 2      /* a label that is not 1 to 64: its first digit */
#define NORBELATH_LABEL_AGAIN 3    /* a label that is already in this tree: its first digit */
#define NORBELATH_TOO_DEEP 4       /* a bracket that opens while 63 are open: that bracket */
#define NORBELATH_LABELS_DIFFER 5  /* labels other than the first or the held trees': the `;` of the tree that differs */
#define NORBELATH_TOO_MANY_TREES 6 /* any byte but a blank after 160 trees: that byte; or a tree while 160 are held */
#define NORBELATH_SHORT_SLICE 7    /* a lent slice that is too short */
#define NORBELATH_LONG_TEXT 8      /* a text above 65,535 bytes */
#define NORBELATH_NO_SUCH_CUT 9    /* a cut number that the tree does not have */
#define NORBELATH_OTHER_KIND 10    /* not of the first tree's kind, or unrooted in a call for rooted trees only: its `;` */
#define NORBELATH_NO_ROW 11        /* numbers that are the row of no tree */
#define NORBELATH_NO_INDEX 12      /* memory that is that of no set of held trees */
#define NORBELATH_NOT_HELD 13      /* a number that no held tree has */

/* Form call: the canonical text of the one tree of a text, `;` included, and the mark of an unrooted tree. */
uint8_t norbelath_form(const uint8_t *text, size_t text_len,
                       uint8_t *out, size_t out_len,
                       uint64_t *first, uint64_t *second);

/*
 * Cut call: the forest text of a cut of the one tree, a rooted one, of a text: what the cut leaves, a space, what it
 * takes away and `;`. A tree of n leaves has the cuts 0 to 2n - 3, in the order in which its nodes begin in the
 * canonical text, without the root.
 */
uint8_t norbelath_cut(const uint8_t *text, size_t text_len, uint64_t cut,
                      uint8_t *out, size_t out_len,
                      uint64_t *first, uint64_t *second);

/*
 * Pair call: whether one move makes the tree of `text` that of `other`, of the same kind and a different topology; and how
 * many forests were compared to tell. The cuts of `text`'s tree are gone through in order, up to and including the first
 * one whose forest the other tree shares, or all of them if there is none. A cut counts one where the other tree has a
 * node below its root with the clade of the pruned node, and else nothing. So the number is at most 2n - 2 for trees of n
 * leaves, it is 1 or more where rooted trees are one move apart, and it may be another one with the trees exchanged. It
 * is 0 for trees of equal topology, and for unrooted trees.
 */
uint8_t norbelath_pair(const uint8_t *text, size_t text_len,
                       const uint8_t *other, size_t other_len,
                       uint64_t *first, uint64_t *second);

/*
 * Table call: the canonical texts of the trees of a text, one after another. ends[i] is the offset in them just behind the
 * `;` of tree i.
 */
uint8_t norbelath_table(const uint8_t *text, size_t text_len,
                        uint8_t *texts, size_t texts_len,
                        uint32_t *ends, size_t ends_len,
                        uint64_t *first, uint64_t *second);

/*
 * Graph call: the pairs of trees of a text that are one move apart, copies merged. Pair k is pairs[2k] < pairs[2k + 1],
 * which are first positions, counted from 0, in order of the smaller and then of the larger. counts[i] is the number of
 * pairs that tree i is in, so 0 for a later copy, and firsts[i] is the first position of its topology.
 */
uint8_t norbelath_graph(const uint8_t *text, size_t text_len,
                        uint16_t *pairs, size_t pairs_len,
                        uint16_t *counts, size_t counts_len,
                        uint16_t *firsts, size_t firsts_len,
                        uint64_t *first, uint64_t *second);

/*
 * Graph choosing call: with NORBELATH_MERGE_COPIES as the choice, what the graph call gives. With any other number
 * copies are kept apart: the pairs and counts are those of all positions, so that a copy has the neighbours and the
 * count of its first. The firsts are the same under either choice.
 */
uint8_t norbelath_graph_choosing(const uint8_t *text, size_t text_len, uint8_t choice,
                                 uint16_t *pairs, size_t pairs_len,
                                 uint16_t *counts, size_t counts_len,
                                 uint16_t *firsts, size_t firsts_len,
                                 uint64_t *first, uint64_t *second);

/*
 * Interchange call: the pairs of rooted trees of a text that are one nearest-neighbour interchange apart, copies kept
 * apart, in the order and the first two slices of the graph call. An interchange takes a node that is neither the root
 * nor a child of the root and regrafts it on the edge above its aunt, the sibling of its parent.
 */
uint8_t norbelath_interchanges(const uint8_t *text, size_t text_len,
                               uint16_t *pairs, size_t pairs_len,
                               uint16_t *counts, size_t counts_len,
                               uint64_t *first, uint64_t *second);

/*
 * Islands call: the pairs, counts and firsts of the graph call, and islands[i], the number of the island of tree i. An
 * island is a group of first positions that chains of those pairs join, with their copies; its number is the smallest
 * position in it. So a copy has the island of its first, with neighbours or without.
 */
uint8_t norbelath_islands(const uint8_t *text, size_t text_len,
                          uint16_t *pairs, size_t pairs_len,
                          uint16_t *counts, size_t counts_len,
                          uint16_t *firsts, size_t firsts_len,
                          uint16_t *islands, size_t islands_len,
                          uint64_t *first, uint64_t *second);

/*
 * Support call: every clade of two or more labels of the rooted trees of a text, once, and in how many trees each
 * occurs, copies counted. clades[k] has bit L - 1 set for each label L of the clade, and trees[k] is the number of
 * trees. Clades of more trees come first; of as many, the labels are compared from the smallest on, and a clade whose
 * labels end first is the lesser: {1,2}, {1,2,3}, {1,3}, {2,3}. out receives the text of the majority tree, `;`
 * included: its clades are those of more than half of the trees, each label alone and all labels, and a node of it may
 * have more than two children, which stand in the order of their smallest labels. A text without trees has no clades
 * and no bytes.
 */
uint8_t norbelath_support(const uint8_t *text, size_t text_len,
                          uint64_t *clades, size_t clades_len,
                          uint16_t *trees, size_t trees_len,
                          uint8_t *out, size_t out_len,
                          uint64_t *first, uint64_t *second, uint64_t *third);

/* Row call: the row of the one tree, a rooted one, of a text. */
uint8_t norbelath_row(const uint8_t *text, size_t text_len,
                      uint64_t *row, size_t row_len,
                      uint64_t *first, uint64_t *second);

/* Row text call: the canonical text of the tree that has this row, `;` included. */
uint8_t norbelath_row_text(const uint64_t *row, size_t row_len,
                           uint8_t *out, size_t out_len,
                           uint64_t *first, uint64_t *second);

/*
 * Row pair call: whether one move makes the tree of `row` that of `other`, of the same labels and a different topology;
 * and how many forests were compared, the number that the pair call gives for the texts of these trees.
 * A slice that is the row of no tree is refused first, `row` before `other`; then other labels are.
 */
uint8_t norbelath_row_pair(const uint64_t *row, size_t row_len,
                           const uint64_t *other, size_t other_len,
                           uint64_t *first, uint64_t *second);

/*
 * Plot call: the row and the column of every node of the one tree, a rooted one, of a text. rows[k] and columns[k] are
 * those of node k. Each row is within 2 to the power -42 of the exact one, which is a whole number over 2 to the power 63.
 * Any bits may stand in the lent cells, also those of a NaN. Node 0 is the root. The first child of a fork k is node
 * k + 1; the second is node k + 2m, where m is how many leaves are below the first.
 */
uint8_t norbelath_plot(const uint8_t *text, size_t text_len,
                       double *rows, size_t rows_len,
                       uint16_t *columns, size_t columns_len,
                       uint64_t *first, uint64_t *second);

/*
 * Index add call: adds the one tree, a rooted one, of a text to the index in `memory`. It gets the smallest number that
 * no held tree has. Refused are, in this order, too short a memory, too long a text, memory that is that of no set of
 * held trees, a text as in the form call, any tree while 160 are held, an unrooted one, and labels other than those of
 * the held trees.
 */
uint8_t norbelath_index_add(uint8_t *memory, size_t memory_len,
                            const uint8_t *text, size_t text_len,
                            uint64_t *first, uint64_t *second);

/*
 * Index neighbours call: the numbers of the held trees that are one move apart from the tree with this number, ascending
 * and each once. They are the ones that the graph choosing call, with copies kept apart, pairs it with, given the held
 * trees in order of number, where each position stands for the number at that place. Refused are, in this order, too short
 * a memory or list, memory that is that of no set of held trees, and a number that no held tree has.
 */
uint8_t norbelath_index_neighbours(const uint8_t *memory, size_t memory_len, size_t number,
                                   uint16_t *list, size_t list_len,
                                   uint64_t *first, uint64_t *second);

/*
 * Index remove call: takes the tree with this number out of the index in `memory`: its entries go, the gaps are closed,
 * and its slot is zeros. The other trees keep their numbers, and this one is free again, so that the next tree may get it.
 * An index that loses its last tree is the empty one, and takes any label set next. Refused are, in this order, too short
 * a memory, memory that is that of no set of held trees, and a number that no held tree has.
 */
uint8_t norbelath_index_remove(uint8_t *memory, size_t memory_len, size_t number,
                               uint64_t *first, uint64_t *second);

/*
 * Sheet call: what the pair lister prints for a text. A text that is refused has its sheet too, the line `refused N at P`:
 * so the only refusal of this call is 7.
 */
uint8_t norbelath_sheet(const uint8_t *text, size_t text_len,
                        uint8_t *out, size_t out_len,
                        uint64_t *first, uint64_t *second);

#ifdef __cplusplus
}
#endif

#endif
