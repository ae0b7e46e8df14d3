//! Binary trees, rooted or unrooted, as texts, and which of them are one prune and regraft apart: safe calls of the
//! proved library.
//!
//! Any bytes may be given as a text, as `&str`, `&[u8]` or whatever else lends bytes: what is not as it should be is
//! refused, with the reason and the place. Each call that gives a text or numbers comes in two forms: one returns them,
//! texts as a `String`, and one writes them into the caller's slices, allocates nothing and says how much it wrote.
//!
//! A tree with the mark `[&U]` before it is unrooted, and has three children at the top, or two leaves, or one; a tree
//! with the mark `[&R]` or none is rooted. Every other fork has two children. The trees of a call are of one kind.
//! [`cut`], [`interchanges`], [`support`], [`row`], [`plot`] and [`Index`] take rooted trees only, the other calls either
//! kind.
//!
//! Trees of one topology are copies of each other, however they are written; two copies are never a pair. The first
//! position of a topology is the smallest position whose tree has it. [`graph`] and [`islands`] merge copies: only
//! first positions stand in pairs. [`graph_choosing`] can keep copies apart, and [`interchanges`] and [`Index`] always
//! do. [`support`] counts every copy.
//!
//! A rooted tree can also be held as its row of numbers: its label set, then its clades of two or more labels in
//! ascending order, with bit L − 1 set for each label L. [`row`] and [`row_text`] turn texts into rows and back, and
//! [`row_pair`] is [`pair`] on two rows.
//!
//! For figures, [`plot`] places every node of a rooted tree: its row, with the leaves in the rows 0, 1, 2 and on, and its
//! column, the number of forks above it.
//!
//! Rooted trees that arrive singly are added to an [`Index`], which gives each a number and lists the neighbours of any
//! of them. A tree that is removed leaves its number to a later one.
//!
//! ```
//! use norbelath::{Reason, Refusal};
//!
//! assert_eq!(norbelath::form("(3,(2,1));").unwrap(), "((1,2),3);");
//! assert_eq!(norbelath::cut("((1,2),(3,4));", 0).unwrap(), "(3,4) (1,2);");
//! let pair = norbelath::pair("(((1,2),3),4);", "(((1,4),2),3);").unwrap();
//! assert_eq!((pair.apart, pair.forests), (true, 4));
//! assert_eq!(norbelath::form("[&U](4,(2,1),3);").unwrap(), "[&U](1,2,(3,4));");
//! let pair = norbelath::pair("[&U](1,2,(3,4));", "[&U](1,(2,3),4);").unwrap();
//! assert_eq!((pair.apart, pair.forests), (true, 0));
//! let trees = "((1,2),3); (1,(2,3)); (3,(2,1));";
//! let graph = norbelath::graph(trees).unwrap();
//! assert_eq!(graph.pairs, [(0, 1)]);
//! assert_eq!(graph.counts, [1, 1, 0]);
//! assert_eq!(graph.firsts, [0, 1, 0]);
//! let graph = norbelath::graph_choosing(trees, norbelath::Copies::KeepApart).unwrap();
//! assert_eq!(graph.pairs, [(0, 1), (1, 2)]);
//! assert_eq!(graph.counts, [1, 2, 1]);
//! assert_eq!(graph.firsts, [0, 1, 0]);
//! let answer = norbelath::interchanges("(((1,2),3),4); ((1,2),(3,4)); (((1,4),2),3);").unwrap();
//! assert_eq!(answer.pairs, [(0, 1)]);
//! let answer = norbelath::islands("(((1,2),3),4); (1,(2,(3,4))); (((1,3),2),4); ((2,(4,3)),1);").unwrap();
//! assert_eq!(answer.islands, [0, 1, 0, 1]);
//! let support = norbelath::support(trees).unwrap();
//! assert_eq!(support.clades, [(0b111, 3), (0b011, 2), (0b110, 1)]);
//! assert_eq!(support.majority, "((1,2),3);");
//! let row = norbelath::row("(1,(3,2));").unwrap();
//! assert_eq!(row, [0b111, 0b110, 0b111]);
//! assert_eq!(norbelath::row_text(&row).unwrap(), "(1,(2,3));");
//! let pair = norbelath::row_pair(&row, &[0b111, 0b011, 0b111]).unwrap();
//! assert_eq!((pair.apart, pair.forests), (true, 1));
//! let plot = norbelath::plot("(3,(2,1));").unwrap();
//! assert_eq!(plot.rows, [1.25, 0.5, 0.0, 1.0, 2.0]);
//! assert_eq!(plot.columns, [0, 1, 2, 2, 1]);
//! let mut index = norbelath::Index::new();
//! assert_eq!(index.add("((1,2),3);"), Ok(0));
//! assert_eq!(index.add("(1,(2,3));"), Ok(1));
//! assert_eq!(index.add("(3,(2,1));"), Ok(2));
//! assert_eq!(index.neighbours(1).unwrap(), [0, 2]);
//! assert_eq!(index.remove(0), Ok(()));
//! assert_eq!(index.neighbours(1).unwrap(), [2]);
//! assert_eq!(index.add("((1,3),2);"), Ok(0));
//! let table = norbelath::table("(2,1); (1,2);").unwrap();
//! assert_eq!(table.trees().collect::<Vec<_>>(), ["(1,2);", "(1,2);"]);
//! assert_eq!(norbelath::sheet("(1,2);"), "trees 1 pairs 0\ntree 0 neighbours 0 unlinked 0 (1,2);\n");
//! assert_eq!(norbelath::sheet("(1,2"), "refused 1 at 4\n");
//! let refusal = norbelath::form("(1,2").unwrap_err();
//! assert_eq!((refusal.reason(), refusal.at()), (Reason::WrongByte, Some(4)));
//! assert_eq!((refusal.number, refusal.place), (Refusal::WRONG_BYTE, 4));
//! let refusal = norbelath::table("(1,2); [&U](1,2);").unwrap_err();
//! assert_eq!((refusal.reason(), refusal.at()), (Reason::OtherKind, Some(16)));
//! let refusal = norbelath::row_pair(&row, &[0b111, 0b011, 0b110]).unwrap_err();
//! assert_eq!((refusal.reason(), refusal.text), (Reason::NoRow, 1));
//! assert_eq!(index.neighbours(3).unwrap_err().reason(), Reason::NotHeld);
//! assert_eq!(index.remove(3).unwrap_err().reason(), Reason::NotHeld);
//! ```

#![deny(unsafe_op_in_unsafe_fn)]
#![warn(missing_docs, clippy::undocumented_unsafe_blocks)]

mod answers;
mod index;
mod lent;
mod raw;
mod refusal;

pub use answers::{
    Drawing, Graph, GraphSize, Interchanges, Islands, Pair, Plot, Support, SupportSize, Table,
    TableSize,
};
pub use index::Index;
pub use lent::{
    cut_into, form_into, graph_choosing_into, graph_into, index_add_into, index_neighbours_into,
    index_remove_into, interchanges_into, islands_into, pair, plot_into, row_into, row_pair,
    row_text_into, sheet_into, support_into, table_into,
};
pub use refusal::{Reason, Refusal};

/// Bytes of the longest text.
pub const MAX_TEXT: usize = 65_535;
/// Trees of the largest table, and of a full index.
pub const MAX_TREES: usize = 160;

/// The least length of the slice lent to [`form_into`].
pub const FORM_OUT: usize = 313;
/// The least length of the slice lent to [`cut_into`].
pub const CUT_OUT: usize = 307;
/// The least length of the slice lent to [`table_into`] for the texts.
pub const TABLE_TEXTS: usize = 50_080;
/// The least length of the slice lent to [`table_into`] for the ends.
pub const TABLE_ENDS: usize = 160;
/// The least length of the slice lent to [`graph_into`], [`graph_choosing_into`], [`interchanges_into`] or
/// [`islands_into`] for the pairs, two numbers each.
pub const GRAPH_PAIRS: usize = 25_440;
/// The least length of the slice lent to the same calls for the counts.
pub const GRAPH_COUNTS: usize = 160;
/// The least length of the slice lent to [`graph_into`], [`graph_choosing_into`] or [`islands_into`] for the firsts.
pub const GRAPH_FIRSTS: usize = 160;
/// The least length of the slice lent to [`islands_into`] for the islands.
pub const ISLANDS: usize = 160;
/// The least length of the slice lent to [`support_into`] for the clades.
pub const SUPPORT_CLADES: usize = 9_921;
/// The least length of the slice lent to [`support_into`] for the trees of each clade.
pub const SUPPORT_TREES: usize = 9_921;
/// The least length of the slice lent to [`support_into`] for the majority tree.
pub const SUPPORT_OUT: usize = 309;
/// Numbers of the longest row, and the least length of the slice lent to [`row_into`].
pub const ROW: usize = 64;
/// The least length of the slice lent to [`row_text_into`].
pub const ROW_TEXT_OUT: usize = 309;
/// Nodes of the largest tree, and the least length of the slice lent to [`plot_into`] for the rows.
pub const PLOT_ROWS: usize = 127;
/// The least length of the slice lent to [`plot_into`] for the columns.
pub const PLOT_COLUMNS: usize = 127;
/// Bytes of an index, and the least length of the memory lent to [`index_add_into`], [`index_neighbours_into`] and
/// [`index_remove_into`].
pub const INDEX_BYTES: usize = 60_640;
/// The least length of the slice lent to [`index_neighbours_into`] for the list.
pub const INDEX_LIST: usize = 160;
/// The least length of the slice lent to [`sheet_into`].
pub const SHEET_OUT: usize = 221_542;

/// What a graph does with copies, the trees of one topology: one of two things, and there is no third.
#[derive(Clone, Copy, Debug, PartialEq, Eq, Hash)]
pub enum Copies {
    /// Only the first position of each topology stands in pairs. A later copy has count 0.
    Merge,
    /// Every position may stand in pairs. A copy has the neighbours and the count of its first.
    KeepApart,
}

impl Copies {
    /// The number that stands for the choice.
    pub(crate) fn choice(self) -> u8 {
        match self {
            Copies::Merge => 0,
            Copies::KeepApart => 1,
        }
    }
}

/// The canonical text of a text's one tree, with the mark of an unrooted one.
///
/// # Errors
///
/// Those of [`form_into`] but [`Reason::ShortSlice`].
pub fn form(text: impl AsRef<[u8]>) -> Result<String, Refusal> {
    let mut out = vec![0; FORM_OUT];
    let bytes = form_into(text.as_ref(), &mut out)?;
    Ok(text_of(out, bytes))
}

/// The forest text of a cut of a text's one tree, a rooted one: what the cut leaves, a space, what it takes away and
/// `;`.
///
/// # Errors
///
/// Those of [`cut_into`] but [`Reason::ShortSlice`].
pub fn cut(text: impl AsRef<[u8]>, cut: u64) -> Result<String, Refusal> {
    let mut out = vec![0; CUT_OUT];
    let bytes = cut_into(text.as_ref(), cut, &mut out)?;
    Ok(text_of(out, bytes))
}

/// The canonical texts of a text's trees, and the end of each.
///
/// # Errors
///
/// Those of [`table_into`] but [`Reason::ShortSlice`].
pub fn table(text: impl AsRef<[u8]>) -> Result<Table, Refusal> {
    let mut texts = vec![0; TABLE_TEXTS];
    let mut ends = vec![0; TABLE_ENDS];
    let size = table_into(text.as_ref(), &mut texts, &mut ends)?;
    ends.truncate(size.trees);
    Ok(Table {
        texts: text_of(texts, size.bytes),
        ends,
    })
}

/// The pairs of a text's trees that are one move apart, each tree's number of pairs, and the first position of its
/// topology. Copies are merged: only first positions stand in pairs, and a later copy has count 0.
///
/// # Errors
///
/// Those of [`table`].
pub fn graph(text: impl AsRef<[u8]>) -> Result<Graph, Refusal> {
    graph_by(|pairs, counts, firsts| graph_into(text.as_ref(), pairs, counts, firsts))
}

/// What [`graph`] gives, with copies merged or kept apart. The firsts are the same either way.
///
/// # Errors
///
/// Those of [`table`].
pub fn graph_choosing(text: impl AsRef<[u8]>, copies: Copies) -> Result<Graph, Refusal> {
    graph_by(|pairs, counts, firsts| {
        graph_choosing_into(text.as_ref(), copies, pairs, counts, firsts)
    })
}

/// The pairs of a text's rooted trees that are one nearest-neighbour interchange apart, and each tree's number of
/// pairs. Copies are kept apart.
///
/// An interchange takes a node that is neither the root nor a child of the root and regrafts it on the edge above its
/// aunt, the sibling of its parent.
///
/// # Errors
///
/// Those of [`interchanges_into`] but [`Reason::ShortSlice`].
pub fn interchanges(text: impl AsRef<[u8]>) -> Result<Interchanges, Refusal> {
    let (pairs, counts) = list_by(|pairs, counts| interchanges_into(text.as_ref(), pairs, counts))?;
    Ok(Interchanges { pairs, counts })
}

/// What [`graph`] gives, and the number of each tree's island.
///
/// An island is a group of first positions that chains of the pairs join, with their copies. Its number is the smallest
/// position in it.
///
/// # Errors
///
/// Those of [`table`].
pub fn islands(text: impl AsRef<[u8]>) -> Result<Islands, Refusal> {
    let mut islands = vec![0; ISLANDS];
    let graph = graph_by(|pairs, counts, firsts| {
        islands_into(text.as_ref(), pairs, counts, firsts, &mut islands)
    })?;
    islands.truncate(graph.counts.len());
    Ok(Islands {
        pairs: graph.pairs,
        counts: graph.counts,
        firsts: graph.firsts,
        islands,
    })
}

/// What a call writes into the pairs, the counts and the firsts that it is lent.
fn graph_by(
    call: impl FnOnce(&mut [u16], &mut [u16], &mut [u16]) -> Result<GraphSize, Refusal>,
) -> Result<Graph, Refusal> {
    let mut firsts = vec![0; GRAPH_FIRSTS];
    let (pairs, counts) = list_by(|pairs, counts| call(pairs, counts, &mut firsts))?;
    firsts.truncate(counts.len());
    Ok(Graph {
        pairs,
        counts,
        firsts,
    })
}

/// Pairs, and the number of them that each position is in.
type Listing = (Vec<(u16, u16)>, Vec<u16>);

/// What a call writes into the pairs and the counts that it is lent.
fn list_by(
    call: impl FnOnce(&mut [u16], &mut [u16]) -> Result<GraphSize, Refusal>,
) -> Result<Listing, Refusal> {
    let mut pairs = vec![0; GRAPH_PAIRS];
    let mut counts = vec![0; GRAPH_COUNTS];
    let size = call(&mut pairs, &mut counts)?;
    pairs.truncate(2 * size.pairs);
    counts.truncate(size.trees);
    let pairs = pairs
        .chunks_exact(2)
        .map(|pair| (pair[0], pair[1]))
        .collect();
    Ok((pairs, counts))
}

/// Every clade of two or more labels of a text's rooted trees, once, with the number of trees that have it, and the
/// majority tree. Copies are counted.
///
/// A clade has bit L − 1 set for each of its labels L. Clades of more trees come first; of as many, the labels are
/// compared from the smallest on, and a clade whose labels end first is the lesser: {1,2}, {1,2,3}, {1,3}, {2,3}.
///
/// The clades of the majority tree are those of more than half of the trees, each label alone and all labels. A node of
/// it may have more than two children, which stand in the order of their smallest labels. Without trees there is none.
///
/// # Errors
///
/// Those of [`support_into`] but [`Reason::ShortSlice`].
pub fn support(text: impl AsRef<[u8]>) -> Result<Support, Refusal> {
    let mut clades = vec![0; SUPPORT_CLADES];
    let mut trees = vec![0; SUPPORT_TREES];
    let mut majority = vec![0; SUPPORT_OUT];
    let size = support_into(text.as_ref(), &mut clades, &mut trees, &mut majority)?;
    Ok(Support {
        clades: clades.into_iter().zip(trees).take(size.clades).collect(),
        trees: size.trees,
        majority: text_of(majority, size.bytes),
    })
}

/// The row of a text's one tree, a rooted one: its label set, then its clades of two or more labels in ascending order.
/// They are as many numbers as the tree has leaves.
///
/// Bit L − 1 of a number is set for each label L. The row of one leaf is its label set alone, that of two leaves the
/// same number twice. Two trees have the same row exactly when they have the same topology.
///
/// # Errors
///
/// Those of [`row_into`] but [`Reason::ShortSlice`].
pub fn row(text: impl AsRef<[u8]>) -> Result<Vec<u64>, Refusal> {
    let mut row = vec![0; ROW];
    let numbers = row_into(text.as_ref(), &mut row)?;
    row.truncate(numbers);
    Ok(row)
}

/// The canonical text of the tree of a row. The slice is one row and nothing more, so its length is part of it.
///
/// # Errors
///
/// [`Reason::NoRow`] alone.
pub fn row_text(row: &[u64]) -> Result<String, Refusal> {
    let mut out = vec![0; ROW_TEXT_OUT];
    let bytes = row_text_into(row, &mut out)?;
    Ok(text_of(out, bytes))
}

/// The row and the column of every node of a text's one tree, a rooted one, in the order in which the nodes begin in the
/// canonical text. A tree of n leaves has 2n − 1 nodes.
///
/// Leaves have the rows 0, 1, 2 and on; a fork's row is half the sum of its children's, worked out in `f64` as one sum
/// and one product with 0.5. Each row is within 2⁻⁴² of the exact one, which is a whole number over 2⁶³. The column of
/// a node is the number of forks above it.
///
/// ```
/// let plot = norbelath::plot("((1,2),(3,4));")?;
/// assert_eq!(plot.rows, [1.5, 0.5, 0.0, 1.0, 2.5, 2.0, 3.0]);
/// assert_eq!(plot.columns, [0, 1, 2, 2, 1, 2, 2]);
/// # Ok::<(), norbelath::Refusal>(())
/// ```
///
/// # Errors
///
/// Those of [`plot_into`] but [`Reason::ShortSlice`].
pub fn plot(text: impl AsRef<[u8]>) -> Result<Plot, Refusal> {
    let mut rows = vec![0.0; PLOT_ROWS];
    let mut columns = vec![0; PLOT_COLUMNS];
    let nodes = plot_into(text.as_ref(), &mut rows, &mut columns)?;
    rows.truncate(nodes);
    columns.truncate(nodes);
    Ok(Plot { rows, columns })
}

/// What the pair lister prints for a text: the sheet of its trees, or the line of its refusal.
pub fn sheet(text: impl AsRef<[u8]>) -> String {
    let mut out = vec![0; SHEET_OUT];
    let bytes =
        sheet_into(text.as_ref(), &mut out).expect("enough is lent, and nothing else is refused");
    text_of(out, bytes)
}

/// The text that a call wrote at the start of these bytes.
fn text_of(mut written: Vec<u8>, bytes: usize) -> String {
    written.truncate(bytes);
    String::from_utf8(written).expect("the library writes digits, signs, letters, blanks and LF")
}
