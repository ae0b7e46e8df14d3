//! Which binary trees, rooted or unrooted, are one prune and regraft apart: a
//! plain implementation of document 01's calls over ordinary Rust types.
//!
//! The method is document 001's: every forest of every tree is written as a
//! canonical string, the strings are the keys of a hash map, and two trees of
//! different topology that meet under one key are a pair. A rooted tree has a
//! forest for each node but the root (Lemma 2.2 there), an unrooted one two for
//! each edge, as either side may be the moved one (Lemma 2.3). For interchanges the
//! canonical texts of all trees one interchange away are looked up among those
//! of the table. Islands are found by uniting sets along the listed pairs. For
//! clade support the label sets of all forks are counted in a hash map. Rows, the
//! clades of a tree as numbers, are compared without texts: the clades of a forest
//! are worked out from those of its tree. The pair test also says how many forests
//! it compared: on texts that is worked out behind the answer, on rows it is
//! counted on the way. A plot is worked out from the last node to the first, without
//! a walk down. An index keeps the forest texts of its trees in a sorted vector, and
//! looks up those of the tree that it is asked for.
//!
//! Copies are trees of one topology. Merged, only the first of them stands in
//! pairs; kept apart, each of them does. They are never a pair with each other.
//!
//! Results are returned, not written into lent memory, so refusal 7 (a lent
//! slice too short) does not arise.

mod clades;
mod index;
mod reader;
mod rooted;
mod rows;
mod tree;
mod unrooted;

#[cfg(test)]
mod index_tests;
#[cfg(test)]
mod tests;

use std::collections::{BTreeMap, HashMap, HashSet};
use std::io::Write;

pub use index::{Index, INDEX_BYTES};

use reader::Reader;
use rooted::Rooted;
use tree::Tree;

/// A text has at most this many bytes.
pub const MOST_BYTES: usize = 65_535;
/// A table has at most this many trees.
pub const MOST_TREES: usize = 160;
/// At most this many brackets are open at once.
pub const MOST_OPEN: usize = 63;
/// Labels are 1 to this.
pub const LARGEST_LABEL: u8 = 64;

/// A byte that cannot stand there, or the text ends too soon.
pub const BAD_BYTE: u8 = 1;
/// A label out of range.
pub const BAD_LABEL: u8 = 2;
/// A label already in this tree.
pub const REPEATED_LABEL: u8 = 3;
/// A bracket too many open.
pub const TOO_DEEP: u8 = 4;
/// Labels differ from the first tree's.
pub const OTHER_LABELS: u8 = 5;
/// Something follows the last tree a table can have.
pub const TOO_MANY_TREES: u8 = 6;
/// The text is too long.
pub const TEXT_TOO_LONG: u8 = 8;
/// The tree has no cut of this number.
pub const NO_SUCH_CUT: u8 = 9;
/// The tree is not of the first tree's kind, or is unrooted where only rooted
/// ones are taken.
pub const OTHER_KIND: u8 = 10;
/// The numbers are the row of no tree.
pub const NO_ROW: u8 = 11;
/// The memory is that of no index.
pub const NO_INDEX: u8 = 12;
/// No held tree has this number.
pub const NOT_HELD: u8 = 13;

/// Why a call refuses: the number, which text or row (0, or 1 for a pair's
/// second) and the place.
#[derive(Clone, Copy, Debug, PartialEq, Eq)]
pub struct Refusal {
    pub number: u8,
    pub text: u8,
    pub place: usize,
}

/// What the pair test finds: whether two trees are one move apart, and how many
/// forests it compared.
///
/// Those are the first tree's cuts up to and including the first one whose
/// forest the second tree shares, or all of them; a cut is among them if the
/// second tree has a node with the clade of the pruned one. For equal topologies
/// and for unrooted trees the number is 0.
#[derive(Clone, Copy, Debug, PartialEq, Eq)]
pub struct Pair {
    pub apart: bool,
    pub forests: usize,
}

/// Pairs (i, j) with i < j in order of i, then j, and the neighbour count of
/// each tree.
pub type Listing = (Vec<(u16, u16)>, Vec<u16>);

/// A listing and, for each tree, the first position of its topology.
#[derive(Debug, PartialEq, Eq)]
pub struct Graph {
    pub pairs: Vec<(u16, u16)>,
    pub counts: Vec<u16>,
    pub firsts: Vec<u16>,
}

/// A graph with copies merged, and the number of each tree's island.
#[derive(Debug, PartialEq, Eq)]
pub struct Islands {
    pub graph: Graph,
    pub numbers: Vec<u16>,
}

/// The clades of a table and its majority tree.
#[derive(Debug, PartialEq, Eq)]
pub struct Support {
    pub trees: usize,
    /// Each clade of two or more labels, bit `label - 1` for each label, and in
    /// how many trees it occurs. Those in more trees come first, then those
    /// with the lesser list of labels.
    pub clades: Vec<(u64, u16)>,
    /// The text of the majority tree; empty for a table without trees.
    pub majority: Vec<u8>,
}

/// The canonical text of a text with exactly one tree.
pub fn form(text: &[u8]) -> Result<Vec<u8>, Refusal> {
    refuse_long_text(text, 0)?;
    let (tree, _) = read_one(text, 0, Takes::Either)?;
    Ok(tree.canonical_text().to_vec())
}

/// The forest text of cut `c` of a rooted tree.
pub fn cut(text: &[u8], c: u64) -> Result<Vec<u8>, Refusal> {
    refuse_long_text(text, 0)?;
    let (tree, _) = read_one(text, 0, Takes::RootedOnly)?;
    tree.rooted()
        .filter(|tree| c < tree.number_of_cuts() as u64)
        .map(|tree| tree.forest_text(c as usize))
        .ok_or(Refusal {
            number: NO_SUCH_CUT,
            text: 0,
            place: 0,
        })
}

/// Whether two trees of one kind are one move apart, which equal topologies are
/// not, and how many forests were compared.
pub fn pair(text0: &[u8], text1: &[u8]) -> Result<Pair, Refusal> {
    refuse_long_text(text0, 0)?;
    refuse_long_text(text1, 1)?;
    let (first, _) = read_one(text0, 0, Takes::Either)?;
    let (second, semicolon) = read_one(text1, 1, Takes::Either)?;
    if let Some(number) = unlike(&first, &second) {
        return Err(Refusal {
            number,
            text: 1,
            place: semicolon,
        });
    }
    if first.canonical_text() == second.canonical_text() {
        return Ok(Pair {
            apart: false,
            forests: 0,
        });
    }
    let forests: HashSet<Vec<u8>> = second.forest_texts().collect();
    let shared = first
        .forest_texts()
        .position(|forest| forests.contains(&forest));
    let compared = match (&first, &second) {
        (Tree::Rooted(first), Tree::Rooted(second)) => {
            let cuts = shared.map_or(first.number_of_cuts(), |cut| cut + 1);
            forests_compared(first, second, cuts)
        }
        _ => 0,
    };
    Ok(Pair {
        apart: shared.is_some(),
        forests: compared,
    })
}

/// How many of the first tree's cuts, of which so many are gone through, prune a
/// clade that the second tree has too.
fn forests_compared(first: &Rooted, second: &Rooted, cuts: usize) -> usize {
    let clades: HashSet<u64> = second.pruned_clades().into_iter().collect();
    let pruned = first.pruned_clades();
    let has_too = |clade: &&u64| clades.contains(clade);
    pruned[..cuts].iter().filter(has_too).count()
}

/// The canonical texts of a table one after another, and the end of each.
pub fn table(text: &[u8]) -> Result<(Vec<u8>, Vec<u32>), Refusal> {
    let mut written = Vec::new();
    let mut ends = Vec::new();
    for tree in read_table(text, Takes::Either)? {
        written.extend_from_slice(tree.canonical_text());
        ends.push(written.len() as u32);
    }
    Ok((written, ends))
}

/// The graph of a table with copies merged: only the first position of each
/// topology stands in pairs, and a later copy has count 0.
pub fn graph(text: &[u8]) -> Result<Graph, Refusal> {
    Ok(graph_of(&read_table(text, Takes::Either)?, Copies::Merged))
}

/// The graph of a table with copies kept apart: every position stands in pairs.
pub fn graph_with_copies(text: &[u8]) -> Result<Graph, Refusal> {
    Ok(graph_of(
        &read_table(text, Takes::Either)?,
        Copies::KeptApart,
    ))
}

/// The pairs of rooted trees one interchange apart, with copies kept apart.
pub fn interchanges(text: &[u8]) -> Result<Listing, Refusal> {
    let trees = read_table(text, Takes::RootedOnly)?;
    Ok(Topologies::of(&trees).listing(Copies::KeptApart, one_interchange_apart))
}

/// The merged graph of a table and the number of each tree's island: the
/// smallest position that a chain of listed pairs joins the first position of
/// its topology to, or that position itself.
pub fn islands(text: &[u8]) -> Result<Islands, Refusal> {
    let graph = graph(text)?;
    let joined = island_numbers(graph.firsts.len(), &graph.pairs);
    let of_first = |&first: &u16| joined[usize::from(first)];
    let numbers = graph.firsts.iter().map(of_first).collect();
    Ok(Islands { graph, numbers })
}

/// How many rooted trees of a table have each clade, copies counted, and the
/// majority tree: the clades of more than half of the trees, the one-label
/// clades and the whole label set.
pub fn support(text: &[u8]) -> Result<Support, Refusal> {
    let trees = read_table(text, Takes::RootedOnly)?;
    let rooted: Vec<&Rooted> = trees.iter().filter_map(Tree::rooted).collect();
    Ok(clades::support_of(&rooted))
}

/// The row of a text with exactly one tree, a rooted one: its label set, then
/// its clades of two or more labels in ascending order, bit `label - 1` for
/// each label.
pub fn row(text: &[u8]) -> Result<Vec<u64>, Refusal> {
    refuse_long_text(text, 0)?;
    let (tree, _) = read_one(text, 0, Takes::RootedOnly)?;
    Ok(tree.rooted().map(rows::row_of).unwrap_or_default())
}

/// The row and the column of each node of a text's one tree, a rooted one, in
/// the order in which they begin in the canonical text. Leaves have the rows 0,
/// 1, 2 and on, a fork half the sum of its children's; the column is the number
/// of forks above the node.
pub fn plot(text: &[u8]) -> Result<(Vec<f64>, Vec<u16>), Refusal> {
    refuse_long_text(text, 0)?;
    let (tree, _) = read_one(text, 0, Takes::RootedOnly)?;
    Ok(tree.rooted().map(Rooted::plot).unwrap_or_default())
}

/// The canonical text of the tree of a row.
pub fn row_text(row: &[u64]) -> Result<Vec<u8>, Refusal> {
    Ok(given_row(row, 0)?.canonical_text().to_vec())
}

/// Whether the trees of two rows are one move apart, and how many forests were
/// compared.
pub fn row_pair(row: &[u64], other: &[u64]) -> Result<Pair, Refusal> {
    let tree = given_row(row, 0)?;
    given_row(other, 1)?;
    if row[0] != other[0] {
        return Err(refused_row(OTHER_LABELS, 1));
    }
    Ok(rows::compared(row, &tree.pruned_clades(), other))
}

/// The tree of row number `which`.
fn given_row(row: &[u64], which: u8) -> Result<Rooted, Refusal> {
    rows::tree_of(row).ok_or(refused_row(NO_ROW, which))
}

fn refused_row(number: u8, which: u8) -> Refusal {
    Refusal {
        number,
        text: which,
        place: 0,
    }
}

/// Adds the tree of a text to the index that has this memory. Gives the tree's
/// number and the memory with it.
pub fn index_add(memory: &[u8], text: &[u8]) -> Result<(usize, Vec<u8>), Refusal> {
    refuse_long_text(text, 0)?;
    let mut index = Index::of_memory(memory)?;
    let number = index.add(text)?;
    Ok((number, index.memory()))
}

/// The neighbours of a tree of the index that has this memory.
pub fn index_neighbours(memory: &[u8], number: usize) -> Result<Vec<u16>, Refusal> {
    Index::of_memory(memory)?.neighbours(number)
}

/// Takes the tree with this number out of the index that has this memory. Gives
/// the memory without it.
pub fn index_remove(memory: &[u8], number: usize) -> Result<Vec<u8>, Refusal> {
    let mut index = Index::of_memory(memory)?;
    index.remove(number)?;
    Ok(index.memory())
}

/// The support of a table as text: the numbers of trees and clades, a line for
/// each clade with its number in base 16 and how many trees have it, and the
/// majority tree if there is one.
pub fn support_sheet(text: &[u8]) -> Vec<u8> {
    let mut out = Vec::new();
    write_support_sheet(text, &mut out).expect("writing to a vector does not fail");
    out
}

fn write_support_sheet(text: &[u8], out: &mut Vec<u8>) -> std::io::Result<()> {
    let support = match support(text) {
        Ok(support) => support,
        Err(refusal) => return write_refusal(refusal, out),
    };
    let (trees, clades) = (support.trees, support.clades.len());
    writeln!(out, "trees {trees} clades {clades}")?;
    for (clade, number) in support.clades {
        writeln!(out, "{clade:x} {number}")?;
    }
    if trees > 0 {
        out.extend_from_slice(&support.majority);
        out.push(b'\n');
    }
    Ok(())
}

/// The plots of rooted trees, each up to its `;`, as text: the numbers of trees
/// and nodes, and for each tree a line with the bits of each node's row and its
/// column.
pub fn plot_sheet(text: &[u8]) -> Vec<u8> {
    let mut out = Vec::new();
    write_plot_sheet(text, &mut out).expect("writing to a vector does not fail");
    out
}

fn write_plot_sheet(text: &[u8], out: &mut Vec<u8>) -> std::io::Result<()> {
    let mut plots = Vec::new();
    let mut start = 0;
    for tree in each_tree(text) {
        match plot(tree) {
            Ok(plot) => plots.push(plot),
            Err(refusal) => {
                let place = start + refusal.place;
                return write_refusal(Refusal { place, ..refusal }, out);
            }
        }
        start += tree.len();
    }
    let nodes: usize = plots.iter().map(|(rows, _)| rows.len()).sum();
    writeln!(out, "trees {} nodes {nodes}", plots.len())?;
    for (rows, columns) in plots {
        let places = rows.iter().zip(columns);
        let words: Vec<String> = places
            .map(|(row, column)| format!("{:016x}:{column}", row.to_bits()))
            .collect();
        writeln!(out, "{}", words.join(" "))?;
    }
    Ok(())
}

/// The pairs of a table of rooted trees that are one move apart, found by the
/// pair test on every two rows, as text: the numbers of trees and pairs, a line
/// for each pair.
pub fn row_sheet(text: &[u8]) -> Vec<u8> {
    let mut out = Vec::new();
    write_row_sheet(text, &mut out).expect("writing to a vector does not fail");
    out
}

fn write_row_sheet(text: &[u8], out: &mut Vec<u8>) -> std::io::Result<()> {
    let rows = match rows_of_table(text) {
        Ok(rows) => rows,
        Err(refusal) => return write_refusal(refusal, out),
    };
    let pairs: Vec<(u16, u16)> = every_two(rows.len())
        .filter(|&(i, j)| matches!(row_pair(&rows[i], &rows[j]), Ok(pair) if pair.apart))
        .map(|(i, j)| (i as u16, j as u16))
        .collect();
    writeln!(out, "trees {} pairs {}", rows.len(), pairs.len())?;
    write_pairs(&pairs, out)
}

/// The index of a table of rooted trees, added one after another, as text: the
/// numbers of trees and pairs, a line with the neighbours of each tree, and the
/// memory, its bytes in base 16; then, if there are trees, the memory without the
/// first.
pub fn index_sheet(text: &[u8]) -> Vec<u8> {
    let mut out = Vec::new();
    write_index_sheet(text, &mut out).expect("writing to a vector does not fail");
    out
}

fn write_index_sheet(text: &[u8], out: &mut Vec<u8>) -> std::io::Result<()> {
    let mut index = match index_of_table(text) {
        Ok(index) => index,
        Err(refusal) => return write_refusal(refusal, out),
    };
    let lists: Vec<Vec<u16>> = index
        .numbers()
        .filter_map(|number| index.neighbours(number).ok())
        .collect();
    let pairs = lists.iter().map(Vec::len).sum::<usize>() / 2;
    writeln!(out, "trees {} pairs {pairs}", lists.len())?;
    for (number, list) in index.numbers().zip(lists) {
        write!(out, "tree {number} neighbours")?;
        for neighbour in list {
            write!(out, " {neighbour}")?;
        }
        writeln!(out)?;
    }
    write_memory("memory", &index, out)?;
    if index.remove(0).is_ok() {
        write_memory("without 0", &index, out)?;
    }
    Ok(())
}

fn write_memory(name: &str, index: &Index, out: &mut Vec<u8>) -> std::io::Result<()> {
    write!(out, "{name} ")?;
    for byte in index.memory() {
        write!(out, "{byte:02x}")?;
    }
    writeln!(out)
}

/// The index to which the trees of a table are added one after another.
pub fn index_of_table(text: &[u8]) -> Result<Index, Refusal> {
    let mut index = Index::default();
    let mut start = 0;
    for tree in each_tree(text) {
        index.add(tree).map_err(|refusal| Refusal {
            place: start + refusal.place,
            ..refusal
        })?;
        start += tree.len();
    }
    Ok(index)
}

/// The parts of a text that end in `;`, each with one tree if the text has a
/// table.
pub fn each_tree(text: &[u8]) -> impl Iterator<Item = &[u8]> {
    let parts = text.split_inclusive(|&byte| byte == b';');
    parts.filter(|part| part.ends_with(b";"))
}

/// The rows of a table of rooted trees.
pub fn rows_of_table(text: &[u8]) -> Result<Vec<Vec<u64>>, Refusal> {
    let trees = read_table(text, Takes::RootedOnly)?;
    Ok(trees
        .iter()
        .filter_map(Tree::rooted)
        .map(rows::row_of)
        .collect())
}

/// Every two of so many positions, the smaller first.
pub fn every_two(positions: usize) -> impl Iterator<Item = (usize, usize)> {
    (0..positions).flat_map(move |i| (i + 1..positions).map(move |j| (i, j)))
}

/// The islands of a table as text: a line for each, in order of number, with
/// the number and how many trees are in it.
pub fn island_sheet(text: &[u8]) -> Vec<u8> {
    let mut out = Vec::new();
    write_island_sheet(text, &mut out).expect("writing to a vector does not fail");
    out
}

fn write_island_sheet(text: &[u8], out: &mut Vec<u8>) -> std::io::Result<()> {
    let islands = match islands(text) {
        Ok(islands) => islands,
        Err(refusal) => return write_refusal(refusal, out),
    };
    let mut sizes: BTreeMap<u16, usize> = BTreeMap::new();
    for number in islands.numbers {
        *sizes.entry(number).or_default() += 1;
    }
    for (number, size) in sizes {
        writeln!(out, "island {number} {size}")?;
    }
    Ok(())
}

/// The interchange graph of a table as text: the numbers of trees and pairs, a
/// line for each tree, a line for each pair.
pub fn interchange_sheet(text: &[u8]) -> Vec<u8> {
    let mut out = Vec::new();
    write_interchange_sheet(text, &mut out).expect("writing to a vector does not fail");
    out
}

fn write_interchange_sheet(text: &[u8], out: &mut Vec<u8>) -> std::io::Result<()> {
    let (pairs, counts) = match interchanges(text) {
        Ok(listing) => listing,
        Err(refusal) => return write_refusal(refusal, out),
    };
    writeln!(out, "trees {} pairs {}", counts.len(), pairs.len())?;
    for (i, neighbours) in counts.iter().enumerate() {
        writeln!(out, "tree {i} neighbours {neighbours}")?;
    }
    write_pairs(&pairs, out)
}

/// What the pair lister prints for this standard input.
pub fn sheet(text: &[u8]) -> Vec<u8> {
    let mut out = Vec::new();
    write_sheet(text, &mut out).expect("writing to a vector does not fail");
    out
}

fn write_sheet(text: &[u8], out: &mut Vec<u8>) -> std::io::Result<()> {
    let trees = match read_table(text, Takes::Either) {
        Ok(trees) => trees,
        Err(refusal) => return write_refusal(refusal, out),
    };
    let graph = graph_of(&trees, Copies::KeptApart);
    writeln!(out, "trees {} pairs {}", trees.len(), graph.pairs.len())?;
    let mut copies = vec![0; trees.len()];
    for &first in &graph.firsts {
        copies[usize::from(first)] += 1;
    }
    for (i, tree) in trees.iter().enumerate() {
        let neighbours = graph.counts[i];
        let of_its_topology = copies[usize::from(graph.firsts[i])];
        let unlinked = trees.len() - usize::from(neighbours) - of_its_topology;
        write!(out, "tree {i} neighbours {neighbours} unlinked {unlinked} ")?;
        out.extend_from_slice(tree.canonical_text());
        out.push(b'\n');
    }
    write_pairs(&graph.pairs, out)
}

fn write_pairs(pairs: &[(u16, u16)], out: &mut Vec<u8>) -> std::io::Result<()> {
    for (i, j) in pairs {
        writeln!(out, "pair {i} {j}")?;
    }
    Ok(())
}

fn write_refusal(refusal: Refusal, out: &mut Vec<u8>) -> std::io::Result<()> {
    writeln!(out, "refused {} at {}", refusal.number, refusal.place)
}

fn refuse_long_text(text: &[u8], which: u8) -> Result<(), Refusal> {
    if text.len() > MOST_BYTES {
        return Err(Refusal {
            number: TEXT_TOO_LONG,
            text: which,
            place: 0,
        });
    }
    Ok(())
}

/// Which kinds of trees a call takes.
#[derive(Clone, Copy, PartialEq, Eq)]
enum Takes {
    Either,
    RootedOnly,
}

/// Reads one tree, of a kind that is taken. Gives it and the place of its `;`.
fn read_taken(reader: &mut Reader, takes: Takes) -> Result<(Tree, usize), Refusal> {
    let (tree, semicolon) = reader.tree()?;
    if takes == Takes::RootedOnly && tree.rooted().is_none() {
        return Err(reader.refusal_at(OTHER_KIND, semicolon));
    }
    Ok((tree, semicolon))
}

/// Reads a text of exactly one tree. Gives it and the place of its `;`.
fn read_one(text: &[u8], which: u8, takes: Takes) -> Result<(Tree, usize), Refusal> {
    let mut reader = Reader::new(text, which);
    let (tree, semicolon) = read_taken(&mut reader, takes)?;
    match reader.next_token_byte() {
        Some(_) => Err(reader.refusal(BAD_BYTE)),
        None => Ok((tree, semicolon)),
    }
}

fn read_table(text: &[u8], takes: Takes) -> Result<Vec<Tree>, Refusal> {
    refuse_long_text(text, 0)?;
    let mut reader = Reader::new(text, 0);
    let mut trees: Vec<Tree> = Vec::new();
    while reader.next_token_byte().is_some() {
        if trees.len() == MOST_TREES {
            return Err(reader.refusal(TOO_MANY_TREES));
        }
        let (tree, semicolon) = read_taken(&mut reader, takes)?;
        if let Some(number) = trees.first().and_then(|first| unlike(first, &tree)) {
            return Err(reader.refusal_at(number, semicolon));
        }
        trees.push(tree);
    }
    Ok(trees)
}

/// Why a tree cannot stand beside the first one, if it cannot.
fn unlike(first: &Tree, tree: &Tree) -> Option<u8> {
    if first.rooted().is_some() != tree.rooted().is_some() {
        Some(OTHER_KIND)
    } else if first.labels() != tree.labels() {
        Some(OTHER_LABELS)
    } else {
        None
    }
}

/// Which positions stand in pairs: the first of each topology, or all.
#[derive(Clone, Copy)]
enum Copies {
    Merged,
    KeptApart,
}

/// For trees of different topologies: which of them are neighbours.
type Adjacency = Vec<Vec<bool>>;

/// The topologies of a table, numbered in order of first position.
///
/// As in document 001 a topology is inserted once, however often it occurs.
struct Topologies<'a> {
    /// The first tree of each, and its position.
    trees: Vec<&'a Tree>,
    positions: Vec<usize>,
    /// The number of the topology at each position of the table.
    numbers: Vec<usize>,
}

impl<'a> Topologies<'a> {
    fn of(table: &'a [Tree]) -> Topologies<'a> {
        let mut number_of: HashMap<&[u8], usize> = HashMap::new();
        let mut topologies = Topologies {
            trees: Vec::new(),
            positions: Vec::new(),
            numbers: Vec::with_capacity(table.len()),
        };
        for (position, tree) in table.iter().enumerate() {
            let next = topologies.trees.len();
            let number = *number_of.entry(tree.canonical_text()).or_insert(next);
            if number == next {
                topologies.trees.push(tree);
                topologies.positions.push(position);
            }
            topologies.numbers.push(number);
        }
        topologies
    }

    /// The first position of the topology at each position.
    fn firsts(&self) -> Vec<u16> {
        let first = |&number: &usize| self.positions[number] as u16;
        self.numbers.iter().map(first).collect()
    }

    /// The positions that can stand in pairs, in order.
    fn standing(&self, copies: Copies) -> Vec<usize> {
        match copies {
            Copies::Merged => self.positions.clone(),
            Copies::KeptApart => (0..self.numbers.len()).collect(),
        }
    }

    fn listing(&self, copies: Copies, adjacency: fn(&[&Tree]) -> Adjacency) -> Listing {
        let adjacent = adjacency(&self.trees);
        let standing = self.standing(copies);
        let mut pairs = Vec::new();
        let mut counts = vec![0; self.numbers.len()];
        for (k, &i) in standing.iter().enumerate() {
            for &j in &standing[k + 1..] {
                if adjacent[self.numbers[i]][self.numbers[j]] {
                    pairs.push((i as u16, j as u16));
                    counts[i] += 1;
                    counts[j] += 1;
                }
            }
        }
        (pairs, counts)
    }
}

fn graph_of(trees: &[Tree], copies: Copies) -> Graph {
    let topologies = Topologies::of(trees);
    let (pairs, counts) = topologies.listing(copies, sharing_a_forest);
    Graph {
        pairs,
        counts,
        firsts: topologies.firsts(),
    }
}

/// Neighbours by one move.
///
/// Trees that share several forests meet several times; in the matrix that is
/// still one entry.
fn sharing_a_forest(trees: &[&Tree]) -> Adjacency {
    let forests = trees.iter().map(|tree| tree.number_of_forests()).sum();
    let mut holders: HashMap<Vec<u8>, Vec<usize>> = HashMap::with_capacity(forests);
    let mut adjacent = vec![vec![false; trees.len()]; trees.len()];
    for (i, tree) in trees.iter().enumerate() {
        for forest in tree.forest_texts() {
            let sharing = holders.entry(forest).or_default();
            for &j in sharing.iter() {
                adjacent[i][j] = true;
                adjacent[j][i] = true;
            }
            sharing.push(i);
        }
    }
    adjacent
}

/// Neighbours by one interchange, which never gives the same topology again.
fn one_interchange_apart(trees: &[&Tree]) -> Adjacency {
    let number_of: HashMap<&[u8], usize> = trees
        .iter()
        .enumerate()
        .map(|(number, tree)| (tree.canonical_text(), number))
        .collect();
    let mut adjacent = vec![vec![false; trees.len()]; trees.len()];
    for (tree, neighbours) in trees.iter().zip(&mut adjacent) {
        for text in tree.rooted().iter().flat_map(|x| x.interchanged_texts()) {
            if let Some(&number) = number_of.get(text.as_slice()) {
                neighbours[number] = true;
            }
        }
    }
    adjacent
}

/// The island of each of so many positions.
///
/// Every position names one of its island that is not larger, and the smallest
/// of an island names itself.
fn island_numbers(positions: usize, pairs: &[(u16, u16)]) -> Vec<u16> {
    let mut named: Vec<usize> = (0..positions).collect();
    for &(i, j) in pairs {
        let one = smallest(&mut named, usize::from(i));
        let other = smallest(&mut named, usize::from(j));
        named[one.max(other)] = one.min(other);
    }
    (0..positions)
        .map(|position| smallest(&mut named, position) as u16)
        .collect()
}

/// Follows the names from a position to the one that names itself, and halves
/// the way there for the next time.
fn smallest(named: &mut [usize], mut position: usize) -> usize {
    while named[position] != position {
        named[position] = named[named[position]];
        position = named[position];
    }
    position
}
