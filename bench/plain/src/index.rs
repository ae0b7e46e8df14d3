//! An index of forests: an entry for every cut of the held trees, in one vector
//! that is sorted by forest text, then tree, then cut.
//!
//! The memory of an index has the same trees and entries as bytes: 160 slots of
//! 127, a byte for each node of a tree, then two bytes for each entry, then
//! zeros. It is read by making it anew from the trees in its slots.

use std::collections::{BTreeMap, BTreeSet};

use crate::rooted::Rooted;
use crate::tree::{Subtree, Tree};
use crate::{read_one, refuse_long_text, Refusal, Takes, LARGEST_LABEL, MOST_TREES};
use crate::{NOT_HELD, NO_INDEX, OTHER_KIND, OTHER_LABELS, TOO_MANY_TREES};

/// Bytes of a slot: a tree of 64 leaves has this many nodes.
const SLOT: usize = 127;
const ENTRIES_AT: usize = MOST_TREES * SLOT;
/// Bytes of an index in memory.
pub const INDEX_BYTES: usize = ENTRIES_AT + 2 * MOST_TREES * (SLOT - 1);
/// A fork's byte is this and the number of its leaves.
const FORK: u8 = LARGEST_LABEL;

/// A forest text, the number of the tree and the cut.
type Entry = (Vec<u8>, u8, u8);

#[derive(Clone, Default)]
pub struct Index {
    /// Those that are held, by number.
    trees: BTreeMap<u8, Rooted>,
    entries: Vec<Entry>,
}

impl Index {
    /// The index that has this memory, of which there is enough.
    pub fn of_memory(memory: &[u8]) -> Result<Index, Refusal> {
        trees_in(&memory[..ENTRIES_AT])
            .map(Index::of_trees)
            .filter(|index| index.memory() == memory[..INDEX_BYTES])
            .ok_or(refusal(NO_INDEX, 0))
    }

    fn of_trees(trees: BTreeMap<u8, Rooted>) -> Index {
        let each = trees.iter();
        let mut entries: Vec<Entry> = each.flat_map(|(&x, tree)| entries_of(x, tree)).collect();
        entries.sort_unstable();
        Index { trees, entries }
    }

    pub fn memory(&self) -> Vec<u8> {
        let mut memory = vec![0; INDEX_BYTES];
        for (&number, tree) in &self.trees {
            let at = usize::from(number) * SLOT;
            memory[at..at + SLOT].copy_from_slice(&slot_of(tree));
        }
        let entries = memory[ENTRIES_AT..].chunks_exact_mut(2);
        for (bytes, &(_, number, cut)) in entries.zip(&self.entries) {
            bytes.copy_from_slice(&[number, cut]);
        }
        memory
    }

    /// The numbers of the held trees, ascending.
    pub fn numbers(&self) -> impl Iterator<Item = usize> + '_ {
        self.trees.keys().copied().map(usize::from)
    }

    /// Adds the one tree of a text, and gives its number, the smallest free one.
    pub fn add(&mut self, text: &[u8]) -> Result<usize, Refusal> {
        refuse_long_text(text, 0)?;
        let (tree, semicolon) = read_one(text, 0, Takes::Either)?;
        let number = (0..MOST_TREES as u8)
            .find(|number| !self.trees.contains_key(number))
            .ok_or(refusal(TOO_MANY_TREES, 0))?;
        let tree = match tree {
            Tree::Rooted(tree) => tree,
            Tree::Unrooted(_) => return Err(refusal(OTHER_KIND, semicolon)),
        };
        if !alike(self.trees.values().take(1).chain([&tree])) {
            return Err(refusal(OTHER_LABELS, semicolon));
        }
        self.insert(entries_of(number, &tree));
        self.trees.insert(number, tree);
        Ok(number.into())
    }

    /// Puts entries between those that are there.
    fn insert(&mut self, mut new: Vec<Entry>) {
        new.sort_unstable();
        let mut all = Vec::with_capacity(self.entries.len() + new.len());
        let mut rest = std::mem::take(&mut self.entries).into_iter();
        for entry in new {
            let before = rest.as_slice().partition_point(|other| *other < entry);
            all.extend(rest.by_ref().take(before));
            all.push(entry);
        }
        all.extend(rest);
        self.entries = all;
    }

    /// The numbers of the trees that are one move from the tree with this one,
    /// ascending: they share a forest with it, and are no copies.
    pub fn neighbours(&self, number: usize) -> Result<Vec<u16>, Refusal> {
        let tree = &self.trees[&self.held(number)?];
        let mut sharing = BTreeSet::new();
        for forest in tree.forest_texts() {
            let first = self.entries.partition_point(|entry| entry.0 < forest);
            let from_first = self.entries[first..].iter();
            let same = from_first.take_while(|entry| entry.0 == forest);
            sharing.extend(same.map(|entry| entry.1));
        }
        sharing.retain(|x| self.trees[x].canonical_text() != tree.canonical_text());
        Ok(sharing.into_iter().map(u16::from).collect())
    }

    /// Takes the tree with this number out, and its entries.
    pub fn remove(&mut self, number: usize) -> Result<(), Refusal> {
        let number = self.held(number)?;
        self.trees.remove(&number);
        self.entries.retain(|entry| entry.1 != number);
        Ok(())
    }

    /// The number, if a tree has it.
    fn held(&self, number: usize) -> Result<u8, Refusal> {
        u8::try_from(number)
            .ok()
            .filter(|x| self.trees.contains_key(x))
            .ok_or(refusal(NOT_HELD, 0))
    }
}

fn refusal(number: u8, place: usize) -> Refusal {
    Refusal {
        number,
        text: 0,
        place,
    }
}

fn entries_of(number: u8, tree: &Rooted) -> Vec<Entry> {
    let cuts = tree.forest_texts().zip(0..);
    cuts.map(|(forest, cut)| (forest, number, cut)).collect()
}

/// Whether all have the labels of the first.
fn alike<'a>(trees: impl Iterator<Item = &'a Rooted>) -> bool {
    let labels: BTreeSet<u64> = trees.map(Rooted::labels).collect();
    labels.len() <= 1
}

/// The trees of all slots, if each is zeros or has one, and they have the same
/// labels.
fn trees_in(slots: &[u8]) -> Option<BTreeMap<u8, Rooted>> {
    let mut trees = BTreeMap::new();
    for (number, slot) in (0..).zip(slots.chunks_exact(SLOT)) {
        if slot != [0; SLOT] {
            trees.insert(number, tree_of(slot)?);
        }
    }
    alike(trees.values()).then_some(trees)
}

/// The tree that has this slot, if one has.
fn tree_of(slot: &[u8]) -> Option<Rooted> {
    let mut labels = 0;
    let root = node(&mut slot.iter().copied(), &mut labels)?;
    let tree = Rooted::new(&root, labels);
    (slot_of(&tree) == slot).then_some(tree)
}

/// The next node and all below it, without looking at how many leaves a fork is
/// said to have. Adds the labels, none of which may be there already.
fn node(bytes: &mut impl Iterator<Item = u8>, labels: &mut u64) -> Option<Subtree> {
    let byte = bytes.next().filter(|&byte| byte > 0)?;
    if byte > FORK {
        let one = node(bytes, labels)?;
        return Some(Subtree::fork(one, node(bytes, labels)?));
    }
    let label = 1 << (byte - 1);
    if *labels & label != 0 {
        return None;
    }
    *labels |= label;
    Some(Subtree::leaf(byte))
}

fn slot_of(tree: &Rooted) -> Vec<u8> {
    let mut bytes: Vec<u8> = tree.node_texts().map(byte_of).collect();
    bytes.resize(SLOT, 0);
    bytes
}

/// The byte of a node with this text.
fn byte_of(node: &[u8]) -> u8 {
    match node.iter().filter(|&&byte| byte == b',').count() {
        0 => node.iter().fold(0, |x, digit| 10 * x + (digit - b'0')),
        commas => FORK + commas as u8 + 1,
    }
}
