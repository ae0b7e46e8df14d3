//! Which topologies share a forest: each forest's print is entered into a table
//! of chains, where it meets the same forest of the trees before it.

use crate::tree::Tree;
use crate::MOST_TREES;

const SLOTS: usize = 1 << 15;
const NONE: u32 = u32::MAX;

struct Entry {
    print: u64,
    tree: usize,
    /// The entry before it in its chain.
    next: u32,
}

/// Which trees of a table are neighbours; all topologies differ.
pub struct Neighbours {
    marks: Vec<bool>,
}

impl Neighbours {
    pub fn of(trees: &[&Tree]) -> Neighbours {
        let mut marks = vec![false; MOST_TREES * MOST_TREES];
        let mut heads = vec![NONE; SLOTS];
        let mut entries: Vec<Entry> =
            Vec::with_capacity(trees.iter().map(|tree| tree.nodes.len()).sum());
        for (i, tree) in trees.iter().enumerate() {
            for print in tree.forests() {
                let slot = print as usize % SLOTS;
                let mut next = heads[slot];
                entries.push(Entry {
                    print,
                    tree: i,
                    next,
                });
                heads[slot] = (entries.len() - 1) as u32;
                while next != NONE {
                    let entry = &entries[next as usize];
                    // Two cuts of one tree may leave the same forest.
                    if entry.print == print && entry.tree != i {
                        marks[entry.tree * MOST_TREES + i] = true;
                    }
                    next = entry.next;
                }
            }
        }
        Neighbours { marks }
    }

    /// Whether two trees are neighbours, in either order.
    pub fn are(&self, i: usize, j: usize) -> bool {
        self.marks[i.min(j) * MOST_TREES + i.max(j)]
    }
}
