//! Rooted trees, their canonical texts, their clades, their forests and their
//! interchanges.

use std::ops::Range;

use crate::tree::{add_label, fork_text, Joined, Part, Subtree};

/// A rooted binary tree with its canonical text.
#[derive(Clone)]
pub struct Rooted {
    text: Vec<u8>,
    /// In the order in which the nodes begin in the text. The root is node 0,
    /// so cut `c` is at node `c + 1`.
    nodes: Vec<Node>,
    labels: u64,
}

#[derive(Clone)]
struct Node {
    least: u8,
    /// Where the node stands in the canonical text.
    text: Range<usize>,
    /// Parent and sibling; the root has none.
    above: Option<(usize, usize)>,
}

impl Rooted {
    /// The tree with this root and this label set, bit `label - 1` for each
    /// label.
    pub fn new(root: &Subtree, labels: u64) -> Rooted {
        let mut tree = Rooted {
            text: Vec::new(),
            nodes: Vec::new(),
            labels,
        };
        tree.add(root);
        tree.text.push(b';');
        tree
    }

    /// Writes a subtree at the end of the text and gives its root's index.
    fn add(&mut self, subtree: &Subtree) -> usize {
        let index = self.nodes.len();
        let start = self.text.len();
        self.nodes.push(Node {
            least: subtree.least,
            text: start..start,
            above: None,
        });
        match &subtree.children {
            None => add_label(subtree.least, &mut self.text),
            Some(children) => {
                self.text.push(b'(');
                let first = self.add(&children[0]);
                self.text.push(b',');
                let second = self.add(&children[1]);
                self.text.push(b')');
                self.nodes[first].above = Some((index, second));
                self.nodes[second].above = Some((index, first));
            }
        }
        self.nodes[index].text.end = self.text.len();
        index
    }

    pub fn labels(&self) -> u64 {
        self.labels
    }

    /// The canonical text, `;` included.
    pub fn canonical_text(&self) -> &[u8] {
        &self.text
    }

    /// The row and the column of each node, in the order of the nodes.
    pub fn plot(&self) -> (Vec<f64>, Vec<u16>) {
        // A node stands behind its parent, and the leaves by their rows.
        let mut columns: Vec<u16> = Vec::with_capacity(self.nodes.len());
        for node in &self.nodes {
            columns.push(node.above.map_or(0, |(parent, _)| columns[parent] + 1));
        }
        let mut rows = vec![0.0; self.nodes.len()];
        let mut leaves = self.labels.count_ones();
        for (index, node) in self.nodes.iter().enumerate().rev() {
            rows[index] = if self.text[node.text.start] == b'(' {
                // The first child is the next node, which knows its sibling.
                let second = self.nodes[index + 1]
                    .above
                    .map_or(0, |(_, sibling)| sibling);
                (rows[index + 1] + rows[second]) * 0.5
            } else {
                leaves -= 1;
                f64::from(leaves)
            };
        }
        (rows, columns)
    }

    /// The label sets of all forks, bit `label - 1` for each label.
    pub fn clades(&self) -> Vec<u64> {
        let mut sets = self.node_clades();
        sets.retain(|set: &u64| set.count_ones() > 1);
        sets
    }

    /// The label set that each cut prunes, in order of the cuts.
    pub fn pruned_clades(&self) -> Vec<u64> {
        self.node_clades().split_off(1)
    }

    /// The label set of each node, the root's first.
    fn node_clades(&self) -> Vec<u64> {
        let mut sets = vec![0; self.nodes.len()];
        // A node stands before those below it, so a set is complete when it is
        // reached from behind; a leaf's is still empty then.
        for (index, node) in self.nodes.iter().enumerate().rev() {
            if sets[index] == 0 {
                sets[index] = 1 << (node.least - 1);
            }
            if let Some((parent, _)) = node.above {
                sets[parent] |= sets[index];
            }
        }
        sets
    }

    pub fn number_of_cuts(&self) -> usize {
        self.nodes.len() - 1
    }

    /// The forest texts of all cuts in order.
    pub fn forest_texts(&self) -> impl Iterator<Item = Vec<u8>> + '_ {
        (0..self.number_of_cuts()).map(|cut| self.forest_text(cut))
    }

    /// The forest text of a cut, which must be below the number of cuts.
    ///
    /// What the cut leaves is the sibling of the pruned node, joined with the
    /// sibling of the node above, and so on up to the root. Each sibling is a
    /// whole subtree and keeps its canonical text.
    pub fn forest_text(&self, cut: usize) -> Vec<u8> {
        let pruned = cut + 1;
        let (mut node, nearest) = self.nodes[pruned].above.expect("a cut is not at the root");
        let mut remainder = Joined::of(self.part(nearest));
        while let Some((parent, sibling)) = self.nodes[node].above {
            remainder.with(self.part(sibling));
            node = parent;
        }

        // A forest text has a fork less than the tree's text, and a space.
        let mut out = Vec::with_capacity(self.text.len());
        remainder.write(&mut out);
        out.push(b' ');
        out.extend_from_slice(self.node_text(pruned));
        out.push(b';');
        out
    }

    /// The canonical texts of all trees that one interchange makes.
    pub fn interchanged_texts(&self) -> impl Iterator<Item = Vec<u8>> + '_ {
        (0..self.nodes.len()).filter_map(|node| self.interchanged_text(node))
    }

    /// The canonical text after a node is regrafted above its aunt. The root
    /// and its children have none.
    ///
    /// The sibling moves up to the place of the parent, next to a new fork of
    /// the aunt and the node. The grandparent keeps its labels, so that the
    /// text around it stays.
    fn interchanged_text(&self, node: usize) -> Option<Vec<u8>> {
        let (parent, sibling) = self.nodes[node].above?;
        let (grandparent, aunt) = self.nodes[parent].above?;
        let new_fork = fork_text(self.part(aunt), self.part(node));
        let new_least = self.nodes[aunt].least.min(self.nodes[node].least);
        let changed = fork_text(self.part(sibling), (new_least, &new_fork));
        let place = &self.nodes[grandparent].text;
        Some([&self.text[..place.start], &changed, &self.text[place.end..]].concat())
    }

    fn part(&self, node: usize) -> Part<'_> {
        (self.nodes[node].least, self.node_text(node))
    }

    /// The canonical text of each node, the root's first.
    pub fn node_texts(&self) -> impl Iterator<Item = &[u8]> {
        (0..self.nodes.len()).map(|node| self.node_text(node))
    }

    fn node_text(&self, node: usize) -> &[u8] {
        &self.text[self.nodes[node].text.clone()]
    }
}
