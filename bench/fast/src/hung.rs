//! The nodes of an unrooted tree, hung from its smallest label.

use crate::tree::{mixed, Node};

/// A node and what is below it, of nodes that are numbered on from `start`.
#[derive(Clone, Copy)]
struct Part<'a> {
    nodes: &'a [Node],
    start: usize,
}

impl Part<'_> {
    fn smallest(&self) -> u32 {
        self.nodes[0].clade.trailing_zeros()
    }

    /// The parts at the children, the one with the smallest label first. A leaf
    /// has none.
    fn children(&self) -> Option<(Self, Self)> {
        if self.nodes.len() == 1 {
            return None;
        }
        let second = self.nodes[0].second - self.start;
        let one = Part {
            nodes: &self.nodes[1..second],
            start: self.start + 1,
        };
        let other = Part {
            nodes: &self.nodes[second..],
            start: self.start + second,
        };
        if one.smallest() < other.smallest() {
            Some((one, other))
        } else {
            Some((other, one))
        }
    }

    /// Puts the part behind the nodes, below this one.
    fn copy(&self, parent: usize, nodes: &mut Vec<Node>) {
        let at = nodes.len();
        for (i, &node) in self.nodes.iter().enumerate() {
            let moved = |place: usize| place - self.start + at;
            nodes.push(Node {
                second: if node.second == 0 {
                    0
                } else {
                    moved(node.second)
                },
                parent: if i == 0 { parent } else { moved(node.parent) },
                ..node
            });
        }
    }
}

/// The nodes of the tree with these at its top, each with what is below it: three
/// of them, or two leaves, or one.
pub fn hung(top: &[Vec<Node>]) -> Vec<Node> {
    let (leaf, off) = way_to_the_smallest(top);
    if off.is_empty() {
        return vec![leaf];
    }
    // Below the root are the leaf and the forks of what hangs off, of which each
    // has the next as its first child; the last has the first two parts.
    let forks = off.len() - 1;
    let size = 2 + forks + off.iter().map(|part| part.nodes.len()).sum::<usize>();
    let mut nodes = Vec::with_capacity(size);
    nodes.extend([Node::default(), Node { parent: 0, ..leaf }]);
    for at in 2..2 + forks {
        let parent = if at == 2 { 0 } else { at - 1 };
        nodes.push(Node {
            parent,
            ..Node::default()
        });
    }
    let last = if forks == 0 { 0 } else { 1 + forks };
    off[0].copy(last, &mut nodes);
    for (part, fork) in off[1..].iter().zip((2..2 + forks).rev()) {
        let second = nodes.len();
        part.copy(fork, &mut nodes);
        close(fork, second, &mut nodes);
    }
    close(0, 2, &mut nodes);
    nodes
}

/// The smallest leaf, and the parts off the way to it, from the top on.
fn way_to_the_smallest(top: &[Vec<Node>]) -> (Node, Vec<Part<'_>>) {
    let mut off: Vec<Part> = top.iter().map(|nodes| Part { nodes, start: 0 }).collect();
    let smallest = (0..off.len()).min_by_key(|&i| off[i].smallest());
    let mut way = off.swap_remove(smallest.expect("a node is at the top"));
    while let Some((on, beside)) = way.children() {
        off.push(beside);
        way = on;
    }
    (way.nodes[0], off)
}

/// Gives a fork its second child, with which it is complete.
fn close(fork: usize, second: usize, nodes: &mut [Node]) {
    let (one, other) = (nodes[fork + 1], nodes[second]);
    let node = &mut nodes[fork];
    node.second = second;
    node.clade = one.clade | other.clade;
    node.print = one
        .print
        .wrapping_add(other.print)
        .wrapping_add(mixed(node.clade));
}
