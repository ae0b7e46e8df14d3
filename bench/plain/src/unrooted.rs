//! Unrooted trees, their canonical texts and their forests.

use crate::tree::{add_label, fork_text, Joined, Part, Subtree};

/// An unrooted binary tree as a graph, with its canonical text.
pub struct Unrooted {
    text: Vec<u8>,
    labels: u64,
    nodes: Vec<Node>,
    /// The node that each edge leads to. Edge `e` and edge `e ^ 1` are one edge
    /// in its two directions.
    edges: Vec<usize>,
}

struct Node {
    /// A leaf's label.
    label: Option<u8>,
    /// The edges that lead away: one for a leaf, three for any other node.
    away: Vec<usize>,
}

/// What an edge leads to: the smallest label there, and the canonical text of that
/// side, rooted at its end.
struct Side {
    least: u8,
    text: Vec<u8>,
}

impl Side {
    fn part(&self) -> Part<'_> {
        (self.least, &self.text)
    }
}

impl Unrooted {
    /// The tree with these nodes at the top, three of them, or two leaves, or
    /// one, and this label set, bit `label - 1` for each label.
    pub fn new(top: &[Subtree], labels: u64) -> Unrooted {
        let mut tree = Unrooted {
            text: Vec::new(),
            labels,
            nodes: Vec::new(),
            edges: Vec::new(),
        };
        match top {
            [leaf] => {
                tree.add(leaf);
            }
            [one, other] => {
                let (one, other) = (tree.add(one), tree.add(other));
                tree.join(one, other);
            }
            nodes => {
                tree.add_node(None, nodes);
            }
        }
        tree.text = [&b"[&U]"[..], &tree.whole_text(), b";"].concat();
        tree
    }

    /// Adds a subtree and gives its root's index.
    fn add(&mut self, subtree: &Subtree) -> usize {
        match &subtree.children {
            None => self.add_node(Some(subtree.least), &[]),
            Some(children) => self.add_node(None, &children[..]),
        }
    }

    fn add_node(&mut self, label: Option<u8>, below: &[Subtree]) -> usize {
        let index = self.nodes.len();
        let away = Vec::new();
        self.nodes.push(Node { label, away });
        for subtree in below {
            let child = self.add(subtree);
            self.join(index, child);
        }
        index
    }

    fn join(&mut self, one: usize, other: usize) {
        for (from, to) in [(one, other), (other, one)] {
            self.nodes[from].away.push(self.edges.len());
            self.edges.push(to);
        }
    }

    /// The canonical text without mark and `;`.
    fn whole_text(&self) -> Vec<u8> {
        let least = self.labels.trailing_zeros() as u8 + 1;
        let mut nodes = self.nodes.iter();
        let leaf = nodes.find(|node| node.label == Some(least));
        let away = leaf.and_then(|leaf| leaf.away.first());
        let mut known = self.nothing_known();
        match away.and_then(|&edge| self.look_along(edge, &mut known)) {
            Some(side) => text_beside(least, &side.text),
            None => label_text(least),
        }
    }

    /// The label of the leaf that an edge leads to, if it is one.
    fn label_at(&self, edge: usize) -> Option<u8> {
        self.nodes[self.edges[edge]].label
    }

    /// The two edges that lead on from where an edge leads to, which is no leaf.
    fn onward(&self, edge: usize) -> [usize; 2] {
        let away = &self.nodes[self.edges[edge]].away;
        let mut on = away.iter().copied().filter(|&other| other != edge ^ 1);
        [(); 2].map(|_| on.next().expect("three edges lead away"))
    }

    fn nothing_known(&self) -> Vec<Option<Side>> {
        self.edges.iter().map(|_| None).collect()
    }

    /// What each edge leads to.
    fn sides(&self) -> Vec<Side> {
        let mut known = self.nothing_known();
        for edge in 0..self.edges.len() {
            self.look_along(edge, &mut known);
        }
        known.into_iter().flatten().collect()
    }

    /// What an edge leads to, found unless it is known.
    fn look_along<'a>(&self, edge: usize, known: &'a mut [Option<Side>]) -> Option<&'a Side> {
        if known[edge].is_none() {
            known[edge] = match self.label_at(edge) {
                Some(label) => Some(leaf_side(label)),
                None => {
                    let [one, other] = self.onward(edge);
                    self.look_along(one, known);
                    self.look_along(other, known);
                    let both = known[one].as_ref().zip(known[other].as_ref());
                    both.map(|(one, other)| fork_side(one, other))
                }
            };
        }
        known[edge].as_ref()
    }

    pub fn labels(&self) -> u64 {
        self.labels
    }

    /// The canonical text, mark and `;` included.
    pub fn canonical_text(&self) -> &[u8] {
        &self.text
    }

    /// The cuts: each edge in each direction, where the side that it leads to is
    /// moved. A leaf that stays has no edge that the other side could be joined
    /// to.
    pub fn cuts(&self) -> impl Iterator<Item = usize> + '_ {
        (0..self.edges.len()).filter(|edge| self.label_at(edge ^ 1).is_none())
    }

    /// The forest texts of all cuts.
    pub fn forest_texts(&self) -> impl Iterator<Item = Vec<u8>> + '_ {
        let sides = self.sides();
        self.cuts().map(move |cut| self.forest_text(cut, &sides))
    }

    /// The side that stays as the text of an unrooted tree, a space, the side
    /// that is moved, rooted at its cut end, and `;`.
    ///
    /// The side that stays is closed up where it was cut. From there it goes on
    /// to its smallest label, beside which is what hangs off that way.
    fn forest_text(&self, cut: usize, sides: &[Side]) -> Vec<u8> {
        let in_order = |edges: [usize; 2]| {
            let [one, other] = edges;
            if sides[one].least < sides[other].least {
                [one, other]
            } else {
                [other, one]
            }
        };
        let [mut edge, beside] = in_order(self.onward(cut ^ 1));
        let mut rest = Joined::of(sides[beside].part());
        while self.label_at(edge).is_none() {
            let [on, beside] = in_order(self.onward(edge));
            rest.with(sides[beside].part());
            edge = on;
        }
        let mut text = Vec::with_capacity(self.text.len());
        rest.write(&mut text);
        let stays = text_beside(sides[edge].least, &text);
        [&stays[..], b" ", &sides[cut].text, b";"].concat()
    }
}

fn leaf_side(label: u8) -> Side {
    Side {
        least: label,
        text: label_text(label),
    }
}

fn fork_side(one: &Side, other: &Side) -> Side {
    Side {
        least: one.least.min(other.least),
        text: fork_text(one.part(), other.part()),
    }
}

/// The text of an unrooted tree, without mark and `;`, from its smallest label
/// and what the edge there leads to: the top is the node that it leads to, or
/// there are two leaves.
fn text_beside(least: u8, rest: &[u8]) -> Vec<u8> {
    let inner = rest.strip_prefix(b"(").and_then(|x| x.strip_suffix(b")"));
    let mut out = Vec::with_capacity(rest.len() + 4);
    out.push(b'(');
    add_label(least, &mut out);
    out.push(b',');
    out.extend_from_slice(inner.unwrap_or(rest));
    out.push(b')');
    out
}

fn label_text(label: u8) -> Vec<u8> {
    let mut text = Vec::new();
    add_label(label, &mut text);
    text
}
