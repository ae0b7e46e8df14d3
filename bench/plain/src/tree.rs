//! Trees of either kind, and what both are written with.

use crate::rooted::Rooted;
use crate::unrooted::Unrooted;
use crate::MOST_OPEN;

pub enum Tree {
    Rooted(Rooted),
    Unrooted(Unrooted),
}

impl Tree {
    /// The tree if it is a rooted one.
    pub fn rooted(&self) -> Option<&Rooted> {
        match self {
            Tree::Rooted(tree) => Some(tree),
            Tree::Unrooted(_) => None,
        }
    }

    /// The label set, bit `label - 1` for each.
    pub fn labels(&self) -> u64 {
        match self {
            Tree::Rooted(tree) => tree.labels(),
            Tree::Unrooted(tree) => tree.labels(),
        }
    }

    /// The canonical text, `;` included, with the mark of an unrooted tree.
    pub fn canonical_text(&self) -> &[u8] {
        match self {
            Tree::Rooted(tree) => tree.canonical_text(),
            Tree::Unrooted(tree) => tree.canonical_text(),
        }
    }

    pub fn number_of_forests(&self) -> usize {
        match self {
            Tree::Rooted(tree) => tree.number_of_cuts(),
            Tree::Unrooted(tree) => tree.cuts().count(),
        }
    }

    /// The forest texts of all cuts.
    pub fn forest_texts(&self) -> Box<dyn Iterator<Item = Vec<u8>> + '_> {
        match self {
            Tree::Rooted(tree) => Box::new(tree.forest_texts()),
            Tree::Unrooted(tree) => Box::new(tree.forest_texts()),
        }
    }
}

/// A node as it is read, with its children already in canonical order.
pub struct Subtree {
    /// Smallest label at and below the node; of a leaf, its label.
    pub least: u8,
    pub children: Option<Box<[Subtree; 2]>>,
}

impl Subtree {
    pub fn leaf(label: u8) -> Subtree {
        Subtree {
            least: label,
            children: None,
        }
    }

    pub fn fork(one: Subtree, other: Subtree) -> Subtree {
        let children = if one.least < other.least {
            [one, other]
        } else {
            [other, one]
        };
        Subtree {
            least: children[0].least,
            children: Some(Box::new(children)),
        }
    }
}

/// A part of a tree: its smallest label and its canonical text.
pub type Part<'a> = (u8, &'a [u8]);

/// The canonical text of a fork of two parts.
pub fn fork_text(one: Part, other: Part) -> Vec<u8> {
    // Smallest labels differ, so the texts are not compared.
    let (first, second) = (one.min(other).1, one.max(other).1);
    [&b"("[..], first, b",", second, b")"].concat()
}

/// Parts joined one after another: a fork of the first two, a fork of that and
/// the third, and so on.
pub struct Joined<'a> {
    least: u8,
    nearest: &'a [u8],
    /// The further parts, and whether each comes first in its fork.
    further: Vec<(&'a [u8], bool)>,
}

impl<'a> Joined<'a> {
    pub fn of(nearest: Part<'a>) -> Joined<'a> {
        Joined {
            least: nearest.0,
            nearest: nearest.1,
            further: Vec::with_capacity(MOST_OPEN),
        }
    }

    pub fn with(&mut self, part: Part<'a>) {
        self.further.push((part.1, part.0 < self.least));
        self.least = self.least.min(part.0);
    }

    /// Adds the canonical text.
    pub fn write(&self, out: &mut Vec<u8>) {
        for &(text, comes_first) in self.further.iter().rev() {
            out.push(b'(');
            if comes_first {
                out.extend_from_slice(text);
                out.push(b',');
            }
        }
        out.extend_from_slice(self.nearest);
        for &(text, comes_first) in &self.further {
            if !comes_first {
                out.push(b',');
                out.extend_from_slice(text);
            }
            out.push(b')');
        }
    }
}

pub fn add_label(label: u8, out: &mut Vec<u8>) {
    if label >= 10 {
        out.push(b'0' + label / 10);
    }
    out.push(b'0' + label % 10);
}
