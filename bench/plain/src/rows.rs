//! Rooted trees as rows of numbers: the label set, then the clades of two or
//! more labels in ascending order.
//!
//! A set of labels has bit `label - 1` for each. Two trees are compared by the
//! clades of their forests, as numbers.

use crate::rooted::Rooted;
use crate::tree::Subtree;
use crate::Pair;

pub fn row_of(tree: &Rooted) -> Vec<u64> {
    let mut clades = tree.clades();
    clades.sort_unstable();
    [vec![tree.labels()], clades].concat()
}

/// The tree that has this row, if one has.
pub fn tree_of(row: &[u64]) -> Option<Rooted> {
    let (&labels, clades) = row.split_first()?;
    let ascending = clades.windows(2).all(|two| two[0] < two[1]);
    if labels.count_ones() as usize != row.len() || !ascending {
        return None;
    }
    let mut forks = 0;
    let root = grown(labels, clades, &mut forks)?;
    (forks == clades.len()).then(|| Rooted::new(&root, labels))
}

/// The node with these labels, of which there is one or more, and all below it;
/// counts the forks. The child with the smallest label is the largest clade
/// that can be it, or that label alone; and each fork has to be a clade.
fn grown(labels: u64, clades: &[u64], forks: &mut usize) -> Option<Subtree> {
    let least = 1 << labels.trailing_zeros();
    if labels == least {
        return Some(Subtree::leaf(labels.trailing_zeros() as u8 + 1));
    }
    clades.binary_search(&labels).ok()?;
    *forks += 1;
    let below = |&&clade: &&u64| clade & least != 0 && clade & !labels == 0 && clade != labels;
    let child = clades.iter().rev().find(below).copied().unwrap_or(least);
    let first = grown(child, clades, forks)?;
    Some(Subtree::fork(first, grown(labels & !child, clades, forks)?))
}

/// The pair test on two rows, which have the same labels. `pruned` has the clades
/// that the cuts of the first tree prune, in order.
///
/// The trees are one move apart if they differ, and a cut of the one and one of
/// the other leave the same forest. In both the same clade is pruned then, so
/// that only the forests of such two cuts are compared.
pub fn compared(row: &[u64], pruned: &[u64], other: &[u64]) -> Pair {
    let mut found = Pair {
        apart: false,
        forests: 0,
    };
    if row == other {
        return found;
    }
    let in_both = |&&cut: &&u64| cut.count_ones() == 1 || other[1..].binary_search(&cut).is_ok();
    for &cut in pruned.iter().filter(in_both) {
        found.forests += 1;
        if forest(row, cut) == forest(other, cut) {
            found.apart = true;
            break;
        }
    }
    found
}

/// The clades of two or more labels of both parts of a forest, ascending.
fn forest(row: &[u64], cut: u64) -> Vec<u64> {
    let part = |&clade: &u64| {
        if clade & !cut == 0 {
            clade
        } else {
            clade & !cut
        }
    };
    let mut clades: Vec<u64> = row[1..].iter().map(part).collect();
    clades.retain(|clade| clade.count_ones() > 1);
    clades.sort_unstable();
    clades.dedup();
    clades
}
