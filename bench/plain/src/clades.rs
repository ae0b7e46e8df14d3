//! How many trees have each clade, and the majority tree.
//!
//! A clade is a set of labels, bit `label - 1` for each.

use std::cmp::Reverse;
use std::collections::HashMap;

use crate::rooted::Rooted;
use crate::{Support, LARGEST_LABEL};

pub fn support_of(trees: &[&Rooted]) -> Support {
    let mut numbers: HashMap<u64, u16> = HashMap::new();
    for clade in trees.iter().flat_map(|tree| tree.clades()) {
        *numbers.entry(clade).or_default() += 1;
    }
    let mut clades: Vec<(u64, u16)> = numbers.into_iter().collect();
    clades.sort_by_cached_key(|&(clade, number)| (Reverse(number), labels_of(clade)));
    let majority = match trees.first() {
        Some(tree) => majority_text(tree.labels(), trees.len(), &clades),
        None => Vec::new(),
    };
    Support {
        trees: trees.len(),
        clades,
        majority,
    }
}

/// The labels of a set, ascending.
fn labels_of(set: u64) -> Vec<u8> {
    (1..=LARGEST_LABEL)
        .filter(|label| set >> (label - 1) & 1 == 1)
        .collect()
}

/// The text of the tree of those clades that more than half of the trees have.
fn majority_text(labels: u64, trees: usize, clades: &[(u64, u16)]) -> Vec<u8> {
    let mut kept: Vec<u64> = clades
        .iter()
        .filter(|&&(_, number)| 2 * usize::from(number) > trees)
        .map(|&(clade, _)| clade)
        .collect();
    // Large ones first, so that a child is met before what is below it.
    kept.sort_by_key(|clade| Reverse(clade.count_ones()));
    let mut text = Vec::new();
    write_node(labels, &kept, &mut text);
    text.push(b';');
    text
}

/// Writes the node with these labels. Each child is the largest kept clade in
/// it that has the smallest label left, or that label alone.
fn write_node(labels: u64, kept: &[u64], text: &mut Vec<u8>) {
    if labels.count_ones() == 1 {
        let label = labels.trailing_zeros() + 1;
        text.extend_from_slice(label.to_string().as_bytes());
        return;
    }
    let mut left = labels;
    while left != 0 {
        text.push(if left == labels { b'(' } else { b',' });
        let least = 1 << left.trailing_zeros();
        let below = |&&clade: &&u64| clade & least != 0 && clade & !labels == 0 && clade != labels;
        let child = kept.iter().find(below).copied().unwrap_or(least);
        write_node(child, kept, text);
        left &= !child;
    }
    text.push(b')');
}
