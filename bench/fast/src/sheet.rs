//! The sheet, copies of a topology kept apart.

use std::collections::HashMap;

use crate::forests::Neighbours;
use crate::tree::Tree;

pub fn sheet(trees: &[Tree]) -> Vec<u8> {
    let mut number_of: HashMap<u64, usize> = HashMap::new();
    let mut distinct: Vec<&Tree> = Vec::new();
    let mut copies: Vec<usize> = Vec::new();
    let mut topology = Vec::with_capacity(trees.len());
    for tree in trees {
        let number = *number_of.entry(tree.print()).or_insert(distinct.len());
        if number == distinct.len() {
            distinct.push(tree);
            copies.push(0);
        }
        copies[number] += 1;
        topology.push(number);
    }
    let neighbours = Neighbours::of(&distinct);
    let mut counts = vec![0; trees.len()];
    let mut pairs = Vec::new();
    for i in 0..trees.len() {
        for j in i + 1..trees.len() {
            if neighbours.are(topology[i], topology[j]) {
                pairs.push((i, j));
                counts[i] += 1;
                counts[j] += 1;
            }
        }
    }

    let mut out = Vec::with_capacity(1 << 19);
    push(&mut out, "trees ", trees.len());
    push(&mut out, " pairs ", pairs.len());
    out.push(b'\n');
    for (i, tree) in trees.iter().enumerate() {
        push(&mut out, "tree ", i);
        push(&mut out, " neighbours ", counts[i]);
        push(
            &mut out,
            " unlinked ",
            trees.len() - counts[i] - copies[topology[i]],
        );
        out.push(b' ');
        tree.write(&mut out);
        out.extend_from_slice(b";\n");
    }
    for (i, j) in pairs {
        push(&mut out, "pair ", i);
        push(&mut out, " ", j);
        out.push(b'\n');
    }
    out
}

fn push(out: &mut Vec<u8>, words: &str, number: usize) {
    out.extend_from_slice(words.as_bytes());
    push_number(number, out);
}

/// Writes a number of at most five digits.
pub fn push_number(number: usize, out: &mut Vec<u8>) {
    let mut unit = 1;
    while number / unit >= 10 {
        unit *= 10;
    }
    while unit > 0 {
        out.push(b'0' + (number / unit % 10) as u8);
        unit /= 10;
    }
}
