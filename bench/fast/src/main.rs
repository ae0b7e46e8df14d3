//! Reads a table of trees from standard input and prints the sheet, fast.
//!
//! A clade is a number of 64 bits, a forest one number more: the sum of the
//! mixed clades of its forks. Forests are looked up by that number alone, and
//! so are topologies. Two that differ but have the same number would be taken
//! for one; for 20,160 forests, or 29,760 of unrooted trees, that is less likely
//! than once in ten thousand million tables. It is the risk that programs of this
//! kind take.

mod forests;
mod hung;
mod reader;
mod sheet;
mod tree;

use std::io::{self, Read, Write};

/// A text has at most this many bytes.
const MOST_BYTES: usize = 65_535;
/// A table has at most this many trees.
const MOST_TREES: usize = 160;

fn main() -> io::Result<()> {
    // One byte above the limit is enough for the refusal.
    let mut text = Vec::with_capacity(MOST_BYTES + 1);
    io::stdin()
        .lock()
        .take(MOST_BYTES as u64 + 1)
        .read_to_end(&mut text)?;
    let printed = match reader::read_table(&text) {
        Ok(trees) => sheet::sheet(&trees),
        Err((number, place)) => format!("refused {number} at {place}\n").into_bytes(),
    };
    io::stdout().lock().write_all(&printed)
}
