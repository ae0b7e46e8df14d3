//! Reads a table of trees on standard input, and prints each tree with its island and its neighbours, copies merged.
//!
//! A refused text gives its line on standard error and status 1; input that can't be read, or output that can't be written
//! whole, gives a line and status 2.

use std::fs::File;
use std::io::{self, Read, Write};
use std::os::unix::io::AsFd;
use std::process::ExitCode;

use norbelath::{Islands, Refusal};

fn main() -> ExitCode {
    let text = match input() {
        Ok(text) => text,
        Err(error) => return stop(2, &format!("standard input can't be read: {error}")),
    };
    let report = match report(&text) {
        Ok(report) => report,
        Err(refusal) => return stop(1, &refusal.to_string()),
    };
    match print(&report) {
        Ok(()) => ExitCode::SUCCESS,
        Err(error) => stop(2, &format!("standard output can't be written: {error}")),
    }
}

/// All of standard input. It is read as a file, since `Stdin` takes what isn't open for reading as empty.
fn input() -> io::Result<Vec<u8>> {
    let mut text = Vec::new();
    File::from(io::stdin().as_fd().try_clone_to_owned()?).read_to_end(&mut text)?;
    Ok(text)
}

/// Prints the whole report, as a file for the same reason.
fn print(report: &str) -> io::Result<()> {
    File::from(io::stdout().as_fd().try_clone_to_owned()?).write_all(report.as_bytes())
}

/// Says why the program stops with this status.
fn stop(status: u8, why: &str) -> ExitCode {
    // Where standard error can't be written either, the status is all that can be told.
    let _ = writeln!(io::stderr(), "{why}");
    ExitCode::from(status)
}

/// The lines for the trees of a text.
fn report(text: &[u8]) -> Result<String, Refusal> {
    let table = norbelath::table(text)?;
    let islands = norbelath::islands(text)?;
    let mut lines = head(&islands);
    for (position, tree) in (0..).zip(table.trees()) {
        lines += &line(position, tree, &islands);
    }
    Ok(lines)
}

/// The first line: how many trees, topologies, pairs and islands there are.
fn head(x: &Islands) -> String {
    let own = |numbers: &[u16]| (0..).zip(numbers).filter(|&(i, &n)| i == n).count();
    format!(
        "trees {} topologies {} pairs {} islands {}\n",
        x.counts.len(),
        own(&x.firsts),
        x.pairs.len(),
        own(&x.islands)
    )
}

/// The line of the tree at a position.
fn line(position: u16, tree: &str, x: &Islands) -> String {
    let at = usize::from(position);
    let first = x.firsts[at];
    if first != position {
        return format!("tree {position} {tree} copy of {first}\n");
    }
    let neighbours = neighbours(position, &x.pairs).join(" ");
    let neighbours = if neighbours.is_empty() {
        "none"
    } else {
        &neighbours
    };
    format!(
        "tree {position} {tree} island {} neighbours {neighbours}\n",
        x.islands[at]
    )
}

/// The neighbours of a position, ascending: the pairs are in order, and a smaller position comes first in them.
fn neighbours(position: u16, pairs: &[(u16, u16)]) -> Vec<String> {
    let other = |&(i, j): &(u16, u16)| match position {
        p if p == i => Some(j.to_string()),
        p if p == j => Some(i.to_string()),
        _ => None,
    };
    pairs.iter().filter_map(other).collect()
}
