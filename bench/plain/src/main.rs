//! Reads a table of trees from standard input and prints the sheet; with
//! `--interchanges`, the graph of interchanges; with `--islands`, the islands,
//! in which copies are merged; with `--support`, how many trees have each clade
//! and the majority tree; with `--rows`, the pairs that the pair test on every
//! two rows finds; with `--plots`, the plot of each tree; with `--index`, the
//! neighbours of each tree in an index, its memory, and the memory without the
//! first tree. `--rows --repeat N`, `--plots --repeat N` and `--index --repeat N`
//! print the shortest times of N rounds in place of that.

use std::hint::black_box;
use std::io::{self, Read, Write};
use std::time::Instant;

use plain::Index;

fn main() -> io::Result<()> {
    let arguments: Vec<String> = std::env::args().skip(1).collect();
    let words: Vec<&str> = arguments.iter().map(String::as_str).collect();
    let printed = match words[..] {
        [] => plain::sheet,
        ["--interchanges"] => plain::interchange_sheet,
        ["--islands"] => plain::island_sheet,
        ["--support"] => plain::support_sheet,
        ["--rows"] => plain::row_sheet,
        ["--rows", "--repeat", rounds] => {
            let rounds = rounds.parse().expect("a number of rounds");
            return row_times(&read_input()?, rounds);
        }
        ["--plots"] => plain::plot_sheet,
        ["--plots", "--repeat", rounds] => {
            let rounds = rounds.parse().expect("a number of rounds");
            return plot_times(&read_input()?, rounds);
        }
        ["--index"] => plain::index_sheet,
        ["--index", "--repeat", rounds] => {
            let rounds = rounds.parse().expect("a number of rounds");
            return index_times(&read_input()?, rounds);
        }
        _ => panic!("not options: {words:?}"),
    };
    let text = read_input()?;
    io::stdout().lock().write_all(&printed(&text))
}

/// One byte above the limit is enough for the refusal.
fn read_input() -> io::Result<Vec<u8>> {
    let mut text = Vec::new();
    io::stdin()
        .lock()
        .take(plain::MOST_BYTES as u64 + 1)
        .read_to_end(&mut text)?;
    Ok(text)
}

/// Prints microseconds: of a plot, and of a canonical text of the same trees.
fn plot_times(text: &[u8], rounds: usize) -> io::Result<()> {
    let trees: Vec<&[u8]> = plain::each_tree(text).collect();
    let plot = shortest(rounds, trees.len(), |i| {
        black_box(plain::plot(trees[i])).is_ok()
    });
    let form = shortest(rounds, trees.len(), |i| {
        black_box(plain::form(trees[i])).is_ok()
    });
    writeln!(io::stdout().lock(), "{plot:.3} {form:.3}")
}

/// Prints microseconds: of a pair test on two rows, over every two of a table;
/// and of reading one row, told by a pair with an empty one.
fn row_times(text: &[u8], rounds: usize) -> io::Result<()> {
    let rows = plain::rows_of_table(text).expect("a table of rooted trees");
    let pairs: Vec<(usize, usize)> = plain::every_two(rows.len()).collect();
    let pair = shortest(rounds, pairs.len(), |k| {
        let (i, j) = pairs[k];
        black_box(plain::row_pair(&rows[i], &rows[j])).is_ok()
    });
    let check = shortest(rounds, rows.len(), |i| {
        black_box(plain::row_pair(&rows[i], &[])).is_ok()
    });
    writeln!(io::stdout().lock(), "{pair:.3} {check:.3}")
}

/// The shortest mean time of so many calls, of all rounds, in microseconds.
fn shortest(rounds: usize, calls: usize, call: impl Fn(usize) -> bool) -> f64 {
    let round = |_| {
        let start = Instant::now();
        for k in 0..calls {
            call(k);
        }
        start.elapsed().as_secs_f64() * 1e6 / calls as f64
    };
    (0..rounds).map(round).fold(f64::INFINITY, f64::min)
}

/// Prints microseconds, of the index of a table: of a question, over all trees;
/// of reading the memory; of adding the last tree to the others; of adding all
/// trees, one after another, from none on; of removing the first tree from all;
/// and of the table's graph.
fn index_times(text: &[u8], rounds: usize) -> io::Result<()> {
    let trees: Vec<&[u8]> = plain::each_tree(text).collect();
    let (last, others) = trees.split_last().expect("a tree or more");
    let all = plain::index_of_table(text).expect("a table of rooted trees");
    let memory = all.memory();
    let numbers: Vec<usize> = all.numbers().collect();
    let ask = shortest(rounds, numbers.len(), |k| {
        black_box(all.neighbours(numbers[k])).is_ok()
    });
    let read = shortest(rounds, 1, |_| black_box(Index::of_memory(&memory)).is_ok());
    let mut all_but_one = Index::default();
    add_each(&mut all_but_one, others);
    let add = shortest_from(rounds, &all_but_one, |index| add_each(index, &[last]));
    let add_all = shortest_from(rounds, &Index::default(), |index| add_each(index, &trees));
    let remove = shortest_from(rounds, &all, |index| {
        index.remove(numbers[0]).expect("a number that is held")
    });
    let graph = shortest(rounds, 1, |_| {
        black_box(plain::graph_with_copies(text)).is_ok()
    });
    writeln!(
        io::stdout().lock(),
        "{ask:.3} {read:.3} {add:.3} {add_all:.3} {remove:.3} {graph:.3}"
    )
}

fn add_each(index: &mut Index, trees: &[&[u8]]) {
    for tree in trees {
        index.add(tree).expect("a tree that the index can hold");
    }
}

/// The shortest time of what is done to an index, of all rounds, each of which
/// is on a copy of its own.
fn shortest_from(rounds: usize, index: &Index, change: impl Fn(&mut Index)) -> f64 {
    let round = |_| {
        let mut copy = index.clone();
        let start = Instant::now();
        change(&mut copy);
        start.elapsed().as_secs_f64() * 1e6
    };
    (0..rounds).map(round).fold(f64::INFINITY, f64::min)
}
