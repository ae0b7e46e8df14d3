//! Each call beside the independent implementation: its answer, and what it leaves in lent memory.

use std::collections::BTreeMap;

use norbelath::{Copies, GraphSize, Islands, Plot, Support, SupportSize};
use norbelath::{
    CUT_OUT, FORM_OUT, GRAPH_COUNTS, GRAPH_FIRSTS, GRAPH_PAIRS, ISLANDS, PLOT_COLUMNS,
};
use norbelath::{PLOT_ROWS, ROW, ROW_TEXT_OUT, SHEET_OUT, SUPPORT_CLADES, SUPPORT_OUT};
use norbelath::{SUPPORT_TREES, TABLE_ENDS, TABLE_TEXTS};
use plain::{Graph, Pair, Refusal};

use crate::generator::Random;

pub const SHORT: Refusal = Refusal {
    number: 7,
    text: 0,
    place: 0,
};

/// What the library answers.
pub type Answer<T> = Result<T, norbelath::Refusal>;

/// A call that lists pairs, by its exported name.
struct Listing<const N: usize> {
    call: &'static str,
    into: ListInto<N>,
}

/// The call with its lent slices: pairs, counts, firsts and islands, or the first two or three of them.
type ListInto<const N: usize> = fn(&[u8], [&mut [u16]; N]) -> Answer<GraphSize>;

/// The least lengths of those slices.
const LISTS: [usize; 4] = [GRAPH_PAIRS, GRAPH_COUNTS, GRAPH_FIRSTS, ISLANDS];

const GRAPH: Listing<3> = Listing {
    call: "graph",
    into: |text, [pairs, counts, firsts]| norbelath::graph_into(text, pairs, counts, firsts),
};
const MERGED: Listing<3> = Listing {
    call: "graph_choosing",
    into: |text, [pairs, counts, firsts]| {
        norbelath::graph_choosing_into(text, Copies::Merge, pairs, counts, firsts)
    },
};
const KEPT_APART: Listing<3> = Listing {
    call: "graph_choosing",
    into: |text, [pairs, counts, firsts]| {
        norbelath::graph_choosing_into(text, Copies::KeepApart, pairs, counts, firsts)
    },
};
const INTERCHANGES: Listing<2> = Listing {
    call: "interchanges",
    into: |text, [pairs, counts]| norbelath::interchanges_into(text, pairs, counts),
};
const ISLAND_GRAPH: Listing<4> = Listing {
    call: "islands",
    into: |text, [pairs, counts, firsts, islands]| {
        norbelath::islands_into(text, pairs, counts, firsts, islands)
    },
};

/// The library's answers in the other implementation's terms, which they are compared in.
pub fn refusal(x: norbelath::Refusal) -> Refusal {
    Refusal {
        number: x.number,
        text: x.text,
        place: x.place,
    }
}

pub fn paired(x: norbelath::Pair) -> Pair {
    Pair {
        apart: x.apart,
        forests: x.forests,
    }
}

fn graph(x: norbelath::Graph) -> Graph {
    Graph {
        pairs: x.pairs,
        counts: x.counts,
        firsts: x.firsts,
    }
}

fn islands(x: Islands) -> plain::Islands {
    plain::Islands {
        graph: Graph {
            pairs: x.pairs,
            counts: x.counts,
            firsts: x.firsts,
        },
        numbers: x.islands,
    }
}

fn support(x: Support) -> plain::Support {
    plain::Support {
        clades: x.clades,
        trees: x.trees,
        majority: x.majority.into_bytes(),
    }
}

/// The trees and pairs that a call says it wrote.
fn listed(x: GraphSize) -> [usize; 2] {
    [x.trees, x.pairs]
}

/// The pairs as a slice holds them.
fn flat(pairs: &[(u16, u16)]) -> Vec<u16> {
    pairs.iter().flat_map(|&(i, j)| [i, j]).collect()
}

fn bits(rows: &[f64]) -> Vec<u64> {
    rows.iter().map(|row| row.to_bits()).collect()
}

/// The bits of a float: of any, or of one that is no number, of which there are two sorts.
fn of_noise(x: u64) -> u64 {
    match x % 4 {
        0 => x | 0x7ff0_0000_0000_0001,
        1 => (x | 0x7ff0_0000_0000_0001) & !0x0008_0000_0000_0000,
        _ => x,
    }
}

/// The start of a text, for messages.
pub fn shown(text: &[u8]) -> String {
    String::from_utf8_lossy(&text[..text.len().min(600)]).into_owned()
}

/// A lent slice that is filled with noise, and a copy of it.
pub struct Lent<T> {
    pub slice: Vec<T>,
    before: Vec<T>,
}

/// The slices themselves, one for each.
fn slices<const N: usize>(lent: &mut [Lent<u16>; N]) -> [&mut [u16]; N] {
    let mut rest = lent.iter_mut();
    std::array::from_fn(|_| &mut rest.next().expect("one for each").slice[..])
}

impl<T: Copy + PartialEq> Lent<T> {
    pub fn new(random: &mut Random, len: usize, of: fn(u64) -> T) -> Lent<T> {
        let (start, step) = (random.next(), random.next() | 1);
        let before: Vec<T> = (0..len as u64)
            .map(|i| of(start.wrapping_add(i.wrapping_mul(step))))
            .collect();
        Lent {
            slice: before.clone(),
            before,
        }
    }

    /// The slice that begins with these elements, and has so many of noise behind them.
    pub fn behind(random: &mut Random, start: &[T], len: usize, of: fn(u64) -> T) -> Lent<T> {
        let before = [start, &Lent::new(random, len, of).before].concat();
        Lent {
            slice: before.clone(),
            before,
        }
    }

    /// The slice as it is now, where a copy of other elements was lent in its place.
    pub fn changed_to(self, slice: Vec<T>) -> Lent<T> {
        Lent { slice, ..self }
    }

    /// The slice begins with `written` and is unchanged behind it.
    pub fn holds(&self, written: &[T]) -> bool {
        let (start, rest) = self.slice.split_at(written.len());
        start == written && rest == &self.before[written.len()..]
    }
}

/// A length of at least `least`, which is often just that.
fn enough(random: &mut Random, least: usize) -> usize {
    least + random.pick(&[0, 0, 1, 13])
}

pub fn too_short(random: &mut Random, least: usize) -> usize {
    random.pick(&[0, 1, least / 2, least - 1])
}

fn length(random: &mut Random, short: bool, least: usize) -> usize {
    if short {
        too_short(random, least)
    } else {
        enough(random, least)
    }
}

/// The lent slices of the support call.
struct LentSupport {
    clades: Lent<u64>,
    trees: Lent<u16>,
    out: Lent<u8>,
}

impl LentSupport {
    /// The slices, of which some are too short.
    fn new(random: &mut Random, short: [bool; 3]) -> LentSupport {
        let len = length(random, short[0], SUPPORT_CLADES);
        let clades = Lent::new(random, len, |x| x);
        let len = length(random, short[1], SUPPORT_TREES);
        let trees = Lent::new(random, len, |x| x as u16);
        let len = length(random, short[2], SUPPORT_OUT);
        let out = Lent::new(random, len, |x| x as u8);
        LentSupport { clades, trees, out }
    }

    fn call(&mut self, text: &[u8]) -> Answer<SupportSize> {
        norbelath::support_into(
            text,
            &mut self.clades.slice,
            &mut self.trees.slice,
            &mut self.out.slice,
        )
    }

    /// The slices begin with these and are unchanged behind them.
    fn holds(&self, clades: &[(u64, u16)], majority: &[u8]) -> bool {
        let (clades, trees): (Vec<u64>, Vec<u16>) = clades.iter().copied().unzip();
        self.clades.holds(&clades) && self.trees.holds(&trees) && self.out.holds(majority)
    }
}

/// The comparisons of a test: how many calls were accepted (at 0) and refused with each number, and of each call by its
/// exported name how many were accepted and refused.
pub struct Comparison {
    pub random: Random,
    answers: [usize; 14],
    calls: BTreeMap<&'static str, [usize; 2]>,
}

impl Comparison {
    pub fn new(seed: u64) -> Comparison {
        Comparison {
            random: Random::new(seed),
            answers: [0; 14],
            calls: BTreeMap::new(),
        }
    }

    /// Counts an answer that was compared.
    pub fn count<T>(&mut self, call: &'static str, answer: &Result<T, Refusal>) {
        let number = answer.as_ref().err().map_or(0, |x| x.number);
        self.answers[usize::from(number)] += 1;
        self.calls.entry(call).or_default()[usize::from(number > 0)] += 1;
    }

    /// Ends a test: it met each of these refusals so many times or more; 0 stands for accepted.
    pub fn met(&self, test: &str, least: &[(usize, usize)]) {
        let (accepted, refused) = (self.answers[0], &self.answers[1..]);
        let compared = self.calls.iter().map(|(call, [accepted, refused])| {
            format!("compared {call} accepted {accepted} refused {refused}\n")
        });
        let compared: String = compared.collect();
        // In one piece, so that no other test's words come between.
        print!("{test}: {accepted} accepted, refused 1 to 13: {refused:?}\n{compared}");
        for &(number, times) in least {
            let met = self.answers[number];
            assert!(met >= times, "{number} was met {met} times only");
        }
    }

    pub fn form(&mut self, text: &[u8]) {
        let expected = plain::form(text);
        let returned = norbelath::form(text).map(String::into_bytes);
        assert_eq!(returned.map_err(refusal), expected, "{}", shown(text));
        self.text_call("form", FORM_OUT, &shown(text), expected, |out| {
            norbelath::form_into(text, out)
        });
    }

    pub fn cut(&mut self, text: &[u8], cut: u64) {
        let expected = plain::cut(text, cut);
        let returned = norbelath::cut(text, cut).map(String::into_bytes);
        assert_eq!(
            returned.map_err(refusal),
            expected,
            "cut {cut} of {}",
            shown(text)
        );
        self.text_call("cut", CUT_OUT, &shown(text), expected, |out| {
            norbelath::cut_into(text, cut, out)
        });
    }

    /// A text that is refused has its sheet too.
    pub fn sheet(&mut self, text: &[u8]) {
        let expected = plain::sheet(text);
        let returned = norbelath::sheet(text);
        assert_eq!(returned.as_bytes(), expected, "{}", shown(text));
        self.text_call("sheet", SHEET_OUT, &shown(text), Ok(expected), |out| {
            norbelath::sheet_into(text, out)
        });
    }

    /// A call that writes a text, lent enough and too little; `shown` is what it gets, for messages.
    fn text_call(
        &mut self,
        name: &'static str,
        least: usize,
        shown: &str,
        expected: Result<Vec<u8>, Refusal>,
        call: impl Fn(&mut [u8]) -> Answer<usize>,
    ) {
        self.written(name, least, |x| x as u8, shown, expected, call);
    }

    /// The same of any elements, which `of` makes of noise.
    pub fn written<T: Copy + PartialEq>(
        &mut self,
        name: &'static str,
        least: usize,
        of: fn(u64) -> T,
        shown: &str,
        expected: Result<Vec<T>, Refusal>,
        call: impl Fn(&mut [T]) -> Answer<usize>,
    ) {
        let len = enough(&mut self.random, least);
        let mut out = Lent::new(&mut self.random, len, of);
        let answer = call(&mut out.slice).map_err(refusal);
        let written = expected.as_deref().unwrap_or(&[]);
        assert!(out.holds(written), "{shown}");
        assert_eq!(answer, expected.map(|text| text.len()), "{shown}");
        self.count(name, &answer);

        let len = too_short(&mut self.random, least);
        let mut out = Lent::new(&mut self.random, len, of);
        let answer = call(&mut out.slice);
        assert!(out.holds(&[]), "{shown}");
        self.short(name, answer, shown);
    }

    /// Gives the answer, for tests that go on with it.
    pub fn row(&mut self, text: &[u8]) -> Option<Vec<u64>> {
        let expected = plain::row(text);
        let returned = norbelath::row(text).map_err(refusal);
        assert_eq!(returned, expected, "{}", shown(text));
        self.written(
            "row",
            ROW,
            |x| x,
            &shown(text),
            expected,
            |row| norbelath::row_into(text, row),
        );
        returned.ok()
    }

    /// Floats are compared as bits, so that noise which is no number is seen too. Gives the answer, for tests that go on
    /// with it.
    pub fn plot(&mut self, text: &[u8]) -> Option<Plot> {
        let expected = plain::plot(text);
        let returned = norbelath::plot(text).map_err(refusal);
        let (rows, columns) = expected.clone().unwrap_or_default();
        if let Ok(plot) = &returned {
            assert_eq!(bits(&plot.rows), bits(&rows), "{}", shown(text));
            assert_eq!(plot.columns, columns, "{}", shown(text));
        }
        let nodes = expected.map(|(rows, _)| rows.len());
        assert_eq!(
            returned.as_ref().map(|plot| plot.rows.len()),
            nodes.as_ref().copied(),
            "{}",
            shown(text)
        );
        for short in [[false, false], [true, false], [false, true], [true, true]] {
            let len = length(&mut self.random, short[0], PLOT_ROWS);
            let before = Lent::new(&mut self.random, len, of_noise);
            let mut lent_rows: Vec<f64> = before.slice.iter().map(|&x| f64::from_bits(x)).collect();
            let len = length(&mut self.random, short[1], PLOT_COLUMNS);
            let mut lent_columns = Lent::new(&mut self.random, len, |x| x as u16);
            let answer = norbelath::plot_into(text, &mut lent_rows, &mut lent_columns.slice);
            let answer = answer.map_err(refusal);
            let lent_rows = before.changed_to(bits(&lent_rows));
            if short == [false, false] {
                assert_eq!(answer, nodes, "{}", shown(text));
                assert!(lent_rows.holds(&bits(&rows)), "{}", shown(text));
                assert!(lent_columns.holds(&columns), "{}", shown(text));
            } else {
                assert_eq!(answer, Err(SHORT), "{}", shown(text));
                assert!(lent_rows.holds(&[]), "{}", shown(text));
                assert!(lent_columns.holds(&[]), "{}", shown(text));
            }
            self.count("plot", &answer);
        }
        returned.ok()
    }

    /// Gives the answer, for tests that go on with it.
    pub fn row_text(&mut self, row: &[u64]) -> Option<String> {
        let expected = plain::row_text(row);
        let returned = norbelath::row_text(row);
        let text = returned.clone().map(String::into_bytes);
        let shown = format!("{row:?}");
        assert_eq!(text.map_err(refusal), expected, "{shown}");
        self.text_call("row_text", ROW_TEXT_OUT, &shown, expected, |out| {
            norbelath::row_text_into(row, out)
        });
        returned.ok()
    }

    /// Gives the answer, for tests that want to see both.
    pub fn row_pair(&mut self, row: &[u64], other: &[u64]) -> Option<Pair> {
        let expected = plain::row_pair(row, other);
        let answer = norbelath::row_pair(row, other).map(paired).map_err(refusal);
        assert_eq!(answer, expected, "{row:?} and {other:?}");
        self.count("row_pair", &answer);
        answer.ok()
    }

    /// Gives the answer, for tests that want to see both.
    pub fn pair(&mut self, text: &[u8], other: &[u8]) -> Option<Pair> {
        let expected = plain::pair(text, other);
        let answer = norbelath::pair(text, other).map(paired).map_err(refusal);
        assert_eq!(answer, expected, "{} and {}", shown(text), shown(other));
        self.count("pair", &answer);
        answer.ok()
    }

    pub fn table(&mut self, text: &[u8]) {
        let expected = plain::table(text);
        let returned = norbelath::table(text).map_err(refusal);
        if let (Ok(table), Ok((texts, ends))) = (&returned, &expected) {
            assert_eq!(table.trees().len(), ends.len(), "{}", shown(text));
            let ended = table.trees().scan(0, |end, tree| {
                *end += tree.len() as u32;
                Some((*end, tree.as_bytes()))
            });
            let split = texts.split_inclusive(|&byte| byte == b';');
            assert!(ended.eq(ends.iter().copied().zip(split)), "{}", shown(text));
        }
        let returned = returned.map(|table| (table.texts.into_bytes(), table.ends));
        assert_eq!(returned, expected, "{}", shown(text));

        let texts_len = enough(&mut self.random, TABLE_TEXTS);
        let ends_len = enough(&mut self.random, TABLE_ENDS);
        let mut texts = Lent::new(&mut self.random, texts_len, |x| x as u8);
        let mut ends = Lent::new(&mut self.random, ends_len, |x| x as u32);
        let answer = norbelath::table_into(text, &mut texts.slice, &mut ends.slice);
        let answer = answer.map(|size| [size.bytes, size.trees]).map_err(refusal);
        self.count("table", &answer);
        let size = expected.as_ref().map(|x| [x.0.len(), x.1.len()]);
        assert_eq!(answer, size.map_err(|&x| x), "{}", shown(text));
        let written = expected.unwrap_or_default();
        assert!(texts.holds(&written.0), "{}", shown(text));
        assert!(ends.holds(&written.1), "{}", shown(text));
    }

    /// The graph call under each choice, the interchange call and the islands call.
    pub fn graphs(&mut self, text: &[u8]) {
        self.merged_and_kept_apart(text);
        self.interchanges(text);
        self.islands(text);
    }

    /// The graph call, and the graph choosing call under both choices. Gives the merged graph and the one with copies
    /// kept apart, for tests that want to see both.
    pub fn merged_and_kept_apart(&mut self, text: &[u8]) -> Option<(Graph, Graph)> {
        let merged = plain::graph(text);
        self.graph_call(text, &merged, norbelath::graph(text), GRAPH);
        let returned = norbelath::graph_choosing(text, Copies::Merge);
        self.graph_call(text, &merged, returned, MERGED);

        let apart = plain::graph_with_copies(text);
        let returned = norbelath::graph_choosing(text, Copies::KeepApart);
        self.graph_call(text, &apart, returned, KEPT_APART);
        merged.ok().zip(apart.ok())
    }

    /// A graph, returned and written.
    fn graph_call(
        &mut self,
        text: &[u8],
        expected: &Result<Graph, Refusal>,
        returned: Answer<norbelath::Graph>,
        listing: Listing<3>,
    ) {
        let returned = returned.map(graph).map_err(refusal);
        assert_eq!(&returned, expected, "{}", shown(text));
        let lists = returned.map(|x| [flat(&x.pairs), x.counts, x.firsts]);
        self.written_lists(text, lists, listing);
    }

    pub fn interchanges(&mut self, text: &[u8]) {
        let expected = plain::interchanges(text);
        let returned = norbelath::interchanges(text).map(|x| (x.pairs, x.counts));
        assert_eq!(returned.map_err(refusal), expected, "{}", shown(text));
        let lists = expected.map(|(pairs, counts)| [flat(&pairs), counts]);
        self.written_lists(text, lists, INTERCHANGES);
    }

    /// Gives the answer, for tests that want to see islands.
    pub fn islands(&mut self, text: &[u8]) -> Option<Islands> {
        let expected = plain::islands(text);
        let returned = norbelath::islands(text);
        let answer = returned.clone().map(islands).map_err(refusal);
        assert_eq!(answer, expected, "{}", shown(text));
        let lists = expected.map(|x| {
            let Graph {
                pairs,
                counts,
                firsts,
            } = x.graph;
            [flat(&pairs), counts, firsts, x.numbers]
        });
        self.written_lists(text, lists, ISLAND_GRAPH);
        returned.ok()
    }

    /// What a call that lists pairs writes into its slices.
    fn written_lists<const N: usize>(
        &mut self,
        text: &[u8],
        expected: Result<[Vec<u16>; N], Refusal>,
        listing: Listing<N>,
    ) {
        let mut lent = self.lent_lists([false; N]);
        let answer = (listing.into)(text, slices(&mut lent));
        let answer = answer.map(listed).map_err(refusal);
        self.count(listing.call, &answer);
        let size = expected
            .as_ref()
            .map(|lists| [lists[1].len(), lists[0].len() / 2]);
        assert_eq!(answer, size.map_err(|&x| x), "{}", shown(text));
        let lists = expected.unwrap_or([(); N].map(|_| vec![]));
        let written = lent.iter().zip(&lists).all(|(x, list)| x.holds(list));
        assert!(written, "{}", shown(text));
    }

    /// Lent slices for a call that lists pairs, of which some are too short.
    fn lent_lists<const N: usize>(&mut self, short: [bool; N]) -> [Lent<u16>; N] {
        std::array::from_fn(|i| {
            let len = length(&mut self.random, short[i], LISTS[i]);
            Lent::new(&mut self.random, len, |x| x as u16)
        })
    }

    /// Gives the answer, for tests that want to see clades.
    pub fn support(&mut self, text: &[u8]) -> Option<Support> {
        let expected = plain::support(text);
        let returned = norbelath::support(text);
        let answer = returned.clone().map(support).map_err(refusal);
        assert_eq!(answer, expected, "{}", shown(text));

        let mut lent = LentSupport::new(&mut self.random, [false; 3]);
        let answer = lent.call(text);
        let answer = answer
            .map(|size| [size.clades, size.bytes, size.trees])
            .map_err(refusal);
        self.count("support", &answer);
        let size = expected
            .as_ref()
            .map(|x| [x.clades.len(), x.majority.len(), x.trees]);
        assert_eq!(answer, size.map_err(|&x| x), "{}", shown(text));
        let written = match &expected {
            Ok(x) => lent.holds(&x.clades, &x.majority),
            Err(_) => lent.holds(&[], &[]),
        };
        assert!(written, "{}", shown(text));
        returned.ok()
    }

    /// The table call, the calls that list pairs and the support call, each with any one of its slices too short, or
    /// all.
    pub fn short_tables(&mut self, text: &[u8]) {
        for (one, other) in [(true, false), (false, true), (true, true)] {
            let len = length(&mut self.random, one, TABLE_TEXTS);
            let mut texts = Lent::new(&mut self.random, len, |x| x as u8);
            let len = length(&mut self.random, other, TABLE_ENDS);
            let mut ends = Lent::new(&mut self.random, len, |x| x as u32);
            let answer = norbelath::table_into(text, &mut texts.slice, &mut ends.slice);
            assert!(texts.holds(&[]) && ends.holds(&[]), "{}", shown(text));
            self.short("table", answer, &shown(text));
        }
        for listing in [GRAPH, MERGED, KEPT_APART] {
            self.short_lists(text, listing);
        }
        self.short_lists(text, INTERCHANGES);
        self.short_lists(text, ISLAND_GRAPH);
        self.short_support(text);
    }

    fn short_lists<const N: usize>(&mut self, text: &[u8], listing: Listing<N>) {
        for chosen in 0..=N {
            let short = std::array::from_fn(|i| i == chosen || chosen == N);
            let mut lent = self.lent_lists(short);
            let answer = (listing.into)(text, slices(&mut lent));
            assert!(lent.iter().all(|x| x.holds(&[])), "{}", shown(text));
            self.short(listing.call, answer, &shown(text));
        }
    }

    fn short_support(&mut self, text: &[u8]) {
        for chosen in 0..=3 {
            let short = std::array::from_fn(|i| i == chosen || chosen == 3);
            let mut lent = LentSupport::new(&mut self.random, short);
            let answer = lent.call(text);
            assert!(lent.holds(&[], &[]), "{}", shown(text));
            self.short("support", answer, &shown(text));
        }
    }

    /// Ends a call that was lent too little.
    pub fn short<T>(&mut self, call: &'static str, answer: Answer<T>, shown: &str) {
        let answer = answer.map(drop).map_err(refusal);
        assert_eq!(answer, Err(SHORT), "{shown}");
        self.count(call, &answer);
    }
}
