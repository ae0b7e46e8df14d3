//! The index beside the independent one: runs of additions, removals and questions, memory with gaps, and damaged memory.

use std::collections::BTreeMap;
use std::fmt::Debug;

use norbelath::{Copies, Index, Reason, INDEX_BYTES, INDEX_LIST, MAX_TEXT, MAX_TREES};
use plain::Refusal;

use crate::comparison::{refusal, shown, too_short, Answer, Comparison, Lent, SHORT};
use crate::generator::{chains, damage, damage_index, labels, take_out, Kind, Random, Tree};
use crate::{every_text, random_tree};

/// What a call that changes an index answers, and the memory then.
type Changed<T> = Result<(T, Vec<u8>), Refusal>;

impl Comparison {
    /// A change of the index in this memory, with some lent behind it; of one that owns it; and with too little lent.
    fn index_change<T: Copy + Debug + PartialEq>(
        &mut self,
        call: &'static str,
        memory: &[u8],
        shown: &str,
        expected: &Changed<T>,
        lent_call: impl Fn(&mut [u8]) -> Answer<T>,
        owner_call: impl Fn(&mut Index) -> Answer<T>,
    ) {
        let answered = expected.as_ref().map(|x| x.0).map_err(|&x| x);
        let after = expected.as_ref().map_or(memory, |x| &x.1);
        let extra = self.random.pick(&[0, 0, 1, 13]);
        let mut lent = Lent::behind(&mut self.random, memory, extra, |x| x as u8);
        let answer = lent_call(&mut lent.slice).map_err(refusal);
        assert_eq!(answer, answered, "{shown}");
        assert!(lent.holds(after), "{shown}");
        self.count(call, &answer);

        let mut index = Index::from_bytes(memory);
        let owned = owner_call(&mut index).map_err(refusal);
        assert_eq!(owned, answered, "{shown}");
        assert!(index.as_bytes() == after, "{shown}");

        let len = too_short(&mut self.random, INDEX_BYTES);
        let mut short = memory[..len].to_vec();
        let answer = lent_call(&mut short);
        assert!(short == memory[..len], "{shown}");
        self.short(call, answer, shown);
    }

    fn index_add(&mut self, memory: &[u8], text: &[u8], expected: &Changed<usize>) {
        self.index_change(
            "index_add",
            memory,
            &shown(text),
            expected,
            |memory| norbelath::index_add_into(memory, text),
            |index| index.add(text),
        );
    }

    fn index_remove(&mut self, memory: &[u8], number: usize, expected: &Changed<()>) {
        self.index_change(
            "index_remove",
            memory,
            &format!("{number} removed"),
            expected,
            |memory| norbelath::index_remove_into(memory, number),
            |index| index.remove(number),
        );
    }

    /// Asking the index in this memory, in the same ways, and with too short a list.
    fn index_neighbours(
        &mut self,
        memory: &[u8],
        number: usize,
        expected: &Result<Vec<u16>, Refusal>,
    ) {
        let index = Index::from_bytes(memory);
        let returned = index.neighbours(number).map_err(refusal);
        assert_eq!(&returned, expected, "{number}");
        let extra = self.random.pick(&[0, 0, 1, 13]);
        let lent = Lent::behind(&mut self.random, memory, extra, |x| x as u8);
        self.written(
            "index_neighbours",
            INDEX_LIST,
            |x| x as u16,
            &format!("the neighbours of {number}"),
            expected.clone(),
            |list| norbelath::index_neighbours_into(&lent.slice, number, list),
        );
        assert!(lent.holds(memory), "{number}");

        let len = too_short(&mut self.random, INDEX_BYTES);
        let mut list = Lent::new(&mut self.random, INDEX_LIST, |x| x as u16);
        let answer = norbelath::index_neighbours_into(&memory[..len], number, &mut list.slice);
        assert!(list.holds(&[]), "{number}");
        self.short("index_neighbours", answer, &number.to_string());
    }

    /// Each call on any memory.
    fn index_calls(&mut self, memory: &[u8], text: &[u8], number: usize) {
        let expected = plain::index_add(memory, text);
        self.index_add(memory, text, &expected);
        let expected = plain::index_neighbours(memory, number);
        self.index_neighbours(memory, number, &expected);
        let expected = plain::index_remove(memory, number);
        self.index_remove(memory, number, &expected.map(|after| ((), after)));
    }
}

/// An index that is changed and asked, and the texts of its trees by number.
#[derive(Default)]
struct Run {
    plain: plain::Index,
    texts: BTreeMap<usize, Vec<u8>>,
    /// How many trees got a number below a held one.
    filled: usize,
    /// How many times the last tree was removed.
    emptied: usize,
}

impl Run {
    fn numbers(&self) -> Vec<usize> {
        self.texts.keys().copied().collect()
    }

    fn add(&mut self, compare: &mut Comparison, text: &[u8]) {
        let memory = self.plain.memory();
        let added = self.plain.add(text);
        compare.index_add(
            &memory,
            text,
            &added.map(|number| (number, self.plain.memory())),
        );
        if let Ok(number) = added {
            assert_eq!(number, smallest_free(&self.numbers()));
            self.filled += usize::from(number < self.texts.len());
            self.texts.insert(number, text.to_vec());
        }
    }

    fn remove(&mut self, compare: &mut Comparison, number: usize) {
        let mut memory = self.plain.memory();
        let removed = self.plain.remove(number);
        let after = self.plain.memory();
        compare.index_remove(&memory, number, &removed.map(|()| ((), after.clone())));
        if removed.is_ok() {
            // The same by hand, on the bytes.
            take_out(&mut memory, number);
            assert!(memory == after, "{number}");
            self.texts.remove(&number).expect("a held tree");
            self.emptied += usize::from(self.texts.is_empty());
        }
    }

    fn ask(&self, compare: &mut Comparison, number: usize) {
        let expected = self.plain.neighbours(number);
        compare.index_neighbours(&self.plain.memory(), number, &expected);
    }

    /// Each list is what the graph call, with copies kept apart, gives for the held trees in order of number, where a
    /// position stands for the number at that place. Gives how many neighbours there are in all.
    fn beside_the_graph(&self) -> usize {
        let numbers = self.numbers();
        let table: Vec<u8> = self.texts.values().flatten().copied().collect();
        let graph = norbelath::graph_choosing(&table, Copies::KeepApart).expect("a table");
        let mut lists = vec![vec![]; numbers.len()];
        for &(i, j) in &graph.pairs {
            let (i, j) = (i as usize, j as usize);
            lists[i].push(numbers[j] as u16);
            lists[j].push(numbers[i] as u16);
        }
        let index = Index::from_bytes(&self.plain.memory());
        for (&number, list) in numbers.iter().zip(&mut lists) {
            list.sort_unstable();
            assert_eq!(index.neighbours(number).as_ref(), Ok(&*list), "{number}");
        }
        2 * graph.pairs.len()
    }
}

/// The smallest number that is not one of these; 160 where all are.
fn smallest_free(numbers: &[usize]) -> usize {
    let free = (0..MAX_TREES).find(|x| !numbers.contains(x));
    free.unwrap_or(MAX_TREES)
}

/// One of these numbers, the smallest other one, and those of which fewer bits are one of them.
fn some_number(random: &mut Random, numbers: &[usize]) -> usize {
    let held = match numbers {
        [] => 0,
        _ => random.pick(numbers),
    };
    let others = [
        smallest_free(numbers),
        MAX_TREES,
        255,
        256 + held,
        (1 << 32) + held,
        usize::MAX - held,
    ];
    match random.percent(70) {
        true => held,
        false => random.pick(&others),
    }
}

/// A text that an index of trees like this may be given: of the tree, or for a few in a hundred one that is refused.
fn some_text(random: &mut Random, tree: &Tree) -> Vec<u8> {
    let leaves = tree.nodes() / 2 + 1;
    match random.below(30) {
        0 => tree.text_as(Kind::Unrooted, random, 2),
        1 => random_tree(random, leaves + 1).text_as(Kind::Unrooted, random, 2),
        2 => random_tree(random, leaves + 1).text(random, 2),
        3 | 4 => {
            let mut text = tree.text(random, 2);
            damage(random, &mut text);
            text
        }
        5 => vec![random.pick(b" x"); MAX_TEXT + random.below(2)],
        _ => tree.text_as(Kind::Rooted, random, 2),
    }
}

/// So many trees of one label set, near each other and some of them copies.
fn some_trees(random: &mut Random, most_leaves: usize, trees: usize) -> Vec<Tree> {
    let leaves = 1 + random.below(most_leaves);
    let set = labels(random, leaves);
    let longest = random.pick(&[1, 3, 12]);
    chains(random, Kind::Rooted, &set, trees, longest)
}

/// Additions, removals and questions, one after another on one index, up to and above 160 trees. Whenever no tree is
/// held, those that follow have other labels.
#[test]
fn runs_of_an_index() {
    let mut compare = Comparison::new(23);
    let (mut neighbours, mut filled, mut emptied) = (0, 0, 0);
    for turn in 0..240 {
        let steps = match turn % 24 {
            0 => MAX_TREES + 60,
            _ => 1 + compare.random.below(24),
        };
        let removals = [0, 30, 50][turn / 24 % 3];
        let mut run = Run::default();
        let mut made = Vec::new();
        for _ in 0..steps {
            if run.texts.is_empty() {
                made = some_trees(&mut compare.random, [6, 6, 20][turn % 3], steps);
            }
            if compare.random.percent(removals) {
                let number = some_number(&mut compare.random, &run.numbers());
                run.remove(&mut compare, number);
            } else {
                let tree = &made[compare.random.below(steps)];
                let text = some_text(&mut compare.random, tree);
                run.add(&mut compare, &text);
            }
            for _ in 0..2 {
                let number = some_number(&mut compare.random, &run.numbers());
                run.ask(&mut compare, number);
            }
        }
        neighbours += run.beside_the_graph();
        filled += run.filled;
        emptied += run.emptied;
    }
    let least = [
        (0, 6_000),
        (1, 100),
        (5, 40),
        (6, 50),
        (7, 10_000),
        (8, 40),
        (10, 100),
        (13, 2_000),
    ];
    compare.met("runs of an index", &least);
    println!("{neighbours} neighbours, {filled} gaps filled, {emptied} times no tree left");
    assert!(neighbours >= 5_000 && filled >= 300 && emptied >= 100);
}

/// A full index of the largest trees, most of them in chains of moves and some twice. Then no tree is taken any more,
/// until one is removed.
#[test]
fn full_index() {
    let mut compare = Comparison::new(24);
    let labels: Vec<u8> = (1..=64).collect();
    let trees = chains(&mut compare.random, Kind::Rooted, &labels, 120, 60);
    let mut run = Run::default();
    for (turn, tree) in trees.iter().cycle().take(MAX_TREES).enumerate() {
        let text = tree.text(&mut compare.random, 0);
        run.add(&mut compare, &text);
        if turn % 20 == 19 {
            let number = some_number(&mut compare.random, &run.numbers());
            run.ask(&mut compare, number);
        }
    }
    let again = trees[0].text(&mut compare.random, 0);
    for text in [&b"(1,2"[..], b"[&U]7;", b"7;", &again] {
        run.add(&mut compare, text);
    }
    for tree in &trees[..8] {
        let number = compare.random.below(MAX_TREES);
        run.remove(&mut compare, number);
        let text = tree.text(&mut compare.random, 0);
        run.add(&mut compare, &text);
        assert_eq!(run.texts[&number], text);
        run.add(&mut compare, &text);
    }
    for number in (0..MAX_TREES).step_by(11) {
        run.remove(&mut compare, number);
    }
    assert!(run.beside_the_graph() >= 200);
    compare.met("full index", &[(0, 190), (1, 1), (6, 11), (7, 190)]);
}

/// What is read as in the form call, and then refused or not beside one held tree.
#[test]
fn additions_of_every_short_text() {
    let mut compare = Comparison::new(25);
    let mut held = Run::default();
    held.add(&mut compare, b"(1,2);");
    let memory = held.plain.memory();
    let marks = every_text(b"[&UR]1;", 4);
    for text in every_text(b"(),;12 0", 4).into_iter().chain(marks) {
        let expected = plain::index_add(&memory, &text);
        compare.index_add(&memory, &text, &expected);
    }
    for text in [
        &b"(1,2);"[..],
        b" ( 02,\t1 )\r\n;",
        b"[&R](1,2);",
        b"[&U](1,2);",
        b"[&U](1,2);;",
    ] {
        let expected = plain::index_add(&memory, text);
        compare.index_add(&memory, text, &expected);
    }
    let least = [(0, 4), (1, 5_000), (2, 500), (5, 40), (7, 7_000), (10, 1)];
    compare.met("additions of every short text", &least);
}

/// Memory from which some trees were taken out by hand, so that there are gaps, and damaged memory.
#[test]
fn memory_of_any_bytes() {
    let mut compare = Comparison::new(26);
    let mut gaps = 0;
    for turn in 0..6_000 {
        let trees = 1 + compare.random.below(8);
        let leaves = 1 + compare.random.below([5, 5, 5, 64][turn % 4]);
        let set = labels(&mut compare.random, leaves);
        let made = chains(&mut compare.random, Kind::Rooted, &set, trees, 3);
        let mut index = plain::Index::default();
        for _ in 0..trees {
            let tree = &made[compare.random.below(trees)];
            let text = tree.text(&mut compare.random, 0);
            index.add(&text).expect("a tree of the same labels");
        }
        let mut memory = index.memory();
        for _ in 0..compare.random.pick(&[0, 0, 1, 3]) {
            take_out(&mut memory, compare.random.below(trees));
        }
        if turn % 3 > 0 {
            damage_index(&mut compare.random, &mut memory);
        } else {
            let held = plain::Index::of_memory(&memory).expect("an index");
            gaps += usize::from(held.numbers().enumerate().any(|(i, number)| i < number));
        }
        let text = some_text(&mut compare.random, &made[0]);
        let number = some_number(&mut compare.random, &(0..trees).collect::<Vec<_>>());
        compare.index_calls(&memory, &text, number);
    }
    compare.index_calls(&[255; INDEX_BYTES], b"(1,2);", 0);
    let least = [(0, 3_000), (7, 20_000), (12, 8_000), (13, 1_000)];
    compare.met("memory of any bytes", &least);
    assert!(gaps >= 500, "{gaps} with gaps only");
}

/// What the type adds to the calls.
#[test]
fn indices_as_values() {
    let mut index = Index::default();
    assert_eq!(index, Index::new());
    assert_eq!(index.as_bytes(), [0; INDEX_BYTES]);
    assert_eq!(index.add(b"((1,2),3);"), Ok(0));
    let copy = index.clone();
    assert_eq!(index.add(b"(1,(2,3));"), Ok(1));
    assert_ne!(index, copy);
    assert_eq!(index.neighbours(0), Ok(vec![1]));
    assert_eq!(copy.neighbours(0), Ok(vec![]));
    assert_eq!(format!("{index:?}"), "Index { .. }");
    let mut fewer = index.clone();
    assert_eq!(fewer.remove(1), Ok(()));
    assert_eq!(fewer, copy);
    assert_eq!(fewer.remove(0), Ok(()));
    assert_eq!(fewer, Index::new());

    let longer = [index.as_bytes(), b"behind"].concat();
    assert_eq!(Index::from_bytes(&longer), index);
    let mut shorter = Index::from_bytes(&longer[..INDEX_BYTES - 1]);
    let short = Err(SHORT);
    assert_eq!(shorter.neighbours(0).map(drop).map_err(refusal), short);
    assert_eq!(shorter.add("((1,2),3);").map(drop).map_err(refusal), short);
    assert_eq!(shorter.remove(0).map_err(refusal), short);
    let none = Index::from_bytes(&[1; INDEX_BYTES])
        .neighbours(0)
        .unwrap_err();
    assert_eq!((none.reason(), none.at()), (Reason::NoIndex, None));
    let free = index.neighbours(2).unwrap_err();
    assert_eq!((free.reason(), free.at()), (Reason::NotHeld, None));
    assert_eq!(index.remove(2), Err(free));
}

/// A tree while 160 are held has no place, whatever its text; one of other labels or another kind has its own.
#[test]
fn places_of_refused_additions() {
    let mut index = Index::new();
    for number in 0..MAX_TREES {
        assert_eq!(index.add("(1,2);"), Ok(number));
    }
    let full = index.add("(1,2);").unwrap_err();
    assert_eq!((full.reason(), full.at()), (Reason::TooManyTrees, None));
    assert_eq!(index.remove(0), Ok(()));
    let labels = index.add("(1,3);").unwrap_err();
    assert_eq!(
        (labels.reason(), labels.at()),
        (Reason::LabelsDiffer, Some(5))
    );
    let kind = index.add("[&U](1,2);").unwrap_err();
    assert_eq!((kind.reason(), kind.at()), (Reason::OtherKind, Some(9)));
}
