//! The library beside an independent implementation, on texts that are the same in every run.

mod comparison;
mod generator;
mod index;

use comparison::{paired, refusal, Comparison};
use generator::{chains, damage, damage_row, labels, most_clades, Kind, Random, Tree};
use norbelath::{Drawing, Islands, Reason, Support, MAX_TEXT, MAX_TREES, SUPPORT_CLADES};
use plain::{Graph, Pair, Refusal};

/// Every text of up to so many of these bytes.
fn every_text(bytes: &[u8], most: usize) -> Vec<Vec<u8>> {
    let mut texts: Vec<Vec<u8>> = vec![vec![]];
    let mut from = 0;
    for _ in 0..most {
        let to = texts.len();
        for i in from..to {
            for &byte in bytes {
                let mut text = texts[i].clone();
                text.push(byte);
                texts.push(text);
            }
        }
        from = to;
    }
    texts
}

fn random_tree(random: &mut Random, most_leaves: usize) -> Tree {
    let n = 1 + random.below(most_leaves);
    let labels = labels(random, n);
    Tree::random(random, &labels)
}

/// Cut numbers in a tree of so many cuts, just behind its last one, and far behind, where the low bits are those of a
/// cut.
fn some_cuts(random: &mut Random, cuts: usize) -> [u64; 6] {
    let inside = random.below(cuts.max(1)) as u64;
    let cuts = cuts as u64;
    [
        inside,
        cuts.saturating_sub(1),
        cuts,
        cuts + 1,
        (1 << 32) + inside,
        u64::MAX - inside,
    ]
}

#[test]
fn every_short_text() {
    let mut compare = Comparison::new(1);
    for (i, text) in every_text(b"(),;12 0", 5).iter().enumerate() {
        compare.form(text);
        compare.row(text);
        compare.plot(text);
        compare.cut(text, i as u64 % 4);
        compare.support(text);
        compare.pair(text, b"(2,1);");
        compare.pair(b"1;", text);
    }
    let least = [(0, 100), (1, 100_000), (2, 20_000), (3, 50), (5, 100)];
    compare.met("every short text", &least);
}

#[test]
fn every_short_table() {
    let mut compare = Comparison::new(2);
    for text in every_text(b",;12 0", 5) {
        compare.table(&text);
        compare.graphs(&text);
        compare.support(&text);
    }
    let least = [(0, 100), (1, 5_000), (2, 5_000), (5, 50)];
    compare.met("every short table", &least);
}

/// Marks, whole and broken, and what may stand in the top of an unrooted tree.
#[test]
fn every_short_mark_and_top() {
    let mut compare = Comparison::new(16);
    let marks = every_text(b"[&UR]1;", 5);
    let tops = every_text(b"(),;23", 5);
    let tops = tops.iter().map(|text| [b"[&U](1,", &text[..]].concat());
    for text in marks.into_iter().chain(tops) {
        compare.form(&text);
        compare.row(&text);
        compare.plot(&text);
        compare.cut(&text, 0);
        compare.pair(&text, b"[&U](1,2);");
        compare.pair(b"[&U]1;", &text);
        compare.table(&text);
    }
    let least = [
        (0, 20),
        (1, 100_000),
        (2, 2_000),
        (3, 400),
        (5, 10),
        (10, 100),
    ];
    compare.met("every short mark and top", &least);
}

#[test]
fn every_cut_of_random_trees() {
    let mut compare = Comparison::new(3);
    for leaves in (1..=64).cycle().take(320) {
        let labels = labels(&mut compare.random, leaves);
        let text = Tree::random(&mut compare.random, &labels).text(&mut compare.random, 10);
        compare.form(&text);
        let cuts = 2 * leaves - 2;
        for cut in 0..cuts as u64 {
            compare.cut(&text, cut);
        }
        for cut in some_cuts(&mut compare.random, cuts) {
            compare.cut(&text, cut);
        }
    }
    let least = [(0, 20_000), (7, 20_000), (9, 1_000)];
    compare.met("every cut of random trees", &least);
}

/// How often a test saw yes, and no; yes and no after more forests than the trees have leaves; and another number of
/// forests with the trees exchanged.
#[derive(Default)]
struct Seen {
    yes: usize,
    no: usize,
    many: [usize; 2],
    exchanged: usize,
}

impl Seen {
    /// Counts the answer to two rooted trees of so many leaves, with that to the same exchanged, if they are accepted.
    fn count(&mut self, leaves: usize, answers: [Option<Pair>; 2]) {
        let (answer, exchanged) = match answers {
            [Some(answer), Some(exchanged)] => (answer, exchanged),
            _ => return,
        };
        assert_eq!(answer.apart, exchanged.apart);
        assert!(answer.forests <= 2 * leaves - 2);
        assert!(answer.forests >= usize::from(answer.apart));
        self.yes += usize::from(answer.apart);
        self.no += usize::from(!answer.apart);
        self.many[usize::from(answer.apart)] += usize::from(answer.forests > leaves);
        self.exchanged += usize::from(answer.forests != exchanged.forests);
    }

    /// Ends a test: it saw yes and no so many times or more, and the others a tenth as often.
    fn met(&self, least: usize) {
        let Seen { yes, no, .. } = self;
        println!(
            "{yes} yes, {no} no, {:?} after many forests, {} other numbers exchanged",
            self.many, self.exchanged
        );
        assert!(*yes >= least && *no >= least, "{yes} yes and {no} no only");
        assert!(self
            .many
            .into_iter()
            .chain([self.exchanged])
            .all(|seen| 10 * seen >= least));
    }
}

/// Two trees after no move, one, two and many; some with other labels.
#[test]
fn pairs_of_trees() {
    let mut compare = Comparison::new(4);
    let mut seen = Seen::default();
    for turn in 0..12_000 {
        let leaves = 1 + compare.random.below([64, 8][turn % 2]);
        let set = labels(&mut compare.random, leaves);
        let tree = Tree::random(&mut compare.random, &set);
        let mut other = tree.clone();
        if turn % 5 == 0 {
            let set = labels(&mut compare.random, leaves);
            other = Tree::random(&mut compare.random, &set);
        }
        for _ in 0..compare.random.pick(&[0, 1, 1, 2, 3, 20]) {
            other = other.moved(&mut compare.random);
        }
        let text = tree.text(&mut compare.random, 5);
        let other = other.text(&mut compare.random, 5);
        let answers = [compare.pair(&text, &other), compare.pair(&other, &text)];
        seen.count(leaves, answers);
    }
    compare.met("pairs of trees", &[(0, 16_000), (5, 2_000)]);
    seen.met(2_000);
}

/// The answers of the pair call and of the row pair call, to be compared.
fn pair_call(text: &str, other: &str) -> Result<Pair, Refusal> {
    norbelath::pair(text, other).map(paired).map_err(refusal)
}

fn row_pair_call(row: &[u64], other: &[u64]) -> Result<Pair, Refusal> {
    norbelath::row_pair(row, other).map(paired).map_err(refusal)
}

/// The numbers of forests of trees worked out by hand, in both orders, as texts and as rows.
#[test]
fn forests_compared() {
    let samples = [
        // Cut 0 prunes a clade that the other tree has not, and cut 1 leaves a forest of both.
        ("(((1,2),3),4);", "((1,2),(3,4));", true, [1, 1]),
        // No, and the leaves are all that both have.
        ("(((1,2),3),4);", "(((3,4),1),2);", false, [4, 4]),
        ("((((4,5),1),2),3);", "((((1,2),3),4),5);", false, [5, 5]),
        // The forest of both is that without leaf 4, which is the last cut of the one and the fourth of the other.
        ("(((1,2),3),4);", "(((1,4),2),3);", true, [4, 2]),
        // The same with leaf 5, and (1,2) counts too.
        ("((((1,2),3),4),5);", "((((1,2),5),3),4);", true, [6, 4]),
        ("((((1,2),3),4),5);", "(((1,2),(4,5)),3);", false, [6, 6]),
        // Equal topologies.
        ("((1,2),3);", "(3,(2,1));", false, [0, 0]),
        ("(10,2);", "(2,10);", false, [0, 0]),
        ("7;", " 7 ;", false, [0, 0]),
    ];
    for (one, other, apart, forests) in samples {
        let rows = [one, other].map(|text| norbelath::row(text).unwrap());
        for (i, forests) in forests.into_iter().enumerate() {
            let texts = [[one, other], [other, one]][i];
            let expected = Ok(Pair { apart, forests });
            assert_eq!(pair_call(texts[0], texts[1]), expected, "{texts:?}");
            let answer = row_pair_call(&rows[i], &rows[1 - i]);
            assert_eq!(answer, expected, "{texts:?}");
        }
    }
}

/// Unrooted trees have the number 0, apart or not, and a refusal has none.
#[test]
fn no_forests_compared() {
    for (other, apart) in [("[&U](1,(2,3),4);", true), ("[&U]((1,2),3,4);", false)] {
        let answer = pair_call("[&U](1,2,(3,4));", other);
        assert_eq!(answer, Ok(Pair { apart, forests: 0 }), "{other}");
    }
    let refused = |number, text, place| {
        Err(Refusal {
            number,
            text,
            place,
        })
    };
    let one = "(((1,2),3),4);";
    assert_eq!(pair_call(one, "(1,2);x"), refused(1, 1, 6));
    assert_eq!(pair_call(one, "(1,(2,3));"), refused(5, 1, 9));
    assert_eq!(pair_call(one, "[&U](1,2,(3,4));"), refused(10, 1, 15));
    assert_eq!(row_pair_call(&[7, 3, 7], &[7, 3, 3]), refused(11, 1, 0));
    assert_eq!(row_pair_call(&[7, 3, 7], &[3, 3]), refused(5, 1, 0));
}

/// A comb of 64 leaves, and the same with the last leaf above 61 of the others: only the last of the 126 cuts leaves a
/// forest of both, and 60 forks and all leaves count. Exchanged, leaf 64 comes before the leaves 62 and 63.
#[test]
fn most_forests_compared() {
    let comb = |labels: &[u8]| {
        let mut text = labels[0].to_string();
        for label in &labels[1..] {
            text = format!("({text},{label})");
        }
        text + ";"
    };
    let labels: Vec<u8> = (1..=64).collect();
    let moved = [&labels[..61], &[64, 62, 63]].concat();
    let texts = [comb(&labels), comb(&moved)];
    let rows = texts.clone().map(|text| norbelath::row(text).unwrap());
    for (i, forests) in [124, 122].into_iter().enumerate() {
        let expected = Ok(Pair {
            apart: true,
            forests,
        });
        assert_eq!(pair_call(&texts[i], &texts[1 - i]), expected);
        assert_eq!(row_pair_call(&rows[i], &rows[1 - i]), expected);
    }
}

/// The same for unrooted trees; at times one of the two is rooted.
#[test]
fn pairs_of_unrooted_trees() {
    let mut compare = Comparison::new(17);
    let (mut yes, mut no) = (0, 0);
    for turn in 0..8_000 {
        let leaves = 1 + compare.random.below([64, 8][turn % 2]);
        let set = labels(&mut compare.random, leaves);
        let tree = Tree::random(&mut compare.random, &set);
        let mut other = tree.clone();
        if turn % 9 == 0 {
            let set = labels(&mut compare.random, leaves);
            other = Tree::random(&mut compare.random, &set);
        }
        for _ in 0..compare.random.pick(&[0, 1, 1, 2, 3, 20]) {
            other = other.moved_as(Kind::Unrooted, &mut compare.random);
        }
        let mut kinds = [Kind::Unrooted; 2];
        if turn % 8 == 0 {
            kinds[compare.random.below(2)] = Kind::Rooted;
        }
        let text = tree.text_as(kinds[0], &mut compare.random, 5);
        let other = other.text_as(kinds[1], &mut compare.random, 5);
        compare.form(&text);
        if let Some(answer) = compare.pair(&text, &other) {
            let rooted = kinds[0] == Kind::Rooted;
            assert!(rooted || answer.forests == 0);
            yes += usize::from(answer.apart);
            no += usize::from(!answer.apart);
        }
    }
    compare.met(
        "pairs of unrooted trees",
        &[(0, 12_000), (5, 200), (10, 900)],
    );
    assert!(yes >= 1_500 && no >= 1_500, "{yes} yes and {no} no only");
}

#[test]
fn damaged_texts() {
    let mut compare = Comparison::new(5);
    for turn in 0..12_000 {
        let tree = random_tree(&mut compare.random, [64, 6][turn % 2]);
        let whole = tree.text(&mut compare.random, 5);
        let mut text = whole.clone();
        damage(&mut compare.random, &mut text);
        let mut other = whole.clone();
        damage(&mut compare.random, &mut other);
        compare.form(&text);
        compare.row(&text);
        compare.plot(&text);
        for cut in some_cuts(&mut compare.random, tree.nodes() - 1) {
            compare.cut(&text, cut);
        }
        compare.pair(&text, &whole);
        compare.pair(&whole, &text);
        compare.pair(&text, &other);
        compare.support(&text);
    }
    let least = [
        (0, 4_000),
        (1, 50_000),
        (2, 20_000),
        (3, 5_000),
        (5, 500),
        (9, 4_000),
    ];
    compare.met("damaged texts", &least);
}

/// Tables of trees that are near each other, whole and damaged, up to and above 160 of them.
#[test]
fn tables_of_trees() {
    let mut compare = Comparison::new(6);
    for turn in 0..4_000 {
        let trees = match turn % 20 {
            0 => MAX_TREES,
            1 => MAX_TREES + 1,
            _ => compare.random.below(24),
        };
        let leaves = 1 + compare.random.below([7, 7, 7, 20][turn % 4]);
        let mut set = labels(&mut compare.random, leaves);
        let mut tree = Tree::random(&mut compare.random, &set);
        let mut text = Vec::new();
        for _ in 0..trees {
            text.extend(tree.text(&mut compare.random, 2));
            for _ in 0..compare.random.pick(&[0, 1, 1, 2, 5]) {
                tree = tree.moved(&mut compare.random);
            }
            if compare.random.percent(1) {
                set = labels(&mut compare.random, leaves);
                tree = Tree::random(&mut compare.random, &set);
            }
        }
        if turn % 3 == 2 {
            damage(&mut compare.random, &mut text);
        }
        compare.table(&text);
        compare.graphs(&text);
        compare.support(&text);
    }
    let least = [(0, 4_000), (1, 1_000), (2, 500), (3, 50), (5, 500), (6, 50)];
    compare.met("tables of trees", &least);
}

/// The same for unrooted trees; in some tables, a few of them are rooted.
#[test]
fn tables_of_unrooted_trees() {
    let mut compare = Comparison::new(18);
    for turn in 0..2_000 {
        let trees = match turn % 20 {
            0 => MAX_TREES,
            1 => MAX_TREES + 1,
            _ => compare.random.below(24),
        };
        let leaves = 1 + compare.random.below([7, 7, 7, 20][turn % 4]);
        let set = labels(&mut compare.random, leaves);
        let mut tree = Tree::random(&mut compare.random, &set);
        let mut text = Vec::new();
        for _ in 0..trees {
            let kind = match turn % 3 == 0 && compare.random.percent(10) {
                true => Kind::Rooted,
                false => Kind::Unrooted,
            };
            text.extend(tree.text_as(kind, &mut compare.random, 2));
            for _ in 0..compare.random.pick(&[0, 1, 1, 2, 5]) {
                tree = tree.moved_as(Kind::Unrooted, &mut compare.random);
            }
        }
        if turn % 3 == 2 {
            damage(&mut compare.random, &mut text);
        }
        compare.table(&text);
        compare.graphs(&text);
        compare.support(&text);
        compare.sheet(&text);
    }
    let least = [
        (0, 6_000),
        (1, 1_000),
        (2, 500),
        (3, 50),
        (5, 50),
        (6, 100),
        (10, 3_000),
    ];
    compare.met("tables of unrooted trees", &least);
}

/// The first positions of all topologies, in order.
fn first_positions(firsts: &[u16]) -> Vec<u16> {
    let own = (0..).zip(firsts).filter(|&(i, &first)| i == first);
    own.map(|(i, _)| i).collect()
}

/// How many islands have two topologies or more.
fn groups(x: &Islands) -> usize {
    let mut sizes = [0; MAX_TREES];
    for i in first_positions(&x.firsts) {
        sizes[x.islands[i as usize] as usize] += 1;
    }
    sizes.iter().filter(|&&size| size > 1).count()
}

/// How many first positions only a chain of several pairs joins to the smallest of their island.
fn joined_by_chains(x: &Islands) -> usize {
    let apart = |&i: &u16| {
        let number = x.islands[i as usize];
        i != number && !x.pairs.contains(&(number, i))
    };
    first_positions(&x.firsts).into_iter().filter(apart).count()
}

/// Tables of several islands, whose trees are mixed; small ones and full ones.
#[test]
fn islands_of_trees() {
    let mut compare = Comparison::new(12);
    let (mut several, mut chained) = (0, 0);
    for turn in 0..1_000 {
        let trees = match turn % 20 {
            0 => MAX_TREES,
            _ => 2 + compare.random.below(30),
        };
        let leaves = 5 + compare.random.below([6, 16][turn % 2]);
        let set = labels(&mut compare.random, leaves);
        let longest = compare.random.pick(&[2, 4, 8, 20]);
        let mut text = Vec::new();
        let kind = [Kind::Rooted, Kind::Rooted, Kind::Unrooted][turn % 3];
        for tree in chains(&mut compare.random, kind, &set, trees, longest) {
            text.extend(tree.text_as(kind, &mut compare.random, 2));
        }
        let answer = compare.islands(&text).expect("a table of trees");
        several += usize::from(groups(&answer) > 1);
        chained += joined_by_chains(&answer);
        compare.support(&text);
    }
    compare.met("islands of trees", &[(0, 1_600), (10, 300)]);
    println!("{several} tables of several islands, {chained} trees joined by chains");
    assert!(several >= 500 && chained >= 5_000);
}

/// What tables with copies showed, so that a test can tell that it showed enough.
#[derive(Debug, Default)]
struct Copied {
    /// Tables whose graph has other pairs if copies are kept apart.
    tables: usize,
    /// Copies that have another copy between their first and them.
    third: usize,
    /// Copies without neighbours.
    alone: usize,
    /// Copies that are not in the island which has the number of their first.
    joined: usize,
}

impl Copied {
    fn note(&mut self, merged: &Graph, apart: &Graph, islands: &Islands) {
        self.tables += usize::from(merged.pairs != apart.pairs);
        for (i, &first) in merged.firsts.iter().enumerate() {
            if first as usize != i {
                let between = &merged.firsts[first as usize + 1..i];
                self.third += usize::from(between.contains(&first));
                self.alone += usize::from(apart.counts[i] == 0);
                self.joined += usize::from(islands.islands[i] != first);
            }
        }
    }
}

/// Tables of few topologies, each of them in several places and written in several ways; small ones and full ones.
#[test]
fn copies_of_trees() {
    let mut compare = Comparison::new(13);
    let mut copied = Copied::default();
    for turn in 0..1_000 {
        let trees = match turn % 20 {
            0 => MAX_TREES,
            _ => 2 + compare.random.below(30),
        };
        let leaves = 2 + compare.random.below([5, 16][turn % 2]);
        let set = labels(&mut compare.random, leaves);
        let made = compare.random.pick(&[2, 4, 8, 16]);
        let longest = compare.random.pick(&[1, 3, 8]);
        let kind = [Kind::Rooted, Kind::Rooted, Kind::Unrooted][turn % 3];
        let few = chains(&mut compare.random, kind, &set, made, longest);
        let mut text = Vec::new();
        for _ in 0..trees {
            let tree = &few[compare.random.below(few.len())];
            text.extend(tree.text_as(kind, &mut compare.random, 2));
        }
        let (merged, apart) = compare
            .merged_and_kept_apart(&text)
            .expect("a table of trees");
        let islands = compare.islands(&text).expect("a table of trees");
        compare.interchanges(&text);
        compare.support(&text);
        copied.note(&merged, &apart, &islands);
    }
    compare.met("copies of trees", &[(0, 5_000), (10, 600)]);
    println!("{copied:?}");
    assert!(copied.tables >= 400 && copied.third >= 10_000);
    assert!(copied.alone >= 5_000 && copied.joined >= 3_000);
}

/// What the clades of tables showed, so that a test can tell that it showed enough.
#[derive(Debug, Default)]
struct Supported {
    /// Tables of three or more leaves whose majority tree has one fork, with every label on it.
    stars: usize,
    /// Tables whose majority tree has more forks than that, and one of them more than two children.
    between: usize,
    /// Tables whose majority tree is binary, though the trees are not all copies.
    binary: usize,
    /// Clades of just half of the trees.
    halves: usize,
    /// Clades that stand behind another of as many trees.
    ties: usize,
}

impl Supported {
    fn note(&mut self, leaves: usize, x: &Support) {
        let twice = |&(_, trees): &(u64, u16)| 2 * usize::from(trees);
        let kept = x.clades.iter().filter(|&c| twice(c) > x.trees).count();
        self.stars += usize::from(leaves > 2 && kept == 1);
        self.between += usize::from(kept > 1 && kept < leaves - 1);
        self.binary += usize::from(kept == leaves - 1 && x.clades.len() > kept);
        self.halves += x.clades.iter().filter(|&c| twice(c) == x.trees).count();
        self.ties += x.clades.windows(2).filter(|c| c[0].1 == c[1].1).count();
    }
}

/// Tables of trees that are a few moves from one tree, so that many have the same clades; small ones and full ones.
#[test]
fn support_of_trees() {
    let mut compare = Comparison::new(14);
    let mut supported = Supported::default();
    for turn in 0..2_000 {
        let trees = match turn % 20 {
            0 => MAX_TREES,
            _ => 1 + compare.random.below(30),
        };
        let leaves = 1 + compare.random.below([7, 20, 64][turn % 3]);
        let set = labels(&mut compare.random, leaves);
        let middle = Tree::random(&mut compare.random, &set);
        let most_moves = compare.random.pick(&[1, 2, 4, 8, 40]);
        let mut text = Vec::new();
        for _ in 0..trees {
            let mut tree = middle.clone();
            for _ in 0..compare.random.below(most_moves + 1) {
                tree = tree.moved(&mut compare.random);
            }
            text.extend(tree.text(&mut compare.random, 2));
        }
        let answer = compare.support(&text).expect("a table of trees");
        supported.note(leaves, &answer);
    }
    compare.met("support of trees", &[(0, 2_000)]);
    println!("{supported:?}");
    assert!(supported.stars >= 200 && supported.between >= 400);
    assert!(supported.binary >= 500 && supported.halves >= 1_000 && supported.ties >= 100_000);
}

/// As many clades as a table can have.
#[test]
fn support_of_most_clades() {
    let mut compare = Comparison::new(15);
    for blanks in [0, 2] {
        let mut trees = most_clades();
        compare.random.shuffle(&mut trees);
        let mut text = Vec::new();
        for tree in trees {
            text.extend(tree.text(&mut compare.random, blanks));
        }
        let answer = compare.support(&text).expect("a table of trees");
        assert_eq!(answer.clades.len(), SUPPORT_CLADES);
    }
    compare.met("support of most clades", &[(0, 2)]);
}

/// Text to row, and back to the canonical text, for trees of every number of leaves, rooted or not.
#[test]
fn rows_of_trees() {
    let mut compare = Comparison::new(20);
    for (turn, leaves) in (1..=64).cycle().take(3_200).enumerate() {
        let set = labels(&mut compare.random, leaves);
        let tree = Tree::random(&mut compare.random, &set);
        let kind = [Kind::Rooted, Kind::Rooted, Kind::Rooted, Kind::Unrooted][turn % 4];
        let text = tree.text_as(kind, &mut compare.random, 5);
        if let Some(row) = compare.row(&text) {
            assert_eq!(row.len(), leaves);
            let canonical = compare.row_text(&row).expect("the row of a tree");
            assert_eq!(Ok(&canonical), norbelath::form(&text).as_ref());
            assert_eq!(norbelath::row(&canonical), Ok(row));
        }
    }
    compare.met("rows of trees", &[(0, 4_000), (7, 5_000), (10, 700)]);
}

/// The rows of a node and of all below it, as its canonical text is read; gives the row of the node, and adds the
/// drawing of each, which a fork has its place for before its children have theirs.
fn drawn(text: &mut &[u8], leaves: &mut u16, drawings: &mut Vec<Drawing>) -> f64 {
    if text[0] != b'(' {
        let digits = text.iter().take_while(|byte| byte.is_ascii_digit()).count();
        *text = &text[digits..];
        let row = f64::from(*leaves);
        *leaves += 1;
        drawings.push(Drawing::Tip { row });
        return row;
    }
    let place = drawings.len();
    drawings.push(Drawing::Tip { row: 0.0 });
    *text = &text[1..];
    let first = drawn(text, leaves, drawings);
    *text = &text[1..];
    let second = drawn(text, leaves, drawings);
    *text = &text[1..];
    let row = (first + second) * 0.5;
    drawings[place] = Drawing::Fork { row, first, second };
    row
}

/// Plots of trees of every number of leaves, rooted or not, and the drawings beside those of the canonical text.
#[test]
fn plots_of_trees() {
    let mut compare = Comparison::new(29);
    for (turn, leaves) in (1..=64).cycle().take(3_200).enumerate() {
        let set = labels(&mut compare.random, leaves);
        let tree = Tree::random(&mut compare.random, &set);
        let kind = [Kind::Rooted, Kind::Rooted, Kind::Rooted, Kind::Unrooted][turn % 4];
        let text = tree.text_as(kind, &mut compare.random, 5);
        if let Some(plot) = compare.plot(&text) {
            assert_eq!(plot.rows.len(), 2 * leaves - 1);
            let canonical = norbelath::form(&text).expect("a tree");
            let mut expected = vec![];
            drawn(&mut canonical.as_bytes(), &mut 0, &mut expected);
            assert_eq!(plot.drawings().collect::<Vec<_>>(), expected);
        }
    }
    compare.met("plots of trees", &[(0, 2_000), (7, 9_000), (10, 700)]);
}

/// Every list of up to five numbers over three labels, and damaged rows of every number of leaves.
#[test]
fn slices_that_are_no_rows() {
    let mut compare = Comparison::new(21);
    for list in every_text(&[0, 1, 2, 3, 4, 5, 6, 7], 5) {
        let list: Vec<u64> = list.into_iter().map(u64::from).collect();
        compare.row_text(&list);
    }
    for leaves in (1..=64).cycle().take(6_400) {
        let set = labels(&mut compare.random, leaves);
        let text = Tree::random(&mut compare.random, &set).text(&mut compare.random, 0);
        let mut row = compare.row(&text).expect("a rooted tree");
        damage_row(&mut compare.random, &mut row);
        compare.row_text(&row);
    }
    let least = [(0, 6_500), (7, 40_000), (11, 35_000)];
    compare.met("slices that are no rows", &least);
}

/// Two rows after no move, one, two and many, beside the pair call on the texts; some with other labels, some damaged.
#[test]
fn pairs_of_rows() {
    let mut compare = Comparison::new(22);
    let mut seen = Seen::default();
    for turn in 0..8_000 {
        let leaves = 1 + compare.random.below([64, 8][turn % 2]);
        let set = labels(&mut compare.random, leaves);
        let tree = Tree::random(&mut compare.random, &set);
        let mut other = tree.clone();
        if turn % 9 == 0 {
            let set = labels(&mut compare.random, leaves);
            other = Tree::random(&mut compare.random, &set);
        }
        for _ in 0..compare.random.pick(&[0, 1, 1, 2, 3, 20]) {
            other = other.moved(&mut compare.random);
        }
        let texts = [tree, other].map(|x| x.text(&mut compare.random, 0));
        let [mut row, mut other] = [0, 1].map(|i| compare.row(&texts[i]).expect("a rooted tree"));
        let answer = compare.row_pair(&row, &other);
        let of_texts = norbelath::pair(&texts[0], &texts[1]).map(paired);
        assert_eq!(answer, of_texts.ok());
        seen.count(leaves, [answer, compare.row_pair(&other, &row)]);
        if turn % 3 > 0 {
            damage_row(&mut compare.random, &mut row);
        }
        if turn % 3 < 2 {
            damage_row(&mut compare.random, &mut other);
        }
        compare.row_pair(&row, &other);
    }
    compare.met("pairs of rows", &[(0, 25_000), (5, 800), (11, 6_000)]);
    seen.met(1_500);
}

/// What the pair lister prints: small tables, whole and damaged, the largest, and texts around the limit.
#[test]
fn sheets() {
    let mut compare = Comparison::new(11);
    for text in every_text(b",;1 0", 3) {
        compare.sheet(&text);
    }
    for turn in 0..200 {
        let mut tree = random_tree(&mut compare.random, 7);
        let mut text = Vec::new();
        for _ in 0..[3, 20, MAX_TREES, MAX_TREES + 1][turn % 4] {
            text.extend(tree.text(&mut compare.random, 2));
            tree = tree.moved(&mut compare.random);
        }
        if turn % 3 == 2 {
            damage(&mut compare.random, &mut text);
        }
        compare.sheet(&text);
    }
    let labels: Vec<u8> = (1..=64).collect();
    let largest = Tree::random(&mut compare.random, &labels).text(&mut compare.random, 0);
    compare.sheet(&largest.repeat(MAX_TREES));
    compare.sheet(&[b' '; MAX_TEXT]);
    compare.sheet(&[b' '; MAX_TEXT + 1]);
    compare.met("sheets", &[(0, 350), (7, 350)]);
}

/// Full tables of the largest trees, each one move from the one before; in one of them, eight trees again and again.
/// Then a byte behind them.
fn full_tables_of(kind: Kind, compare: &mut Comparison) {
    let labels: Vec<u8> = (1..=64).collect();
    for made in [MAX_TREES, 8] {
        let mut trees = vec![Tree::random(&mut compare.random, &labels)];
        while trees.len() < made {
            let last = trees[trees.len() - 1].clone();
            trees.push(last.moved_as(kind, &mut compare.random));
        }
        let mut text = Vec::new();
        for tree in trees.iter().cycle().take(MAX_TREES) {
            text.extend(tree.text_as(kind, &mut compare.random, 0));
        }
        compare.table(&text);
        compare.graphs(&text);
        compare.support(&text);
        text.extend(b" \t;");
        compare.table(&text);
        compare.graphs(&text);
        compare.support(&text);
    }
}

#[test]
fn full_tables() {
    let mut compare = Comparison::new(7);
    full_tables_of(Kind::Rooted, &mut compare);
    compare.met("full tables", &[(0, 14), (6, 14)]);
}

#[test]
fn full_unrooted_tables() {
    let mut compare = Comparison::new(19);
    full_tables_of(Kind::Unrooted, &mut compare);
    compare.met("full unrooted tables", &[(0, 10), (6, 10), (10, 8)]);
}

/// Text lengths around the limit. Too long goes before anything in the text, and too short a slice before that.
#[test]
fn long_texts() {
    let mut compare = Comparison::new(8);
    let lengths = [MAX_TEXT - 1, MAX_TEXT, MAX_TEXT + 1, 2 * MAX_TEXT, 1 << 17];
    for turn in 0..120 {
        let tree = random_tree(&mut compare.random, 64).text(&mut compare.random, 0);
        let length = lengths[turn % 5];
        // A tree among blanks, among bytes that are none or in a long label; or only those.
        let mut text = vec![b" \nx7"[turn % 4]; length];
        if turn % 7 > 0 {
            let places = [0, length / 2, length - tree.len()];
            let at = compare.random.pick(&places);
            text[at..at + tree.len()].copy_from_slice(&tree);
        }
        compare.form(&text);
        compare.row(&text);
        compare.plot(&text);
        compare.cut(&text, 0);
        compare.pair(&text, &tree);
        compare.pair(&tree, &text);
        compare.pair(&text, &text);
        compare.table(&text);
        compare.graphs(&text);
        compare.support(&text);
        compare.short_tables(&text);
    }
    let least = [(0, 100), (1, 100), (7, 3_000), (8, 500)];
    compare.met("long texts", &least);
}

/// Brackets around the limit of 63, alone or behind a subtree of many leaves.
#[test]
fn deep_texts() {
    let mut compare = Comparison::new(9);
    for turn in 0..2_000 {
        let mut text = Vec::new();
        if turn % 3 == 0 {
            text.push(b'(');
            text.extend(random_tree(&mut compare.random, 63).text(&mut compare.random, 0));
            *text.last_mut().unwrap() = b',';
        }
        let open = 50 + turn % 30;
        text.extend(vec![b'('; open]);
        let first = compare.random.below(3);
        text.extend(first.to_string().bytes());
        for label in first + 1..=first + open {
            text.extend(format!(",{label})").bytes());
        }
        text.push(b';');
        compare.form(&text);
        compare.row(&text);
        compare.plot(&text);
        compare.cut(&text, turn as u64 % 130);
        compare.pair(&text, b"1;");
        compare.table(&text);
        compare.graphs(&text);
        compare.support(&text);
    }
    let least = [(0, 1_000), (2, 1_000), (3, 1_000), (4, 5_000)];
    compare.met("deep texts", &least);
}

/// A slice that is too short is refused before the text is looked at, whatever the text is.
#[test]
fn short_slices() {
    let mut compare = Comparison::new(10);
    for turn in 0..2_000 {
        let mut text = random_tree(&mut compare.random, 64).text(&mut compare.random, 5);
        if turn % 2 == 0 {
            damage(&mut compare.random, &mut text);
        }
        compare.short_tables(&text);
    }
    compare.met("short slices", &[(7, 54_000)]);
}

/// The same bytes as `&str`, `String`, `&[u8]` and `Vec<u8>`, and bytes that are no UTF-8.
#[test]
fn texts_of_every_type() {
    let text = "(3,(2,1));";
    let (owned, bytes) = (text.to_string(), text.as_bytes().to_vec());
    let expected = Ok("((1,2),3);".to_string());
    assert_eq!(norbelath::form(text), expected);
    assert_eq!(norbelath::form(text.as_bytes()), expected);
    assert_eq!(norbelath::form(&owned), expected);
    assert_eq!(norbelath::form(&bytes), expected);
    assert_eq!(norbelath::form(owned), expected);
    assert_eq!(norbelath::form(bytes), expected);
    let refusal = norbelath::form(b"(1,\xff);").unwrap_err();
    assert_eq!(
        (refusal.reason(), refusal.at()),
        (Reason::WrongByte, Some(3))
    );
    assert_eq!(norbelath::sheet(b"\xff"), "refused 1 at 0\n");
}

/// The texts inside answers, of trees and of none.
#[test]
fn texts_in_answers() {
    let table = norbelath::table("(2,1); (12,10);").map_err(|x| x.at());
    assert_eq!(table, Err(Some(14)));
    let table = norbelath::table("[&U](12,2); [&U](02,012);").unwrap();
    assert_eq!(table.texts, "[&U](2,12);[&U](2,12);");
    let trees: Vec<&str> = table.trees().collect();
    assert_eq!(trees, ["[&U](2,12);"; 2]);
    assert_eq!(norbelath::table(" ").unwrap().trees().len(), 0);
    let support = norbelath::support("((1,2),3); ((1,3),2);").unwrap();
    assert_eq!(support.majority, "(1,2,3);");
    assert_eq!(norbelath::support("").unwrap().majority, "");
}

/// Refusals of two texts and of two rows, in words.
#[test]
fn words_of_the_other() {
    let long = [b' '; MAX_TEXT + 1];
    let words = [
        (
            norbelath::pair("1;", "(1,2);x"),
            "refused 1 at 6 of the other text: a byte that cannot stand there, or the text ends too soon",
        ),
        (
            norbelath::pair("1;", long),
            "refused 8 in the other text: a text above 65,535 bytes",
        ),
        (
            norbelath::pair(long, "1;"),
            "refused 8: a text above 65,535 bytes",
        ),
        (
            norbelath::row_pair(&[1], &[]),
            "refused 11 in the other row: numbers that are the row of no tree",
        ),
        (
            norbelath::row_pair(&[1], &[2]),
            "refused 5 in the other row: labels other than those of the first tree",
        ),
    ];
    for (answer, expected) in words {
        assert_eq!(answer.unwrap_err().to_string(), expected);
    }
}
