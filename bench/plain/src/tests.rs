//! The samples of document 01, copies, interchanges, islands, clade support,
//! unrooted trees, rows and plots.

use super::*;

fn refused<T>(number: u8, place: usize) -> Result<T, Refusal> {
    Err(Refusal {
        number,
        text: 0,
        place,
    })
}

fn text(s: &str) -> Result<Vec<u8>, Refusal> {
    Ok(s.as_bytes().to_vec())
}

fn listed(pairs: &[(u16, u16)], counts: &[u16], firsts: &[u16]) -> Result<Graph, Refusal> {
    Ok(Graph {
        pairs: pairs.to_vec(),
        counts: counts.to_vec(),
        firsts: firsts.to_vec(),
    })
}

/// The answer to two trees that are one move apart, after so many forests.
fn yes(forests: usize) -> Result<Pair, Refusal> {
    Ok(Pair {
        apart: true,
        forests,
    })
}

fn no(forests: usize) -> Result<Pair, Refusal> {
    Ok(Pair {
        apart: false,
        forests,
    })
}

/// `(((1,2),3), ...` with the given number of leaves.
fn left_comb(leaves: usize) -> String {
    let mut tree = String::from("1");
    for label in 2..=leaves {
        tree = format!("({tree},{label})");
    }
    tree + ";"
}

#[test]
fn forms() {
    assert_eq!(form(b"(3,(2,1));"), text("((1,2),3);"));
    assert_eq!(form(b"(10,2);"), text("(2,10);"));
    assert_eq!(form(b" 7 ;"), text("7;"));
    assert_eq!(form(b"(1,64);"), text("(1,64);"));
}

#[test]
fn refused_forms() {
    assert_eq!(form(b"(1,2,3);"), refused(1, 4));
    assert_eq!(form(b"(1,2)"), refused(1, 5));
    assert_eq!(form(b"(1,2);x"), refused(1, 6));
    assert_eq!(form(b"(1,1);"), refused(3, 3));
    assert_eq!(form(b"(1,65);"), refused(2, 3));
}

#[test]
fn empty_text() {
    assert_eq!(form(b""), refused(1, 0));
    assert_eq!(table(b""), Ok((vec![], vec![])));
    assert_eq!(graph(b""), listed(&[], &[], &[]));
    assert_eq!(graph_with_copies(b""), listed(&[], &[], &[]));
    assert_eq!(interchanges(b""), Ok((vec![], vec![])));
    has_islands("", &[], &[]);
    has_support("", &[], "");
    assert_eq!(sheet(b""), b"trees 0 pairs 0\n");
    assert_eq!(island_sheet(b""), b"");
    assert_eq!(support_sheet(b""), b"trees 0 clades 0\n");
}

#[test]
fn blanks_only() {
    assert_eq!(form(b" \t\r\n"), refused(1, 4));
    assert_eq!(table(b" \t\r\n"), Ok((vec![], vec![])));
}

#[test]
fn labels_at_the_end_of_the_text() {
    assert_eq!(form(b"(1,65"), refused(2, 3));
    assert_eq!(form(b"(1,1"), refused(3, 3));
    assert_eq!(form(b"(1,6"), refused(1, 4));
}

#[test]
fn tables() {
    assert_eq!(table(b"(1,2);(1,3);"), refused(5, 11));
    assert_eq!(table(b"(3,(2,1));\n(3,(10,2)) ;"), refused(5, 22));
    assert_eq!(
        table(b"(10,(2,1));\n(2,(10,1));"),
        Ok((b"((1,2),10);((1,10),2);".to_vec(), vec![11, 22]))
    );
}

#[test]
fn cuts() {
    let tree = b"((1,2),(3,4));";
    let forests = [
        "(3,4) (1,2);",
        "(2,(3,4)) 1;",
        "(1,(3,4)) 2;",
        "(1,2) (3,4);",
        "((1,2),4) 3;",
        "((1,2),3) 4;",
    ];
    for (c, forest) in forests.iter().enumerate() {
        assert_eq!(cut(tree, c as u64), text(forest));
    }
    assert_eq!(cut(tree, 6), refused(9, 0));
    assert_eq!(cut(tree, u64::MAX), refused(9, 0));
    assert_eq!(cut(b" 7 ;", 0), refused(9, 0));
    assert_eq!(cut(b"(1,2);x", 9), refused(1, 6));
}

#[test]
fn pairs() {
    assert_eq!(pair(b"(((1,2),3),4);", b"((1,2),(3,4));"), yes(1));
    assert_eq!(pair(b"(((1,2),3),4);", b"(((3,4),1),2);"), no(4));
    assert_eq!(pair(b"((((4,5),1),2),3);", b"((((1,2),3),4),5);"), no(5));
    assert_eq!(pair(b"((1,2),3);", b"(3,(2,1));"), no(0));
    assert_eq!(pair(b"1;", b"1;"), no(0));
}

/// The last leaf of the one is moved, and comes earlier in the other; then with
/// a clade in common, and two trees with one that are no pair.
#[test]
fn forests_compared_in_both_orders() {
    let samples = [
        ("(((1,2),3),4);", "(((1,4),2),3);", [yes(4), yes(2)]),
        ("((((1,2),3),4),5);", "((((1,2),5),3),4);", [yes(6), yes(4)]),
        ("((((1,2),3),4),5);", "(((1,2),(4,5)),3);", [no(6), no(6)]),
        ("((1,2),(3,4));", "(((1,2),3),4);", [yes(1), yes(1)]),
    ];
    for (one, other, expected) in samples {
        let [one, other] = [one, other].map(str::as_bytes);
        assert_eq!([pair(one, other), pair(other, one)], expected);
    }
}

/// Every two trees of up to five leaves: the number is at most 2n - 2, it is 1 or
/// more for yes, and for no it is how many clades both have.
#[test]
fn numbers_of_forests() {
    for leaves in 1..=5 {
        let texts = rooted_topologies(leaves);
        let clades = |text: &str| -> HashSet<u64> {
            let row = row(text.as_bytes()).unwrap();
            row[1..].iter().copied().filter(|&x| x != row[0]).collect()
        };
        for one in &texts {
            for other in &texts {
                let Pair { apart, forests } = pair(one.as_bytes(), other.as_bytes()).unwrap();
                assert!(forests <= 2 * leaves - 2);
                assert!(forests >= usize::from(apart));
                if one == other {
                    assert_eq!((apart, forests), (false, 0));
                } else if !apart {
                    let both = clades(one).intersection(&clades(other)).count();
                    assert_eq!(forests, leaves + both);
                }
            }
        }
    }
}

#[test]
fn three_shared_forests_and_one_pair() {
    let (one, other) = (b"(((1,2),3),4);", b"((1,2),(3,4));");
    let forests =
        |tree: &[u8]| -> HashSet<Vec<u8>> { (0..6).map(|c| cut(tree, c).unwrap()).collect() };
    assert_eq!(forests(one).intersection(&forests(other)).count(), 3);
    assert_eq!(
        graph(b"(((1,2),3),4);((1,2),(3,4));"),
        listed(&[(0, 1)], &[1, 1], &[0, 1])
    );
}

#[test]
fn order_of_the_pair_calls_refusals() {
    let second = |number, place| {
        Err(Refusal {
            number,
            text: 1,
            place,
        })
    };
    let long = vec![b' '; 65_536];
    assert_eq!(pair(&long, &long), refused(8, 0));
    assert_eq!(pair(b"x", &long), second(8, 0));
    assert_eq!(pair(b"1;x", b"x"), refused(1, 2));
    assert_eq!(pair(b"1;", b"2;x"), second(1, 2));
    assert_eq!(pair(b"1;", b" 2 ; "), second(5, 3));
}

#[test]
fn depth() {
    let deepest = left_comb(64);
    assert!(deepest.starts_with(&"(".repeat(63)));
    assert_eq!(form(deepest.as_bytes()), text(&deepest));
    assert_eq!(form(format!("({deepest}").as_bytes()), refused(4, 63));
}

#[test]
fn longest_texts() {
    let longest = left_comb(64);
    assert_eq!(longest.len(), 309);
    for c in 0..126 {
        assert_eq!(cut(longest.as_bytes(), c).unwrap().len(), 307);
    }
    assert_eq!(cut(longest.as_bytes(), 126), refused(9, 0));
}

#[test]
fn number_of_trees() {
    let full = "(1,2);".repeat(160);
    assert_eq!(table(full.as_bytes()).unwrap().1.len(), 160);
    assert_eq!(table(format!("{full} \n").as_bytes()).unwrap().1.len(), 160);
    assert_eq!(table(format!("{full} x").as_bytes()), refused(6, 961));
    let one_more = format!("{full}(1,2);");
    assert_eq!(table(one_more.as_bytes()), refused(6, 960));
    assert_eq!(graph(one_more.as_bytes()), refused(6, 960));
    assert_eq!(graph_with_copies(one_more.as_bytes()), refused(6, 960));
    assert_eq!(interchanges(one_more.as_bytes()), refused(6, 960));
    assert_eq!(islands(one_more.as_bytes()), refused(6, 960));
}

#[test]
fn length_of_the_text() {
    assert_eq!(table(&vec![b' '; 65_535]), Ok((vec![], vec![])));
    assert_eq!(table(&vec![b'x'; 65_536]), refused(8, 0));
    assert_eq!(graph(&vec![b'x'; 65_536]), refused(8, 0));
    assert_eq!(graph_with_copies(&vec![b'x'; 65_536]), refused(8, 0));
    assert_eq!(interchanges(&vec![b'x'; 65_536]), refused(8, 0));
    assert_eq!(islands(&vec![b'x'; 65_536]), refused(8, 0));
    assert_eq!(sheet(&vec![b'x'; 65_536]), b"refused 8 at 0\n");
}

/// Document 01's table, in which the first tree comes twice.
const SAMPLE: &[u8] = b"((2,1),3);\n(3,(2,1));\n(1,(2,3));\n((1,3),2);\n";

#[test]
fn sample_sheet() {
    let expected = "\
trees 4 pairs 5
tree 0 neighbours 2 unlinked 0 ((1,2),3);
tree 1 neighbours 2 unlinked 0 ((1,2),3);
tree 2 neighbours 3 unlinked 0 (1,(2,3));
tree 3 neighbours 3 unlinked 0 ((1,3),2);
pair 0 2
pair 0 3
pair 1 2
pair 1 3
pair 2 3
";
    assert_eq!(String::from_utf8(sheet(SAMPLE)).unwrap(), expected);
    assert_eq!(sheet(b"(1,2,3);"), b"refused 1 at 4\n");
}

#[test]
fn graphs_of_copies() {
    assert_eq!(
        graph(SAMPLE),
        listed(&[(0, 2), (0, 3), (2, 3)], &[2, 0, 2, 2], &[0, 0, 2, 3])
    );
    assert_eq!(
        graph_with_copies(SAMPLE),
        listed(
            &[(0, 2), (0, 3), (1, 2), (1, 3), (2, 3)],
            &[2, 2, 3, 3],
            &[0, 0, 2, 3]
        )
    );
    for graph in [graph, graph_with_copies] {
        assert_eq!(graph(b"(1,2);(2,1);"), listed(&[], &[0, 0], &[0, 0]));
        assert_eq!(graph(b"(1,2);(1,3);"), refused(5, 11));
    }
}

#[test]
fn full_tables_of_copies() {
    let table = "((1,2),3);".repeat(159) + "((1,3),2);";
    let mut firsts = [0; 160];
    firsts[159] = 159;
    let mut counts = [0; 160];
    (counts[0], counts[159]) = (1, 1);
    assert_eq!(
        graph(table.as_bytes()),
        listed(&[(0, 159)], &counts, &firsts)
    );
    let pairs: Vec<(u16, u16)> = (0..159).map(|i| (i, 159)).collect();
    let mut counts = [1; 160];
    counts[159] = 159;
    assert_eq!(
        graph_with_copies(table.as_bytes()),
        listed(&pairs, &counts, &firsts)
    );
}

/// Pairs of these positions, which ascend, by the pair call; counts of all.
fn pairs_by_call(trees: &[&str], positions: &[u16]) -> Listing {
    let (mut pairs, mut counts) = (Vec::new(), vec![0; trees.len()]);
    for &i in positions {
        for &j in positions.iter().filter(|&&j| i < j) {
            let (one, other) = (usize::from(i), usize::from(j));
            let answer = pair(trees[one].as_bytes(), trees[other].as_bytes());
            if answer.unwrap().apart {
                pairs.push((i, j));
                counts[one] += 1;
                counts[other] += 1;
            }
        }
    }
    (pairs, counts)
}

/// The graphs and islands of a table by its trees' forms and the pair call.
/// Gives whether the graphs differ.
fn is_merged_and_kept_apart(trees: &[&str]) -> bool {
    let table = trees.concat();
    let forms: Vec<Vec<u8>> = trees
        .iter()
        .map(|tree| form(tree.as_bytes()).unwrap())
        .collect();
    let first = |one: &Vec<u8>| forms.iter().position(|other| other == one).unwrap() as u16;
    let firsts: Vec<u16> = forms.iter().map(first).collect();
    let all: Vec<u16> = (0..).take(trees.len()).collect();
    let merged: Vec<u16> = all.iter().copied().filter(|i| firsts.contains(i)).collect();

    let (pairs, counts) = pairs_by_call(trees, &merged);
    let expected = listed(&pairs, &counts, &firsts);
    assert_eq!(graph(table.as_bytes()), expected, "{table}");
    let (all_pairs, counts) = pairs_by_call(trees, &all);
    let expected = listed(&all_pairs, &counts, &firsts);
    assert_eq!(graph_with_copies(table.as_bytes()), expected, "{table}");

    // The islands are also those of all pairs, with copies joined to firsts.
    let copies = firsts.iter().copied().zip(all);
    let joining: Vec<(u16, u16)> = all_pairs.iter().copied().chain(copies).collect();
    has_islands(&table, &pairs, &island_numbers(trees.len(), &joining));
    pairs != all_pairs
}

/// Every table of up to five of these texts: a chain of three trees, and its
/// middle written in another way.
#[test]
fn merged_and_kept_apart() {
    let texts = [
        "(((1,2),3),4);",
        "((1,2),(3,4));",
        "(((3,4),1),2);",
        "((4,3),(2,1));",
    ];
    let mut differing = 0;
    for trees in 0..=5 {
        for chosen in 0..texts.len().pow(trees) {
            let text = |k| texts[chosen / texts.len().pow(k) % texts.len()];
            let table: Vec<&str> = (0..trees).map(text).collect();
            differing += usize::from(is_merged_and_kept_apart(&table));
        }
    }
    assert!(differing > 1_000, "{differing}");
}

/// The canonical texts one interchange away from a tree.
fn interchanged(tree: &str) -> Vec<String> {
    let (tree, _) = read_one(tree.as_bytes(), 0, Takes::RootedOnly).unwrap();
    let tree = tree.rooted().unwrap();
    tree.interchanged_texts()
        .map(|text| String::from_utf8(text).unwrap())
        .collect()
}

#[test]
fn nodes_regrafted_above_their_aunts() {
    assert!(interchanged("1;").is_empty());
    assert!(interchanged("(1,2);").is_empty());
    assert_eq!(interchanged("((10,2),9);"), ["((2,9),10);", "(2,(9,10));"]);
    assert_eq!(
        interchanged("((1,2),(3,4));"),
        [
            "((1,(3,4)),2);",
            "(1,(2,(3,4)));",
            "(((1,2),3),4);",
            "(((1,2),4),3);",
        ]
    );
    assert_eq!(
        interchanged("(((1,2),3),4);"),
        [
            "(((1,2),4),3);",
            "(((1,3),2),4);",
            "((1,(2,3)),4);",
            "((1,2),(3,4));",
        ]
    );
}

/// All trees of up to six leaves, by interchanges from one to the next.
#[test]
fn trees_joined_by_interchanges() {
    for (leaves, topologies) in [(1, 1), (2, 1), (3, 3), (4, 15), (5, 105), (6, 945)] {
        let mut trees = vec![left_comb(leaves)];
        let mut met: HashSet<String> = trees.iter().cloned().collect();
        let mut next = 0;
        while next < trees.len() {
            let tree = trees[next].clone();
            let others: HashSet<String> = interchanged(&tree).into_iter().collect();
            assert_eq!(others.len(), 2 * leaves.saturating_sub(2));
            for other in others {
                assert_eq!(form(other.as_bytes()), text(&other));
                assert!(pair(tree.as_bytes(), other.as_bytes()).unwrap().apart);
                assert!(interchanged(&other).contains(&tree));
                if met.insert(other.clone()) {
                    trees.push(other);
                }
            }
            next += 1;
        }
        assert_eq!(trees.len(), topologies);
    }
}

#[test]
fn interchange_graphs() {
    // All three pairs are one move apart.
    assert_eq!(
        interchanges(b"(((1,2),3),4);((1,2),(3,4));(((1,4),2),3);"),
        Ok((vec![(0, 1)], vec![1, 1, 0]))
    );
    // Copies are kept apart, and are no pair.
    assert_eq!(
        interchanges(SAMPLE),
        Ok((
            vec![(0, 2), (0, 3), (1, 2), (1, 3), (2, 3)],
            vec![2, 2, 3, 3]
        ))
    );
    assert_eq!(interchanges(b"(1,2);(1,3);"), refused(5, 11));
}

/// Two copies alone, two neighbours and a chain of three.
const MIXED: &str = "((((3,4),2),1),5); ((((1,2),5),4),3); ((((3,4),5),1),2); ((((1,2),3),4),5);
    ((((2,5),1),4),3); ((((3,4),2),1),5); ((((2,3),4),5),1);";

/// A table with these pairs and islands, copies merged.
fn has_islands(table: &str, pairs: &[(u16, u16)], numbers: &[u16]) {
    let graph = graph(table.as_bytes()).unwrap();
    assert_eq!(graph.pairs, pairs, "{table}");
    let numbers = numbers.to_vec();
    let expected = Ok(Islands { graph, numbers });
    assert_eq!(islands(table.as_bytes()), expected, "{table}");
}

#[test]
fn islands_of_tables() {
    let (first, middle, last) = ("(((1,2),3),4);", "((1,2),(3,4));", "(((3,4),1),2);");
    has_islands(" 7 ;", &[], &[0]);
    has_islands(&format!("{first}{last}"), &[], &[0, 1]);
    // The ends of a chain are in one island, wherever its middle stands.
    has_islands(
        &format!("{first}{middle}{last}"),
        &[(0, 1), (1, 2)],
        &[0, 0, 0],
    );
    has_islands(
        &format!("{first}{last}{middle}"),
        &[(0, 2), (1, 2)],
        &[0, 0, 0],
    );
    // A copy has the island of its first, with and without neighbours.
    has_islands("((1,2),3);(3,(2,1));", &[], &[0, 0]);
    has_islands("((1,2),3);(3,(2,1));((1,3),2);", &[(0, 2)], &[0, 0, 0]);
    has_islands(
        &format!("{last}{first}{middle}{first}{last}"),
        &[(0, 2), (1, 2)],
        &[0; 5],
    );
    has_islands(MIXED, &[(1, 4), (2, 6), (3, 6)], &[0, 1, 2, 2, 1, 0, 2]);
    assert_eq!(islands(b"(1,2);(1,3);"), refused(5, 11));
}

#[test]
fn islands_of_full_tables() {
    has_islands(&"(1,2);".repeat(160), &[], &[0; 160]);
    let joined = "((1,2),3);".repeat(159) + "((1,3),2);";
    has_islands(&joined, &[(0, 159)], &[0; 160]);
    let apart = "(((1,2),3),4);".repeat(159) + "(((3,4),1),2);";
    let mut numbers = [0; 160];
    numbers[159] = 159;
    has_islands(&apart, &[], &numbers);
}

/// Every graph of five positions beside the numbers that no pair makes smaller.
#[test]
fn islands_of_every_small_graph() {
    let all: Vec<(u16, u16)> = (0..5).flat_map(|j| (0..j).map(move |i| (i, j))).collect();
    for chosen in 0..1 << all.len() {
        let pairs: Vec<(u16, u16)> = (0..all.len())
            .filter(|k| chosen >> k & 1 == 1)
            .map(|k| all[k])
            .collect();
        let mut numbers: Vec<u16> = (0..5).collect();
        for _ in 0..5 {
            for &(i, j) in &pairs {
                let least = numbers[i as usize].min(numbers[j as usize]);
                numbers[i as usize] = least;
                numbers[j as usize] = least;
            }
        }
        assert_eq!(island_numbers(5, &pairs), numbers, "{pairs:?}");
        let backwards: Vec<(u16, u16)> = pairs.iter().rev().copied().collect();
        assert_eq!(island_numbers(5, &backwards), numbers, "{backwards:?}");
    }
}

#[test]
fn island_sheets() {
    assert_eq!(island_sheet(SAMPLE), b"island 0 4\n");
    assert_eq!(island_sheet(b" \t\r\n"), b"");
    assert_eq!(
        island_sheet(MIXED.as_bytes()),
        b"island 0 2\nisland 1 2\nisland 2 3\n"
    );
    assert_eq!(island_sheet(b"(1,2,3);"), b"refused 1 at 4\n");
    assert_eq!(island_sheet(&vec![b'x'; 65_536]), b"refused 8 at 0\n");
}

/// A table with these clades, in how many trees each is, and this majority tree.
fn has_support(table: &str, clades: &[(u64, u16)], majority: &str) {
    let expected = Ok(Support {
        trees: table.matches(';').count(),
        clades: clades.to_vec(),
        majority: majority.as_bytes().to_vec(),
    });
    assert_eq!(support(table.as_bytes()), expected, "{table}");
}

#[test]
fn support_of_tables() {
    has_support(" 7 ;", &[], "7;");
    has_support("7;7;", &[], "7;");
    has_support("(64,1);", &[(1 << 63 | 1, 1)], "(1,64);");
    has_support("(10,(9,2));", &[(0x102, 1), (0x302, 1)], "((2,9),10);");
    // Copies count, however they are written.
    has_support("((1,2),3);(3,(2,1));", &[(3, 2), (7, 2)], "((1,2),3);");
    // Half of the trees are not enough.
    has_support(
        "((1,2),3);((1,3),2);",
        &[(7, 2), (3, 1), (5, 1)],
        "(1,2,3);",
    );
    // Those in one tree: 1 2 3, 1 3, 2 3, 2 3 4, 2 4, 3 4.
    has_support(
        "(((1,2),3),4);((1,3),(2,4));(1,((2,3),4));((1,2),(3,4));",
        &[
            (0xf, 4),
            (3, 2),
            (7, 1),
            (5, 1),
            (6, 1),
            (0xe, 1),
            (0xa, 1),
            (0xc, 1),
        ],
        "(1,2,3,4);",
    );
    // Only {2, 3}, in two trees of three, is kept.
    has_support(
        "(((2,3),4),1);((2,3),(4,1));(((1,2),3),4);",
        &[(0xf, 3), (6, 2), (3, 1), (7, 1), (9, 1), (0xe, 1)],
        "(1,(2,3),4);",
    );
    assert_eq!(support(b"(1,2);(1,3);"), refused(5, 11));
}

/// Every table of up to four trees of four leaves beside the sets of labels
/// tried one by one.
#[test]
fn support_of_every_small_table() {
    let mut texts: Vec<String> = vec![left_comb(4)];
    let mut next = 0;
    while next < texts.len() {
        for text in interchanged(&texts[next].clone()) {
            if !texts.contains(&text) {
                texts.push(text);
            }
        }
        next += 1;
    }
    assert_eq!(texts.len(), 15);
    let sets: Vec<HashSet<u64>> = texts.iter().map(|text| sets_in_brackets(text)).collect();
    for trees in 1..=4 {
        for chosen in 0..texts.len().pow(trees) {
            let table: Vec<usize> = (0..trees)
                .map(|k| chosen / texts.len().pow(k) % texts.len())
                .collect();
            has_counted_support(&table, &texts, &sets);
        }
    }
}

fn has_counted_support(table: &[usize], texts: &[String], sets: &[HashSet<u64>]) {
    let text: String = table.iter().map(|&k| texts[k].as_str()).collect();
    let found = support(text.as_bytes()).unwrap();
    let number_of = |set: u64| table.iter().filter(|&&k| sets[k].contains(&set)).count();
    let labels = |set: u64| (1..=4).filter(move |label| set >> (label - 1) & 1 == 1);
    let mut clades: Vec<u64> = (0..16).filter(|&set| number_of(set) > 0).collect();
    clades.sort_by(|&one, &other| {
        let by_number = number_of(other).cmp(&number_of(one));
        by_number.then(labels(one).cmp(labels(other)))
    });
    let expected: Vec<(u64, u16)> = clades
        .iter()
        .map(|&set| (set, number_of(set) as u16))
        .collect();
    assert_eq!(found.clades, expected, "{text}");

    let kept = |set: &u64| set.count_ones() > 1 && 2 * number_of(*set) > table.len();
    let expected: HashSet<u64> = (1..16).filter(kept).collect();
    let majority = String::from_utf8(found.majority).unwrap();
    assert_eq!(sets_in_brackets(&majority), expected, "{text}");
}

/// The sets of labels between the pairs of brackets of a text, labels up to 9.
fn sets_in_brackets(text: &str) -> HashSet<u64> {
    let mut open = Vec::new();
    let mut closed = HashSet::new();
    for byte in text.bytes() {
        match byte {
            b'(' => open.push(0),
            b')' => assert!(closed.insert(open.pop().unwrap()), "{text}"),
            b'1'..=b'9' => open.iter_mut().for_each(|set| *set |= 1 << (byte - b'1')),
            _ => assert!(matches!(byte, b',' | b';'), "{text}"),
        }
    }
    assert!(open.is_empty(), "{text}");
    closed
}

#[test]
fn support_of_full_tables() {
    let comb = left_comb(64);
    let clades: Vec<(u64, u16)> = (2..=64).map(|n| (u64::MAX >> (64 - n), 160)).collect();
    has_support(&comb.repeat(160), &clades, &comb);
    // Half of the trees, and one more.
    let (one, other) = ("((1,2),3);", "((1,3),2);");
    has_support(
        &(one.repeat(80) + &other.repeat(80)),
        &[(7, 160), (3, 80), (5, 80)],
        "(1,2,3);",
    );
    has_support(
        &(one.repeat(79) + &other.repeat(81)),
        &[(7, 160), (5, 81), (3, 79)],
        "((1,3),2);",
    );
}

#[test]
fn support_sheets() {
    assert_eq!(
        support_sheet(b"((1,2),(3,10));(((1,2),3),10);((1,2),(3,10));"),
        b"trees 3 clades 4\n3 3\n207 3\n204 2\n7 1\n((1,2),(3,10));\n"
    );
    assert_eq!(support_sheet(b" 7 ;"), b"trees 1 clades 0\n7;\n");
    assert_eq!(support_sheet(b" \t\r\n"), b"trees 0 clades 0\n");
    assert_eq!(support_sheet(b"(1,2,3);"), b"refused 1 at 4\n");
    assert_eq!(support_sheet(&vec![b'x'; 65_536]), b"refused 8 at 0\n");
}

#[test]
fn unrooted_forms() {
    assert_eq!(form(b"[&U](3,(2,1),4);"), text("[&U](1,2,(3,4));"));
    assert_eq!(form(b"[&U]((3,10),2,9);"), text("[&U](2,(3,10),9);"));
    assert_eq!(form(b" [&U]\t( 3 , 2 , 1 ) ;\n"), text("[&U](1,2,3);"));
    assert_eq!(form(b"[&U](10,02);"), text("[&U](2,10);"));
    assert_eq!(form(b"[&U] 7 ;"), text("[&U]7;"));
    assert_eq!(form(b"[&R](3,(2,1));"), text("((1,2),3);"));
    // The top is next to the smallest label, wherever it was.
    for tree in ["((1,2),3,(4,5))", "(1,2,(3,(5,4)))", "((3,(2,1)),4,5)"] {
        let written = form(format!("[&U]{tree};").as_bytes());
        assert_eq!(written, text("[&U](1,2,(3,(4,5)));"), "{tree}");
    }
}

#[test]
fn broken_marks() {
    for (broken, place) in [
        ("[", 1),
        ("[1,2];", 1),
        ("[&]1;", 2),
        ("[&u]1;", 2),
        ("[ &U]1;", 1),
        ("[&U 1;", 3),
        ("[&U][&U]1;", 4),
        ("[&R] [&U]1;", 5),
        ("([&U]1,2);", 1),
        ("(1,2)[&U];", 5),
        ("[&U]", 4),
    ] {
        assert_eq!(form(broken.as_bytes()), refused(1, place), "{broken}");
    }
}

#[test]
fn numbers_of_children() {
    for (wrong, place) in [
        ("[&U](1);", 6),
        ("[&U](1,2,3,4);", 10),
        ("[&U]((1,2),3);", 12),
        ("[&U](1,(2,3));", 12),
        ("[&U]((1,2,3),4,5);", 9),
        ("[&U](1,2,(3));", 11),
        ("[&R](1,2,3);", 8),
        ("((1,2),3,4);", 8),
    ] {
        assert_eq!(form(wrong.as_bytes()), refused(1, place), "{wrong}");
    }
}

#[test]
fn trees_of_two_kinds() {
    assert_eq!(table(b"(1,2);[&U](1,2);"), refused(10, 15));
    assert_eq!(table(b"[&U]1;[&R]1;"), refused(10, 11));
    // Before the labels, and before what is behind it.
    assert_eq!(table(b"[&U]1;2;x"), refused(10, 7));
    assert_eq!(table(b"1;2;[&U]1;"), refused(5, 3));
    assert_eq!(table(b"1;[&U]1"), refused(1, 7));
    let full = "1;".repeat(160);
    assert_eq!(table(format!("{full}[&U]1;").as_bytes()), refused(6, 320));
    let second = |number, place| {
        Err(Refusal {
            number,
            text: 1,
            place,
        })
    };
    assert_eq!(pair(b"1;", b"[&U]1;"), second(10, 5));
    assert_eq!(pair(b"[&U]1;", b" 2 ; "), second(10, 3));
    assert_eq!(pair(b"[&U]1;", b"2;x"), second(1, 2));
}

#[test]
fn calls_for_rooted_trees_only() {
    assert_eq!(cut(b"[&U](1,2,3);", 99), refused(10, 11));
    assert_eq!(cut(b"[&U]1;x", 0), refused(10, 5));
    assert_eq!(cut(b"[&U]((1,2),3);", 0), refused(1, 12));
    assert_eq!(cut(b"[&R](1,2);", 0), text("2 1;"));
    assert_eq!(interchanges(b"[&U]1;[&U]2;"), refused(10, 5));
    assert_eq!(interchanges(b"1;[&U]2;"), refused(10, 7));
    assert_eq!(support(b"[&U]1;x"), refused(10, 5));
    assert_eq!(interchange_sheet(b"[&U](1,2,3);"), b"refused 10 at 11\n");
    assert_eq!(support_sheet(b"1;[&U]1;"), b"refused 10 at 7\n");
}

#[test]
fn unrooted_pairs() {
    let pair = |one: &str, other: &str| pair(one.as_bytes(), other.as_bytes());
    assert_eq!(pair("[&U]7;", "[&U]7;"), no(0));
    assert_eq!(pair("[&U](1,2);", "[&U](2,1);"), no(0));
    assert_eq!(pair("[&U](1,2,3);", "[&U](3,1,2);"), no(0));
    assert_eq!(pair("[&U](1,2,(3,4));", "[&U](1,(2,3),4);"), yes(0));
    let one = "[&U](1,2,(3,(4,5)));";
    assert_eq!(pair(one, "[&U](1,4,(3,(2,5)));"), no(0));
    assert_eq!(pair(one, "[&U](1,(2,3),(4,5));"), yes(0));
    // Only the side with the smallest label can be the moved one.
    let (one, other) = ("[&U](1,2,(3,(4,(5,6))));", "[&U](1,2,(((3,4),5),6));");
    assert_eq!(pair(one, other), yes(0));
    assert_eq!(pair(other, one), yes(0));
    // The cut is at the same place, but the side that moves has other ends.
    let (one, other) = ("[&U]((1,2),3,((4,5),6));", "[&U]((1,3),2,((4,6),5));");
    assert_eq!(pair(one, other), no(0));
}

/// An unrooted tree, three nodes in brackets and labels up to 9, with one leaf
/// more on each of its edges.
fn with_a_leaf(tree: &str, label: usize) -> Vec<String> {
    let begins = |start: &usize| !b",)".contains(&tree.as_bytes()[*start]);
    let grown = |start: usize| {
        let mut open = 0;
        let closes = |byte| {
            open += i32::from(byte == b'(') - i32::from(byte == b')');
            open == 0
        };
        let end = start + 1 + tree[start..].bytes().position(closes).unwrap();
        let (before, node, behind) = (&tree[..start], &tree[start..end], &tree[end..]);
        format!("{before}({node},{label}){behind}")
    };
    (1..tree.len()).filter(begins).map(grown).collect()
}

/// Every unrooted topology of n leaves has 2(n - 3)(2n - 7) neighbours.
#[test]
fn neighbours_of_every_unrooted_topology() {
    let mut trees = vec![String::from("(1,2,3)")];
    for leaves in 4..=6 {
        trees = trees
            .iter()
            .flat_map(|tree| with_a_leaf(tree, leaves))
            .collect();
        assert_eq!(trees.len(), [3, 15, 105][leaves - 4]);
        let table: String = trees.iter().map(|x| format!("[&U]{x};")).collect();
        let graph = graph(table.as_bytes()).unwrap();
        let neighbours = 2 * (leaves - 3) * (2 * leaves - 7);
        assert_eq!(graph.counts, vec![neighbours as u16; trees.len()]);
        assert_eq!(graph_with_copies(table.as_bytes()), Ok(graph));
    }
}

#[test]
fn longest_unrooted_texts() {
    let mut comb = String::from("(63,64)");
    for label in (3..63).rev() {
        comb = format!("({label},{comb})");
    }
    let longest = format!("[&U](1,2,{comb});");
    assert_eq!(longest.len(), 311);
    assert_eq!(form(longest.as_bytes()), text(&longest));
    let full = longest.repeat(160);
    assert_eq!(table(full.as_bytes()).unwrap().0.len(), 160 * 311);
    assert_eq!(table(format!("{full}[").as_bytes()), refused(6, 160 * 311));
}

#[test]
fn unrooted_sheets() {
    let trees = b"[&U](2,(3,(4,5)),1);[&U](((2,5),3),4,1);[&U]((4,5),(3,2),1);[&U]((3,(5,4)),2,1);";
    let expected = "\
trees 4 pairs 3
tree 0 neighbours 1 unlinked 1 [&U](1,2,(3,(4,5)));
tree 1 neighbours 1 unlinked 2 [&U](1,((2,5),3),4);
tree 2 neighbours 3 unlinked 0 [&U](1,(2,3),(4,5));
tree 3 neighbours 1 unlinked 1 [&U](1,2,(3,(4,5)));
pair 0 2
pair 1 2
pair 2 3
";
    assert_eq!(String::from_utf8(sheet(trees)).unwrap(), expected);
    assert_eq!(island_sheet(trees), b"island 0 4\n");
    assert_eq!(sheet(b"(1,2);[&U](1,2);"), b"refused 10 at 15\n");
}

#[test]
fn rows_of_trees() {
    assert_eq!(row(b"(3,(2,1));"), Ok(vec![7, 3, 7]));
    assert_eq!(row(b" 7 ;"), Ok(vec![64]));
    assert_eq!(row(b"(2,1);"), Ok(vec![3, 3]));
    assert_eq!(row(b"((1,2),(4,3));"), Ok(vec![15, 3, 12, 15]));
    assert_eq!(row(b"[&R]((64,2),1);"), {
        let (clade, all) = (1 << 63 | 2, 1 << 63 | 3);
        Ok(vec![all, clade, all])
    });
    let deepest = row(left_comb(64).as_bytes()).unwrap();
    assert_eq!((deepest.len(), deepest[1], deepest[63]), (64, 3, u64::MAX));
    assert_eq!(row_text(&deepest), text(&left_comb(64)));
    assert_eq!(row(b"(1,2);x"), refused(BAD_BYTE, 6));
    assert_eq!(row(b"[&U]7;x"), refused(OTHER_KIND, 5));
    assert_eq!(row(&[b' '; MOST_BYTES + 1]), refused(TEXT_TOO_LONG, 0));
}

#[test]
fn plots_of_trees() {
    assert_eq!(plot(b" 7 ;"), Ok((vec![0.0], vec![0])));
    assert_eq!(plot(b"(2,1);"), Ok((vec![0.5, 0.0, 1.0], vec![0, 1, 1])));
    let rows = vec![1.25, 0.5, 0.0, 1.0, 2.0];
    assert_eq!(plot(b"(3,(2,1));"), Ok((rows, vec![0, 1, 2, 2, 1])));
    let rows = vec![0.75, 0.0, 1.5, 1.0, 2.0];
    assert_eq!(plot(b"((3,2),1);"), Ok((rows, vec![0, 1, 1, 2, 2])));
    let rows = vec![1.5, 0.5, 0.0, 1.0, 2.5, 2.0, 3.0];
    let columns = vec![0, 1, 2, 2, 1, 2, 2];
    assert_eq!(plot(b"((4,3),(1,2));"), Ok((rows, columns)));
    let (rows, columns) = plot(left_comb(64).as_bytes()).unwrap();
    assert_eq!((rows.len(), columns.len()), (127, 127));
    // 62 and 2 to the power -63, which is more than a float can hold.
    assert_eq!((rows[0], rows[62], rows[126]), (62.0, 0.5, 63.0));
    assert_eq!((columns[62], columns[63], columns[126]), (62, 63, 1));
    assert_eq!(plot(b"(1,2);x"), refused(BAD_BYTE, 6));
    assert_eq!(plot(b"[&U]7;x"), refused(OTHER_KIND, 5));
    assert_eq!(plot(&[b' '; MOST_BYTES + 1]), refused(TEXT_TOO_LONG, 0));
}

/// Every list of up to four numbers over three labels: each is a row exactly
/// when it is that of one of the trees on some of these labels.
#[test]
fn every_small_row() {
    let mut trees: HashMap<Vec<u64>, String> = HashMap::new();
    for tree in ["1;", "2;", "3;", "(1,2);", "(1,3);", "(2,3);"] {
        trees.insert(row(tree.as_bytes()).unwrap(), tree.to_string());
    }
    for tree in ["((1,2),3);", "((1,3),2);", "(1,(2,3));"] {
        trees.insert(row(tree.as_bytes()).unwrap(), tree.to_string());
    }
    let mut lists: Vec<Vec<u64>> = vec![vec![]];
    for from in 0..1 + 8 + 64 + 512 {
        for number in 0..8 {
            lists.push([&lists[from][..], &[number]].concat());
        }
    }
    for list in &lists {
        let expected = match trees.get(list) {
            Some(tree) => text(tree),
            None => refused(NO_ROW, 0),
        };
        assert_eq!(row_text(list), expected, "{list:?}");
    }
    assert_eq!(lists.len(), 1 + 8 + 64 + 512 + 4096);
}

/// The rooted topologies of so many leaves, up to 9.
pub fn rooted_topologies(leaves: usize) -> Vec<String> {
    // A leaf is not hung on the whole, so brackets stand around the root.
    let mut trees = vec![String::from("(1)")];
    for label in 2..=leaves {
        trees = trees.iter().flat_map(|x| with_a_leaf(x, label)).collect();
    }
    let inner = |tree: &String| format!("{};", &tree[1..tree.len() - 1]);
    trees.iter().map(inner).collect()
}

/// The pair test on rows beside that on texts, for all trees of five leaves.
#[test]
fn pairs_of_rows() {
    let texts = rooted_topologies(5);
    let mut yes = 0;
    for one in &texts {
        for other in &texts {
            let rows = [one, other].map(|x| row(x.as_bytes()).unwrap());
            let answer = row_pair(&rows[0], &rows[1]);
            assert_eq!(answer, pair(one.as_bytes(), other.as_bytes()));
            yes += usize::from(answer.unwrap().apart);
        }
    }
    assert_eq!((texts.len(), yes > 1_000), (105, true));
}

#[test]
fn order_of_the_row_pairs_refusals() {
    let refused = |number, text| {
        Err(Refusal {
            number,
            text,
            place: 0,
        })
    };
    assert_eq!(row_pair(&[7, 3, 6], &[3]), refused(NO_ROW, 0));
    assert_eq!(row_pair(&[1], &[3]), refused(NO_ROW, 1));
    assert_eq!(row_pair(&[1], &[]), refused(NO_ROW, 1));
    assert_eq!(row_pair(&[1], &[2]), refused(OTHER_LABELS, 1));
    assert_eq!(row_pair(&[1], &[3, 3]), refused(OTHER_LABELS, 1));
    assert_eq!(row_pair(&[3, 3], &[3, 3]), no(0));
}

#[test]
fn row_sheets() {
    let table = b"((1,2),3);(3,(2,1));(1,(2,3));";
    assert_eq!(row_sheet(table), b"trees 3 pairs 2\npair 0 2\npair 1 2\n");
    assert_eq!(row_sheet(b""), b"trees 0 pairs 0\n");
    assert_eq!(row_sheet(b"[&U]7;"), b"refused 10 at 5\n");
}
