//! The index: its memory byte for byte, its lists beside the graph, and refusals.

use super::*;

const ENTRIES_AT: usize = 160 * 127;

fn refused<T>(number: u8, place: usize) -> Result<T, Refusal> {
    Err(Refusal {
        number,
        text: 0,
        place,
    })
}

/// An index of these trees, with the numbers 0, 1, 2 and on.
fn index_of(trees: &[&str]) -> Index {
    let mut index = Index::default();
    for (number, tree) in trees.iter().enumerate() {
        assert_eq!(index.add(tree.as_bytes()), Ok(number), "{tree}");
    }
    index
}

/// The memory with these slots, of which each begins so, and these entries.
fn memory_of(slots: &[(usize, &[u8])], entries: &[[u8; 2]]) -> Vec<u8> {
    let mut memory = vec![0; INDEX_BYTES];
    for &(number, bytes) in slots {
        memory[127 * number..][..bytes.len()].copy_from_slice(bytes);
    }
    memory[ENTRIES_AT..][..2 * entries.len()].copy_from_slice(&entries.concat());
    memory
}

fn is_no_index(memory: &[u8]) -> bool {
    Index::of_memory(memory).err() == refused::<()>(NO_INDEX, 0).err()
}

/// Two topologies of three leaves, and a copy of the first.
fn three_trees() -> (Index, Vec<u8>) {
    let index = index_of(&["((1,2),3);", "(2,(3,1));", "[&R] (3,(2,1));"]);
    let first = [67, 66, 1, 2, 3];
    let other = [67, 66, 1, 3, 2];
    let entries = [
        // (1,2) 3;
        [0, 3],
        [1, 2],
        [2, 3],
        // (1,3) 2;
        [0, 2],
        [1, 3],
        [2, 2],
        // (2,3) 1;
        [0, 1],
        [1, 1],
        [2, 1],
        // 2 (1,3); and 3 (1,2);
        [1, 0],
        [0, 0],
        [2, 0],
    ];
    let memory = memory_of(&[(0, &first), (1, &other), (2, &first)], &entries);
    (index, memory)
}

#[test]
fn sizes() {
    assert_eq!(INDEX_BYTES, 60_640);
    assert_eq!(Index::default().memory(), [0; INDEX_BYTES]);
    assert_eq!(
        Index::of_memory(&[0; INDEX_BYTES])
            .unwrap()
            .numbers()
            .count(),
        0
    );
}

#[test]
fn memories() {
    let (index, memory) = three_trees();
    assert_eq!(index.memory(), memory);
    assert_eq!(index.neighbours(0), Ok(vec![1]));
    assert_eq!(index.neighbours(1), Ok(vec![0, 2]));
    assert_eq!(index.neighbours(2), Ok(vec![1]));

    let leaves = index_of(&["7;", " 07 ;"]);
    assert_eq!(leaves.memory(), memory_of(&[(0, &[7]), (1, &[7])], &[]));
    assert_eq!(leaves.neighbours(1), Ok(vec![]));
    let fork = index_of(&["(2,1);"]);
    assert_eq!(
        fork.memory(),
        memory_of(&[(0, &[66, 1, 2])], &[[0, 1], [0, 0]])
    );
}

/// 10 stands before 2 in the order of texts, and behind it in a tree.
#[test]
fn labels_of_two_digits() {
    let index = index_of(&["((1,2),10);", "(1,(2,10));"]);
    let entries = [
        // (1,10) 2;  (1,2) 10;  (2,10) 1;
        [0, 2],
        [1, 2],
        [0, 3],
        [1, 3],
        [0, 1],
        [1, 0],
        // 1 (2,10);  10 (1,2);
        [1, 1],
        [0, 0],
    ];
    let slots: [(usize, &[u8]); 2] = [(0, &[67, 66, 1, 2, 10]), (1, &[67, 1, 66, 2, 10])];
    assert_eq!(index.memory(), memory_of(&slots, &entries));
}

/// A number may be free below one that is not. What lies behind is not read.
#[test]
fn gaps() {
    let memory = memory_of(&[(1, &[66, 1, 2])], &[[1, 1], [1, 0]]);
    let longer = [&memory[..], &[255; 9]].concat();
    let mut index = Index::of_memory(&longer).unwrap();
    assert_eq!(index.numbers().collect::<Vec<_>>(), [1]);
    assert_eq!(index.neighbours(0), refused(NOT_HELD, 0));
    assert_eq!(index.add(b"(1,2);"), Ok(0));
    assert_eq!(index.add(b"(1,2);"), Ok(2));
    let entries = [[0, 1], [1, 1], [2, 1], [0, 0], [1, 0], [2, 0]];
    let slot: &[u8] = &[66, 1, 2];
    assert_eq!(
        index.memory(),
        memory_of(&[(0, slot), (1, slot), (2, slot)], &entries)
    );
    assert_eq!(index_add(&longer, b"(2,1);").unwrap().0, 0);
    assert_eq!(index_neighbours(&longer, 1), Ok(vec![]));
}

/// Each list is that of the graph of the same trees, where a position stands for
/// the number at that place. Gives how many pairs there are.
fn pairs_beside_the_graph(index: &Index, trees: &[String]) -> usize {
    let numbers: Vec<usize> = index.numbers().collect();
    let table: String = numbers.iter().map(|&x| &*trees[x]).collect();
    let graph = graph_with_copies(table.as_bytes()).unwrap();
    let mut lists = vec![vec![]; numbers.len()];
    for &(i, j) in &graph.pairs {
        let (i, j) = (usize::from(i), usize::from(j));
        lists[i].push(numbers[j] as u16);
        lists[j].push(numbers[i] as u16);
    }
    for (&number, list) in numbers.iter().zip(&mut lists) {
        list.sort_unstable();
        assert_eq!(index.neighbours(number).as_ref(), Ok(&*list), "{number}");
    }
    graph.pairs.len()
}

/// All trees of five leaves, and then without every third of them.
#[test]
fn lists_beside_the_graph() {
    let trees = tests::rooted_topologies(5);
    let all: Vec<&str> = trees.iter().map(String::as_str).collect();
    let mut index = index_of(&all);
    assert!(pairs_beside_the_graph(&index, &trees) > 500);
    let read = Index::of_memory(&index.memory()).unwrap();
    assert_eq!(read.neighbours(7), index.neighbours(7));
    for number in (0..all.len()).step_by(3) {
        assert_eq!(index.remove(number), Ok(()));
    }
    assert!(pairs_beside_the_graph(&index, &trees) > 200);
    for number in (0..all.len()).step_by(3) {
        assert_eq!(index.add(trees[number].as_bytes()), Ok(number));
    }
    assert_eq!(index.memory(), read.memory());
}

/// Two copies are left, and the number between them goes to the next tree.
#[test]
fn removals() {
    let (mut index, memory) = three_trees();
    assert_eq!(index.remove(1), Ok(()));
    let slot: &[u8] = &[67, 66, 1, 2, 3];
    let entries = [
        [0, 3],
        [2, 3],
        [0, 2],
        [2, 2],
        [0, 1],
        [2, 1],
        [0, 0],
        [2, 0],
    ];
    let without = memory_of(&[(0, slot), (2, slot)], &entries);
    assert_eq!(index.memory(), without);
    assert_eq!(index.neighbours(0), Ok(vec![]));
    assert_eq!(index.neighbours(1), refused(NOT_HELD, 0));
    assert_eq!(index_remove(&memory, 1), Ok(without));
    assert_eq!(index.add(b"((1,3),2);"), Ok(1));
    assert_eq!(index.memory(), memory);

    let two = index_of(&["((1,2),3);", "((1,3),2);"]).memory();
    let longer = [&memory[..], &[255; 9]].concat();
    assert_eq!(index_remove(&longer, 2), Ok(two));
    assert_eq!(index.remove(0), Ok(()));
    assert_eq!(index.numbers().collect::<Vec<_>>(), [1, 2]);
    assert_eq!(index.neighbours(2), Ok(vec![1]));
    assert_eq!(index.add(b"(1,2);"), refused(OTHER_LABELS, 5));
}

/// An index that loses its last tree is the empty one.
#[test]
fn emptied() {
    let mut index = index_of(&["7;"]);
    for tree in ["(7,(8,9));", "(1,2);", "64;"] {
        assert_eq!(index.remove(0), Ok(()));
        assert_eq!(index.memory(), [0; INDEX_BYTES]);
        assert_eq!(index.remove(0), refused(NOT_HELD, 0));
        assert_eq!(index.add(tree.as_bytes()), Ok(0));
    }
}

#[test]
fn refused_removals() {
    let (mut index, memory) = three_trees();
    for number in [3, 159, 160, 255, 256, 257, 1 << 32, usize::MAX] {
        assert_eq!(index.remove(number), refused(NOT_HELD, 0), "{number}");
        assert_eq!(index_remove(&memory, number), refused(NOT_HELD, 0));
    }
    assert_eq!(index.memory(), memory);
    assert_eq!(index_remove(&[1; INDEX_BYTES], 160), refused(NO_INDEX, 0));
}

/// No byte of a memory can be another alone, where there is an entry.
#[test]
fn damaged_memories() {
    let (_, memory) = three_trees();
    let entries_end = ENTRIES_AT + 24;
    let ends = [
        ENTRIES_AT - 1,
        entries_end,
        entries_end + 1,
        INDEX_BYTES - 1,
    ];
    for place in (0..4 * 127 + 1).chain(ENTRIES_AT..entries_end).chain(ends) {
        for change in [1, 2, 64, 128, 255] {
            let mut damaged = memory.clone();
            damaged[place] ^= change;
            assert!(is_no_index(&damaged), "{place} {change}");
        }
    }
    for place in (ENTRIES_AT..entries_end - 2).step_by(2) {
        let mut damaged = memory.clone();
        damaged[place..place + 4].rotate_left(2);
        assert!(is_no_index(&damaged), "{place}");
    }
}

#[test]
fn slots_without_a_tree() {
    let no_tree: [&[u8]; 9] = [
        &[65],
        &[66],
        &[66, 1],
        &[65, 1],
        &[66, 2, 1],
        &[66, 1, 1],
        &[67, 1, 2],
        &[0, 1],
        &[1, 1],
    ];
    for slot in no_tree {
        assert!(is_no_index(&memory_of(&[(159, slot)], &[])), "{slot:?}");
        let entries = [[159, 1], [159, 0]];
        assert!(
            is_no_index(&memory_of(&[(159, slot)], &entries)),
            "{slot:?}"
        );
    }
    assert!(is_no_index(&memory_of(&[(0, &[1]), (1, &[2])], &[])));
    assert!(is_no_index(&[255; INDEX_BYTES]));
    assert!(Index::of_memory(&memory_of(&[(159, &[64])], &[])).is_ok());
}

#[test]
fn refused_additions() {
    let (mut index, memory) = three_trees();
    assert_eq!(index.add(b"(1,2"), refused(BAD_BYTE, 4));
    assert_eq!(index.add(b"((1,2),3);x"), refused(BAD_BYTE, 10));
    assert_eq!(index.add(b"[&U](1,2,3);x"), refused(BAD_BYTE, 12));
    assert_eq!(index.add(b"[&U](1,2,3);"), refused(OTHER_KIND, 11));
    assert_eq!(index.add(b"[&U](1,2);"), refused(OTHER_KIND, 9));
    assert_eq!(index.add(b"(1,2) ;"), refused(OTHER_LABELS, 6));
    let long = [b' '; MOST_BYTES + 1];
    assert_eq!(index.add(&long), refused(TEXT_TOO_LONG, 0));
    assert_eq!(index.memory(), memory);
    assert_eq!(index.add(b"(1,(2,3));"), Ok(3));

    let none = [1; INDEX_BYTES];
    assert_eq!(index_add(&none, &long), refused(TEXT_TOO_LONG, 0));
    assert_eq!(index_add(&none, b"x"), refused(NO_INDEX, 0));
    assert_eq!(index_neighbours(&none, 160), refused(NO_INDEX, 0));
    assert_eq!(Index::default().add(b"[&U]7;"), refused(OTHER_KIND, 5));
}

#[test]
fn full_index() {
    let mut index = index_of(&["(1,2);"; MOST_TREES]);
    assert_eq!(index.add(b"(1,2)"), refused(BAD_BYTE, 5));
    assert_eq!(index.add(b"(1,2);"), refused(TOO_MANY_TREES, 0));
    assert_eq!(index.add(b"[&U]7;"), refused(TOO_MANY_TREES, 0));
    assert_eq!(index.neighbours(159), Ok(vec![]));
    for number in [160, 256, usize::MAX] {
        assert_eq!(index.neighbours(number), refused(NOT_HELD, 0));
    }
    assert_eq!(index.remove(77), Ok(()));
    assert_eq!(index.add(b"(1,2);"), Ok(77));
    assert_eq!(index.add(b"(1,2);"), refused(TOO_MANY_TREES, 0));
}

#[test]
fn index_sheets() {
    let (mut index, memory) = three_trees();
    let lines =
        "trees 3 pairs 2\ntree 0 neighbours 1\ntree 1 neighbours 0 2\ntree 2 neighbours 1\n";
    index.remove(0).unwrap();
    let [all, others] = [memory, index.memory()]
        .map(|bytes| bytes.iter().map(|x| format!("{x:02x}")).collect::<String>());
    let sheet = index_sheet(b"((1,2),3);\n(2,(3,1));\n(3,(2,1));\n");
    assert_eq!(
        sheet,
        format!("{lines}memory {all}\nwithout 0 {others}\n").as_bytes()
    );
    let zeros = "00".repeat(INDEX_BYTES);
    assert_eq!(
        index_sheet(b""),
        format!("trees 0 pairs 0\nmemory {zeros}\n").as_bytes()
    );
    assert_eq!(index_sheet(b"(1,2);[&U]7;"), b"refused 10 at 11\n");
    assert_eq!(index_sheet(b"(1,2);\n3;"), b"refused 5 at 8\n");
}
