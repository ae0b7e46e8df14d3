//! Trees, their texts and damage to them, the same in every run.

/// A small generator of numbers (SplitMix64).
pub struct Random(u64);

impl Random {
    pub fn new(seed: u64) -> Random {
        Random(seed)
    }

    pub fn next(&mut self) -> u64 {
        self.0 = self.0.wrapping_add(0x9E37_79B9_7F4A_7C15);
        let mut z = self.0;
        z = (z ^ (z >> 30)).wrapping_mul(0xBF58_476D_1CE4_E5B9);
        z = (z ^ (z >> 27)).wrapping_mul(0x94D0_49BB_1331_11EB);
        z ^ (z >> 31)
    }

    /// A number below n, which is not 0.
    pub fn below(&mut self, n: usize) -> usize {
        (self.next() % n as u64) as usize
    }

    /// True so many times in a hundred.
    pub fn percent(&mut self, n: usize) -> bool {
        self.below(100) < n
    }

    pub fn pick<T: Copy>(&mut self, from: &[T]) -> T {
        from[self.below(from.len())]
    }

    pub fn shuffle<T>(&mut self, items: &mut [T]) {
        for i in (1..items.len()).rev() {
            items.swap(i, self.below(i + 1));
        }
    }
}

/// Whether a tree has a root.
#[derive(Clone, Copy, Debug, PartialEq, Eq)]
pub enum Kind {
    Rooted,
    Unrooted,
}

/// A tree; an unrooted one has its root on any edge.
#[derive(Clone)]
pub enum Tree {
    Leaf(u8),
    Fork(Box<Tree>, Box<Tree>),
}

use Tree::{Fork, Leaf};

fn fork(one: Tree, other: Tree) -> Tree {
    Fork(Box::new(one), Box::new(other))
}

/// n labels of 1 to 64: the first n, or any.
pub fn labels(random: &mut Random, n: usize) -> Vec<u8> {
    let mut all: Vec<u8> = (1..=64).collect();
    if random.percent(50) {
        random.shuffle(&mut all);
    }
    all.truncate(n);
    random.shuffle(&mut all);
    all
}

impl Tree {
    /// A tree with these labels: each further leaf hangs anywhere, or the tree is a comb, which is the deepest.
    pub fn random(random: &mut Random, labels: &[u8]) -> Tree {
        let comb = random.percent(20);
        let mut tree = Leaf(labels[0]);
        for &label in &labels[1..] {
            let at = if comb { 0 } else { random.below(tree.nodes()) };
            tree = tree.grafted(at, Leaf(label));
        }
        tree
    }

    /// A comb with these labels.
    fn comb(labels: &[u8]) -> Tree {
        let leaves = labels.iter().map(|&label| Leaf(label));
        leaves.reduce(fork).expect("a label or more")
    }

    /// The number of nodes. Nodes are numbered from the root on, a fork before its children.
    pub fn nodes(&self) -> usize {
        match self {
            Leaf(_) => 1,
            Fork(one, other) => 1 + one.nodes() + other.nodes(),
        }
    }

    /// The tree with `new` hung on the edge above node `at`.
    fn grafted(self, at: usize, new: Tree) -> Tree {
        match self {
            Fork(one, other) if at > 0 => {
                let half = one.nodes();
                if at - 1 < half {
                    fork(one.grafted(at - 1, new), *other)
                } else {
                    fork(*one, other.grafted(at - 1 - half, new))
                }
            }
            tree => fork(tree, new),
        }
    }

    /// The tree without node `at`, which is not the root, and that node.
    fn pruned(self, at: usize) -> (Tree, Tree) {
        let (one, other) = match self {
            Fork(one, other) => (one, other),
            _ => panic!("a leaf has no further node"),
        };
        let half = one.nodes();
        if at == 1 {
            (*other, *one)
        } else if at == 1 + half {
            (*one, *other)
        } else if at < 1 + half {
            let (rest, gone) = one.pruned(at - 1);
            (fork(rest, *other), gone)
        } else {
            let (rest, gone) = other.pruned(at - 1 - half);
            (fork(*one, rest), gone)
        }
    }

    /// The tree after a random prune and regraft, which may give the same topology again. Some are interchanges.
    pub fn moved(self, random: &mut Random) -> Tree {
        if self.nodes() == 1 {
            return self;
        }
        if random.percent(30) {
            return self.interchanged(random);
        }
        let at = 1 + random.below(self.nodes() - 1);
        let (rest, gone) = self.pruned(at);
        let at = random.below(rest.nodes());
        rest.grafted(at, gone)
    }

    /// The tree after a random move of its kind.
    pub fn moved_as(self, kind: Kind, random: &mut Random) -> Tree {
        match kind {
            Kind::Rooted => self.moved(random),
            // On either side of an edge may be the root, so either may be the one that is moved.
            Kind::Unrooted => self.turned(random).moved(random),
        }
    }

    /// The same unrooted tree with its root on another edge, some steps away.
    fn turned(self, random: &mut Random) -> Tree {
        let (child, aside) = match self {
            Fork(one, other) if random.percent(50) => (*one, *other),
            Fork(one, other) => (*other, *one),
            leaf => return leaf,
        };
        match child {
            Fork(one, other) if random.percent(80) => {
                fork(*one, fork(*other, aside)).turned(random)
            }
            child => fork(child, aside),
        }
    }

    /// The tree with a random node regrafted above its aunt. Where the way down ends at a leaf, the tree as it is.
    fn interchanged(self, random: &mut Random) -> Tree {
        let (parent, aunt) = match self {
            Fork(one, other) if random.percent(50) => (*one, *other),
            Fork(one, other) => (*other, *one),
            leaf => return leaf,
        };
        match parent {
            Fork(one, other) if random.percent(10) => fork(*one, fork(*other, aunt)),
            Fork(one, other) if random.percent(10) => fork(*other, fork(*one, aunt)),
            parent => fork(parent.interchanged(random), aunt),
        }
    }

    /// A text of the tree, `;` included: children in any order, and blanks before so many tokens in a hundred.
    pub fn text(&self, random: &mut Random, blanks: usize) -> Vec<u8> {
        let mut out = Vec::new();
        self.write(random, blanks, &mut out);
        token(random, blanks, b";", &mut out);
        out
    }

    /// A text of the tree of this kind, in the same way. An unrooted tree has its mark and its top at any node, and a
    /// rooted one has its mark at times.
    pub fn text_as(&self, kind: Kind, random: &mut Random, blanks: usize) -> Vec<u8> {
        let mut out = Vec::new();
        if kind == Kind::Unrooted {
            token(random, blanks, b"[&U]", &mut out);
            self.clone()
                .turned(random)
                .write_top(random, blanks, &mut out);
        } else {
            if random.percent(20) {
                token(random, blanks, b"[&R]", &mut out);
            }
            self.write(random, blanks, &mut out);
        }
        token(random, blanks, b";", &mut out);
        out
    }

    fn write(&self, random: &mut Random, blanks: usize, out: &mut Vec<u8>) {
        match self {
            Leaf(label) => token(random, blanks, label.to_string().as_bytes(), out),
            Fork(one, other) => write_fork(&mut [one, other], random, blanks, out),
        }
    }

    /// Writes an unrooted tree: of the two nodes at the root's edge, one is the top.
    fn write_top(&self, random: &mut Random, blanks: usize, out: &mut Vec<u8>) {
        let (one, other) = match self {
            Fork(one, other) if random.percent(50) => (one, other),
            Fork(one, other) => (other, one),
            Leaf(_) => return self.write(random, blanks, out),
        };
        match (&**one, &**other) {
            (Fork(a, b), c) | (c, Fork(a, b)) => write_fork(&mut [a, b, c], random, blanks, out),
            (a, b) => write_fork(&mut [a, b], random, blanks, out),
        }
    }
}

/// Writes these children in any order, in brackets.
fn write_fork(children: &mut [&Tree], random: &mut Random, blanks: usize, out: &mut Vec<u8>) {
    random.shuffle(children);
    for (i, child) in children.iter().enumerate() {
        token(random, blanks, if i == 0 { b"(" } else { b"," }, out);
        child.write(random, blanks, out);
    }
    token(random, blanks, b")", out);
}

/// So many trees of this kind with these labels: chains of moves, each from another tree and of up to `longest` trees,
/// mixed.
pub fn chains(
    random: &mut Random,
    kind: Kind,
    labels: &[u8],
    trees: usize,
    longest: usize,
) -> Vec<Tree> {
    let mut made = Vec::new();
    while made.len() < trees {
        let mut tree = Tree::random(random, labels);
        for _ in 0..1 + random.below(longest) {
            made.push(tree.clone());
            tree = tree.moved_as(kind, random);
        }
    }
    made.truncate(trees);
    random.shuffle(&mut made);
    made
}

/// 160 trees of 64 leaves that share no clade but the whole, so that there are as many clades as a table can have.
///
/// Each is two combs of 32 leaves, and the labels of a comb go round 1 to 64 by an odd number below 32: its first 2 to
/// 32 labels are then those of no comb with another start or number.
pub fn most_clades() -> Vec<Tree> {
    let two_combs = |i: usize| {
        let (start, by) = (i % 32, 1 + 2 * (i / 32));
        let round: Vec<u8> = (0..64).map(|k| 1 + ((start + k * by) % 64) as u8).collect();
        fork(Tree::comb(&round[..32]), Tree::comb(&round[32..]))
    };
    (0..160).map(two_combs).collect()
}

fn token(random: &mut Random, blanks: usize, token: &[u8], out: &mut Vec<u8>) {
    while random.percent(blanks) {
        out.push(random.pick(b" \t\r\n"));
    }
    out.extend_from_slice(token);
}

/// Bytes that texts are made of, and a few that they are not.
const BYTES: &[u8] = b"(((),,,);;;  \t\r\n00123456789x[&UR]-\0\x0b\xff";

/// Marks, and what is not quite one.
const MARKS: [&[u8]; 8] = [
    b"[&U]", b"[&R]", b"[&u]", b"[&", b"[", b"[ &U]", b"&U]", b"[&U",
];

/// Digits that are labels, or not quite.
const LABELS: [&[u8]; 12] = [
    b"0",
    b"00",
    b"01",
    b"007",
    b"0000000000000000000064",
    b"1",
    b"64",
    b"65",
    b"99",
    b"100",
    b"065",
    b"18446744073709551617",
];

/// Damages a text in one to three places.
pub fn damage(random: &mut Random, text: &mut Vec<u8>) {
    for _ in 0..1 + random.below(3) {
        let at = random.below(text.len() + 1);
        let byte = random.pick(BYTES);
        let rest = text.len() - at;
        match random.below(9) {
            0 => text.truncate(at),
            1 => text.insert(at, byte),
            2 if rest > 0 => text[at] = byte,
            3 if rest > 0 => drop(text.remove(at)),
            4 if rest > 1 => text.swap(at, at + 1),
            5 => {
                let part = text[at..at + random.below(rest.min(12) + 1)].to_vec();
                let to = random.below(text.len() + 1);
                text.splice(to..to, part);
            }
            6 => {
                let to = random.pick(&[0, at]);
                text.splice(to..to, random.pick(&MARKS).iter().copied());
            }
            // A label, if one begins here or behind.
            _ => {
                let start = match text[at..].iter().position(u8::is_ascii_digit) {
                    Some(behind) => at + behind,
                    None => continue,
                };
                let digits = text[start..]
                    .iter()
                    .take_while(|b| b.is_ascii_digit())
                    .count();
                text.splice(start..start + digits, random.pick(&LABELS).iter().copied());
            }
        }
    }
}

/// Damages a row in one place, at times in more, and at times puts the clades in order again. It has a number or more.
pub fn damage_row(random: &mut Random, row: &mut Vec<u64>) {
    for _ in 0..random.pick(&[1, 1, 1, 2]) {
        let (at, to) = (random.below(row.len()), random.below(row.len()));
        let (label, any) = (1 << random.below(64), random.next());
        match random.below(10) {
            0 => row[at] ^= label,
            1 => row[at] ^= label & row[0],
            2 => row[at] = random.pick(&[0, u64::MAX, label, row[0], row[0] & any]),
            3 => row.swap(at, to),
            4 => drop(row.remove(at)),
            5 => row.insert(at, row[at]),
            6 => row.push(random.pick(&[0, u64::MAX, row[0], row[at]])),
            7 => row[0] ^= label,
            8 => row[1..].reverse(),
            // One label for another, so that two clades cross.
            _ => row[at] ^= row[0] & (label | label.rotate_left(1)),
        }
        if row.is_empty() {
            return;
        }
        if random.percent(50) {
            row[1..].sort_unstable();
        }
    }
}

/// The bytes of a slot of an index, and where its entries begin.
const SLOT: usize = 127;
const ENTRIES_AT: usize = 160 * SLOT;

/// How many entries the slots of an index say that it has.
fn entries(memory: &[u8]) -> usize {
    let forks = (0..160).filter_map(|x| memory[SLOT * x].checked_sub(64));
    forks.map(|leaves| 2 * (leaves as usize).max(1) - 2).sum()
}

/// Takes the tree with this number out of an index, if it is held: clears its slot and closes the gaps.
pub fn take_out(memory: &mut [u8], number: usize) {
    let used = ENTRIES_AT + 2 * entries(memory);
    let kept: Vec<u8> = memory[ENTRIES_AT..used]
        .chunks_exact(2)
        .filter(|entry| entry[0] as usize != number)
        .flatten()
        .copied()
        .collect();
    memory[SLOT * number..][..SLOT].fill(0);
    memory[ENTRIES_AT..used].fill(0);
    memory[ENTRIES_AT..][..kept.len()].copy_from_slice(&kept);
}

/// Damages an index in one place, at times in more. Some of it leaves an index, another or the same.
pub fn damage_index(random: &mut Random, memory: &mut [u8]) {
    for _ in 0..random.pick(&[1, 1, 1, 2]) {
        let (slot, other) = (SLOT * random.below(10), SLOT * random.below(10));
        let (node, any) = (slot + random.below(10), random.next() as u8);
        let entries = entries(memory).max(2);
        let entry = ENTRIES_AT + 2 * random.below(entries - 1);
        let end = ENTRIES_AT + 2 * entries;
        match random.below(14) {
            0 => memory[random.below(memory.len())] ^= any,
            1 => memory[node] ^= any,
            2 => memory[node] = memory[node].wrapping_add(random.pick(&[1, 255])),
            3 => memory.swap(node, node + 1),
            4 => memory[slot..slot + SLOT].fill(0),
            5 => memory.copy_within(slot..slot + SLOT, other),
            6 => (0..SLOT).for_each(|i| memory.swap(slot + i, other + i)),
            7 => memory[entry] = random.below(10) as u8,
            8 => memory[entry + 1] = memory[entry + 1].wrapping_add(random.pick(&[1, 255])),
            9 => memory[entry..entry + 4].rotate_left(2),
            10 => memory.copy_within(entry..entry + 2, entry + 2),
            11 => memory[entry..end].rotate_left(2),
            12 => memory[end..][..2].copy_from_slice(&[any % 10, any]),
            // One number for another, in its slot and its entries.
            _ => {
                let renamed = |byte: u8| exchanged(byte, (slot / SLOT) as u8, (other / SLOT) as u8);
                (0..SLOT).for_each(|i| memory.swap(slot + i, other + i));
                for at in (ENTRIES_AT..end).step_by(2) {
                    memory[at] = renamed(memory[at]);
                }
            }
        }
    }
}

/// The one of two bytes for the other.
fn exchanged(byte: u8, one: u8, other: u8) -> u8 {
    if byte == one {
        other
    } else if byte == other {
        one
    } else {
        byte
    }
}
