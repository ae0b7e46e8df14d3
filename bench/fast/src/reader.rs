//! Reads a table from left to right and refuses at the first fault, with its
//! number in the refusal list and its place.

use crate::hung::hung;
use crate::tree::{mixed, Node, Tree};
use crate::{MOST_BYTES, MOST_TREES};

pub type Refusal = (u8, usize);

const BAD_BYTE: u8 = 1;
const BAD_LABEL: u8 = 2;
const REPEATED_LABEL: u8 = 3;
const TOO_DEEP: u8 = 4;
const OTHER_LABELS: u8 = 5;
const TOO_MANY_TREES: u8 = 6;
const TEXT_TOO_LONG: u8 = 8;
const OTHER_KIND: u8 = 10;

const MOST_OPEN: usize = 63;
const LARGEST_LABEL: usize = 64;
/// Nodes of a text that is accepted.
const MOST_NODES: usize = 2 * LARGEST_LABEL - 1;

pub fn read_table(text: &[u8]) -> Result<Vec<Tree>, Refusal> {
    if text.len() > MOST_BYTES {
        return Err((TEXT_TOO_LONG, 0));
    }
    let mut trees: Vec<Tree> = Vec::with_capacity(MOST_TREES);
    let mut reader = Reader {
        text,
        place: 0,
        labels: 0,
        nodes: Vec::new(),
    };
    while reader.next_token().is_some() {
        if trees.len() == MOST_TREES {
            return Err((TOO_MANY_TREES, reader.place));
        }
        let tree = reader.tree()?;
        let first = trees.first().unwrap_or(&tree);
        if first.unrooted != tree.unrooted {
            return Err((OTHER_KIND, reader.place - 1));
        }
        if first.labels() != tree.labels() {
            return Err((OTHER_LABELS, reader.place - 1));
        }
        trees.push(tree);
    }
    Ok(trees)
}

struct Reader<'a> {
    text: &'a [u8],
    place: usize,
    /// Labels of the present tree, bit `label - 1` for each.
    labels: u64,
    nodes: Vec<Node>,
}

impl Reader<'_> {
    /// Goes past blanks and gives the byte there.
    fn next_token(&mut self) -> Option<u8> {
        while let Some(&byte) = self.text.get(self.place) {
            if !matches!(byte, b' ' | b'\t' | b'\r' | b'\n') {
                return Some(byte);
            }
            self.place += 1;
        }
        None
    }

    fn take(&mut self, token: u8) -> Result<(), Refusal> {
        if self.next_token() != Some(token) {
            return Err((BAD_BYTE, self.place));
        }
        self.place += 1;
        Ok(())
    }

    fn tree(&mut self) -> Result<Tree, Refusal> {
        self.labels = 0;
        let unrooted = self.unrooted_mark()?;
        let nodes = if unrooted {
            hung(&self.top()?)
        } else {
            self.part(0)?
        };
        self.take(b';')?;
        Ok(Tree { nodes, unrooted })
    }

    /// Reads `[&U]`, `[&R]` or nothing, and gives whether it was the first.
    fn unrooted_mark(&mut self) -> Result<bool, Refusal> {
        if self.next_token() != Some(b'[') {
            return Ok(false);
        }
        let start = self.place;
        for possible in [&b"["[..], b"&", b"UR", b"]"] {
            match self.text.get(self.place) {
                Some(byte) if possible.contains(byte) => self.place += 1,
                _ => return Err((BAD_BYTE, self.place)),
            }
        }
        Ok(self.text[start + 2] == b'U')
    }

    /// Reads the nodes at the top of an unrooted tree.
    fn top(&mut self) -> Result<Vec<Vec<Node>>, Refusal> {
        if self.next_token() != Some(b'(') {
            return Ok(vec![self.part(0)?]);
        }
        self.place += 1;
        let mut nodes = vec![self.part(1)?];
        self.take(b',')?;
        nodes.push(self.part(1)?);
        if self.labels.count_ones() > 2 || self.next_token() != Some(b')') {
            self.take(b',')?;
            nodes.push(self.part(1)?);
        }
        self.take(b')')?;
        Ok(nodes)
    }

    /// Reads a node into nodes of its own.
    fn part(&mut self, open: usize) -> Result<Vec<Node>, Refusal> {
        self.nodes = Vec::with_capacity(MOST_NODES);
        self.node(0, open)?;
        Ok(std::mem::take(&mut self.nodes))
    }

    /// Reads a node below `parent` while `open` brackets are open.
    fn node(&mut self, parent: usize, open: usize) -> Result<(), Refusal> {
        match self.next_token() {
            Some(b'(') if open == MOST_OPEN => Err((TOO_DEEP, self.place)),
            Some(b'(') => self.fork(parent, open),
            Some(b'0'..=b'9') => self.leaf(parent),
            _ => Err((BAD_BYTE, self.place)),
        }
    }

    fn fork(&mut self, parent: usize, open: usize) -> Result<(), Refusal> {
        let at = self.nodes.len();
        self.nodes.push(Node {
            parent,
            ..Node::default()
        });
        self.place += 1;
        self.node(at, open + 1)?;
        self.take(b',')?;
        let second = self.nodes.len();
        self.node(at, open + 1)?;
        self.take(b')')?;
        let clade = self.nodes[at + 1].clade | self.nodes[second].clade;
        let below = self.nodes[at + 1]
            .print
            .wrapping_add(self.nodes[second].print);
        let node = &mut self.nodes[at];
        node.second = second;
        node.clade = clade;
        node.print = below.wrapping_add(mixed(clade));
        Ok(())
    }

    fn leaf(&mut self, parent: usize) -> Result<(), Refusal> {
        let start = self.place;
        let mut label = 0;
        while let Some(&digit @ b'0'..=b'9') = self.text.get(self.place) {
            // Held down, because the run may be as long as the text.
            label = (10 * label + usize::from(digit - b'0')).min(LARGEST_LABEL + 1);
            self.place += 1;
        }
        if label == 0 || label > LARGEST_LABEL {
            return Err((BAD_LABEL, start));
        }
        let clade = 1 << (label - 1);
        if self.labels & clade != 0 {
            return Err((REPEATED_LABEL, start));
        }
        self.labels |= clade;
        self.nodes.push(Node {
            clade,
            parent,
            ..Node::default()
        });
        Ok(())
    }
}
