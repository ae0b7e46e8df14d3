//! Reads tree texts from left to right and refuses at the first fault.

use crate::rooted::Rooted;
use crate::tree::{Subtree, Tree};
use crate::unrooted::Unrooted;
use crate::{Refusal, BAD_BYTE, BAD_LABEL, LARGEST_LABEL, MOST_OPEN, REPEATED_LABEL, TOO_DEEP};

pub struct Reader<'a> {
    text: &'a [u8],
    which: u8,
    place: usize,
    /// Labels read so far in the present tree, bit `label - 1` for each.
    labels: u64,
}

impl<'a> Reader<'a> {
    /// Begins at place 0; `which` is 0 or 1, for refusals.
    pub fn new(text: &'a [u8], which: u8) -> Reader<'a> {
        Reader {
            text,
            which,
            place: 0,
            labels: 0,
        }
    }

    /// A refusal at the present place.
    pub fn refusal(&self, number: u8) -> Refusal {
        self.refusal_at(number, self.place)
    }

    pub fn refusal_at(&self, number: u8, place: usize) -> Refusal {
        Refusal {
            number,
            text: self.which,
            place,
        }
    }

    fn byte_here(&self) -> Option<u8> {
        self.text.get(self.place).copied()
    }

    /// Goes past blanks and gives the byte there, `None` at the end.
    pub fn next_token_byte(&mut self) -> Option<u8> {
        while matches!(self.byte_here(), Some(b' ' | b'\t' | b'\r' | b'\n')) {
            self.place += 1;
        }
        self.byte_here()
    }

    /// Goes past this one-byte token.
    fn take(&mut self, token: u8) -> Result<(), Refusal> {
        if self.next_token_byte() != Some(token) {
            return Err(self.refusal(BAD_BYTE));
        }
        self.place += 1;
        Ok(())
    }

    /// Goes past one of these bytes, with no blank before it, and gives it.
    fn take_one_of(&mut self, possible: &[u8]) -> Result<u8, Refusal> {
        match self.byte_here() {
            Some(byte) if possible.contains(&byte) => {
                self.place += 1;
                Ok(byte)
            }
            _ => Err(self.refusal(BAD_BYTE)),
        }
    }

    /// Reads a mark or none, a top and `;`. Gives the tree and the place of the
    /// `;`.
    pub fn tree(&mut self) -> Result<(Tree, usize), Refusal> {
        self.labels = 0;
        let tree = if self.unrooted_mark()? {
            let top = self.unrooted_top()?;
            Tree::Unrooted(Unrooted::new(&top, self.labels))
        } else {
            let root = self.node(0)?;
            Tree::Rooted(Rooted::new(&root, self.labels))
        };
        self.take(b';')?;
        Ok((tree, self.place - 1))
    }

    /// Reads `[&U]`, `[&R]` or nothing, and gives whether it was the first.
    fn unrooted_mark(&mut self) -> Result<bool, Refusal> {
        if self.next_token_byte() != Some(b'[') {
            return Ok(false);
        }
        self.place += 1;
        self.take_one_of(b"&")?;
        let letter = self.take_one_of(b"UR")?;
        self.take_one_of(b"]")?;
        Ok(letter == b'U')
    }

    /// Reads the top of an unrooted tree: a label, two of them in brackets, or
    /// three nodes in brackets.
    fn unrooted_top(&mut self) -> Result<Vec<Subtree>, Refusal> {
        if self.next_token_byte() != Some(b'(') {
            return Ok(vec![self.node(0)?]);
        }
        self.take(b'(')?;
        let mut nodes = vec![self.node(1)?];
        self.take(b',')?;
        nodes.push(self.node(1)?);
        if self.labels.count_ones() > 2 || self.next_token_byte() != Some(b')') {
            self.take(b',')?;
            nodes.push(self.node(1)?);
        }
        self.take(b')')?;
        Ok(nodes)
    }

    /// Reads a label or a fork while `open` brackets are open.
    fn node(&mut self, open: usize) -> Result<Subtree, Refusal> {
        match self.next_token_byte() {
            Some(b'(') if open == MOST_OPEN => Err(self.refusal(TOO_DEEP)),
            Some(b'(') => self.fork(open),
            Some(b'0'..=b'9') => Ok(Subtree::leaf(self.label()?)),
            _ => Err(self.refusal(BAD_BYTE)),
        }
    }

    fn fork(&mut self, open: usize) -> Result<Subtree, Refusal> {
        self.take(b'(')?;
        let first = self.node(open + 1)?;
        self.take(b',')?;
        let second = self.node(open + 1)?;
        self.take(b')')?;
        Ok(Subtree::fork(first, second))
    }

    /// Reads a label; the place is at its first digit.
    fn label(&mut self) -> Result<u8, Refusal> {
        let start = self.place;
        let mut value: u32 = 0;
        while let Some(digit @ b'0'..=b'9') = self.byte_here() {
            // Saturating, because the run may be as long as the text.
            value = value
                .saturating_mul(10)
                .saturating_add(u32::from(digit - b'0'));
            self.place += 1;
        }
        if value == 0 || value > u32::from(LARGEST_LABEL) {
            return Err(self.refusal_at(BAD_LABEL, start));
        }
        let bit = 1 << (value - 1);
        if self.labels & bit != 0 {
            return Err(self.refusal_at(REPEATED_LABEL, start));
        }
        self.labels |= bit;
        Ok(value as u8)
    }
}
