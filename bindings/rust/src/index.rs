//! An index that owns its memory.

use std::fmt;

#[cfg(doc)]
use crate::Reason;
use crate::{index_add_into, index_neighbours_into, index_remove_into};
use crate::{Refusal, INDEX_BYTES, INDEX_LIST};

/// An index of rooted trees of one label set: up to 160 of them, each under a number, and which of them are neighbours.
///
/// It is [`INDEX_BYTES`] bytes, and one set of held trees has one memory. So two indices are equal exactly when they
/// hold the same topologies under the same numbers, and [`as_bytes`](Index::as_bytes) and
/// [`from_bytes`](Index::from_bytes) store one.
///
/// ```
/// use norbelath::{Index, Reason};
///
/// let mut index = Index::new();
/// for tree in ["((1,2),3);", "((1,3),2);", "(3,(2,1));"] {
///     let number = index.add(tree)?;
///     println!("tree {number} has the neighbours {:?}", index.neighbours(number)?);
/// }
/// assert_eq!(index.neighbours(1)?, [0, 2]);
/// assert_eq!(index.add("(1,2);").unwrap_err().reason(), Reason::LabelsDiffer);
/// let stored = index.as_bytes().to_vec();
/// assert_eq!(Index::from_bytes(&stored), index);
///
/// index.remove(0)?;
/// assert_eq!(index.neighbours(1)?, [2]);
/// assert_eq!(index.add("((2,3),1);")?, 0);
/// for number in 0..3 {
///     index.remove(number)?;
/// }
/// assert_eq!(index, Index::new());
/// assert_eq!(index.add("(1,2);")?, 0);
/// # Ok::<(), norbelath::Refusal>(())
/// ```
#[derive(Clone, PartialEq, Eq)]
pub struct Index {
    memory: Vec<u8>,
}

impl Index {
    /// The empty index.
    pub fn new() -> Index {
        Index {
            memory: vec![0; INDEX_BYTES],
        }
    }

    /// The index in these bytes, of which [`INDEX_BYTES`] are copied. They are not looked at: where they are too few,
    /// or those of no set of held trees, each call refuses.
    pub fn from_bytes(bytes: &[u8]) -> Index {
        let copied = bytes.len().min(INDEX_BYTES);
        Index {
            memory: bytes[..copied].to_vec(),
        }
    }

    /// The bytes of the index.
    pub fn as_bytes(&self) -> &[u8] {
        &self.memory
    }

    /// Adds a text's one tree, a rooted one, with the labels of those that are held. Gives its number, the smallest
    /// that no held tree has.
    ///
    /// # Errors
    ///
    /// Those of [`index_add_into`]; [`Reason::ShortSlice`] only where too few bytes were given to
    /// [`from_bytes`](Index::from_bytes).
    pub fn add(&mut self, text: impl AsRef<[u8]>) -> Result<usize, Refusal> {
        index_add_into(&mut self.memory, text.as_ref())
    }

    /// The numbers of the held trees that are one move apart from the tree with this number, ascending.
    ///
    /// # Errors
    ///
    /// Those of [`index_neighbours_into`]; [`Reason::ShortSlice`] only as in [`add`](Index::add).
    pub fn neighbours(&self, number: usize) -> Result<Vec<u16>, Refusal> {
        let mut list = vec![0; INDEX_LIST];
        let neighbours = index_neighbours_into(&self.memory, number, &mut list)?;
        list.truncate(neighbours);
        Ok(list)
    }

    /// Removes the tree with this number, which is free then; the other trees keep theirs. Without its last tree the
    /// index is the empty one, and takes a tree of any labels next.
    ///
    /// # Errors
    ///
    /// Those of [`index_remove_into`]; [`Reason::ShortSlice`] only as in [`add`](Index::add).
    pub fn remove(&mut self, number: usize) -> Result<(), Refusal> {
        index_remove_into(&mut self.memory, number)
    }
}

impl Default for Index {
    fn default() -> Index {
        Index::new()
    }
}

impl fmt::Debug for Index {
    fn fmt(&self, f: &mut fmt::Formatter<'_>) -> fmt::Result {
        f.debug_struct("Index").finish_non_exhaustive()
    }
}
