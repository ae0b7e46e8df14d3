//! The calls over lent slices. They allocate nothing.
//!
//! What makes every one of them sound: a slice is given as its pointer and its length, the two numbers that receive the
//! answer are `answer`'s own, and the library, which is proved, takes any bytes and stays within the lengths. A slice of
//! length 0 has a pointer that is aligned, not null and not followed, as the library asks.

use crate::raw::*;
#[cfg(doc)]
use crate::*;
use crate::{Copies, GraphSize, Pair, Refusal, SupportSize, TableSize};

/// Makes a call that is lent two numbers, and reads its result: the two numbers of what is accepted, or the refusal.
fn answer(call: impl FnOnce(&mut u64, &mut u64) -> u8) -> Result<(usize, usize), Refusal> {
    let (mut first, mut second) = (0, 0);
    match call(&mut first, &mut second) {
        0 => Ok((first as usize, second as usize)),
        number => Err(Refusal {
            number,
            text: first as u8,
            place: second as usize,
        }),
    }
}

/// Writes the canonical text of a text's one tree, of either kind, into `out`, of at least [`FORM_OUT`] bytes. Gives
/// its length.
///
/// # Errors
///
/// [`Reason::ShortSlice`], [`Reason::LongText`], [`Reason::WrongByte`], [`Reason::BadLabel`], [`Reason::LabelAgain`] or
/// [`Reason::TooDeep`].
pub fn form_into(text: &[u8], out: &mut [u8]) -> Result<usize, Refusal> {
    let (bytes, _) = answer(|first, second| {
        // SAFETY: `text` is read and `out` written within their lengths only, and `&mut` overlaps nothing.
        unsafe {
            norbelath_form(
                text.as_ptr(),
                text.len(),
                out.as_mut_ptr(),
                out.len(),
                first,
                second,
            )
        }
    })?;
    Ok(bytes)
}

/// Writes the forest text of a cut of a text's one tree, a rooted one, into `out`, of at least [`CUT_OUT`] bytes. Gives
/// its length.
///
/// A tree of n leaves has the cuts 0 to 2n − 3, in the order in which its nodes begin in the canonical text, without
/// the root.
///
/// # Errors
///
/// Those of [`form_into`], [`Reason::OtherKind`] or [`Reason::NoSuchCut`].
pub fn cut_into(text: &[u8], cut: u64, out: &mut [u8]) -> Result<usize, Refusal> {
    let (bytes, _) = answer(|first, second| {
        // SAFETY: `text` is read and `out` written within their lengths only; any number may be given as the cut.
        unsafe {
            norbelath_cut(
                text.as_ptr(),
                text.len(),
                cut,
                out.as_mut_ptr(),
                out.len(),
                first,
                second,
            )
        }
    })?;
    Ok(bytes)
}

/// Whether one move makes the tree of `text` that of `other`, of the same kind and a different topology, and how many
/// forests were compared to tell.
///
/// One move of a rooted tree takes the subtree at a node away and hangs it on an edge of the rest, or above its root.
/// One move of an unrooted tree cuts an edge and joins one side, by its cut end, to an edge of the other; either side
/// may be the one that is moved.
///
/// For the number of forests the cuts of `text`'s tree are gone through in order, up to and including the first one
/// whose forest the other tree shares, or all of them if there is none. A cut counts one where the other tree has a
/// node below its root with the clade of the pruned node, and else nothing. So the number is at most 2n − 2 for trees
/// of n leaves, it is 1 or more for rooted trees that are one move apart, and it may be another one with the trees
/// exchanged. It is 0 for trees of equal topology, and for unrooted trees.
///
/// ```
/// let [one, other] = ["(((1,2),3),4);", "(((1,4),2),3);"];
/// // Only the cut of leaf 4 leaves a forest that both have, ((1,2),3) and 4. The cuts of 1, 2 and 3 come before it in
/// // the first tree, and in the second only that of 1.
/// assert_eq!(norbelath::pair(one, other)?.forests, 4);
/// assert_eq!(norbelath::pair(other, one)?.forests, 2);
/// # Ok::<(), norbelath::Refusal>(())
/// ```
///
/// # Errors
///
/// [`Reason::LongText`], [`Reason::WrongByte`], [`Reason::BadLabel`], [`Reason::LabelAgain`], [`Reason::TooDeep`],
/// [`Reason::OtherKind`] or [`Reason::LabelsDiffer`]. In a refusal `text` says which of the two it is.
pub fn pair(text: impl AsRef<[u8]>, other: impl AsRef<[u8]>) -> Result<Pair, Refusal> {
    let (text, other) = (text.as_ref(), other.as_ref());
    compared(|first, second| {
        // SAFETY: both texts are only read, within their lengths, so they may overlap.
        unsafe {
            norbelath_pair(
                text.as_ptr(),
                text.len(),
                other.as_ptr(),
                other.len(),
                first,
                second,
            )
        }
    })
}

/// Makes a pair test.
fn compared(call: impl FnOnce(&mut u64, &mut u64) -> u8) -> Result<Pair, Refusal> {
    let (yes, forests) = answer(call)?;
    Ok(Pair {
        apart: yes == 1,
        forests,
    })
}

/// Writes the canonical texts of a text's trees into `texts`, one after another, of at least [`TABLE_TEXTS`] bytes, and
/// the end of each into `ends`, of at least [`TABLE_ENDS`] numbers.
///
/// # Errors
///
/// [`Reason::ShortSlice`], [`Reason::LongText`], [`Reason::WrongByte`], [`Reason::BadLabel`], [`Reason::LabelAgain`],
/// [`Reason::TooDeep`], [`Reason::LabelsDiffer`], [`Reason::TooManyTrees`] or [`Reason::OtherKind`].
pub fn table_into(text: &[u8], texts: &mut [u8], ends: &mut [u32]) -> Result<TableSize, Refusal> {
    let (bytes, trees) = answer(|first, second| {
        // SAFETY: `text` is read, and `texts` and `ends` are written, within their lengths only; `&mut` overlaps nothing.
        unsafe {
            norbelath_table(
                text.as_ptr(),
                text.len(),
                texts.as_mut_ptr(),
                texts.len(),
                ends.as_mut_ptr(),
                ends.len(),
                first,
                second,
            )
        }
    })?;
    Ok(TableSize { bytes, trees })
}

/// Writes the pairs of a text's trees that are one move apart, copies merged, into `pairs`, i and then j of each, of at
/// least [`GRAPH_PAIRS`] numbers; each tree's number of pairs into `counts`, of at least [`GRAPH_COUNTS`]; and the
/// first position of each tree's topology into `firsts`, of at least [`GRAPH_FIRSTS`].
///
/// # Errors
///
/// Those of [`table_into`].
pub fn graph_into(
    text: &[u8],
    pairs: &mut [u16],
    counts: &mut [u16],
    firsts: &mut [u16],
) -> Result<GraphSize, Refusal> {
    listed(|first, second| {
        // SAFETY: `text` is read and the three slices are written within their lengths only; `&mut` overlaps nothing.
        unsafe {
            norbelath_graph(
                text.as_ptr(),
                text.len(),
                pairs.as_mut_ptr(),
                pairs.len(),
                counts.as_mut_ptr(),
                counts.len(),
                firsts.as_mut_ptr(),
                firsts.len(),
                first,
                second,
            )
        }
    })
}

/// Writes what [`graph_into`] writes, with copies merged or kept apart.
///
/// # Errors
///
/// Those of [`table_into`].
pub fn graph_choosing_into(
    text: &[u8],
    copies: Copies,
    pairs: &mut [u16],
    counts: &mut [u16],
    firsts: &mut [u16],
) -> Result<GraphSize, Refusal> {
    listed(|first, second| {
        // SAFETY: `text` is read and the three slices are written within their lengths only; `&mut` overlaps nothing,
        // and any number may be given as the choice.
        unsafe {
            norbelath_graph_choosing(
                text.as_ptr(),
                text.len(),
                copies.choice(),
                pairs.as_mut_ptr(),
                pairs.len(),
                counts.as_mut_ptr(),
                counts.len(),
                firsts.as_mut_ptr(),
                firsts.len(),
                first,
                second,
            )
        }
    })
}

/// Writes the pairs of a text's rooted trees that are one nearest-neighbour interchange apart, copies kept apart, into
/// `pairs` and each tree's number of pairs into `counts`, as [`graph_into`] does for one move.
///
/// # Errors
///
/// Those of [`table_into`]; the first unrooted tree is [`Reason::OtherKind`].
pub fn interchanges_into(
    text: &[u8],
    pairs: &mut [u16],
    counts: &mut [u16],
) -> Result<GraphSize, Refusal> {
    listed(|first, second| {
        // SAFETY: `text` is read and the two slices are written within their lengths only; `&mut` overlaps nothing.
        unsafe {
            norbelath_interchanges(
                text.as_ptr(),
                text.len(),
                pairs.as_mut_ptr(),
                pairs.len(),
                counts.as_mut_ptr(),
                counts.len(),
                first,
                second,
            )
        }
    })
}

/// Writes what [`graph_into`] writes, and the number of each tree's island into `islands`, of at least [`ISLANDS`]
/// numbers.
///
/// # Errors
///
/// Those of [`table_into`].
pub fn islands_into(
    text: &[u8],
    pairs: &mut [u16],
    counts: &mut [u16],
    firsts: &mut [u16],
    islands: &mut [u16],
) -> Result<GraphSize, Refusal> {
    listed(|first, second| {
        // SAFETY: `text` is read and the four slices are written within their lengths only; `&mut` overlaps nothing.
        unsafe {
            norbelath_islands(
                text.as_ptr(),
                text.len(),
                pairs.as_mut_ptr(),
                pairs.len(),
                counts.as_mut_ptr(),
                counts.len(),
                firsts.as_mut_ptr(),
                firsts.len(),
                islands.as_mut_ptr(),
                islands.len(),
                first,
                second,
            )
        }
    })
}

/// Makes a call that lists pairs.
fn listed(call: impl FnOnce(&mut u64, &mut u64) -> u8) -> Result<GraphSize, Refusal> {
    let (trees, pairs) = answer(call)?;
    Ok(GraphSize { trees, pairs })
}

/// Writes the clades of a text's rooted trees into `clades`, of at least [`SUPPORT_CLADES`] numbers; the number of
/// trees that have each into `trees`, of at least [`SUPPORT_TREES`]; and the text of the majority tree into `out`, of
/// at least [`SUPPORT_OUT`] bytes. [`support`] says which they are, and in what order.
///
/// # Errors
///
/// Those of [`table_into`]; the first unrooted tree is [`Reason::OtherKind`].
pub fn support_into(
    text: &[u8],
    clades: &mut [u64],
    trees: &mut [u16],
    out: &mut [u8],
) -> Result<SupportSize, Refusal> {
    let mut third = 0;
    let (clades, bytes) = answer(|first, second| {
        // SAFETY: `text` is read and the three slices are written within their lengths only; they and `third`, a
        // number of its own, overlap nothing.
        unsafe {
            norbelath_support(
                text.as_ptr(),
                text.len(),
                clades.as_mut_ptr(),
                clades.len(),
                trees.as_mut_ptr(),
                trees.len(),
                out.as_mut_ptr(),
                out.len(),
                first,
                second,
                &mut third,
            )
        }
    })?;
    Ok(SupportSize {
        clades,
        bytes,
        trees: third as usize,
    })
}

/// Writes the row of a text's one tree, a rooted one, into `row`, of at least [`ROW`] numbers. Gives how many it has.
///
/// # Errors
///
/// Those of [`form_into`], or [`Reason::OtherKind`].
pub fn row_into(text: &[u8], row: &mut [u64]) -> Result<usize, Refusal> {
    let (numbers, _) = answer(|first, second| {
        // SAFETY: `text` is read and `row` written within their lengths only, and `&mut` overlaps nothing.
        unsafe {
            norbelath_row(
                text.as_ptr(),
                text.len(),
                row.as_mut_ptr(),
                row.len(),
                first,
                second,
            )
        }
    })?;
    Ok(numbers)
}

/// Writes the canonical text of the tree of a row into `out`, of at least [`ROW_TEXT_OUT`] bytes. Gives its length.
///
/// # Errors
///
/// [`Reason::ShortSlice`] or [`Reason::NoRow`].
pub fn row_text_into(row: &[u64], out: &mut [u8]) -> Result<usize, Refusal> {
    let (bytes, _) = answer(|first, second| {
        // SAFETY: `row` is read and `out` written within their lengths only; any numbers may stand in `row`.
        unsafe {
            norbelath_row_text(
                row.as_ptr(),
                row.len(),
                out.as_mut_ptr(),
                out.len(),
                first,
                second,
            )
        }
    })?;
    Ok(bytes)
}

/// Whether one move makes the tree of `row` that of `other`, of the same labels and a different topology, and how many
/// forests were compared to tell, as [`pair`] does for the texts of these trees.
///
/// # Errors
///
/// [`Reason::NoRow`], of `row` before `other`; then [`Reason::LabelsDiffer`], of `other`. In a refusal `text` says
/// which of the two it is.
pub fn row_pair(row: &[u64], other: &[u64]) -> Result<Pair, Refusal> {
    compared(|first, second| {
        // SAFETY: both rows are only read, within their lengths, so they may overlap.
        unsafe {
            norbelath_row_pair(
                row.as_ptr(),
                row.len(),
                other.as_ptr(),
                other.len(),
                first,
                second,
            )
        }
    })
}

/// Writes the row of each node of a text's one tree, a rooted one, into `rows`, of at least [`PLOT_ROWS`] floats, and
/// its column into `columns`, of at least [`PLOT_COLUMNS`] numbers. Gives how many nodes the tree has. [`plot`] says
/// what they are; any bits may stand in `rows` before.
///
/// # Errors
///
/// Those of [`form_into`], or [`Reason::OtherKind`].
pub fn plot_into(text: &[u8], rows: &mut [f64], columns: &mut [u16]) -> Result<usize, Refusal> {
    let (nodes, _) = answer(|first, second| {
        // SAFETY: `text` is read and the two slices are written within their lengths only; all bits are those of a float,
        // before and after.
        unsafe {
            norbelath_plot(
                text.as_ptr(),
                text.len(),
                rows.as_mut_ptr(),
                rows.len(),
                columns.as_mut_ptr(),
                columns.len(),
                first,
                second,
            )
        }
    })?;
    Ok(nodes)
}

/// Adds a text's one tree, a rooted one, to the index in `memory`, of at least [`INDEX_BYTES`] bytes; zeros are the
/// empty index. Gives the tree's number, the smallest that no held tree has. What lies behind [`INDEX_BYTES`] is neither
/// read nor changed.
///
/// # Errors
///
/// In this order, [`Reason::ShortSlice`] for the memory; [`Reason::LongText`]; [`Reason::NoIndex`]; the others of
/// [`form_into`]; [`Reason::TooManyTrees`] for any tree while 160 are held; [`Reason::OtherKind`]; and
/// [`Reason::LabelsDiffer`].
pub fn index_add_into(memory: &mut [u8], text: &[u8]) -> Result<usize, Refusal> {
    let (number, _) = answer(|first, second| {
        // SAFETY: `memory` is read and written, and `text` read, within their lengths only; `&mut` overlaps nothing, and
        // any bytes may stand in both.
        unsafe {
            norbelath_index_add(
                memory.as_mut_ptr(),
                memory.len(),
                text.as_ptr(),
                text.len(),
                first,
                second,
            )
        }
    })?;
    Ok(number)
}

/// Writes the numbers of the trees in an index that are one move apart from the tree with this number into `list`,
/// ascending, of at least [`INDEX_LIST`] numbers. Gives how many they are. The index is in `memory`, as for
/// [`index_add_into`].
///
/// # Errors
///
/// In this order, [`Reason::ShortSlice`] for the memory or the list, [`Reason::NoIndex`] and [`Reason::NotHeld`].
pub fn index_neighbours_into(
    memory: &[u8],
    number: usize,
    list: &mut [u16],
) -> Result<usize, Refusal> {
    let (neighbours, _) = answer(|first, second| {
        // SAFETY: `memory` is read and `list` written within their lengths only; any bytes may stand in `memory`, and
        // any number may be given.
        unsafe {
            norbelath_index_neighbours(
                memory.as_ptr(),
                memory.len(),
                number,
                list.as_mut_ptr(),
                list.len(),
                first,
                second,
            )
        }
    })?;
    Ok(neighbours)
}

/// Removes the tree with this number from the index in `memory`, of at least [`INDEX_BYTES`] bytes. They are then those
/// of the other trees, which keep their numbers; this one is free, and without trees they are zeros. What lies behind
/// [`INDEX_BYTES`] is neither read nor changed.
///
/// # Errors
///
/// In this order, [`Reason::ShortSlice`] for the memory, [`Reason::NoIndex`] and [`Reason::NotHeld`].
pub fn index_remove_into(memory: &mut [u8], number: usize) -> Result<(), Refusal> {
    answer(|first, second| {
        // SAFETY: `memory` is read and written within its length only; any bytes may stand in it, and any number may be
        // given.
        unsafe { norbelath_index_remove(memory.as_mut_ptr(), memory.len(), number, first, second) }
    })?;
    Ok(())
}

/// Writes what the pair lister prints for a text into `out`, of at least [`SHEET_OUT`] bytes. Gives its length.
///
/// # Errors
///
/// [`Reason::ShortSlice`] alone: a text that is refused has its sheet too, the line `refused N at P`.
pub fn sheet_into(text: &[u8], out: &mut [u8]) -> Result<usize, Refusal> {
    let (bytes, _) = answer(|first, second| {
        // SAFETY: `text` is read and `out` written within their lengths only, and `&mut` overlaps nothing.
        unsafe {
            norbelath_sheet(
                text.as_ptr(),
                text.len(),
                out.as_mut_ptr(),
                out.len(),
                first,
                second,
            )
        }
    })?;
    Ok(bytes)
}
