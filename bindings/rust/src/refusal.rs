//! Why a call refuses.

use std::error::Error;
use std::fmt;

/// Why a call refuses, and where. No lent slice is changed then.
///
/// ```
/// use norbelath::Reason;
///
/// let refusal = norbelath::form("(1,2").unwrap_err();
/// assert_eq!((refusal.reason(), refusal.at()), (Reason::WrongByte, Some(4)));
/// assert_eq!(
///     refusal.to_string(),
///     "refused 1 at 4: a byte that cannot stand there, or the text ends too soon"
/// );
/// ```
#[derive(Clone, Copy, Debug, PartialEq, Eq, Hash)]
#[non_exhaustive]
pub struct Refusal {
    /// One of the numbers below, 1 to 13, or one of a later version of the library.
    pub number: u8,
    /// Which text or row: 0, or 1 for the other of a pair.
    pub text: u8,
    /// The place in that text, counted from 0; its length where it ends too soon. 0 where there is no place, which
    /// [`at`](Refusal::at) tells from the start of the text.
    pub place: usize,
}

impl Refusal {
    /// The number of [`Reason::WrongByte`].
    pub const WRONG_BYTE: u8 = 1;
    /// The number of [`Reason::BadLabel`].
    pub const BAD_LABEL: u8 = 2;
    /// The number of [`Reason::LabelAgain`].
    pub const LABEL_AGAIN: u8 = 3;
    /// The number of [`Reason::TooDeep`].
    pub const TOO_DEEP: u8 = 4;
    /// The number of [`Reason::LabelsDiffer`].
    pub const LABELS_DIFFER: u8 = 5;
    /// The number of [`Reason::TooManyTrees`].
    pub const TOO_MANY_TREES: u8 = 6;
    /// The number of [`Reason::ShortSlice`].
    pub const SHORT_SLICE: u8 = 7;
    /// The number of [`Reason::LongText`].
    pub const LONG_TEXT: u8 = 8;
    /// The number of [`Reason::NoSuchCut`].
    pub const NO_SUCH_CUT: u8 = 9;
    /// The number of [`Reason::OtherKind`].
    pub const OTHER_KIND: u8 = 10;
    /// The number of [`Reason::NoRow`].
    pub const NO_ROW: u8 = 11;
    /// The number of [`Reason::NoIndex`].
    pub const NO_INDEX: u8 = 12;
    /// The number of [`Reason::NotHeld`].
    pub const NOT_HELD: u8 = 13;

    /// The reason that the number stands for.
    pub fn reason(&self) -> Reason {
        match self.number {
            Refusal::WRONG_BYTE => Reason::WrongByte,
            Refusal::BAD_LABEL => Reason::BadLabel,
            Refusal::LABEL_AGAIN => Reason::LabelAgain,
            Refusal::TOO_DEEP => Reason::TooDeep,
            Refusal::LABELS_DIFFER => Reason::LabelsDiffer,
            Refusal::TOO_MANY_TREES => Reason::TooManyTrees,
            Refusal::SHORT_SLICE => Reason::ShortSlice,
            Refusal::LONG_TEXT => Reason::LongText,
            Refusal::NO_SUCH_CUT => Reason::NoSuchCut,
            Refusal::OTHER_KIND => Reason::OtherKind,
            Refusal::NO_ROW => Reason::NoRow,
            Refusal::NO_INDEX => Reason::NoIndex,
            Refusal::NOT_HELD => Reason::NotHeld,
            number => Reason::Later(number),
        }
    }

    /// The place, where the refusal has one: an offset in the text, or its length where it ends too soon.
    pub fn at(&self) -> Option<usize> {
        match self.reason() {
            Reason::ShortSlice
            | Reason::LongText
            | Reason::NoSuchCut
            | Reason::NoRow
            | Reason::NoIndex
            | Reason::NotHeld => None,
            // In a text these stand behind a tree. At 0 they are about a row and a full index.
            Reason::LabelsDiffer | Reason::TooManyTrees if self.place == 0 => None,
            _ => Some(self.place),
        }
    }

    /// What `text` counts.
    fn counted(&self) -> &'static str {
        match (self.reason(), self.at()) {
            (Reason::NoRow, _) | (Reason::LabelsDiffer, None) => "row",
            _ => "text",
        }
    }
}

impl fmt::Display for Refusal {
    fn fmt(&self, f: &mut fmt::Formatter<'_>) -> fmt::Result {
        write!(f, "refused {}", self.number)?;
        if let Some(place) = self.at() {
            write!(f, " at {place}")?;
        }
        if self.text != 0 {
            let within = if self.at().is_some() { "of" } else { "in" };
            write!(f, " {within} the other {}", self.counted())?;
        }
        write!(f, ": {}", self.reason())
    }
}

impl Error for Refusal {}

/// The reason of a [`Refusal`]. `Display` gives it in words.
#[derive(Clone, Copy, Debug, PartialEq, Eq, Hash)]
#[non_exhaustive]
pub enum Reason {
    /// 1: a byte that cannot stand there, or the text ends too soon. The place is that byte, or the length.
    WrongByte,
    /// 2: a label that is not 1 to 64. The place is its first digit.
    BadLabel,
    /// 3: a label that is already in this tree. The place is its first digit.
    LabelAgain,
    /// 4: a bracket that opens while 63 are open. The place is that bracket.
    TooDeep,
    /// 5: labels other than those of the first tree, or of the held ones. The place is the `;` of the tree that differs;
    /// a row has none.
    LabelsDiffer,
    /// 6: any byte but a blank after 160 trees, and the place is that byte; or a tree while an index holds 160, which has
    /// no place.
    TooManyTrees,
    /// 7: a lent slice that is too short.
    ShortSlice,
    /// 8: a text above 65,535 bytes.
    LongText,
    /// 9: a cut number that the tree does not have.
    NoSuchCut,
    /// 10: not of the first tree's kind, or unrooted in a call for rooted trees only. The place is the `;` of the tree.
    OtherKind,
    /// 11: numbers that are the row of no tree.
    NoRow,
    /// 12: memory that is that of no set of held trees.
    NoIndex,
    /// 13: a number that no held tree has.
    NotHeld,
    /// Any other number: the library that is linked is of a later version than this package.
    Later(u8),
}

impl fmt::Display for Reason {
    fn fmt(&self, f: &mut fmt::Formatter<'_>) -> fmt::Result {
        f.pad(match self {
            Reason::WrongByte => "a byte that cannot stand there, or the text ends too soon",
            Reason::BadLabel => "a label that is not 1 to 64",
            Reason::LabelAgain => "a label that is already in this tree",
            Reason::TooDeep => "a bracket that opens while 63 are open",
            Reason::LabelsDiffer => "labels other than those of the first tree",
            Reason::TooManyTrees => "more than 160 trees",
            Reason::ShortSlice => "a lent slice that is too short",
            Reason::LongText => "a text above 65,535 bytes",
            Reason::NoSuchCut => "a cut number that the tree does not have",
            Reason::OtherKind => {
                "not of the first tree's kind, or unrooted where only rooted trees are taken"
            }
            Reason::NoRow => "numbers that are the row of no tree",
            Reason::NoIndex => "memory that is that of no set of held trees",
            Reason::NotHeld => "a number that no held tree has",
            Reason::Later(_) => "a refusal of a later version",
        })
    }
}

#[cfg(test)]
mod tests {
    use super::{Reason, Refusal};

    fn refusal(number: u8, text: u8, place: usize) -> Refusal {
        Refusal {
            number,
            text,
            place,
        }
    }

    /// The words of every reason, with a place and without.
    #[test]
    fn words() {
        let words = [
            (1, 0, 4, "refused 1 at 4: a byte that cannot stand there, or the text ends too soon"),
            (1, 0, 0, "refused 1 at 0: a byte that cannot stand there, or the text ends too soon"),
            (1, 1, 4, "refused 1 at 4 of the other text: a byte that cannot stand there, or the text ends too soon"),
            (2, 0, 3, "refused 2 at 3: a label that is not 1 to 64"),
            (2, 1, 0, "refused 2 at 0 of the other text: a label that is not 1 to 64"),
            (3, 0, 3, "refused 3 at 3: a label that is already in this tree"),
            (4, 0, 63, "refused 4 at 63: a bracket that opens while 63 are open"),
            (5, 0, 11, "refused 5 at 11: labels other than those of the first tree"),
            (5, 1, 5, "refused 5 at 5 of the other text: labels other than those of the first tree"),
            (5, 1, 0, "refused 5 in the other row: labels other than those of the first tree"),
            (6, 0, 960, "refused 6 at 960: more than 160 trees"),
            (6, 0, 0, "refused 6: more than 160 trees"),
            (7, 0, 0, "refused 7: a lent slice that is too short"),
            (8, 0, 0, "refused 8: a text above 65,535 bytes"),
            (8, 1, 0, "refused 8 in the other text: a text above 65,535 bytes"),
            (9, 0, 0, "refused 9: a cut number that the tree does not have"),
            (10, 0, 15, "refused 10 at 15: not of the first tree's kind, or unrooted where only rooted trees are taken"),
            (
                10,
                1,
                9,
                "refused 10 at 9 of the other text: \
                 not of the first tree's kind, or unrooted where only rooted trees are taken",
            ),
            (11, 0, 0, "refused 11: numbers that are the row of no tree"),
            (11, 1, 0, "refused 11 in the other row: numbers that are the row of no tree"),
            (12, 0, 0, "refused 12: memory that is that of no set of held trees"),
            (13, 0, 0, "refused 13: a number that no held tree has"),
            (14, 0, 2, "refused 14 at 2: a refusal of a later version"),
            (255, 1, 0, "refused 255 at 0 of the other text: a refusal of a later version"),
        ];
        for (number, text, place, expected) in words {
            assert_eq!(refusal(number, text, place).to_string(), expected);
        }
    }

    /// A reason for each number that a byte can hold, and each reason once.
    #[test]
    fn reasons() {
        let known = [
            Reason::WrongByte,
            Reason::BadLabel,
            Reason::LabelAgain,
            Reason::TooDeep,
            Reason::LabelsDiffer,
            Reason::TooManyTrees,
            Reason::ShortSlice,
            Reason::LongText,
            Reason::NoSuchCut,
            Reason::OtherKind,
            Reason::NoRow,
            Reason::NoIndex,
            Reason::NotHeld,
        ];
        for number in 0..=255 {
            let place = usize::from(number);
            let expected = match place {
                1..=13 => known[place - 1],
                _ => Reason::Later(number),
            };
            assert_eq!(refusal(number, 0, place).reason(), expected);
        }
    }

    /// Which of all numbers have a place, at the start of a text and behind it.
    #[test]
    fn places() {
        for number in 0..=255 {
            let never = [7, 8, 9, 11, 12, 13].contains(&number);
            let not_at_the_start = [5, 6].contains(&number);
            let at = |place| refusal(number, 0, place).at();
            assert_eq!(
                at(0),
                (!never && !not_at_the_start).then_some(0),
                "{number}"
            );
            assert_eq!(at(1), (!never).then_some(1), "{number}");
        }
    }
}
