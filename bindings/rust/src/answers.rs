//! What the calls give.

/// What [`pair`](crate::pair) and [`row_pair`](crate::row_pair) give.
#[derive(Clone, Copy, Debug, PartialEq, Eq)]
#[non_exhaustive]
pub struct Pair {
    /// Whether one move makes the first tree the second.
    pub apart: bool,
    /// How many forests were compared to tell.
    pub forests: usize,
}

/// How much [`table_into`](crate::table_into) wrote.
#[derive(Clone, Copy, Debug, PartialEq, Eq)]
#[non_exhaustive]
pub struct TableSize {
    /// The bytes of all texts.
    pub bytes: usize,
    /// The trees, each with its end.
    pub trees: usize,
}

/// How much a call that lists pairs wrote.
#[derive(Clone, Copy, Debug, PartialEq, Eq)]
#[non_exhaustive]
pub struct GraphSize {
    /// The trees: in each slice but that of the pairs, a number for each.
    pub trees: usize,
    /// The pairs, two numbers for each.
    pub pairs: usize,
}

/// How much [`support_into`](crate::support_into) wrote, and of how many trees.
#[derive(Clone, Copy, Debug, PartialEq, Eq)]
#[non_exhaustive]
pub struct SupportSize {
    /// The clades: a number for each in two slices.
    pub clades: usize,
    /// The bytes of the majority tree's text.
    pub bytes: usize,
    /// The trees of the table.
    pub trees: usize,
}

/// What [`table`](crate::table) gives.
#[derive(Clone, Debug, PartialEq, Eq)]
#[non_exhaustive]
pub struct Table {
    /// The canonical texts, one after another.
    pub texts: String,
    /// The end of each text: the offset behind its `;`.
    pub ends: Vec<u32>,
}

impl Table {
    /// The canonical text of each tree.
    ///
    /// ```
    /// let table = norbelath::table("(2,1); (02,001);")?;
    /// assert_eq!(table.trees().collect::<Vec<&str>>(), ["(1,2);", "(1,2);"]);
    /// # Ok::<(), norbelath::Refusal>(())
    /// ```
    ///
    /// # Panics
    ///
    /// The iterator panics where the fields were changed, so that the ends are not ascending offsets in the texts.
    pub fn trees(&self) -> impl ExactSizeIterator<Item = &str> + '_ {
        let mut start = 0;
        self.ends.iter().map(move |&end| {
            let text = &self.texts[start..end as usize];
            start = end as usize;
            text
        })
    }
}

/// What [`graph`](crate::graph) and [`graph_choosing`](crate::graph_choosing) give.
#[derive(Clone, Debug, PartialEq, Eq)]
#[non_exhaustive]
pub struct Graph {
    /// The pairs of positions i < j that are one move apart, in order of i and then j.
    pub pairs: Vec<(u16, u16)>,
    /// For each position the number of pairs it is in.
    pub counts: Vec<u16>,
    /// For each position the first position of its topology.
    pub firsts: Vec<u16>,
}

/// What [`interchanges`](crate::interchanges) gives.
#[derive(Clone, Debug, PartialEq, Eq)]
#[non_exhaustive]
pub struct Interchanges {
    /// The pairs of positions i < j that are one interchange apart, in order of i and then j.
    pub pairs: Vec<(u16, u16)>,
    /// For each position the number of pairs it is in.
    pub counts: Vec<u16>,
}

/// What [`islands`](crate::islands) gives: all that [`graph`](crate::graph) gives, and the islands.
#[derive(Clone, Debug, PartialEq, Eq)]
#[non_exhaustive]
pub struct Islands {
    /// The pairs of positions i < j that are one move apart, in order of i and then j.
    pub pairs: Vec<(u16, u16)>,
    /// For each position the number of pairs it is in.
    pub counts: Vec<u16>,
    /// For each position the first position of its topology.
    pub firsts: Vec<u16>,
    /// For each position the number of its island, the smallest position in it.
    pub islands: Vec<u16>,
}

/// What [`support`](crate::support) gives.
#[derive(Clone, Debug, PartialEq, Eq)]
#[non_exhaustive]
pub struct Support {
    /// Each clade of two or more labels, with bit L − 1 set for each label L, and the number of trees that have it.
    pub clades: Vec<(u64, u16)>,
    /// How many trees there are.
    pub trees: usize,
    /// The text of the majority tree, empty where there are no trees.
    pub majority: String,
}

/// What [`plot`](crate::plot) gives, for each node in the order in which they begin in the canonical text.
///
/// Node 0 is the root. Behind a fork stand its first child with all below it, and then its second child with all below.
#[derive(Clone, Debug, PartialEq)]
#[non_exhaustive]
pub struct Plot {
    /// The row of each node.
    pub rows: Vec<f64>,
    /// The column of each node.
    pub columns: Vec<u16>,
}

/// What is drawn for a node: a tip or a fork, and there is no third.
#[derive(Clone, Copy, Debug, PartialEq)]
pub enum Drawing {
    /// A leaf.
    Tip {
        /// The row of the leaf.
        row: f64,
    },
    /// A fork, which joins the rows of its children.
    Fork {
        /// The row of the fork.
        row: f64,
        /// The row of its first child.
        first: f64,
        /// The row of its second child.
        second: f64,
    },
}

impl Plot {
    /// The drawing of each node, in the order of the nodes.
    ///
    /// The children of a fork are one column further: the first is the next node, and the second is the next node in
    /// that column.
    ///
    /// ```
    /// use norbelath::Drawing;
    ///
    /// let plot = norbelath::plot("((1,2),3);")?;
    /// let drawings: Vec<Drawing> = plot.drawings().collect();
    /// assert_eq!(drawings[0], Drawing::Fork { row: 1.25, first: 0.5, second: 2.0 });
    /// assert_eq!(drawings[4], Drawing::Tip { row: 2.0 });
    /// # Ok::<(), norbelath::Refusal>(())
    /// ```
    pub fn drawings(&self) -> impl ExactSizeIterator<Item = Drawing> + '_ {
        (0..self.rows.len().min(self.columns.len())).map(move |node| self.drawing(node))
    }

    /// The drawing of one node. A node without two children behind it is a tip, whatever the vectors hold.
    fn drawing(&self, node: usize) -> Drawing {
        let (row, above) = (self.rows[node], self.columns[node]);
        let below = self.rows.iter().zip(&self.columns).skip(node + 1);
        let mut children = below
            .take_while(|(_, &column)| column > above)
            .filter(|(_, &column)| column - above == 1)
            .map(|(&row, _)| row);
        match (children.next(), children.next()) {
            (Some(first), Some(second)) => Drawing::Fork { row, first, second },
            _ => Drawing::Tip { row },
        }
    }
}
