//! A tree as its nodes in the order of the text: a fork, what is below its
//! first child, what is below its second. An unrooted tree is held as the rooted
//! one that hangs from its smallest label: a fork of this leaf and all the rest.

pub struct Tree {
    pub nodes: Vec<Node>,
    pub unrooted: bool,
}

#[derive(Clone, Copy, Default)]
pub struct Node {
    /// The labels at and below it, bit `label - 1` for each.
    pub clade: u64,
    /// The sum of the mixed clades of the forks at and below it.
    pub print: u64,
    /// Where its second child stands; the first stands behind it. 0 for a leaf.
    pub second: usize,
    /// Where the fork above it stands; for the root its own place.
    pub parent: usize,
}

/// Spreads a clade's bits over 64, the last steps of splitmix64.
pub fn mixed(clade: u64) -> u64 {
    let mut z = clade.wrapping_add(0x9e37_79b9_7f4a_7c15);
    z = (z ^ (z >> 30)).wrapping_mul(0xbf58_476d_1ce4_e5b9);
    z = (z ^ (z >> 27)).wrapping_mul(0x94d0_49bb_1331_11eb);
    z ^ (z >> 31)
}

impl Tree {
    pub fn labels(&self) -> u64 {
        self.nodes[0].clade
    }

    /// Equal for equal topologies, whatever the order of children.
    pub fn print(&self) -> u64 {
        self.nodes[0].print
    }

    /// The prints of the forests of all cuts.
    ///
    /// An unrooted tree is cut above each node but the smallest leaf, which is on
    /// the edge above the rest. Either side may be the moved one, but a leaf that
    /// stays has no edge that the other side could be joined to.
    pub fn forests(&self) -> impl Iterator<Item = u64> + '_ {
        let below = if self.unrooted { 3 } else { 1 };
        let forks = (2..self.nodes.len()).filter(|&cut| self.nodes[cut].second != 0);
        let above = forks.filter(|_| self.unrooted);
        (below..self.nodes.len())
            .map(|cut| self.forest(cut))
            .chain(above.map(|cut| self.forest_above(cut)))
    }

    /// The prints of both parts. In the remainder the fork above the cut is
    /// gone and those above it have lost the pruned labels. Which part was
    /// pruned counts too, since the other one keeps the root.
    fn forest(&self, cut: usize) -> u64 {
        let gone = self.nodes[cut].clade;
        let mut at = self.nodes[cut].parent;
        let mut print = self
            .print()
            .wrapping_add(mixed(mixed(gone)))
            .wrapping_sub(mixed(self.nodes[at].clade));
        while at != 0 {
            at = self.nodes[at].parent;
            let clade = self.nodes[at].clade;
            print = print
                .wrapping_sub(mixed(clade))
                .wrapping_add(mixed(clade - gone));
        }
        print
    }

    /// The prints of both parts where the node stays and all else is moved. What
    /// stays is closed up and hangs from its own smallest label: for each fork on
    /// the way there is one of the labels that are not below the next node. What is
    /// moved is rooted at its cut end: a fork above the node has the labels that it
    /// had not.
    fn forest_above(&self, cut: usize) -> u64 {
        let (all, stays) = (self.labels(), self.nodes[cut].clade);
        let gone = all - stays;
        let mut print = self
            .print()
            .wrapping_add(mixed(mixed(gone)))
            .wrapping_add(mixed(gone))
            .wrapping_sub(mixed(stays));
        let mut at = cut;
        while at != 0 {
            at = self.nodes[at].parent;
            let clade = self.nodes[at].clade;
            print = print
                .wrapping_sub(mixed(clade))
                .wrapping_add(mixed(all - clade));
        }
        let (mut at, _) = self.children(cut);
        while self.nodes[at].second != 0 {
            print = print.wrapping_sub(mixed(self.nodes[at].clade));
            (at, _) = self.children(at);
            print = print.wrapping_add(mixed(stays - self.nodes[at].clade));
        }
        print
    }

    /// The children of a fork, the one with the smaller label first.
    fn children(&self, at: usize) -> (usize, usize) {
        let (one, other) = (at + 1, self.nodes[at].second);
        let smallest = |child: usize| self.nodes[child].clade.trailing_zeros();
        if smallest(other) < smallest(one) {
            (other, one)
        } else {
            (one, other)
        }
    }

    /// Writes the canonical text, without `;`. The top of an unrooted tree is the
    /// first node of the rest, whose children stand beside the smallest label.
    pub fn write(&self, out: &mut Vec<u8>) {
        if !self.unrooted {
            return self.write_node(0, out);
        }
        out.extend_from_slice(b"[&U]");
        if self.nodes.len() < 4 {
            return self.write_node(0, out);
        }
        out.push(b'(');
        self.write_node(1, out);
        out.push(b',');
        self.write_children(2, out);
        out.push(b')');
    }

    fn write_node(&self, at: usize, out: &mut Vec<u8>) {
        let node = self.nodes[at];
        if node.second == 0 {
            return crate::sheet::push_number(node.clade.trailing_zeros() as usize + 1, out);
        }
        out.push(b'(');
        self.write_children(at, out);
        out.push(b')');
    }

    fn write_children(&self, at: usize, out: &mut Vec<u8>) {
        let (one, other) = self.children(at);
        self.write_node(one, out);
        out.push(b',');
        self.write_node(other, out);
    }
}
