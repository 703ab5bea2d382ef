//! A set of nodes, kept as the state keeps it: bit n−1 for node n.

#[derive(Clone, Copy, Debug, Default, PartialEq, Eq)]
pub struct NodeSet(pub u64);

impl NodeSet {
    pub fn only(number: usize) -> NodeSet {
        NodeSet(1 << (number - 1))
    }

    pub fn contains(self, number: usize) -> bool {
        self.0 & NodeSet::only(number).0 != 0
    }

    pub fn insert(&mut self, number: usize) {
        self.0 |= NodeSet::only(number).0;
    }

    pub fn remove(&mut self, number: usize) {
        self.0 &= !NodeSet::only(number).0;
    }

    pub fn union(self, other: NodeSet) -> NodeSet {
        NodeSet(self.0 | other.0)
    }

    pub fn intersection(self, other: NodeSet) -> NodeSet {
        NodeSet(self.0 & other.0)
    }

    /// The lowest-numbered node of a set that is not empty.
    pub fn lowest(self) -> usize {
        self.0.trailing_zeros() as usize + 1
    }

    pub fn is_empty(self) -> bool {
        self.0 == 0
    }

    pub fn len(self) -> usize {
        self.0.count_ones() as usize
    }

    pub fn is_subset(self, of: NodeSet) -> bool {
        self.0 & !of.0 == 0
    }

    pub fn is_disjoint(self, from: NodeSet) -> bool {
        self.0 & from.0 == 0
    }

    /// The nodes in it, rising.
    pub fn iter(self) -> impl Iterator<Item = usize> {
        (1..=64).filter(move |&number| self.contains(number))
    }
}
