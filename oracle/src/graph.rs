// The few names of petgraph 0.8.3 that the copied files need (src/lib.rs and
// src/graph_impl/mod.rs), cut down to directed graphs and `usize` indices.
// petgraph is Copyright (c) 2015, licence MIT OR Apache-2.0.

pub use self::Direction::Outgoing;

/// Node identifier.
#[derive(Copy, Clone, Default, PartialEq, PartialOrd, Eq, Ord, Hash, Debug)]
pub struct NodeIndex<Ix>(Ix);

impl NodeIndex<usize> {
    pub fn new(x: usize) -> Self {
        NodeIndex(x)
    }

    pub fn index(self) -> usize {
        self.0
    }
}

/// Edge direction.
#[derive(Clone, Copy, Debug, PartialEq, PartialOrd, Ord, Eq, Hash)]
#[repr(usize)]
pub enum Direction {
    /// An `Outgoing` edge is an outward edge *from* the current node.
    Outgoing = 0,
    /// An `Incoming` edge is an inbound edge *to* the current node.
    Incoming = 1,
}

/// Marker type for a directed graph.
#[derive(Copy, Debug, Clone)]
pub enum Directed {}

/// A graph's edge type determines whether it has directed edges or not.
pub trait EdgeType {
    fn is_directed() -> bool;
}

impl EdgeType for Directed {
    #[inline]
    fn is_directed() -> bool {
        true
    }
}
