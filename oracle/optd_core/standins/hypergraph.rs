//! Stands in for optd's join graphs, which one estimate of analysis.rs reads.

pub type NodeSet = u64;

pub struct Hyperedge {
    pub left: NodeSet,
    pub right: NodeSet,
}

pub struct QueryHypergraph {
    pub edges: Vec<Hyperedge>,
}

// Names that lib.rs hands on and nothing here uses.
pub struct HyperedgeJoinType;
pub struct HypergraphNode;
pub struct HypergraphOf;
pub struct JoinGroupOf;
pub struct NodeId;
pub fn build_hypergraph() {}
pub fn nodeset_iter() {}
pub fn nodeset_min() {}
pub fn nodeset_singleton() {}
