//! Names of the cost model that lib.rs hands on. Nothing here uses them.

pub trait CostModel {}
pub struct DefaultCostModel;
pub struct JoinAlgorithmClass;
pub fn join_algorithm_cost() {}
