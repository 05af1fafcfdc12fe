//! Stands in for optd's catalogue. `TableRef` is the part that the facts lean on: its order orders
//! the Base identities. Nothing else here is ever made or called; it gives the estimates of
//! analysis.rs something to be checked against.

use std::cmp::Ordering;
use std::collections::BTreeMap;
use std::fmt;
use std::sync::Arc;

use arrow_schema::Schema;

use crate::{ColumnSketches, ScalarValue};

/// A table by its name. The harness writes a table's number with leading zeros, so that the order
/// of names is the order of numbers.
#[derive(Debug, Clone, PartialEq, Eq, PartialOrd, Ord, Hash)]
pub struct TableRef(pub String);

impl fmt::Display for TableRef {
    fn fmt(&self, f: &mut fmt::Formatter<'_>) -> fmt::Result {
        f.write_str(&self.0)
    }
}

pub type ResolvedTableRef = TableRef;

#[derive(Debug, Clone, Copy, PartialEq, Eq, PartialOrd, Ord, Hash)]
pub struct TableId(pub u64);

#[derive(Debug)]
pub struct CatalogError;

impl fmt::Display for CatalogError {
    fn fmt(&self, f: &mut fmt::Formatter<'_>) -> fmt::Result {
        f.write_str("the oracle has no catalogue")
    }
}

pub type CatalogResult<T> = Result<T, CatalogError>;

pub trait Catalog {
    fn table_by_ref(&self, table: &TableRef) -> CatalogResult<TableMetadata>;
}

/// The only catalogue: it knows no table.
pub struct MemoryCatalog;

impl Catalog for MemoryCatalog {
    fn table_by_ref(&self, _table: &TableRef) -> CatalogResult<TableMetadata> {
        Err(CatalogError)
    }
}

pub struct TableMetadata {
    pub id: TableId,
    pub table: ResolvedTableRef,
    pub schema: Arc<Schema>,
    pub statistics: Option<TableStatistics>,
}

pub struct TableStatistics {
    pub row_count: Option<u64>,
    pub column_statistics: BTreeMap<String, ColumnStatistics>,
    pub constraints: TableConstraints,
}

pub struct ColumnStatistics {
    pub frequency: Option<u64>,
    pub distinct: Option<u64>,
    pub lower_bound: Option<ScalarValue>,
    pub upper_bound: Option<ScalarValue>,
    pub sketches: Option<ColumnSketches>,
}

pub struct TableConstraints {
    pub unique_keys: Vec<UniqueKey>,
    pub foreign_keys: Vec<ForeignKey>,
}

pub struct UniqueKey {
    columns: Vec<String>,
}

impl UniqueKey {
    pub fn columns(&self) -> &[String] {
        &self.columns
    }
}

pub struct ForeignKey {
    columns: Vec<String>,
    referenced_columns: Vec<String>,
    pub referenced_table: TableRef,
}

impl ForeignKey {
    pub fn columns(&self) -> &[String] {
        &self.columns
    }

    pub fn referenced_columns(&self) -> &[String] {
        &self.referenced_columns
    }
}

pub(crate) fn scalar_order(_left: &ScalarValue, _right: &ScalarValue) -> Option<Ordering> {
    None
}

// Names that lib.rs hands on and nothing here uses.
pub struct BoundedVec;
pub struct CollectionTooLarge;
pub struct ColumnDistributionStatistics;
pub struct DistributionError;
pub struct ForeignKeyError;
pub struct Histogram;
pub struct HistogramBucket;
pub struct MostCommonValue;
pub struct MostCommonValues;
pub struct NullCountStatistics;
pub struct StatisticsCompleteness;
pub struct StatisticsProvenance;
pub struct UniqueKeyError;
pub const MAX_HISTOGRAM_BUCKETS: usize = 0;
pub const MAX_KEY_COLUMNS: usize = 0;
pub const MAX_MOST_COMMON_VALUES: usize = 0;
pub const MAX_TABLE_KEYS: usize = 0;
