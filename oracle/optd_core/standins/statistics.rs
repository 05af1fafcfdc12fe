//! Stands in for optd's column statistics, which only the estimates of analysis.rs read.

use crate::ScalarValue;

#[derive(Debug, Clone, PartialEq)]
pub struct ColumnSketches {
    pub distinct_values: Option<optd_sketches::DistinctValues>,
    pub frequent_values: Option<optd_sketches::FrequentItems<EncodedScalarValue>>,
    pub population_rows: u64,
}

impl ColumnSketches {
    pub fn validate(&self) -> Result<(), String> {
        Ok(())
    }
}

#[derive(Debug, Clone, PartialEq)]
pub struct EncodedScalarValue;

impl EncodedScalarValue {
    pub fn from_scalar(_value: &ScalarValue) -> Option<Self> {
        None
    }
}

pub const SKETCH_VALUE_ENCODING_VERSION: u32 = 0;
