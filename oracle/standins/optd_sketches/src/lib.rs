//! Stands in for optd's crate of sketches, which only the estimates of analysis.rs read. No sketch
//! is ever made here.

#[derive(Debug, Clone, PartialEq)]
pub struct FrequentItem<T> {
    pub value: T,
    pub error: u64,
    lower: u64,
}

impl<T> FrequentItem<T> {
    pub fn lower_frequency(&self) -> u64 {
        self.lower
    }
}

#[derive(Debug, Clone, PartialEq)]
pub struct FrequentItems<T> {
    entries: Vec<FrequentItem<T>>,
}

impl<T: PartialEq> FrequentItems<T> {
    pub fn entries(&self) -> &[FrequentItem<T>] {
        &self.entries
    }

    pub fn estimate(&self, value: &T) -> Option<&FrequentItem<T>> {
        self.entries.iter().find(|item| &item.value == value)
    }
}

#[derive(Debug, Clone, PartialEq)]
pub struct DistinctValues {
    count: f64,
}

impl DistinctValues {
    pub fn estimate(&self) -> f64 {
        self.count
    }
}
