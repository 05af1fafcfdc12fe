//! Stands in for arrow's crate of the same name: the types of data that optd's lib.rs names.

/// The kinds of the plan file (Boolean, Int32, Int64, Float64, Date32), and the further ones that lib.rs names.
#[derive(Debug, Clone, PartialEq, Eq, PartialOrd, Ord, Hash)]
pub enum DataType {
    Boolean,
    Int32,
    Int64,
    Float64,
    Decimal128(u8, i8),
    Date32,
    Utf8,
    Interval(IntervalUnit),
}

#[derive(Debug, Clone, PartialEq, Eq, PartialOrd, Ord, Hash)]
pub enum IntervalUnit {
    DayTime,
    MonthDayNano,
}

/// A table's columns as a catalogue knows them. The oracle has no catalogue, so none is ever made.
#[derive(Debug, Clone, Default)]
pub struct Schema {
    fields: Vec<Field>,
}

impl Schema {
    pub fn fields(&self) -> &[Field] {
        &self.fields
    }
}

#[derive(Debug, Clone)]
pub struct Field {
    name: String,
    data_type: DataType,
    nullable: bool,
}

impl Field {
    pub fn name(&self) -> &String {
        &self.name
    }

    pub fn data_type(&self) -> &DataType {
        &self.data_type
    }

    pub fn is_nullable(&self) -> bool {
        self.nullable
    }
}
