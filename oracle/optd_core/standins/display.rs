//! Stands in for optd's printing of plans, which lib.rs feeds and the oracle never asks for.

use std::collections::BTreeMap;

use crate::Operator;

#[derive(Default)]
pub struct BoxDrawingRenderer;

impl BoxDrawingRenderer {
    pub fn render(&self, _node: &DisplayNode) -> String {
        String::new()
    }
}

pub enum DisplayValue {
    Atom(String),
    List(Vec<String>),
}

pub struct DisplayField {
    pub key: String,
    pub value: DisplayValue,
}

#[derive(Default)]
pub struct DisplayNode {
    pub fields: Vec<DisplayField>,
    pub metadata: BTreeMap<String, DisplayValue>,
}

impl DisplayNode {
    pub fn with_kind(_kind: impl Into<String>, _title: impl Into<String>) -> Self {
        Self::default()
    }

    pub fn with_id(self, _id: Operator) -> Self {
        self
    }

    pub fn with_input(self, _name: impl Into<String>, _input: DisplayNode) -> Self {
        self
    }
}

pub struct DisplayProperties<T> {
    values: Vec<(usize, String, T)>,
}

impl<T> DisplayProperties<T> {
    pub fn new() -> Self {
        Self { values: Vec::new() }
    }

    pub fn len(&self) -> usize {
        self.values.len()
    }

    pub fn insert(&mut self, order: usize, key: impl Into<String>, value: T) {
        self.values.push((order, key.into(), value));
    }
}

pub struct DisplayNodeRecord {
    pub id: usize,
    pub kind: String,
    pub title: String,
    pub fields: DisplayProperties<DisplayValue>,
    pub inputs: DisplayProperties<usize>,
    pub metadata: DisplayProperties<DisplayValue>,
}

pub struct DisplayPlan {
    pub nodes: Vec<DisplayNodeRecord>,
}

// Names that lib.rs hands on and nothing here uses.
pub struct BoxRendererConfig;
pub struct BoxRendererTheme;
pub struct ColorMode;
pub struct DisplayInput;
pub struct OptimizerVisualizerNode;
pub struct OptimizerVisualizerPass;
pub struct OptimizerVisualizerValue;
