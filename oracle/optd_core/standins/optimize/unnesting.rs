//! A pass that the oracle does not run: optimize/mod.rs hands its name on.

pub struct Unnesting;
