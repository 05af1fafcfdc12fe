//! optd has a benchmark here. The oracle does not run it.
