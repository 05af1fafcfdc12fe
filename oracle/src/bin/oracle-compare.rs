//! Compares the oracle with itself: a test of the comparison, and of how long the oracle takes. The
//! package compare_ours has the proved library as its subject.

use std::process::ExitCode;

use mossladder_oracle::command::compare;
use mossladder_oracle::subject::Oracle;

fn main() -> ExitCode {
    compare("oracle-compare", || Oracle)
}
