//! Compares the proved library with optd's Rust over all kinds of input, in one command.

use std::process::ExitCode;

use compare_ours::Ours;
use mossladder_oracle::command::compare;

fn main() -> ExitCode {
    compare("compare_ours", Ours::new)
}
