//! Writes the fixed list of answers to standard output.

use std::io::Write;

use mossladder_oracle::fixed::lines;

fn main() {
    let thread = std::thread::Builder::new().stack_size(256 << 20);
    let lines = thread.spawn(lines).expect("a thread can be started").join().unwrap();
    let mut text = lines.join("\n");
    text.push('\n');
    std::io::stdout().write_all(text.as_bytes()).expect("standard output is open");
}
