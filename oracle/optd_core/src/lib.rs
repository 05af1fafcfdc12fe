// optd's own crate root and, below it, its own modules: the links that build.rs laid out.
#![allow(dead_code, clippy::all)]

include!(concat!(env!("OUT_DIR"), "/tree/lib.rs"));

pub mod door;
