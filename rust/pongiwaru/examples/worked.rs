//! The worked example of docs/RECORDS.md: prints its log.
use pongiwaru::State;
use std::io::{stdout, Write};

fn main() {
    let stream = include_bytes!("../../../crates/joinlog/stdin");
    let log = State::fresh().log(stream).expect("a fresh state is sound");
    stdout().write_all(&log).unwrap();
}
