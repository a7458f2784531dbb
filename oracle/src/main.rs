//! Reads on standard input what the program `site` reads, and writes what it must write.
use oracle::arguments::{Words, stop};
use std::io::{Read, Write};

fn main() {
    Words::of("oracle <INPUT >OUTPUT").end();
    let mut input = Vec::new();
    if let Err(error) = std::io::stdin().read_to_end(&mut input) {
        stop(format!("standard input: {error}"));
    }
    if let Err(error) = std::io::stdout().write_all(&oracle::program::output(&input).0) {
        stop(format!("standard output: {error}"));
    }
}
