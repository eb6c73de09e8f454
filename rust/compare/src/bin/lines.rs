//! Answers standard input as the line program does, by the second implementation: this has made
//! crates/remainder_lines/stdout of the stdin beside it.

use compare::lines;
use std::io::{self, Read, Write};

fn main() -> io::Result<()> {
    let mut input = Vec::new();
    io::stdin().read_to_end(&mut input)?;
    io::stdout().write_all(&lines::answers(&input))
}
