//! Meshlist of the reference: a bundle on standard input, its listing on
//! standard output.

use std::io::{self, Read, Write};

use reference::listing::{listing, MAX_INPUT};

fn main() -> io::Result<()> {
    let mut input = Vec::new();
    let limit = MAX_INPUT as u64 + 1;
    io::stdin().take(limit).read_to_end(&mut input)?;
    io::stdout().write_all(listing(&input).as_bytes())
}
