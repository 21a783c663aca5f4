//! The program written for speed: reads an archive from standard input and settles all measures in order.

use reference::fast;
use reference::program::MOST_BYTES;
use std::io::{self, Read};

fn main() -> io::Result<()> {
    let mut input = Vec::with_capacity(MOST_BYTES + 1);
    io::stdin().take(MOST_BYTES as u64 + 1).read_to_end(&mut input)?;
    fast::program(&input, io::stdout().lock())
}
