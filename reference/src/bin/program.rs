//! The program as the reference has it: an archive from standard input, its lines to standard output.

use std::io::{self, BufWriter, Read, Write};

fn main() -> io::Result<()> {
    let mut input = Vec::new();
    io::stdin().lock().read_to_end(&mut input)?;
    let mut out = BufWriter::new(io::stdout().lock());
    reference::program(&input, &mut out)?;
    out.flush()
}
