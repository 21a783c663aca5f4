//! Document 01, "Calls on the archive": the program.

use crate::settle::settled;
use std::io::{self, Write};

/// The most bytes the program reads.
pub const MOST_BYTES: usize = 65_536;

/// Settles all measures in order and writes each line as it comes.
pub fn program(input: &[u8], out: &mut impl Write) -> io::Result<()> {
    if input.len() > MOST_BYTES {
        return writeln!(out, "E 0 0 1");
    }
    let mut p = 1u64;
    let mut k = 1u64;
    loop {
        match settled(input, p, k) {
            Ok(settled) => {
                let count = settled.amounts.len();
                writeln!(out, "M {p} {k} {count} {} {}", settled.total(), settled.links)?;
                for (place, amount) in settled.amounts.iter().enumerate() {
                    writeln!(out, "Q {} {amount}", place + 1)?;
                }
                k += 1;
            }
            // A refused head.
            Err(1) => return writeln!(out, "E 0 0 1"),
            // 4 ends the program.
            Err(4) => return Ok(()),
            // 5 leads on to the next plant.
            Err(5) => {
                p += 1;
                k = 1;
            }
            // 2 or 3 ends the program after its line.
            Err(number @ (2 | 3)) => return writeln!(out, "E {p} {k} {number}"),
            Err(number) => {
                writeln!(out, "E {p} {k} {number}")?;
                k += 1;
            }
        }
    }
}
