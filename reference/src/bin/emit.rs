//! Writes inputs for the program with the reference's output: DIR/NNNN.bin and DIR/NNNN.out.
//!
//! Arguments: directory, seed, count. Inputs whose output would reach 1 MB are passed over.

use reference::generate;
use std::io::{self, Write};
use std::path::Path;
use std::{env, fs};

const MOST: usize = 1_000_000;

/// Takes lines up to the limit.
struct Limited(Vec<u8>);

impl Write for Limited {
    fn write(&mut self, bytes: &[u8]) -> io::Result<usize> {
        if self.0.len() + bytes.len() >= MOST {
            return Err(io::Error::new(io::ErrorKind::Other, "output too long"));
        }
        self.0.extend_from_slice(bytes);
        Ok(bytes.len())
    }

    fn flush(&mut self) -> io::Result<()> {
        Ok(())
    }
}

fn main() -> io::Result<()> {
    let words: Vec<String> = env::args().skip(1).collect();
    let (directory, seed, count) = match &words[..] {
        [directory, seed, count] => (directory, seed, count),
        _ => {
            eprintln!("usage: emit DIR SEED COUNT");
            std::process::exit(2);
        }
    };
    let seed: u64 = seed.parse().expect("the seed is a number");
    let count: u64 = count.parse().expect("the count is a number");
    let directory = Path::new(directory);
    fs::create_dir_all(directory)?;
    let (mut written, mut passed, mut longer, mut bytes) = (0, 0, 0, 0);
    let mut index = 0;
    while written < count {
        let input = generate::input(seed, index);
        index += 1;
        let mut out = Limited(Vec::new());
        if reference::program(&input, &mut out).is_err() {
            passed += 1;
            continue;
        }
        fs::write(directory.join(format!("{written:04}.bin")), &input)?;
        fs::write(directory.join(format!("{written:04}.out")), &out.0)?;
        written += 1;
        longer += u64::from(input.len() > 65_536);
        bytes += out.0.len();
    }
    println!("{written} inputs ({longer} longer than 65,536 bytes), {bytes} bytes of output, {passed} passed over");
    Ok(())
}
