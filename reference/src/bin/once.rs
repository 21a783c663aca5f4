//! Makes one call of one side on one input, for `tests/count.py`, which counts the instructions within `counted`.
//!
//! Arguments: the side, the call, the row and the input's sizes. A side is a folder that `tests/places.sh` fills,
//! `fast`, or `nothing`, whose calls do nothing: what is counted there is the making of the call. The status is 1 where
//! a call refuses.
//!
//! Or `rows`, then a folder for each version: prints the rows that all of them have, each with its call in front.

#[path = "shared/inputs.rs"]
mod inputs;
#[path = "shared/versions.rs"]
mod versions;

use inputs::*;
use reference::builder::*;
use reference::fast;
use reference::rng::Rng;
use std::path::Path;
use std::process::exit;
use std::thread;
use versions::{Place, Version};

const USAGE: &str = "usage: once SIDE CALL ROW SIZE.. | once rows FOLDER..";

/// The row of append, of the correction and of the preview.
const QUARTERS: &str = "quarters";

type Settle = fn(&[u8], u64, u64, &mut [u8], &mut [u8]) -> u32;
type Correction = fn(&[i64], &[i64], &[i64], &mut i64, &mut u64) -> u32;
type Preview = fn(&mut [u8], u64, &[u8], u64, u64, &mut [u8], &mut [u8]) -> u32;

/// Calls in Rust, made as those of the library are: by pointers, with the same arguments.
struct Calls {
    settle: Settle,
    append: fn(&mut [u8], u64, &[u8]) -> u32,
    audit: fn(&[u8]) -> u32,
    take_back: fn(&mut [u8]) -> u32,
    correction: Correction,
    preview: Preview,
}

const FAST: Calls = Calls {
    settle: fast::host_settle,
    append: fast::append,
    audit: fast::audit,
    take_back: fast::take_back,
    correction: fast::correction,
    preview: fast::host_preview,
};

const NOTHING: Calls = Calls {
    settle: |_, _, _, _, _| 0,
    append: |_, _, _| 0,
    audit: |_| 0,
    take_back: |_| 0,
    correction: |_, _, _, _, _| 0,
    preview: |_, _, _, _, _, _, _| 0,
};

enum Side {
    Library(Place),
    Rust(Calls),
}

/// What is counted. The name stays as it is, so that valgrind can be told of it.
#[no_mangle]
#[inline(never)]
fn counted(answer: &mut u32, call: &mut dyn FnMut() -> u32) {
    *answer = call();
}

/// The plant of a row of settle. Each run draws the same numbers, so that with more quarters the first ones are the same.
fn plant(row: &str, points: i32, before: usize, quarters: usize) -> Plant {
    let sheet = |technology, variant| sheet(technology, variant, points, before, quarters, &mut Rng::new(7, 7));
    if let Some((technology, variant, _)) = PAIRINGS.into_iter().find(|&(_, _, name)| name == row) {
        sheet(technology, variant)
    } else if let Some((technology, direction, _)) = OCTOBER.into_iter().find(|&(_, _, name)| name == row) {
        since_october(sheet(technology, 2), direction, &mut Rng::new(7, 9))
    } else {
        assert_eq!(row, DATED, "a row of settle");
        dated(sheet(2, 2))
    }
}

/// The sound archive of a row of audit and of taking back.
fn filed(row: &str, records: usize) -> Vec<u8> {
    let (order, _) = ORDERS.into_iter().find(|&(_, name)| name == row).expect("a row of sound archives");
    sound(records, order, &mut Rng::new(7, 7))
}

/// Makes the call; the number that it gives.
fn once(side: Side, call: &str, row: &str, sizes: &[usize]) -> u32 {
    use Side::*;
    let mut answer = u32::MAX;
    let mut counted = |call: &mut dyn FnMut() -> u32| counted(&mut answer, call);
    match (call, sizes) {
        ("settle", &[points, before, quarters]) => {
            // As long for fewer quarters and taken first, so that it lies at the same place.
            let (mut list, mut result) = (vec![0; 8 * 2_976], [0; 24]);
            let list = &mut list[..8 * quarters];
            let plant = plant(row, points as i32, before, quarters);
            let archive = file(&[plant], &Layout::PLAIN, &mut Rng::new(7, 7)).bytes;
            match side {
                Library(place) => counted(&mut || place.settle(&archive, 1, 1, list, &mut result)),
                Rust(calls) => counted(&mut || (calls.settle)(&archive, 1, 1, list, &mut result)),
            }
        }
        ("append", &[length]) => {
            assert_eq!(row, QUARTERS, "a row of append");
            let (mut archive, owner, _) = with_room(length, &mut Rng::new(7, 7));
            match side {
                Library(place) => counted(&mut || place.append(&mut archive, owner, &APPENDED)),
                Rust(calls) => counted(&mut || (calls.append)(&mut archive, owner, &APPENDED)),
            }
        }
        ("audit", &[records]) => {
            let archive = filed(row, records);
            match side {
                Library(place) => counted(&mut || place.audit(&archive)),
                Rust(calls) => counted(&mut || (calls.audit)(&archive)),
            }
        }
        ("take_back", &[records]) => {
            let mut archive = filed(row, records);
            match side {
                Library(place) => counted(&mut || place.take_back(&mut archive)),
                Rust(calls) => counted(&mut || (calls.take_back)(&mut archive)),
            }
        }
        ("correction", &[quarters]) => {
            assert_eq!(row, QUARTERS, "a row of the correction");
            // As long for fewer quarters, so that they lie at the same place.
            let lists = priced(2_976, &mut Rng::new(7, 7));
            let [amounts, balanced, prices] = [0, 1, 2].map(|at| &lists[at][..quarters]);
            let (mut cents, mut rest) = (0, 0);
            match side {
                Library(place) => {
                    counted(&mut || place.correction(amounts, balanced, prices, &mut cents, &mut rest));
                }
                Rust(calls) => {
                    counted(&mut || (calls.correction)(amounts, balanced, prices, &mut cents, &mut rest));
                }
            }
        }
        ("preview", &[length]) => {
            assert_eq!(row, QUARTERS, "a row of the preview");
            // As long for fewer quarters and taken first, so that it lies at the same place.
            let (mut list, mut result) = (vec![0; 8 * 2_976], [0; 24]);
            let list = &mut list[..8 * (length + 1)];
            let (mut archive, owner, _) = with_room(length, &mut Rng::new(7, 7));
            match side {
                Library(place) => {
                    counted(&mut || place.preview(&mut archive, owner, &APPENDED, 1, 1, list, &mut result));
                }
                Rust(calls) => {
                    counted(&mut || (calls.preview)(&mut archive, owner, &APPENDED, 1, 1, list, &mut result));
                }
            }
        }
        _ => panic!("{}", USAGE),
    }
    answer
}

fn rows(versions: &[Version]) {
    let print = |call: &str, name: &str| println!("{call} {name}");
    for (technology, variant, name) in PAIRINGS {
        print("settle", name);
        if (technology, variant) == (2, 2) {
            print("settle", DATED);
        }
    }
    if versions.iter().all(reads) {
        OCTOBER.iter().for_each(|(_, _, name)| print("settle", name));
    }
    ORDERS.iter().for_each(|(_, name)| print("audit", name));
    if versions.iter().all(Version::takes_back) {
        ORDERS.iter().for_each(|(_, name)| print("take_back", name));
    }
    print("append", QUARTERS);
    if versions.iter().all(Version::corrects) {
        print("correction", QUARTERS);
    }
    if versions.iter().all(Version::previews) {
        print("preview", QUARTERS);
    }
}

fn run() {
    let words: Vec<String> = std::env::args().skip(1).collect();
    let load = |folder: &String| Version::load(Path::new(folder));
    match &words[..] {
        [first, folders @ ..] if first == "rows" => rows(&folders.iter().map(load).collect::<Vec<_>>()),
        [side, call, row, sizes @ ..] => {
            let side = match side.as_str() {
                "fast" => Side::Rust(FAST),
                "nothing" => Side::Rust(NOTHING),
                _ => Side::Library(load(side).places.swap_remove(0)),
            };
            let sizes: Vec<usize> = sizes.iter().map(|size| size.parse().expect(USAGE)).collect();
            let number = once(side, call, row, &sizes);
            if number != 0 {
                eprintln!("{call}, {row}: refusal {number}");
                exit(1);
            }
        }
        _ => panic!("{}", USAGE),
    }
}

/// In a thread, whose stack lies at the same place whatever the environment holds: a copy takes a few instructions more
/// or less by the places that it is made from and to.
fn main() {
    thread::spawn(run).join().expect("a call that is made");
}
