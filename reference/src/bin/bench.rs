//! Times versions of the library against the module `fast`, all on host bytes in one run, and prints Markdown tables.
//!
//! Arguments: repetitions, then a folder for each version, which `tests/places.sh` fills: the library at several places of
//! the code, and the program. The sides take turns, and each figure is the median over the repetitions: a repetition is
//! short, so that other work on the machine falls into few of them. From one to the next the library is taken at another
//! place of the code, and the stack moves too: a call's time changes with both by more than with most changes of the code.

#[path = "shared/inputs.rs"]
mod inputs;
#[path = "shared/versions.rs"]
mod versions;

use inputs::*;
use reference::builder::*;
use reference::fast;
use reference::generate;
use reference::program::MOST_BYTES;
use reference::rng::Rng;
use std::cell::{Cell, RefCell};
use std::fs::{self, File};
use std::hint::black_box;
use std::path::Path;
use std::process::{Command, Stdio};
use std::time::{Duration, Instant};
use versions::{Place, Version};

/// Shortest time of one repetition.
const SPAN: Duration = Duration::from_micros(200);

/// Places of the stack, some 150 bytes apart.
const DEPTHS: usize = 32;

/// A call of one side, with the library at this place of the code.
type Side<'a> = Box<dyn FnMut(usize) + 'a>;

fn run(times: u64, call: &mut dyn FnMut()) -> Duration {
    let start = Instant::now();
    for _ in 0..times {
        call();
    }
    start.elapsed()
}

/// The same further down the stack.
#[inline(never)]
fn run_below(depth: usize, times: u64, call: &mut dyn FnMut()) -> Duration {
    let frame = [0u8; 96];
    black_box(&frame);
    let elapsed = if depth == 0 { run(times, call) } else { run_below(depth - 1, times, call) };
    black_box(&frame);
    elapsed
}

/// Median nanoseconds of one call of each side.
fn medians(repetitions: usize, places: usize, sides: &mut [Side]) -> Vec<f64> {
    let enough = |side: &mut Side| {
        let mut times = 1;
        while (0..3).map(|_| run(times, &mut || side(0))).min() < Some(SPAN) {
            times *= 2;
        }
        times
    };
    let times: Vec<u64> = sides.iter_mut().map(enough).collect();
    let mut found = vec![Vec::new(); sides.len()];
    for repetition in 0..repetitions {
        let (place, depth) = (repetition % places, repetition / places % DEPTHS);
        for (at, side) in sides.iter_mut().enumerate() {
            let elapsed = run_below(depth, times[at], &mut || side(place));
            found[at].push(elapsed.as_nanos() as f64 / times[at] as f64);
        }
    }
    let median = |mut list: Vec<f64>| {
        list.sort_by(f64::total_cmp);
        list[list.len() / 2]
    };
    found.into_iter().map(median).collect()
}

/// The versions' times and then that of `fast`, which stands last among the sides; the ratios of each version to it.
fn row(name: &str, times: &[f64], per: f64) {
    let (fast, versions) = times.split_last().expect("fast is a side");
    let times: String = times.iter().map(|time| format!(" {:.2} |", time / per)).collect();
    let ratios: String = versions.iter().map(|time| format!(" {:.2} |", time / fast)).collect();
    println!("| {name} |{times}{ratios}");
}

fn header(title: &str, unit: &str, versions: &[Version]) {
    let times: String = versions.iter().map(|version| format!(" {}, {unit} |", version.name)).collect();
    let ratios: String = versions.iter().map(|version| format!(" {} / fast |", version.name)).collect();
    println!(
        "\n### {title}\n\n| Case |{times} fast, {unit} |{ratios}\n|---|{}",
        "---:|".repeat(2 * versions.len() + 1)
    );
}

/// Times settle of the only measure; all sides must give the same.
fn settle(repetitions: usize, versions: &[Version], archive: &[u8], quarters: usize) -> Vec<f64> {
    let empty = (vec![0; 8 * quarters], [0; 24]);
    let (mut list, mut result) = empty.clone();
    assert_eq!(fast::host_settle(archive, 1, 1, &mut list, &mut result), 0);
    let mut sides: Vec<Side> = Vec::new();
    for version in versions {
        let (mut own_list, mut own_result) = empty.clone();
        for place in &version.places {
            assert_eq!(place.settle(archive, 1, 1, &mut own_list, &mut own_result), 0);
            assert!(own_list == list && own_result == result, "library and fast differ");
        }
        sides.push(Box::new(move |at| {
            let place = &version.places[at];
            black_box(place.settle(black_box(archive), 1, 1, black_box(&mut own_list), black_box(&mut own_result)));
        }));
    }
    sides.push(Box::new(move |_| {
        black_box(fast::host_settle(black_box(archive), 1, 1, black_box(&mut list), black_box(&mut result)));
    }));
    medians(repetitions, versions[0].places.len(), &mut sides)
}

/// Times audit of a sound archive.
fn audit(repetitions: usize, versions: &[Version], archive: &[u8]) -> Vec<f64> {
    assert_eq!(fast::audit(archive), 0);
    let mut sides: Vec<Side> = Vec::new();
    for version in versions {
        assert!(version.places.iter().all(|place| place.audit(archive) == 0));
        sides.push(Box::new(move |at| {
            black_box(version.places[at].audit(black_box(archive)));
        }));
    }
    sides.push(Box::new(move |_| {
        black_box(fast::audit(black_box(archive)));
    }));
    medians(repetitions, versions[0].places.len(), &mut sides)
}

/// Times taking back the last record of a sound archive; record, link and U are written back each time, which is in all
/// figures.
fn take_back(repetitions: usize, versions: &[Version], archive: &[u8]) -> Vec<f64> {
    let mut later = archive.to_vec();
    assert_eq!(fast::take_back(&mut later), 0);
    let last = archive.len() - 32;
    let link = (8..last).step_by(4).find(|&at| archive[at..at + 4] != later[at..at + 4]).expect("a link that named it");
    let redo = |taken: &mut [u8]| {
        taken[4..8].copy_from_slice(&archive[4..8]);
        taken[link..link + 4].copy_from_slice(&archive[link..link + 4]);
        taken[last..].copy_from_slice(&archive[last..]);
    };
    let mut sides: Vec<Side> = Vec::new();
    for version in versions {
        let mut own = archive.to_vec();
        for place in &version.places {
            assert_eq!(place.take_back(&mut own), 0);
            assert!(own == later, "library and fast differ");
            redo(&mut own);
        }
        sides.push(Box::new(move |at| {
            black_box(version.places[at].take_back(black_box(&mut own)));
            redo(&mut own);
        }));
    }
    redo(&mut later);
    sides.push(Box::new(move |_| {
        black_box(fast::take_back(black_box(&mut later)));
        redo(&mut later);
    }));
    medians(repetitions, versions[0].places.len(), &mut sides)
}

/// Times the delivery day with so many holidays, the next month's own days first.
fn delivery_day(repetitions: usize, versions: &[Version], holidays: &[u32]) -> Vec<f64> {
    let quarter = 937_921;
    let right = fast::delivery_day(quarter, holidays);
    let mut sides: Vec<Side> = Vec::new();
    for version in versions {
        let mut day = 0;
        assert!(version.places.iter().all(|place| place.delivery_day(quarter, holidays, &mut day) == 0));
        assert_eq!(right, Ok(day), "library and fast differ");
        sides.push(Box::new(move |at| {
            black_box(version.places[at].delivery_day(black_box(quarter), black_box(holidays), black_box(&mut day)));
        }));
    }
    sides.push(Box::new(move |_| {
        black_box(fast::delivery_day(black_box(quarter), black_box(holidays))).ok();
    }));
    medians(repetitions, versions[0].places.len(), &mut sides)
}

/// Times the correction of so many quarters; all sides must give the same.
fn correction(repetitions: usize, versions: &[Version], [amounts, balanced, prices]: &[Vec<i64>; 3]) -> Vec<f64> {
    let (mut cents, mut rest) = (0, 0);
    assert_eq!(fast::correction(amounts, balanced, prices, &mut cents, &mut rest), 0);
    let mut sides: Vec<Side> = Vec::new();
    for version in versions {
        let (mut own_cents, mut own_rest) = (0, 0);
        for place in &version.places {
            assert_eq!(place.correction(amounts, balanced, prices, &mut own_cents, &mut own_rest), 0);
            assert_eq!((own_cents, own_rest), (cents, rest), "library and fast differ");
        }
        sides.push(Box::new(move |at| {
            let place = &version.places[at];
            let (amounts, balanced, prices) = (black_box(amounts), black_box(balanced), black_box(prices));
            black_box(place.correction(amounts, balanced, prices, black_box(&mut own_cents), black_box(&mut own_rest)));
        }));
    }
    sides.push(Box::new(move |_| {
        let (amounts, balanced, prices) = (black_box(amounts), black_box(balanced), black_box(prices));
        black_box(fast::correction(amounts, balanced, prices, black_box(&mut cents), black_box(&mut rest)));
    }));
    medians(repetitions, versions[0].places.len(), &mut sides)
}

/// Times append behind a chain of quarters; the record is taken off again each time, which is in all figures.
fn append(repetitions: usize, versions: &[Version], length: usize, rng: &mut Rng) -> Vec<f64> {
    let (before, owner, undo) = with_room(length, rng);
    let mut archive = before.clone();
    assert_eq!(fast::append(&mut archive, owner, &APPENDED), 0);
    let undo = &undo;
    let mut sides: Vec<Side> = Vec::new();
    for version in versions {
        let mut own = before.clone();
        for place in &version.places {
            assert_eq!(place.append(&mut own, owner, &APPENDED), 0);
            assert!(own == archive, "library and fast differ");
            undo(&mut own);
        }
        sides.push(Box::new(move |at| {
            black_box(version.places[at].append(black_box(&mut own), owner, black_box(&APPENDED)));
            undo(&mut own);
        }));
    }
    undo(&mut archive);
    sides.push(Box::new(move |_| {
        black_box(fast::append(black_box(&mut archive), owner, black_box(&APPENDED)));
        undo(&mut archive);
    }));
    medians(repetitions, versions[0].places.len(), &mut sides)
}

/// Times the preview of one more quarter behind so many; nothing is to be undone.
fn preview(repetitions: usize, versions: &[Version], length: usize, rng: &mut Rng) -> Vec<f64> {
    let (before, owner, _) = with_room(length, rng);
    let empty = (vec![0; 8 * (length + 1)], [0; 24]);
    let (mut archive, (mut list, mut result)) = (before.clone(), empty.clone());
    assert_eq!(fast::host_preview(&mut archive, owner, &APPENDED, 1, 1, &mut list, &mut result), 0);
    assert!(archive == before, "the archive stays");
    let mut sides: Vec<Side> = Vec::new();
    for version in versions {
        let (mut own, (mut own_list, mut own_result)) = (before.clone(), empty.clone());
        for place in &version.places {
            assert_eq!(place.preview(&mut own, owner, &APPENDED, 1, 1, &mut own_list, &mut own_result), 0);
            assert!(own == before && own_list == list && own_result == result, "library and fast differ");
        }
        sides.push(Box::new(move |at| {
            let (place, list, result) = (&version.places[at], black_box(&mut own_list), black_box(&mut own_result));
            black_box(place.preview(black_box(&mut own), owner, black_box(&APPENDED), 1, 1, list, result));
        }));
    }
    sides.push(Box::new(move |_| {
        let (list, result) = (black_box(&mut list), black_box(&mut result));
        black_box(fast::host_preview(black_box(&mut archive), owner, black_box(&APPENDED), 1, 1, list, result));
    }));
    medians(repetitions, versions[0].places.len(), &mut sides)
}

/// 65,535 records of 22 plants that are filed side by side, quarter by quarter, 2,976 quarters each but for the last.
fn side_by_side(rng: &mut Rng) -> Vec<u8> {
    let mut plants: Vec<Plant> = (0..22).map(|_| sheet(3, 2, 2, 1, 2_976, rng)).collect();
    for plant in &mut plants {
        plant.curve.clear();
    }
    plants[21].measures[0].quarters.truncate(2_972);
    let archive = file(&plants, &Layout { order: Order::Wide, ..Layout::PLAIN }, rng).bytes;
    assert_eq!(archive.len(), 32 * 65_535);
    archive
}

/// Copies of an archive of 65,535 records, 134 MB in all: more than a cache holds.
const COPIES: usize = 64;

/// Times a call on one copy of an archive after the other, so that it finds nothing in a cache of what it reads. All sides must
/// give the same number.
fn cold(
    repetitions: usize,
    versions: &[Version],
    archive: &[u8],
    library: impl Fn(&Place, &mut [u8]) -> u64,
    fast: impl Fn(&mut [u8]) -> u64,
) -> Vec<f64> {
    let mut copy = archive.to_vec();
    let right = fast(&mut copy);
    for place in versions.iter().flat_map(|version| &version.places) {
        assert_eq!(library(place, &mut copy), right, "library and fast differ");
    }
    assert!(copy == archive, "a call that leaves the archive as it was");
    let copies = RefCell::new(vec![copy; COPIES]);
    let next = Cell::new(0);
    let on_next = |call: &dyn Fn(&mut [u8]) -> u64| {
        next.set((next.get() + 1) % COPIES);
        black_box(call(black_box(&mut copies.borrow_mut()[next.get()])));
    };
    let (on_next, library, fast) = (&on_next, &library, &fast);
    let mut sides: Vec<Side> = Vec::new();
    for version in versions {
        sides.push(Box::new(move |at| on_next(&|archive| library(&version.places[at], archive))));
    }
    sides.push(Box::new(move |_| on_next(fast)));
    medians(repetitions, versions[0].places.len(), &mut sides)
}

/// An archive of 65,536 bytes with measures of 96 before-quarters and 192 quarters in every pairing.
fn ordinary(rng: &mut Rng) -> Vec<u8> {
    let plants: Vec<Plant> =
        PAIRINGS.iter().map(|&(technology, variant, _)| sheet(technology, variant, 26, 96, 192, rng)).collect();
    let mut archive = file(&plants, &Layout::PLAIN, rng).bytes;
    archive.resize(MOST_BYTES, 0);
    archive
}

/// Times a run of each program, its start with it, on an input; its output goes nowhere.
fn programs(repetitions: usize, programs: &[&Path], input: &[u8]) -> Vec<f64> {
    let name = std::env::temp_dir().join(format!("sandegmur-bench-{}", std::process::id()));
    fs::write(&name, input).expect("a file for the input");
    let start = |path: &Path, output: Stdio| {
        let mut command = Command::new(path);
        command.stdin(File::open(&name).expect("the input")).stdout(output);
        command
    };
    let printed = |path: &Path| start(path, Stdio::piped()).output().expect("a program that starts").stdout;
    assert!(programs.windows(2).all(|two| printed(two[0]) == printed(two[1])), "the programs' outputs differ");
    let once = |path: &Path| assert!(start(path, Stdio::null()).status().expect("a program that starts").success());
    let once = &once;
    let mut sides: Vec<Side> = programs.iter().map(|&path| Box::new(move |_| once(path)) as Side).collect();
    let times = medians(repetitions, 1, &mut sides);
    fs::remove_file(&name).expect("the input's file");
    times
}

fn main() {
    let usage = "usage: bench REPETITIONS FOLDER..";
    let mut arguments = std::env::args_os().skip(1);
    let word = arguments.next().expect(usage).into_string().expect(usage);
    let repetitions: usize = word.parse().expect(usage);
    let versions: Vec<Version> = arguments.map(|folder| Version::load(Path::new(&folder))).collect();
    let places = versions.first().expect(usage).places.len();
    assert!(versions.iter().all(|version| version.places.len() == places), "every version at as many places");
    let rng = &mut Rng::new(7, 7);
    println!("Library and `fast` in one run, on host bytes, by turns; median of {repetitions} repetitions of at least");
    println!(
        "{} µs each, with the library at {places} places of the code and the stack at {DEPTHS}. All inputs are warm but those out of the cache.",
        SPAN.as_micros()
    );

    // Rows of request 3, of a technology's Pauschal, where every version has it; numbers of their own, so that the
    // later inputs are the same in every version.
    let october = versions.iter().all(reads);
    let october_rng = &mut Rng::new(7, 9);
    let mut october_rows = |technology: u8, plant: &Plant, per: f64| {
        for (_, direction, name) in OCTOBER.into_iter().filter(|&(own, _, _)| october && own == technology) {
            let count = plant.measures[0].quarters.len();
            let plant = since_october(plant.clone(), direction, october_rng);
            let archive = file(&[plant], &Layout::PLAIN, october_rng).bytes;
            row(name, &settle(repetitions, &versions, &archive, count), per);
        }
    };

    header("Settle, 2,976 quarters (26 curve points, 96 before-quarters, requested)", "ns per quarter", &versions);
    for (technology, variant, name) in PAIRINGS {
        let plant = sheet(technology, variant, 26, 96, 2_976, rng);
        let archive = file(&[plant.clone()], &Layout::PLAIN, rng).bytes;
        row(name, &settle(repetitions, &versions, &archive, 2_976), 2_976.0);
        if (technology, variant) == (1, 1) {
            let mixed = file(&[plant], &Layout { order: Order::Shuffled, gaps: 50, ..Layout::PLAIN }, rng).bytes;
            row("wind Spitz, gaps in the chain", &settle(repetitions, &versions, &mixed, 2_976), 2_976.0);
        } else if (technology, variant) == (2, 2) {
            let archive = file(&[dated(plant)], &Layout::PLAIN, rng).bytes;
            row(DATED, &settle(repetitions, &versions, &archive, 2_976), 2_976.0);
        } else if variant == 2 {
            october_rows(technology, &plant, 2_976.0);
        }
    }

    header("Settle, short (4 curve points, 4 before-quarters, 4 quarters)", "ns per call", &versions);
    for (technology, variant, name) in PAIRINGS {
        let plant = sheet(technology, variant, 4, 4, 4, rng);
        let archive = file(&[plant.clone()], &Layout::PLAIN, rng).bytes;
        row(name, &settle(repetitions, &versions, &archive, 4), 1.0);
        if (technology, variant) == (2, 2) {
            let archive = file(&[dated(plant)], &Layout::PLAIN, rng).bytes;
            row(DATED, &settle(repetitions, &versions, &archive, 4), 1.0);
        } else if variant == 2 {
            october_rows(technology, &plant, 1.0);
        }
    }

    header("Audit of a sound archive", "ns per record", &versions);
    for (order, how) in ORDERS {
        for records in [1_000, 8_000, 65_535] {
            let archive = sound(records, order, rng);
            row(&format!("{records} records, {how}"), &audit(repetitions, &versions, &archive), records as f64);
        }
    }

    if versions.iter().all(Version::takes_back) {
        let title = "Taking back the last record of a sound archive (and filing it again)";
        header(title, "ns per record", &versions);
        // Numbers of its own, so that the later inputs are the same in every version.
        let rng = &mut Rng::new(7, 8);
        for (order, how) in ORDERS {
            for records in [1_000, 8_000, 65_535] {
                let archive = sound(records, order, rng);
                row(&format!("{records} records, {how}"), &take_back(repetitions, &versions, &archive), records as f64);
            }
        }
    }

    header("Append at the end of a chain of quarters (and taking the record off again)", "ns per call", &versions);
    for length in [10, 100, 1_000, 10_000, 60_000] {
        row(&format!("{length} quarters"), &append(repetitions, &versions, length, rng), 1.0);
    }

    if versions.iter().all(Version::previews) {
        header("Preview of one more quarter (other Spitz, requested)", "ns per call", &versions);
        // Numbers of its own, so that the later inputs are the same in every version.
        let rng = &mut Rng::new(7, 12);
        for (length, name) in [(4, "behind 4 quarters"), (96, "behind 96 quarters"), (2_975, "behind 2,975 quarters")] {
            row(name, &preview(repetitions, &versions, length, rng), 1.0);
        }
    }

    // Numbers of their own, so that the later inputs are those of the bench before these rows.
    let cold_rng = &mut Rng::new(7, 10);
    header("65,535 records out of the cache", "ns per record met", &versions);
    let archive = side_by_side(cold_rng);
    let lent = RefCell::new((vec![0; 8 * 2_976], [0; 24]));
    // The quarters of one plant fill a tenth of the lines or so: after a round of the copies another plant is settled, of
    // eleven that share no line.
    let calls = Cell::new(0);
    let plant = || {
        calls.set(calls.get() + 1);
        1 + 2 * (calls.get() / COPIES as u64 % 11)
    };
    let total = |number: u32, result: &[u8; 24]| {
        assert_eq!(number, 0);
        u64::from_le_bytes(result[8..16].try_into().unwrap())
    };
    let times = cold(
        repetitions,
        &versions,
        &archive,
        |place, archive| {
            let (list, result) = &mut *lent.borrow_mut();
            total(place.settle(archive, plant(), 1, list, result), result)
        },
        |archive| {
            let (list, result) = &mut *lent.borrow_mut();
            total(fast::host_settle(archive, plant(), 1, list, result), result)
        },
    );
    row("settle, 2,976 quarters of one of 22 plants filed side by side", &times, 2_976.0);
    let times = cold(
        repetitions,
        &versions,
        &archive,
        |place, archive| place.audit(archive).into(),
        |archive| fast::audit(archive).into(),
    );
    row("audit, the same archive", &times, 65_535.0);
    let (archive, owner, undo) = with_room(65_529, cold_rng);
    assert_eq!(archive.len(), 32 * 65_535);
    let times = cold(
        repetitions,
        &versions,
        &archive,
        |place, archive| {
            let number = place.append(archive, owner, &APPENDED);
            undo(archive);
            number.into()
        },
        |archive| {
            let number = fast::append(archive, owner, &APPENDED);
            undo(archive);
            number.into()
        },
    );
    row("append, behind a chain of 65,529 quarters", &times, 65_529.0);

    if versions.iter().all(Version::delivers) {
        header("Delivery day", "ns per call", &versions);
        for length in [0, 12, 1_000] {
            let holidays: Vec<u32> = (9_802..).step_by(2).take(length).collect();
            row(&format!("{length} holidays"), &delivery_day(repetitions, &versions, &holidays), 1.0);
        }
    }

    if versions.iter().all(Version::corrects) {
        header("Correction", "ns per call", &versions);
        // Numbers of their own, so that the later inputs are the same in every version.
        let lists = priced(2_976, &mut Rng::new(7, 11));
        for (count, name) in [(2_976, "2,976 quarters"), (96, "96 quarters"), (4, "4 quarters")] {
            let lists = [0, 1, 2].map(|at| lists[at][..count].to_vec());
            row(name, &correction(repetitions, &versions, &lists), 1.0);
        }
    }

    header("The program, as a process on 65,536 bytes, its output to nowhere", "ms per run", &versions);
    let fast = std::env::current_exe().expect("the path of this program").with_file_name("fast");
    let paths: Vec<&Path> = versions.iter().map(|version| version.program.as_path()).chain([fast.as_path()]).collect();
    let mut none = vec![0; MOST_BYTES];
    assert_eq!(reference::fresh(&mut none), 0);
    let shared = generate::shared(40, 40, 1_967, 1_234_567, rng);
    let cases = [
        ("no plant", none, 51),
        ("six measures of 192 quarters", ordinary(rng), 51),
        ("40 plants share 40 measures that share 1,967 quarters", shared, 11),
    ];
    for (name, input, most) in cases {
        row(name, &programs(repetitions.min(most), &paths, &input), 1e6);
    }
}
