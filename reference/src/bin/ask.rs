//! Asks the linked library and the proved program generated calls, and writes the cases with their lines.
//!
//! Arguments: seed, count of different archives, folder, the program. Writes FOLDER/cases for a reader made from the
//! pages, and FOLDER/lines with what it should print. Exit status 1 if a number or a branch of request 3 was never
//! reached.
//! Without the program: tells the first case whose line in FOLDER/read isn't the one in FOLDER/lines.
//!
//! A case, every number little-endian: call (1 byte), a and b (8 each), then list, result part, archive and record,
//! each with its length (4) before it. Calls and their lines, a hash being FNV-1a of the later bytes in hex:
//! 1 settle (a = p, b = k): number, hash of the list, hash of the result part; 2 show (a = number): place;
//! 3 fresh: number, hash of the archive; 4 append (a = owner): number, hash of the archive; 5 audit: number;
//! 6 the program, its input as archive: hash and length of what it writes;
//! 7 delivery day (a = quarter; the holidays, 4 bytes each, as list; the lent day, 8 bytes, as result part): number,
//! the day afterwards; 8 take back: number, hash of the archive;
//! 9 correction (the amounts as list, the balanced energies as archive, the prices as record, 8 bytes each; the lent
//! cents and remainder, 8 bytes each, as result part): number, cents and remainder afterwards;
//! 10 preview (a = p, b = k; as record first the owner, 8 bytes, then the new record, 32 bytes or another number of
//! them): number, hash of the list, hash of the result part, hash of the archive.
//! Each line starts with the call.

#[path = "shared/host.rs"]
mod host;

use reference::archive::{field, record, ADJUSTED, MEASURE, NONAVAILABLE, PLANT, RECORD};
use reference::generate::{self, Call, BOUNDED};
use reference::rng::Rng;
use reference::settle::{first_quarter, quarters, reading_places, terms, NONE, POWER};
use std::collections::{BTreeMap, HashSet};
use std::fs::{self, File};
use std::io::{self, BufWriter, Write};
use std::path::Path;
use std::process::{Command, ExitCode};
use std::{env, iter};

/// Archives up to this length get further calls; longer ones their own call alone.
const FURTHER: usize = 65_536;
/// One input of the program to so many archives.
const INPUTS: u64 = 5;

const SETTLE: u8 = 1;
const SHOW: u8 = 2;
const FRESH: u8 = 3;
const APPEND: u8 = 4;
const AUDIT: u8 = 5;
const PROGRAM: u8 = 6;
const DELIVERY_DAY: u8 = 7;
const TAKE_BACK: u8 = 8;
const CORRECTION: u8 = 9;
const PREVIEW: u8 = 10;

/// Each call's numbers; show has 0 for a record and 1 for the empty part, delivery day also 1 for day 0, the program 0
/// for an M line.
const NUMBERS: [(u8, &str, &[u32]); 10] = [
    (SETTLE, "settle", &[0, 1, 2, 3, 4, 5, 6, 7, 8, 9, 10, 11, 12, 13, 18]),
    (SHOW, "show (0 a record, 1 the empty part)", &[0, 1]),
    (FRESH, "fresh", &[0, 1]),
    (APPEND, "append", &[0, 1, 2, 3, 14, 15, 16]),
    (AUDIT, "audit", &[0, 1, 2, 3, 17]),
    (PROGRAM, "program (by line, 0 for M)", &[0, 1, 2, 3, 6, 7, 8, 9, 10, 11, 12, 18]),
    (DELIVERY_DAY, "delivery day (1 for day 0)", &[0, 1, 18]),
    (TAKE_BACK, "take back", &[0, 1, 19]),
    (CORRECTION, "correction", &[0, 20, 21, 22]),
    (PREVIEW, "preview", &[0, 1, 2, 3, 4, 5, 6, 7, 8, 9, 10, 11, 12, 13, 14, 15, 16, 18]),
];

#[derive(Clone, Debug, Default)]
struct Case {
    call: u8,
    a: u64,
    b: u64,
    list: Vec<u8>,
    result: Vec<u8>,
    archive: Vec<u8>,
    record: Vec<u8>,
}

impl Case {
    /// The lent day is the quarter with every bit turned; lent cents and remainder are hashes of amounts and prices.
    fn of(call: Call) -> Case {
        let none = Case::default();
        match call {
            Call::Settle { archive, p, k, list, result } => {
                Case { call: SETTLE, a: p, b: k, list, result, archive, ..none }
            }
            Call::Show { archive, number } => Case { call: SHOW, a: number, archive, ..none },
            Call::Fresh { archive } => Case { call: FRESH, archive, ..none },
            Call::Append { archive, owner, record } => Case { call: APPEND, a: owner, archive, record, ..none },
            Call::Audit { archive } => Case { call: AUDIT, archive, ..none },
            Call::TakeBack { archive } => Case { call: TAKE_BACK, archive, ..none },
            Call::DeliveryDay { quarter, holidays } => {
                let list = holidays.iter().flat_map(|day| day.to_le_bytes()).collect();
                Case { call: DELIVERY_DAY, a: quarter, list, result: (!quarter).to_le_bytes().to_vec(), ..none }
            }
            Call::Correction { amounts, balanced, prices } => {
                let bytes = |list: Vec<i64>| list.iter().flat_map(|number| number.to_le_bytes()).collect::<Vec<u8>>();
                let (list, archive, record) = (bytes(amounts), bytes(balanced), bytes(prices));
                let result = [hash(&list), !hash(&record)].map(u64::to_le_bytes).concat();
                Case { call: CORRECTION, list, result, archive, record, ..none }
            }
            Call::Preview { archive, owner, record, p, k, list, result } => {
                let record = [owner.to_le_bytes().to_vec(), record].concat();
                Case { call: PREVIEW, a: p, b: k, list, result, archive, record }
            }
        }
    }

    fn parts(&self) -> [(&str, &[u8]); 4] {
        [("list", &self.list), ("result part", &self.result), ("archive", &self.archive), ("record", &self.record)]
    }

    fn bytes(&self) -> Vec<u8> {
        let mut bytes = vec![self.call];
        bytes.extend(self.a.to_le_bytes());
        bytes.extend(self.b.to_le_bytes());
        for (_, part) in self.parts() {
            bytes.extend((part.len() as u32).to_le_bytes());
            bytes.extend(part);
        }
        bytes
    }

    /// The line, and the numbers for the count. The case's bytes become the later ones.
    fn answer(&mut self, program: &Path, folder: &Path) -> io::Result<(String, Vec<u32>)> {
        let Case { call, a, b, list, result, archive, record } = self;
        Ok(match *call {
            SETTLE => {
                let number = host::settle(archive, *a, *b, list, result);
                (format!("{call} {number} {:016x} {:016x}", hash(list), hash(result)), vec![number])
            }
            SHOW => {
                let place = host::show(archive, *a);
                (format!("{call} {place}"), vec![u32::from(place == archive.len() as u64)])
            }
            FRESH => {
                let number = host::fresh(archive);
                (format!("{call} {number} {:016x}", hash(archive)), vec![number])
            }
            APPEND => {
                let number = host::append(archive, *a, record);
                (format!("{call} {number} {:016x}", hash(archive)), vec![number])
            }
            AUDIT => {
                let number = host::audit(archive);
                (format!("{call} {number}"), vec![number])
            }
            TAKE_BACK => {
                let number = host::take_back(archive);
                (format!("{call} {number} {:016x}", hash(archive)), vec![number])
            }
            DELIVERY_DAY => {
                let day_of = |bytes: &[u8]| u32::from_le_bytes(bytes.try_into().expect("4 bytes"));
                let holidays: Vec<u32> = list.chunks(4).map(day_of).collect();
                let mut day = u64::from_le_bytes(result[..].try_into().expect("8 bytes"));
                let number = host::delivery_day(*a, &holidays, &mut day);
                let reached = if number == 0 && day == 0 { 1 } else { number };
                (format!("{call} {number} {day}"), vec![reached])
            }
            CORRECTION => {
                let number_of = |bytes: &[u8]| i64::from_le_bytes(bytes.try_into().expect("8 bytes"));
                let [amounts, balanced, prices] =
                    [list, archive, record].map(|bytes| bytes.chunks(8).map(number_of).collect::<Vec<i64>>());
                let (mut cents, mut remainder) = (number_of(&result[..8]), number_of(&result[8..]) as u64);
                let number = host::correction(&amounts, &balanced, &prices, &mut cents, &mut remainder);
                (format!("{call} {number} {cents} {remainder}"), vec![number])
            }
            PREVIEW => {
                let (owner, new) = record.split_at(8);
                let owner = u64::from_le_bytes(owner.try_into().expect("8 bytes"));
                let number = host::preview(archive, owner, new, *a, *b, list, result);
                let (list, result, archive) = (hash(list), hash(result), hash(archive));
                (format!("{call} {number} {list:016x} {result:016x} {archive:016x}"), vec![number])
            }
            _ => {
                let input = folder.join("input");
                fs::write(&input, archive)?;
                let run = Command::new(program).stdin(File::open(&input)?).output()?;
                if !run.status.success() || !run.stderr.is_empty() {
                    return Err(io::Error::new(io::ErrorKind::Other, "the program failed or wrote to standard error"));
                }
                let text = String::from_utf8_lossy(&run.stdout);
                let number = |line: &str| match line.as_bytes()[0] {
                    b'M' => Some(0),
                    b'E' => line.rsplit(' ').next().and_then(|word| word.parse().ok()),
                    _ => None,
                };
                let numbers = text.lines().filter_map(number).collect();
                (format!("{call} {:016x} {}", hash(&run.stdout), run.stdout.len()), numbers)
            }
        })
    }
}

/// What has to be reached of each pairing and direction that has request 3's readings.
const BRANCHES: [&str; 4] = [
    "settled with a reading that is none",
    "settled with a reading that is there",
    "refused with 9, a reading out of range",
    "settled with readings out of range that aren't read",
];

/// The branches that a settle case with this number reaches.
fn branches(case: &Case, number: u32) -> Option<Vec<(usize, usize)>> {
    let (pairing, direction, _) = terms(&case.archive, case.a, case.b)?;
    let first = first_quarter(&case.archive, case.a, case.b)?;
    let whose = BOUNDED.iter().position(|&one| one == (pairing, direction))?;
    let quarters = quarters(&case.archive, case.a, case.b)?;
    let places = reading_places(pairing, first);
    let any = |read: bool, fits: &dyn Fn(i128) -> bool| {
        let mut places = [NONAVAILABLE, ADJUSTED].into_iter().filter(|at| places.contains(at) == read);
        places.any(|at| quarters.iter().any(|quarter| fits(field(quarter, at))))
    };
    let wide = |power: i128| power != NONE && !POWER.contains(&power);
    let reached = [
        number == 0 && any(true, &|power| power == NONE),
        number == 0 && any(true, &|power| power != NONE),
        number == 9 && any(true, &wide),
        number == 0 && any(false, &wide),
    ];
    Some((0..4).filter(|&branch| reached[branch]).map(|branch| (whose, branch)).collect())
}

/// FNV-1a, 64 bits.
fn hash(bytes: &[u8]) -> u64 {
    bytes.iter().fold(0xcbf2_9ce4_8422_2325, |hash, &byte| (hash ^ u64::from(byte)).wrapping_mul(0x100_0000_01b3))
}

/// Further calls on an archive: settle twice, show, append, audit, take back, preview of the record appended.
fn further(seed: u64, index: u64, archive: &[u8]) -> Vec<Case> {
    let mut rng = Rng::new(seed ^ 0x4675_7274_6865_7200, index);
    let all = (archive.len() / RECORD) as u64;
    let case = |call, a, b| Case { call, a, b, archive: archive.to_vec(), ..Case::default() };
    let mut cases = Vec::new();
    for (p, k) in [(1, 1), (1 + rng.word() % 3, 1 + rng.word() % 3)] {
        let length = 8 * rng.below(20) + rng.below(8);
        cases.push(Case { list: rng.bytes(length), result: rng.bytes(24), ..case(SETTLE, p, k) });
    }
    cases.push(case(SHOW, rng.word() % (all + 2), 0));

    // A record with a fitting owner, if there is one.
    let kind = 1 + rng.below(5) as u8;
    let above = if kind <= MEASURE { PLANT } else { MEASURE };
    let owners: Vec<u64> = (1..all).filter(|&number| record(archive, number)[0] == above).collect();
    let owner = if kind == PLANT || owners.is_empty() { 0 } else { rng.pick(&owners) };
    let mut new = rng.bytes(RECORD);
    new[0] = kind;
    new[4..if matches!(kind, PLANT | MEASURE) { 16 } else { 8 }].fill(0);
    cases.push(Case { record: new.clone(), ..case(APPEND, owner, 0) });
    cases.push(case(AUDIT, 0, 0));
    cases.push(case(TAKE_BACK, 0, 0));
    let record = [owner.to_le_bytes().to_vec(), new].concat();
    let (p, k) = rng.pick(&[(1, 1), (1, 1), (1, 2), (2, 1), (2, 2)]);
    let length = 8 * rng.below(20) + rng.below(8);
    cases.push(Case { list: rng.bytes(length), result: rng.bytes(24), record, ..case(PREVIEW, p, k) });
    cases
}

/// What was made.
#[derive(Default)]
struct Made {
    archives: HashSet<u64>,
    again: u64,
    long: u64,
    inputs: u64,
    without: u64,
}

/// Gives the cases in order, each with the generator's index, until there are enough different archives.
fn each(seed: u64, archives: usize, mut take: impl FnMut(u64, Case) -> io::Result<()>) -> io::Result<Made> {
    let mut made = Made::default();
    let mut index = 0;
    while made.archives.len() < archives {
        let case = Case::of(generate::call(seed, index).call);
        let others = if matches!(case.call, DELIVERY_DAY | CORRECTION) {
            made.without += 1;
            vec![]
        } else if !made.archives.insert(hash(&case.archive)) {
            made.again += 1;
            vec![]
        } else if case.archive.len() > FURTHER {
            made.long += 1;
            vec![]
        } else {
            further(seed, index, &case.archive)
        };
        for case in iter::once(case).chain(others) {
            take(index, case)?;
        }
        if index % INPUTS == 0 {
            made.inputs += 1;
            take(index, Case { call: PROGRAM, archive: generate::input(seed, index), ..Case::default() })?;
        }
        index += 1;
    }
    Ok(made)
}

/// Writes cases and lines; false if a number was never reached.
fn ask(seed: u64, archives: usize, folder: &Path, program: &Path) -> io::Result<bool> {
    fs::create_dir_all(folder)?;
    let mut cases = BufWriter::new(File::create(folder.join("cases"))?);
    let mut lines = BufWriter::new(File::create(folder.join("lines"))?);
    let mut calls = [0u64; 11];
    let mut numbers: BTreeMap<(u8, u32), u64> = BTreeMap::new();
    let mut october = [[0u64; 4]; 3];
    let mut length = 0;
    let made = each(seed, archives, |_, mut case| {
        let bytes = case.bytes();
        length += bytes.len();
        cases.write_all(&bytes)?;
        let (line, found) = case.answer(program, folder)?;
        writeln!(lines, "{line}")?;
        calls[usize::from(case.call)] += 1;
        if case.call == SETTLE {
            for (whose, branch) in branches(&case, found[0]).unwrap_or_default() {
                october[whose][branch] += 1;
            }
        }
        for number in found {
            *numbers.entry((case.call, number)).or_default() += 1;
        }
        Ok(())
    })?;
    cases.flush()?;
    lines.flush()?;

    let all: u64 = calls.iter().sum();
    println!("Seed {seed}: {} different archives, {} inputs of the program.", made.archives.len(), made.inputs);
    println!("{all} cases, {length} bytes; no archive left out.");
    println!("{} archives longer than {FURTHER} bytes have one call only,", made.long);
    println!("and so have {} that had been made before; {} calls need no archive.", made.again, made.without);
    let mut complete = true;
    for (call, name, wanted) in NUMBERS {
        print!("{name}: {} cases;", calls[usize::from(call)]);
        for &number in wanted {
            print!(" {number}={}", numbers.get(&(call, number)).unwrap_or(&0));
        }
        println!();
        for number in wanted.iter().filter(|&&number| !numbers.contains_key(&(call, number))) {
            println!("NEVER REACHED: {number} in {name}");
            complete = false;
        }
        for ((_, number), _) in numbers.iter().filter(|((own, number), _)| *own == call && !wanted.contains(number)) {
            println!("NOT ALLOWED: {number} in {name}");
            complete = false;
        }
    }
    for ((pairing, direction), times) in BOUNDED.iter().zip(october) {
        let side = if *direction == 1 { "positive" } else { "negative" };
        for (what, times) in BRANCHES.iter().zip(times) {
            println!("{pairing:?} {side}, {what}: {times}");
            if times == 0 {
                println!("NEVER REACHED: {pairing:?} {side}, {what}");
                complete = false;
            }
        }
    }
    Ok(complete)
}

fn print(case: &Case) {
    println!("call {}, a {}, b {}", case.call, case.a, case.b);
    for (name, part) in case.parts() {
        println!("{name} ({} bytes):", part.len());
        for row in part.chunks(RECORD) {
            let row: String = row.iter().map(|byte| format!("{byte:02x}")).collect();
            println!("{row}");
        }
    }
}

/// Tells the first case whose lines differ.
fn first(seed: u64, archives: usize, folder: &Path) -> io::Result<()> {
    let text = |name| fs::read(folder.join(name)).map(|bytes| String::from_utf8_lossy(&bytes).into_owned());
    let (library, reader) = (text("lines")?, text("read")?);
    let (mut library, mut reader) = (library.lines(), reader.lines());
    let (mut at, mut found) = (0u64, false);
    each(seed, archives, |index, case| {
        let (right, read) = (library.next(), reader.next());
        at += 1;
        if !found && right != read {
            found = true;
            println!("DIFFERENCE in line {at}, from seed {seed}, index {index}");
            println!("library: {}\nreader:  {}", right.unwrap_or("no line"), read.unwrap_or("no line"));
            print(&case);
        }
        Ok(())
    })?;
    if !found {
        println!("No case differs; the reader has more lines or another end.");
    }
    Ok(())
}

fn main() -> io::Result<ExitCode> {
    let words: Vec<String> = env::args().skip(1).collect();
    let number = |word: &str| word.parse::<u64>().expect("seed and count are numbers");
    let complete = match &words[..] {
        [seed, archives, folder, program] => {
            ask(number(seed), number(archives) as usize, Path::new(folder), Path::new(program))?
        }
        [seed, archives, folder] => {
            first(number(seed), number(archives) as usize, Path::new(folder))?;
            true
        }
        _ => {
            eprintln!("usage: ask SEED ARCHIVES FOLDER [PROGRAM]");
            return Ok(ExitCode::from(2));
        }
    };
    Ok(if complete { ExitCode::SUCCESS } else { ExitCode::FAILURE })
}
