//! Compares the linked library with the reference over generated calls: results and every later byte.
//!
//! Arguments: seed, count, and the index of the first call if it isn't 0. Exit status 1 on the first difference.

#[path = "shared/host.rs"]
mod host;

use reference::generate::{self, Call};
use std::env;
use std::fmt::Write;
use std::ops::Range;
use std::process::ExitCode;

/// Bytes lent to the library: at any alignment, with bytes around them that must stay.
struct Lent {
    bytes: Vec<u8>,
    start: usize,
    end: usize,
}

const AROUND: usize = 64;
const STAY: u8 = 0xa5;
/// What a lent day, lent cents or a remainder and their neighbours hold before the call.
const KEPT: u64 = u64::MAX / 3;

impl Lent {
    fn new(bytes: &[u8], index: u64) -> Lent {
        let start = AROUND + (index % 8) as usize;
        let mut all = vec![STAY; start + bytes.len() + AROUND];
        all[start..start + bytes.len()].copy_from_slice(bytes);
        Lent { bytes: all, start, end: start + bytes.len() }
    }

    fn part(&mut self) -> &mut [u8] {
        &mut self.bytes[self.start..self.end]
    }

    /// The difference from what should stand there, if any.
    fn check(&self, name: &str, expected: &[u8]) -> Result<(), String> {
        let around = self.bytes[..self.start].iter().chain(&self.bytes[self.end..]);
        if around.copied().any(|byte| byte != STAY) {
            return Err(format!("bytes around the {name} changed"));
        }
        let found = &self.bytes[self.start..self.end];
        match found.iter().zip(expected).position(|(a, b)| a != b) {
            None => Ok(()),
            Some(at) => Err(format!("{name} differs at byte {at}: reference {}, library {}", expected[at], found[at])),
        }
    }
}

/// Numbers between others, and where they stand.
fn between(list: &[i64], turn: u64) -> (Vec<i64>, Range<usize>) {
    let start = AROUND + (turn % 2) as usize;
    let mut all = vec![KEPT as i64; start + list.len() + AROUND];
    all[start..start + list.len()].copy_from_slice(list);
    (all, start..start + list.len())
}

fn number(reference: u32, library: u32) -> Result<(), String> {
    if reference == library {
        Ok(())
    } else {
        Err(format!("number: reference {reference}, library {library}"))
    }
}

fn hex(bytes: &[u8]) -> String {
    let mut text = String::new();
    for (at, byte) in bytes.iter().enumerate() {
        if at % 32 == 0 && at > 0 {
            text.push('\n');
        }
        let _ = write!(text, "{byte:02x}");
    }
    text
}

/// Runs one call on both sides.
fn compare(call: &Call, index: u64) -> Result<(), String> {
    match call {
        Call::Settle { archive, p, k, list, result } => {
            let (mut list_after, mut result_after) = (list.clone(), result.clone());
            let expected = reference::host_settle(archive, *p, *k, &mut list_after, &mut result_after);
            let mut lent = Lent::new(archive, index);
            let mut lent_list = Lent::new(list, index / 8);
            let mut lent_result = Lent::new(result, index / 64);
            let found = host::settle(lent.part(), *p, *k, lent_list.part(), lent_result.part());
            number(expected, found)?;
            lent.check("archive", archive)?;
            lent_list.check("list", &list_after)?;
            lent_result.check("result", &result_after)
        }
        Call::Fresh { archive } => {
            let mut after = archive.clone();
            let expected = reference::fresh(&mut after);
            let mut lent = Lent::new(archive, index);
            let found = host::fresh(lent.part());
            number(expected, found)?;
            lent.check("archive", &after)
        }
        Call::Append { archive, owner, record } => {
            let mut after = archive.clone();
            let expected = reference::append(&mut after, *owner, record);
            let mut lent = Lent::new(archive, index);
            let mut lent_record = Lent::new(record, index / 8);
            let found = host::append(lent.part(), *owner, lent_record.part());
            number(expected, found)?;
            lent.check("archive", &after)?;
            lent_record.check("record", record)
        }
        Call::TakeBack { archive } => {
            let mut after = archive.clone();
            let expected = reference::take_back(&mut after);
            let mut lent = Lent::new(archive, index);
            let found = host::take_back(lent.part());
            number(expected, found)?;
            lent.check("archive", &after)
        }
        Call::Audit { archive } => {
            let mut lent = Lent::new(archive, index);
            let found = host::audit(lent.part());
            number(reference::audit(archive), found)?;
            lent.check("archive", archive)
        }
        Call::Show { archive, number } => {
            let shown = reference::show(archive, *number);
            let expected = if shown.is_empty() {
                archive.len() as u64
            } else {
                (shown.as_ptr() as usize - archive.as_ptr() as usize) as u64
            };
            let mut lent = Lent::new(archive, index);
            let found = host::show(lent.part(), *number);
            if expected != found {
                return Err(format!("place: reference {expected}, library {found}"));
            }
            lent.check("archive", archive)
        }
        Call::DeliveryDay { quarter, holidays } => {
            let mut after = [KEPT; 3];
            let expected = reference::host_delivery_day(*quarter, holidays, &mut after[1]);
            // Numbers around the list and the day must stay, and the list too.
            let start = AROUND + (index % 2) as usize;
            let mut lent = vec![u32::MAX / 3; start + holidays.len() + AROUND];
            lent[start..start + holidays.len()].copy_from_slice(holidays);
            let (before, mut day) = (lent.clone(), [KEPT; 3]);
            let part = &mut lent[start..start + holidays.len()];
            number(expected, host::delivery_day(*quarter, part, &mut day[1]))?;
            if lent != before {
                return Err("the holidays or numbers around them changed".to_string());
            }
            if day != after {
                return Err(format!("day between two others: reference {after:?}, library {day:?}"));
            }
            Ok(())
        }
        Call::Correction { amounts, balanced, prices } => {
            let (mut cents_after, mut remainder_after) = ([KEPT as i64; 3], [KEPT; 3]);
            let expected =
                reference::host_correction(amounts, balanced, prices, &mut cents_after[1], &mut remainder_after[1]);
            // Numbers around the lists, the cents and the remainder must stay, and the lists too.
            let lent = [(amounts, 1), (balanced, 2), (prices, 4)].map(|(list, turn)| between(list, index / turn));
            let before = lent.clone();
            let part = |at: usize| &lent[at].0[lent[at].1.clone()];
            let (mut cents, mut remainder) = ([KEPT as i64; 3], [KEPT; 3]);
            let found = host::correction(part(0), part(1), part(2), &mut cents[1], &mut remainder[1]);
            number(expected, found)?;
            if lent != before {
                return Err("the lists or numbers around them changed".to_string());
            }
            if (cents, remainder) != (cents_after, remainder_after) {
                return Err(format!(
                    "cents and remainder, each between two others: reference {cents_after:?} {remainder_after:?}, \
                     library {cents:?} {remainder:?}"
                ));
            }
            Ok(())
        }
        Call::Preview { archive, owner, record, p, k, list, result } => {
            let (mut list_after, mut result_after) = (list.clone(), result.clone());
            let expected = reference::host_preview(archive, *owner, record, *p, *k, &mut list_after, &mut result_after);
            let mut lent = Lent::new(archive, index);
            let mut lent_record = Lent::new(record, index / 8);
            let mut lent_list = Lent::new(list, index / 64);
            let mut lent_result = Lent::new(result, index / 512);
            let (list, result) = (lent_list.part(), lent_result.part());
            let found = host::preview(lent.part(), *owner, lent_record.part(), *p, *k, list, result);
            number(expected, found)?;
            lent.check("archive", archive)?;
            lent_record.check("record", record)?;
            lent_list.check("list", &list_after)?;
            lent_result.check("result", &result_after)
        }
    }
}

fn describe(call: &Call) -> String {
    match call {
        Call::Settle { archive, p, k, list, result } => format!(
            "settle p {p} k {k}\nlist ({} bytes):\n{}\nresult ({} bytes):\n{}\narchive ({} bytes):\n{}",
            list.len(),
            hex(list),
            result.len(),
            hex(result),
            archive.len(),
            hex(archive)
        ),
        Call::Fresh { archive } => format!("fresh\narchive ({} bytes):\n{}", archive.len(), hex(archive)),
        Call::Append { archive, owner, record } => format!(
            "append owner {owner}\nrecord ({} bytes):\n{}\narchive ({} bytes):\n{}",
            record.len(),
            hex(record),
            archive.len(),
            hex(archive)
        ),
        Call::TakeBack { archive } => format!("take back\narchive ({} bytes):\n{}", archive.len(), hex(archive)),
        Call::Audit { archive } => format!("audit\narchive ({} bytes):\n{}", archive.len(), hex(archive)),
        Call::Show { archive, number } => {
            format!("show {number}\narchive ({} bytes):\n{}", archive.len(), hex(archive))
        }
        Call::DeliveryDay { quarter, holidays } => format!("delivery day of quarter {quarter}\nholidays {holidays:?}"),
        Call::Correction { amounts, balanced, prices } => {
            format!("correction\namounts {amounts:?}\nbalanced {balanced:?}\nprices {prices:?}")
        }
        Call::Preview { archive, owner, record, p, k, list, result } => format!(
            "preview owner {owner} p {p} k {k}\nrecord ({} bytes):\n{}\nlist ({} bytes):\n{}\nresult ({} bytes):\n{}\n\
             archive ({} bytes):\n{}",
            record.len(),
            hex(record),
            list.len(),
            hex(list),
            result.len(),
            hex(result),
            archive.len(),
            hex(archive)
        ),
    }
}

fn main() -> ExitCode {
    let arguments: Vec<u64> =
        env::args().skip(1).map(|word| word.parse().expect("seed, count and first index are numbers")).collect();
    let (seed, count, first) = match arguments[..] {
        [seed, count] => (seed, count, 0),
        [seed, count, first] => (seed, count, first),
        _ => {
            eprintln!("usage: compare SEED COUNT [FIRST]");
            return ExitCode::from(2);
        }
    };
    let names = ["settle", "fresh", "append", "show", "audit", "delivery day", "take back", "correction", "preview"];
    let mut calls = names.map(|name| (name, 0u64));
    for index in first..first + count {
        let call = generate::call(seed, index).call;
        if let Err(difference) = compare(&call, index) {
            println!("DIFFERENCE in call {index} of seed {seed}: {difference}");
            println!("again alone: compare {seed} 1 {index}");
            println!("{}", describe(&call));
            return ExitCode::FAILURE;
        }
        let kind = match call {
            Call::Settle { .. } => 0,
            Call::Fresh { .. } => 1,
            Call::Append { .. } => 2,
            Call::Show { .. } => 3,
            Call::Audit { .. } => 4,
            Call::DeliveryDay { .. } => 5,
            Call::TakeBack { .. } => 6,
            Call::Correction { .. } => 7,
            Call::Preview { .. } => 8,
        };
        calls[kind].1 += 1;
    }
    println!("No difference in {count} calls of seed {seed}, from call {first} on.");
    for (name, times) in calls {
        println!("{name}: {times}");
    }
    ExitCode::SUCCESS
}
