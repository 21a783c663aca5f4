//! The examples of docs/FORMAT.md and docs/RULES.md, read from these pages: each must come out as the page says, and
//! each wrong reading of `slips` must come out differently in at least one of them.
//!
//! Arguments: the project's folder; then the program, if its output is to be compared too. With the feature `compare`
//! the linked library is asked as well. Exit status 1 on a difference, or if a wrong reading shows nowhere.
//!
//! FORMAT section 15 has the layout: a table of archives with lengths and SHA-256 (the files are in examples/), dumps
//! of some of them, and tables with the columns Archive, Change, Call and Result. The result of `take back` is a number,
//! or for 0 what changed, as in `0: r6 = 00; r5[4-7] = 0; r0[4-7] = 6`. FORMAT section 16 has the layout of the
//! delivery days, tables with the columns Quarter, Holidays and Result. The dates of RULES section 13, in tables with
//! the columns of `DATES`, must be those of the plain calendar. FORMAT section 18 has the layout of the corrections,
//! which stand there and in RULES section 15, in tables with the columns Amounts, Balanced, Prices and Result: a list
//! is `none`, or numbers and repeated ones, as in `-1, 2,976 times 5`; the result is a number, or for 0 cents and
//! remainder, as in `0: -1; remainder 999,999`. FORMAT section 19 has the previews, in tables with the columns of the
//! calls: append's owner and record, then settle's places, as in `preview 2: 05 07 28; 1, 1, list of 2`; the result is
//! settle's, and every byte of the archive must be as before.

#[cfg(feature = "compare")]
#[path = "shared/host.rs"]
mod host;

use reference::archive::RECORD;
use reference::calendar::QuarterHour;
use reference::sha256::sha256;
use reference::slips::{self, Slip, FURTHER, SLIPS};
use std::collections::BTreeMap;
use std::io::{self, Write};
use std::path::Path;
use std::process::{Command, ExitCode, Stdio};
use std::{env, fs, thread};

const PAGES: [&str; 2] = ["FORMAT.md", "RULES.md"];
/// Columns of the table of archives, of the tables of calls, of delivery days, of dates and of corrections.
const FILES: [&str; 5] = ["Archive", "Bytes", "SHA-256", "Output, bytes", "SHA-256 of the output"];
const CALLS: [&str; 4] = ["Archive", "Change", "Call", "Result"];
const DELIVERIES: [&str; 3] = ["Quarter", "Holidays", "Result"];
const DATES: [&str; 6] = ["Quarter number", "Date", "Clock time", "Quarter of the day", "Day number", "Weekday"];
const CORRECTIONS: [&str; 4] = ["Amounts", "Balanced", "Prices", "Result"];
/// Places of a list where the page names none.
const PLACES: usize = 3_000;
/// What list and result part hold before a call.
const UNTOUCHED: u8 = 0xee;
/// What the lent day holds before a call, and the lent cents and remainder.
const UNTOUCHED_DAY: u64 = u64::MAX;
const UNTOUCHED_CENTS: (i64, u64) = (i64::MIN, u64::MAX);

#[derive(Clone, Debug)]
enum Call {
    Settle(Settled),
    Append(Filed),
    Audit,
    Show { number: u64 },
    Fresh,
    DeliveryDay { quarter: u64, holidays: Vec<u32> },
    TakeBack,
    Correction { amounts: Vec<i64>, balanced: Vec<i64>, prices: Vec<i64> },
    Preview { filed: Filed, settled: Settled },
    Program,
}

/// Append's owner and record.
#[derive(Clone, Debug)]
struct Filed {
    owner: u64,
    new: Vec<u8>,
}

/// Settle's places, the bytes of its list and of its result part.
#[derive(Clone, Debug)]
struct Settled {
    p: u64,
    k: u64,
    list: usize,
    result: usize,
}

/// All that can be seen of a call: number, later bytes of the archive and the list, result part, day, cents with their
/// remainder; or the lines.
#[derive(Clone, Debug, PartialEq, Eq)]
enum Outcome {
    Settled { number: u32, list: Vec<u8>, result: Vec<u8> },
    Changed { number: u32, archive: Vec<u8> },
    Number(u32),
    Shown(u64),
    Delivered { number: u32, day: u64 },
    Corrected { number: u32, cents: (i64, u64) },
    Previewed { number: u32, archive: Vec<u8>, list: Vec<u8>, result: Vec<u8> },
    Lines(String),
}

struct Example {
    /// Page and line.
    at: String,
    /// Empty for a call that needs none.
    archive: Vec<u8>,
    call: Call,
    result: String,
}

type Fault = String;

fn number<T: std::str::FromStr>(text: &str) -> Result<T, Fault> {
    text.replace(',', "").parse().map_err(|_| format!("not a number: {text}"))
}

fn hex(text: &str) -> Result<Vec<u8>, Fault> {
    text.split_whitespace()
        .map(|byte| u8::from_str_radix(byte, 16).map_err(|_| format!("not a byte: {byte}")))
        .collect()
}

/// What stands between two texts.
fn between<'a>(text: &'a str, start: &str, end: &str) -> Option<&'a str> {
    text.strip_prefix(start).and_then(|rest| rest.strip_suffix(end))
}

/// A record's number, as in r12.
fn record_number(text: &str) -> Result<usize, Fault> {
    number(text.strip_prefix('r').ok_or(format!("not a record: {text}"))?)
}

/// One change of an archive: `cut to 33 bytes`, `+1 record`, `+2 records of ff`, `r4[1] = 13`, `r5 to r8[16-19] = -1`.
fn change(archive: &mut Vec<u8>, text: &str) -> Result<(), Fault> {
    if let Some(length) = between(text, "cut to ", " bytes") {
        archive.truncate(number(length)?);
        return Ok(());
    }
    if let Some(more) = text.strip_prefix('+') {
        let (count, what) = more.split_once(' ').ok_or(format!("no change: {text}"))?;
        let (unit, byte) = what.split_once(" of ").unwrap_or((what, "00"));
        let size = match unit {
            "record" | "records" => RECORD,
            "byte" | "bytes" => 1,
            _ => return Err(format!("no change: {text}")),
        };
        let byte = hex(byte)?[0];
        archive.resize(archive.len() + size * number::<usize>(count)?, byte);
        return Ok(());
    }
    let (left, value) = text.split_once(" = ").ok_or(format!("no change: {text}"))?;
    let (records, place) = left.split_once('[').ok_or(format!("no change: {text}"))?;
    let place = place.strip_suffix(']').ok_or(format!("no change: {text}"))?;
    let (first, last) = records.split_once(" to ").unwrap_or((records, records));
    let value: i64 = number(value)?;
    for record in record_number(first)?..=record_number(last)? {
        let (at, bytes) = match place.split_once('-') {
            None => (number::<usize>(place)?, vec![u8::try_from(value).map_err(|_| format!("not a byte: {text}"))?]),
            Some((at, end)) => {
                let at: usize = number(at)?;
                if number::<usize>(end)? != at + 3 || value < -(1 << 31) || value >= 1 << 32 {
                    return Err(format!("not a number of four bytes: {text}"));
                }
                (at, (value as u32).to_le_bytes().to_vec())
            }
        };
        let start = RECORD * record + at;
        let part = archive.get_mut(start..start + bytes.len()).ok_or(format!("outside the archive: {text}"))?;
        part.copy_from_slice(&bytes);
    }
    Ok(())
}

fn changed(archive: &[u8], text: &str) -> Result<Vec<u8>, Fault> {
    let mut archive = archive.to_vec();
    if text != "none" {
        text.split("; ").try_for_each(|one| change(&mut archive, one))?;
    }
    Ok(archive)
}

/// Owner and record, as in `2: 05 07 28` or `2: 05 of 31 bytes`; bytes that aren't named are 00.
fn filed(text: &str) -> Result<Filed, Fault> {
    let (owner, new) = text.split_once(": ").ok_or(format!("no record: {text}"))?;
    let (bytes, length) = match new.split_once(" of ") {
        None => (hex(new)?, RECORD),
        Some((bytes, length)) => (hex(bytes)?, number(length.strip_suffix(" bytes").unwrap_or(length))?),
    };
    let mut new = bytes;
    new.resize(length, 0);
    Ok(Filed { owner: number(owner)?, new })
}

/// Places, list and result part, as in `1, 1, list of 2, result of 23 bytes`.
fn settled(text: &str) -> Result<Settled, Fault> {
    let words: Vec<&str> = text.split(", ").collect();
    if words.len() < 2 {
        return Err(format!("no places: {text}"));
    }
    let (mut list, mut result) = (8 * PLACES, 24);
    for word in &words[2..] {
        if let Some(bytes) = between(word, "list of ", " bytes") {
            list = number(bytes)?;
        } else if let Some(places) = word.strip_prefix("list of ") {
            list = 8 * number::<usize>(places)?;
        } else if let Some(bytes) = between(word, "result of ", " bytes") {
            result = number(bytes)?;
        } else {
            return Err(format!("no list or result part: {text}"));
        }
    }
    Ok(Settled { p: number(words[0])?, k: number(words[1])?, list, result })
}

fn call(text: &str) -> Result<Call, Fault> {
    let (name, rest) = text.split_once(' ').unwrap_or((text, ""));
    match name {
        "settle" => Ok(Call::Settle(settled(rest)?)),
        "append" => Ok(Call::Append(filed(rest)?)),
        "preview" => {
            let (record, places) = rest.split_once("; ").ok_or(format!("no call: {text}"))?;
            Ok(Call::Preview { filed: filed(record)?, settled: settled(places)? })
        }
        "show" => Ok(Call::Show { number: number(rest)? }),
        "audit" => Ok(Call::Audit),
        "take" if rest == "back" => Ok(Call::TakeBack),
        "fresh" => Ok(Call::Fresh),
        "program" => Ok(Call::Program),
        _ => Err(format!("no call: {text}")),
    }
}

/// A list of days: `none`, or numbers and runs of them, as in `9,771 to 9,806, 9,810`.
fn days(text: &str) -> Result<Vec<u32>, Fault> {
    let mut list = Vec::new();
    for part in text.split(", ").filter(|_| text != "none") {
        let (first, last) = part.split_once(" to ").unwrap_or((part, part));
        list.extend(number::<u32>(first)?..=number(last)?);
    }
    Ok(list)
}

/// A list of numbers: `none`, or numbers, repeated ones as in `2,976 times 5`.
fn numbers(text: &str) -> Result<Vec<i64>, Fault> {
    let mut list = Vec::new();
    for part in text.split(", ").filter(|_| text != "none") {
        let (times, value) = part.split_once(" times ").unwrap_or(("1", part));
        list.resize(list.len() + number::<usize>(times)?, number(value)?);
    }
    Ok(list)
}

/// List and result part after a settle or a preview, from what the page says.
fn lent_after(settled: &Settled, text: &str) -> Result<(u32, Vec<u8>, Vec<u8>), Fault> {
    let (head, rest) = text.split_once(": ").unwrap_or((text, ""));
    let (mut list, mut result) = (vec![UNTOUCHED; settled.list], vec![UNTOUCHED; settled.result]);
    let refusal: u32 = number(head)?;
    if refusal == 0 {
        let parts: Vec<&str> = rest.split("; ").collect();
        let (total, links) = match parts[..] {
            [_, total, links] => (total.strip_prefix("total "), links.strip_prefix("links ")),
            _ => (None, None),
        };
        let (total, links) = match (total, links) {
            (Some(total), Some(links)) => (number::<i64>(total)?, number::<i64>(links)?),
            _ => return Err(format!("no result of settle: {text}")),
        };
        let amounts: Vec<i64> = match parts[0].split_once(" times ") {
            Some((count, amount)) => vec![number(amount)?; number(count)?],
            None => parts[0].split(", ").map(number).collect::<Result<_, _>>()?,
        };
        if list.len() < 8 * amounts.len() || result.len() != 24 {
            return Err(format!("no room for {text}"));
        }
        for (place, amount) in list.chunks_mut(8).zip(&amounts) {
            place.copy_from_slice(&amount.to_le_bytes());
        }
        for (part, value) in result.chunks_mut(8).zip([amounts.len() as i64, total, links]) {
            part.copy_from_slice(&value.to_le_bytes());
        }
    }
    Ok((refusal, list, result))
}

/// What the page says, as an outcome.
fn outcome(example: &Example) -> Result<Outcome, Fault> {
    let (archive, text) = (&example.archive, &example.result[..]);
    let (head, rest) = text.split_once(": ").unwrap_or((text, ""));
    match &example.call {
        Call::Settle(settled) => {
            let (number, list, result) = lent_after(settled, text)?;
            Ok(Outcome::Settled { number, list, result })
        }
        Call::Preview { settled, .. } => {
            let (number, list, result) = lent_after(settled, text)?;
            Ok(Outcome::Previewed { number, archive: archive.clone(), list, result })
        }
        Call::Append(Filed { new, .. }) => {
            let mut later = archive.clone();
            let refusal: u32 = number(head)?;
            if refusal == 0 {
                let (filed, changes) = rest.split_once("; ").ok_or(format!("no result of append: {text}"))?;
                let filed = filed.strip_suffix(" = new").ok_or(format!("no result of append: {text}"))?;
                let start = RECORD * record_number(filed)?;
                let part = later.get_mut(start..start + new.len()).ok_or(format!("outside the archive: {text}"))?;
                part.copy_from_slice(new);
                changes.split("; ").try_for_each(|one| change(&mut later, one))?;
            }
            Ok(Outcome::Changed { number: refusal, archive: later })
        }
        Call::TakeBack => {
            let mut later = archive.clone();
            let refusal: u32 = number(head)?;
            if refusal == 0 {
                let (cleared, changes) = rest.split_once("; ").ok_or(format!("no result of take back: {text}"))?;
                let cleared = cleared.strip_suffix(" = 00").ok_or(format!("no result of take back: {text}"))?;
                let start = RECORD * record_number(cleared)?;
                later.get_mut(start..start + RECORD).ok_or(format!("outside the archive: {text}"))?.fill(0);
                changes.split("; ").try_for_each(|one| change(&mut later, one))?;
            }
            Ok(Outcome::Changed { number: refusal, archive: later })
        }
        Call::Fresh => {
            let mut later = archive.clone();
            let refusal: u32 = number(head)?;
            if refusal == 0 {
                let bytes = hex(rest.strip_suffix(", then 00").ok_or(format!("no result of fresh: {text}"))?)?;
                later.fill(0);
                later[..bytes.len()].copy_from_slice(&bytes);
            }
            Ok(Outcome::Changed { number: refusal, archive: later })
        }
        Call::Audit => Ok(Outcome::Number(number(text)?)),
        Call::Show { .. } => match text {
            "empty" => Ok(Outcome::Shown(archive.len() as u64)),
            _ => {
                let bytes = text.strip_prefix("bytes ").and_then(|bytes| bytes.split_once('-'));
                let (first, last) = bytes.ok_or(format!("no result of show: {text}"))?;
                let first: u64 = number(first)?;
                if number::<u64>(last)? != first + 31 {
                    return Err(format!("not 32 bytes: {text}"));
                }
                Ok(Outcome::Shown(first))
            }
        },
        Call::DeliveryDay { .. } => {
            let refusal: u32 = number(head)?;
            let day = if refusal == 0 { number(rest)? } else { UNTOUCHED_DAY };
            Ok(Outcome::Delivered { number: refusal, day })
        }
        Call::Correction { .. } => {
            let refusal: u32 = number(head)?;
            let mut cents = UNTOUCHED_CENTS;
            if refusal == 0 {
                let (whole, rest) =
                    rest.split_once("; remainder ").ok_or(format!("no result of correction: {text}"))?;
                cents = (number(whole)?, number(rest)?);
            }
            Ok(Outcome::Corrected { number: refusal, cents })
        }
        Call::Program => Ok(Outcome::Lines(match text {
            "nothing" => String::new(),
            _ => text.split(" / ").map(|line| format!("{line}\n")).collect(),
        })),
    }
}

/// The calls of one implementation.
trait Calls {
    fn settle(&self, archive: &[u8], p: u64, k: u64, list: &mut [u8], result: &mut [u8]) -> u32;
    fn append(&self, archive: &mut [u8], owner: u64, new: &[u8]) -> u32;
    fn audit(&self, archive: &[u8]) -> u32;
    fn show(&self, archive: &[u8], number: u64) -> u64;
    fn fresh(&self, archive: &mut [u8]) -> u32;
    fn delivery_day(&self, quarter: u64, holidays: &[u32], day: &mut u64) -> u32;
    fn take_back(&self, archive: &mut [u8]) -> u32;
    fn correction(&self, lists: [&[i64]; 3], cents: &mut (i64, u64)) -> u32;
    fn preview(&self, archive: &mut [u8], filed: &Filed, at: (u64, u64), list: &mut [u8], result: &mut [u8]) -> u32;
    /// The program's lines, if this implementation has a program.
    fn program(&self, input: &[u8]) -> io::Result<Option<Vec<u8>>>;
}

/// The plain modules.
struct Plain;

impl Calls for Plain {
    fn settle(&self, archive: &[u8], p: u64, k: u64, list: &mut [u8], result: &mut [u8]) -> u32 {
        reference::host_settle(archive, p, k, list, result)
    }
    fn append(&self, archive: &mut [u8], owner: u64, new: &[u8]) -> u32 {
        reference::append(archive, owner, new)
    }
    fn audit(&self, archive: &[u8]) -> u32 {
        reference::audit(archive)
    }
    fn show(&self, archive: &[u8], number: u64) -> u64 {
        match reference::show(archive, number).len() {
            0 => archive.len() as u64,
            _ => RECORD as u64 * number,
        }
    }
    fn fresh(&self, archive: &mut [u8]) -> u32 {
        reference::fresh(archive)
    }
    fn delivery_day(&self, quarter: u64, holidays: &[u32], day: &mut u64) -> u32 {
        reference::host_delivery_day(quarter, holidays, day)
    }
    fn take_back(&self, archive: &mut [u8]) -> u32 {
        reference::take_back(archive)
    }
    fn correction(&self, [amounts, balanced, prices]: [&[i64]; 3], cents: &mut (i64, u64)) -> u32 {
        reference::host_correction(amounts, balanced, prices, &mut cents.0, &mut cents.1)
    }
    fn preview(
        &self,
        archive: &mut [u8],
        filed: &Filed,
        (p, k): (u64, u64),
        list: &mut [u8],
        result: &mut [u8],
    ) -> u32 {
        reference::host_preview(archive, filed.owner, &filed.new, p, k, list, result)
    }
    fn program(&self, input: &[u8]) -> io::Result<Option<Vec<u8>>> {
        let mut lines = Vec::new();
        reference::program(input, &mut lines)?;
        Ok(Some(lines))
    }
}

impl Calls for Slip {
    fn settle(&self, archive: &[u8], p: u64, k: u64, list: &mut [u8], result: &mut [u8]) -> u32 {
        slips::host_settle(*self, archive, p, k, list, result)
    }
    fn append(&self, archive: &mut [u8], owner: u64, new: &[u8]) -> u32 {
        slips::append(*self, archive, owner, new)
    }
    fn audit(&self, archive: &[u8]) -> u32 {
        slips::audit(*self, archive)
    }
    fn show(&self, archive: &[u8], number: u64) -> u64 {
        slips::show_place(*self, archive, number)
    }
    fn fresh(&self, archive: &mut [u8]) -> u32 {
        slips::fresh(*self, archive)
    }
    fn delivery_day(&self, quarter: u64, holidays: &[u32], day: &mut u64) -> u32 {
        slips::delivery_day(*self, quarter, holidays, day)
    }
    fn take_back(&self, archive: &mut [u8]) -> u32 {
        slips::take_back(*self, archive)
    }
    fn correction(&self, [amounts, balanced, prices]: [&[i64]; 3], cents: &mut (i64, u64)) -> u32 {
        slips::correction(*self, amounts, balanced, prices, &mut cents.0, &mut cents.1)
    }
    fn preview(
        &self,
        archive: &mut [u8],
        filed: &Filed,
        (p, k): (u64, u64),
        list: &mut [u8],
        result: &mut [u8],
    ) -> u32 {
        slips::preview(*self, archive, filed.owner, &filed.new, p, k, list, result)
    }
    fn program(&self, input: &[u8]) -> io::Result<Option<Vec<u8>>> {
        Ok(Some(slips::program(*self, input)))
    }
}

/// The linked library, if there is one, and the program, if it is named.
struct Proved {
    program: Option<String>,
}

#[cfg(feature = "compare")]
impl Calls for Proved {
    fn settle(&self, archive: &[u8], p: u64, k: u64, list: &mut [u8], result: &mut [u8]) -> u32 {
        host::settle(archive, p, k, list, result)
    }
    fn append(&self, archive: &mut [u8], owner: u64, new: &[u8]) -> u32 {
        host::append(archive, owner, new)
    }
    fn audit(&self, archive: &[u8]) -> u32 {
        host::audit(archive)
    }
    fn show(&self, archive: &[u8], number: u64) -> u64 {
        host::show(archive, number)
    }
    fn fresh(&self, archive: &mut [u8]) -> u32 {
        host::fresh(archive)
    }
    fn delivery_day(&self, quarter: u64, holidays: &[u32], day: &mut u64) -> u32 {
        host::delivery_day(quarter, holidays, day)
    }
    fn take_back(&self, archive: &mut [u8]) -> u32 {
        host::take_back(archive)
    }
    fn correction(&self, [amounts, balanced, prices]: [&[i64]; 3], cents: &mut (i64, u64)) -> u32 {
        host::correction(amounts, balanced, prices, &mut cents.0, &mut cents.1)
    }
    fn preview(
        &self,
        archive: &mut [u8],
        filed: &Filed,
        (p, k): (u64, u64),
        list: &mut [u8],
        result: &mut [u8],
    ) -> u32 {
        host::preview(archive, filed.owner, &filed.new, p, k, list, result)
    }
    fn program(&self, input: &[u8]) -> io::Result<Option<Vec<u8>>> {
        self.lines(input)
    }
}

impl Proved {
    fn lines(&self, input: &[u8]) -> io::Result<Option<Vec<u8>>> {
        let program = match &self.program {
            Some(program) => program,
            None => return Ok(None),
        };
        let mut child = Command::new(program).stdin(Stdio::piped()).stdout(Stdio::piped()).spawn()?;
        let mut pipe = child.stdin.take().expect("a piped input");
        let input = input.to_vec();
        // The program may end before it has read everything.
        let writer = thread::spawn(move || drop(pipe.write_all(&input)));
        let output = child.wait_with_output()?;
        writer.join().expect("the writing ends");
        Ok(Some(output.stdout))
    }
}

/// What an implementation makes of an example; nothing if it has no such call.
fn run(calls: &dyn Calls, example: &Example) -> io::Result<Option<Outcome>> {
    let archive = &example.archive[..];
    Ok(Some(match &example.call {
        Call::Settle(Settled { p, k, list, result }) => {
            let (mut list, mut result) = (vec![UNTOUCHED; *list], vec![UNTOUCHED; *result]);
            let number = calls.settle(archive, *p, *k, &mut list, &mut result);
            Outcome::Settled { number, list, result }
        }
        Call::Append(Filed { owner, new }) => {
            let mut later = archive.to_vec();
            let number = calls.append(&mut later, *owner, new);
            Outcome::Changed { number, archive: later }
        }
        Call::TakeBack => {
            let mut later = archive.to_vec();
            let number = calls.take_back(&mut later);
            Outcome::Changed { number, archive: later }
        }
        Call::Fresh => {
            let mut later = archive.to_vec();
            let number = calls.fresh(&mut later);
            Outcome::Changed { number, archive: later }
        }
        Call::Audit => Outcome::Number(calls.audit(archive)),
        Call::Show { number } => Outcome::Shown(calls.show(archive, *number)),
        Call::DeliveryDay { quarter, holidays } => {
            let mut day = UNTOUCHED_DAY;
            let number = calls.delivery_day(*quarter, holidays, &mut day);
            Outcome::Delivered { number, day }
        }
        Call::Correction { amounts, balanced, prices } => {
            let mut cents = UNTOUCHED_CENTS;
            let number = calls.correction([amounts, balanced, prices], &mut cents);
            Outcome::Corrected { number, cents }
        }
        Call::Preview { filed, settled: Settled { p, k, list, result } } => {
            let (mut later, mut list, mut result) =
                (archive.to_vec(), vec![UNTOUCHED; *list], vec![UNTOUCHED; *result]);
            let number = calls.preview(&mut later, filed, (*p, *k), &mut list, &mut result);
            Outcome::Previewed { number, archive: later, list, result }
        }
        Call::Program => match calls.program(archive)? {
            Some(lines) => Outcome::Lines(String::from_utf8_lossy(&lines).into_owned()),
            None => return Ok(None),
        },
    }))
}

/// An outcome in the words of a page, as far as it can be said shortly.
fn in_words(outcome: &Outcome) -> String {
    match outcome {
        Outcome::Settled { number: 0, list, result } | Outcome::Previewed { number: 0, list, result, .. } => {
            let value = |bytes: &[u8]| i64::from_le_bytes(bytes.try_into().expect("8 bytes"));
            let results: Vec<i64> = result.chunks_exact(8).map(value).collect();
            let amounts: Vec<String> =
                list.chunks_exact(8).take(results[0] as usize).map(|place| grouped(value(place))).collect();
            format!("0: {}; total {}; links {}", amounts.join(", "), grouped(results[1]), grouped(results[2]))
        }
        Outcome::Settled { number, .. }
        | Outcome::Previewed { number, .. }
        | Outcome::Changed { number, .. }
        | Outcome::Number(number) => number.to_string(),
        Outcome::Shown(place) => format!("place {place}"),
        Outcome::Delivered { number, day: UNTOUCHED_DAY } => format!("{number}, the day left"),
        Outcome::Delivered { number, day } => format!("{number}: {}", grouped(*day as i64)),
        Outcome::Corrected { number, cents: UNTOUCHED_CENTS } => format!("{number}, cents and remainder left"),
        Outcome::Corrected { number, cents: (whole, rest) } => {
            format!("{number}: {}; remainder {}", grouped(*whole), grouped(*rest as i64))
        }
        Outcome::Lines(lines) => lines.trim_end().replace('\n', " / "),
    }
}

/// A number with its thousands apart.
fn grouped(value: i64) -> String {
    let digits = value.unsigned_abs().to_string();
    let mut text = String::new();
    for (at, digit) in digits.chars().enumerate() {
        if at > 0 && (digits.len() - at) % 3 == 0 {
            text.push(',');
        }
        text.push(digit);
    }
    if value < 0 {
        text.insert(0, '-');
    }
    text
}

/// What the pages hold, in the order in which it is used.
#[derive(Default)]
struct Pages {
    /// Name, length and digest of each archive, length and digest of its output.
    files: Vec<(String, [String; 5])>,
    /// Name and bytes of each dump.
    dumps: Vec<(String, String, Vec<u8>)>,
    /// Name and lines of each output.
    printed: Vec<(String, String, String)>,
    /// Archive, change, call and result of each row.
    rows: Vec<(String, [String; 4])>,
    /// Quarter, holidays and result of each delivery day.
    deliveries: Vec<(String, [String; 3])>,
    /// The cells of each date.
    dates: Vec<(String, [String; 6])>,
    /// The three lists and the result of each correction.
    corrections: Vec<(String, [String; 4])>,
}

/// The cells of a table's row, without the backticks around a whole cell.
fn cells(line: &str) -> Vec<&str> {
    let inner = line.trim().trim_start_matches('|').trim_end_matches('|');
    inner.split('|').map(|cell| cell.trim().trim_matches('`')).collect()
}

impl Pages {
    /// Takes one page: tables of archives, dumps, printed lines and tables of calls.
    fn read(&mut self, folder: &Path, page: &str) -> Result<(), Fault> {
        let text = fs::read_to_string(folder.join("docs").join(page)).map_err(|error| format!("{page}: {error}"))?;
        let lines: Vec<&str> = text.lines().collect();
        let mut columns: Vec<&str> = Vec::new();
        let mut at = 0;
        while at < lines.len() {
            let line = lines[at];
            let place = format!("{page}, line {}", at + 1);
            at += 1;
            if !line.starts_with('|') {
                columns.clear();
                let dump = between(line, "Archive `", "`:");
                let printed = line
                    .find("The program prints for `")
                    .and_then(|start| between(&line[start..], "The program prints for `", "`:"));
                if let Some(name) = dump.or(printed) {
                    let block: Vec<&str> = lines[at + 1..]
                        .iter()
                        .take_while(|line| line.starts_with("    "))
                        .map(|line| line.trim())
                        .collect();
                    at += 1 + block.len();
                    if dump.is_some() {
                        let bytes = dumped(&block).map_err(|fault| format!("{place}: {fault}"))?;
                        self.dumps.push((place, name.to_string(), bytes));
                    } else {
                        self.printed.push((
                            place,
                            name.to_string(),
                            block.iter().map(|line| format!("{line}\n")).collect(),
                        ));
                    }
                }
                continue;
            }
            let row = cells(line);
            if columns.is_empty() {
                columns = row;
                continue;
            }
            if row.len() != columns.len() {
                return Err(format!("{place}: another number of cells than the table has columns"));
            }
            if row.iter().all(|cell| cell.chars().all(|one| one == '-')) {
                continue;
            }
            if let Some(cells) = picked(&columns, &row, FILES) {
                self.files.push((place.clone(), cells));
            }
            if let Some(cells) = picked(&columns, &row, CALLS) {
                self.rows.push((place.clone(), cells));
            }
            if let Some(cells) = picked(&columns, &row, DELIVERIES) {
                self.deliveries.push((place.clone(), cells));
            }
            if let Some(cells) = picked(&columns, &row, CORRECTIONS) {
                self.corrections.push((place.clone(), cells));
            }
            if let Some(cells) = picked(&columns, &row, DATES) {
                self.dates.push((place, cells));
            }
        }
        Ok(())
    }

    /// Archives by name and all examples; the files, dumps and outputs must be what the pages say of them.
    fn examples(&self, folder: &Path) -> Result<(BTreeMap<String, Vec<u8>>, Vec<Example>), Fault> {
        let mut archives = BTreeMap::new();
        let mut outputs = BTreeMap::new();
        let mut examples = Vec::new();
        for (at, [name, length, digest, output_length, output_digest]) in &self.files {
            let read = |ending: &str, length: &str, digest: &str| -> Result<Vec<u8>, Fault> {
                let path = folder.join(format!("examples/{name}.{ending}"));
                let bytes = fs::read(&path).map_err(|error| format!("{at}: {}: {error}", path.display()))?;
                if bytes.len() != number::<usize>(length)? || sha256(&bytes) != digest {
                    let found = format!("{} bytes and SHA-256 {}", bytes.len(), sha256(&bytes));
                    return Err(format!("{at}: {name}.{ending} has {found}"));
                }
                Ok(bytes)
            };
            let archive = read("archive", length, digest)?;
            let lines = String::from_utf8(read("expected", output_length, output_digest)?)
                .map_err(|_| format!("{at}: {name}.expected is no text"))?;
            examples.push(Example {
                at: format!("examples/{name}.expected"),
                archive: archive.clone(),
                call: Call::Program,
                result: if lines.is_empty() { "nothing".into() } else { lines.trim_end().replace('\n', " / ") },
            });
            outputs.insert(name.clone(), lines);
            if archives.insert(name.clone(), archive).is_some() {
                return Err(format!("{at}: archive {name} stands twice"));
            }
        }
        for (at, name, bytes) in &self.dumps {
            if archives.get(name) != Some(bytes) {
                return Err(format!("{at}: the dump is not the archive {name}"));
            }
        }
        for (at, name, lines) in &self.printed {
            if outputs.get(name) != Some(lines) {
                return Err(format!("{at}: the lines are not the output for {name}"));
            }
        }
        for (at, [name, change, words, result]) in &self.rows {
            let fault = |fault: Fault| format!("{at}: {fault}");
            let archive = archives.get(name).ok_or(format!("{at}: no archive {name}"))?;
            let archive = changed(archive, change).map_err(fault)?;
            let call = call(words).map_err(fault)?;
            examples.push(Example { at: at.clone(), archive, call, result: result.clone() });
        }
        for (at, [quarter, holidays, result]) in &self.deliveries {
            let fault = |fault: Fault| format!("{at}: {fault}");
            let quarter = number(quarter).map_err(fault)?;
            let call = Call::DeliveryDay { quarter, holidays: days(holidays).map_err(fault)? };
            examples.push(Example { at: at.clone(), archive: Vec::new(), call, result: result.clone() });
        }
        for (at, [amounts, balanced, prices, result]) in &self.corrections {
            let list = |text: &str| numbers(text).map_err(|fault| format!("{at}: {fault}"));
            let call = Call::Correction { amounts: list(amounts)?, balanced: list(balanced)?, prices: list(prices)? };
            examples.push(Example { at: at.clone(), archive: Vec::new(), call, result: result.clone() });
        }
        Ok((archives, examples))
    }
}

/// A row of dates as the plain calendar has it.
fn dated(quarter: QuarterHour) -> [String; 6] {
    const MONTHS: &str = "January February March April May June July August September October November December";
    const WEEKDAYS: [&str; 7] = ["Monday", "Tuesday", "Wednesday", "Thursday", "Friday", "Saturday", "Sunday"];
    let (day, time) = (quarter.day(), quarter.time());
    let date = day.date();
    let month = MONTHS.split(' ').nth(usize::from(date.month) - 1).expect("twelve months");
    [
        grouped(quarter.0 as i64),
        format!("{} {month} {}", date.day, date.year),
        format!("{}:{:02}", time / 4, time % 4 * 15),
        time.to_string(),
        grouped(day.0 as i64),
        WEEKDAYS[usize::from(day.weekday()) - 1].to_string(),
    ]
}

/// The cells of a row in the named columns, if the table has all of them.
fn picked<const COUNT: usize>(columns: &[&str], row: &[&str], names: [&str; COUNT]) -> Option<[String; COUNT]> {
    let mut found = [(); COUNT].map(|()| String::new());
    for (cell, name) in found.iter_mut().zip(names) {
        *cell = row[columns.iter().position(|&column| column == name)?].to_string();
    }
    Some(found)
}

/// The bytes of a dump: a line for each record, its number, its bytes up to the last that is not 00, its meaning.
fn dumped(block: &[&str]) -> Result<Vec<u8>, Fault> {
    let mut bytes = Vec::new();
    for (number, line) in block.iter().enumerate() {
        let (record, rest) = line.split_once(' ').unwrap_or((line, ""));
        if record_number(record)? != number {
            return Err(format!("not record {number}: {line}"));
        }
        let mut one = hex(rest.split('#').next().unwrap_or(rest))?;
        if one.len() > RECORD {
            return Err(format!("more than 32 bytes: {line}"));
        }
        one.resize(RECORD, 0);
        bytes.extend(one);
    }
    Ok(bytes)
}

fn pages(folder: &Path, program: Option<String>) -> Result<bool, Fault> {
    let mut pages = Pages::default();
    for name in PAGES {
        pages.read(folder, name)?;
    }
    let (archives, examples) = pages.examples(folder)?;
    let proved = Proved { program };
    let failed = |error: io::Error| format!("{error}");
    let mut good = true;
    let mut asked = 0;
    let mut differs = |example: &Example, who: &str, found: &Outcome, says: &str| {
        println!("DIFFERENCE at {}: the page has {says}, {who} has {}", example.at, in_words(found));
        good = false;
    };
    for (at, cells) in &pages.dates {
        let found = dated(QuarterHour(number(&cells[0]).map_err(|fault| format!("{at}: {fault}"))?));
        if *cells != found {
            return Err(format!("{at}: the calendar has {}", found.join(" | ")));
        }
    }
    let mut right = Vec::new();
    for example in &examples {
        let expected = outcome(example).map_err(|fault| format!("{}: {fault}", example.at))?;
        for (who, calls) in [("the plain reference", &Plain as &dyn Calls), ("no slip", &Slip::None)] {
            if let Some(found) = run(calls, example).map_err(failed)? {
                if found != expected {
                    differs(example, who, &found, &example.result);
                }
            }
        }
        #[cfg(feature = "compare")]
        let found = run(&proved, example).map_err(failed)?;
        #[cfg(not(feature = "compare"))]
        let found = match example.call {
            Call::Program => {
                let lines = proved.lines(&example.archive).map_err(failed)?;
                lines.map(|lines| Outcome::Lines(String::from_utf8_lossy(&lines).into_owned()))
            }
            _ => None,
        };
        if let Some(found) = found {
            asked += 1;
            if found != expected {
                differs(example, "the proved code", &found, &example.result);
            }
        }
        right.push(expected);
    }

    let mut fewest = usize::MAX;
    let all: Vec<_> = SLIPS.iter().chain(FURTHER).collect();
    for &&(slip, of, point, what) in &all {
        let mut shown = 0;
        for (example, right) in examples.iter().zip(&right) {
            let found = run(&slip, example).map_err(failed)?;
            shown += usize::from(found.as_ref() != Some(right));
        }
        fewest = fewest.min(shown);
        if shown == 0 {
            println!("NO EXAMPLE SHOWS {slip:?} ({of:?}, {point}): {what}");
            good = false;
        }
    }
    println!(
        "{} archives, {} dumps, {} dates and {} examples on the pages, {asked} of them by the proved code too; {} wrong \
         readings, each shown by at least {fewest}",
        archives.len(),
        pages.dumps.len(),
        pages.dates.len(),
        examples.len(),
        all.len()
    );
    Ok(good)
}

fn main() -> ExitCode {
    let mut arguments = env::args().skip(1);
    let folder = arguments.next().expect("usage: pages FOLDER [PROGRAM]");
    match pages(Path::new(&folder), arguments.next()) {
        Ok(true) => ExitCode::SUCCESS,
        Ok(false) => ExitCode::FAILURE,
        Err(fault) => {
            println!("{fault}");
            ExitCode::FAILURE
        }
    }
}
