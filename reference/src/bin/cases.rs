//! Writes the calls that crates/cases runs, DIR/data/calls, and the lines that it has to print, DIR/stdout.
//!
//! Argument: the directory. Exit status 1 if a refusal number, a pairing or a wrong reading is not reached.
//!
//! A call is 44 bytes, little-endian: which call (4), its three numbers (8 each), and 4 bytes each for how many bytes
//! follow for the archive's start, the archive's size, how many bytes of a new record follow then, and the list's
//! places. Archive and list are otherwise as the calls before left them, so a long archive is written once.
//!
//! Its line has the refusal number, count, total, links and a checksum: settle's of the later list, append's, fresh's
//! and taking back's of the later archive, show's of its part, whose length is the count. Delivery day has the quarter
//! as its first number, the holidays in place of the record, 4 bytes each, and the day as its count. The correction has
//! the counts of amounts and of balanced energies as its numbers, the three lists one after another in place of the
//! record, 8 bytes to a number, the remainder as its count and the cents as its total. The preview has p, k and the
//! owner as its numbers, count, total and links as settle has them, and as checksum that of the later archive with that
//! of the later list mixed in. The third number is 0 in every other call.

use reference::archive::{link, record, used, DATE, FIRST, NONAVAILABLE, RECORD, SECOND};
use reference::builder::*;
use reference::calendar::{first_day, LAST};
use reference::generate::{self, Call, Case, BOUNDED, NUMBERS, SETTLED};
use reference::rng::Rng;
use reference::settle::{first_quarter, reading_places, terms, Answer, Pairing, OCTOBER};
use reference::slips::{self, Of, Slip, FURTHER, SLIPS};
use std::collections::BTreeMap;
use std::fmt::Write;
use std::path::Path;
use std::process::ExitCode;
use std::{env, fs, io};

// What crates/cases has room for.
const ARCHIVE: usize = 131_072;
const PLACES: usize = 4_096;
const HOLIDAYS: usize = 64;
const PRICED: usize = 9_216;

const SEED: u64 = 5;
/// Generated calls looked at.
const LOOKED_AT: u64 = 20_000;
/// The first generated calls of at most `SMALL` bytes are all taken, later ones where they reach something rare.
const TAKEN: usize = 120;
const PREVIEWS_TAKEN: usize = 24;
const SMALL: usize = 640;
const LARGE: usize = 8_192;

const MODULUS: u64 = 10_000_000_000_000_061;

fn mix(sum: u64, number: u64) -> u64 {
    (257 * sum + number % MODULUS) % MODULUS
}

fn sum_of_bytes(bytes: &[u8]) -> u64 {
    bytes.iter().fold(0, |sum, &byte| mix(sum, u64::from(byte)))
}

fn sum_of_list(list: &[i64]) -> u64 {
    list.iter().fold(0, |sum, &amount| mix(sum, amount.rem_euclid(MODULUS as i64) as u64))
}

/// A call on the archive and list as they are.
#[derive(Clone, Copy)]
enum Step<'a> {
    Settle { p: u64, k: u64, places: usize },
    Append { owner: u64, record: &'a [u8] },
    Audit,
    Show { number: u64 },
    Fresh,
    DeliveryDay { quarter: u64, holidays: &'a [u32] },
    TakeBack,
    Correction { amounts: &'a [i64], balanced: &'a [i64], prices: &'a [i64] },
    Preview { owner: u64, record: &'a [u8], p: u64, k: u64, places: usize },
}

use Step::*;

/// What a step reaches: its refusal number or how it shows, the terms that it settles, the wrong readings that it tells.
fn reaches(archive: &[u8], list: &[i64], step: Step) -> Vec<String> {
    let mut reached = Vec::new();
    let mut number = |call: &str, number| reached.push(format!("{call} {number}"));
    let told: Vec<Slip> = match step {
        Settle { p, k, places } => {
            let bytes: Vec<u8> = list[..places].iter().flat_map(|amount| amount.to_le_bytes()).collect();
            let settle = |slip| {
                let (mut list, mut result) = (bytes.clone(), [0; 24]);
                (slips::host_settle(slip, archive, p, k, &mut list, &mut result), list, result)
            };
            let right = settle(Slip::None);
            number("settle", right.0);
            if let (0, Some((pairing, direction, execution))) = (right.0, terms(archive, p, k)) {
                reached.push(settled(pairing, direction, execution));
                if first_quarter(archive, p, k).map_or(false, |first| !reading_places(pairing, first).is_empty()) {
                    reached.push(since_october(pairing, direction, execution));
                }
            }
            told(Of::Settle, |slip| settle(slip) != right)
        }
        Append { owner, record } => {
            let append = |slip| {
                let mut later = archive.to_vec();
                (slips::append(slip, &mut later, owner, record), later)
            };
            let right = append(Slip::None);
            number("append", right.0);
            told(Of::Append, |slip| append(slip) != right)
        }
        Audit => {
            let right = slips::audit(Slip::None, archive);
            number("audit", right);
            told(Of::Audit, |slip| slips::audit(slip, archive) != right)
        }
        Show { number } => {
            reached.push(shows(archive, number).to_string());
            let right = slips::show_place(Slip::None, archive, number);
            told(Of::Show, |slip| slips::show_place(slip, archive, number) != right)
        }
        Fresh => {
            let fresh = |slip| {
                let mut later = archive.to_vec();
                (slips::fresh(slip, &mut later), later)
            };
            let right = fresh(Slip::None);
            number("fresh", right.0);
            told(Of::Fresh, |slip| fresh(slip) != right)
        }
        DeliveryDay { quarter, holidays } => {
            let delivery_day = |slip| {
                let mut day = 0;
                (slips::delivery_day(slip, quarter, holidays, &mut day), day)
            };
            let right = delivery_day(Slip::None);
            number("delivery day", right.0);
            told(Of::DeliveryDay, |slip| delivery_day(slip) != right)
        }
        TakeBack => {
            let take_back = |slip| {
                let mut later = archive.to_vec();
                (slips::take_back(slip, &mut later), later)
            };
            let right = take_back(Slip::None);
            number("take back", right.0);
            told(Of::TakeBack, |slip| take_back(slip) != right)
        }
        Correction { amounts, balanced, prices } => {
            let correction = |slip| {
                let (mut cents, mut remainder) = (0, 0);
                let number = slips::correction(slip, amounts, balanced, prices, &mut cents, &mut remainder);
                (number, cents, remainder)
            };
            let right = correction(Slip::None);
            number("correction", right.0);
            told(Of::Correction, |slip| correction(slip) != right)
        }
        Preview { owner, record, p, k, places } => {
            let bytes: Vec<u8> = list[..places].iter().flat_map(|amount| amount.to_le_bytes()).collect();
            let preview = |slip| {
                let (mut later, mut list, mut result) = (archive.to_vec(), bytes.clone(), [0; 24]);
                let number = slips::preview(slip, &mut later, owner, record, p, k, &mut list, &mut result);
                (number, later, list, result)
            };
            let right = preview(Slip::None);
            number("preview", right.0);
            told(Of::Preview, |slip| preview(slip) != right)
        }
    };
    reached.extend(told.iter().map(|slip| format!("{slip:?}")));
    reached
}

fn told(of: Of, differs: impl Fn(Slip) -> bool) -> Vec<Slip> {
    let all = SLIPS.iter().chain(FURTHER);
    all.filter(|&&(slip, own, _, _)| own == of && differs(slip)).map(|&(slip, _, _, _)| slip).collect()
}

fn settled(pairing: Pairing, direction: u8, execution: u8) -> String {
    format!("{pairing:?} {} execution {execution}", if direction == 1 { "positive" } else { "negative" })
}

fn since_october(pairing: Pairing, direction: u8, execution: u8) -> String {
    format!("{} since October 2026", settled(pairing, direction, execution))
}

const SHOWS: [&str; 3] = ["show: a record", "show: empty on 1", "show: empty from U on"];

fn shows(archive: &[u8], number: u64) -> &'static str {
    match used(archive) {
        Ok(used) if number < used => SHOWS[0],
        Err(_) => SHOWS[1],
        Ok(_) => SHOWS[2],
    }
}

/// Wrong readings that show only in the C entry, and those of the program.
fn elsewhere(slip: Slip, of: Of) -> bool {
    use Slip::*;
    of == Of::Program
        || matches!(slip, ResultFirst | ResultLonger | ZeroedResult | RaggedPlace | ListWritten | DueWritten)
        || matches!(slip, CentsWritten | CentsRemainderWritten | CentsEmptyKept)
        || matches!(slip, PreviewResultFirst | PreviewResultSecond | PreviewResultLonger | PreviewListWritten)
        || matches!(slip, PreviewResultZeroed | PreviewResultZeroedAppend)
}

/// Everything that has to be reached, and how often a generated call is taken for it.
fn wanted() -> Vec<(String, u64)> {
    let mut wanted = Vec::new();
    for (call, numbers) in NUMBERS {
        let share = |number| match (call, number) {
            ("preview", 0) => 18,
            ("preview", _) => 3,
            _ => 6,
        };
        wanted.extend(numbers.iter().map(|&number| (format!("{call} {number}"), share(number))));
    }
    wanted.extend(SHOWS.map(|how| (how.to_string(), 4)));
    for (pairing, direction) in SETTLED {
        wanted.extend((1..=3).map(|execution| (settled(pairing, direction, execution), 4)));
    }
    for (pairing, direction) in BOUNDED {
        wanted.extend((1..=3).map(|execution| (since_october(pairing, direction, execution), 2)));
    }
    for &(slip, of, _, _) in SLIPS {
        if !elsewhere(slip, of) {
            wanted.push((format!("{slip:?}"), if of == Of::Preview { 1 } else { 2 }));
        }
    }
    // Of the further ones those of taking back and of the correction.
    let further = FURTHER.iter().filter(|&&(_, of, _, _)| matches!(of, Of::TakeBack | Of::Correction));
    let further = further.filter(|&&(slip, of, _, _)| !elsewhere(slip, of));
    wanted.extend(further.map(|(slip, _, _, _)| (format!("{slip:?}"), 1)));
    wanted
}

struct Cases {
    archive: Vec<u8>,
    list: Vec<i64>,
    calls: Vec<u8>,
    lines: String,
    reached: BTreeMap<String, u64>,
    /// The archive of 2,976 quarters.
    long: Vec<u8>,
}

impl Cases {
    /// Bytes for the archive's start, the archive's size and the call.
    fn run(&mut self, given: &[u8], size: usize, step: Step) {
        self.archive[..given.len()].copy_from_slice(given);
        for what in reaches(&self.archive[..size], &self.list, step) {
            *self.reached.entry(what).or_default() += 1;
        }
        let none = Vec::new();
        let mut third: u64 = 0;
        let (name, first, second, record, places): (u32, u64, u64, Vec<u8>, usize) = match step {
            Settle { p, k, places } => (1, p, k, none, places),
            Append { owner, record } => (2, owner, 0, record.to_vec(), 0),
            Audit => (3, 0, 0, none, 0),
            Show { number } => (4, number, 0, none, 0),
            Fresh => (5, 0, 0, none, 0),
            DeliveryDay { quarter, holidays } => {
                assert!(holidays.len() <= HOLIDAYS);
                (6, quarter, 0, holidays.iter().flat_map(|day| day.to_le_bytes()).collect(), 0)
            }
            TakeBack => (7, 0, 0, none, 0),
            Correction { amounts, balanced, prices } => {
                let numbers = [amounts, balanced, prices].concat();
                assert!(numbers.len() <= PRICED);
                let record = numbers.iter().flat_map(|number| number.to_le_bytes()).collect();
                (8, amounts.len() as u64, balanced.len() as u64, record, 0)
            }
            Preview { owner, record, p, k, places } => {
                third = owner;
                (9, p, k, record.to_vec(), places)
            }
        };
        self.calls.extend(name.to_le_bytes());
        for number in [first, second, third] {
            self.calls.extend(number.to_le_bytes());
        }
        for length in [given.len(), size, record.len(), places] {
            self.calls.extend((length as u32).to_le_bytes());
        }
        self.calls.extend(given);
        self.calls.extend(&record);

        let (archive, list) = (&mut self.archive[..size], &mut self.list[..places]);
        let (answer, sum) = match step {
            Settle { p, k, .. } => (reference::settle(archive, p, k, list), sum_of_list(list)),
            Append { owner, .. } => {
                let number = reference::append(archive, owner, &record);
                (Answer::refused(number), sum_of_bytes(archive))
            }
            Audit => (Answer::refused(reference::audit(archive)), 0),
            Show { number } => {
                let part = reference::show(archive, number);
                (Answer { count: part.len() as u64, ..Answer::refused(0) }, sum_of_bytes(part))
            }
            Fresh => {
                let number = reference::fresh(archive);
                (Answer::refused(number), sum_of_bytes(archive))
            }
            DeliveryDay { quarter, holidays } => {
                let mut day = 0;
                let number = reference::host_delivery_day(quarter, holidays, &mut day);
                (Answer { count: day, ..Answer::refused(number) }, 0)
            }
            TakeBack => {
                let number = reference::take_back(archive);
                (Answer::refused(number), sum_of_bytes(archive))
            }
            Correction { amounts, balanced, prices } => {
                let (mut cents, mut remainder) = (0, 0);
                let number = reference::host_correction(amounts, balanced, prices, &mut cents, &mut remainder);
                (Answer { count: remainder, total: cents, ..Answer::refused(number) }, 0)
            }
            Preview { owner, p, k, .. } => {
                let answer = reference::preview(archive, owner, &record, p, k, list);
                (answer, mix(sum_of_bytes(archive), sum_of_list(list)))
            }
        };
        let Answer { number, count, total, links } = answer;
        writeln!(self.lines, "{number} {count} {total} {links} {sum}").expect("a string takes every line");
    }

    /// Generated calls that reach what fewer than its share of calls have reached; the first `all` whatever they reach.
    /// Previews are taken apart, behind the other calls.
    fn generated(&mut self, made: fn(u64, u64) -> Case, wanted: &[(String, u64)], most: usize, mut all: usize) {
        for index in 0..LOOKED_AT {
            let call = made(SEED, index).call;
            let (archive, step): (&[u8], Step) = match &call {
                Call::Settle { archive, p, k, list, .. } => (archive, Settle { p: *p, k: *k, places: list.len() / 8 }),
                Call::Append { archive, owner, record } => (archive, Append { owner: *owner, record }),
                Call::Audit { archive } => (archive, Audit),
                Call::Show { archive, number } => (archive, Show { number: *number }),
                Call::Fresh { archive } => (archive, Fresh),
                Call::DeliveryDay { quarter, holidays } => (&[], DeliveryDay { quarter: *quarter, holidays }),
                Call::TakeBack { archive } => (archive, TakeBack),
                Call::Correction { amounts, balanced, prices } => (&[], Correction { amounts, balanced, prices }),
                Call::Preview { archive, owner, record, p, k, list, .. } => {
                    (archive, Preview { owner: *owner, record, p: *p, k: *k, places: list.len() / 8 })
                }
            };
            let length = match step {
                Correction { amounts, balanced, prices } => 8 * (amounts.len() + balanced.len() + prices.len()),
                _ => archive.len(),
            };
            if length > most {
                continue;
            }
            let reached = reaches(archive, &self.list, step);
            let rare = |(what, times): &(String, u64)| {
                reached.contains(what) && self.reached.get(what).copied().unwrap_or(0) < *times
            };
            if all > 0 || wanted.iter().any(rare) {
                all = all.saturating_sub(1);
                self.run(archive, archive.len(), step);
            }
        }
    }

    /// A plant filed record by record into a fresh archive, audited, settled and shown; the last records taken back, of
    /// wind Spitz all of them. Measures whose readings request 3 reads are from October 2026.
    fn filed(&mut self, pairing: Pairing, direction: u8, rng: &mut Rng) {
        let mut sheet = sheet(pairing, direction, 7, rng);
        if !reading_places(pairing, OCTOBER).is_empty() {
            sheet.measures[0].first = OCTOBER as u32;
        }
        let measure = &sheet.measures[0];
        let size = RECORD * 18;
        let file = |cases: &mut Cases, owner, record: &[u8]| cases.run(&[], size, Append { owner, record });
        self.run(&[], size, Fresh);
        file(self, 0, &plant_record(&sheet, rng, true));
        file(self, 1, &measure_record(measure, rng, true));
        for at in 0..7 {
            file(self, 2, &quarter_record(&measure.quarters[at], rng, true));
            if let Some(before) = measure.before.get(at) {
                file(self, 2, &before_record(before, rng, true));
            }
            if let Some(point) = sheet.curve.get(at) {
                file(self, 1, &point_record(point, rng, true));
            }
        }
        self.run(&[], size, Audit);
        self.run(&[], size, Settle { p: 1, k: 1, places: 7 });
        for number in [0, 1, 2, 17] {
            self.run(&[], size, Show { number });
        }
        let quarter = quarter_record(&measure.quarters[0], rng, true);
        file(self, 2, &quarter);
        self.run(&[], size, TakeBack);
        self.run(&[], size, Settle { p: 1, k: 1, places: 7 });
        file(self, 2, &quarter);
        for _ in 0..if pairing == Pairing::WindSpitz { 18 } else { 2 } {
            self.run(&[], size, TakeBack);
        }
        self.run(&[], size, Audit);
    }

    /// A chain of 2,975 to 2,978 quarters in every pairing, direction and execution, on both sides of October 2026; the
    /// last ones taken back, and those beside record 256.
    fn long(&mut self, rng: &mut Rng) {
        let plant = sheet(Pairing::WindSpitz, 2, 2_975, rng);
        let quarter = quarter_record(&plant.measures[0].quarters[0], rng, true);
        let filed = file(&[plant], &Layout { spare: 3, noise: true, ..Layout::PLAIN }, rng);
        let (size, measure) = (filed.bytes.len(), filed.plants[0].measures[0].number);
        let settle = |places| Settle { p: 1, k: 1, places };
        let append = Append { owner: measure, record: &quarter };
        let mut wide = quarter;
        wide[NONAVAILABLE..NONAVAILABLE + 4].copy_from_slice(&1_000_000_001u32.to_le_bytes());
        self.run(&filed.bytes, size, settle(2_974));
        self.run(&[], size, settle(2_975));
        self.run(&[], size, append);
        self.run(&[], size, Audit);
        let at = RECORD * measure as usize;
        let start = |archive: &[u8], pairing, direction, execution, first: u64| {
            let mut start = archive[..at + RECORD].to_vec();
            (start[RECORD + 1], start[RECORD + 2]) = numbers(pairing);
            (start[at + 1], start[at + 2]) = (direction, execution);
            start[at + DATE..at + DATE + 4].copy_from_slice(&(first as u32).to_le_bytes());
            start
        };
        for (pairing, direction) in SETTLED {
            for execution in 1..=3 {
                let start = start(&self.archive, pairing, direction, execution, 0);
                self.run(&start, size, settle(2_976));
            }
        }
        for (pairing, direction) in BOUNDED {
            for (execution, first) in [(1, OCTOBER - 1), (1, OCTOBER), (2, OCTOBER), (3, OCTOBER)] {
                let start = start(&self.archive, pairing, direction, execution, first);
                self.run(&start, size, settle(2_976));
            }
        }
        // Solar Pauschal up to the calendar's end, a quarter too far, over edges of seasons and years, undated again.
        let before = |year, month| first_day(year, month).midnight().0 - 1_440;
        for first in [LAST.0 - 2_975, LAST.0 - 2_974, before(2026, 11), before(2028, 3), before(2027, 1), 0] {
            let start = start(&self.archive, Pairing::SolarPauschal, 2, 3, first);
            self.run(&start, size, settle(2_976));
        }
        // 8 comes before the 9 of a reading.
        self.run(&[], size, Append { owner: measure, record: &wide });
        self.run(&[], size, settle(2_977));
        let since = start(&self.archive, Pairing::WindPauschal, 2, 3, OCTOBER);
        self.run(&since, size, settle(2_977));
        // The last quarter falls behind U: 2 comes before 8.
        let head = self.archive[..RECORD].to_vec();
        let mut fewer = head.clone();
        fewer[4] -= 1;
        self.run(&fewer, size, settle(2_977));
        self.run(&[], size, Audit);
        self.run(&head, size, append);
        self.run(&[], size, append);
        self.run(&[], size, Audit);
        self.run(&[], size, Show { number: (size / RECORD) as u64 - 1 });
        self.run(&[], size, TakeBack);
        self.run(&[], size, Audit);
        self.run(&[], size, TakeBack);
        self.run(&[], size, settle(2_976));
        self.long = self.archive[..size].to_vec();
        let mut fewer = self.archive[..RECORD].to_vec();
        fewer[4..8].copy_from_slice(&257u32.to_le_bytes());
        self.run(&fewer, size, TakeBack);
        self.run(&[], size, TakeBack);
        self.run(&[], size, Audit);
    }

    /// A correction, which needs no archive.
    fn correct(&mut self, amounts: &[i64], balanced: &[i64], prices: &[i64]) {
        self.run(&[], 0, Correction { amounts, balanced, prices });
    }

    /// Request 5's own figures, a day's correction, and corrections of 2,976 and 2,977 quarters.
    fn corrected(&mut self, rng: &mut Rng) {
        self.correct(&[-1], &[0], &[1]);
        self.correct(&[-1; 3], &[0; 3], &[1; 3]);
        self.correct(&[], &[], &[]);
        let mut any = |count, least, most| (0..count).map(|_| rng.range(least, most)).collect::<Vec<i64>>();
        self.correct(&any(96, 0, 500_000), &any(96, 0, 500_000), &any(96, -5_000, 30_000));
        // The largest sum but for a Wh and a cent in the last quarter, then a sum not far above the least.
        let (mut amounts, balanced, mut prices) =
            (vec![1_000_000_000; 2_977], vec![-1_000_000_000; 2_977], vec![1_000_000; 2_977]);
        (amounts[2_975], prices[2_975]) = (999_999_999, 999_999);
        self.correct(&amounts[..2_976], &balanced[..2_976], &prices[..2_976]);
        let low = any(2_976, -1_000_000_000, -990_000_000);
        self.correct(&low, &any(2_976, 990_000_000, 1_000_000_000), &any(2_976, 990_000, 1_000_000));
        // Too many quarters: alone, beside a bad price, and in one list alone.
        self.correct(&amounts, &balanced, &prices);
        prices[0] = 1_000_001;
        self.correct(&amounts, &balanced, &prices);
        self.correct(&amounts, &[], &prices[..1]);
    }

    /// A quarter of case a seen before and after it is filed, then at the limits of the chains.
    fn previewed(&mut self, rng: &mut Rng) {
        let mut sheet = case_a();
        let last = sheet.measures[0].quarters.pop().expect("three quarters");
        let filed = file(&[sheet], &Layout { spare: 1, noise: true, ..Layout::PLAIN }, rng);
        let record = quarter_record(&last, rng, true);
        let (size, owner) = (filed.bytes.len(), filed.plants[0].measures[0].number);
        let ahead = |places| Preview { owner, record: &record, p: 1, k: 1, places };
        self.run(&filed.bytes, size, ahead(3));
        self.run(&[], size, ahead(2));
        self.run(&[], size, Settle { p: 1, k: 1, places: 3 });
        self.run(&[], size, Append { owner, record: &record });
        self.run(&[], size, Settle { p: 1, k: 1, places: 3 });
        self.run(&[], size, ahead(4));

        // The long chain again, of which the calls behind it left all but the start: a 2,977th quarter, a 2,976th.
        let long = std::mem::take(&mut self.long);
        let (size, owner) = (long.len(), first_measure(&long));
        let ahead = |places| Preview { owner, record: &record, p: 1, k: 1, places };
        self.run(&long[..LARGE + RECORD], size, ahead(2_977));
        assert!(self.archive[..size] == long, "the long chain");
        self.run(&[], size, TakeBack);
        self.run(&[], size, ahead(2_976));
        self.run(&[], size, ahead(2_975));
    }
}

/// The first plant's first measure.
fn first_measure(archive: &[u8]) -> u64 {
    let plant = record(archive, link(archive, FIRST));
    link(plant, SECOND)
}

/// Technology and variant.
fn numbers(pairing: Pairing) -> (u8, u8) {
    match pairing {
        Pairing::WindSpitz => (1, 1),
        Pairing::WindPauschal => (1, 2),
        Pairing::SolarSpitz => (2, 1),
        Pairing::SolarPauschal => (2, 2),
        Pairing::OtherSpitz => (3, 1),
        Pairing::OtherPauschal => (3, 2),
    }
}

/// A plant with three curve points and one measure of four before-quarters, whose fields suit every pairing.
fn sheet(pairing: Pairing, direction: u8, quarters: usize, rng: &mut Rng) -> Plant {
    let (technology, variant) = numbers(pairing);
    let curve = [(30, 0), (120, 1_400_001), (250, 1_999_999)];
    let before = |rng: &mut Rng| Before {
        mark: 1,
        measured: rng.range(300_000, 1_900_000) as i32,
        weather: rng.range(40, 240) as i32,
    };
    let reading = |rng: &mut Rng| if rng.chance(40) { i32::MAX } else { rng.range(-200_000, 2_000_000) as i32 };
    let quarter = |at: usize, rng: &mut Rng| Quarter {
        month: 1 + (at / 96 % 12) as u8,
        time: (at % 96) as u8,
        measured: rng.range(-100_000, 900_000) as i32,
        limit: rng.range(0, 900_000) as i32,
        weather: rng.range(20, 260) as i32,
        planned: rng.range(0, 2_000_000) as i32,
        nonavailable: reading(rng),
        adjusted: reading(rng),
    };
    let measure = Measure {
        direction,
        execution: rng.range(1, 3) as u8,
        first: 0,
        before: (0..4).map(|_| before(rng)).collect(),
        quarters: (0..quarters).map(|at| quarter(at, rng)).collect(),
    };
    Plant {
        technology,
        variant,
        nominal: 2_000_000,
        curve: curve.map(|(speed, power)| Point { speed, power }).to_vec(),
        measures: vec![measure],
    }
}

fn main() -> io::Result<ExitCode> {
    let directory = env::args().nth(1).expect("usage: cases DIR");
    let wanted = wanted();
    let mut cases = Cases {
        archive: vec![0; ARCHIVE],
        list: vec![0; PLACES],
        calls: Vec::new(),
        lines: String::new(),
        reached: BTreeMap::new(),
        long: Vec::new(),
    };
    cases.generated(generate::other_call, &wanted, SMALL, TAKEN);
    let rng = &mut Rng::new(SEED, 0);
    for (pairing, direction) in SETTLED {
        cases.filed(pairing, direction, rng);
    }
    cases.long(rng);
    cases.corrected(rng);
    // What no small archive reaches.
    cases.generated(generate::other_call, &wanted, LARGE, 0);
    cases.generated(generate::preview, &wanted, SMALL, PREVIEWS_TAKEN);
    cases.previewed(rng);
    cases.generated(generate::preview, &wanted, LARGE, 0);

    let directory = Path::new(&directory);
    fs::create_dir_all(directory.join("data"))?;
    fs::write(directory.join("data/calls"), &cases.calls)?;
    fs::write(directory.join("stdout"), &cases.lines)?;
    let mut status = ExitCode::SUCCESS;
    for (what, _) in &wanted {
        if !cases.reached.contains_key(what) {
            println!("MISSED: {what}");
            status = ExitCode::FAILURE;
        }
    }
    println!("{} calls in {} bytes, {} situations", cases.lines.lines().count(), cases.calls.len(), wanted.len());
    Ok(status)
}
