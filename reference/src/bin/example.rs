//! Writes document 01's printed example, case a: DIR/archive, the program's lines for it, DIR/program, and what
//! examples/host.c has to print, DIR/host. DIR/dated is what examples/dated.c has to print: a dated measure and a
//! delivery day of request 1. DIR/takeback is what examples/takeback.c has to print: a quarter filed under the wrong
//! measure, taken back and filed under its own. DIR/correction is what examples/correction.c has to print: a measure's
//! financial correction, of each quarter and of all. DIR/preview is what examples/preview.c has to print: what a measure
//! would give with one more quarter, before and after that is filed.

use reference::archive::RECORD;
use reference::builder::*;
use reference::calendar::{first_day, Day};
use reference::rng::Rng;
use reference::settle::Answer;
use std::fmt::Write;
use std::path::Path;
use std::{env, fs, io};

const TAKES: &str = "a string takes every line";
const ALLOWED: &str = "energies and prices in range";

fn archive_of(plant: Plant) -> Vec<u8> {
    file(&[plant], &Layout::PLAIN, &mut Rng::new(0, 0)).bytes
}

/// Solar Pauschal, 1 MW: four quarters from 15 December 2026, 8:45, on. New Year and Epiphany are listed.
fn dated() -> String {
    let first = Day(first_day(2026, 12).0 + 14).midnight().0 + 35;
    let measure = Measure {
        direction: 2,
        execution: 2,
        first: first as u32,
        before: Vec::new(),
        quarters: [0, 100_000, 100_000, 120_000].map(|measured| Quarter { measured, ..Quarter::default() }).to_vec(),
    };
    let plant = Plant { technology: 2, variant: 2, nominal: 1_000_000, curve: Vec::new(), measures: vec![measure] };
    let mut list = [0; 4];
    assert_eq!(reference::settle(&archive_of(plant), 1, 1, &mut list).number, 0);

    let january = first_day(2027, 1).0 as u32;
    let found = Day(reference::delivery_day(first, &[january, january + 5]).expect("a quarter of the calendar"));
    let date = found.date();
    let mut text = String::new();
    for (number, amount) in (first..).zip(list) {
        writeln!(text, "quarter {number}: {amount} Wh").expect(TAKES);
    }
    writeln!(text, "delivery day {}, {}-{:02}-{:02}", found.0, date.year, date.month, date.day).expect(TAKES);
    text
}

/// The count and total of both measures, under a line that says when.
fn both_measures(text: &mut String, when: &str, archive: &[u8]) {
    writeln!(text, "{when}").expect(TAKES);
    for k in 1..=2 {
        let mut list = [0; 3];
        let answer = reference::settle(archive, 1, k, &mut list);
        assert_eq!(answer.number, 0);
        writeln!(text, "  measure {k}: quarters {}, total {} Wh", answer.count, answer.total).expect(TAKES);
    }
}

/// Other Pauschal, 1 MW: two measures of one plant, in 11 records.
fn taken_back() -> String {
    let mut archive = vec![0; 11 * RECORD];
    assert_eq!(reference::fresh(&mut archive), 0);
    let rng = &mut Rng::new(0, 0);
    let append = |archive: &mut [u8], owner, record: &[u8]| {
        assert_eq!(reference::append(archive, owner, record), 0);
    };
    let plant = Plant { technology: 3, variant: 2, nominal: 1_000_000, curve: Vec::new(), measures: Vec::new() };
    let measure = Measure { direction: 2, execution: 2, first: 0, before: Vec::new(), quarters: Vec::new() };
    append(&mut archive, 0, &plant_record(&plant, rng, false));
    append(&mut archive, 1, &measure_record(&measure, rng, false));
    append(&mut archive, 1, &measure_record(&measure, rng, false));
    for (owner, measured) in [(2, 800_000), (3, 600_000)] {
        append(&mut archive, owner, &before_record(&Before { mark: 1, measured, weather: 0 }, rng, false));
    }
    let quarter = |time, measured| {
        quarter_record(&Quarter { month: 7, time, measured, ..Quarter::default() }, &mut Rng::new(0, 0), false)
    };
    append(&mut archive, 2, &quarter(40, 500_001));
    append(&mut archive, 2, &quarter(41, 500_001));
    append(&mut archive, 3, &quarter(44, 300_002));

    let mut text = String::new();
    both_measures(&mut text, "as filed", &archive);
    let before = archive.clone();
    let mistaken = quarter(42, 500_002);
    append(&mut archive, 3, &mistaken);
    both_measures(&mut text, "a quarter under the wrong measure", &archive);
    assert_eq!(reference::take_back(&mut archive), 0);
    assert_eq!(archive, before);
    both_measures(&mut text, "taken back: every byte as before", &archive);
    append(&mut archive, 2, &mistaken);
    both_measures(&mut text, "under its own measure", &archive);
    text
}

/// Wind Pauschal, 2 MW: four quarters with their balanced energies and prices.
fn corrected() -> String {
    let measure = Measure {
        direction: 2,
        execution: 2,
        first: 0,
        before: vec![Before { mark: 1, measured: 1_500_000, weather: 0 }],
        quarters: [200_001, 200_001, 250_002, 600_003]
            .map(|measured| Quarter { measured, ..Quarter::default() })
            .to_vec(),
    };
    let plant = Plant { technology: 1, variant: 2, nominal: 2_000_000, curve: Vec::new(), measures: vec![measure] };
    let balanced = [300_000, 330_000, 320_000, 225_000];
    let prices = [8_950, 9_125, -1_234, 4_210];
    let mut amounts = [0; 4];
    assert_eq!(reference::settle(&archive_of(plant), 1, 1, &mut amounts).number, 0);

    let millionths = |cents: i64, remainder: u64| 1_000_000 * cents + remainder as i64;
    let (mut cents_added, mut millionths_added) = (0, 0);
    let mut text = String::new();
    for at in 0..4 {
        let (amount, balanced, price) = (amounts[at], balanced[at], prices[at]);
        let (cents, remainder) = reference::correction(&[amount], &[balanced], &[price]).expect(ALLOWED);
        let gap = amount - balanced;
        write!(text, "quarter {}: amount {amount} Wh, balanced {balanced} Wh, gap {gap} Wh, ", at + 1).expect(TAKES);
        writeln!(text, "price {price} cents per MWh: cents {cents}, remainder {remainder}").expect(TAKES);
        cents_added += cents;
        millionths_added += millionths(cents, remainder);
    }
    let (cents, remainder) = reference::correction(&amounts, &balanced, &prices).expect(ALLOWED);
    let exact = millionths(cents, remainder);
    // The example is to show this.
    assert!(cents != cents_added && exact == millionths_added);
    writeln!(text, "measure: cents {cents}, remainder {remainder}; in millionths of a cent {exact}").expect(TAKES);
    writeln!(text, "quarters added up: cents {cents_added}; in millionths of a cent {millionths_added}").expect(TAKES);
    let number = reference::correction(&amounts, &balanced, &prices[..3]).expect_err("unequal lists are refused");
    let says = "the lists of amounts, balanced energies and prices are not equally long";
    writeln!(text, "a price short: refused with {number}, {says}").expect(TAKES);
    text
}

/// Count, total, links and amounts, or the refusal in words.
fn looked_at(text: &mut String, when: &str, answer: Answer, list: &[i64]) {
    let Answer { number, count, total, links } = answer;
    match number {
        0 => {
            writeln!(text, "{when}: quarters {count}, total {total} Wh, links {links}").expect(TAKES);
            for (place, amount) in (1..=count).zip(list) {
                writeln!(text, "  quarter {place}: {amount} Wh").expect(TAKES);
            }
        }
        9 => writeln!(text, "{when}: refused with 9, a needed field is out of range").expect(TAKES),
        16 => writeln!(text, "{when}: refused with 16, the archive has no unused record left").expect(TAKES),
        _ => unreachable!("the example has no other refusal"),
    }
}

/// Other Pauschal, 1 MW: case a in 7 records, its last quarter seen before it is filed. Unused records hold old bytes.
fn previewed() -> String {
    let mut archive = vec![0; 7 * RECORD];
    assert_eq!(reference::fresh(&mut archive), 0);
    archive[RECORD..].fill(9);
    let rng = &mut Rng::new(0, 0);
    let append = |archive: &mut [u8], owner, record: &[u8]| {
        assert_eq!(reference::append(archive, owner, record), 0);
    };
    let plant = Plant { technology: 3, variant: 2, nominal: 1_000_000, curve: Vec::new(), measures: Vec::new() };
    let measure = Measure { direction: 2, execution: 2, first: 0, before: Vec::new(), quarters: Vec::new() };
    append(&mut archive, 0, &plant_record(&plant, rng, false));
    append(&mut archive, 1, &measure_record(&measure, rng, false));
    append(&mut archive, 2, &before_record(&Before { mark: 1, measured: 800_000, weather: 0 }, rng, false));
    let quarter = |time, measured| {
        quarter_record(&Quarter { month: 7, time, measured, ..Quarter::default() }, &mut Rng::new(0, 0), false)
    };
    append(&mut archive, 2, &quarter(40, 500_001));
    append(&mut archive, 2, &quarter(41, 500_001));

    let mut text = String::new();
    let mut list = [0; 4];
    let answer = reference::settle(&archive, 1, 1, &mut list);
    looked_at(&mut text, "now", answer, &list);
    // The archive is only read, so every byte is as before.
    let third = quarter(42, 500_002);
    let answer = reference::preview(&archive, 2, &third, 1, 1, &mut list);
    looked_at(&mut text, "with one more quarter", answer, &list);
    let wide = 1_000_000_001;
    let answer = reference::preview(&archive, 2, &quarter(42, wide), 1, 1, &mut list);
    looked_at(&mut text, &format!("with a measured power of {wide} W"), answer, &list);
    writeln!(text, "after the previews: every byte as before").expect(TAKES);
    append(&mut archive, 2, &third);
    let answer = reference::settle(&archive, 1, 1, &mut list);
    looked_at(&mut text, "filed", answer, &list);
    let answer = reference::preview(&archive, 2, &quarter(43, 500_002), 1, 1, &mut list);
    looked_at(&mut text, "with yet another quarter", answer, &list);
    text
}

fn main() -> io::Result<()> {
    let directory = env::args().nth(1).expect("usage: example DIR");
    let directory = Path::new(&directory);
    let archive = archive_of(case_a());
    let mut lines = Vec::new();
    reference::program(&archive, &mut lines)?;

    let mut list = [0; 3];
    let answer = reference::settle(&archive, 1, 1, &mut list);
    let mut host = format!("quarters {}, total {} Wh, links {}\n", answer.count, answer.total, answer.links);
    for (at, amount) in list.iter().enumerate() {
        writeln!(host, "quarter {}: {amount} Wh", at + 1).expect(TAKES);
    }

    fs::create_dir_all(directory)?;
    fs::write(directory.join("archive"), archive)?;
    fs::write(directory.join("program"), lines)?;
    fs::write(directory.join("host"), host)?;
    fs::write(directory.join("dated"), dated())?;
    fs::write(directory.join("takeback"), taken_back())?;
    fs::write(directory.join("correction"), corrected())?;
    fs::write(directory.join("preview"), previewed())
}
