//! The same calls written for speed, as a yardstick. No heap, one walk over the quarters, 64-bit carry.
//!
//! Short measures are booked with a small store and a walk along the curve's points; longer ones go on with a table
//! of 1,001 powers and a store for 2,976 amounts. Nothing goes to the list before the last test. The correction is one
//! pass over the lists, with a second one only where a number isn't an ordinary one. The preview files the record in
//! place and takes it off again.

use crate::calendar::LAST;
use crate::program::MOST_BYTES;
use crate::settle::Answer;
use std::io::{self, Write};
use std::ops::Index;

type Record = [u8; 32];

/// Bytes as records.
#[derive(Clone, Copy)]
struct Records<'a>(&'a [u8]);

impl<'a> Records<'a> {
    #[inline(always)]
    fn get(self, number: usize) -> Option<&'a Record> {
        self.0.get(32 * number..32 * number + 32)?.try_into().ok()
    }

    #[inline(always)]
    fn len(self) -> usize {
        self.0.len() / 32
    }
}

impl Index<usize> for Records<'_> {
    type Output = Record;

    #[inline(always)]
    fn index(&self, number: usize) -> &Record {
        self.get(number).expect("a record of the archive")
    }
}

const MOST_QUARTERS: usize = 2_976;
/// Quarters booked before table and large store are made.
const SMALL: usize = 16;
/// Curves with more points than this get the table from the start.
const SMALL_CURVE: usize = 24;
const LIMIT: i32 = 1_000_000_000;
/// The first quarter from which request 3's rules hold.
const OCTOBER: u32 = crate::settle::OCTOBER as u32;

#[inline(always)]
fn int(record: &Record, at: usize) -> i32 {
    i32::from_le_bytes([record[at], record[at + 1], record[at + 2], record[at + 3]])
}

#[inline(always)]
fn link(record: &Record, at: usize) -> u32 {
    int(record, at) as u32
}

/// The used records, or refusal 1. With only these in sight, "below U" is the bounds check.
#[inline(always)]
fn used_records(archive: &[u8]) -> Result<Records<'_>, u32> {
    let records = archive.len() / 32;
    if archive.len() % 32 != 0 || records < 1 || records > 65_535 || archive[..4] != *b"AARB" {
        return Err(1);
    }
    let used = link(&Records(archive)[0], 4) as usize;
    if used == 0 {
        return Err(1);
    }
    archive.get(..32 * used).map(Records).ok_or(1)
}

/// 2, then 3, at a link that is not zero.
#[inline(always)]
fn follow<'a>(records: Records<'a>, holder: u32, to: u32, kind: u8) -> Result<&'a Record, u32> {
    if to <= holder {
        return Err(2);
    }
    match records.get(to as usize) {
        None => Err(2),
        Some(record) if record[0] != kind => Err(3),
        Some(record) => Ok(record),
    }
}

#[inline(always)]
fn place(records: Records, owner: u32, first: u32, kind: u8, place: u64, missing: u32) -> Result<u32, u32> {
    let (mut holder, mut to) = (owner, first);
    let mut left = place;
    if left == 0 {
        return Err(missing);
    }
    loop {
        if to == 0 {
            return Err(missing);
        }
        let record = follow(records, holder, to, kind)?;
        left -= 1;
        if left == 0 {
            return Ok(to);
        }
        holder = to;
        to = link(record, 4);
    }
}

#[inline(always)]
fn power_ok(value: i32) -> bool {
    (-LIMIT..=LIMIT).contains(&value)
}

#[inline(always)]
fn weather_ok(value: i32, most: u32) -> bool {
    value as u32 <= most
}

/// A tested curve, still on its chain.
#[derive(Clone, Copy)]
struct Curve<'a> {
    records: Records<'a>,
    first: u32,
    points: u32,
}

impl<'a> Curve<'a> {
    fn tested(records: Records<'a>, plant: u32, first: u32) -> Result<Curve<'a>, u32> {
        let (mut holder, mut to) = (plant, first);
        let (mut points, mut before) = (0, -1);
        let (mut wide, mut falling) = (false, false);
        while to != 0 {
            let point = follow(records, holder, to, 2)?;
            let (speed, power) = (int(point, 8), int(point, 12));
            wide |= !weather_ok(speed, 1_000) | !weather_ok(power, LIMIT as u32);
            falling |= speed <= before;
            before = speed;
            points += 1;
            holder = to;
            to = link(point, 4);
        }
        if wide {
            return Err(9);
        }
        if points < 2 || falling {
            return Err(10);
        }
        Ok(Curve { records, first, points })
    }

    /// Power at a speed by a walk along the points.
    #[inline]
    fn power(&self, speed: i32) -> i64 {
        let mut point = &self.records[self.first as usize];
        let mut low = int(point, 8);
        if speed < low {
            return 0;
        }
        loop {
            let power = int(point, 12) as i64;
            if speed == low {
                return power;
            }
            let next = link(point, 4);
            if next == 0 {
                return 0;
            }
            point = &self.records[next as usize];
            let high = int(point, 8);
            if speed < high {
                let top = int(point, 12) as i64;
                let weighed = power * (high - speed) as i64 + top * (speed - low) as i64;
                return (weighed as u64 / (high - low) as u64) as i64;
            }
            low = high;
        }
    }

    /// All 1,001 powers, by steps along each line.
    fn table(&self) -> [i32; 1_001] {
        let mut table = [0; 1_001];
        let mut point = &self.records[self.first as usize];
        loop {
            let (low, mut power) = (int(point, 8), int(point, 12));
            table[low as usize] = power;
            let next = link(point, 4);
            if next == 0 {
                return table;
            }
            point = &self.records[next as usize];
            let (high, top) = (int(point, 8), int(point, 12));
            let width = high - low;
            let (step, rest) = ((top - power).div_euclid(width), (top - power).rem_euclid(width));
            let mut over = 0;
            for cell in &mut table[low as usize + 1..high as usize] {
                power += step;
                over += rest;
                if over >= width {
                    over -= width;
                    power += 1;
                }
                *cell = power;
            }
        }
    }
}

/// A day of the calendar.
#[derive(Clone, Copy)]
struct Date {
    year: u32,
    month: u32,
    day: u32,
}

impl Date {
    /// The date of a day's number by constant work. Years start with March here, so that a leap day ends one.
    #[inline]
    fn of(day: u32) -> Date {
        // Days from 1 March 1600 on, by cycles of 400 years.
        let days = day + 146_097 - 61;
        let (cycle, days) = (days / 146_097, days % 146_097);
        let years = (days - days / 1_460 + days / 36_524 - days / 146_096) / 365;
        let days = days - (365 * years + years / 4 - years / 100);
        let months = (5 * days + 2) / 153;
        let (month, over) = if months < 10 { (months + 3, 0) } else { (months - 9, 1) };
        Date { year: 1600 + 400 * cycle + years + over, month, day: days - (153 * months + 2) / 5 + 1 }
    }

    /// Days of its month.
    #[inline]
    fn days(self) -> u32 {
        let leap = self.year % 4 == 0 && (self.year % 100 != 0 || self.year % 400 == 0);
        match self.month {
            2 => 28 + u32::from(leap),
            month => 30 + ((month ^ (month >> 3)) & 1),
        }
    }

    /// The first of the next month.
    #[inline]
    fn next_month(self) -> Date {
        if self.month == 12 {
            Date { year: self.year + 1, month: 1, day: 1 }
        } else {
            Date { month: self.month + 1, day: 1, ..self }
        }
    }

    #[inline]
    fn next(self) -> Date {
        if self.day == self.days() {
            self.next_month()
        } else {
            Date { day: self.day + 1, ..self }
        }
    }
}

/// Factors of solar Pauschal from a dated quarter on.
struct Clock {
    date: Date,
    time: usize,
    row: &'static [u16; 96],
}

impl Clock {
    #[inline(always)]
    fn at(number: u64) -> Clock {
        let (day, time) = ((number - 1) / 96, (number - 1) % 96);
        let date = Date::of(day as u32 + 1);
        Clock { date, time: time as usize, row: factors(date.month as u8) }
    }

    /// The quarter's factor, and a step to the next one.
    #[inline(always)]
    fn factor(&mut self) -> i64 {
        let factor = self.row[self.time];
        self.time += 1;
        if self.time == 96 {
            self.time = 0;
            self.date = self.date.next();
            self.row = factors(self.date.month as u8);
        }
        i64::from(factor)
    }
}

/// Days that are a Saturday or Sunday, counted from a Monday.
const WEEKENDS: u64 = 0b1100000_1100000_1100000_1100000_1100000_1100000;

/// The delivery day, with a bit for each day of the next month.
pub fn delivery_day(quarter: u64, holidays: &[u32]) -> Result<u64, u32> {
    if quarter == 0 || quarter > LAST.0 {
        return Err(18);
    }
    let day = (quarter as u32 - 1) / 96 + 1;
    let date = Date::of(day);
    let first = day - date.day + date.days() + 1;
    let weekday = (first + 4) % 7;
    let mut working = !(WEEKENDS >> weekday) as u32 & (u32::MAX >> (32 - date.next_month().days()));
    for &holiday in holidays {
        let at = holiday.wrapping_sub(first);
        if at < 32 {
            working &= !(1 << at);
        }
    }
    for _ in 0..3 {
        working &= working.wrapping_sub(1);
    }
    Ok(if working == 0 { 0 } else { u64::from(first + working.trailing_zeros()) })
}

/// Where the walk over the quarters stands.
struct Walk {
    /// The measure's date.
    first: u32,
    holder: u32,
    to: u32,
    count: usize,
    remainder: u64,
    total: i64,
    wide: bool,
}

/// Division by one denominator for a whole measure.
trait Divide: Copy {
    fn denominator(self) -> u64;
    fn quotient(self, numerator: u64) -> u64;
}

/// A denominator known when compiled.
#[derive(Clone, Copy)]
struct Fixed<const D: u64>;

impl<const D: u64> Divide for Fixed<D> {
    #[inline(always)]
    fn denominator(self) -> u64 {
        D
    }
    #[inline(always)]
    fn quotient(self, numerator: u64) -> u64 {
        numerator / D
    }
}

/// A denominator with its reciprocal. For numerators below 2^63 the estimate is the quotient or one less.
#[derive(Clone, Copy)]
struct Reciprocal {
    denominator: u64,
    inverse: u64,
}

impl Reciprocal {
    #[inline(always)]
    fn new(denominator: u64) -> Reciprocal {
        Reciprocal { denominator, inverse: u64::MAX / denominator }
    }
}

impl Divide for Reciprocal {
    #[inline(always)]
    fn denominator(self) -> u64 {
        self.denominator
    }
    #[inline(always)]
    fn quotient(self, numerator: u64) -> u64 {
        let estimate = ((u128::from(numerator) * u128::from(self.inverse)) >> 64) as u64;
        estimate + u64::from(numerator - estimate * self.denominator >= self.denominator)
    }
}

/// Walks and books until the store is full or the chain ends. `magnitude` gives the numerator, or none if a needed
/// field is out of range. Quotients don't wait for the carry: only remainders do.
#[inline(always)]
fn book(
    records: Records,
    walk: &mut Walk,
    store: &mut [i64],
    sign: i64,
    divide: impl Divide,
    mut magnitude: impl FnMut(&Record) -> Option<i64>,
) -> Result<(), u32> {
    let (mut holder, mut to, mut count) = (walk.holder, walk.to, walk.count);
    let (mut remainder, mut total) = (walk.remainder, walk.total);
    while to != 0 && count < store.len() {
        let quarter = follow(records, holder, to, 5)?;
        holder = to;
        to = link(quarter, 4);
        let numerator = match magnitude(quarter) {
            Some(numerator) => numerator.max(0) as u64,
            None => {
                walk.wide = true;
                return rest(records, walk, holder, to, count + 1);
            }
        };
        let quotient = divide.quotient(numerator);
        remainder += numerator - quotient * divide.denominator();
        let carried = remainder >= divide.denominator();
        remainder -= if carried { divide.denominator() } else { 0 };
        let amount = sign * (quotient + u64::from(carried)) as i64;
        total += amount;
        store[count] = amount;
        count += 1;
    }
    *walk = Walk { holder, to, count, remainder, total, ..*walk };
    Ok(())
}

/// Only walks: nothing is booked behind a field out of range or behind 2,976 quarters.
#[cold]
#[inline(never)]
fn rest(records: Records, walk: &mut Walk, mut holder: u32, mut to: u32, mut count: usize) -> Result<(), u32> {
    while to != 0 {
        let quarter = follow(records, holder, to, 5)?;
        count += 1;
        holder = to;
        to = link(quarter, 4);
    }
    walk.count = count;
    walk.to = 0;
    Ok(())
}

/// 8 and 9 of the quarters, then 18, then 13 and the writing.
#[inline(always)]
fn finish(walk: &Walk, store: &[i64], links: u64, write: impl FnOnce(&[i64]) -> bool) -> Answer {
    if walk.count == 0 || walk.count > MOST_QUARTERS {
        return Answer::refused(8);
    }
    if walk.wide {
        return Answer::refused(9);
    }
    if walk.first != 0 && u64::from(walk.first) + walk.count as u64 > LAST.0 + 1 {
        return Answer::refused(18);
    }
    if !write(&store[..walk.count]) {
        return Answer::refused(13);
    }
    Answer { number: 0, count: walk.count as u64, total: walk.total, links: links + walk.count as u64 }
}

/// The quarters of one measure: a small store first, the large one only behind it. `late` is the same rule as
/// `early`, made for many quarters behind so many.
#[inline(always)]
#[allow(clippy::too_many_arguments)]
fn quarters<L: FnMut(&Record) -> Option<i64>>(
    records: Records,
    measure: u32,
    sign: i64,
    links: u64,
    divide: impl Divide,
    early: Option<impl FnMut(&Record) -> Option<i64>>,
    late: impl FnOnce(usize) -> L,
    write: impl FnOnce(&[i64]) -> bool,
) -> Answer {
    let own = &records[measure as usize];
    let mut walk = Walk {
        first: link(own, 16),
        holder: measure,
        to: link(own, 12),
        count: 0,
        remainder: 0,
        total: 0,
        wide: false,
    };
    let mut small = [0; SMALL];
    if let Some(early) = early {
        if let Err(number) = book(records, &mut walk, &mut small, sign, divide, early) {
            return Answer::refused(number);
        }
        if walk.to == 0 {
            return finish(&walk, &small, links, write);
        }
    }
    many(records, walk, small, sign, links, divide, late, write)
}

#[inline(never)]
#[allow(clippy::too_many_arguments)]
fn many<L: FnMut(&Record) -> Option<i64>>(
    records: Records,
    mut walk: Walk,
    small: [i64; SMALL],
    sign: i64,
    links: u64,
    divide: impl Divide,
    late: impl FnOnce(usize) -> L,
    write: impl FnOnce(&[i64]) -> bool,
) -> Answer {
    let mut large = [0; MOST_QUARTERS];
    large[..SMALL].copy_from_slice(&small);
    let rule = late(walk.count);
    let mut walked = book(records, &mut walk, &mut large, sign, divide, rule);
    if walked.is_ok() && walk.to != 0 {
        let (holder, to, count) = (walk.holder, walk.to, walk.count);
        walked = rest(records, &mut walk, holder, to, count);
    }
    match walked {
        Err(number) => Answer::refused(number),
        Ok(()) => finish(&walk, &large, links, write),
    }
}

/// Limitation value L with its range tests.
#[inline(always)]
fn limitation(quarter: &Record, requested: bool, positive: bool) -> Option<i64> {
    let measured = int(quarter, 8);
    if !power_ok(measured) {
        return None;
    }
    if !requested {
        return Some(measured as i64);
    }
    let limit = int(quarter, 12);
    if !power_ok(limit) {
        return None;
    }
    Some(if positive { measured.min(limit) } else { measured.max(limit) } as i64)
}

/// A reading of request 3 a step up: none, the largest number, becomes the lowest one.
#[inline(always)]
fn stepped(reading: i32) -> i32 {
    reading.wrapping_add(1)
}

/// Whether readings are none or in range, by the largest of them a step up and a minimum over them, which none isn't.
#[inline(always)]
fn readings_ok(largest: i32, smallest: i32) -> bool {
    largest <= stepped(LIMIT) && smallest >= -LIMIT
}

/// Factors of a month's days.
#[inline(always)]
fn factors(month: u8) -> &'static [u16; 96] {
    const fn row(summer: bool) -> [u16; 96] {
        let mut row = [0; 96];
        let mut at = 0;
        while at < 96 {
            row[at] = match (summer, at) {
                (true, 24..=35 | 60..=75) => 2_456,
                (true, 36..=59) => 6_189,
                (false, 36..=39 | 56..=66) => 2_796,
                (false, 40..=55) => 5_030,
                _ => 0,
            };
            at += 1;
        }
        row
    }
    static SUMMER: [u16; 96] = row(true);
    static WINTER: [u16; 96] = row(false);
    if (3..=10).contains(&month) {
        &SUMMER
    } else {
        &WINTER
    }
}

/// What the before-quarters give.
struct Before {
    a: i64,
    b: i64,
    count: u64,
}

/// One walk over the before-quarters. `take` gets the marked ones and says whether it needs more of them; it answers
/// none for a field out of range.
#[inline(always)]
fn before(
    records: Records,
    measure: u32,
    needed: u32,
    mut take: impl FnMut(&Record) -> Option<(bool, i64, i64)>,
) -> Result<(Before, u32), u32> {
    let (mut holder, mut to) = (measure, link(&records[measure as usize], 8));
    let mut found = Before { a: 0, b: 0, count: 0 };
    let mut usable = 0;
    let mut wide = false;
    while to != 0 {
        let one = follow(records, holder, to, 4)?;
        holder = to;
        to = link(one, 4);
        found.count += 1;
        if one[1] == 1 {
            if usable < needed && !wide {
                match take(one) {
                    None => wide = true,
                    Some((false, _, _)) => {}
                    Some((true, a, b)) => {
                        usable += 1;
                        found.a += a;
                        found.b += b;
                    }
                }
            }
        } else if one[1] > 1 {
            wide = true;
        }
    }
    if found.count > 96 {
        return Err(8);
    }
    if wide {
        return Err(9);
    }
    Ok((found, usable))
}

/// The quarters of wind and other Pauschal by the rules of October 2026, a loop for each way of finding the magnitude.
/// In a function of its own, so that the other measures stay as quick. Differences fit 32 bits.
#[inline(never)]
#[allow(clippy::too_many_arguments)]
fn since_october(
    records: Records,
    measure: u32,
    wind: bool,
    positive: bool,
    requested: bool,
    carried: i32,
    links: u64,
    write: impl FnOnce(&[i64]) -> bool,
) -> Answer {
    if wind {
        let rule = move |quarter: &Record| {
            let l = limitation(quarter, requested, false)? as i32;
            let (one, other) = (int(quarter, 24), int(quarter, 28));
            let t = one.min(other).min(carried);
            readings_ok(stepped(one).max(stepped(other)), t).then(|| i64::from((t - l).max(0)))
        };
        quarters(records, measure, 1, links, Fixed::<4>, Some(rule), |_| rule, write)
    } else if positive {
        let rule = move |quarter: &Record| {
            let reading = int(quarter, 24);
            let l = reading.min(limitation(quarter, requested, true)? as i32);
            readings_ok(stepped(reading), l).then(|| i64::from((l - carried).max(0)))
        };
        quarters(records, measure, -1, links, Fixed::<4>, Some(rule), |_| rule, write)
    } else {
        let rule = move |quarter: &Record| {
            let l = limitation(quarter, requested, false)? as i32;
            let reading = int(quarter, 24);
            let t = reading.min(carried);
            readings_ok(stepped(reading), t).then(|| i64::from((t - l).max(0)))
        };
        quarters(records, measure, 1, links, Fixed::<4>, Some(rule), |_| rule, write)
    }
}

#[inline(always)]
fn settle_with(archive: &[u8], p: u64, k: u64, write: impl FnOnce(&[i64]) -> bool) -> Answer {
    match settled(archive, p, k, write) {
        Ok(answer) => answer,
        Err(number) => Answer::refused(number),
    }
}

#[inline(always)]
fn settled(archive: &[u8], p: u64, k: u64, write: impl FnOnce(&[i64]) -> bool) -> Result<Answer, u32> {
    let records = used_records(archive)?;
    let plant_number = place(records, 0, link(&records[0], 8), 1, p, 4)?;
    let plant = &records[plant_number as usize];
    let measure_number = place(records, plant_number, link(plant, 12), 3, k, 5)?;
    let measure = &records[measure_number as usize];

    let (technology, variant, nominal) = (plant[1], plant[2], int(plant, 16));
    if !(1..=3).contains(&technology) || !(1..=2).contains(&variant) || !(100_000..=LIMIT).contains(&nominal) {
        return Err(6);
    }
    let (direction, execution) = (measure[1], measure[2]);
    if !(1..=2).contains(&direction) || !(1..=3).contains(&execution) || (direction == 1 && technology != 3) {
        return Err(7);
    }
    let positive = direction == 1;
    let requested = execution == 1;
    let mut links = p + k;
    let nominal = nominal as i64;

    match (technology, variant) {
        (1, 1) => {
            let curve = Curve::tested(records, plant_number, link(plant, 8))?;
            let (found, usable) = before(records, measure_number, 4, |one| {
                let measured = int(one, 8);
                if !power_ok(measured) {
                    return None;
                }
                if 10 * measured as i64 >= nominal {
                    let speed = int(one, 16);
                    return weather_ok(speed, 1_000).then(|| (true, measured as i64, curve.power(speed)));
                }
                Some((false, 0, 0))
            })?;
            if usable < 4 {
                return Err(11);
            }
            let Before { a, b, count } = found;
            if b == 0 {
                return Err(12);
            }
            links += u64::from(curve.points) + count;
            let cap = nominal * b;
            let by_walk = move |quarter: &Record| {
                let l = limitation(quarter, requested, false)?;
                let speed = int(quarter, 16);
                weather_ok(speed, 1_000).then(|| (a * curve.power(speed)).min(cap) - l * b)
            };
            let by_table = move |_| {
                let table = curve.table();
                move |quarter: &Record| {
                    let l = limitation(quarter, requested, false)?;
                    let t = *table.get(int(quarter, 16) as u32 as usize)? as i64;
                    Some((a * t).min(cap) - l * b)
                }
            };
            let early = (curve.points as usize <= SMALL_CURVE).then_some(by_walk);
            let divide = Reciprocal::new(4 * b as u64);
            Ok(quarters(records, measure_number, 1, links, divide, early, by_table, write))
        }
        (2, 1) => {
            let (found, usable) = before(records, measure_number, u32::MAX, |one| {
                let (measured, weather) = (int(one, 8), int(one, 16));
                (power_ok(measured) && weather_ok(weather, 2_000)).then_some((true, measured as i64, weather as i64))
            })?;
            if usable == 0 {
                return Err(11);
            }
            let Before { a, b, count } = found;
            if b == 0 {
                return Err(12);
            }
            links += count;
            let rule = move |quarter: &Record| {
                let l = limitation(quarter, requested, false)?;
                let weather = int(quarter, 16);
                weather_ok(weather, 2_000).then(|| a * weather as i64 - l * b)
            };
            let divide = Reciprocal::new(4 * b as u64);
            Ok(quarters(records, measure_number, 1, links, divide, Some(rule), |_| rule, write))
        }
        (2, _) if link(measure, 16) != 0 => {
            let first = u64::from(link(measure, 16));
            let rule_from = |mut clock: Clock| {
                move |quarter: &Record| {
                    let l = limitation(quarter, requested, false)?;
                    Some(nominal * clock.factor() - l * 10_000)
                }
            };
            let early = Some(rule_from(Clock::at(first)));
            let late = |booked: usize| rule_from(Clock::at(first + booked as u64));
            Ok(quarters(records, measure_number, 1, links, Fixed::<40_000>, early, late, write))
        }
        (2, _) => {
            let rule = move |quarter: &Record| {
                let l = limitation(quarter, requested, false)?;
                if !(1..=12).contains(&quarter[1]) || quarter[2] > 95 {
                    return None;
                }
                Some(nominal * i64::from(factors(quarter[1])[quarter[2] as usize]) - l * 10_000)
            };
            Ok(quarters(records, measure_number, 1, links, Fixed::<40_000>, Some(rule), |_| rule, write))
        }
        (3, 1) => {
            let rule = move |quarter: &Record| {
                let l = limitation(quarter, requested, positive)?;
                let planned = int(quarter, 20);
                let difference = planned as i64 - l;
                power_ok(planned).then_some(if positive { -difference } else { difference })
            };
            let sign = if positive { -1 } else { 1 };
            Ok(quarters(records, measure_number, sign, links, Fixed::<4>, Some(rule), |_| rule, write))
        }
        _ => {
            let (found, usable) = before(records, measure_number, 1, |one| {
                let measured = int(one, 8);
                power_ok(measured).then_some((true, measured as i64, 0))
            })?;
            if usable == 0 {
                return Err(11);
            }
            links += found.count;
            let carried = found.a;
            if link(measure, 16) >= OCTOBER {
                let wind = technology == 1;
                let carried = carried as i32;
                return Ok(since_october(records, measure_number, wind, positive, requested, carried, links, write));
            }
            let rule = move |quarter: &Record| {
                let difference = carried - limitation(quarter, requested, positive)?;
                Some(if positive { -difference } else { difference })
            };
            let sign = if positive { -1 } else { 1 };
            Ok(quarters(records, measure_number, sign, links, Fixed::<4>, Some(rule), |_| rule, write))
        }
    }
}

/// Settle on a list of numbers.
pub fn settle(archive: &[u8], p: u64, k: u64, list: &mut [i64]) -> Answer {
    settle_with(archive, p, k, |amounts| match list.get_mut(..amounts.len()) {
        Some(places) => {
            places.copy_from_slice(amounts);
            true
        }
        None => false,
    })
}

/// Settle as the host calls it.
pub fn host_settle(archive: &[u8], p: u64, k: u64, list: &mut [u8], result: &mut [u8]) -> u32 {
    let lent: Option<&mut [u8; 24]> = result.try_into().ok();
    let whole = lent.is_some();
    let answer = settle_with(archive, p, k, |amounts| {
        if list.len() / 8 < amounts.len() || !whole {
            return false;
        }
        for (place, amount) in list.chunks_exact_mut(8).zip(amounts) {
            place.copy_from_slice(&amount.to_le_bytes());
        }
        true
    });
    if answer.number == 0 {
        if let Some(lent) = lent {
            lent[..8].copy_from_slice(&answer.count.to_le_bytes());
            lent[8..16].copy_from_slice(&answer.total.to_le_bytes());
            lent[16..].copy_from_slice(&answer.links.to_le_bytes());
        }
    }
    answer.number
}

/// Append.
pub fn append(archive: &mut [u8], owner: u64, new: &[u8]) -> u32 {
    match append_place(archive, owner, new) {
        Err(number) => number,
        Ok((used, last_link)) => {
            put(archive, used, last_link, new);
            0
        }
    }
}

/// Writes a record at number U, the chain's last link and U.
#[inline(always)]
fn put(archive: &mut [u8], used: usize, last_link: usize, new: &[u8]) {
    archive[used * 32..used * 32 + 32].copy_from_slice(new);
    archive[last_link..last_link + 4].copy_from_slice(&(used as u32).to_le_bytes());
    archive[4..8].copy_from_slice(&(used as u32 + 1).to_le_bytes());
}

/// U and the byte at which the chain's last link starts.
#[inline(always)]
fn append_place(archive: &[u8], owner: u64, new: &[u8]) -> Result<(usize, usize), u32> {
    let records = used_records(archive)?;
    let new: &Record = new.try_into().map_err(|_| 14u32)?;
    let kind = new[0];
    let (owner_kind, first) = match kind {
        1 => (b'A', 8),
        2 => (1, 8),
        3 => (1, 12),
        4 => (3, 8),
        5 => (3, 12),
        _ => return Err(14),
    };
    let ends = u64::from_le_bytes([new[8], new[9], new[10], new[11], new[12], new[13], new[14], new[15]]);
    if link(new, 4) != 0 || (kind & 5 == 1 && ends != 0) {
        return Err(14);
    }
    if owner >= records.len() as u64 || records[owner as usize][0] != owner_kind || (kind == 1) != (owner == 0) {
        return Err(15);
    }
    let (mut holder, mut at) = (owner as u32, first);
    let mut to = link(&records[holder as usize], at);
    while to != 0 {
        let record = follow(records, holder, to, kind)?;
        holder = to;
        at = 4;
        to = link(record, 4);
    }
    if records.len() == archive.len() / 32 {
        return Err(16);
    }
    Ok((records.len(), holder as usize * 32 + at))
}

/// Preview on a list of numbers.
pub fn preview(archive: &mut [u8], owner: u64, new: &[u8], p: u64, k: u64, list: &mut [i64]) -> Answer {
    match with_record(archive, owner, new, |archive| settle(archive, p, k, list)) {
        Ok(answer) => answer,
        Err(number) => Answer::refused(number),
    }
}

/// Preview as the host calls it.
pub fn host_preview(
    archive: &mut [u8],
    owner: u64,
    new: &[u8],
    p: u64,
    k: u64,
    list: &mut [u8],
    result: &mut [u8],
) -> u32 {
    match with_record(archive, owner, new, |archive| host_settle(archive, p, k, list, result)) {
        Ok(number) | Err(number) => number,
    }
}

/// A call on the archive with one more record, which is filed in place; afterwards the place, the link and U get back
/// what they had.
#[inline(always)]
fn with_record<T>(archive: &mut [u8], owner: u64, new: &[u8], call: impl FnOnce(&[u8]) -> T) -> Result<T, u32> {
    let (used, last_link) = append_place(archive, owner, new)?;
    let kept: Record = Records(archive)[used];
    put(archive, used, last_link, new);
    let answer = call(archive);
    archive[used * 32..used * 32 + 32].copy_from_slice(&kept);
    // The chain ended there.
    archive[last_link..last_link + 4].fill(0);
    archive[4..8].copy_from_slice(&(used as u32).to_le_bytes());
    Ok(answer)
}

/// Audit with a table of marks, one bit a record.
pub fn audit(archive: &[u8]) -> u32 {
    let records = match used_records(archive) {
        Ok(records) => records,
        Err(number) => return number,
    };
    let audited =
        if records.len() <= 4_096 { audited(records, &mut [0; 64]) } else { audited(records, &mut [0; 1_024]) };
    match audited {
        Ok(()) => 0,
        Err(number) => number,
    }
}

#[inline(always)]
fn audited(records: Records, marks: &mut [u64]) -> Result<(), u32> {
    let mut named = 0;
    let mut several = false;
    let mut name = |holder: u32, to: u32, kind: u8| -> Result<(), u32> {
        if to == 0 {
            return Ok(());
        }
        follow(records, holder, to, kind)?;
        let (word, bit) = (&mut marks[to as usize / 64], 1u64 << (to % 64));
        several |= *word & bit != 0;
        *word |= bit;
        named += 1;
        Ok(())
    };
    name(0, link(&records[0], 8), 1)?;
    for number in 1..records.len() {
        let record = &records[number];
        let (number, kind) = (number as u32, record[0]);
        if !(1..=5).contains(&kind) {
            return Err(3);
        }
        name(number, link(record, 4), kind)?;
        if kind & 5 == 1 {
            name(number, link(record, 8), kind + 1)?;
            name(number, link(record, 12), kind + 2)?;
        }
    }
    if several || named != records.len() - 1 {
        return Err(17);
    }
    Ok(())
}

/// Taking back.
pub fn take_back(archive: &mut [u8]) -> u32 {
    match naming_link(archive) {
        Err(number) => number,
        Ok((last, link)) => {
            archive[link..link + 4].fill(0);
            archive[last * 32..last * 32 + 32].fill(0);
            archive[4..8].copy_from_slice(&(last as u32).to_le_bytes());
            0
        }
    }
}

/// The last record's number and the byte at which the one link that names it starts, by one pass. Few records hold that
/// number at all, so that the kind is read in these alone; only a second naming link ends the pass early.
fn naming_link(archive: &[u8]) -> Result<(usize, usize), u32> {
    let records = used_records(archive)?;
    if records.len() == 1 {
        return Err(19);
    }
    let last = records.len() as u32 - 1;
    // The head's bytes 4-7 are U, and 12-15 are no link.
    let mut found = if link(&records[0], 8) == last { Some(8) } else { None };
    for (number, record) in records.0.chunks_exact(32).enumerate().skip(1) {
        let holds = |at: usize| record[at..at + 4] == last.to_le_bytes();
        if holds(4) || holds(8) || holds(12) {
            by_kind(record, number, last, &mut found)?;
        }
    }
    found.map(|link| (last as usize, link)).ok_or(19)
}

/// Of a record that holds the last one's number: its links that name it.
#[cold]
#[inline(never)]
fn by_kind(record: &[u8], number: usize, last: u32, found: &mut Option<usize>) -> Result<(), u32> {
    let end = match record[0] {
        1 | 3 => 16,
        2 | 4 | 5 => 8,
        _ => 4,
    };
    for at in (4..end).step_by(4).filter(|&at| record[at..at + 4] == last.to_le_bytes()) {
        if found.is_some() {
            return Err(19);
        }
        *found = Some(32 * number + at);
    }
    Ok(())
}

/// Energies and prices between minus and plus these are ordinary: raised by so much, they have no higher bit than twice
/// that, which is tested once for all of them.
const ORDINARY_ENERGY: u64 = 1 << 29;
const ORDINARY_PRICE: u64 = 1 << 19;
/// From so many quarters on, lists are taken for ordinary ones first.
const MANY: usize = 8;
const MOST_PRICE: i64 = 1_000_000;
/// Parts of a cent, and cents that lift every sum above 0.
const CENT: u64 = 1_000_000;
const LIFTED: u64 = 6_000_000_000_000;

/// The correction.
pub fn correction(amounts: &[i64], balanced: &[i64], prices: &[i64], cents: &mut i64, remainder: &mut u64) -> u32 {
    if amounts.len() != balanced.len() || amounts.len() != prices.len() {
        return 22;
    }
    if amounts.len() > MOST_QUARTERS {
        return 20;
    }
    let ordinary = if amounts.len() < MANY { None } else { ordinary_sum(amounts, balanced, prices) };
    match ordinary.or_else(|| tested_sum(amounts, balanced, prices)) {
        Some(sum) => {
            // Rounded down toward minus infinity by a division of numbers that aren't below 0.
            let lifted = (sum as u64).wrapping_add(LIFTED * CENT);
            let whole = lifted / CENT;
            *cents = whole as i64 - LIFTED as i64;
            *remainder = lifted - whole * CENT;
            0
        }
        None if amounts.iter().chain(balanced).any(|&energy| beyond(energy, i64::from(LIMIT))) => 20,
        None => 21,
    }
}

#[inline(always)]
fn beyond(value: i64, most: i64) -> bool {
    value.wrapping_add(most) as u64 > 2 * most as u64
}

/// The sum of the products, if no number is out of its range.
#[inline(always)]
fn tested_sum(amounts: &[i64], balanced: &[i64], prices: &[i64]) -> Option<i64> {
    let mut sum = 0;
    for ((&amount, &balanced), &price) in amounts.iter().zip(balanced).zip(prices) {
        if beyond(amount, i64::from(LIMIT)) || beyond(balanced, i64::from(LIMIT)) || beyond(price, MOST_PRICE) {
            return None;
        }
        sum += (amount - balanced) * price;
    }
    Some(sum)
}

/// The same if all numbers are ordinary. They are raised above 0 first, as unsigned products of 32 bits can be made
/// several at a time, and what that adds to the sum is taken off at the end.
#[inline(always)]
fn ordinary_sum(amounts: &[i64], balanced: &[i64], prices: &[i64]) -> Option<i64> {
    let (mut energy_bits, mut price_bits) = (0, 0);
    let (mut products, mut gaps, mut raised_prices) = (0u64, 0u64, 0u64);
    for ((&amount, &balanced), &price) in amounts.iter().zip(balanced).zip(prices) {
        let amount = ORDINARY_ENERGY.wrapping_add(amount as u64);
        let balanced = ORDINARY_ENERGY.wrapping_sub(balanced as u64);
        let price = ORDINARY_PRICE.wrapping_add(price as u64);
        energy_bits |= amount | balanced;
        price_bits |= price;
        let gap = amount.wrapping_add(balanced);
        products = products.wrapping_add((gap & 0xffff_ffff) * (price & 0xffff_ffff));
        gaps = gaps.wrapping_add(gap);
        raised_prices = raised_prices.wrapping_add(price);
    }
    if energy_bits >= 2 * ORDINARY_ENERGY || price_bits >= 2 * ORDINARY_PRICE {
        return None;
    }
    let raised = gaps * ORDINARY_PRICE + raised_prices * (2 * ORDINARY_ENERGY);
    let twice = amounts.len() as u64 * (2 * ORDINARY_ENERGY * ORDINARY_PRICE);
    Some(products.wrapping_sub(raised).wrapping_add(twice) as i64)
}

/// Lines of numbers, handed on in parts of up to 64 KB.
struct Lines<W> {
    bytes: Vec<u8>,
    out: W,
}

/// Bytes of a part, and of the longest line.
const PART: usize = 65_536;
const LONGEST: usize = 108;

impl<W: Write> Lines<W> {
    /// A letter, then numbers with a space before each; made from its end on.
    #[inline(always)]
    fn line(&mut self, letter: u8, numbers: &[i64]) -> io::Result<()> {
        if self.bytes.len() + LONGEST > PART {
            self.flush()?;
        }
        let mut line = [0; LONGEST];
        let mut first = LONGEST;
        let mut put = |byte| {
            first -= 1;
            line[first] = byte;
        };
        put(b'\n');
        for &number in numbers.iter().rev() {
            let mut rest = number.unsigned_abs();
            while rest > 9 {
                put(b'0' + (rest % 10) as u8);
                rest /= 10;
            }
            put(b'0' + rest as u8);
            if number < 0 {
                put(b'-');
            }
            put(b' ');
        }
        put(letter);
        self.bytes.extend_from_slice(&line[first..]);
        Ok(())
    }

    fn flush(&mut self) -> io::Result<()> {
        self.out.write_all(&self.bytes)?;
        self.bytes.clear();
        Ok(())
    }
}

/// The program on an archive of at most 65,536 bytes.
pub fn program(input: &[u8], out: impl Write) -> io::Result<()> {
    let mut lines = Lines { bytes: Vec::with_capacity(PART), out };
    let mut list = [0; MOST_QUARTERS];
    let (mut p, mut k) = (1, 1);
    loop {
        let answer =
            if input.len() > MOST_BYTES { Answer::refused(1) } else { settle(input, p as u64, k as u64, &mut list) };
        match answer.number {
            0 => {
                lines.line(b'M', &[p, k, answer.count as i64, answer.total, answer.links as i64])?;
                for (amount, place) in list[..answer.count as usize].iter().zip(1..) {
                    lines.line(b'Q', &[place, *amount])?;
                }
                k += 1;
            }
            1 => {
                lines.line(b'E', &[0, 0, 1])?;
                return lines.flush();
            }
            4 => return lines.flush(),
            5 => (p, k) = (p + 1, 1),
            number => {
                lines.line(b'E', &[p, k, i64::from(number)])?;
                if number == 2 || number == 3 {
                    return lines.flush();
                }
                k += 1;
            }
        }
    }
}
