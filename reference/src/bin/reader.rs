//! Reader of redispatch archives: settle, show, fresh, append, audit, the program, delivery day, take back, correction
//! and preview.
//! Written from docs/FORMAT.md and docs/RULES.md, version 1.6, alone ("F" and "R" below, with section numbers):
//! F 1 to 19, and of R the rules, 1 to 6 and 13 to 15, and the worked numbers, 7, 8, 10 and 13 to 15.
//!
//! Build: rustc -O --edition 2021 reader.rs
//! Standard input: cases, one after the other. Standard output: one line for each case.
//! `reader --self-test` runs the worked examples of both pages instead.

use std::io::{self, Read, Write};

/// A refusal number of F 5.
type Refusal = u32;

const RECORD: usize = 32;
const MOST_RECORDS: usize = 65_535;
const PROGRAM_MOST_BYTES: usize = 65_536;

// Kinds of records (F 3).
const PLANT: u8 = 1;
const CURVE_POINT: u8 = 2;
const MEASURE: u8 = 3;
const BEFORE_QUARTER: u8 = 4;
const QUARTER: u8 = 5;

// Places of links within a record (F 4).
const HEAD: usize = 0;
const USED: usize = 4;
const NEXT: usize = 4;
const FIRST: usize = 8;
const SECOND: usize = 12;

// Technologies, variants, directions; execution 1.
const WIND: u8 = 1;
const SOLAR: u8 = 2;
const OTHER: u8 = 3;
const SPITZ: u8 = 1;
const PAUSCHAL: u8 = 2;
const POSITIVE: u8 = 1;
const NEGATIVE: u8 = 2;
const REQUESTED: u8 = 1;

const MOST_BEFORE_QUARTERS: usize = 96;
const MOST_QUARTERS: usize = 2_976;
const MOST_POWER: i32 = 1_000_000_000;
const MOST_SPEED: i32 = 1_000;
const MOST_IRRADIANCE: i32 = 2_000;

// Ends of energies, in Wh, and prices, in cents per MWh, of a correction; a cent has so many millionths (F 18).
const MOST_ENERGY: i64 = 1_000_000_000;
const MOST_PRICE: i64 = 1_000_000;
const MILLIONTHS: i128 = 1_000_000;

// Quarter numbers of the calendar end here; a day has so many (R 13).
const LAST_QUARTER: u64 = 3_506_400;
const QUARTERS_OF_A_DAY: u64 = 96;

// Measures that begin with this quarter number or a later one, 1 October 2026, 0:00, are judged by R 14.
const OCTOBER_2026: u64 = 937_921;

// The number that says that there is no reading, in bytes 24-27 and 28-31 of a quarter (F 3).
const NO_READING: i32 = 2_147_483_647;

// ---------------------------------------------------------------- bytes and links (F 1, 2, 4)

fn unsigned(bytes: &[u8], at: usize) -> u32 {
    u32::from_le_bytes(bytes[at..at + 4].try_into().unwrap())
}

fn signed(bytes: &[u8], at: usize) -> i32 {
    unsigned(bytes, at) as i32
}

/// An archive that has passed the head test.
#[derive(Clone, Copy)]
struct Archive<'a> {
    bytes: &'a [u8],
    used: usize,
}

fn length_allowed(length: usize) -> bool {
    length % RECORD == 0 && length != 0 && length <= RECORD * MOST_RECORDS
}

impl<'a> Archive<'a> {
    /// The head test: refusal 1.
    fn open(bytes: &'a [u8]) -> Result<Self, Refusal> {
        if !length_allowed(bytes.len()) || &bytes[..4] != b"AARB" {
            return Err(1);
        }
        let used = unsigned(bytes, USED) as usize;
        if used == 0 || used > bytes.len() / RECORD {
            return Err(1);
        }
        Ok(Archive { bytes, used })
    }

    fn record(&self, number: usize) -> &'a [u8] {
        &self.bytes[RECORD * number..RECORD * (number + 1)]
    }

    fn link(&self, holder: usize, at: usize) -> usize {
        unsigned(self.record(holder), at) as usize
    }

    /// Follows a link that is not zero: 2, then 3.
    fn follow(&self, holder: usize, link: usize, kind: u8) -> Result<usize, Refusal> {
        if link <= holder || link >= self.used {
            return Err(2);
        }
        if self.record(link)[0] != kind {
            return Err(3);
        }
        Ok(link)
    }

    /// The n-th record of a chain, counted from 1. Its own next link is not read.
    fn place(&self, n: u64, missing: Refusal, owner: usize, first: usize, kind: u8) -> Result<usize, Refusal> {
        if n == 0 {
            return Err(missing);
        }
        let (mut left, mut holder, mut at) = (n, owner, first);
        loop {
            let link = self.link(holder, at);
            if link == 0 {
                return Err(missing);
            }
            holder = self.follow(holder, link, kind)?;
            at = NEXT;
            left -= 1;
            if left == 0 {
                return Ok(holder);
            }
        }
    }

    /// All records of a chain, to its end.
    fn chain(&self, owner: usize, first: usize, kind: u8) -> Result<Vec<usize>, Refusal> {
        let mut numbers = Vec::new();
        let (mut holder, mut at) = (owner, first);
        loop {
            let link = self.link(holder, at);
            if link == 0 {
                return Ok(numbers);
            }
            holder = self.follow(holder, link, kind)?;
            at = NEXT;
            numbers.push(holder);
        }
    }
}

// ---------------------------------------------------------------- dates and delivery day (R 13, F 16)

/// A day of the calendar.
#[derive(Debug, PartialEq)]
struct Date {
    year: u64,
    month: u8,
    day: u64,
}

/// Day number of a quarter number; both count from 1.
fn day_of(quarter: u64) -> u64 {
    (quarter - 1) / QUARTERS_OF_A_DAY + 1
}

fn quarter_of_day(quarter: u64) -> u8 {
    ((quarter - 1) % QUARTERS_OF_A_DAY) as u8
}

fn is_leap_year(year: u64) -> bool {
    year % 4 == 0 && (year % 100 != 0 || year % 400 == 0)
}

fn days_of_year(year: u64) -> u64 {
    if is_leap_year(year) {
        366
    } else {
        365
    }
}

fn days_of_month(year: u64, month: u8) -> u64 {
    match month {
        2 if is_leap_year(year) => 29,
        2 => 28,
        4 | 6 | 9 | 11 => 30,
        _ => 31,
    }
}

/// The date of a day number.
fn date(mut day: u64) -> Date {
    let (mut year, mut month) = (2000, 1);
    while day > days_of_year(year) {
        day -= days_of_year(year);
        year += 1;
    }
    while day > days_of_month(year, month) {
        day -= days_of_month(year, month);
        month += 1;
    }
    Date { year, month, day }
}

/// Monday to Friday: day 1 is a Saturday.
fn is_weekday(day: u64) -> bool {
    (day - 1) % 7 >= 2
}

/// The fourth working day of the month after the quarter's; 0 if that month has fewer.
fn delivery_day(quarter: u64, holidays: &[u64]) -> Result<u64, Refusal> {
    if quarter == 0 || quarter > LAST_QUARTER {
        return Err(18);
    }
    let day = day_of(quarter);
    let own = date(day);
    let first = day - own.day + days_of_month(own.year, own.month) + 1;
    let next = date(first);
    let end = first + days_of_month(next.year, next.month);
    let mut working_days = (first..end).filter(|day| is_weekday(*day) && !holidays.contains(day));
    Ok(working_days.nth(3).unwrap_or(0))
}

/// Delivery day from C (F 7): the holidays as four bytes each, the lent day as eight.
fn delivery_day_c(quarter: u64, list: &[u8], lent: &mut [u8; 8]) -> u32 {
    let holidays: Vec<u64> = list.chunks_exact(4).map(|holiday| unsigned(holiday, 0) as u64).collect();
    match delivery_day(quarter, &holidays) {
        Ok(day) => {
            *lent = day.to_le_bytes();
            0
        }
        Err(number) => number,
    }
}

// ---------------------------------------------------------------- settle (F 6, R 1 to 6 and 14)

struct Settled {
    amounts: Vec<i64>,
    total: i64,
    links: u64,
}

/// A signed four-byte field that must lie within low to high: else 9.
fn field(record: &[u8], at: usize, low: i32, high: i32) -> Result<i128, Refusal> {
    let value = signed(record, at);
    if value < low || value > high {
        return Err(9);
    }
    Ok(value as i128)
}

fn power(record: &[u8], at: usize) -> Result<i128, Refusal> {
    field(record, at, -MOST_POWER, MOST_POWER)
}

fn measured(record: &[u8]) -> Result<i128, Refusal> {
    power(record, 8)
}

/// A power or none; none is in range.
fn power_or_none(record: &[u8], at: usize) -> Result<Option<i128>, Refusal> {
    if signed(record, at) == NO_READING {
        return Ok(None);
    }
    power(record, at).map(Some)
}

/// The smaller of a power and a bound; none is left out.
fn bounded(power: i128, bound: Option<i128>) -> i128 {
    bound.map_or(power, |bound| power.min(bound))
}

fn speed(record: &[u8]) -> Result<i128, Refusal> {
    field(record, 16, 0, MOST_SPEED)
}

fn irradiance(record: &[u8]) -> Result<i128, Refusal> {
    field(record, 16, 0, MOST_IRRADIANCE)
}

/// The power curve at speed v, rounded down (R 3). Points are (speed, power), speeds rising.
fn curve_power(curve: &[(i128, i128)], v: i128) -> i128 {
    let after = curve.partition_point(|&(u, _)| u <= v);
    if after == 0 {
        return 0;
    }
    let (u, p) = curve[after - 1];
    if u == v {
        return p;
    }
    if after == curve.len() {
        return 0;
    }
    let (w, q) = curve[after];
    (p * (w - v) + q * (v - u)) / (w - u)
}

/// The curve of a wind Spitz plant: 2, 3, 9, 10.
fn read_curve(archive: &Archive, plant: usize) -> Result<Vec<(i128, i128)>, Refusal> {
    let mut curve = Vec::new();
    for number in archive.chain(plant, FIRST, CURVE_POINT)? {
        let point = archive.record(number);
        curve.push((field(point, 8, 0, MOST_SPEED)?, field(point, 12, 0, MOST_POWER)?));
    }
    if curve.len() < 2 || curve.windows(2).any(|pair| pair[1].0 <= pair[0].0) {
        return Err(10);
    }
    Ok(curve)
}

/// What the before-quarters give: sums A and B in wind and solar Spitz, P0 (as a) in Pauschal.
#[derive(Default)]
struct Before {
    count: usize,
    a: i128,
    b: i128,
}

/// 2, 3, 8, 9, 11, 12 in the four pairings that use before-quarters.
fn read_before(
    archive: &Archive,
    measure: usize,
    pairing: (u8, u8),
    pn: i128,
    curve: &[(i128, i128)],
) -> Result<Before, Refusal> {
    let chain = archive.chain(measure, FIRST, BEFORE_QUARTER)?;
    if chain.len() > MOST_BEFORE_QUARTERS {
        return Err(8);
    }
    let records: Vec<&[u8]> = chain.iter().map(|&n| archive.record(n)).collect();
    if records.iter().any(|record| record[1] > 1) {
        return Err(9);
    }
    // How many usable ones are taken, and how many are too few.
    let (most, fewest) = match pairing {
        (WIND, SPITZ) => (4, 4),
        (SOLAR, SPITZ) => (usize::MAX, 1),
        _ => (1, 1),
    };
    let mut before = Before { count: chain.len(), ..Before::default() };
    let mut usable = 0;
    for record in records.iter().filter(|record| record[1] == 1) {
        if usable == most {
            break;
        }
        let reading = measured(record)?;
        if pairing == (WIND, SPITZ) {
            if 10 * reading < pn {
                continue;
            }
            before.b += curve_power(curve, speed(record)?);
        }
        if pairing == (SOLAR, SPITZ) {
            before.b += irradiance(record)?;
        }
        before.a += reading;
        usable += 1;
    }
    if usable < fewest {
        return Err(11);
    }
    if pairing.1 == SPITZ && before.b == 0 {
        return Err(12);
    }
    Ok(before)
}

/// Factor of solar Pauschal in ten-thousandths (R 4).
fn solar_factor(month: u8, quarter_of_day: u8) -> i128 {
    if (3..=10).contains(&month) {
        match quarter_of_day {
            24..=35 | 60..=75 => 2_456,
            36..=59 => 6_189,
            _ => 0,
        }
    } else {
        match quarter_of_day {
            36..=39 | 56..=66 => 2_796,
            40..=55 => 5_030,
            _ => 0,
        }
    }
}

/// Settle without the test of the list (13), which the callers make: nothing behind it can be refused.
fn settle(bytes: &[u8], p: u64, k: u64) -> Result<Settled, Refusal> {
    // 1 to 5: head, plant, measure.
    let archive = Archive::open(bytes)?;
    let plant_number = archive.place(p, 4, HEAD, FIRST, PLANT)?;
    let measure_number = archive.place(k, 5, plant_number, SECOND, MEASURE)?;

    // 6: the plant's fields.
    let plant = archive.record(plant_number);
    let (technology, variant) = (plant[1], plant[2]);
    let pairing = (technology, variant);
    let pn = signed(plant, 16);
    if !(WIND..=OTHER).contains(&technology)
        || !(SPITZ..=PAUSCHAL).contains(&variant)
        || !(100_000..=MOST_POWER).contains(&pn)
    {
        return Err(6);
    }
    let pn = pn as i128;

    // 7: the measure's fields.
    let measure = archive.record(measure_number);
    let (direction, execution) = (measure[1], measure[2]);
    if !(POSITIVE..=NEGATIVE).contains(&direction)
        || !(1..=3).contains(&execution)
        || (direction == POSITIVE && technology != OTHER)
    {
        return Err(7);
    }
    // Quarter number of the first quarter; 0 in an undated measure (F 3).
    let first = unsigned(measure, 16) as u64;

    // Curve and before-quarters, where the pairing needs them.
    let curve = match pairing {
        (WIND, SPITZ) => read_curve(&archive, plant_number)?,
        _ => Vec::new(),
    };
    let before = match pairing {
        (SOLAR, PAUSCHAL) | (OTHER, SPITZ) => Before::default(),
        _ => read_before(&archive, measure_number, pairing, pn, &curve)?,
    };

    // 2, 3, 8, 9: quarters. For each the limitation value L and the numerator N of T = N / D.
    let chain = archive.chain(measure_number, SECOND, QUARTER)?;
    if chain.is_empty() || chain.len() > MOST_QUARTERS {
        return Err(8);
    }
    let d = match pairing {
        (WIND, SPITZ) | (SOLAR, SPITZ) => before.b,
        (SOLAR, PAUSCHAL) => 10_000,
        _ => 1,
    };
    let mut powers = Vec::with_capacity(chain.len());
    for &number in &chain {
        let quarter = archive.record(number);
        let mut l = measured(quarter)?;
        if execution == REQUESTED {
            let limit = power(quarter, 12)?;
            l = if direction == POSITIVE { l.min(limit) } else { l.max(limit) };
        }
        let mut n = match pairing {
            (WIND, SPITZ) => (before.a * curve_power(&curve, speed(quarter)?)).min(pn * before.b),
            (SOLAR, SPITZ) => before.a * irradiance(quarter)?,
            // By date, below: bytes 1 and 2 are not read (F 3), and the date is not tested yet.
            (SOLAR, PAUSCHAL) if first != 0 => 0,
            (SOLAR, PAUSCHAL) => {
                let (month, quarter_of_day) = (quarter[1], quarter[2]);
                if !(1..=12).contains(&month) || quarter_of_day > 95 {
                    return Err(9);
                }
                pn * solar_factor(month, quarter_of_day)
            }
            (OTHER, SPITZ) => power(quarter, 20)?,
            _ => before.a,
        };
        // H bounds T, in the positive direction L; J bounds T of wind (R 14). The date itself is not tested yet.
        if first >= OCTOBER_2026 && (pairing == (WIND, PAUSCHAL) || pairing == (OTHER, PAUSCHAL)) {
            let h = power_or_none(quarter, 24)?;
            if direction == POSITIVE {
                l = bounded(l, h);
            } else {
                n = bounded(n, h);
            }
            if technology == WIND {
                n = bounded(n, power_or_none(quarter, 28)?);
            }
        }
        powers.push((l, n));
    }

    // 18, in every pairing, by the last quarter's number.
    if first != 0 && first + chain.len() as u64 - 1 > LAST_QUARTER {
        return Err(18);
    }
    if first != 0 && pairing == (SOLAR, PAUSCHAL) {
        for (number, (_, n)) in (first..).zip(&mut powers) {
            *n = pn * solar_factor(date(day_of(number)).month, quarter_of_day(number));
        }
    }

    // Booking with one remainder (R 5, 6).
    let e = 4 * d;
    let mut amounts = Vec::with_capacity(powers.len());
    let (mut remainder, mut total) = (0, 0);
    for (l, n) in powers {
        let m = if direction == POSITIVE { l * d - n } else { n - l * d }.max(0);
        let x = remainder + m;
        let whole = x / e;
        remainder = x - whole * e;
        let amount = if direction == POSITIVE { -whole } else { whole } as i64;
        total += amount;
        amounts.push(amount);
    }
    let links = p + k + (curve.len() + before.count + chain.len()) as u64;
    Ok(Settled { amounts, total, links })
}

/// Settle from C (F 7).
fn settle_c(archive: &[u8], p: u64, k: u64, list: &mut [u8], result: &mut [u8]) -> u32 {
    let settled = match settle(archive, p, k) {
        Ok(settled) => settled,
        Err(number) => return number,
    };
    let count = settled.amounts.len();
    if list.len() / 8 < count || result.len() != 24 {
        return 13;
    }
    for (place, amount) in list.chunks_exact_mut(8).zip(&settled.amounts) {
        place.copy_from_slice(&amount.to_le_bytes());
    }
    result[..8].copy_from_slice(&(count as i64).to_le_bytes());
    result[8..16].copy_from_slice(&settled.total.to_le_bytes());
    result[16..].copy_from_slice(&(settled.links as i64).to_le_bytes());
    0
}

// ---------------------------------------------------------------- show, fresh, append, audit (F 8 to 11)

/// Show from C: where the record starts, or the archive's length for the empty part.
fn show(bytes: &[u8], number: u64) -> u64 {
    match Archive::open(bytes) {
        Ok(archive) if number < archive.used as u64 => RECORD as u64 * number,
        _ => bytes.len() as u64,
    }
}

fn fresh(bytes: &mut [u8]) -> u32 {
    if !length_allowed(bytes.len()) {
        return 1;
    }
    bytes.fill(0);
    bytes[..4].copy_from_slice(b"AARB");
    bytes[USED] = 1;
    0
}

/// Tests of append. Gives U and the place (in bytes) of the zero link that ended the walk.
fn test_append(bytes: &[u8], owner: u64, record: &[u8]) -> Result<(usize, usize), Refusal> {
    let archive = Archive::open(bytes)?;
    if record.len() != RECORD {
        return Err(14);
    }
    let kind = record[0];
    // The owner's kind (none for the head) and the place of its link to the chain.
    let (owner_kind, first) = match kind {
        PLANT => (None, FIRST),
        CURVE_POINT => (Some(PLANT), FIRST),
        MEASURE => (Some(PLANT), SECOND),
        BEFORE_QUARTER => (Some(MEASURE), FIRST),
        QUARTER => (Some(MEASURE), SECOND),
        _ => return Err(14),
    };
    let links_end = if kind == PLANT || kind == MEASURE { 16 } else { 8 };
    if record[NEXT..links_end].iter().any(|&byte| byte != 0) {
        return Err(14);
    }
    if owner >= archive.used as u64 {
        return Err(15);
    }
    let owner = owner as usize;
    let fits = match owner_kind {
        None => owner == HEAD,
        Some(owner_kind) => owner != HEAD && archive.record(owner)[0] == owner_kind,
    };
    if !fits {
        return Err(15);
    }
    let end = match archive.chain(owner, first, kind)?.last() {
        Some(last) => RECORD * last + NEXT,
        None => RECORD * owner + first,
    };
    if archive.used == bytes.len() / RECORD {
        return Err(16);
    }
    Ok((archive.used, end))
}

fn append(bytes: &mut [u8], owner: u64, record: &[u8]) -> u32 {
    let (used, end) = match test_append(bytes, owner, record) {
        Ok(found) => found,
        Err(number) => return number,
    };
    bytes[RECORD * used..RECORD * (used + 1)].copy_from_slice(record);
    bytes[end..end + 4].copy_from_slice(&(used as u32).to_le_bytes());
    bytes[USED..USED + 4].copy_from_slice(&(used as u32 + 1).to_le_bytes());
    0
}

fn test_audit(bytes: &[u8]) -> Result<(), Refusal> {
    let archive = Archive::open(bytes)?;
    let mut named = vec![0u32; archive.used];
    let mut test_link = |holder: usize, at: usize, kind: u8| -> Result<(), Refusal> {
        let link = archive.link(holder, at);
        if link != 0 {
            named[archive.follow(holder, link, kind)?] += 1;
        }
        Ok(())
    };
    test_link(HEAD, FIRST, PLANT)?;
    for number in 1..archive.used {
        let kind = archive.record(number)[0];
        if !(PLANT..=QUARTER).contains(&kind) {
            return Err(3);
        }
        test_link(number, NEXT, kind)?;
        if kind == PLANT {
            test_link(number, FIRST, CURVE_POINT)?;
            test_link(number, SECOND, MEASURE)?;
        }
        if kind == MEASURE {
            test_link(number, FIRST, BEFORE_QUARTER)?;
            test_link(number, SECOND, QUARTER)?;
        }
    }
    if named[1..].iter().any(|&times| times != 1) {
        return Err(17);
    }
    Ok(())
}

fn audit(bytes: &[u8]) -> u32 {
    test_audit(bytes).err().unwrap_or(0)
}

// ---------------------------------------------------------------- take back (F 17)

/// Places of the links that count in a used record; the head's byte 0 is no kind.
fn link_places(archive: &Archive, number: usize) -> &'static [usize] {
    if number == HEAD {
        return &[FIRST];
    }
    match archive.record(number)[0] {
        PLANT | MEASURE => &[NEXT, FIRST, SECOND],
        CURVE_POINT | BEFORE_QUARTER | QUARTER => &[NEXT],
        _ => &[],
    }
}

/// Tests of take back: 1, 19. Gives the last record's number and the place (in bytes) of the one link that names it.
/// Links are compared, not followed: no 2, no 3.
fn test_take_back(bytes: &[u8]) -> Result<(usize, usize), Refusal> {
    let archive = Archive::open(bytes)?;
    let last = archive.used - 1;
    if last == HEAD {
        return Err(19);
    }
    let mut naming = None;
    for holder in 0..archive.used {
        for &at in link_places(&archive, holder) {
            if archive.link(holder, at) == last && naming.replace(RECORD * holder + at).is_some() {
                return Err(19);
            }
        }
    }
    naming.map(|place| (last, place)).ok_or(19)
}

fn take_back(bytes: &mut [u8]) -> u32 {
    let (last, place) = match test_take_back(bytes) {
        Ok(found) => found,
        Err(number) => return number,
    };
    bytes[RECORD * last..RECORD * (last + 1)].fill(0);
    bytes[place..place + 4].fill(0);
    bytes[USED..USED + 4].copy_from_slice(&(last as u32).to_le_bytes());
    0
}

// ---------------------------------------------------------------- correction (F 18, R 15)

/// Cents and remainder of the exact sum, which is split once, rounded down.
fn correction(amounts: &[i64], balanced: &[i64], prices: &[i64]) -> Result<(i64, u64), Refusal> {
    // 22, 20, 21, each over all places before the next.
    let count = amounts.len();
    if balanced.len() != count || prices.len() != count {
        return Err(22);
    }
    let energy_allowed = |energy: &i64| (-MOST_ENERGY..=MOST_ENERGY).contains(energy);
    if count > MOST_QUARTERS || !amounts.iter().chain(balanced).all(energy_allowed) {
        return Err(20);
    }
    if !prices.iter().all(|price| (-MOST_PRICE..=MOST_PRICE).contains(price)) {
        return Err(21);
    }
    let places = amounts.iter().zip(balanced).zip(prices);
    let x: i128 = places.map(|((&amount, &balanced), &price)| (amount - balanced) as i128 * price as i128).sum();
    Ok((x.div_euclid(MILLIONTHS) as i64, x.rem_euclid(MILLIONTHS) as u64))
}

/// A list of signed numbers of eight bytes.
fn numbers_of_eight(part: &[u8]) -> Vec<i64> {
    part.chunks_exact(8).map(|place| i64::from_le_bytes(place.try_into().unwrap())).collect()
}

/// Correction from C (F 7): the two lent numbers stay as they were if it is refused.
fn correction_c(amounts: &[i64], balanced: &[i64], prices: &[i64], cents: &mut i64, remainder: &mut u64) -> u32 {
    match correction(amounts, balanced, prices) {
        Ok(results) => {
            (*cents, *remainder) = results;
            0
        }
        Err(number) => number,
    }
}

// ---------------------------------------------------------------- preview (F 19)

/// Preview from C (F 7): append's tests, then settle on the archive as that append would leave it. Both are done on a
/// copy, so that the archive stays.
fn preview_c(archive: &[u8], owner: u64, record: &[u8], p: u64, k: u64, list: &mut [u8], result: &mut [u8]) -> u32 {
    let mut copy = archive.to_vec();
    match append(&mut copy, owner, record) {
        0 => settle_c(&copy, p, k, list, result),
        number => number,
    }
}

// ---------------------------------------------------------------- the program (F 12)

fn push_number(line: &mut Vec<u8>, value: i64) {
    if value < 0 {
        line.push(b'-');
    }
    let mut digits = [0; 20];
    let mut start = digits.len();
    let mut rest = value.unsigned_abs();
    loop {
        start -= 1;
        digits[start] = b'0' + (rest % 10) as u8;
        rest /= 10;
        if rest == 0 {
            break;
        }
    }
    line.extend_from_slice(&digits[start..]);
}

/// Puts a line: a letter, numbers, single spaces, a line feed.
fn push_line(text: &mut Vec<u8>, letter: u8, numbers: &[i64]) {
    text.push(letter);
    for &number in numbers {
        text.push(b' ');
        push_number(text, number);
    }
    text.push(b'\n');
}

/// Settles all measures in order; `write` gets the output piece by piece.
fn program(input: &[u8], write: &mut dyn FnMut(&[u8])) {
    let mut text = Vec::new();
    if input.len() > PROGRAM_MOST_BYTES || Archive::open(input).is_err() {
        push_line(&mut text, b'E', &[0, 0, 1]);
        write(&text);
        return;
    }
    let (mut p, mut k) = (1u64, 1u64);
    loop {
        text.clear();
        match settle(input, p, k) {
            Ok(settled) => {
                let count = settled.amounts.len() as i64;
                push_line(&mut text, b'M', &[p as i64, k as i64, count, settled.total, settled.links as i64]);
                for (i, &amount) in (1..).zip(&settled.amounts) {
                    push_line(&mut text, b'Q', &[i, amount]);
                }
                write(&text);
                k += 1;
            }
            Err(4) => return,
            Err(5) => {
                p += 1;
                k = 1;
            }
            Err(number) => {
                push_line(&mut text, b'E', &[p as i64, k as i64, number as i64]);
                write(&text);
                if number == 2 || number == 3 {
                    return;
                }
                k += 1;
            }
        }
    }
}

// ---------------------------------------------------------------- cases

/// FNV-1a, 64 bits, with the number of bytes that went in.
struct Hash {
    value: u64,
    length: u64,
}

impl Hash {
    fn new() -> Self {
        Hash { value: 0xcbf2_9ce4_8422_2325, length: 0 }
    }

    fn add(&mut self, bytes: &[u8]) {
        for &byte in bytes {
            self.value = (self.value ^ byte as u64).wrapping_mul(0x100_0000_01b3);
        }
        self.length += bytes.len() as u64;
    }
}

fn hash(bytes: &[u8]) -> u64 {
    let mut hash = Hash::new();
    hash.add(bytes);
    hash.value
}

fn read_u64(input: &mut impl Read) -> io::Result<u64> {
    let mut bytes = [0; 8];
    input.read_exact(&mut bytes)?;
    Ok(u64::from_le_bytes(bytes))
}

/// A length of four bytes and as many bytes.
fn read_part(input: &mut impl Read) -> io::Result<Vec<u8>> {
    let mut length = [0; 4];
    input.read_exact(&mut length)?;
    let length = u32::from_le_bytes(length) as u64;
    let mut part = Vec::new();
    input.by_ref().take(length).read_to_end(&mut part)?;
    if part.len() as u64 != length {
        return Err(io::ErrorKind::UnexpectedEof.into());
    }
    Ok(part)
}

fn no_case(why: String) -> io::Error {
    io::Error::new(io::ErrorKind::InvalidData, why)
}

fn run_cases(input: &mut impl Read, output: &mut impl Write) -> io::Result<()> {
    loop {
        let mut call = [0; 1];
        if input.read(&mut call)? == 0 {
            return Ok(());
        }
        let a = read_u64(input)?;
        let b = read_u64(input)?;
        let mut list = read_part(input)?;
        let mut result = read_part(input)?;
        let mut archive = read_part(input)?;
        let record = read_part(input)?;
        match call[0] {
            1 => {
                let number = settle_c(&archive, a, b, &mut list, &mut result);
                writeln!(output, "1 {number} {:016x} {:016x}", hash(&list), hash(&result))?;
            }
            2 => writeln!(output, "2 {}", show(&archive, a))?,
            3 => {
                let number = fresh(&mut archive);
                writeln!(output, "3 {number} {:016x}", hash(&archive))?;
            }
            4 => {
                let number = append(&mut archive, a, &record);
                writeln!(output, "4 {number} {:016x}", hash(&archive))?;
            }
            5 => writeln!(output, "5 {}", audit(&archive))?,
            6 => {
                let mut printed = Hash::new();
                program(&archive, &mut |bytes| printed.add(bytes));
                writeln!(output, "6 {:016x} {}", printed.value, printed.length)?;
            }
            7 => {
                let mut lent = match <[u8; 8]>::try_from(&result[..]) {
                    Ok(lent) if list.len() % 4 == 0 => lent,
                    _ => return Err(no_case("call 7 with parts of other lengths".into())),
                };
                let number = delivery_day_c(a, &list, &mut lent);
                writeln!(output, "7 {number} {}", u64::from_le_bytes(lent))?;
            }
            8 => {
                let number = take_back(&mut archive);
                writeln!(output, "8 {number} {:016x}", hash(&archive))?;
            }
            9 => {
                if result.len() != 16 || [&list, &archive, &record].iter().any(|part| part.len() % 8 != 0) {
                    return Err(no_case("call 9 with parts of other lengths".into()));
                }
                let mut cents = i64::from_le_bytes(result[..8].try_into().unwrap());
                let mut remainder = u64::from_le_bytes(result[8..].try_into().unwrap());
                let [amounts, balanced, prices] = [&list, &archive, &record].map(|part| numbers_of_eight(part));
                let number = correction_c(&amounts, &balanced, &prices, &mut cents, &mut remainder);
                writeln!(output, "9 {number} {cents} {remainder}")?;
            }
            10 => {
                if record.len() < 8 {
                    return Err(no_case("call 10 without an owner".into()));
                }
                let (owner, new) = record.split_at(8);
                let owner = u64::from_le_bytes(owner.try_into().unwrap());
                let number = preview_c(&archive, owner, new, a, b, &mut list, &mut result);
                let hashes = [&list, &result, &archive].map(|part| hash(part));
                writeln!(output, "10 {number} {:016x} {:016x} {:016x}", hashes[0], hashes[1], hashes[2])?;
            }
            other => return Err(no_case(format!("no call {other}"))),
        }
    }
}

fn main() {
    if std::env::args().nth(1).as_deref() == Some("--self-test") {
        std::process::exit(self_test::run());
    }
    let mut input = io::BufReader::new(io::stdin().lock());
    if let Err(error) = run_cases(&mut input, &mut io::stdout().lock()) {
        eprintln!("reader: {error}");
        std::process::exit(1);
    }
}

// ---------------------------------------------------------------- worked examples of both pages

mod self_test {
    use super::*;

    /// F 13.
    const CASE_A: &str = "
        41 41 52 42 07 00 00 00 01 00 00 00 00 00 00 00 00 00 00 00 00 00 00 00 00 00 00 00 00 00 00 00
        01 03 02 00 00 00 00 00 00 00 00 00 02 00 00 00 40 42 0f 00 00 00 00 00 00 00 00 00 00 00 00 00
        03 02 02 00 00 00 00 00 03 00 00 00 04 00 00 00 00 00 00 00 00 00 00 00 00 00 00 00 00 00 00 00
        04 01 00 00 00 00 00 00 00 35 0c 00 00 00 00 00 00 00 00 00 00 00 00 00 00 00 00 00 00 00 00 00
        05 07 28 00 05 00 00 00 21 a1 07 00 00 00 00 00 00 00 00 00 00 00 00 00 00 00 00 00 00 00 00 00
        05 07 28 00 06 00 00 00 21 a1 07 00 00 00 00 00 00 00 00 00 00 00 00 00 00 00 00 00 00 00 00 00
        05 07 28 00 00 00 00 00 22 a1 07 00 00 00 00 00 00 00 00 00 00 00 00 00 00 00 00 00 00 00 00 00";

    /// F 14.
    const REFUSED: &str = "
        41 41 52 42 0b 00 00 00 01 00 00 00 00 00 00 00 00 00 00 00 00 00 00 00 00 00 00 00 00 00 00 00
        01 02 02 00 00 00 00 00 ff ff ff ff 02 00 00 00 40 42 0f 00 00 00 00 00 00 00 00 00 00 00 00 00
        03 02 02 00 03 00 00 00 00 00 00 00 00 00 00 00 00 00 00 00 00 00 00 00 00 00 00 00 00 00 00 00
        03 02 02 00 05 00 00 00 00 00 00 00 04 00 00 00 00 00 00 00 00 00 00 00 00 00 00 00 00 00 00 00
        05 0d 24 00 00 00 00 00 00 00 00 00 00 00 00 00 00 00 00 00 00 00 00 00 00 00 00 00 00 00 00 00
        03 02 02 00 07 00 00 00 00 00 00 00 06 00 00 00 00 00 00 00 00 00 00 00 00 00 00 00 00 00 00 00
        05 07 24 00 00 00 00 00 00 00 00 00 00 00 00 00 00 00 00 00 00 00 00 00 00 00 00 00 00 00 00 00
        03 02 02 00 09 00 00 00 00 00 00 00 08 00 00 00 00 00 00 00 00 00 00 00 00 00 00 00 00 00 00 00
        05 07 24 00 08 00 00 00 00 00 00 00 00 00 00 00 00 00 00 00 00 00 00 00 00 00 00 00 00 00 00 00
        03 02 02 00 00 00 00 00 00 00 00 00 0a 00 00 00 00 00 00 00 00 00 00 00 00 00 00 00 00 00 00 00
        05 07 25 00 00 00 00 00 00 00 00 00 00 00 00 00 00 00 00 00 00 00 00 00 00 00 00 00 00 00 00 00";

    /// F 15.
    const ARCHIVE_B: &str = "
        41 41 52 42  0a 00 00 00  01 00 00 00
        01 01 01 00  00 00 00 00  02 00 00 00  04 00 00 00  80 84 1e 00
        02 00 00 00  03 00 00 00
        02 00 00 00  00 00 00 00  c8 00 00 00  80 84 1e 00
        03 02 02 00  00 00 00 00  05 00 00 00  09 00 00 00
        04 01 00 00  06 00 00 00  a0 bb 0d 00  00 00 00 00  64 00 00 00
        04 01 00 00  07 00 00 00  a0 bb 0d 00  00 00 00 00  64 00 00 00
        04 01 00 00  08 00 00 00  a0 bb 0d 00  00 00 00 00  64 00 00 00
        04 01 00 00  00 00 00 00  a0 bb 0d 00  00 00 00 00  64 00 00 00
        05 07 28 00  00 00 00 00  30 57 05 00  00 00 00 00  96 00 00 00";

    /// F 15.
    const ARCHIVE_G: &str = "
        41 41 52 42  07 00 00 00  01 00 00 00
        01 02 01 00  00 00 00 00  00 00 00 00  02 00 00 00  40 42 0f 00
        03 02 02 00  00 00 00 00  03 00 00 00  06 00 00 00
        04 01 00 00  04 00 00 00  e0 93 04 00  00 00 00 00  f4 01 00 00
        04 01 00 00  05 00 00 00  e0 93 04 00  00 00 00 00  f4 01 00 00
        04 01 00 00  00 00 00 00  e0 93 04 00  00 00 00 00  f4 01 00 00
        05 07 28 00  00 00 00 00  80 38 01 00  00 00 00 00  20 03 00 00";

    /// R 12.
    const ARCHIVE_OTHER: &str = "
        41 41 52 42  0d 00 00 00  01 00 00 00
        01 03 01 00  06 00 00 00  00 00 00 00  02 00 00 00  80 4f 12 00
        03 02 01 00  00 00 00 00  00 00 00 00  03 00 00 00
        05 01 48 00  04 00 00 00  56 28 09 00  c0 27 09 00  00 00 00 00  30 8c 11 00
        05 01 49 00  05 00 00 00  ac 22 09 00  c0 27 09 00  00 00 00 00  31 8c 11 00
        05 01 4a 00  00 00 00 00  90 2f 09 00  c0 27 09 00
        01 03 02 00  00 00 00 00  00 00 00 00  07 00 00 00  00 35 0c 00
        03 02 03 00  00 00 00 00  08 00 00 00  0b 00 00 00
        04 00 00 00  09 00 00 00  00 d0 07 00
        04 01 00 00  0a 00 00 00  03 c4 09 00
        04 01 00 00  00 00 00 00  98 fe 09 00
        05 01 0a 00  0c 00 00 00  80 1a 06 00  80 1a 06 00
        05 01 0b 00  00 00 00 00  7e 1a 06 00  80 1a 06 00";

    /// R 12.
    const ARCHIVE_POSITIVE: &str = "
        41 41 52 42  0c 00 00 00  01 00 00 00
        01 03 01 00  06 00 00 00  00 00 00 00  02 00 00 00  60 e3 16 00
        03 01 01 00  00 00 00 00  00 00 00 00  03 00 00 00
        05 02 20 00  04 00 00 00  80 6d 0d 00  a0 bb 0d 00  00 00 00 00  21 a1 07 00
        05 02 21 00  05 00 00 00  9c 0f 0e 00  a0 bb 0d 00  00 00 00 00  21 a1 07 00
        05 02 22 00  00 00 00 00  b0 e2 0d 00  a0 bb 0d 00  00 00 00 00  f0 7e 0e 00
        01 03 02 00  00 00 00 00  00 00 00 00  07 00 00 00  60 e3 16 00
        03 01 02 00  00 00 00 00  08 00 00 00  09 00 00 00
        04 01 00 00  00 00 00 00  e0 93 04 00
        05 02 20 00  0a 00 00 00  63 ae 0a 00
        05 02 21 00  0b 00 00 00  62 ae 0a 00
        05 02 22 00  00 00 00 00  63 ae 0a 00";

    fn hex(text: &str) -> Vec<u8> {
        text.split_whitespace().map(|byte| u8::from_str_radix(byte, 16).unwrap()).collect()
    }

    /// The bytes of a text, then 00 up to 32.
    fn padded(text: &str) -> Vec<u8> {
        let mut bytes = hex(text);
        bytes.resize(RECORD, 0);
        bytes
    }

    /// A dump: each line a record; bytes that are missing at its end are 00 (F 13).
    fn dump(text: &str) -> Vec<u8> {
        text.lines().filter(|line| !line.trim().is_empty()).flat_map(padded).collect()
    }

    struct Tests {
        passed: u32,
        failed: u32,
    }

    impl Tests {
        fn same<T: PartialEq + std::fmt::Debug>(&mut self, name: &str, found: T, expected: T) {
            if found == expected {
                self.passed += 1;
                println!("pass  {name}");
            } else {
                self.failed += 1;
                println!("FAIL  {name}: found {found:?}, expected {expected:?}");
            }
        }
    }

    /// One byte or one four-byte number of a record to be set.
    #[derive(Clone, Copy)]
    enum Set {
        Byte(usize, usize, u8),
        Number(usize, usize, i64),
    }
    use Set::{Byte, Number};

    fn set(bytes: &mut [u8], changes: &[Set]) {
        for &change in changes {
            match change {
                Byte(record, at, value) => bytes[RECORD * record + at] = value,
                Number(record, at, value) => {
                    let place = RECORD * record + at;
                    bytes[place..place + 4].copy_from_slice(&(value as u32).to_le_bytes());
                }
            }
        }
    }

    fn case_a(changes: &[Set]) -> Vec<u8> {
        let mut bytes = hex(CASE_A);
        set(&mut bytes, changes);
        bytes
    }

    fn one_more(mut bytes: Vec<u8>) -> Vec<u8> {
        bytes.extend([0; RECORD]);
        bytes
    }

    fn number(bytes: &[u8], p: u64, k: u64) -> u32 {
        settle(bytes, p, k).err().unwrap_or(0)
    }

    /// Number, count, total, links; zeros if refused.
    fn results(bytes: &[u8], p: u64, k: u64) -> (u32, usize, i64, u64) {
        match settle(bytes, p, k) {
            Ok(settled) => (0, settled.amounts.len(), settled.total, settled.links),
            Err(number) => (number, 0, 0, 0),
        }
    }

    fn amounts(bytes: &[u8]) -> Vec<i64> {
        settle(bytes, 1, 1).map(|settled| settled.amounts).unwrap_or_default()
    }

    /// Settle from C on a list and a result part full of ee.
    fn from_c(bytes: &[u8], list_length: usize, result_length: usize) -> (u32, Vec<u8>, Vec<u8>) {
        let (mut list, mut result) = (vec![0xee; list_length], vec![0xee; result_length]);
        let number = settle_c(bytes, 1, 1, &mut list, &mut result);
        (number, list, result)
    }

    fn printed(bytes: &[u8]) -> String {
        let mut text = Vec::new();
        program(bytes, &mut |piece| text.extend_from_slice(piece));
        String::from_utf8(text).unwrap()
    }

    /// A record with kind, bytes 1 and 2, and numbers at places.
    fn record(kind: u8, byte1: u8, byte2: u8, numbers: &[(usize, i64)]) -> Vec<u8> {
        let mut bytes = vec![0; RECORD];
        bytes[..3].copy_from_slice(&[kind, byte1, byte2]);
        for &(at, value) in numbers {
            set(&mut bytes, &[Number(0, at, value)]);
        }
        bytes
    }

    fn before_quarter(measured: i64, weather: i64) -> Vec<u8> {
        record(BEFORE_QUARTER, 1, 0, &[(8, measured), (16, weather)])
    }

    fn quarter(measured: i64, limit: i64, weather: i64, planned: i64) -> Vec<u8> {
        record(QUARTER, 0, 0, &[(8, measured), (12, limit), (16, weather), (20, planned)])
    }

    fn solar_quarter(month: u8, quarter_of_day: u8) -> Vec<u8> {
        record(QUARTER, month, quarter_of_day, &[])
    }

    /// An archive with plant 1, measure 2 and the given curve points, before-quarters and quarters, filed with append.
    fn filed(plant: (u8, u8, i64), measure: (u8, u8), parts: &[Vec<u8>]) -> Vec<u8> {
        let mut bytes = vec![0xdd; RECORD * (3 + parts.len())];
        let mut numbers = vec![fresh(&mut bytes)];
        numbers.push(append(&mut bytes, 0, &record(PLANT, plant.0, plant.1, &[(16, plant.2)])));
        numbers.push(append(&mut bytes, 1, &record(MEASURE, measure.0, measure.1, &[])));
        for part in parts {
            let owner = if part[0] == CURVE_POINT { 1 } else { 2 };
            numbers.push(append(&mut bytes, owner, part));
        }
        assert!(numbers.iter().all(|&number| number == 0) && audit(&bytes) == 0);
        bytes
    }

    /// Wind Spitz, tolerated, with a curve on which speed 10 x i has 500,000 x i W, i from 0 to 4.
    fn wind(pn: i64, before: &[Vec<u8>], quarters: &[Vec<u8>]) -> Vec<u8> {
        let mut parts: Vec<Vec<u8>> =
            (0..=4).map(|i| record(CURVE_POINT, 0, 0, &[(8, 10 * i), (12, 500_000 * i)])).collect();
        parts.extend_from_slice(before);
        parts.extend_from_slice(quarters);
        filed((WIND, SPITZ, pn), (NEGATIVE, 2), &parts)
    }

    fn section_13(tests: &mut Tests) {
        let bytes = hex(CASE_A);
        tests.same("F 13 settle", results(&bytes, 1, 1), (0, 3, 224_999, 6));
        tests.same("F 13 amounts", amounts(&bytes), vec![74_999, 75_000, 75_000]);
        tests.same("F 13 program", printed(&bytes), "M 1 1 3 224999 6\nQ 1 74999\nQ 2 75000\nQ 3 75000\n".into());
        let list = hex("f7 24 01 00 00 00 00 00   f8 24 01 00 00 00 00 00   f8 24 01 00 00 00 00 00");
        let result = hex("03 00 00 00 00 00 00 00   e7 6e 03 00 00 00 00 00   06 00 00 00 00 00 00 00");
        tests.same("F 13 bytes from C", from_c(&bytes, 24, 24), (0, list, result));

        let new = quarter(500_003, 0, 0, 0);
        let mut full = bytes.clone();
        tests.same("F 13 append, full", (append(&mut full, 2, &new), full), (16, bytes.clone()));
        let mut longer = one_more(bytes.clone());
        let mut expected = bytes;
        expected.extend_from_slice(&new);
        set(&mut expected, &[Number(6, 4, 7), Number(0, 4, 8)]);
        tests.same("F 13 append", (append(&mut longer, 2, &new), longer), (0, expected));
    }

    fn section_14(tests: &mut Tests) {
        let bytes = hex(REFUSED);
        let text = "E 1 1 8\nE 1 2 9\nM 1 3 1 154725 5\nQ 1 154725\nE 1 4 2\n";
        tests.same("F 14 program", printed(&bytes), text.into());
        tests.same("F 14 k = 5", results(&bytes, 1, 5), (0, 1, 154_725, 7));
        tests.same("F 14 k = 6, p = 2", [number(&bytes, 1, 6), number(&bytes, 2, 1)], [5, 4]);
        tests.same("F 14 audit", audit(&bytes), 2);
        for (owner, expected) in [(7, 2), (9, 16)] {
            let mut later = bytes.clone();
            let number = append(&mut later, owner, &quarter(0, 0, 0, 0));
            tests.same(&format!("F 14 append, owner {owner}"), (number, later), (expected, bytes.clone()));
        }
    }

    fn section_15(tests: &mut Tests) {
        tests.same("F 15 cut to 33 bytes", number(&hex(CASE_A)[..33], 1, 1), 1);

        let mut bytes = case_a(&[Number(0, 4, 8)]);
        let found = [number(&bytes, 1, 1), audit(&bytes), append(&mut bytes, 2, &quarter(0, 0, 0, 0))];
        tests.same("F 15 r0[4] = 8", found, [1, 1, 1]);
        tests.same("F 15 r0[4] = 8, show", (0..8).map(|n| show(&bytes, n)).collect(), vec![224; 8]);

        let all = u64::MAX;
        let rows: &[(&str, &[Set], u64, u64, u32)] = &[
            ("r0[4] = 6", &[Number(0, 4, 6)], 1, 1, 2),
            ("r0[8] = 7", &[Number(0, 8, 7)], 1, 1, 2),
            ("r0[8] = 7, p = 0", &[Number(0, 8, 7)], 0, 1, 4),
            ("p = 2", &[], 2, 1, 4),
            ("p largest", &[], all, 1, 4),
            ("r1[4] = 1, p = 2", &[Number(1, 4, 1)], 2, 1, 2),
            ("r1[4] = 1, p largest", &[Number(1, 4, 1)], all, 1, 2),
            ("r1[4] = 2, p = 2", &[Number(1, 4, 2)], 2, 1, 3),
            ("r1[4] = 1", &[Number(1, 4, 1)], 1, 1, 0),
            ("k = 2", &[], 1, 2, 5),
            ("k = 0", &[], 1, 0, 5),
            ("r1[12] = 1, k = 0", &[Number(1, 12, 1)], 1, 0, 5),
            ("r1[12] = 0, technology 4", &[Number(1, 12, 0), Byte(1, 1, 4)], 1, 1, 5),
            ("technology 4, direction 3", &[Byte(1, 1, 4), Byte(2, 1, 3)], 1, 1, 6),
            ("r1[16] = 99,999", &[Number(1, 16, 99_999)], 1, 1, 6),
            ("direction 3", &[Byte(2, 1, 3)], 1, 1, 7),
            ("direction 1", &[Byte(2, 1, 1)], 1, 1, 0),
            ("r2[8] = 0", &[Number(2, 8, 0)], 1, 1, 11),
            ("mark 0", &[Byte(3, 1, 0)], 1, 1, 11),
            ("mark 2", &[Byte(3, 1, 2)], 1, 1, 9),
            ("mark 0, r3[4] = 3", &[Byte(3, 1, 0), Number(3, 4, 3)], 1, 1, 2),
            ("r3[16] = -1", &[Number(3, 16, -1)], 1, 1, 0),
            ("r3[8] = 1,000,000,001", &[Number(3, 8, 1_000_000_001)], 1, 1, 9),
            ("r2[12] = 0", &[Number(2, 12, 0)], 1, 1, 8),
            ("r2[12] = 2", &[Number(2, 12, 2)], 1, 1, 2),
            ("r2[12] = 3", &[Number(2, 12, 3)], 1, 1, 3),
            ("r5[4] = 5", &[Number(5, 4, 5)], 1, 1, 2),
            ("r5[4] = 4", &[Number(5, 4, 4)], 1, 1, 2),
            ("month 13", &[Byte(4, 1, 13)], 1, 1, 0),
            ("limit, execution 3", &[Number(4, 12, 1_000_000_001), Byte(2, 2, 3)], 1, 1, 0),
            ("limit, execution 1", &[Number(4, 12, 1_000_000_001), Byte(2, 2, 1)], 1, 1, 9),
            // F 6: places are not cut to 32 bits; p = 0 comes before k = 0.
            ("p = 4,294,967,297", &[], 4_294_967_297, 1, 4),
            ("p = 0, k = 0", &[], 0, 0, 4),
        ];
        for &(name, changes, p, k, expected) in rows {
            tests.same(&format!("F 15 {name}"), number(&case_a(changes), p, k), expected);
        }
        tests.same("F 15 direction 1, amounts", amounts(&case_a(&[Byte(2, 1, 1)])), vec![0, 0, 0]);

        let bytes = hex(CASE_A);
        let untouched = |number: u32, list: usize, result: usize| (number, vec![0xee; list], vec![0xee; result]);
        for (list, result) in [(16, 24), (23, 24), (24, 23), (24, 25), (23, 25)] {
            let name = format!("F 15 C: list of {list}, result of {result}");
            tests.same(&name, from_c(&bytes, list, result), untouched(13, list, result));
        }
        let (_, mut list, result) = from_c(&bytes, 24, 24);
        list.extend([0xee; 5]);
        tests.same("F 15 C: list of 29", from_c(&bytes, 29, 24), (0, list, result));
        let bad = case_a(&[Number(4, 8, 1_000_000_001)]);
        tests.same("F 15 C: 9 before 13", from_c(&bad, 0, 0), untouched(9, 0, 0));

        tests.same("F 15 audit", audit(&bytes), 0);
        tests.same("F 15 audit, +1", audit(&one_more(bytes)), 0);
        tests.same("F 15 audit, r2[12] = 0", audit(&case_a(&[Number(2, 12, 0)])), 17);
        tests.same("F 15 audit, r1[4] = 1", audit(&case_a(&[Number(1, 4, 1), Byte(3, 0, 9)])), 2);
        tests.same("F 15 audit, r4[4] = 4", audit(&case_a(&[Number(4, 4, 4), Byte(3, 0, 9)])), 3);

        let plain = quarter(0, 0, 0, 0);
        let linked = record(QUARTER, 0, 0, &[(4, 1)]);
        type Row<'a> = (&'a str, Vec<u8>, u64, &'a [u8], u32);
        let rows: &[Row] = &[
            ("bytes 4-7 = 1", one_more(case_a(&[])), 2, &linked, 14),
            ("owner 1", one_more(case_a(&[])), 1, &plain, 15),
            ("owner 7", one_more(case_a(&[])), 7, &plain, 15),
            ("r5[4] = 5", case_a(&[Number(5, 4, 5)]), 2, &plain, 2),
            ("r3[4] = 3", one_more(case_a(&[Number(3, 4, 3)])), 2, &plain, 0),
        ];
        for (name, bytes, owner, new, expected) in rows {
            let mut later = bytes.clone();
            let number = append(&mut later, *owner, new);
            tests.same(&format!("F 15 append, {name}"), number, *expected);
            tests.same(&format!("F 15 append, {name}, bytes kept"), later == *bytes, *expected != 0);
        }
    }

    /// Statements of F 6, 9 and 12 outside the tables.
    fn sections_6_9_12(tests: &mut Tests) {
        // B = 0 with a bad quarters link is 12.
        let before = vec![before_quarter(900_000, 500); 4];
        let mut bytes = wind(2_000_000, &before, &[]);
        set(&mut bytes, &[Number(2, 12, 2)]);
        tests.same("F 6 12 before a bad quarters link", number(&bytes, 1, 1), 12);

        // Behind the fourth usable one only byte 1 is read; no weather of a marked one below 10 %.
        let mut before = vec![before_quarter(199_999, -1)];
        before.extend(vec![before_quarter(900_000, 20); 4]);
        before.push(before_quarter(1_000_000_001, -1));
        let bytes = wind(2_000_000, &before, &[quarter(350_000, 0, 30, 0)]);
        tests.same("F 6 what wind Spitz does not read", results(&bytes, 1, 1), (0, 1, 250_000, 14));
        let mut marked = bytes;
        set(&mut marked, &[Byte(13, 1, 2)]);
        tests.same("F 6 byte 1 of every before-quarter", number(&marked, 1, 1), 9);

        // A 97th before-quarter is filed, then 8 in settle.
        for (count, expected) in [(96, 0), (97, 8)] {
            let mut parts = vec![before_quarter(0, 1); count];
            parts.push(quarter(0, 0, 0, 0));
            let bytes = filed((SOLAR, SPITZ, 100_000), (NEGATIVE, 2), &parts);
            tests.same(&format!("F 6, 9 {count} before-quarters"), number(&bytes, 1, 1), expected);
        }
        for (count, expected) in [(2_976, 0), (2_977, 8)] {
            let bytes = filed((OTHER, SPITZ, 100_000), (NEGATIVE, 2), &vec![quarter(0, 0, 0, 0); count]);
            tests.same(&format!("F 6 {count} quarters"), number(&bytes, 1, 1), expected);
        }

        tests.same("F 12 empty input", printed(&[]), "E 0 0 1\n".into());
        let mut bytes = vec![0; 65_536];
        fresh(&mut bytes);
        tests.same("F 12 65,536 bytes without a plant", printed(&bytes), String::new());
        bytes.push(0);
        tests.same("F 12 65,537 bytes", printed(&bytes), "E 0 0 1\n".into());
        bytes = vec![0; 65_568];
        fresh(&mut bytes);
        tests.same("F 12 65,568 bytes", printed(&bytes), "E 0 0 1\n".into());
        tests.same("F 12 broken link to plant 2", printed(&case_a(&[Number(1, 4, 2)])).ends_with("\nE 2 1 3\n"), true);
        tests.same("F 12 refusal 6", printed(&case_a(&[Byte(1, 2, 0)])), "E 1 1 6\n".into());
        tests.same("F 12 no measure", printed(&case_a(&[Number(1, 12, 0)])), String::new());

        // 682 plants share 682 measures, which share 683 quarters.
        let mut bytes = vec![0; 65_536];
        fresh(&mut bytes);
        set(&mut bytes, &[Number(0, 4, 2_048), Number(0, 8, 1)]);
        for n in 1..2_048i64 {
            let new = match n {
                1..=682 => record(PLANT, OTHER, SPITZ, &[(4, (n + 1) % 683), (12, 683), (16, 100_000)]),
                683..=1_364 => {
                    let next = if n == 1_364 { 0 } else { n + 1 };
                    record(MEASURE, NEGATIVE, 2, &[(4, next), (12, 1_365)])
                }
                _ => record(QUARTER, 0, 0, &[(4, (n + 1) % 2_048)]),
            };
            bytes[RECORD * n as usize..][..RECORD].copy_from_slice(&new);
        }
        let mut lines = 0u64;
        program(&bytes, &mut |piece| lines += piece.iter().filter(|&&byte| byte == b'Q').count() as u64);
        tests.same("F 12 most Q lines", lines, 317_679_692);
    }

    fn figures(tests: &mut Tests) {
        // a
        let parts = [
            before_quarter(800_000, 0),
            quarter(500_001, 0, 0, 0),
            quarter(500_001, 0, 0, 0),
            quarter(500_002, 0, 0, 0),
        ];
        let bytes = filed((OTHER, PAUSCHAL, 1_000_000), (NEGATIVE, 2), &parts);
        tests.same("R 8 a", amounts(&bytes), vec![74_999, 75_000, 75_000]);
        tests.same("R 8 a, total", results(&bytes, 1, 1), (0, 3, 224_999, 6));
        // b, c: speed 20 has 1,000,000 W on the curve, 30 has 1,500,000 W, 40 has 2,000,000 W
        let bytes = wind(2_000_000, &vec![before_quarter(900_000, 20); 4], &[quarter(350_000, 0, 30, 0)]);
        tests.same("R 8 b", amounts(&bytes), vec![250_000]);
        let bytes = wind(2_000_000, &vec![before_quarter(1_200_000, 20); 4], &[quarter(0, 0, 40, 0)]);
        tests.same("R 8 c", amounts(&bytes), vec![500_000]);
        // d: with a plan of 1,000,000 W the amount is (1,000,000 - L) / 4
        let bytes = filed((OTHER, SPITZ, 1_000_000), (NEGATIVE, 1), &[quarter(400_000, 600_000, 0, 1_000_000)]);
        tests.same("R 8 d", amounts(&bytes), vec![100_000]);
        // e
        let bytes = filed((OTHER, SPITZ, 1_000_000), (POSITIVE, 1), &[quarter(700_000, 600_000, 0, 500_000)]);
        tests.same("R 8 e", amounts(&bytes), vec![-25_000]);
        tests.same("F 13 -25,000 from C", from_c(&bytes, 8, 24).1, hex("58 9e ff ff ff ff ff ff"));
        // f, and the falling piece of R 3
        let curve = [(30, 0), (40, 100_001)];
        tests.same("R 8 f", [35, 40, 29, 41, 30].map(|v| curve_power(&curve, v)), [50_000, 100_001, 0, 0, 0]);
        tests.same("R 3 falling piece", curve_power(&[(30, 100_001), (40, 0)], 35), 50_000);
        // g
        let mut parts = vec![before_quarter(300_000, 500); 3];
        parts.push(quarter(80_000, 0, 800, 0));
        tests.same("R 8 g", amounts(&filed((SOLAR, SPITZ, 1_000_000), (NEGATIVE, 2), &parts)), vec![100_000]);
        // h, i: one measure each, so that no remainder is carried
        for (name, month, quarter_of_day, expected) in
            [("h", 7, 35, 61_400), ("h", 7, 36, 154_725), ("i", 11, 66, 69_900), ("i", 11, 67, 0)]
        {
            let bytes = filed((SOLAR, PAUSCHAL, 1_000_000), (NEGATIVE, 2), &[solar_quarter(month, quarter_of_day)]);
            tests.same(&format!("R 8 {name}, quarter {quarter_of_day}"), amounts(&bytes), vec![expected]);
        }
        // j
        for (reading, expected) in [(200_000, 0), (199_999, 11)] {
            let mut before = vec![before_quarter(900_000, 20); 3];
            before.push(before_quarter(reading, 20));
            let bytes = wind(2_000_000, &before, &[quarter(0, 0, 30, 0)]);
            tests.same(&format!("R 8 j, {reading}"), number(&bytes, 1, 1), expected);
        }
        // k
        for technology in [WIND, OTHER] {
            let parts = [before_quarter(100_000, 0), quarter(-20_000, 0, 0, 0)];
            let bytes = filed((technology, PAUSCHAL, 1_000_000), (NEGATIVE, 2), &parts);
            tests.same(&format!("R 8 k, technology {technology}"), amounts(&bytes), vec![30_000]);
        }
    }

    /// Largest totals of R 10, over 2,976 quarters.
    fn sizes(tests: &mut Tests) {
        let most = MOST_POWER as i64;
        let point = |speed: i64| record(CURVE_POINT, 0, 0, &[(8, speed), (12, most)]);
        let mut parts = vec![point(0), point(1)];
        parts.extend(vec![before_quarter(most, 0); 4]);
        parts.extend(vec![quarter(-most, 0, 1, 0); 2_976]);
        let bytes = filed((WIND, SPITZ, most), (NEGATIVE, 2), &parts);
        tests.same("R 10 wind Spitz", results(&bytes, 1, 1), (0, 2_976, 1_488_000_000_000, 2_984));

        let mut parts = vec![before_quarter(most, 0); 95];
        parts.push(before_quarter(most, 1));
        parts.extend(vec![quarter(-most, 0, 2_000, 0); 2_976]);
        let bytes = filed((SOLAR, SPITZ, most), (NEGATIVE, 2), &parts);
        tests.same("R 10 solar Spitz", results(&bytes, 1, 1), (0, 2_976, 142_848_744_000_000_000, 3_074));

        let new = record(QUARTER, 7, 40, &[(8, -most)]);
        let bytes = filed((SOLAR, PAUSCHAL, most), (NEGATIVE, 2), &vec![new; 2_976]);
        tests.same("R 10 solar Pauschal", results(&bytes, 1, 1), (0, 2_976, 1_204_461_600_000, 2_978));

        let bytes = filed((OTHER, SPITZ, most), (POSITIVE, 2), &vec![quarter(most, 0, 0, -most); 2_976]);
        tests.same("R 10 other Spitz", results(&bytes, 1, 1), (0, 2_976, -1_488_000_000_000, 2_978));
    }

    /// The factor table of R 4, row by row, each quarter of each month.
    fn factors(tests: &mut Tests) {
        let summer = [(0, 23, 0), (24, 35, 2_456), (36, 59, 6_189), (60, 75, 2_456), (76, 95, 0)];
        let winter = [(0, 35, 0), (36, 39, 2_796), (40, 55, 5_030), (56, 66, 2_796), (67, 95, 0)];
        let mut wrong = 0;
        for month in 1..=12 {
            let rows = if [1, 2, 11, 12].contains(&month) { winter } else { summer };
            for (from, to, factor) in rows {
                wrong += (from..=to).filter(|&quarter| solar_factor(month, quarter) != factor).count();
            }
        }
        tests.same("R 4 factors", wrong, 0);
    }

    /// R 13: numbers to dates. Quarter number, date, quarter of the day, day number, weekday as (day - 1) mod 7.
    fn dates(tests: &mut Tests) {
        let rows = [
            (1, (2000, 1, 1), 0, 1, 0),
            (96, (2000, 1, 1), 95, 1, 0),
            (97, (2000, 1, 2), 0, 2, 1),
            (2_977, (2000, 2, 1), 0, 32, 3),
            (5_689, (2000, 2, 29), 24, 60, 3),
            (5_785, (2000, 3, 1), 24, 61, 4),
            (35_136, (2000, 12, 31), 95, 366, 1),
            (35_137, (2001, 1, 1), 0, 367, 2),
            (929_124, (2026, 7, 1), 35, 9_679, 4),
            (937_921, (2026, 10, 1), 0, 9_771, 5),
            (940_876, (2026, 10, 31), 75, 9_801, 0),
            (940_896, (2026, 10, 31), 95, 9_801, 0),
            (940_897, (2026, 11, 1), 0, 9_802, 1),
            (940_933, (2026, 11, 1), 36, 9_802, 1),
            (946_752, (2026, 12, 31), 95, 9_862, 5),
            (946_753, (2027, 1, 1), 0, 9_863, 6),
            (952_345, (2027, 2, 28), 24, 9_921, 1),
            (952_441, (2027, 3, 1), 24, 9_922, 2),
            (981_792, (2027, 12, 31), 95, 10_227, 6),
            (987_481, (2028, 2, 29), 24, 10_287, 3),
            (987_577, (2028, 3, 1), 24, 10_288, 4),
            (3_503_425, (2099, 12, 1), 0, 36_495, 3),
            (3_506_400, (2099, 12, 31), 95, 36_525, 5),
        ];
        for (quarter, (year, month, day), of_day, day_number, weekday) in rows {
            let found = (date(day_of(quarter)), quarter_of_day(quarter), day_of(quarter), is_weekday(day_of(quarter)));
            let expected = (Date { year, month, day }, of_day, day_number, weekday > 1);
            tests.same(&format!("R 13 quarter {quarter}"), found, expected);
        }
    }

    /// The rows of F 16 and R 13. Holidays as ranges; without a day the call is 18, and the lent day stays.
    fn delivery_days(tests: &mut Tests) {
        type Row<'a> = (u64, &'a [(u32, u32)], Option<u64>);
        let rows: &[Row] = &[
            (937_921, &[], Some(9_806)),
            (940_896, &[], Some(9_806)),
            (940_897, &[], Some(9_835)),
            (937_921, &[(9_806, 9_806)], Some(9_807)),
            (937_921, &[(9_803, 9_803)], Some(9_807)),
            (937_921, &[(9_803, 9_803), (9_806, 9_806)], Some(9_810)),
            (937_921, &[(9_806, 9_806), (9_803, 9_803)], Some(9_810)),
            (937_921, &[(9_806, 9_806), (9_806, 9_806)], Some(9_807)),
            (937_921, &[(9_806, 9_807)], Some(9_810)),
            (937_921, &[(9_807, 9_807)], Some(9_806)),
            (937_921, &[(9_802, 9_802), (9_808, 9_808)], Some(9_806)),
            (937_921, &[(9_773, 9_773), (9_834, 9_834)], Some(9_806)),
            (937_921, &[(0, 0), (36_557, 36_557), (u32::MAX, u32::MAX)], Some(9_806)),
            (937_921, &[(0, 0), (9_806, 9_806)], Some(9_807)),
            (937_921, &[(75_342, 75_342)], Some(9_806)),
            (937_921, &[(9_771, 9_806)], Some(9_812)),
            (937_921, &[(9_804, 9_816), (9_818, 9_830)], Some(0)),
            (937_921, &[(9_802, 9_802), (9_804, 9_816), (9_818, 9_830)], Some(0)),
            (937_921, &[(9_804, 9_816), (9_818, 9_827)], Some(9_831)),
            (937_921, &[(9_802, 9_831)], Some(0)),
            (981_792, &[], Some(10_233)),
            (3_506_400, &[], Some(36_531)),
            (3_506_400, &[(36_526, 36_526)], Some(36_532)),
            (3_506_400, &[(36_526, 36_551)], Some(0)),
            (3_506_400, &[(36_526, 36_549)], Some(36_553)),
            (1, &[], Some(35)),
            (2_976, &[], Some(35)),
            (2_977, &[], Some(66)),
            (952_441, &[], Some(9_958)),
            (987_481, &[], Some(10_293)),
            (987_577, &[], Some(10_324)),
            (0, &[], None),
            (3_506_401, &[], None),
            (4_295_905_217, &[], None),
            (u64::MAX, &[(9_806, 9_806)], None),
        ];
        for &(quarter, holidays, day) in rows {
            let list: Vec<u8> = holidays.iter().flat_map(|&(from, to)| from..=to).flat_map(u32::to_le_bytes).collect();
            let mut lent = [0xee; 8];
            let number = delivery_day_c(quarter, &list, &mut lent);
            let expected = day.map_or((18, [0xee; 8]), |day| (0, day.to_le_bytes()));
            tests.same(&format!("F 16 quarter {quarter}, holidays {holidays:?}"), (number, lent), expected);
        }
    }

    /// The rows 'Dates' of F 15.
    fn section_15_dates(tests: &mut Tests) {
        let h = filed((SOLAR, PAUSCHAL, 1_000_000), (NEGATIVE, 2), &[solar_quarter(7, 35), solar_quarter(7, 36)]);
        let bytes_1_2 = |one: (u8, u8), two: (u8, u8)| {
            vec![Number(2, 16, 929_124), Byte(3, 1, one.0), Byte(3, 2, one.1), Byte(4, 1, two.0), Byte(4, 2, two.1)]
        };
        let rows = [
            (vec![Number(2, 16, 929_124)], vec![61_400, 154_725]),
            (bytes_1_2((13, 255), (0, 96)), vec![61_400, 154_725]),
            (bytes_1_2((1, 0), (12, 0)), vec![61_400, 154_725]),
            (vec![Number(2, 16, 929_120)], vec![61_400, 61_400]),
            (vec![Number(2, 16, 1)], vec![0, 0]),
            (vec![Number(2, 16, 36)], vec![0, 69_900]),
            (vec![Number(2, 16, 5_688)], vec![0, 0]),
            (vec![Number(2, 16, 5_784)], vec![0, 61_400]),
            (vec![Number(2, 16, 952_344)], vec![0, 0]),
            (vec![Number(2, 16, 952_440)], vec![0, 61_400]),
            (vec![Number(2, 16, 3_506_399)], vec![0, 0]),
        ];
        for (row, (changes, expected)) in rows.iter().enumerate() {
            let mut bytes = h.clone();
            set(&mut bytes, changes);
            tests.same(&format!("F 15 dates, h, row {row}"), amounts(&bytes), expected.clone());
        }

        let a = hex(CASE_A);
        let wind_spitz = wind(2_000_000, &vec![before_quarter(900_000, 20); 4], &[quarter(350_000, 0, 30, 0)]);
        let solar_spitz = filed((SOLAR, SPITZ, 1_000_000), (NEGATIVE, 2), &[before_quarter(9, 5), quarter(8, 0, 8, 0)]);
        let other_spitz = filed((OTHER, SPITZ, 1_000_000), (NEGATIVE, 1), &[quarter(4, 6, 0, 10)]);
        let wind_pauschal =
            filed((WIND, PAUSCHAL, 1_000_000), (NEGATIVE, 2), &[before_quarter(9, 0), quarter(8, 0, 0, 0)]);
        let month = filed((OTHER, SPITZ, 1_000_000), (NEGATIVE, 2), &vec![quarter(1_000, 0, 0, 3_000); 2_976]);
        let longer = filed((OTHER, SPITZ, 1_000_000), (NEGATIVE, 2), &vec![quarter(1_000, 0, 0, 3_000); 2_977]);
        // The measure is record 2 in each, for wind Spitz too.
        let rows: &[(&str, &[u8], i64, &[Set], u32)] = &[
            ("h, month 13, undated", &h, 0, &[Byte(4, 1, 13)], 9),
            ("h", &h, 3_506_400, &[], 18),
            ("h", &h, 3_506_401, &[], 18),
            ("h", &h, 2_147_483_648, &[], 18),
            ("h", &h, 4_294_967_295, &[], 18),
            ("other Spitz", &other_spitz, 3_506_400, &[], 0),
            ("other Spitz", &other_spitz, 3_506_401, &[], 18),
            ("wind Spitz", &wind_spitz, 3_506_400, &[], 0),
            ("wind Spitz", &wind_spitz, 3_506_401, &[], 18),
            ("solar Spitz", &solar_spitz, 3_506_400, &[], 0),
            ("solar Spitz", &solar_spitz, 3_506_401, &[], 18),
            ("wind Pauschal", &wind_pauschal, 1, &[], 0),
            ("wind Pauschal", &wind_pauschal, 3_506_401, &[], 18),
            ("a", &a, 1, &[], 0),
            ("a", &a, 3_506_399, &[], 18),
            ("month", &month, 3_503_425, &[], 0),
            ("month", &month, 3_503_426, &[], 18),
            ("a, execution 4", &a, 3_506_401, &[Byte(2, 2, 4)], 7),
            ("a, mark 0", &a, 3_506_401, &[Byte(3, 1, 0)], 11),
            ("a, r5[4] = 5", &a, 3_506_401, &[Number(5, 4, 5)], 2),
            ("a, r2[12] = 0", &a, 3_506_401, &[Number(2, 12, 0)], 8),
            ("2,977 quarters", &longer, 3_506_401, &[], 8),
            ("a, r6[8] too large", &a, 3_506_401, &[Number(6, 8, 1_000_000_001)], 9),
            ("h, r4[8] too small", &h, 3_506_401, &[Number(4, 8, -1_000_000_001)], 9),
        ];
        for &(name, bytes, first, changes, expected) in rows {
            let mut bytes = bytes.to_vec();
            set(&mut bytes, &[Number(2, 16, first)]);
            set(&mut bytes, changes);
            tests.same(&format!("F 15 dates, {name}, date {first}"), number(&bytes, 1, 1), expected);
        }

        let late = case_a(&[Number(2, 16, 3_506_401)]);
        for (list, result) in [(16, 24), (0, 24), (24, 23)] {
            let name = format!("F 15 dates, C: list of {list}, result of {result}");
            tests.same(&name, from_c(&late, list, result), (18, vec![0xee; list], vec![0xee; result]));
        }
        let mut dated = h;
        set(&mut dated, &[Number(2, 16, 929_124)]);
        tests.same("F 15 dates, list of 1", from_c(&dated, 8, 24).0, 13);
        tests.same("F 15 dates, program", printed(&late), "E 1 1 18\n".into());
        tests.same("F 15 dates, audit", audit(&late), 0);
        let mut later = one_more(late);
        tests.same("F 15 dates, append", append(&mut later, 2, &quarter(0, 0, 0, 0)), 0);
    }

    /// The archive `dated` of R 13.
    fn dated(tests: &mut Tests) {
        let mut bytes = vec![0; 2_752];
        fresh(&mut bytes);
        let quarter = |byte1: u8, byte2: u8, measured: i64| record(QUARTER, byte1, byte2, &[(8, measured)]);
        let mut first = vec![quarter(13, 255, 12_345)];
        first.extend(vec![quarter(7, 40, 0); 56]);
        first.push(quarter(13, 255, 54_321));
        let other = record(QUARTER, 13, 255, &[(8, 400_000), (12, 600_000), (20, 1_000_000)]);
        // Date and quarters of each measure.
        let solar = vec![
            (940_876, first),
            (946_752, vec![quarter(0, 0, -300), quarter(0, 0, -301), quarter(0, 0, -300)]),
            (987_481, vec![quarter(3, 24, 0)]),
            (987_577, vec![quarter(2, 24, 0)]),
            (3_506_400, vec![quarter(13, 255, -1_000)]),
            (3_506_400, vec![quarter(13, 255, 0); 2]),
            (2_147_483_648, vec![quarter(7, 36, 0)]),
            (4_294_967_295, vec![quarter(7, 36, 0); 2]),
            (0, vec![quarter(7, 36, 0)]),
        ];
        let others = vec![(937_921, vec![other.clone()]), (3_506_401, vec![other])];
        let plants = [
            (record(PLANT, SOLAR, PAUSCHAL, &[(16, 800_000)]), 2, solar),
            (record(PLANT, OTHER, SPITZ, &[(16, 1_000_000)]), 1, others),
        ];
        let mut numbers = Vec::new();
        for (plant, execution, measures) in plants {
            let plant_number = unsigned(&bytes, USED) as u64;
            numbers.push(append(&mut bytes, 0, &plant));
            for (first, quarters) in measures {
                let measure = unsigned(&bytes, USED) as u64;
                numbers.push(append(&mut bytes, plant_number, &record(MEASURE, NEGATIVE, execution, &[(16, first)])));
                for new in quarters {
                    numbers.push(append(&mut bytes, measure, &new));
                }
            }
        }
        tests.same("R 13 dated, filed and sound", (numbers, audit(&bytes)), (vec![0; 85], 0));

        let zeros: String = (2..58).map(|place| format!("Q {place} 0\n")).collect();
        let expected = format!(
            "M 1 1 58 88373 60\nQ 1 46033\n{zeros}Q 58 42340\nM 1 2 3 225 6\nQ 1 75\nQ 2 75\nQ 3 75\n\
            M 1 3 1 0 5\nQ 1 0\nM 1 4 1 49120 6\nQ 1 49120\nM 1 5 1 250 7\nQ 1 250\nE 1 6 18\nE 1 7 18\nE 1 8 18\n\
            M 1 9 1 123780 11\nQ 1 123780\nM 2 1 1 100000 4\nQ 1 100000\nE 2 2 18\n"
        );
        tests.same("R 13 dated, program", (printed(&bytes), expected.len()), (expected, 617));
    }

    /// Each row of the table of R 1, by the 2020 text and by the rules of October 2026.
    fn section_1_of_rules(tests: &mut Tests) {
        // Pairing, direction; amounts in executions 1, 2 and 3 by either text, both with H and J filed.
        type Row = (u8, u8, u8, [i64; 3], [i64; 3]);
        let rows: [Row; 8] = [
            (WIND, SPITZ, NEGATIVE, [10_000, 15_000, 15_000], [10_000, 15_000, 15_000]),
            (WIND, PAUSCHAL, NEGATIVE, [10_000, 15_000, 15_000], [5_000, 10_000, 10_000]),
            (SOLAR, SPITZ, NEGATIVE, [10_000, 15_000, 15_000], [10_000, 15_000, 15_000]),
            (SOLAR, PAUSCHAL, NEGATIVE, [139_725, 144_725, 144_725], [139_725, 144_725, 144_725]),
            (OTHER, SPITZ, NEGATIVE, [10_000, 15_000, 15_000], [10_000, 15_000, 15_000]),
            (OTHER, SPITZ, POSITIVE, [-10_000, -15_000, -15_000], [-10_000, -15_000, -15_000]),
            (OTHER, PAUSCHAL, NEGATIVE, [10_000, 15_000, 15_000], [7_500, 12_500, 12_500]),
            (OTHER, PAUSCHAL, POSITIVE, [-10_000, -15_000, -15_000], [-7_500, -7_500, -7_500]),
        ];
        for (technology, variant, direction, text_2020, october) in rows {
            // T is 100,000 (positive 20,000) before any bound, and Pn x 6,189 / 10,000 in solar Pauschal.
            let (reference, measured, limit, h, j) = match direction {
                POSITIVE => (20_000, 80_000, 60_000, 50_000, 30_000),
                _ => (100_000, 40_000, 60_000, 90_000, 80_000),
            };
            let point = |speed: i64, power: i64| record(CURVE_POINT, 0, 0, &[(8, speed), (12, power)]);
            let mut parts = vec![point(0, 0), point(1_000, 1_000_000)];
            parts.extend(vec![before_quarter(reference, 500); 4]);
            let readings = [(8, measured), (12, limit), (16, 500), (20, reference), (24, h), (28, j)];
            parts.push(record(QUARTER, 7, 36, &readings));
            for (execution, expected) in (1..).zip(text_2020.into_iter().zip(october)) {
                let bytes = filed((technology, variant, 1_000_000), (direction, execution), &parts);
                // No date; 1 July and 1 October 2026, 9:00.
                let found = [0, 929_125, 937_957].map(|first| {
                    let mut dated = bytes.clone();
                    set(&mut dated, &[Number(2, 16, first)]);
                    amounts(&dated)
                });
                let expected = [expected.0, expected.0, expected.1].map(|amount| vec![amount]);
                let name = format!("R 1 {technology}, {variant}, direction {direction}, execution {execution}");
                tests.same(&name, found, expected);
            }
        }
    }

    /// The rows 'October 2026' of F 15. In the archive for `b` the measure is record 2 and the quarter record 12.
    fn section_15_october(tests: &mut Tests) {
        let none = NO_READING as i64;
        let k =
            filed((WIND, PAUSCHAL, 2_000_000), (NEGATIVE, 2), &[before_quarter(100_000, 0), quarter(-20_000, 0, 0, 0)]);
        // Date, bytes 24-27 and 28-31; the one amount, or the refusal number.
        let rows = [
            (937_920, 0, 0, Ok(30_000)),
            (937_921, 0, 0, Ok(5_000)),
            (937_921, none, none, Ok(30_000)),
            (937_921, none, 60_000, Ok(20_000)),
            (937_921, -1, none, Ok(4_999)),
            (937_921, none, -10_001, Ok(2_499)),
            (937_921, -1_000_000_000, none, Ok(0)),
            (937_921, 1_000_000_000, 1_000_000_000, Ok(30_000)),
            (937_921, -1_000_000_001, none, Err(9)),
            (937_921, 1_000_000_001, 0, Err(9)),
            (937_921, 0, 1_000_000_001, Err(9)),
            (937_921, 2_147_483_646, 0, Err(9)),
            (937_921, -2_147_483_648, 0, Err(9)),
            (0, 1_000_000_001, 1_000_000_001, Ok(30_000)),
            (3_506_401, 1_000_000_001, 0, Err(9)),
            (2_147_483_648, 1_000_000_001, 0, Err(9)),
            (2_147_483_648, 0, 0, Err(18)),
        ];
        for (first, h, j, expected) in rows {
            let mut bytes = k.clone();
            set(&mut bytes, &[Number(2, 16, first), Number(4, 24, h), Number(4, 28, j)]);
            let found = settle(&bytes, 1, 1).map(|settled| (settled.amounts, settled.total, settled.links));
            let expected = expected.map(|amount| (vec![amount], amount, 4));
            tests.same(&format!("F 15 October 2026, k, date {first}, H {h}, J {j}"), found, expected);
        }
        let mut bytes = k;
        set(&mut bytes, &[Number(2, 16, 937_921), Number(4, 24, 1_000_000_001)]);
        tests.same("F 15 October 2026, 9 before 13", from_c(&bytes, 0, 24), (9, vec![], vec![0xee; 24]));

        let a = hex(CASE_A);
        let d = filed((OTHER, SPITZ, 1_000_000), (NEGATIVE, 1), &[quarter(400_000, 600_000, 0, 1_000_000)]);
        let b = wind(2_000_000, &vec![before_quarter(900_000, 20); 4], &[quarter(350_000, 0, 30, 0)]);
        let mut parts = vec![before_quarter(300_000, 500); 3];
        parts.push(quarter(80_000, 0, 800, 0));
        let g = filed((SOLAR, SPITZ, 1_000_000), (NEGATIVE, 2), &parts);
        let h = filed((SOLAR, PAUSCHAL, 1_000_000), (NEGATIVE, 2), &[solar_quarter(7, 35), solar_quarter(7, 36)]);
        let mut parts = vec![quarter(1_000, 0, 0, 3_000); 2_977];
        parts.push(before_quarter(0, 0));
        let month = filed((OTHER, PAUSCHAL, 1_000_000), (NEGATIVE, 2), &parts);
        let in_4_to_6 = |at: usize, value: i64| [4, 5, 6].map(|record| Number(record, at, value));
        let unread = |record: usize| vec![Number(record, 24, 1_000_000_001), Number(record, 28, 1_000_000_001)];
        type Row<'a> = (&'a str, &'a [u8], i64, Vec<Set>, Result<Vec<i64>, Refusal>);
        let rows: Vec<Row> = vec![
            ("a", &a, 937_919, vec![], Ok(vec![74_999, 75_000, 75_000])),
            ("a, zeros", &a, 937_921, vec![], Ok(vec![0, 0, 0])),
            (
                "a, no H, J too large",
                &a,
                937_921,
                [in_4_to_6(24, none), in_4_to_6(28, 1_000_000_001)].concat(),
                Ok(vec![74_999, 75_000, 75_000]),
            ),
            (
                "a, H in quarter 2",
                &a,
                937_921,
                [&in_4_to_6(24, none)[..], &[Number(5, 24, 500_004)]].concat(),
                Ok(vec![74_999, 1, 75_000]),
            ),
            ("a, positive", &a, 937_921, vec![Byte(2, 1, 1), Number(6, 24, 1_000_000_001)], Err(9)),
            (
                "d, positive",
                &d,
                937_921,
                vec![Byte(2, 1, 1), Number(3, 8, 700_000), Number(3, 20, 500_000)],
                Ok(vec![-25_000]),
            ),
            ("d", &d, 937_921, unread(3), Ok(vec![100_000])),
            ("b", &b, 937_921, unread(12), Ok(vec![250_000])),
            ("g", &g, 937_921, unread(6), Ok(vec![100_000])),
            ("h", &h, 937_956, unread(3), Ok(vec![61_400, 154_725])),
            ("month", &month, 937_921, vec![Number(2_979, 24, 1_000_000_001)], Err(8)),
        ];
        for (name, bytes, first, changes, expected) in rows {
            let mut bytes = bytes.to_vec();
            set(&mut bytes, &[Number(2, 16, first)]);
            set(&mut bytes, &changes);
            let found = settle(&bytes, 1, 1).map(|settled| settled.amounts);
            tests.same(&format!("F 15 October 2026, {name}, date {first}"), found, expected);
        }
    }

    /// Statements of R 14 and F 6 outside the tables: bounds below 0, no cap at Pn, the ends of J's range.
    fn section_14_of_rules(tests: &mut Tests) {
        let none = NO_READING as i64;
        // Pairing (Pauschal), direction, execution; P0, measured power, H and J of the one quarter; Pn is 1,000,000.
        type Row = (u8, u8, u8, i64, i64, i64, i64, Result<i64, Refusal>);
        let rows: &[Row] = &[
            (OTHER, NEGATIVE, 2, 100_000, -20_000, -1, 0, Ok(4_999)),
            (OTHER, POSITIVE, 2, -500_000, 500_000, -100_000, 0, Ok(-100_000)),
            (OTHER, POSITIVE, 2, 800_000, 1_600_000, 1_400_000, 0, Ok(-150_000)),
            (OTHER, POSITIVE, 2, 800_000, 1_600_000, none, 0, Ok(-200_000)),
            (OTHER, NEGATIVE, 3, 1_500_000, 500_000, none, 0, Ok(250_000)),
            (OTHER, NEGATIVE, 3, 1_500_000, 500_000, 1_400_000, 0, Ok(225_000)),
            (WIND, NEGATIVE, 3, 1_500_000, 500_000, none, 1_400_000, Ok(225_000)),
            (WIND, NEGATIVE, 2, 100_000, -1_000_000_000, none, -1_000_000_000, Ok(0)),
            (WIND, NEGATIVE, 2, 100_000, -1_000_000_000, none, -999_999_996, Ok(1)),
            (WIND, NEGATIVE, 2, 100_000, 0, none, -1_000_000_001, Err(9)),
            (WIND, NEGATIVE, 2, 100_000, 0, none, -2_147_483_648, Err(9)),
            (WIND, NEGATIVE, 2, 100_000, 0, none, 2_147_483_646, Err(9)),
            (OTHER, POSITIVE, 2, 100_000, 0, 2_147_483_646, none, Err(9)),
        ];
        for &(technology, direction, execution, p0, measured, h, j, expected) in rows {
            let new = record(QUARTER, 0, 0, &[(8, measured), (24, h), (28, j)]);
            let parts = [before_quarter(p0, 0), new];
            let mut bytes = filed((technology, PAUSCHAL, 1_000_000), (direction, execution), &parts);
            set(&mut bytes, &[Number(2, 16, 937_921)]);
            let found = settle(&bytes, 1, 1).map(|settled| settled.total);
            let name = format!("R 14 {technology}, direction {direction}, P0 {p0}, measured {measured}, H {h}, J {j}");
            tests.same(&name, found, expected);
        }
    }

    /// The archive `october` of R 14.
    fn october(tests: &mut Tests) {
        let none = NO_READING as i64;
        // Direction, execution, date, P0, limit; measured power, H and J of each quarter.
        type Measure<'a> = (u8, u8, i64, i64, i64, &'a [(i64, i64, i64)]);
        let wind: &[Measure] = &[
            (NEGATIVE, 2, 937_920, 1_200_003, 0, &[(400_000, 900_000, 800_000), (400_001, 1_000_000_001, -1)]),
            (
                NEGATIVE,
                1,
                937_921,
                1_200_003,
                400_000,
                &[
                    (400_000, none, none),
                    (400_001, 900_002, none),
                    (399_000, none, 800_001),
                    (400_002, 700_001, 800_001),
                    (400_003, 900_002, 600_000),
                    (400_000, 1_300_000, 1_000_000_000),
                    (400_000, 0, none),
                ],
            ),
            (NEGATIVE, 2, 937_921, 2_500_000, 0, &[(300_001, 2_400_000, none), (-500_002, none, -100_001)]),
            (NEGATIVE, 2, 937_921, 1_200_003, 0, &[(400_000, none, 1_000_000_001)]),
        ];
        let other: &[Measure] = &[
            (NEGATIVE, 2, 937_919, 800_000, 0, &[(500_001, 0, 0), (500_001, 0, 0), (500_002, 0, 0)]),
            (
                NEGATIVE,
                2,
                937_921,
                800_000,
                0,
                &[(500_001, 0, 0), (500_001, 600_000, 0), (500_002, none, 1_000_000_001)],
            ),
            (POSITIVE, 1, 937_920, 500_000, 700_000, &[(760_000, 650_001, none)]),
            (
                POSITIVE,
                1,
                937_921,
                500_000,
                700_000,
                &[
                    (760_000, none, none),
                    (760_000, 650_001, 600_000),
                    (690_001, 750_000, 1_000_000_001),
                    (760_000, 400_000, none),
                ],
            ),
            (POSITIVE, 3, 1_000_000, 500_000, 600_000, &[(760_000, 650_001, none)]),
            (NEGATIVE, 2, 3_506_401, 800_000, 0, &[(500_000, 1_000_000_001, 0)]),
            (NEGATIVE, 2, 3_506_401, 800_000, 0, &[(500_000, none, 0)]),
            (NEGATIVE, 2, 0, 800_000, 0, &[(500_000, 600_000, 600_000)]),
        ];
        let mut bytes = vec![0; 1_728];
        fresh(&mut bytes);
        let mut numbers = Vec::new();
        for (technology, pn, measures) in [(WIND, 2_000_000, wind), (OTHER, 1_000_000, other)] {
            let plant = unsigned(&bytes, USED) as u64;
            numbers.push(append(&mut bytes, 0, &record(PLANT, technology, PAUSCHAL, &[(16, pn)])));
            for &(direction, execution, first, p0, limit, quarters) in measures {
                let measure = unsigned(&bytes, USED) as u64;
                numbers.push(append(&mut bytes, plant, &record(MEASURE, direction, execution, &[(16, first)])));
                numbers.push(append(&mut bytes, measure, &before_quarter(p0, 0)));
                for &(measured, h, j) in quarters {
                    let new = record(QUARTER, 0, 0, &[(8, measured), (12, limit), (24, h), (28, j)]);
                    numbers.push(append(&mut bytes, measure, &new));
                }
            }
        }
        tests.same("R 14 october, filed and sound", (numbers, audit(&bytes)), (vec![0; 53], 0));

        let expected = "M 1 1 2 400001 5\nQ 1 200000\nQ 2 200001\n\
            M 1 2 7 750001 11\nQ 1 200000\nQ 2 125001\nQ 3 100000\nQ 4 75000\nQ 5 49999\nQ 6 200001\nQ 7 0\n\
            M 1 3 2 625000 7\nQ 1 524999\nQ 2 100001\nE 1 4 9\n\
            M 2 1 3 224999 7\nQ 1 74999\nQ 2 75000\nQ 3 75000\nM 2 2 3 99999 8\nQ 1 0\nQ 2 24999\nQ 3 75000\n\
            M 2 3 1 -50000 7\nQ 1 -50000\nM 2 4 4 -135000 11\nQ 1 -50000\nQ 2 -37500\nQ 3 -47500\nQ 4 0\n\
            M 2 5 1 -37500 9\nQ 1 -37500\nE 2 6 9\nE 2 7 18\nM 2 8 1 75000 12\nQ 1 75000\n";
        tests.same("R 14 october, program", (printed(&bytes), expected.len()), (expected.into(), 421));
    }

    /// The rows of F 17: all over `a`; then `month` and `shared`.
    fn section_17(tests: &mut Tests) {
        // Bytes added at the end, changes; the record taken back, and record and place of the link that named it.
        type Row<'a> = (&'a [u8], &'a [Set], usize, (usize, usize));
        let rows: &[Row] = &[
            (&[], &[], 6, (5, 4)),
            (&[0; 32], &[Number(0, 4, 8), Number(6, 4, 7), Byte(7, 0, 5)], 7, (6, 4)),
            (&[0xff; 64], &[], 6, (5, 4)),
            (&[], &[Number(0, 4, 5)], 4, (2, 12)),
            (&[], &[Number(0, 4, 4)], 3, (2, 8)),
            (&[], &[Number(0, 4, 3)], 2, (1, 12)),
            (&[], &[Number(0, 4, 2)], 1, (0, 8)),
            // Links that need not be allowed, nor stand on a chain.
            (&[], &[Number(5, 4, 0), Number(1, 8, 6)], 6, (1, 8)),
            (&[], &[Number(5, 4, 0), Number(2, 8, 6)], 6, (2, 8)),
            (&[], &[Number(5, 4, 0), Number(2, 4, 6)], 6, (2, 4)),
            (&[], &[Number(4, 4, 0)], 6, (5, 4)),
            // All four bytes of link and U.
            (&[0; 32 * 250], &[Number(0, 4, 257), Number(6, 4, 256)], 256, (6, 4)),
            (&[0; 32 * 249], &[Number(0, 4, 256), Number(6, 4, 255)], 255, (6, 4)),
            // The last record's bytes, links and kind.
            (&[], &[Number(6, 28, 9)], 6, (5, 4)),
            (&[], &[Number(6, 4, 4)], 6, (5, 4)),
            (&[], &[Number(6, 4, 7)], 6, (5, 4)),
            (&[], &[Byte(6, 0, 9)], 6, (5, 4)),
            (&[], &[Byte(6, 0, 0), Number(6, 4, 6), Number(6, 8, 6), Number(6, 12, 6)], 6, (5, 4)),
            (&[], &[Byte(3, 0, 9)], 6, (5, 4)),
            // What names nothing: other numbers, fields, free bytes, unknown kinds, unused records.
            (&[], &[Number(1, 4, 16_777_222)], 6, (5, 4)),
            (&[], &[Number(1, 4, 65_542)], 6, (5, 4)),
            (&[], &[Number(3, 8, 6)], 6, (5, 4)),
            (&[], &[Number(4, 12, 6), Number(6, 8, 6), Number(6, 12, 6)], 6, (5, 4)),
            (&[], &[Byte(3, 0, 2), Number(3, 8, 6)], 6, (5, 4)),
            (&[], &[Number(2, 16, 6)], 6, (5, 4)),
            (&[], &[Number(0, 12, 6)], 6, (5, 4)),
            (&[], &[Byte(4, 0, 9), Number(4, 8, 6)], 6, (5, 4)),
            (&[], &[Byte(4, 0, 9), Number(4, 4, 6)], 6, (5, 4)),
            (&[0; 32], &[Byte(7, 0, 5), Number(7, 4, 6)], 6, (5, 4)),
            // Named by itself alone.
            (&[], &[Number(5, 4, 0), Number(6, 4, 6)], 6, (6, 4)),
            (&[], &[Number(5, 4, 0), Byte(6, 0, 1), Number(6, 8, 6)], 6, (6, 8)),
            (&[], &[Number(5, 4, 0), Byte(6, 0, 1), Number(6, 12, 6)], 6, (6, 12)),
            // Next links of kinds 1, 4 and 2; bytes 12-15 of kinds 4 and 2; a plant's bytes 16-19.
            (&[], &[Number(5, 4, 0), Number(1, 4, 6)], 6, (1, 4)),
            (&[], &[Number(5, 4, 0), Number(3, 4, 6)], 6, (3, 4)),
            (&[], &[Number(5, 4, 0), Byte(3, 0, 2), Number(3, 4, 6)], 6, (3, 4)),
            (&[], &[Number(3, 12, 6), Number(1, 16, 6)], 6, (5, 4)),
            (&[], &[Byte(3, 0, 2), Number(3, 12, 6)], 6, (5, 4)),
        ];
        let taken = |bytes: &[u8]| {
            let mut later = bytes.to_vec();
            (take_back(&mut later), later)
        };
        let expected = |bytes: &[u8], last: usize, (holder, at): (usize, usize)| {
            let mut later = bytes.to_vec();
            later[RECORD * last..][..RECORD].fill(0);
            set(&mut later, &[Number(holder, at, 0), Number(0, 4, last as i64)]);
            (0, later)
        };
        for (row, &(added, changes, last, link)) in rows.iter().enumerate() {
            let mut bytes = [&hex(CASE_A)[..], added].concat();
            set(&mut bytes, changes);
            tests.same(&format!("F 17 a, row {row}"), taken(&bytes), expected(&bytes, last, link));
        }

        let rows: &[(&str, &[Set], u32)] = &[
            ("by itself and another", &[Number(6, 4, 6)], 19),
            ("by itself twice", &[Number(5, 4, 0), Byte(6, 0, 3), Number(6, 4, 6), Number(6, 8, 6)], 19),
            ("by none", &[Number(5, 4, 0)], 19),
            ("by two", &[Number(4, 4, 6)], 19),
            ("by the head and another", &[Number(0, 8, 6)], 19),
            ("by two links of one record", &[Number(5, 4, 0), Number(2, 4, 6), Number(2, 8, 6)], 19),
            ("by plant and measure", &[Number(5, 4, 0), Number(2, 12, 6), Number(1, 12, 6)], 19),
            ("by kind 9 only", &[Byte(5, 0, 9)], 19),
            ("by kind 0 only", &[Byte(5, 0, 0)], 19),
            ("by kind 6 only", &[Byte(5, 0, 6)], 19),
            ("the head alone", &[Number(0, 4, 1)], 19),
            ("the head alone, zero link", &[Number(0, 4, 1), Number(0, 8, 0)], 19),
            ("text, the head alone", &[Byte(0, 0, 66), Number(0, 4, 1)], 1),
            ("text, by none", &[Byte(0, 0, 66), Number(5, 4, 0)], 1),
            ("U = 0", &[Number(0, 4, 0)], 1),
            ("U = 8", &[Number(0, 4, 8)], 1),
        ];
        for &(name, changes, number) in rows {
            let bytes = case_a(changes);
            tests.same(&format!("F 17 a, {name}"), taken(&bytes), (number, bytes));
        }
        for length in [33, 0] {
            let bytes = hex(CASE_A)[..length].to_vec();
            tests.same(&format!("F 17 a, cut to {length} bytes"), taken(&bytes), (1, bytes));
        }

        let month = filed((OTHER, SPITZ, 1_000_000), (NEGATIVE, 2), &vec![quarter(1_000, 0, 0, 3_000); 2_977]);
        tests.same("F 17 month", taken(&month) == expected(&month, 2_979, (2_978, 4)), true);

        let mut shared = vec![0; RECORD];
        fresh(&mut shared);
        set(&mut shared, &[Number(0, 4, 94), Number(0, 8, 1)]);
        shared.extend(record(PLANT, OTHER, SPITZ, &[(12, 2), (16, 1_000_000)]));
        for n in 2..=47 {
            shared.extend(record(MEASURE, NEGATIVE, 2, &[(4, (n + 1) % 48), (12, 48)]));
        }
        for n in 0..=45 {
            shared.extend(record(QUARTER, 0, 0, &[(4, (49 + n) % 94), (8, n), (20, 3 * n)]));
        }
        tests.same("F 15 shared, audit", audit(&shared), 17);
        tests.same("F 17 shared", taken(&shared), expected(&shared, 93, (92, 4)));
    }

    /// F 17, the worked case and 'What follows': an append and a filed archive taken back.
    fn section_17_around_append(tests: &mut Tests) {
        let before = one_more(hex(CASE_A));
        let mut bytes = before.clone();
        let numbers = [append(&mut bytes, 2, &quarter(0, 0, 0, 0)), take_back(&mut bytes)];
        tests.same("F 17 append, take back", (numbers, &bytes), ([0, 0], &before));
        let mut again = case_a(&[Number(5, 4, 0), Number(0, 4, 6)]);
        again[RECORD * 6..].fill(0);
        tests.same("F 17 take back again", (take_back(&mut bytes), bytes), (0, one_more(again)));

        // What stood in record U is lost; the rest is as before.
        let mut bytes = [&hex(CASE_A)[..], &[0xff; 64]].concat();
        let mut expected = bytes.clone();
        expected[RECORD * 7..RECORD * 8].fill(0);
        let numbers = [append(&mut bytes, 2, &quarter(0, 0, 0, 0)), take_back(&mut bytes)];
        tests.same("F 17 append, take back over ff", (numbers, bytes), ([0, 0], expected));

        // Record 6, after 4 and before 5, is taken back whatever it names; audit then misses record 5.
        let mut bytes = case_a(&[Number(4, 4, 6), Number(6, 4, 5), Number(5, 4, 0)]);
        tests.same("F 17 own link", [audit(&bytes), take_back(&mut bytes), audit(&bytes)], [2, 0, 17]);

        // Down to the fresh archive, sound after each call; then 19.
        let mut bytes = wind(2_000_000, &vec![before_quarter(900_000, 20); 4], &[quarter(350_000, 0, 30, 0)]);
        let mut empty = vec![0; bytes.len()];
        fresh(&mut empty);
        let numbers: Vec<[u32; 2]> = (0..13).map(|_| [take_back(&mut bytes), audit(&bytes)]).collect();
        let mut expected = vec![[0, 0]; 12];
        expected.push([19, 0]);
        tests.same("F 17 down to the fresh archive", (numbers, bytes), (expected, empty));
    }

    /// The rows of F 18 and R 15; runs of a list are (how often, number).
    fn corrections(tests: &mut Tests) {
        type Runs<'a> = &'a [(usize, i64)];
        type Row<'a> = (Runs<'a>, Runs<'a>, Runs<'a>, Result<(i64, u64), Refusal>);
        const E: i64 = MOST_ENERGY;
        const P: i64 = MOST_PRICE;
        const FAR: i64 = 4_294_967_296;
        let rows: &[Row] = &[
            (&[(1, -1)], &[(1, 0)], &[(1, 1)], Ok((-1, 999_999))),
            (&[(3, -1)], &[(3, 0)], &[(3, 1)], Ok((-1, 999_997))),
            (&[(1, 1)], &[(1, 0)], &[(1, 1)], Ok((0, 1))),
            (&[(1, 0)], &[(1, 1)], &[(1, 1)], Ok((-1, 999_999))),
            (&[(1, -1)], &[(1, 0)], &[(1, -1)], Ok((0, 1))),
            (&[(1, 250_000)], &[(1, 100_000)], &[(1, -8_512)], Ok((-1_277, 200_000))),
            (&[(1, 74_999), (1, 75_000), (1, 75_000)], &[(3, 75_000)], &[(3, 8_950)], Ok((-1, 991_050))),
            (&[(1, 1_000_000)], &[(1, 0)], &[(1, -3)], Ok((-3, 0))),
            (&[(2, 600_000)], &[(2, 0)], &[(2, 1)], Ok((1, 200_000))),
            (
                &[(1, 10), (1, 1), (1, 0)],
                &[(1, 0), (1, 5), (1, -7)],
                &[(1, 300_000), (1, 200_000), (1, -600_000)],
                Ok((-2, 0)),
            ),
            (&[], &[], &[], Ok((0, 0))),
            (&[(1, E)], &[(1, -E)], &[(1, P)], Ok((2_000_000_000, 0))),
            (&[(1, -E)], &[(1, E)], &[(1, P)], Ok((-2_000_000_000, 0))),
            (&[(1, 1)], &[(1, 0)], &[(1, -P)], Ok((-1, 0))),
            (&[(10, E), (1, 999_999_999)], &[(11, -E)], &[(10, P), (1, 999_999)], Ok((21_999_997_999, 1))),
            (&[(19, E), (1, -1)], &[(19, -E), (1, 0)], &[(19, P), (1, 1)], Ok((37_999_999_999, 999_999))),
            (&[(2_976, E)], &[(2_976, -E)], &[(2_976, P)], Ok((5_952_000_000_000, 0))),
            (&[(2_976, E)], &[(2_976, -E)], &[(2_975, P), (1, 999_999)], Ok((5_951_999_998_000, 0))),
            (&[(2_976, -E)], &[(2_976, E)], &[(2_976, P)], Ok((-5_952_000_000_000, 0))),
            (&[(1, E + 1)], &[(1, 0)], &[(1, 1)], Err(20)),
            (&[(1, -E - 1)], &[(1, 0)], &[(1, 1)], Err(20)),
            (&[(1, 0)], &[(1, E + 1)], &[(1, 1)], Err(20)),
            (&[(1, 0)], &[(1, -E - 1)], &[(1, 1)], Err(20)),
            (&[(1, E + 1)], &[(1, E + 1)], &[(1, 1)], Err(20)),
            (&[(1, FAR)], &[(1, 0)], &[(1, 0)], Err(20)),
            (&[(1, 0)], &[(1, FAR)], &[(1, 0)], Err(20)),
            (&[(1, i64::MAX)], &[(1, i64::MIN)], &[(1, 0)], Err(20)),
            (&[(1, 0)], &[(1, 0)], &[(1, P + 1)], Err(21)),
            (&[(1, 0)], &[(1, 0)], &[(1, -P - 1)], Err(21)),
            (&[(1, 0)], &[(1, 0)], &[(1, FAR)], Err(21)),
            (&[(1, 0), (1, 0)], &[(1, 0), (1, 0)], &[(1, 0), (1, P + 1)], Err(21)),
            (&[(1, 0), (1, E + 1)], &[(1, 0), (1, 0)], &[(1, P + 1), (1, 0)], Err(20)),
            (&[(1, 0), (1, 0)], &[(1, 0), (1, E + 1)], &[(1, P + 1), (1, 0)], Err(20)),
            (&[(1, E + 1)], &[(1, 0)], &[(1, P + 1)], Err(20)),
            (&[(2_977, 0)], &[(2_977, 0)], &[(2_977, 0)], Err(20)),
            (&[(2_977, 0)], &[(2_977, 0)], &[(2_977, P + 1)], Err(20)),
            (&[(1, 0)], &[], &[], Err(22)),
            (&[], &[(1, 0)], &[], Err(22)),
            (&[], &[], &[(1, 0)], Err(22)),
            (&[(1, 0), (1, 0)], &[(1, 0)], &[(1, 0), (1, 0)], Err(22)),
            (&[(1, 0), (1, 0)], &[(1, 0), (1, 0)], &[(1, 5)], Err(22)),
            (&[(1, 0)], &[(1, 0), (1, 0)], &[(1, 0), (1, 0)], Err(22)),
            (&[(1, 5)], &[], &[(1, 7)], Err(22)),
            (&[(1, E + 1), (1, 0)], &[(1, 0)], &[(1, 0)], Err(22)),
            (&[(1, 0)], &[], &[(1, P + 1)], Err(22)),
            (&[(2_977, 0)], &[], &[], Err(22)),
        ];
        let of_rules: &[Row] = &[
            (
                &[(2_976, 75_000)],
                &[(672, 74_800), (672, 75_400), (672, 75_300), (672, 74_999), (288, 0)],
                &[(672, 8_950), (672, 12_034), (672, -1_275), (672, 1), (288, 6_001)],
                Ok((127_846, 781_472)),
            ),
            (&[(672, 75_000)], &[(672, 74_800)], &[(672, 8_950)], Ok((1_202, 880_000))),
            (&[(672, 75_000)], &[(672, 75_400)], &[(672, 12_034)], Ok((-3_235, 260_800))),
            (&[(672, 75_000)], &[(672, 75_300)], &[(672, -1_275)], Ok((257, 40_000))),
            (&[(672, 75_000)], &[(672, 74_999)], &[(672, 1)], Ok((0, 672))),
            (&[(288, 75_000)], &[(288, 0)], &[(288, 6_001)], Ok((129_621, 600_000))),
            (&[(1, 75_000)], &[(1, 74_800)], &[(1, 8_950)], Ok((1, 790_000))),
            (&[(1, 75_000)], &[(1, 75_400)], &[(1, 12_034)], Ok((-5, 186_400))),
            (&[(1, 74_999), (1, 75_000), (1, 75_000)], &[(3, 75_000)], &[(3, 8_950)], Ok((-1, 991_050))),
            (&[(1, -25_000)], &[(1, -24_000)], &[(1, 9_000)], Ok((-9, 0))),
            (&[(1, -25_000)], &[(1, -24_000)], &[(1, 9_001)], Ok((-10, 999_000))),
        ];
        let list = |runs: Runs| runs.iter().flat_map(|&(times, number)| vec![number; times]).collect::<Vec<i64>>();
        for (section, rows) in [("F 18", rows), ("R 15", of_rules)] {
            for (row, &(amounts, balanced, prices, results)) in rows.iter().enumerate() {
                let (amounts, balanced, prices) = (list(amounts), list(balanced), list(prices));
                let (mut cents, mut remainder) = (-77, 88);
                let number = correction_c(&amounts, &balanced, &prices, &mut cents, &mut remainder);
                let expected = results.map_or_else(|number| (number, -77, 88), |(cents, rest)| (0, cents, rest));
                tests.same(&format!("{section} row {row}"), (number, cents, remainder), expected);
            }
        }
    }

    /// Amounts, total and links, or the refusal number.
    type Outcome<'a> = Result<(&'a [i64], i64, u64), Refusal>;

    /// One preview from C with owner, new record, p and k, on a list and a result part full of ee, of these lengths:
    /// what it gives, and the line of its case, which covers every byte of list, result part and archive.
    fn preview(
        tests: &mut Tests,
        name: &str,
        bytes: &[u8],
        (owner, new, p, k): (u64, &[u8], u64, u64),
        (list_length, result_length): (usize, usize),
        expected: Outcome,
    ) {
        let (mut list, mut result) = (vec![0xee; list_length], vec![0xee; result_length]);
        let (mut later_list, mut later_result) = (list.clone(), result.clone());
        let input = case(10, p, k, [&list, &result, bytes, &[&owner.to_le_bytes()[..], new].concat()]);

        let (number, amounts) = match expected {
            Ok((amounts, _, _)) => (0, amounts),
            Err(number) => (number, &[] as &[i64]),
        };
        if let Ok((_, total, links)) = expected {
            let numbers = [amounts.len() as i64, total, links as i64];
            later_list[..8 * amounts.len()].copy_from_slice(&amounts.iter().flat_map(le_bytes).collect::<Vec<u8>>());
            later_result = numbers.iter().flat_map(le_bytes).collect();
        }

        let found = preview_c(bytes, owner, new, p, k, &mut list, &mut result);
        let places = &numbers_of_eight(&list)[..amounts.len()];
        tests.same(name, (found, places, &result), (number, amounts, &later_result));

        let mut output = Vec::new();
        let ended = run_cases(&mut &input[..], &mut output).is_ok();
        let [list, result, archive] = [&later_list[..], &later_result, bytes].map(hash);
        let line = format!("10 {number} {list:016x} {result:016x} {archive:016x}\n");
        tests.same(&format!("{name}, every byte"), (ended, String::from_utf8(output).unwrap()), (true, line));
    }

    fn le_bytes(number: &i64) -> [u8; 8] {
        number.to_le_bytes()
    }

    /// An archive with records of one byte added at the end, then changed.
    fn changed(bytes: &[u8], (records, byte): (usize, u8), changes: &[Set]) -> Vec<u8> {
        let mut bytes = [bytes, &vec![byte; RECORD * records]].concat();
        set(&mut bytes, changes);
        bytes
    }

    /// The rows of F 19.
    fn section_19(tests: &mut Tests) {
        const FOURTH: &str = "05 07 2b 00 00 00 00 00 22 a1 07";
        const BEFORE_G: &str = "04 01 00 00 00 00 00 00 e0 93 04 00 00 00 00 00 f4 01";
        const OF_POSITIVE: &str = "05 02 23 00 00 00 00 00 9c 0f 0e 00 a0 bb 0d 00 00 00 00 00 21 a1 07";
        const OF_OTHER: &str = "05 01 0c 00 00 00 00 00 00 1a 06";
        const OF_BOTH: &str = "05 01 0c 00 00 00 00 00 00 1a 06 00 c0 27 09 00 00 00 00 00 30 8c 11";
        const OF_MONTH: &str = "05 00 00 00 00 00 00 00 e8 03 00 00 00 00 00 00 00 00 00 00 b8 0b";
        const PLANT_2: &str = "01 03 02 00 00 00 00 00 00 00 00 00 00 00 00 00 40 42 0f";
        const THREE: &[i64] = &[74_999, 75_000, 75_000];
        const UNEVEN: Outcome = Ok((&[74_999, 75_000, 75_000, 74_999], 299_998, 7));
        const EVEN: Outcome = Ok((&[74_999, 75_000, 75_000, 75_000], 299_999, 7));

        let [a, b, g, other, positive] = [CASE_A, ARCHIVE_B, ARCHIVE_G, ARCHIVE_OTHER, ARCHIVE_POSITIVE].map(dump);
        let month = filed((OTHER, SPITZ, 1_000_000), (NEGATIVE, 2), &vec![quarter(1_000, 0, 0, 3_000); 2_977]);
        let mut parts: Vec<Vec<u8>> = (0..=96).map(|n| before_quarter(1_000 * n + n * n, 5 * n)).collect();
        parts.push(record(QUARTER, 6, 48, &[(16, 701)]));
        let day = filed((SOLAR, SPITZ, 1_000_000), (NEGATIVE, 2), &parts);
        let all_500 = vec![500; 2_976];

        // Archive; records added and their bytes, changes; owner, new record, p and k.
        type Row<'a> = (&'a [u8], (usize, u8), &'a [Set], u64, &'a str, (u64, u64), Outcome<'a>);
        let rows: &[Row] = &[
            (
                &a,
                (0, 0),
                &[Number(0, 4, 6), Number(5, 4, 0)],
                2,
                "05 07 2a 00 00 00 00 00 22 a1 07",
                (1, 1),
                Ok((THREE, 224_999, 6)),
            ),
            (&a, (1, 0), &[], 2, "05 07 2b 00 00 00 00 00 20 a1 07", (1, 1), EVEN),
            (&a, (2, 9), &[], 2, "05 07 2b 00 00 00 00 00 20 a1 07", (1, 1), EVEN),
            (&a, (1, 9), &[], 2, "05 0d 60", (1, 1), Ok((&[74_999, 75_000, 75_000, 200_000], 424_999, 7))),
            (
                &a,
                (0, 0),
                &[Number(0, 4, 4), Number(2, 12, 0)],
                2,
                "05 07 28 00 00 00 00 00 21 a1 07",
                (1, 1),
                Ok((&[74_999], 74_999, 4)),
            ),
            (&a, (1, 0), &[], 2, "04 01 00 00 00 00 00 00 40 42 0f", (1, 1), Ok((THREE, 224_999, 7))),
            (&a, (1, 9), &[], 1, "02 00 00 00 00 00 00 00 1e", (1, 1), Ok((THREE, 224_999, 6))),
            (&a, (1, 0), &[], 1, "03 02 02", (1, 1), Ok((THREE, 224_999, 6))),
            (&a, (1, 0), &[], 1, "03 02 02", (1, 2), Err(11)),
            (&a, (1, 0), &[], 0, PLANT_2, (2, 1), Err(5)),
            (
                &b,
                (1, 0),
                &[Number(7, 4, 0)],
                4,
                "04 01 00 00 00 00 00 00 a0 bb 0d 00 00 00 00 00 64",
                (1, 1),
                Ok((&[250_000], 250_000, 9)),
            ),
            (
                &b,
                (1, 0),
                &[Number(2, 4, 0)],
                1,
                "02 00 00 00 00 00 00 00 c8 00 00 00 80 84 1e",
                (1, 1),
                Ok((&[250_000], 250_000, 9)),
            ),
            (
                &g,
                (1, 0),
                &[Number(3, 16, 0), Number(4, 16, 0), Number(5, 16, 0)],
                2,
                BEFORE_G,
                (1, 1),
                Ok((&[460_000], 460_000, 7)),
            ),
            (&positive, (1, 9), &[], 2, OF_POSITIVE, (1, 1), Ok((&[-94_999, -100_000, 0, -100_000], -294_999, 6))),
            (&other, (1, 9), &[], 7, OF_OTHER, (2, 1), Ok((&[60_000, 60_002, 60_032], 180_034, 9))),
            (&other, (1, 9), &[], 7, OF_OTHER, (1, 1), Ok((&[137_462, 137_500, 0], 274_962, 5))),
            // Links that are U already.
            (
                &other,
                (1, 9),
                &[Number(5, 4, 13)],
                7,
                OF_BOTH,
                (1, 1),
                Ok((&[137_462, 137_500, 0, 137_500], 412_462, 6)),
            ),
            (&a, (1, 9), &[Number(1, 8, 7)], 2, FOURTH, (1, 1), UNEVEN),
            (&a, (1, 9), &[Number(3, 4, 7)], 2, FOURTH, (1, 1), Err(3)),
            (&a, (1, 0), &[Number(1, 12, 0)], 2, FOURTH, (1, 1), Err(5)),
            // All four bytes of U and of the link.
            (&a, (249, 0), &[Number(0, 4, 255)], 2, FOURTH, (1, 1), UNEVEN),
            (&a, (251, 9), &[Number(0, 4, 257)], 2, FOURTH, (1, 1), UNEVEN),
            // Counts.
            (
                &month,
                (0, 0),
                &[Number(0, 4, 2_978), Number(2_977, 4, 0)],
                2,
                OF_MONTH,
                (1, 1),
                Ok((&all_500, 1_488_000, 2_978)),
            ),
            (&month, (0, 0), &[Number(0, 4, 2_979), Number(2_978, 4, 0)], 2, OF_MONTH, (1, 1), Err(8)),
            (&day, (1, 0), &[Number(98, 4, 0)], 2, "04 01", (1, 1), Err(8)),
            // Settle's refusals.
            (&a, (1, 9), &[], 2, "05 07 2b 00 00 00 00 00 01 ca 9a 3b", (1, 1), Err(9)),
            (&b, (1, 0), &[], 1, "02 00 00 00 00 00 00 00 c8", (1, 1), Err(10)),
            (&a, (1, 0), &[Number(1, 16, 99_999)], 2, FOURTH, (1, 1), Err(6)),
            (&a, (1, 0), &[Number(2, 16, 3_506_398)], 2, FOURTH, (1, 1), Err(18)),
            (&a, (1, 9), &[], 2, FOURTH, (0, 1), Err(4)),
            (&a, (1, 0), &[], 2, FOURTH, (1, 2), Err(5)),
            (&a, (1, 0), &[], 2, FOURTH, (4_294_967_297, 1), Err(4)),
            // Append's refusals.
            (&a, (1, 0), &[], 4_294_967_298, FOURTH, (1, 1), Err(15)),
            (&a, (0, 0), &[], 2, FOURTH, (1, 1), Err(16)),
            (&a, (0, 0), &[], 2, FOURTH, (0, 1), Err(16)),
            (&a, (0, 0), &[], 1, FOURTH, (1, 1), Err(15)),
            (&a, (1, 0), &[], 1, FOURTH, (1, 1), Err(15)),
            (&a, (1, 0), &[], 1, FOURTH, (1, 2), Err(15)),
            (&a, (1, 0), &[], 2, "06", (1, 1), Err(14)),
            (&other, (1, 0), &[Number(12, 4, 12)], 7, FOURTH, (1, 1), Err(2)),
            (&other, (1, 0), &[Byte(12, 0, 4)], 7, FOURTH, (1, 1), Err(3)),
            (&a, (1, 0), &[Number(6, 4, 7)], 2, FOURTH, (1, 1), Err(2)),
        ];
        for (row, &(bytes, added, changes, owner, new, (p, k), expected)) in rows.iter().enumerate() {
            let bytes = changed(bytes, added, changes);
            let call = (owner, &padded(new)[..], p, k);
            preview(tests, &format!("F 19 row {row}"), &bytes, call, (24_000, 24), expected);
        }

        // All over `a` with one more record, p = 1, k = 1: the byte of that record, changes, owner; lengths in bytes of
        // list and result part.
        type Lent<'a> = (u8, &'a [Set], u64, (usize, usize), Outcome<'a>);
        let rows: &[Lent] = &[
            (0, &[Number(2, 16, 3_506_398)], 2, (24, 24), Err(18)),
            (9, &[], 2, (24, 24), Err(13)),
            (9, &[], 2, (39, 24), UNEVEN),
            (9, &[], 2, (24_000, 25), Err(13)),
            (0, &[], 1, (16, 24), Err(15)),
            (0, &[], 1, (24_000, 0), Err(15)),
        ];
        for &(byte, changes, owner, lengths, expected) in rows {
            let bytes = changed(&a, (1, byte), changes);
            let name = format!("F 19 owner {owner}, list and result part of {lengths:?}");
            preview(tests, &name, &bytes, (owner, &padded(FOURTH), 1, 1), lengths, expected);
        }
        let new = &padded("05")[..31];
        preview(tests, "F 19 record of 31 bytes", &one_more(a.clone()), (2, new, 1, 1), (24_000, 24), Err(14));
        preview(tests, "F 19 cut to 33 bytes", &a[..33], (9, &[9, 0, 0], 0, 0), (0, 0), Err(1));

        // What the rows say of settle alone, with p = 1, k = 1.
        let rows: &[(&[u8], &[Set], u32)] = &[
            (&a, &[Number(0, 4, 4), Number(2, 12, 0)], 8),
            (&b, &[Number(7, 4, 0)], 11),
            (&b, &[Number(2, 4, 0)], 10),
            (&g, &[Number(3, 16, 0), Number(4, 16, 0), Number(5, 16, 0)], 12),
            (&other, &[Number(5, 4, 13)], 2),
            (&a, &[], 0),
            (&other, &[Number(12, 4, 12)], 0),
        ];
        for (row, &(bytes, changes, expected)) in rows.iter().enumerate() {
            let name = format!("F 19 settle alone, row {row}");
            tests.same(&name, number(&changed(bytes, (1, 0), changes), 1, 1), expected);
        }
    }

    /// F 19, the worked case and the statements outside the table.
    fn section_19_around_the_rows(tests: &mut Tests) {
        let mut bytes = hex(CASE_A);
        tests.same("F 19 third quarter taken back", (take_back(&mut bytes), unsigned(&bytes, USED)), (0, 6));
        let third = quarter(500_002, 0, 0, 0);
        let three = [74_999, 75_000, 75_000];
        let two = (vec![74_999, 75_000], (0, 2, 149_999, 5));
        tests.same("F 19 settle before", (amounts(&bytes), results(&bytes, 1, 1)), two.clone());
        preview(tests, "F 19 case a", &bytes, (2, &third, 1, 1), (24, 24), Ok((&three, 224_999, 6)));
        tests.same("F 19 settle after", (amounts(&bytes), results(&bytes, 1, 1)), two);

        // Two links name the new record: take back is 19.
        let mut bytes = changed(&hex(CASE_A), (1, 9), &[Number(1, 8, 7)]);
        tests.same("F 19 no take back", [append(&mut bytes, 2, &third), take_back(&mut bytes)], [0, 19]);

        // A new measure without quarters is 8 where no before-quarter is needed, if nothing comes first.
        let bytes = one_more(dump(ARCHIVE_OTHER));
        for (direction, expected) in [(NEGATIVE, 8), (3, 7)] {
            let new = record(MEASURE, direction, 1, &[]);
            let name = format!("F 19 new measure, direction {direction}");
            preview(tests, &name, &bytes, (1, &new, 1, 2), (24, 24), Err(expected));
        }

        // 13 needs a place for the new record only if it is a quarter of the measure.
        let bytes = one_more(hex(CASE_A));
        let new = before_quarter(1_000_000, 0);
        preview(tests, "F 19 no place", &bytes, (2, &new, 1, 1), (24, 24), Ok((&three, 224_999, 7)));

        // k is not cut to 32 bits (F 6); a record of 33 bytes is 14 (F 9); settle's 9 comes before 13 for the result
        // part (F 7).
        let longer = [&third[..], &[0]].concat();
        preview(tests, "F 19 k = 4,294,967,297", &bytes, (2, &third, 1, 4_294_967_297), (32, 24), Err(5));
        preview(tests, "F 19 record of 33 bytes", &bytes, (2, &longer, 1, 1), (32, 24), Err(14));
        let new = quarter(1_000_000_001, 0, 0, 0);
        preview(tests, "F 19 9 before 13", &bytes, (2, &new, 1, 1), (32, 25), Err(9));
    }

    /// One case as it stands in the input.
    fn case(call: u8, a: u64, b: u64, parts: [&[u8]; 4]) -> Vec<u8> {
        let mut bytes = vec![call];
        bytes.extend(a.to_le_bytes());
        bytes.extend(b.to_le_bytes());
        for part in parts {
            bytes.extend((part.len() as u32).to_le_bytes());
            bytes.extend_from_slice(part);
        }
        bytes
    }

    /// Case a through the reading of cases, each call once.
    fn cases(tests: &mut Tests) {
        tests.same("FNV-1a", [hash(b""), hash(b"foobar")], [0xcbf2_9ce4_8422_2325, 0x8594_4171_f739_67e8]);
        let archive = &hex(CASE_A)[..];
        let mut shorter = case_a(&[Number(5, 4, 0), Number(0, 4, 6)]);
        shorter[RECORD * 6..].fill(0);
        // Owner and new record of a preview.
        let new = [&2u64.to_le_bytes()[..], &quarter(500_002, 0, 0, 0)].concat();
        let input = [
            case(1, 1, 1, [&[0; 24], &[0; 24], archive, &[]]),
            case(2, 6, 0, [&[], &[], archive, &[]]),
            case(2, 7, 0, [&[], &[], archive, &[]]),
            case(3, 0, 0, [&[], &[], &archive[..33], &[]]),
            case(4, 2, 0, [&[], &[], archive, &quarter(0, 0, 0, 0)]),
            case(5, 0, 0, [&[], &[], archive, &[]]),
            case(6, 0, 0, [&[], &[], archive, &[]]),
            case(7, 937_921, 0, [&9_806u32.to_le_bytes(), &[0xee; 8], &[], &[]]),
            case(7, 0, 0, [&[], &[0xff; 8], &[], &[]]),
            case(8, 0, 0, [&[], &[], archive, &[]]),
            case(8, 0, 0, [&[], &[], &archive[..33], &[]]),
            case(9, 0, 0, [&(-1i64).to_le_bytes(), &[0xee; 16], &[0; 8], &1i64.to_le_bytes()]),
            case(9, 0, 0, [&[], &[0xff; 16], &[0; 8], &[]]),
            case(10, 1, 1, [&[0; 24], &[0; 24], archive, &new]),
            case(10, 1, 1, [&[0; 24], &[0; 24], &shorter, &new]),
            case(10, 1, 1, [&[], &[], archive, &new[..8]]),
        ];
        let (_, list, result) = from_c(archive, 24, 24);
        let text = "M 1 1 3 224999 6\nQ 1 74999\nQ 2 75000\nQ 3 75000\n";
        let [zeros, none] = [hash(&[0; 24]), hash(&[])];
        let expected = format!(
            "1 0 {:016x} {:016x}\n2 192\n2 224\n3 1 {:016x}\n4 16 {:016x}\n5 0\n6 {:016x} {}\n7 0 9807\n7 18 {}\n\
            8 0 {:016x}\n8 1 {:016x}\n9 0 -1 999999\n9 22 -1 {}\n\
            10 16 {zeros:016x} {zeros:016x} {:016x}\n10 0 {:016x} {:016x} {:016x}\n\
            10 14 {none:016x} {none:016x} {:016x}\n",
            hash(&list),
            hash(&result),
            hash(&archive[..33]),
            hash(archive),
            hash(text.as_bytes()),
            text.len(),
            u64::MAX,
            hash(&shorter),
            hash(&archive[..33]),
            u64::MAX,
            hash(archive),
            hash(&list),
            hash(&result),
            hash(&shorter),
            hash(archive)
        );
        let mut output = Vec::new();
        let ended = run_cases(&mut &input.concat()[..], &mut output).is_ok();
        tests.same("cases", (ended, String::from_utf8(output).unwrap()), (true, expected));
    }

    pub fn run() -> i32 {
        let mut tests = Tests { passed: 0, failed: 0 };
        cases(&mut tests);
        section_13(&mut tests);
        section_14(&mut tests);
        section_15(&mut tests);
        sections_6_9_12(&mut tests);
        figures(&mut tests);
        factors(&mut tests);
        dates(&mut tests);
        delivery_days(&mut tests);
        section_15_dates(&mut tests);
        dated(&mut tests);
        section_1_of_rules(&mut tests);
        section_15_october(&mut tests);
        section_14_of_rules(&mut tests);
        october(&mut tests);
        section_17(&mut tests);
        section_17_around_append(&mut tests);
        corrections(&mut tests);
        section_19(&mut tests);
        section_19_around_the_rows(&mut tests);
        sizes(&mut tests);
        println!("{} passed, {} failed", tests.passed, tests.failed);
        (tests.failed != 0) as i32
    }
}
