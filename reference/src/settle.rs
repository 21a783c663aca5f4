//! Document 01, "From readings to exact fractions" and settle in "Calls on the archive"; request 1's dated measures and
//! request 3's rules of October 2026.

use crate::archive::*;
use crate::calendar::{QuarterHour, LAST};
use std::ops::RangeInclusive;

/// What settle gives besides the list.
#[derive(Clone, Copy, Debug, PartialEq, Eq)]
pub struct Answer {
    pub number: Refusal,
    pub count: u64,
    pub total: i64,
    pub links: u64,
}

impl Answer {
    /// A refusal has zero for every other result.
    pub fn refused(number: Refusal) -> Answer {
        Answer { number, count: 0, total: 0, links: 0 }
    }
}

/// Settle on a list of numbers.
pub fn settle(archive: &[u8], p: u64, k: u64, list: &mut [i64]) -> Answer {
    let settled = match settled(archive, p, k) {
        Ok(settled) => settled,
        Err(number) => return Answer::refused(number),
    };
    let count = settled.amounts.len();
    if list.len() < count {
        return Answer::refused(13);
    }
    list[..count].copy_from_slice(&settled.amounts);
    Answer { number: 0, count: count as u64, total: settled.total(), links: settled.links }
}

/// Settle as the host calls it: list and results as bytes.
pub fn host_settle(archive: &[u8], p: u64, k: u64, list: &mut [u8], result: &mut [u8]) -> Refusal {
    let settled = match settled(archive, p, k) {
        Ok(settled) => settled,
        Err(number) => return number,
    };
    let places = list.len() / 8;
    if places < settled.amounts.len() || result.len() != 24 {
        return 13;
    }
    for (place, amount) in settled.amounts.iter().enumerate() {
        list[8 * place..8 * place + 8].copy_from_slice(&amount.to_le_bytes());
    }
    result[0..8].copy_from_slice(&(settled.amounts.len() as u64).to_le_bytes());
    result[8..16].copy_from_slice(&settled.total().to_le_bytes());
    result[16..24].copy_from_slice(&settled.links.to_le_bytes());
    0
}

/// Amounts and links of a measure, before the list is looked at.
pub struct Settled {
    pub amounts: Vec<i64>,
    pub links: u64,
}

impl Settled {
    /// The total is the sum of the amounts.
    pub fn total(&self) -> i64 {
        self.amounts.iter().sum()
    }
}

// Ranges.
pub const NOMINAL: RangeInclusive<i128> = 100_000..=1_000_000_000;
pub const POWER: RangeInclusive<i128> = -1_000_000_000..=1_000_000_000;
pub const CURVE_POWER: RangeInclusive<i128> = 0..=1_000_000_000;
pub const SPEED: RangeInclusive<i128> = 0..=1_000;
pub const IRRADIANCE: RangeInclusive<i128> = 0..=2_000;

/// 1 October 2026, 00:00: the first quarter of the measures that request 3 is about is this one or a later one.
pub const OCTOBER: u64 = 937_921;
/// The number that means that there is no reading of request 3.
pub const NONE: i128 = 2_147_483_647;

/// Refusal 9 unless the value is in its range.
fn within(value: i128, range: RangeInclusive<i128>) -> Result<(), Refusal> {
    if range.contains(&value) {
        Ok(())
    } else {
        Err(9)
    }
}

/// The six pairings of technology and variant.
#[derive(Clone, Copy, Debug, PartialEq, Eq, Hash, PartialOrd, Ord)]
pub enum Pairing {
    WindSpitz,
    WindPauschal,
    SolarSpitz,
    SolarPauschal,
    OtherSpitz,
    OtherPauschal,
}

impl Pairing {
    pub fn of(technology: u8, variant: u8) -> Option<Pairing> {
        match (technology, variant) {
            (1, 1) => Some(Pairing::WindSpitz),
            (1, 2) => Some(Pairing::WindPauschal),
            (2, 1) => Some(Pairing::SolarSpitz),
            (2, 2) => Some(Pairing::SolarPauschal),
            (3, 1) => Some(Pairing::OtherSpitz),
            (3, 2) => Some(Pairing::OtherPauschal),
            _ => None,
        }
    }
}

/// Numbers of plant p and its measure k.
fn sheet(archive: &[u8], p: u64, k: u64) -> Option<(u64, u64)> {
    let used = used(archive).ok()?;
    let plant = place(archive, used, 0, FIRST, PLANT, p, 4).ok()?;
    let measure = place(archive, used, plant, SECOND, MEASURE, k, 5).ok()?;
    Some((plant, measure))
}

/// Pairing, direction and execution of a measure.
pub fn terms(archive: &[u8], p: u64, k: u64) -> Option<(Pairing, u8, u8)> {
    let (plant, measure) = sheet(archive, p, k)?;
    let (plant, measure) = (record(archive, plant), record(archive, measure));
    Some((Pairing::of(plant[1], plant[2])?, measure[1], measure[2]))
}

/// A measure's first quarter, 0 if it is undated.
pub fn first_quarter(archive: &[u8], p: u64, k: u64) -> Option<u64> {
    sheet(archive, p, k).map(|(_, measure)| link(record(archive, measure), DATE))
}

/// A measure's before-quarters.
pub fn before_quarters(archive: &[u8], p: u64, k: u64) -> Option<Vec<&[u8]>> {
    below(archive, p, k, FIRST, BEFORE)
}

/// A measure's quarters.
pub fn quarters(archive: &[u8], p: u64, k: u64) -> Option<Vec<&[u8]>> {
    below(archive, p, k, SECOND, QUARTER)
}

fn below(archive: &[u8], p: u64, k: u64, at: usize, kind: u8) -> Option<Vec<&[u8]>> {
    let (_, measure) = sheet(archive, p, k)?;
    let numbers = chain(archive, used(archive).ok()?, measure, at, kind).ok()?;
    Some(numbers.iter().map(|&number| record(archive, number)).collect())
}

/// A fraction, its denominator above 0.
#[derive(Clone, Copy, Debug, PartialEq, Eq)]
pub struct Fraction {
    pub numerator: i128,
    pub denominator: i128,
}

/// What the reference power of a measure's quarters is made from.
enum Reference {
    Wind { curve: Vec<(i128, i128)>, a: i128, b: i128, nominal: i128 },
    Carried(i128),
    Solar { a: i128, b: i128 },
    Factor { nominal: i128, first: u64 },
    Planned,
}

/// Curve: at a point its power, between two points the straight line rounded down, outside 0.
pub fn curve_power(curve: &[(i128, i128)], speed: i128) -> i128 {
    for &(at, power) in curve {
        if at == speed {
            return power;
        }
    }
    for pair in curve.windows(2) {
        let (low, low_power) = pair[0];
        let (high, high_power) = pair[1];
        if low < speed && speed < high {
            let rise = (high_power - low_power) * (speed - low);
            return low_power + rise.div_euclid(high - low);
        }
    }
    0
}

/// Factors of solar Pauschal, in ten-thousandths.
pub fn factor(month: u8, quarter: u8) -> i128 {
    let summer = (3..=10).contains(&month);
    match (summer, quarter) {
        (true, 24..=35) => 2_456,
        (true, 36..=59) => 6_189,
        (true, 60..=75) => 2_456,
        (true, _) => 0,
        (false, 36..=39) => 2_796,
        (false, 40..=55) => 5_030,
        (false, 56..=66) => 2_796,
        (false, _) => 0,
    }
}

/// Month and quarter of the day of a measure's quarter `at`: dated by the first one's number, else its own bytes.
fn month_and_time(first: u64, at: u64, quarter: &[u8]) -> (u8, u8) {
    if first == 0 {
        return (quarter[1], quarter[2]);
    }
    let number = QuarterHour(first + at);
    (number.month(), number.time())
}

/// Reference power T of a measure's quarter `at`, counted from 0.
fn reference_power(reference: &Reference, at: u64, quarter: &[u8]) -> Fraction {
    match reference {
        Reference::Wind { curve, a, b, nominal } => {
            let t = curve_power(curve, field(quarter, 16));
            // Capped at Pn, which is Pn × B over B.
            Fraction { numerator: (a * t).min(nominal * b), denominator: *b }
        }
        Reference::Carried(power) => Fraction { numerator: *power, denominator: 1 },
        Reference::Solar { a, b } => Fraction { numerator: a * field(quarter, 16), denominator: *b },
        Reference::Factor { nominal, first } => {
            let (month, time) = month_and_time(*first, at, quarter);
            Fraction { numerator: nominal * factor(month, time), denominator: 10_000 }
        }
        Reference::Planned => Fraction { numerator: field(quarter, 20), denominator: 1 },
    }
}

/// Limitation value L of one quarter.
fn limitation(positive: bool, execution: u8, quarter: &[u8]) -> i128 {
    let measured = field(quarter, 8);
    if execution != 1 {
        return measured;
    }
    let limit = field(quarter, 12);
    if positive {
        measured.min(limit)
    } else {
        measured.max(limit)
    }
}

/// The places of request 3's readings that a measure's quarters need. Its first quarter decides for all of them; an
/// undated measure has 0 there.
pub fn reading_places(pairing: Pairing, first: u64) -> &'static [usize] {
    match pairing {
        _ if first < OCTOBER => &[],
        Pairing::WindPauschal => &[NONAVAILABLE, ADJUSTED],
        Pairing::OtherPauschal => &[NONAVAILABLE],
        _ => &[],
    }
}

/// The readings of a quarter that are there.
fn readings<'a>(places: &'a [usize], quarter: &'a [u8]) -> impl Iterator<Item = i128> + 'a {
    places.iter().map(move |&at| field(quarter, at)).filter(|&power| power != NONE)
}

/// Exact magnitude of one quarter.
fn magnitude(positive: bool, reference: Fraction, limitation: i128) -> Fraction {
    let difference = reference.numerator - limitation * reference.denominator;
    let signed = if positive { -difference } else { difference };
    Fraction { numerator: signed.max(0), denominator: 4 * reference.denominator }
}

/// Settle without its list, in the order of "Refused sheets": 1; plants; measures; 6; 7; curve; before-quarters;
/// quarters; 18.
pub fn settled(archive: &[u8], p: u64, k: u64) -> Result<Settled, Refusal> {
    let used = used(archive)?;
    let plant_number = place(archive, used, 0, FIRST, PLANT, p, 4)?;
    let measure_number = place(archive, used, plant_number, SECOND, MEASURE, k, 5)?;
    let plant = record(archive, plant_number);
    let measure = record(archive, measure_number);
    let first = link(measure, DATE);
    let mut links = p + k;

    // 6: technology, variant or Pn.
    let nominal = field(plant, 16);
    let pairing = Pairing::of(plant[1], plant[2]).ok_or(6u32)?;
    if !NOMINAL.contains(&nominal) {
        return Err(6);
    }

    // 7: direction or execution; positive for wind or solar.
    let positive = match measure[1] {
        1 => true,
        2 => false,
        _ => return Err(7),
    };
    let execution = measure[2];
    if !(1..=3).contains(&execution) {
        return Err(7);
    }
    if positive && plant[1] != 3 {
        return Err(7);
    }

    // Curve.
    let mut curve = Vec::new();
    if pairing == Pairing::WindSpitz {
        let numbers = chain(archive, used, plant_number, FIRST, POINT)?;
        links += numbers.len() as u64;
        curve = curve_tested(archive, &numbers)?;
    }

    // Before-quarters.
    let reference = match pairing {
        Pairing::SolarPauschal => Reference::Factor { nominal, first },
        Pairing::OtherSpitz => Reference::Planned,
        _ => {
            let numbers = chain(archive, used, measure_number, FIRST, BEFORE)?;
            links += numbers.len() as u64;
            let before: Vec<&[u8]> = numbers.iter().map(|&number| record(archive, number)).collect();
            before_tested(pairing, nominal, curve, &before)?
        }
    };

    // Quarters.
    let places = reading_places(pairing, first);
    let numbers = chain(archive, used, measure_number, SECOND, QUARTER)?;
    links += numbers.len() as u64;
    if !(1..=2_976).contains(&numbers.len()) {
        return Err(8);
    }
    let quarters: Vec<&[u8]> = numbers.iter().map(|&number| record(archive, number)).collect();
    for quarter in &quarters {
        quarter_tested(pairing, execution, first != 0, quarter)?;
        for power in readings(places, quarter) {
            within(power, POWER)?;
        }
    }

    // 18: the first or the last quarter past the calendar's last one.
    if first != 0 && first + numbers.len() as u64 - 1 > LAST.0 {
        return Err(18);
    }

    // Amounts: S rounded down minus R rounded down, the sign afterwards.
    let mut amounts = Vec::new();
    let mut r = 0i128;
    for (at, quarter) in quarters.iter().enumerate() {
        let mut t = reference_power(&reference, at as u64, quarter);
        let mut l = limitation(positive, execution, quarter);
        // The smallest of T and the readings, in the positive direction of L and the readings.
        for power in readings(places, quarter) {
            if positive {
                l = l.min(power);
            } else {
                t.numerator = t.numerator.min(power * t.denominator);
            }
        }
        let exact = magnitude(positive, t, l);
        let s = r + exact.numerator;
        let amount = s.div_euclid(exact.denominator) - r.div_euclid(exact.denominator);
        amounts.push(if positive { -amount } else { amount } as i64);
        r = s;
    }
    Ok(Settled { amounts, links })
}

/// The curve's 9 over all points, then 10.
fn curve_tested(archive: &[u8], numbers: &[u64]) -> Result<Vec<(i128, i128)>, Refusal> {
    let mut curve = Vec::new();
    for &number in numbers {
        let point = record(archive, number);
        within(field(point, 8), SPEED)?;
        within(field(point, 12), CURVE_POWER)?;
        curve.push((field(point, 8), field(point, 12)));
    }
    if curve.len() < 2 {
        return Err(10);
    }
    for pair in curve.windows(2) {
        if pair[1].0 <= pair[0].0 {
            return Err(10);
        }
    }
    Ok(curve)
}

/// The before-quarters' 8, 9, 11 and 12, in the four pairings that use them.
fn before_tested(
    pairing: Pairing,
    nominal: i128,
    curve: Vec<(i128, i128)>,
    before: &[&[u8]],
) -> Result<Reference, Refusal> {
    let measured = |one: &[u8]| field(one, 8);
    let weather = |one: &[u8]| field(one, 16);

    // 8: over 96.
    if before.len() > 96 {
        return Err(8);
    }

    // 9: byte 1 of every one.
    for one in before {
        within(i128::from(one[1]), 0..=1)?;
    }
    let marked: Vec<&[u8]> = before.iter().copied().filter(|one| one[1] == 1).collect();

    match pairing {
        Pairing::WindSpitz => {
            let meets = |one: &[u8]| 10 * measured(one) >= nominal;
            // Marked ones up to the fourth usable one, or all if there are fewer.
            let mut tested = Vec::new();
            let mut usable = Vec::new();
            for &one in &marked {
                tested.push(one);
                if meets(one) {
                    usable.push(one);
                }
                if usable.len() == 4 {
                    break;
                }
            }
            for &one in &tested {
                within(measured(one), POWER)?;
                if meets(one) {
                    within(weather(one), SPEED)?;
                }
            }
            if usable.len() < 4 {
                return Err(11);
            }
            let a = usable.iter().map(|one| measured(one)).sum();
            let b = usable.iter().map(|one| curve_power(&curve, weather(one))).sum();
            if b == 0 {
                return Err(12);
            }
            Ok(Reference::Wind { curve, a, b, nominal })
        }
        Pairing::SolarSpitz => {
            for &one in &marked {
                within(measured(one), POWER)?;
                within(weather(one), IRRADIANCE)?;
            }
            if marked.is_empty() {
                return Err(11);
            }
            let a = marked.iter().map(|one| measured(one)).sum();
            let b = marked.iter().map(|one| weather(one)).sum();
            if b == 0 {
                return Err(12);
            }
            Ok(Reference::Solar { a, b })
        }
        _ => {
            // Wind and other Pauschal: the first marked one is the only one used.
            let first = marked.first().ok_or(11u32)?;
            within(measured(first), POWER)?;
            Ok(Reference::Carried(measured(first)))
        }
    }
}

/// The quarters' 9: needed fields only. A dated quarter's month and quarter of the day aren't its own.
fn quarter_tested(pairing: Pairing, execution: u8, dated: bool, quarter: &[u8]) -> Result<(), Refusal> {
    within(field(quarter, 8), POWER)?;
    if execution == 1 {
        within(field(quarter, 12), POWER)?;
    }
    match pairing {
        Pairing::WindSpitz => within(field(quarter, 16), SPEED),
        Pairing::SolarSpitz => within(field(quarter, 16), IRRADIANCE),
        Pairing::OtherSpitz => within(field(quarter, 20), POWER),
        Pairing::SolarPauschal if dated => Ok(()),
        Pairing::SolarPauschal => {
            within(i128::from(quarter[1]), 1..=12)?;
            within(i128::from(quarter[2]), 0..=95)
        }
        Pairing::WindPauschal | Pairing::OtherPauschal => Ok(()),
    }
}
