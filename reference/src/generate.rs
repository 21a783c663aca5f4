//! Seeded calls on document 01's archive, request 1's calendar, request 2's last record, request 3's readings, request
//! 5's lists and request 6's previews: valid ones, one fault, several faults, mutations and noise.
//!
//! Every seed and index gives one call, the same everywhere.

use crate::archive::*;
use crate::builder::*;
use crate::calendar::{self, Day, QuarterHour, LAST};
use crate::correction::MOST_QUARTERS;
use crate::rng::Rng;
use crate::settle::{curve_power, Pairing, OCTOBER};

/// One call with its arguments.
#[derive(Clone, Debug)]
pub enum Call {
    Settle { archive: Vec<u8>, p: u64, k: u64, list: Vec<u8>, result: Vec<u8> },
    Fresh { archive: Vec<u8> },
    Append { archive: Vec<u8>, owner: u64, record: Vec<u8> },
    Show { archive: Vec<u8>, number: u64 },
    Audit { archive: Vec<u8> },
    DeliveryDay { quarter: u64, holidays: Vec<u32> },
    TakeBack { archive: Vec<u8> },
    Correction { amounts: Vec<i64>, balanced: Vec<i64>, prices: Vec<i64> },
    Preview { archive: Vec<u8>, owner: u64, record: Vec<u8>, p: u64, k: u64, list: Vec<u8>, result: Vec<u8> },
}

/// The numbers that each call can give.
pub const NUMBERS: [(&str, &[Refusal]); 8] = [
    ("settle", &[0, 1, 2, 3, 4, 5, 6, 7, 8, 9, 10, 11, 12, 13, 18]),
    ("append", &[0, 1, 2, 3, 14, 15, 16]),
    ("audit", &[0, 1, 2, 3, 17]),
    ("fresh", &[0, 1]),
    ("delivery day", &[0, 18]),
    ("take back", &[0, 1, 19]),
    ("correction", &[0, 20, 21, 22]),
    ("preview", &[0, 1, 2, 3, 4, 5, 6, 7, 8, 9, 10, 11, 12, 13, 14, 15, 16, 18]),
];

/// The pairings and directions that can settle, each in executions 1 to 3.
pub const SETTLED: [(Pairing, u8); 8] = [
    (Pairing::WindSpitz, 2),
    (Pairing::WindPauschal, 2),
    (Pairing::SolarSpitz, 2),
    (Pairing::SolarPauschal, 2),
    (Pairing::OtherSpitz, 2),
    (Pairing::OtherSpitz, 1),
    (Pairing::OtherPauschal, 2),
    (Pairing::OtherPauschal, 1),
];

/// The pairings and directions whose quarters have request 3's readings from October 2026 on.
pub const BOUNDED: [(Pairing, u8); 3] =
    [(Pairing::WindPauschal, 2), (Pairing::OtherPauschal, 2), (Pairing::OtherPauschal, 1)];

/// A call and, where the way it was made fixes it, its refusal number.
#[derive(Clone, Debug)]
pub struct Case {
    pub call: Call,
    pub expected: Option<Refusal>,
}

/// Percent of the calls that are previews.
const PREVIEWS: usize = 10;

/// Call number `index` of a seed.
pub fn call(seed: u64, index: u64) -> Case {
    if Rng::new(seed ^ PREVIEW, index).chance(PREVIEWS) {
        preview(seed, index)
    } else {
        other_call(seed, index)
    }
}

/// Previews have numbers of their own, so that the other calls are the same with and without them.
const PREVIEW: u64 = 0x5072_6576_6965_7700;

/// Preview number `index` of a seed.
pub fn preview(seed: u64, index: u64) -> Case {
    preview_case(&mut Rng::new(seed ^ PREVIEW ^ 1, index))
}

/// Call number `index` of a seed that is no preview.
pub fn other_call(seed: u64, index: u64) -> Case {
    let mut rng = Rng::new(seed, index);
    match rng.below(100) {
        0..=48 => settle_case(&mut rng),
        49..=53 => correction_case(&mut rng),
        54..=59 => take_back_case(&mut rng),
        60..=74 => append_case(&mut rng),
        75..=85 => audit_case(&mut rng),
        86..=90 => show_case(&mut rng),
        91..=93 => fresh_case(&mut rng),
        _ => delivery_case(&mut rng),
    }
}

// ---------------------------------------------------------------------------------------------------------------
// Faults

/// The five chains of settle.
#[derive(Clone, Copy, Debug, PartialEq, Eq)]
pub enum Chain {
    Plants,
    Measures,
    Curve,
    Before,
    Quarters,
}

/// One thing wrong with a settle call; the comment gives the rows of "Refused sheets".
#[derive(Clone, Copy, Debug, PartialEq, Eq)]
pub enum Fault {
    // 1
    Length,
    Text,
    Used,
    // 2 and 3
    Link(Chain),
    Kind(Chain),
    // 4 and 5
    NoPlant,
    NoMeasure,
    // 6
    Technology,
    Variant,
    Nominal,
    // 7
    Direction,
    Execution,
    Positive,
    // 8
    NoQuarter,
    ManyQuarters,
    ManyBefore,
    // 9
    CurveField,
    BeforeMark,
    BeforeMeasured,
    BeforeWeather,
    QuarterField,
    Nonavailable,
    Adjusted,
    // 10
    FewPoints,
    NotRising,
    // 11 and 12
    FewUsable,
    ZeroB,
    // 13
    List,
    ResultPart,
    // 18
    Late,
}

use Chain::{Curve, Measures, Plants, Quarters};
use Fault::*;

#[rustfmt::skip]
const FAULTS: &[Fault] = &[
    Length, Text, Used, Link(Plants), Link(Measures), Link(Curve), Link(Chain::Before), Link(Quarters), Kind(Plants),
    Kind(Measures), Kind(Curve), Kind(Chain::Before), Kind(Quarters), NoPlant, NoMeasure, Technology, Variant, Nominal,
    Direction, Execution, Positive, NoQuarter, ManyQuarters, ManyBefore, CurveField, BeforeMark, BeforeMeasured,
    BeforeWeather, QuarterField, Nonavailable, Adjusted, FewPoints, NotRising, FewUsable, ZeroB, List, ResultPart, Late,
];

/// Pairs of faults whose order document 01 and the decisions fix. Pairs with a late date are made apart from these.
#[rustfmt::skip]
const PAIRS: &[(Fault, Fault)] = &[
    (NoPlant, Link(Plants)), (NoPlant, Kind(Plants)), (NoMeasure, Link(Measures)), (NoMeasure, Kind(Measures)),
    (NoMeasure, Technology), (NoMeasure, Variant), (NoMeasure, Nominal), (Technology, Direction), (Nominal, Execution),
    (Direction, CurveField), (Execution, FewPoints), (Positive, Link(Curve)), (Technology, Link(Measures)),
    (ZeroB, Link(Quarters)), (ZeroB, Kind(Quarters)), (FewUsable, Link(Quarters)), (FewUsable, Kind(Quarters)),
    (CurveField, Link(Chain::Before)), (CurveField, Kind(Quarters)), (NotRising, Link(Quarters)),
    (FewPoints, Kind(Chain::Before)), (ManyBefore, Link(Chain::Before)), (ManyBefore, Kind(Chain::Before)),
    (ManyQuarters, Link(Quarters)), (ManyQuarters, Kind(Quarters)), (Kind(Plants), Link(Plants)),
    (Kind(Measures), Link(Measures)), (Kind(Curve), Link(Curve)), (Kind(Chain::Before), Link(Chain::Before)),
    (Kind(Quarters), Link(Quarters)), (CurveField, FewPoints), (CurveField, NotRising), (FewUsable, BeforeMeasured),
    (FewUsable, BeforeWeather), (FewUsable, BeforeMark), (ZeroB, BeforeMark), (ZeroB, FewUsable), (ZeroB, BeforeMeasured),
    (ManyBefore, BeforeMark), (ManyBefore, FewUsable), (ManyBefore, ZeroB), (ManyQuarters, QuarterField),
    (ManyQuarters, List), (NoQuarter, List), (QuarterField, List), (QuarterField, ResultPart), (List, ResultPart),
    (NoPlant, ResultPart), (Technology, ResultPart), (ZeroB, ResultPart), (NoQuarter, ResultPart), (NoQuarter, ZeroB),
    (Text, NoPlant), (Used, ResultPart), (Length, List), (QuarterField, Link(Quarters)), (QuarterField, BeforeMeasured),
    (NoPlant, NoMeasure), (NoMeasure, Kind(Plants)), (Nonavailable, List), (Nonavailable, ResultPart), (Adjusted, List),
    (Nonavailable, Link(Quarters)), (Adjusted, Kind(Quarters)), (Nonavailable, ManyQuarters), (Adjusted, FewUsable),
    (Nonavailable, BeforeMeasured), (Nonavailable, QuarterField), (Nonavailable, Adjusted), (Nonavailable, Direction),
];

/// Faults of request 3.
const READINGS: [Fault; 2] = [Nonavailable, Adjusted];

impl Fault {
    /// Its row of the table.
    pub fn number(self) -> Refusal {
        match self {
            Length | Text | Used => 1,
            Link(_) => 2,
            Kind(_) => 3,
            NoPlant => 4,
            NoMeasure => 5,
            Technology | Variant | Nominal => 6,
            Direction | Execution | Positive => 7,
            NoQuarter | ManyQuarters | ManyBefore => 8,
            CurveField | BeforeMark | BeforeMeasured | BeforeWeather | QuarterField | Nonavailable | Adjusted => 9,
            FewPoints | NotRising => 10,
            FewUsable => 11,
            ZeroB => 12,
            List | ResultPart => 13,
            Late => 18,
        }
    }

    /// Whether the pairing's rules can meet it.
    fn fits(self, pairing: Pairing) -> bool {
        match self {
            Link(Curve) | Kind(Curve) | CurveField | FewPoints | NotRising => pairing == Pairing::WindSpitz,
            Link(Chain::Before) | Kind(Chain::Before) | ManyBefore | BeforeMark | BeforeMeasured | FewUsable => {
                uses_before(pairing)
            }
            BeforeWeather | ZeroB => matches!(pairing, Pairing::WindSpitz | Pairing::SolarSpitz),
            Nonavailable => has_readings(pairing),
            Adjusted => pairing == Pairing::WindPauschal,
            Positive => !matches!(pairing, Pairing::OtherSpitz | Pairing::OtherPauschal),
            _ => true,
        }
    }
}

fn uses_before(pairing: Pairing) -> bool {
    !matches!(pairing, Pairing::SolarPauschal | Pairing::OtherSpitz)
}

/// Whether request 3 gives the pairing readings; both are wind's alone.
fn has_readings(pairing: Pairing) -> bool {
    BOUNDED.iter().any(|&(bounded, _)| bounded == pairing)
}

// ---------------------------------------------------------------------------------------------------------------
// Values

const LIMIT: i64 = 1_000_000_000;

/// Power in range, its ends often.
fn power(rng: &mut Rng, nominal: i32) -> i32 {
    let value = match rng.below(10) {
        0 => rng.pick(&[-LIMIT, 1 - LIMIT, -1, 0, 1, LIMIT - 1, LIMIT]),
        1 | 2 => rng.range(-LIMIT, LIMIT),
        3 => rng.range(-12, 12),
        4 => rng.range(-i64::from(nominal), 0).max(-LIMIT),
        _ => rng.range(0, i64::from(nominal).clamp(1, LIMIT)),
    };
    value as i32
}

/// Power out of range.
fn wide_power(rng: &mut Rng) -> i32 {
    match rng.below(4) {
        0 => rng.pick(&[1_000_000_001, -1_000_000_001]),
        1 => rng.pick(&[i32::MIN, i32::MAX]),
        2 => rng.range(LIMIT + 1, i64::from(i32::MAX)) as i32,
        _ => rng.range(i64::from(i32::MIN), -LIMIT - 1) as i32,
    }
}

/// A value from 0 to `most` moved out of that range.
fn wide(rng: &mut Rng, most: i64) -> i32 {
    match rng.below(4) {
        0 => -1,
        1 => (most + 1) as i32,
        2 => rng.pick(&[i32::MIN, i32::MAX]),
        _ if rng.chance(50) => rng.range(i64::from(i32::MIN), -1) as i32,
        _ => rng.range(most + 1, i64::from(i32::MAX)) as i32,
    }
}

/// Any four bytes.
fn any(rng: &mut Rng) -> i32 {
    match rng.below(4) {
        0 => wide_power(rng),
        1 => rng.range(-3, 2_100) as i32,
        _ => rng.word() as i32,
    }
}

/// A field that no rule needs: noise in a dirty sheet, else the value given.
fn unneeded(rng: &mut Rng, dirty: bool, value: i32) -> i32 {
    if dirty && rng.chance(70) {
        any(rng)
    } else {
        value
    }
}

/// A reading in range, beside the power that it bounds often, or none.
fn reading(rng: &mut Rng, nominal: i32, beside: i32) -> i32 {
    match rng.below(10) {
        0..=2 => i32::MAX,
        3 => rng.pick(&[-LIMIT, 1 - LIMIT, -1, 0, 1, LIMIT - 1, LIMIT]) as i32,
        4 | 5 => (i64::from(beside) + rng.range(-9, 3)).clamp(-LIMIT, LIMIT) as i32,
        _ => power(rng, nominal),
    }
}

/// A reading out of range, which none is not.
fn wide_reading(rng: &mut Rng) -> i32 {
    match rng.below(4) {
        0 => rng.pick(&[i32::MIN, i32::MAX - 1]),
        _ => wide_power(rng).min(i32::MAX - 1),
    }
}

/// A reading that no rule needs.
fn unneeded_reading(rng: &mut Rng, nominal: i32) -> i32 {
    match rng.below(5) {
        0 => 0,
        1 => wide_reading(rng),
        2 => any(rng),
        _ => reading(rng, nominal, nominal),
    }
}

fn irradiance(rng: &mut Rng) -> i32 {
    match rng.below(5) {
        0 => rng.pick(&[0, 1, 1_999, 2_000]),
        1 => rng.range(0, 12) as i32,
        _ => rng.range(0, 2_000) as i32,
    }
}

/// A speed on, beside or off the curve.
fn speed(rng: &mut Rng, curve: &[Point]) -> i32 {
    let (low, high) = match (curve.first(), curve.last()) {
        (Some(first), Some(last)) => (i64::from(first.speed), i64::from(last.speed)),
        _ => return rng.range(0, 1_000) as i32,
    };
    let value = match rng.below(10) {
        0 | 1 => i64::from(rng.pick(curve).speed) + rng.range(-1, 1),
        2 => low - rng.range(0, 3),
        3 => high + rng.range(0, 3),
        4 => rng.pick(&[0, 1, 999, 1_000]),
        5 => rng.range(0, 1_000),
        _ if low < high => rng.range(low, high),
        _ => low,
    };
    value.clamp(0, 1_000) as i32
}

/// A month of the calendar: those beside edges of seasons, leap days and ends of years often.
fn month(rng: &mut Rng) -> (u64, u8) {
    let year = match rng.below(3) {
        0 => rng.pick(&[2000, 2001, 2024, 2026, 2027, 2028, 2096, 2098, 2099]),
        1 => 2000 + 4 * rng.below(25) as u64,
        _ => 2000 + rng.below(100) as u64,
    };
    let month = if rng.chance(70) { rng.pick(&[1, 2, 3, 10, 11, 12]) } else { rng.range(1, 12) as u8 };
    (year, month)
}

/// The first quarter of a measure of so many, all of them in the calendar.
fn dated(rng: &mut Rng, count: usize) -> u32 {
    let count = count.max(1) as i64;
    let latest = LAST.0 as i64 + 1 - count;
    let (year, mut month) = month(rng);
    if count > 60 && rng.chance(60) {
        month = rng.pick(&[3, 11]);
    }
    let edge = calendar::first_day(year, month).midnight().0 as i64;
    let time = rng.pick(&[23, 24, 35, 36, 39, 40, 55, 59, 60, 66, 67, 75]) - rng.range(0, 2);
    let first = match rng.below(20) {
        0 => 1,
        1..=3 => latest,
        4 => rng.range(1, latest),
        // Over midnight, on the day before the month, its first day, or another one.
        5..=8 => edge - rng.range(1, count),
        9..=12 => edge - 96 + time,
        13..=16 => edge + time,
        _ => edge + 96 * rng.range(-3, 30) + time,
    };
    first.clamp(1, latest) as u32
}

/// The first quarter of a measure of so many, on request 3's date or beside it.
fn october(rng: &mut Rng, count: usize) -> u32 {
    let first = OCTOBER as i64;
    let chosen = match rng.below(12) {
        0..=3 => first,
        4 | 5 => first - 1,
        6 => first + 1,
        7 => first + rng.range(2, 3_000),
        // Over it, or up to it.
        8 | 9 => first - rng.range(1, count.max(1) as i64),
        10 => first - rng.range(1, 96),
        _ => first - rng.range(96, 3_000),
    };
    chosen as u32
}

/// The first quarter of a measure of so many that request 3's rules judge.
fn since_october(rng: &mut Rng, count: usize) -> u32 {
    match rng.below(4) {
        0 => OCTOBER as u32,
        1 => rng.range(OCTOBER as i64, OCTOBER as i64 + 300) as u32,
        _ => dated(rng, count).max(OCTOBER as u32),
    }
}

/// The first quarter of a measure of so many, the first or only the last of them behind the calendar's end.
fn late(rng: &mut Rng, count: usize) -> u32 {
    let (last, count) = (LAST.0 as i64, count as i64);
    let first = match rng.below(10) {
        0 | 1 => last + 1,
        2 => 1 << 31,
        3 => rng.range((1 << 31) - 2, (1 << 31) + 2),
        4 => i64::from(u32::MAX),
        5 | 6 if count > 1 => (1 << 32) - rng.range(1, count),
        7 if count > 1 => last + 2 - count,
        8 if count > 1 => rng.range(last + 2 - count, last),
        _ => rng.range(last + 1, i64::from(u32::MAX)),
    };
    first as u32
}

/// A place (of a plant or measure) beyond those that exist.
fn missing_place(rng: &mut Rng, count: u64) -> u64 {
    match rng.below(12) {
        0..=2 => 0,
        3 | 4 => count + 1,
        5 => count + 2 + rng.word() % 6,
        6 => rng.pick(&[65_534, 65_535, 65_536, 65_537]),
        7 => 1 << 32,
        8 | 9 => (1 << 32) + 1 + rng.word() % (count + 1),
        10 => (rng.word() << 32) | (1 + rng.word() % (count + 1)) | (1 << 40),
        _ => rng.pick(&[u64::MAX, u64::MAX - 1, 1 << 63, (1 << 63) + 1, u64::MAX << 32 | 1]),
    }
}

// ---------------------------------------------------------------------------------------------------------------
// Sheets

/// Pairing and direction: the six pairings downward, other ones upward too.
const SIDES: [(u8, u8, u8); 8] =
    [(1, 1, 2), (1, 2, 2), (2, 1, 2), (2, 2, 2), (3, 1, 2), (3, 2, 2), (3, 1, 1), (3, 2, 1)];

fn curve(rng: &mut Rng) -> Vec<Point> {
    let count = match rng.below(200) {
        0 => 1_001,
        1..=3 => rng.range(31, 300),
        4..=24 => rng.range(9, 30),
        25..=80 => 2,
        _ => rng.range(3, 8),
    } as usize;
    let mut speeds = std::collections::BTreeSet::new();
    if rng.chance(25) && count < 100 {
        let (start, step) = (rng.below(500), 1 + rng.below(10));
        speeds.extend((0..count).map(|at| ((start + at * step) as i32).min(1_000)));
    }
    while speeds.len() < count {
        speeds.insert(if count > 900 { speeds.len() as i32 } else { rng.range(0, 1_000) as i32 });
    }
    let style = rng.below(6);
    let most = rng.pick(&[20, 2_000_000, LIMIT]);
    let mut points: Vec<Point> = speeds
        .into_iter()
        .enumerate()
        .map(|(at, speed)| {
            let power = match style {
                0 => at as i64 * most / count as i64,
                1 => (count - at) as i64 * most / count as i64,
                2 => rng.pick(&[0, 1, most]),
                3 => i64::from(at > 0) * rng.range(0, most),
                _ => rng.range(0, most),
            };
            Point { speed, power: power as i32 }
        })
        .collect();
    if points.iter().all(|point| point.power == 0) {
        let at = rng.below(count);
        points[at].power = rng.range(1, most) as i32;
    }
    points
}

/// A plant without measures.
fn make_plant(rng: &mut Rng, pairing: Pairing, side: (u8, u8, u8), dirty: bool, faults: &[Fault]) -> Plant {
    let nominal = match rng.below(6) {
        0 => rng.pick(&[100_000, 100_001, 100_009, 999_999_999, LIMIT as i32]),
        1 => rng.pick(&[1_000_000, 2_000_000]),
        2 => rng.range(100_000, LIMIT) as i32,
        _ => rng.range(100_000, 5_000_000) as i32,
    };
    let mut plant = Plant { technology: side.0, variant: side.1, nominal, curve: Vec::new(), measures: Vec::new() };
    if pairing == Pairing::WindSpitz {
        plant.curve = curve(rng);
        if faults.contains(&ZeroB) {
            if rng.chance(30) {
                plant.curve.iter_mut().for_each(|point| point.power = 0);
            } else {
                plant.curve[0].power = 0;
            }
        }
        if faults.contains(&FewPoints) {
            plant.curve.truncate(rng.below(2));
        }
        if faults.contains(&NotRising) && plant.curve.len() > 1 {
            let at = 1 + rng.below(plant.curve.len() - 1);
            let before = plant.curve[at - 1].speed;
            plant.curve[at].speed = if rng.chance(60) { before } else { rng.range(0, i64::from(before)) as i32 };
        }
        if faults.contains(&CurveField) {
            if plant.curve.is_empty() {
                plant.curve.push(Point { speed: 30, power: 0 });
            }
            let at = rng.below(plant.curve.len());
            if rng.chance(35) {
                plant.curve[at].speed = wide(rng, 1_000);
            } else {
                plant.curve[at].power = wide(rng, LIMIT);
            }
        }
    } else if rng.chance(25) {
        // A curve that no rule needs.
        for _ in 0..rng.below(4) {
            plant.curve.push(Point { speed: unneeded(rng, dirty, 5), power: unneeded(rng, dirty, 0) });
        }
    }
    if faults.contains(&Technology) {
        plant.technology = rng.pick(&[0, 4, 5, 128, 255]);
    }
    if faults.contains(&Variant) {
        plant.variant = rng.pick(&[0, 3, 4, 129, 255]);
    }
    if faults.contains(&Nominal) {
        plant.nominal = match rng.below(4) {
            0 => 99_999,
            1 => 1_000_000_001,
            2 => rng.pick(&[0, -100_000, i32::MIN, i32::MAX]),
            _ => rng.range(i64::from(i32::MIN), 99_999) as i32,
        };
    }
    plant
}

/// Sum of curve power over the first four usable before-quarters.
fn wind_b(plant: &Plant, before: &[Before]) -> i128 {
    let points: Vec<(i128, i128)> =
        plant.curve.iter().map(|point| (i128::from(point.speed), i128::from(point.power))).collect();
    let usable = before.iter().filter(|one| one.mark == 1 && 10 * i64::from(one.measured) >= i64::from(plant.nominal));
    usable.take(4).map(|one| curve_power(&points, i128::from(one.weather))).sum()
}

fn before_wind(rng: &mut Rng, plant: &Plant, dirty: bool, faults: &[Fault], count: usize) -> Vec<Before> {
    let few = faults.contains(&FewUsable);
    // 0 unmarked, 1 marked and below 10 %, 2 usable.
    let mut states: Vec<u8> = (0..count).map(|_| rng.pick(&[0, 0, 1, 1, 2, 2, 2])).collect();
    let wanted = if few { rng.pick(&[0, 1, 2, 3, 3, 3]) } else { 4.max(rng.below(count.min(8) + 1)) };
    let usable = |states: &[u8]| states.iter().filter(|&&state| state == 2).count();
    while usable(&states) < wanted && !few {
        let at = rng.below(count);
        states[at] = 2;
    }
    while few && usable(&states) > wanted {
        let at = rng.below(count);
        states[at] = rng.pick(&[0, 1]);
    }
    let tenth = (i64::from(plant.nominal) + 9).div_euclid(10).clamp(-LIMIT, LIMIT);
    let mut seen = 0;
    let mut before = Vec::new();
    for &state in &states {
        let needed = seen < 4;
        let usable = match rng.below(4) {
            0 => tenth,
            1 => rng.pick(&[LIMIT, LIMIT - 1]),
            2 => rng.range(tenth, LIMIT),
            _ => rng.range(tenth, (tenth * 12).clamp(tenth, LIMIT)),
        } as i32;
        let low = match rng.below(4) {
            0 => (tenth - 1).max(-LIMIT),
            1 => rng.pick(&[-LIMIT, 0, -1]).min(tenth),
            _ => rng.range(-LIMIT, (tenth - 1).max(-LIMIT)),
        } as i32;
        let at = speed(rng, &plant.curve);
        before.push(match state {
            0 => Before { mark: 0, measured: unneeded(rng, dirty, usable), weather: unneeded(rng, dirty, at) },
            1 if needed => Before { mark: 1, measured: low, weather: unneeded(rng, dirty, at) },
            2 if needed => Before { mark: 1, measured: usable, weather: at },
            _ => Before { mark: 1, measured: unneeded(rng, dirty, usable), weather: unneeded(rng, dirty, at) },
        });
        if state == 2 {
            seen += 1;
        }
    }
    let points: Vec<(i128, i128)> =
        plant.curve.iter().map(|point| (i128::from(point.speed), i128::from(point.power))).collect();
    if faults.contains(&ZeroB) {
        let calm: Vec<i32> = (0..=1_000).filter(|&at| curve_power(&points, i128::from(at)) == 0).collect();
        for (one, &state) in before.iter_mut().zip(&states) {
            if state == 2 && !calm.is_empty() {
                one.weather = rng.pick(&calm);
            }
        }
    } else if wind_b(plant, &before) == 0 {
        let windy = plant.curve.iter().find(|point| point.power > 0);
        let first = states.iter().position(|&state| state == 2);
        if let (Some(point), Some(at)) = (windy, first) {
            before[at].weather = point.speed;
        }
    }
    before
}

fn before_solar(rng: &mut Rng, plant: &Plant, dirty: bool, faults: &[Fault], count: usize) -> Vec<Before> {
    let none = faults.contains(&FewUsable);
    let calm = faults.contains(&ZeroB);
    let mut before: Vec<Before> = (0..count)
        .map(|_| {
            let (measured, weather) = (power(rng, plant.nominal), irradiance(rng));
            if none || rng.chance(40) {
                Before { mark: 0, measured: unneeded(rng, dirty, measured), weather: unneeded(rng, dirty, weather) }
            } else {
                Before { mark: 1, measured, weather: if calm { 0 } else { weather } }
            }
        })
        .collect();
    if !none {
        let at = rng.below(count);
        if before.iter().all(|one| one.mark == 0) {
            before[at] = Before { mark: 1, measured: power(rng, plant.nominal), weather: 0 };
        }
        if !calm && before.iter().filter(|one| one.mark == 1).all(|one| one.weather == 0) {
            let marked = before.iter_mut().find(|one| one.mark == 1);
            marked.into_iter().for_each(|one| one.weather = rng.pick(&[1, 7, 500, 2_000]));
        }
    }
    before
}

fn before_pauschal(rng: &mut Rng, plant: &Plant, dirty: bool, faults: &[Fault], count: usize) -> Vec<Before> {
    let none = faults.contains(&FewUsable);
    let first = if rng.chance(50) { 0 } else { rng.below(count.max(1)) };
    (0..count)
        .map(|at| {
            let measured = power(rng, plant.nominal);
            let weather = unneeded(rng, dirty, 0);
            if !none && at == first {
                Before { mark: 1, measured, weather }
            } else {
                let mark = u8::from(!none && at > first && rng.chance(60));
                Before { mark, measured: unneeded(rng, dirty, measured), weather }
            }
        })
        .collect()
}

/// Positions of before-quarters whose measured power, or weather, is tested.
fn tested(pairing: Pairing, plant: &Plant, before: &[Before], weather: bool) -> Vec<usize> {
    let mut positions = Vec::new();
    let mut usable = 0;
    for (at, one) in before.iter().enumerate() {
        let meets = 10 * i64::from(one.measured) >= i64::from(plant.nominal);
        let wanted = match pairing {
            Pairing::WindSpitz => usable < 4,
            Pairing::SolarSpitz => true,
            _ => usable < 1,
        };
        if one.mark != 1 || !wanted {
            continue;
        }
        if !weather || meets || pairing == Pairing::SolarSpitz {
            positions.push(at);
        }
        if meets || pairing != Pairing::WindSpitz {
            usable += 1;
        }
    }
    positions
}

/// A quarter of a measure with this first one, whose reference is `carried` in Pauschal.
fn quarter(
    rng: &mut Rng,
    plant: &Plant,
    pairing: Pairing,
    execution: u8,
    first: u32,
    carried: i32,
    dirty: bool,
) -> Quarter {
    let month = if rng.chance(50) { rng.pick(&[2, 3, 10, 11]) } else { rng.range(1, 12) as u8 };
    let time = if rng.chance(60) {
        rng.pick(&[0, 23, 24, 35, 36, 39, 40, 55, 56, 59, 60, 66, 67, 68, 75, 76, 95])
    } else {
        rng.range(0, 95) as u8
    };
    let mut made = Quarter {
        month,
        time,
        measured: power(rng, plant.nominal),
        limit: power(rng, plant.nominal),
        weather: 0,
        planned: power(rng, plant.nominal),
        nonavailable: 0,
        adjusted: 0,
    };
    if (pairing != Pairing::SolarPauschal || first != 0) && dirty && rng.chance(70) {
        let (month, time) = (rng.word() as u8, rng.word() as u8);
        made.month = rng.pick(&[0, 13, 255, month, month]);
        made.time = rng.pick(&[96, 255, time, time]);
    }
    if execution != 1 {
        made.limit = unneeded(rng, dirty, made.limit);
    }
    made.weather = match pairing {
        Pairing::WindSpitz => speed(rng, &plant.curve),
        Pairing::SolarSpitz => irradiance(rng),
        _ => unneeded(rng, dirty, 0),
    };
    if pairing != Pairing::OtherSpitz {
        made.planned = unneeded(rng, dirty, made.planned);
    }
    let since = has_readings(pairing) && u64::from(first) >= OCTOBER;
    let mut one = |needed: bool| {
        if needed {
            let beside = rng.pick(&[carried, made.measured, made.limit]);
            reading(rng, plant.nominal, beside)
        } else {
            unneeded_reading(rng, plant.nominal)
        }
    };
    (made.nonavailable, made.adjusted) = (one(since), one(since && pairing == Pairing::WindPauschal));
    made
}

/// A needed field of a quarter moved out of its range.
fn break_quarter(rng: &mut Rng, quarter: &mut Quarter, pairing: Pairing, execution: u8, dated: bool) {
    let mut fields = vec![0];
    if execution == 1 {
        fields.push(1);
    }
    match pairing {
        Pairing::WindSpitz => fields.push(2),
        Pairing::SolarSpitz => fields.push(3),
        Pairing::OtherSpitz => fields.push(4),
        Pairing::SolarPauschal if !dated => fields.extend([5, 6]),
        _ => {}
    }
    match rng.pick(&fields) {
        0 => quarter.measured = wide_power(rng),
        1 => quarter.limit = wide_power(rng),
        2 => quarter.weather = wide(rng, 1_000),
        3 => quarter.weather = wide(rng, 2_000),
        4 => quarter.planned = wide_power(rng),
        5 => quarter.month = rng.pick(&[0, 13, 14, 128, 255]),
        _ => quarter.time = rng.pick(&[96, 97, 128, 255]),
    }
}

/// How long the chains of a measure may get.
#[derive(Clone, Copy, PartialEq, Eq)]
enum Size {
    Small,
    Any,
}

fn make_measure(
    rng: &mut Rng,
    plant: &Plant,
    pairing: Pairing,
    direction: u8,
    dirty: bool,
    faults: &[Fault],
    size: Size,
) -> Measure {
    let execution = rng.range(1, 3) as u8;
    let mut measure = Measure { direction, execution, first: 0, before: Vec::new(), quarters: Vec::new() };

    let mut count = match rng.below(100) {
        0..=4 if size == Size::Any => 96,
        5..=7 if size == Size::Any => rng.range(60, 95),
        8..=25 if size == Size::Any => rng.range(9, 30),
        _ => rng.range(1, 8),
    } as usize;
    if pairing == Pairing::WindSpitz && !faults.contains(&FewUsable) {
        count = count.max(4);
    }
    if faults.contains(&FewUsable) && rng.chance(20) {
        count = rng.below(3);
    }
    if faults.contains(&ManyBefore) {
        count = match rng.below(10) {
            0 => rng.range(98, 130),
            1 if size == Size::Any => rng.range(131, 900),
            _ => 97,
        } as usize;
    }
    if uses_before(pairing) {
        measure.before = match pairing {
            Pairing::WindSpitz => before_wind(rng, plant, dirty, faults, count),
            Pairing::SolarSpitz => before_solar(rng, plant, dirty, faults, count),
            _ => before_pauschal(rng, plant, dirty, faults, count),
        };
        if faults.contains(&BeforeMeasured) {
            let positions = tested(pairing, plant, &measure.before, false);
            if !positions.is_empty() {
                let at = rng.pick(&positions);
                measure.before[at].measured = wide_power(rng);
            }
        }
        if faults.contains(&BeforeWeather) {
            let positions = tested(pairing, plant, &measure.before, true);
            if !positions.is_empty() {
                let at = rng.pick(&positions);
                measure.before[at].weather = wide(rng, if pairing == Pairing::WindSpitz { 1_000 } else { 2_000 });
            }
        }
        if faults.contains(&BeforeMark) {
            if measure.before.is_empty() {
                measure.before.push(Before { mark: 0, measured: 0, weather: 0 });
            }
            let at = if rng.chance(40) { measure.before.len() - 1 } else { rng.below(measure.before.len()) };
            measure.before[at].mark = rng.pick(&[2, 3, 129, 255]);
        }
    } else if rng.chance(30) {
        // Before-quarters that no rule needs, sometimes too many.
        let count = if rng.chance(15) && size == Size::Any { rng.pick(&[96, 97, 98]) } else { rng.below(5) };
        for _ in 0..count {
            let mark = if dirty { rng.word() as u8 } else { 1 };
            measure.before.push(Before { mark, measured: unneeded(rng, dirty, 1), weather: unneeded(rng, dirty, 1) });
        }
    }

    let mut count = match rng.below(1_000) {
        0..=3 if size == Size::Any => 2_976,
        4..=5 if size == Size::Any => rng.range(2_000, 2_975),
        6..=40 if size == Size::Any => rng.range(61, 200),
        41..=200 if size == Size::Any => rng.range(12, 60),
        _ => rng.range(1, if size == Size::Any { 11 } else { 5 }),
    } as usize;
    if pairing == Pairing::SolarPauschal && size == Size::Any && rng.chance(8) {
        // Daylight on both sides of midnight.
        count = rng.range(80, 250) as usize;
    }
    if faults.contains(&ManyQuarters) {
        count = match rng.below(50) {
            0..=39 => 2_977,
            40..=48 => rng.range(2_978, 3_300),
            _ => rng.range(3_301, 20_000),
        } as usize;
    }
    if faults.contains(&NoQuarter) {
        count = 0;
    }
    measure.first = if faults.contains(&Late) {
        late(rng, count)
    } else if READINGS.iter().any(|fault| faults.contains(fault)) {
        since_october(rng, count)
    } else if has_readings(pairing) && rng.chance(50) {
        october(rng, count)
    } else {
        match rng.below(100) {
            0..=3 => october(rng, count),
            4..=45 => dated(rng, count),
            _ => 0,
        }
    };
    let first = measure.first;
    let carried = measure.before.iter().find(|one| one.mark == 1).map_or(0, |one| one.measured);
    measure.quarters = (0..count).map(|_| quarter(rng, plant, pairing, execution, first, carried, dirty)).collect();
    let broken = |rng: &mut Rng| if rng.chance(40) { count - 1 } else { rng.below(count) };
    if faults.contains(&QuarterField) && count > 0 {
        let at = broken(rng);
        break_quarter(rng, &mut measure.quarters[at], pairing, execution, first != 0);
    }
    if faults.contains(&Nonavailable) && count > 0 {
        let at = broken(rng);
        measure.quarters[at].nonavailable = wide_reading(rng);
    }
    if faults.contains(&Adjusted) && count > 0 {
        let at = broken(rng);
        measure.quarters[at].adjusted = wide_reading(rng);
    }

    if faults.contains(&Direction) {
        measure.direction = rng.pick(&[0, 3, 4, 129, 255]);
    }
    if faults.contains(&Execution) {
        measure.execution = rng.pick(&[0, 4, 5, 130, 255]);
    }
    if faults.contains(&Positive) {
        measure.direction = 1;
    }
    measure
}

/// A whole plant with measures as company for the one that is settled; it may be faulty.
fn company(rng: &mut Rng, dirty: bool) -> Plant {
    let side = rng.pick(&SIDES);
    let pairing = Pairing::of(side.0, side.1).unwrap_or(Pairing::OtherSpitz);
    let mut plant = make_plant(rng, pairing, side, dirty, &[]);
    if rng.chance(15) {
        plant.technology = rng.word() as u8;
    }
    for _ in 0..rng.below(3) {
        let measure = make_measure(rng, &plant, pairing, side.2, dirty, &[], Size::Small);
        plant.measures.push(measure);
    }
    plant
}

fn layout(rng: &mut Rng) -> Layout {
    Layout {
        order: rng.pick(&[Order::Deep, Order::Wide, Order::Shuffled, Order::Shuffled, Order::Sticky]),
        gaps: if rng.chance(60) { 0 } else { rng.range(3, 30) as usize },
        filler: if rng.chance(50) { Filler::Noise } else { Filler::Orphan },
        spare: if rng.chance(30) { 0 } else { rng.range(1, 5) as usize },
        noise: rng.chance(70),
    }
}

// ---------------------------------------------------------------------------------------------------------------
// Faults in the bytes

/// A link field, with the owner of its chain and the kind it must lead to.
#[derive(Clone, Copy, Debug)]
struct Field {
    owner: u64,
    holder: u64,
    at: usize,
    kind: u8,
}

/// All link fields of a chain, the one that ends it last.
fn fields(owner: u64, first: usize, kind: u8, numbers: &[u64]) -> Vec<Field> {
    let mut fields = vec![Field { owner, holder: owner, at: first, kind }];
    fields.extend(numbers.iter().map(|&holder| Field { owner, holder, at: NEXT, kind }));
    fields
}

/// Link fields of a settled measure's chain; of plants and measures only those followed up to the place wanted.
fn chain_fields(filed: &Filed, chain: Chain, plant: usize, measure: usize, p: u64, k: u64) -> Vec<Field> {
    let own = &filed.plants[plant];
    let inner = &own.measures[measure];
    match chain {
        Plants => {
            let numbers: Vec<u64> = filed.plants.iter().map(|plant| plant.number).collect();
            let mut all = fields(0, FIRST, PLANT, &numbers);
            all.truncate(p.clamp(1, all.len() as u64) as usize);
            all
        }
        Measures => {
            let numbers: Vec<u64> = own.measures.iter().map(|measure| measure.number).collect();
            let mut all = fields(own.number, SECOND, MEASURE, &numbers);
            all.truncate(k.clamp(1, all.len() as u64) as usize);
            all
        }
        Curve => fields(own.number, FIRST, POINT, &own.curve),
        Chain::Before => fields(inner.number, FIRST, BEFORE, &inner.before),
        Quarters => fields(inner.number, SECOND, QUARTER, &inner.quarters),
    }
}

fn position(rng: &mut Rng, count: usize) -> usize {
    match rng.below(10) {
        0 | 1 => 0,
        2..=4 => count - 1,
        _ => rng.below(count),
    }
}

/// Makes one of the links wrong: not above its holder, or not below U.
fn break_link(rng: &mut Rng, filed: &mut Filed, fields: &[Field]) {
    let field = fields[position(rng, fields.len())];
    let (used, all) = (filed.used, filed.all());
    let to = match rng.below(10) {
        0 | 1 if field.holder > 0 => field.holder,
        2 if field.holder > 1 => 1 + rng.word() % (field.holder - 1),
        // Back along its own chain, or anywhere between owner and holder with the right kind.
        3..=5 if field.holder > field.owner + 1 => {
            let right: Vec<u64> =
                (field.owner + 1..=field.holder).filter(|&number| filed.kind(number) == field.kind).collect();
            if right.is_empty() {
                field.holder
            } else {
                rng.pick(&right)
            }
        }
        // An unused record that looks right.
        6 | 7 if all > used => {
            let unused = used + rng.word() % (all - used);
            *filed.byte(unused, 0) = field.kind;
            if rng.chance(70) {
                filed.set_link(unused, NEXT, 0);
            }
            unused
        }
        8 => rng.pick(&[used, all, all + 1, 65_535, 65_536]).max(used),
        _ => {
            let right = filed.link(field.holder, field.at);
            let high = rng.pick(&[1 << 16, 1 << 31, 1 << 24, u64::from(u32::MAX), 0xffff_0000]);
            (right | high).max(used)
        }
    };
    filed.set_link(field.holder, field.at, to as u32);
}

/// Puts a wrong kind at one of the links; false if the chain gives no chance to.
fn break_kind(rng: &mut Rng, filed: &mut Filed, fields: &[Field]) -> bool {
    let field = fields[position(rng, fields.len())];
    let to = filed.link(field.holder, field.at);
    let wrong: Vec<u64> =
        (field.holder + 1..filed.used).filter(|&number| filed.kind(number) != field.kind).take(40).collect();
    if to == 0 || (rng.chance(30) && !wrong.is_empty()) {
        if wrong.is_empty() {
            return false;
        }
        let to = rng.pick(&wrong);
        filed.set_link(field.holder, field.at, to as u32);
    } else if to < filed.used {
        let mut kind = rng.pick(&[0, 1, 2, 3, 4, 5, 6, 65, 255]);
        if kind == field.kind {
            kind = 9;
        }
        *filed.byte(to, 0) = kind;
    }
    true
}

fn break_head(rng: &mut Rng, filed: &mut Filed, fault: Fault) {
    match fault {
        Text => {
            let at = rng.below(4);
            let wrong = rng.pick(&[0, b'a', b'B', b'A' ^ 0x80, b'R' + 1]);
            let right = *filed.byte(0, at);
            *filed.byte(0, at) = if wrong == right { right ^ 1 } else { wrong };
        }
        Used => {
            let all = filed.all() as u32;
            let wrong = rng.pick(&[0, all + 1, all + 2, all | 1 << 16, all | 1 << 31, u32::MAX]);
            filed.set_used(if wrong == all { 0 } else { wrong });
        }
        _ => {
            // Length: ragged, empty, or one record too many.
            match rng.below(20) {
                0..=2 => filed.bytes.clear(),
                3 => filed.bytes.truncate(31),
                4 => filed.bytes.resize(RECORD * (MOST_RECORDS + 1), 0),
                5..=9 => {
                    let less = filed.bytes.len() - 1 - rng.below(31);
                    filed.bytes.truncate(less);
                }
                _ => {
                    let more = 1 + rng.below(31);
                    let noise = rng.bytes(more);
                    filed.bytes.extend(noise);
                }
            }
        }
    }
}

/// Every link field of the used records, by kind.
fn all_fields(filed: &Filed) -> Vec<Field> {
    let mut all = vec![Field { owner: 0, holder: 0, at: FIRST, kind: PLANT }];
    for number in 1..filed.used {
        let kind = filed.kind(number);
        let mut push = |at, kind| all.push(Field { owner: number, holder: number, at, kind });
        if (1..=5).contains(&kind) {
            push(NEXT, kind);
        }
        if kind == PLANT || kind == MEASURE {
            push(FIRST, kind + 1);
            push(SECOND, kind + 2);
        }
    }
    all
}

/// Points a link of any chain to another record of the right kind: shared and interleaved chains.
fn share(rng: &mut Rng, filed: &mut Filed) {
    let all = all_fields(filed);
    for _ in 0..20 {
        let field = rng.pick(&all);
        let right: Vec<u64> =
            (field.holder + 1..filed.used).filter(|&number| filed.kind(number) == field.kind).take(60).collect();
        if !right.is_empty() {
            let to = rng.pick(&right);
            filed.set_link(field.holder, field.at, to as u32);
            return;
        }
    }
}

/// Changes a few bytes, mostly in the parts that rules read, and readings of quarters.
fn mutate(rng: &mut Rng, bytes: &mut [u8]) {
    if bytes.is_empty() {
        return;
    }
    for _ in 0..1 + rng.below(6) {
        let mut at = rng.below(bytes.len());
        let start = at / RECORD * RECORD;
        if bytes[start] == QUARTER && start + RECORD <= bytes.len() && rng.chance(25) {
            let value = match rng.below(3) {
                0 => wide_reading(rng),
                _ => reading(rng, 1_000_000, 0),
            };
            let place = start + rng.pick(&[NONAVAILABLE, ADJUSTED]);
            bytes[place..place + 4].copy_from_slice(&value.to_le_bytes());
            continue;
        }
        if rng.chance(75) {
            let read = if bytes[start] == QUARTER { RECORD } else { 24 };
            at = start + rng.below(read);
        }
        let at = at.min(bytes.len() - 1);
        bytes[at] = match rng.below(5) {
            0 => rng.word() as u8,
            1 => bytes[at].wrapping_add(1),
            2 => bytes[at].wrapping_sub(1),
            3 => bytes[at] ^ 1 << rng.below(8),
            _ => rng.pick(&[0, 1, 2, 3, 4, 5]),
        };
    }
}

/// Records with plausible kinds, links and fields at random.
fn soup(rng: &mut Rng) -> Vec<u8> {
    let most = if rng.chance(70) { 12 } else { 60 };
    let count = 1 + rng.below(most);
    let mut bytes = rng.bytes(count * RECORD);
    let stray = rng.below(12);
    for number in 0..count {
        let start = number * RECORD;
        let record = &mut bytes[start..start + RECORD];
        record[0] = if rng.below(100) < stray { rng.word() as u8 } else { 1 + rng.below(5) as u8 };
        record[1] = rng.pick(&[0, 1, 1, 2, 2, 3, 7]);
        record[2] = rng.pick(&[0, 1, 1, 2, 2, 3, 50]);
        for at in [4, 8, 12] {
            let above = count - number - 1;
            let to = match rng.below(100) {
                0..=39 => 0,
                _ if rng.below(100) < stray => rng.below(count + 3),
                _ if above == 0 => 0,
                _ if rng.chance(60) => number + 1 + rng.below(above.min(4)),
                _ => number + 1 + rng.below(above),
            };
            record[at..at + 4].copy_from_slice(&(to as u32).to_le_bytes());
        }
        for at in [16, 20, 24, 28] {
            let value = rng.pick(&[0, 1, 30, 500, 100_000, 1_000_000, 1_000_000_000, -1, 1_000_000_001, i32::MAX]);
            record[at..at + 4].copy_from_slice(&i32::to_le_bytes(value));
        }
        if record[0] == MEASURE && rng.chance(50) {
            let date = rng.pick(&[0, OCTOBER as u32 - 1, OCTOBER as u32, LAST.0 as u32]);
            record[DATE..DATE + 4].copy_from_slice(&date.to_le_bytes());
        }
    }
    bytes[..4].copy_from_slice(b"AARB");
    let used = if rng.chance(80) { count } else { 1 + rng.below(count) };
    bytes[4..8].copy_from_slice(&(used as u32).to_le_bytes());
    if count > 1 && rng.chance(80) {
        bytes[8..12].copy_from_slice(&1u32.to_le_bytes());
        bytes[RECORD] = PLANT;
    }
    bytes
}

/// Bytes of any length and content.
fn noise(rng: &mut Rng) -> Vec<u8> {
    let length = match rng.below(4) {
        0 => rng.below(200),
        1 => RECORD * rng.below(8),
        2 => rng.pick(&[0, 1, 31, 32, 33, 63, 64, 65]),
        _ => RECORD * (1 + rng.below(30)),
    };
    let mut bytes = rng.bytes(length);
    if length >= 8 && rng.chance(60) {
        bytes[..4].copy_from_slice(b"AARB");
        bytes[4..8].copy_from_slice(&(rng.below(length / 32 + 2) as u32).to_le_bytes());
        if length >= 12 && rng.chance(50) {
            bytes[8..12].copy_from_slice(&(rng.below(4) as u32).to_le_bytes());
        }
    }
    bytes
}

// ---------------------------------------------------------------------------------------------------------------
// Settle

fn choose_faults(rng: &mut Rng, pairing: Pairing, count: usize) -> Vec<Fault> {
    let fit = |fault: &Fault| fault.fits(pairing);
    let all: Vec<Fault> = FAULTS.iter().copied().filter(fit).collect();
    let mut faults = Vec::new();
    let pair = if count < 2 { 100 } else { rng.below(100) };
    if pair < 55 {
        let pairs: Vec<(Fault, Fault)> = PAIRS.iter().copied().filter(|(a, b)| fit(a) && fit(b)).collect();
        let (a, b) = rng.pick(&pairs);
        faults.extend([a, b]);
    } else if pair < 80 {
        faults.push(Late);
    }
    let readings: Vec<Fault> = READINGS.iter().copied().filter(fit).collect();
    while faults.len() < count {
        let fault = if !readings.is_empty() && rng.chance(15) { rng.pick(&readings) } else { rng.pick(&all) };
        // Chains over their limit are long, so one in three of them is enough.
        if (fault == ManyQuarters && rng.chance(66)) || (fault == Late && faults.contains(&Late)) {
            continue;
        }
        faults.push(fault);
    }
    faults
}

/// The largest numbers that the ranges allow.
fn extreme(rng: &mut Rng) -> (Plant, Pairing) {
    let most = LIMIT as i32 - if rng.chance(50) { 0 } else { rng.range(0, 9) as i32 };
    let count = if rng.chance(10) { 2_976 } else { rng.below(20) + 1 };
    let (pairing, side) = match rng.below(4) {
        0 | 1 => (Pairing::WindSpitz, (1, 1)),
        2 => (Pairing::SolarSpitz, (2, 1)),
        _ => (Pairing::SolarPauschal, (2, 2)),
    };
    let mut plant = Plant {
        technology: side.0,
        variant: side.1,
        nominal: most,
        curve: vec![Point { speed: 0, power: 0 }, Point { speed: 100, power: most }, Point { speed: 1_000, power: 0 }],
        measures: Vec::new(),
    };
    let mut before = Vec::new();
    for at in 0..if pairing == Pairing::SolarSpitz { 96 } else { 4 } {
        let weather = match pairing {
            Pairing::WindSpitz => 100,
            _ => i32::from(at == 0),
        };
        before.push(Before { mark: 1, measured: most, weather });
    }
    let quarter = Quarter {
        month: 6,
        time: 40,
        measured: -most,
        limit: -most,
        weather: if pairing == Pairing::WindSpitz { 100 } else { 2_000 },
        planned: most,
        ..Quarter::default()
    };
    let mut quarters = vec![quarter; count];
    for quarter in &mut quarters {
        if rng.chance(20) {
            quarter.measured += rng.below(9) as i32;
            quarter.weather -= rng.below(2) as i32;
        }
    }
    plant.measures.push(Measure { direction: 2, execution: rng.range(1, 3) as u8, first: 0, before, quarters });
    (plant, pairing)
}

/// A chain as long as an archive can hold, or an archive as long as allowed.
fn longest(rng: &mut Rng) -> Filed {
    let quarter = Quarter { month: 6, time: 40, measured: 5, limit: 5, weather: 5, planned: 7, ..Quarter::default() };
    let fill = if rng.chance(50) { MOST_RECORDS - 3 } else { rng.range(1, 40) as usize };
    let measure = Measure { direction: 2, execution: 2, first: 0, before: Vec::new(), quarters: vec![quarter; fill] };
    let plant = Plant { technology: 3, variant: 1, nominal: 100_000, curve: Vec::new(), measures: vec![measure] };
    file(&[plant], &Layout { spare: MOST_RECORDS - 3 - fill, ..Layout::PLAIN }, rng)
}

fn list_and_result(rng: &mut Rng, count: usize, faults: &[Fault]) -> (Vec<u8>, Vec<u8>) {
    let mut places = match rng.below(10) {
        0..=4 => count,
        5..=8 => count + 1 + rng.below(8),
        _ => 2_976.max(count),
    };
    if faults.contains(&List) {
        places = match rng.below(4) {
            0 => 0,
            1 => rng.below(count.max(1)),
            _ => count.saturating_sub(1),
        };
    }
    if places > 4_000 {
        places = rng.below(4_000);
    }
    let ragged = if rng.chance(50) { 0 } else { rng.below(8) };
    let mut result = 24;
    if faults.contains(&ResultPart) {
        result = rng.pick(&[0, 0, 23, 23, 25, 25, 1, 8, 16, 32, 48]);
    }
    (rng.bytes(8 * places + ragged), rng.bytes(result))
}

fn settle_case(rng: &mut Rng) -> Case {
    let mode = rng.below(1_000);
    if mode < 25 {
        let archive = if mode < 17 { soup(rng) } else { noise(rng) };
        let (p, k) = (rng.below(4) as u64, rng.below(4) as u64);
        let places = rng.below(8);
        let (list, result) = list_and_result(rng, places, &[]);
        return Case { call: Call::Settle { archive, p, k, list, result }, expected: None };
    }
    if mode == 25 && rng.chance(15) {
        let mut filed = longest(rng);
        let faults = if rng.chance(50) { vec![] } else { vec![rng.pick(&[Link(Quarters), Kind(Quarters), List])] };
        return finish_settle(rng, &mut filed, 0, 0, &faults, None);
    }
    if mode < 45 {
        let (plant, _) = extreme(rng);
        let layout = layout(rng);
        let mut filed = file(&[plant], &Layout { gaps: 0, ..layout }, rng);
        return finish_settle(rng, &mut filed, 0, 0, &[], Some(0));
    }

    let count = match mode {
        45..=449 => 0,
        450..=709 => 1,
        710..=899 => 2,
        900..=929 => 3,
        _ => 0,
    };
    // Wind Spitz has most of the faults.
    let side = if count > 0 && rng.chance(35) { SIDES[0] } else { rng.pick(&SIDES) };
    let pairing = Pairing::of(side.0, side.1).unwrap_or(Pairing::OtherSpitz);
    let faults = choose_faults(rng, pairing, count);
    let dirty = rng.chance(65);
    let mut plant = make_plant(rng, pairing, side, dirty, &faults);
    let measure = make_measure(rng, &plant, pairing, side.2, dirty, &faults, Size::Any);
    let at_measure = rng.pick(&[0, 0, 0, 1, 2]);
    for at in 0..at_measure + 1 + rng.below(2) {
        let next = if at == at_measure {
            measure.clone()
        } else {
            let direction = rng.range(0, 3) as u8;
            make_measure(rng, &plant, pairing, direction, dirty, &[], Size::Small)
        };
        plant.measures.push(next);
    }
    // A plant with a wrong technology and no measure at all.
    let bare = faults.contains(&NoMeasure) && rng.chance(15);
    let at_plant = rng.pick(&[0, 0, 0, 1, 2, 3]);
    let mut plants = Vec::new();
    for at in 0..at_plant + 1 + rng.below(2) {
        plants.push(if at == at_plant { plant.clone() } else { company(rng, dirty) });
    }
    let mut layout = layout(rng);
    if measure.quarters.len() > 10_000 {
        layout.gaps = 0;
    }
    let mut filed = file(&plants, &layout, rng);

    // Links that this pairing doesn't need hold any four bytes.
    if dirty && rng.chance(40) {
        let (own, inner) = (filed.plants[at_plant].number, filed.plants[at_plant].measures[at_measure].number);
        if pairing != Pairing::WindSpitz {
            let noise = any(rng) as u32;
            filed.set_link(own, FIRST, noise);
        }
        if !uses_before(pairing) {
            let noise = any(rng) as u32;
            filed.set_link(inner, FIRST, noise);
        }
        // The next links of plant p and measure k aren't read.
        if rng.chance(50) && !faults.iter().any(|fault| matches!(fault, NoPlant | NoMeasure)) {
            let noise = any(rng) as u32;
            filed.set_link(own, NEXT, noise);
            let noise = any(rng) as u32;
            filed.set_link(inner, NEXT, noise);
        }
    }
    if bare {
        let own = filed.plants[at_plant].number;
        filed.set_link(own, SECOND, 0);
    }
    let mut expected = match faults.as_slice() {
        [] => Some(0),
        [fault] => Some(fault.number()),
        // 18 stands behind all others but 13.
        [other, Late] | [Late, other] => Some(if other.number() == 13 { 18 } else { other.number() }),
        _ => None,
    };
    if mode >= 930 {
        expected = None;
        if mode < 955 {
            for _ in 0..1 + rng.below(3) {
                share(rng, &mut filed);
            }
        } else {
            mutate(rng, &mut filed.bytes);
            // The head may be gone: the faults below need none of it.
        }
    }
    finish_settle(rng, &mut filed, at_plant, at_measure, &faults, expected)
}

/// Puts the faults into the bytes and the numbers of the call.
fn finish_settle(
    rng: &mut Rng,
    filed: &mut Filed,
    plant: usize,
    measure: usize,
    faults: &[Fault],
    mut expected: Option<Refusal>,
) -> Case {
    let (mut p, mut k) = (plant as u64 + 1, measure as u64 + 1);
    if faults.contains(&NoPlant) {
        p = missing_place(rng, filed.plants.len() as u64);
    }
    if faults.contains(&NoMeasure) {
        k = missing_place(rng, filed.plants[plant].measures.len() as u64);
    }
    let mut order = faults.to_vec();
    if rng.chance(50) {
        order.reverse();
    }
    for &fault in &order {
        match fault {
            Link(chain) => {
                let fields = chain_fields(filed, chain, plant, measure, p, k);
                break_link(rng, filed, &fields);
            }
            Kind(chain) => {
                let fields = chain_fields(filed, chain, plant, measure, p, k);
                if !break_kind(rng, filed, &fields) {
                    expected = None;
                }
            }
            _ => {}
        }
    }
    for &fault in &order {
        if matches!(fault, Length | Text | Used) {
            break_head(rng, filed, fault);
            if filed.bytes.len() < RECORD {
                break;
            }
        }
    }
    let count = filed.plants[plant].measures[measure].quarters.len();
    let (list, result) = list_and_result(rng, count, faults);
    Case { call: Call::Settle { archive: filed.bytes.clone(), p, k, list, result }, expected }
}

// ---------------------------------------------------------------------------------------------------------------
// Append

#[derive(Clone, Copy, PartialEq, Eq)]
enum Filing {
    Head,
    RecordLength,
    RecordKind,
    RecordNext,
    RecordLinks,
    OwnerUnused,
    OwnerKind,
    Link,
    Kind,
    Full,
}

const FILINGS: [Filing; 10] = [
    Filing::Head,
    Filing::RecordLength,
    Filing::RecordKind,
    Filing::RecordNext,
    Filing::RecordLinks,
    Filing::OwnerUnused,
    Filing::OwnerKind,
    Filing::Link,
    Filing::Kind,
    Filing::Full,
];

impl Filing {
    /// Its row of the table.
    fn number(self) -> Refusal {
        match self {
            Filing::Head => 1,
            Filing::RecordLength | Filing::RecordKind | Filing::RecordNext | Filing::RecordLinks => 14,
            Filing::OwnerUnused | Filing::OwnerKind => 15,
            Filing::Link => 2,
            Filing::Kind => 3,
            Filing::Full => 16,
        }
    }
}

/// The owner that the call names: the right one, or one that is 15. The bytes of a wrong one may change.
fn wrong_owner(rng: &mut Rng, filed: &mut Filed, kind: u8, owner: u64, filings: &[Filing]) -> u64 {
    let mut call_owner = owner;
    if filings.contains(&Filing::OwnerUnused) {
        let (used, all) = (filed.used, filed.all());
        call_owner = match rng.below(8) {
            0 | 1 => used,
            2 => all,
            3 => all + 1,
            4 | 5 => (1 << 32) + owner,
            6 => rng.pick(&[65_535, 65_536, 1 << 32, 1 << 63]).max(used),
            _ => u64::MAX,
        };
        if call_owner < all {
            *filed.byte(call_owner, 0) = if kind < 4 { PLANT } else { MEASURE };
        }
    }
    if filings.contains(&Filing::OwnerKind) {
        let right = |found: u8| if kind < 4 { kind > PLANT && found == PLANT } else { found == MEASURE };
        let wrong: Vec<u64> = (1..filed.used).filter(|&number| !right(filed.kind(number))).take(50).collect();
        call_owner = if wrong.is_empty() || (kind != PLANT && rng.chance(25)) { 0 } else { rng.pick(&wrong) };
        if kind == PLANT && call_owner == 0 {
            call_owner = filed.used;
        } else if call_owner != 0 && rng.chance(20) {
            let start = call_owner as usize * RECORD;
            filed.bytes[start..start + 4].copy_from_slice(b"AARB");
            if kind != PLANT {
                *filed.byte(call_owner, 0) = b'A';
            }
        }
    }
    call_owner
}

/// Makes a record one that is 14.
fn wrong_record(rng: &mut Rng, record: &mut Vec<u8>, filings: &[Filing]) {
    if filings.contains(&Filing::RecordKind) {
        record[0] = rng.pick(&[0, 6, 9, 65, 128, 255]);
    }
    if filings.contains(&Filing::RecordNext) {
        let at = 4 + rng.below(4);
        record[at] = 1 + rng.below(255) as u8;
    }
    if filings.contains(&Filing::RecordLinks) {
        let at = 8 + rng.below(8);
        record[at] = 1 + rng.below(255) as u8;
    }
    if filings.contains(&Filing::RecordLength) {
        let length = rng.pick(&[0, 1, 8, 31, 33, 64]);
        record.resize(length, 0);
    }
}

/// Several small plants with measures.
fn small_sheet(rng: &mut Rng, dirty: bool) -> Vec<Plant> {
    let mut plants: Vec<Plant> = (0..rng.below(4)).map(|_| company(rng, dirty)).collect();
    if rng.chance(3) {
        if let Some(measure) = plants.iter_mut().flat_map(|plant| &mut plant.measures).next() {
            let one = Quarter { month: 1, ..Quarter::default() };
            measure.quarters = vec![one; rng.pick(&[96, 2_976, 2_977])];
            let mark = Before { mark: 1, measured: 0, weather: 0 };
            measure.before = vec![mark; rng.pick(&[0, 96, 97])];
        }
    }
    if rng.chance(10) {
        // A date that only settle looks at.
        if let Some(measure) = plants.iter_mut().flat_map(|plant| &mut plant.measures).next() {
            measure.first = late(rng, measure.quarters.len());
        }
    }
    plants
}

fn append_case(rng: &mut Rng) -> Case {
    let mode = rng.below(100);
    let dirty = rng.chance(60);
    let mut filings: Vec<Filing> = match mode {
        0..=39 => vec![],
        40..=69 => vec![rng.pick(&FILINGS)],
        70..=91 => vec![rng.pick(&FILINGS), rng.pick(&FILINGS)],
        _ => vec![],
    };
    let mut kind = 1 + rng.below(5) as u8;
    if filings.contains(&Filing::RecordLinks) {
        kind = rng.pick(&[PLANT, MEASURE]);
    }
    let mut layout = layout(rng);
    let full = filings.contains(&Filing::Full);
    layout.spare = if full { 0 } else { layout.spare.max(1) };
    let mut filed = if mode == 99 && rng.chance(10) {
        longest(rng)
    } else {
        let mut plants = small_sheet(rng, dirty);
        let few = plants.iter().all(|plant| plant.measures.is_empty());
        if kind > PLANT && (plants.is_empty() || few) && rng.chance(95) {
            let mut plant = company(rng, dirty);
            if plant.measures.is_empty() {
                let before = Before { mark: 1, measured: 3, weather: 3 };
                let quarters = vec![Quarter::default(); rng.below(4)];
                let before = vec![before; rng.below(4)];
                let measure = Measure { direction: 2, execution: 2, first: rng.word() as u32, before, quarters };
                plant.measures.push(measure);
            }
            plants.push(plant);
        }
        file(&plants, &layout, rng)
    };

    // The owner and its chain.
    let plants = filed.plants.len();
    let with: Vec<usize> = (0..plants).filter(|&at| !filed.plants[at].measures.is_empty()).collect();
    let (owner, mut chain) = match kind {
        PLANT => {
            let numbers: Vec<u64> = filed.plants.iter().map(|plant| plant.number).collect();
            (0, fields(0, FIRST, PLANT, &numbers))
        }
        POINT | MEASURE if plants > 0 => {
            let plant = &filed.plants[rng.below(plants)];
            let numbers: Vec<u64> = plant.measures.iter().map(|measure| measure.number).collect();
            let chain = if kind == POINT {
                fields(plant.number, FIRST, POINT, &plant.curve)
            } else {
                fields(plant.number, SECOND, MEASURE, &numbers)
            };
            (plant.number, chain)
        }
        BEFORE | QUARTER if !with.is_empty() => {
            let plant = &filed.plants[rng.pick(&with)];
            let measure = &plant.measures[rng.below(plant.measures.len())];
            let chain = if kind == BEFORE {
                fields(measure.number, FIRST, BEFORE, &measure.before)
            } else {
                fields(measure.number, SECOND, QUARTER, &measure.quarters)
            };
            (measure.number, chain)
        }
        // No such owner: 15 for the head.
        _ => {
            filings.push(Filing::OwnerKind);
            (0, vec![Field { owner: 0, holder: 0, at: FIRST, kind: PLANT }])
        }
    };
    let mut expected = match filings[..] {
        [] => Some(0),
        [filing] => Some(filing.number()),
        _ => None,
    };

    if filings.contains(&Filing::Link) {
        break_link(rng, &mut filed, &chain);
    }
    if filings.contains(&Filing::Kind) && !break_kind(rng, &mut filed, &chain) {
        expected = None;
    }
    // Things append doesn't look at: the owner's own place on a chain, its own next link, its other chain.
    if owner != 0 && rng.chance(25) {
        chain.truncate(1);
        let other = if chain[0].at == FIRST { SECOND } else { FIRST };
        let wrong = any(rng) as u32;
        match rng.below(3) {
            0 => filed.set_link(owner, NEXT, wrong),
            1 => filed.set_link(owner, other, wrong),
            _ => {
                for number in 0..owner {
                    for at in [NEXT, FIRST, SECOND] {
                        if (number, at) != (0, NEXT)
                            && matches!(filed.kind(number), PLANT | MEASURE | b'A')
                            && filed.link(number, at) == owner
                        {
                            filed.set_link(number, at, 0);
                        }
                    }
                }
            }
        }
    }
    let mut call_owner = wrong_owner(rng, &mut filed, kind, owner, &filings);

    let mut record = rng.bytes(RECORD);
    record[0] = kind;
    record[4..8].fill(0);
    if kind == PLANT || kind == MEASURE {
        record[8..16].fill(0);
    }
    wrong_record(rng, &mut record, &filings);
    if filings.contains(&Filing::Head) {
        let fault = rng.pick(&[Length, Text, Used]);
        break_head(rng, &mut filed, fault);
    }
    if mode >= 92 {
        expected = None;
        match mode {
            92..=94 => mutate(rng, &mut filed.bytes),
            95 => filed.bytes = noise(rng),
            96 | 97 => {
                filed.bytes = soup(rng);
                call_owner = rng.below(6) as u64;
            }
            98 => share(rng, &mut filed),
            _ => {}
        }
    }
    Case { call: Call::Append { archive: filed.bytes, owner: call_owner, record }, expected }
}

// ---------------------------------------------------------------------------------------------------------------
// Audit, show, fresh

fn audit_case(rng: &mut Rng) -> Case {
    let mode = rng.below(100);
    let any_case = |archive| Case { call: Call::Audit { archive }, expected: None };
    match mode {
        0..=2 => {
            let archive = noise(rng);
            return any_case(archive);
        }
        3..=8 => {
            let archive = soup(rng);
            return any_case(archive);
        }
        9 if rng.chance(5) => {
            let archive = longest(rng).bytes;
            return any_case(archive);
        }
        // What settle or append takes, audit may not.
        10..=24 => {
            let case = if rng.chance(70) { settle_case(rng) } else { append_case(rng) };
            if let Call::Settle { archive, .. } | Call::Append { archive, .. } = case.call {
                return any_case(archive);
            }
        }
        _ => {}
    }
    let dirty = rng.chance(60);
    let plants = small_sheet(rng, dirty);
    let mut layout = layout(rng);
    layout.gaps = 0;
    let faults = match mode {
        0..=49 => 0,
        50..=79 => 1,
        80..=94 => 2,
        _ => 3,
    };
    let mut kinds: Vec<usize> = (0..faults).map(|_| rng.below(8)).collect();
    if kinds.contains(&5) {
        layout.gaps = 12;
        layout.filler = Filler::Orphan;
    }
    let mut filed = file(&plants, &layout, rng);
    let mut expected = if faults == 0 { Some(0) } else { None };
    // The bytes of the head go last.
    kinds.sort_by_key(|&kind| kind == 0);
    for &kind in &kinds {
        if filed.used < 2 && kind != 0 {
            continue;
        }
        let number = 1 + rng.word() % filed.used.max(2).saturating_sub(1);
        let all = all_fields(&filed);
        let set: Vec<Field> = all.iter().copied().filter(|field| filed.link(field.holder, field.at) != 0).collect();
        let free: Vec<Field> = all.iter().copied().filter(|field| filed.link(field.holder, field.at) == 0).collect();
        let alone = faults == 1;
        match kind {
            0 => {
                let fault = rng.pick(&[Length, Text, Used]);
                break_head(rng, &mut filed, fault);
                expected = Some(1);
                break;
            }
            1 | 2 => {
                let field = rng.pick(&all);
                break_link(rng, &mut filed, &[field]);
                expected = alone.then_some(2);
            }
            3 => {
                *filed.byte(number, 0) = rng.pick(&[0, 6, 65, 255]);
                expected = alone.then_some(3);
            }
            4 => {
                let field = rng.pick(&all);
                let broken = break_kind(rng, &mut filed, &[field]);
                expected = (alone && broken).then_some(3);
            }
            5 => expected = None,
            6 if !set.is_empty() => {
                // Named by none.
                let field = rng.pick(&set);
                filed.set_link(field.holder, field.at, 0);
                expected = alone.then_some(17);
            }
            _ if !free.is_empty() => {
                // Named by several.
                let field = rng.pick(&free);
                let right = (field.holder + 1..filed.used).find(|&number| filed.kind(number) == field.kind);
                if let Some(to) = right {
                    filed.set_link(field.holder, field.at, to as u32);
                    expected = alone.then_some(17);
                } else if alone {
                    expected = Some(0);
                }
            }
            _ => expected = None,
        }
    }
    if mode == 25 {
        // Some records at the end fall behind U.
        let used = 1 + rng.word() % filed.used;
        filed.set_used(used as u32);
        expected = None;
    }
    if mode == 26 || mode == 27 {
        mutate(rng, &mut filed.bytes);
        expected = None;
    }
    Case { call: Call::Audit { archive: filed.bytes }, expected }
}

fn show_case(rng: &mut Rng) -> Case {
    let mut filed = if rng.below(2_000) == 0 {
        longest(rng)
    } else {
        let plants = small_sheet(rng, true);
        let layout = layout(rng);
        file(&plants, &layout, rng)
    };
    let (used, all) = (filed.used, filed.all());
    match rng.below(20) {
        0 | 1 => {
            let fault = rng.pick(&[Length, Text, Used]);
            break_head(rng, &mut filed, fault);
        }
        2 => filed.bytes = noise(rng),
        3 | 4 => mutate(rng, &mut filed.bytes),
        5 => filed.bytes = soup(rng),
        _ => {}
    }
    let number = match rng.below(10) {
        0 => 0,
        1 => 1,
        2 => used - 1,
        3 => used,
        4 => all.max(1) - 1,
        5 => all,
        6 => (1 << 32) + rng.word() % used,
        7 => rng.pick(&[u64::MAX, 1 << 63, 1 << 32, 65_535, 1 << 59, (1 << 59) + 1]),
        _ => rng.word() % used,
    };
    Case { call: Call::Show { archive: filed.bytes, number }, expected: None }
}

fn fresh_case(rng: &mut Rng) -> Case {
    let archive = match rng.below(10) {
        0..=2 => noise(rng),
        3 | 4 => {
            let records = 1 + rng.below(40);
            rng.bytes(records * RECORD)
        }
        5 => {
            let length = rng.pick(&[0, 1, 31, 32, 33, 63, 64]);
            rng.bytes(length)
        }
        6 if rng.chance(3) => {
            let length = rng.pick(&[MOST_RECORDS * RECORD, MOST_RECORDS * RECORD + RECORD, MOST_RECORDS * RECORD + 1]);
            rng.bytes(length)
        }
        _ => {
            let plants = small_sheet(rng, true);
            let layout = layout(rng);
            file(&plants, &layout, rng).bytes
        }
    };
    Case { call: Call::Fresh { archive }, expected: None }
}

// ---------------------------------------------------------------------------------------------------------------
// Delivery day

/// A quarter's number, most of them in the calendar.
fn quarter_number(rng: &mut Rng) -> u64 {
    let (year, month) = month(rng);
    let first = calendar::first_day(year, month);
    let next = Day(first.0 + calendar::days_of_month(year, month));
    match rng.below(20) {
        0 => 0,
        1 => rng.pick(&[1, 2, 96, 97, 2_975, 2_976, 2_977]),
        2 | 3 => rng.pick(&[LAST.0 - 1, LAST.0, LAST.0]),
        4 => rng.pick(&[LAST.0 + 1, LAST.0 + 2, 1 << 31, u64::from(u32::MAX)]),
        5 => rng.pick(&[1 << 32, 1 << 63, u64::MAX]),
        // In the calendar if cut to 32 bits.
        6 => (rng.word() << 32 | 1 << 40) + 1 + rng.word() % LAST.0,
        7 => rng.word(),
        8..=10 => first.midnight().0,
        11..=14 => next.midnight().0 - 1,
        _ => 1 + rng.word() % LAST.0,
    }
}

/// Puts a list in any order.
fn shuffle<T>(rng: &mut Rng, list: &mut [T]) {
    for at in 1..list.len() {
        list.swap(at, rng.below(at + 1));
    }
}

/// Days of a month that leave so many working days, if it has as many.
fn leaving(rng: &mut Rng, days: &[Day], left: usize) -> Vec<Day> {
    let mut working: Vec<Day> = days.iter().copied().filter(|day| day.weekday() <= 5).collect();
    shuffle(rng, &mut working);
    working.split_off(left.min(working.len()))
}

/// A list for the month of these days, of up to 40 numbers.
fn holidays(rng: &mut Rng, days: &[Day]) -> Vec<u32> {
    let chosen: Vec<Day> = match rng.below(10) {
        0 | 1 => vec![],
        2..=5 => {
            let left = rng.pick(&[0, 1, 3, 3, 4, 4, 5]);
            leaving(rng, days, left)
        }
        6 => days.to_vec(),
        7 => days[..1 + rng.below(12)].to_vec(),
        _ => (0..1 + rng.below(12)).map(|_| rng.pick(days)).collect(),
    };
    let mut list: Vec<u32> = chosen.iter().map(|day| day.0 as u32).collect();
    // Weekends, other months, repeats and numbers of no day.
    let weekends: Vec<Day> = days.iter().copied().filter(|day| day.weekday() > 5).collect();
    let more = if rng.chance(40) { 0 } else { rng.below(41 - list.len()) };
    for _ in 0..more {
        let further = match rng.below(6) {
            0 => rng.pick(&weekends).0 as u32,
            1 => (days[0].0 as u32 - 1).saturating_sub(rng.below(40) as u32),
            2 => days[days.len() - 1].0 as u32 + 1 + rng.below(40) as u32,
            3 => rng.pick(&[0, u32::MAX, 1 << 31, 36_557]),
            4 if !list.is_empty() => rng.pick(&list),
            _ => rng.word() as u32,
        };
        list.push(further);
    }
    if rng.chance(80) {
        shuffle(rng, &mut list);
    } else {
        list.sort_unstable();
    }
    list
}

fn delivery_case(rng: &mut Rng) -> Case {
    let quarter = quarter_number(rng);
    let good = (1..=LAST.0).contains(&quarter);
    let days: Vec<Day> = calendar::next_days(if good { QuarterHour(quarter) } else { LAST }).collect();
    let holidays = holidays(rng, &days);
    Case { call: Call::DeliveryDay { quarter, holidays }, expected: Some(if good { 0 } else { 18 }) }
}

// ---------------------------------------------------------------------------------------------------------------
// Taking back

/// How the last record is named, or what it holds. Where a sheet gives no chance for it, the record stays named once.
#[derive(Clone, Copy, Debug, PartialEq, Eq)]
enum Naming {
    /// As it was filed.
    Once,
    Nobody,
    /// By a second link, by two of one record, by the head too.
    Twice,
    TwiceInOne,
    HeadToo,
    /// By links of its own.
    Own,
    OwnToo,
    OwnTwice,
    /// By a record of unknown kind, alone or beside the right one.
    Unknown,
    UnknownToo,
    /// By a link for another kind, or of a record that isn't reached from the head.
    WrongKind,
    NotReached,
    /// Of unknown kind itself.
    UnknownLast,
    /// Naming others.
    Holding,
    /// Some records at the end fall behind U.
    Fewer,
}

use Naming::*;

#[rustfmt::skip]
const NAMINGS: &[Naming] = &[
    Once, Once, Once, Once, Once, Nobody, Nobody, Twice, Twice, TwiceInOne, TwiceInOne, HeadToo, Own, Own, OwnToo,
    OwnTwice, Unknown, UnknownToo, UnknownToo, WrongKind, WrongKind, NotReached, UnknownLast, UnknownLast, Holding, Fewer,
];

/// Kinds that are none, those beside 1 and 5 often.
fn unknown_kind(rng: &mut Rng) -> u8 {
    rng.pick(&[0, 0, 6, 6, 7, 9, 65, 128, 130, 255])
}

/// A sheet whose last record has just been filed: of any kind, the first of its chain or behind others, at a place with
/// old bytes or with zeros.
fn filed_last(rng: &mut Rng) -> Filed {
    let dirty = rng.chance(60);
    let kind = 1 + rng.below(5) as u8;
    let first = rng.chance(50);
    let mut plants = small_sheet(rng, dirty);
    if kind == PLANT && first {
        plants.clear();
    }
    if plants.is_empty() && !(kind == PLANT && first) {
        plants.push(company(rng, dirty));
    }
    let at = rng.below(plants.len().max(1));
    let inner = |rng: &mut Rng| Measure {
        direction: 2,
        execution: 2,
        first: rng.word() as u32,
        before: vec![Before { mark: 1, measured: 3, weather: 3 }; rng.below(4)],
        quarters: vec![Quarter::default(); rng.below(4)],
    };
    if kind > PLANT {
        let plant = &mut plants[at];
        match kind {
            POINT if first => plant.curve.clear(),
            POINT if plant.curve.is_empty() => plant.curve = vec![Point { speed: 30, power: 5 }; 1 + rng.below(3)],
            MEASURE if first => plant.measures.clear(),
            MEASURE | BEFORE | QUARTER if plant.measures.is_empty() => plant.measures.push(inner(rng)),
            _ => {}
        }
        match (kind, plant.measures.last_mut()) {
            (BEFORE, Some(measure)) if first => measure.before.clear(),
            (BEFORE, Some(measure)) => measure.before.push(Before { mark: 0, measured: 7, weather: 7 }),
            (QUARTER, Some(measure)) if first => measure.quarters.clear(),
            (QUARTER, Some(measure)) => measure.quarters.push(Quarter::default()),
            _ => {}
        }
    }
    let layout = layout(rng);
    let spare = layout.spare.max(1);
    let mut filed = file(&plants, &Layout { spare: 0, ..layout }, rng);
    let more = |filed: &mut Filed, rng: &mut Rng, noise: bool| {
        let mut record = vec![0; RECORD];
        if noise {
            rng.fill(&mut record);
            record[0] = rng.below(7) as u8;
        }
        filed.bytes.extend(record);
    };
    if rng.below(60) == 0 {
        // A last number beside 256 or 512, behind records that nothing names.
        let last = rng.pick(&[255, 256, 257, 511, 512]);
        while filed.used < last {
            more(&mut filed, rng, layout.noise);
            let number = filed.used;
            filed.used += 1;
            filed.set_link(number, NEXT, 0);
        }
        filed.set_used(filed.used as u32);
    }
    for _ in 0..spare {
        more(&mut filed, rng, layout.noise);
    }

    // The record, filed by the plain call.
    let owner = match (kind, filed.plants.get(at)) {
        (POINT | MEASURE, Some(plant)) => plant.number,
        (BEFORE | QUARTER, Some(plant)) => plant.measures.last().map_or(0, |measure| measure.number),
        _ => 0,
    };
    let mut record = rng.bytes(RECORD);
    record[0] = kind;
    record[4..8].fill(0);
    if kind == PLANT || kind == MEASURE {
        record[8..16].fill(0);
    }
    let number = crate::append(&mut filed.bytes, owner, &record);
    assert_eq!(number, 0, "a record that can be filed");
    filed.used += 1;
    filed
}

/// Leaves one of the links that name a record.
fn name_once(rng: &mut Rng, filed: &mut Filed, last: u64) -> Field {
    let names: Vec<Field> =
        all_fields(filed).into_iter().filter(|field| filed.link(field.holder, field.at) == last).collect();
    let kept = rng.below(names.len());
    for (at, field) in names.iter().enumerate() {
        if at != kept {
            filed.set_link(field.holder, field.at, 0);
        }
    }
    names[kept]
}

/// The link fields of a record.
fn own_fields(filed: &Filed, number: u64) -> &'static [usize] {
    match filed.kind(number) {
        PLANT | MEASURE => &[NEXT, FIRST, SECOND],
        _ => &[NEXT],
    }
}

/// Names the last record in another way; gives the number to expect, if it is certain.
fn rename(rng: &mut Rng, filed: &mut Filed, naming: Naming) -> Option<Refusal> {
    let last = filed.used - 1;
    let own = name_once(rng, filed, last);
    let to = last as u32;
    let others: Vec<Field> = all_fields(filed)
        .into_iter()
        .filter(|field| field.holder != last && (field.holder, field.at) != (own.holder, own.at))
        .collect();
    let unname = |filed: &mut Filed| filed.set_link(own.holder, own.at, 0);
    match naming {
        Once => Some(0),
        Nobody => {
            let other = rng.pick(&[0, 0, to - 1, to + 1, to | 1 << 16, to | 1 << 31]);
            filed.set_link(own.holder, own.at, if other == to { 0 } else { other });
            Some(19)
        }
        Twice if !others.is_empty() => {
            for _ in 0..rng.pick(&[1, 1, 1, 2, 3]) {
                let field = rng.pick(&others);
                filed.set_link(field.holder, field.at, to);
            }
            Some(19)
        }
        TwiceInOne => {
            let owners: Vec<u64> =
                (1..last).filter(|&number| matches!(filed.kind(number), PLANT | MEASURE)).take(40).collect();
            if owners.is_empty() {
                return Some(0);
            }
            unname(filed);
            let holder = rng.pick(&owners);
            let left_out = rng.pick(&[NEXT, FIRST, SECOND, RECORD]);
            for &at in [NEXT, FIRST, SECOND].iter().filter(|&&at| at != left_out) {
                filed.set_link(holder, at, to);
            }
            Some(19)
        }
        HeadToo if own.holder != 0 => {
            filed.set_link(0, FIRST, to);
            Some(19)
        }
        Own | OwnToo => {
            let fields = own_fields(filed, last);
            let at = rng.pick(fields);
            filed.set_link(last, at, to);
            if naming == Own {
                unname(filed);
            }
            Some(if naming == Own { 0 } else { 19 })
        }
        OwnTwice => {
            let fields = own_fields(filed, last);
            if fields.len() < 3 {
                return Some(0);
            }
            unname(filed);
            let left_out = rng.pick(&[NEXT, FIRST, SECOND, RECORD]);
            for &at in fields.iter().filter(|&&at| at != left_out) {
                filed.set_link(last, at, to);
            }
            Some(19)
        }
        Unknown if own.holder != 0 => {
            *filed.byte(own.holder, 0) = unknown_kind(rng);
            Some(19)
        }
        Unknown => {
            // The head named it: now the record itself does, which is of unknown kind.
            unname(filed);
            *filed.byte(last, 0) = unknown_kind(rng);
            let at = rng.pick(&[NEXT, FIRST, SECOND]);
            filed.set_link(last, at, to);
            Some(19)
        }
        UnknownToo => {
            let numbers: Vec<u64> = (1..last).filter(|&number| number != own.holder).take(60).collect();
            if !numbers.is_empty() {
                let number = rng.pick(&numbers);
                *filed.byte(number, 0) = unknown_kind(rng);
                let at = rng.pick(&[NEXT, NEXT, FIRST, SECOND]);
                filed.set_link(number, at, to);
            }
            Some(0)
        }
        WrongKind => {
            let kind = filed.kind(last);
            let wrong: Vec<Field> = others.iter().copied().filter(|field| field.kind != kind).collect();
            if !wrong.is_empty() {
                unname(filed);
                let field = rng.pick(&wrong);
                filed.set_link(field.holder, field.at, to);
            }
            Some(0)
        }
        NotReached if own.holder != 0 => {
            for field in all_fields(filed) {
                if filed.link(field.holder, field.at) == own.holder {
                    filed.set_link(field.holder, field.at, 0);
                }
            }
            Some(0)
        }
        UnknownLast => {
            *filed.byte(last, 0) = unknown_kind(rng);
            for at in [NEXT, FIRST, SECOND] {
                if rng.chance(60) {
                    filed.set_link(last, at, to);
                }
            }
            Some(0)
        }
        Holding => {
            for &at in own_fields(filed, last) {
                let below = rng.word() as u32 % to;
                let other = rng.pick(&[0, 1, to - 1, to + 1, 65_535, u32::MAX, below, below]);
                filed.set_link(last, at, if other == to { 0 } else { other });
            }
            Some(0)
        }
        Fewer => {
            let used = 1 + rng.word() % filed.used;
            filed.set_used(used as u32);
            filed.used = used;
            None
        }
        Twice | HeadToo | NotReached => Some(0),
    }
}

/// Puts the last record's number where no link stands that counts.
fn decoys(rng: &mut Rng, filed: &mut Filed) {
    let (used, all) = (filed.used, filed.all());
    let to = used as u32 - 1;
    for _ in 0..1 + rng.below(5) {
        let number = rng.word() % used;
        match rng.below(7) {
            0 => {
                let at = rng.pick(&[12, 12, 16, 20, 24, 28]);
                filed.set_link(0, at, to);
            }
            1 | 2 if number > 0 && matches!(filed.kind(number), POINT | BEFORE | QUARTER) => {
                let at = rng.pick(&[8, 12]);
                filed.set_link(number, at, to);
            }
            3 => {
                let at = rng.pick(&[16, 20, 24, 28]);
                filed.set_link(number, at, to);
            }
            4 if all > used => {
                // An unused record, often of a known kind.
                let unused = used + rng.word() % (all - used);
                *filed.byte(unused, 0) = rng.below(6) as u8;
                let at = rng.pick(&[NEXT, FIRST, SECOND]);
                filed.set_link(unused, at, to);
            }
            5 if number > 0 && !(1..=5).contains(&filed.kind(number)) => {
                let at = rng.pick(&[NEXT, FIRST, SECOND]);
                filed.set_link(number, at, to);
            }
            _ => {
                // The number in the low bytes of a link that named nothing.
                let free: Vec<Field> = all_fields(filed)
                    .into_iter()
                    .filter(|field| filed.link(field.holder, field.at) == 0)
                    .take(100)
                    .collect();
                if !free.is_empty() {
                    let field = rng.pick(&free);
                    let high = rng.pick(&[1 << 16, 1 << 24, 1 << 31, 0xffff_0000, 0xff00_0000]);
                    filed.set_link(field.holder, field.at, to | high);
                }
            }
        }
    }
}

fn take_back_case(rng: &mut Rng) -> Case {
    let mode = rng.below(1_000);
    let any_case = |archive| Case { call: Call::TakeBack { archive }, expected: None };
    match mode {
        0..=9 => {
            let archive = noise(rng);
            return any_case(archive);
        }
        10..=39 => {
            let archive = soup(rng);
            return any_case(archive);
        }
        // What other calls take, taking back may not.
        40..=69 => {
            let case = match rng.below(3) {
                0 => settle_case(rng),
                1 => append_case(rng),
                _ => audit_case(rng),
            };
            if let Call::Settle { archive, .. } | Call::Append { archive, .. } | Call::Audit { archive } = case.call {
                return any_case(archive);
            }
        }
        70 | 71 => {
            // As many records as an archive can have, or a few of them used.
            let mut filed = longest(rng);
            let expected = rename(rng, &mut filed, Once);
            if rng.chance(50) {
                decoys(rng, &mut filed);
            }
            return Case { call: Call::TakeBack { archive: filed.bytes }, expected };
        }
        _ => {}
    }

    // A record just filed, or the last one of a sheet laid out at once.
    let mut filed = if rng.chance(75) {
        filed_last(rng)
    } else {
        let dirty = rng.chance(60);
        let plants = small_sheet(rng, dirty);
        let layout = layout(rng);
        file(&plants, &layout, rng)
    };
    let mut expected = if filed.used == 1 || (100..160).contains(&mode) {
        // U = 1.
        filed.used = 1;
        filed.set_used(1);
        match rng.below(4) {
            0 => filed.bytes[8..].fill(0),
            1 => filed.set_link(0, FIRST, 0),
            2 => {
                let noise = rng.pick(&[1, 1, 2, 1 << 16, u32::MAX, 1 << 31]);
                filed.set_link(0, FIRST, noise);
            }
            _ => {}
        }
        Some(19)
    } else {
        let naming = rng.pick(NAMINGS);
        rename(rng, &mut filed, naming)
    };
    if rng.chance(50) {
        decoys(rng, &mut filed);
    }
    match mode {
        160..=199 => {
            // 1 stands before 19, U = 1 among it.
            let fault = rng.pick(&[Length, Text, Used]);
            if fault != Used && rng.chance(50) {
                filed.set_used(1);
            }
            break_head(rng, &mut filed, fault);
            expected = Some(1);
        }
        200..=239 => {
            mutate(rng, &mut filed.bytes);
            expected = None;
        }
        _ => {}
    }
    Case { call: Call::TakeBack { archive: filed.bytes }, expected }
}

// ---------------------------------------------------------------------------------------------------------------
// Correction

/// The end of the range of prices; that of energies is `LIMIT`.
const MOST_PRICE: i64 = 1_000_000;
/// Parts of a cent.
const CENT: i64 = 1_000_000;

/// Amount, balanced energy and price.
type Priced = [i64; 3];
/// The ends of their ranges.
const ENDS: Priced = [LIMIT, LIMIT, MOST_PRICE];

/// One thing wrong with a correction; the comment gives the number.
#[derive(Clone, Copy, Debug, PartialEq, Eq)]
enum Wrong {
    // 22
    Unequal,
    // 20
    Many,
    Amount,
    Balanced,
    // 21
    Price,
}

#[rustfmt::skip]
const WRONGS: &[Wrong] = &[
    Wrong::Unequal, Wrong::Unequal, Wrong::Unequal, Wrong::Unequal, Wrong::Many,
    Wrong::Amount, Wrong::Amount, Wrong::Amount, Wrong::Balanced, Wrong::Balanced, Wrong::Balanced,
    Wrong::Price, Wrong::Price, Wrong::Price, Wrong::Price,
];

/// From -`most` to `most`, the ends often.
fn allowed(rng: &mut Rng, most: i64) -> i64 {
    match rng.below(10) {
        0 | 1 => rng.pick(&[-most, 1 - most, -1, 0, 1, most - 1, most]),
        2 => rng.range(-12, 12),
        3..=5 => rng.range(-most / 1_000, most / 50),
        _ => rng.range(-most, most),
    }
}

/// Beyond `most`: beside it, an allowed number but for 2^32 or 2^63, or any other.
fn beyond(rng: &mut Rng, most: i64) -> i64 {
    let near = allowed(rng, most);
    let value = match rng.below(10) {
        0..=2 => most + 1,
        3 => rng.pick(&[i64::MIN + 1, i64::MAX - 1, i64::MAX]),
        4 => near + (1 << 32),
        5 => near + (rng.range(1, 1 << 30) << 32),
        6 => near ^ i64::MIN,
        7 => rng.pick(&[i64::from(i32::MAX), 1 << 31, i64::from(u32::MAX), 1 << 32, 1 << 53, 1 << 62]),
        8 => rng.range(most + 1, 1_000 * most),
        _ => rng.range(most + 1, i64::MAX),
    };
    match rng.below(20) {
        0 => i64::MIN,
        1..=10 => value.wrapping_neg(),
        _ => value,
    }
}

/// Amount and balanced energy with this gap, both in their range.
fn with_gap(rng: &mut Rng, gap: i64) -> (i64, i64) {
    let amount = rng.range((gap - LIMIT).max(-LIMIT), (gap + LIMIT).min(LIMIT));
    (amount, amount - gap)
}

/// How many quarters: few of them mostly, a day or the most of them rarely.
fn quarter_count(rng: &mut Rng) -> usize {
    match rng.below(200) {
        0..=9 => 0,
        10..=59 => 1,
        60..=89 => 2 + rng.below(2),
        90..=159 => 4 + rng.below(9),
        160..=185 => 13 + rng.below(40),
        186..=193 => rng.pick(&[95, 96, 96, 97]),
        194 | 195 => rng.range(98, 2_974) as usize,
        196 => MOST_QUARTERS - 1,
        _ => MOST_QUARTERS,
    }
}

/// Quarters of numbers in their ranges.
fn priced(rng: &mut Rng, count: usize) -> Vec<Priced> {
    let sign = rng.pick(&[-1, 1]);
    let mut quarters: Vec<Priced> = Vec::new();
    match rng.below(10) {
        // The largest products of one sign.
        0 => {
            let price = rng.pick(&[-MOST_PRICE, MOST_PRICE]);
            quarters = vec![[sign * LIMIT, -sign * LIMIT, price]; count];
        }
        // Others beside them.
        1 => {
            for _ in 0..count {
                let gap = sign * (2 * LIMIT - rng.range(0, 1_000));
                let (amount, balanced) = with_gap(rng, gap);
                quarters.push([amount, balanced, MOST_PRICE - rng.range(0, 1_000)]);
            }
        }
        // The same small quarter again and again.
        2 => {
            let gap = sign * rng.pick(&[1, 1, 1, 2, 3, 999_999]);
            let (amount, balanced) = with_gap(rng, gap);
            quarters = vec![[amount, balanced, rng.pick(&[-2, -1, 1, 1, 1, 2, 500_000])]; count];
        }
        // Each second one takes the first one's product off again.
        3 => {
            for at in 0..count {
                let [amount, balanced, price] = ENDS.map(|most| allowed(rng, most));
                quarters.push(match quarters.last() {
                    Some(&[amount, balanced, price]) if at % 2 == 1 && rng.chance(50) => [amount, balanced, -price],
                    Some(&[amount, balanced, price]) if at % 2 == 1 => [balanced, amount, price],
                    _ => [amount, balanced, price],
                });
            }
        }
        _ => quarters = (0..count).map(|_| ENDS.map(|most| allowed(rng, most))).collect(),
    }
    if rng.chance(60) {
        aim(rng, &mut quarters);
    }
    quarters
}

/// Makes one quarter such that the sum is a whole number of cents, half a cent more, or beside these.
fn aim(rng: &mut Rng, quarters: &mut [Priced]) {
    if quarters.is_empty() {
        return;
    }
    let at = rng.below(quarters.len());
    quarters[at] = [0; 3];
    let sum: i64 = quarters.iter().map(|&[amount, balanced, price]| (amount - balanced) * price).sum();
    let rest = rng.pick(&[0, 0, 0, 1, 1, CENT / 2 - 1, CENT / 2, CENT / 2 + 1, CENT - 1, CENT - 1]);
    let gap = (rest - sum).rem_euclid(CENT) + CENT * rng.range(-3, 2);
    let sign = rng.pick(&[-1, 1]);
    let (amount, balanced) = with_gap(rng, sign * gap);
    quarters[at] = [amount, balanced, sign];
}

/// Makes one or two of the lists shorter or longer.
fn unequal(rng: &mut Rng, lists: &mut [Vec<i64>; 3]) {
    let all = lists[0].len();
    let kept = rng.below(3);
    for other in [(kept + 1) % 3, (kept + 2) % 3] {
        if rng.chance(60) {
            let length = rng.pick(&[all.saturating_sub(1), all.saturating_sub(1), all + 1, all + 1, 0, 1, all / 2]);
            lists[other].resize(length, 0);
        }
    }
    if lists.iter().all(|list| list.len() == all) {
        lists[(kept + 1) % 3].push(1);
    }
}

fn correction_case(rng: &mut Rng) -> Case {
    match rng.below(150) {
        0..=2 => {
            // Any numbers.
            let [amounts, balanced, prices] = [(); 3].map(|()| {
                let count = rng.below(3);
                (0..count).map(|_| rng.word() as i64).collect()
            });
            return Case { call: Call::Correction { amounts, balanced, prices }, expected: None };
        }
        3 => {
            // The largest sum, or the least.
            let (energy, price) = (rng.pick(&[-LIMIT, LIMIT]), rng.pick(&[-MOST_PRICE, MOST_PRICE]));
            let [amounts, balanced, prices] = [energy, -energy, price].map(|number| vec![number; MOST_QUARTERS]);
            return Case { call: Call::Correction { amounts, balanced, prices }, expected: Some(0) };
        }
        _ => {}
    }
    let mut wrongs = Vec::new();
    for _ in 0..rng.pick(&[0, 0, 0, 0, 0, 0, 1, 1, 1, 2, 2, 3]) {
        wrongs.push(rng.pick(WRONGS));
    }
    let has = |wrong: Wrong| wrongs.contains(&wrong);
    let count = if has(Wrong::Many) {
        rng.pick(&[2_977, 2_977, 2_977, 2_978, 2_980, 3_000])
    } else if has(Wrong::Amount) || has(Wrong::Balanced) || has(Wrong::Price) {
        quarter_count(rng).max(1)
    } else {
        quarter_count(rng)
    };
    let quarters = priced(rng, count);
    let mut lists = [0, 1, 2].map(|at| quarters.iter().map(|quarter| quarter[at]).collect::<Vec<i64>>());
    if has(Wrong::Unequal) {
        unequal(rng, &mut lists);
    }
    for &wrong in &wrongs {
        let at = match wrong {
            Wrong::Amount => 0,
            Wrong::Balanced => 1,
            Wrong::Price => 2,
            Wrong::Unequal | Wrong::Many => continue,
        };
        // An empty list is one of unequal lists.
        let length = lists[at].len();
        if length > 0 {
            let any = rng.below(length);
            let place = rng.pick(&[0, length - 1, any]);
            lists[at][place] = beyond(rng, ENDS[at]);
        }
    }
    let expected = if has(Wrong::Unequal) {
        22
    } else if has(Wrong::Many) || has(Wrong::Amount) || has(Wrong::Balanced) {
        20
    } else if has(Wrong::Price) {
        21
    } else {
        0
    };
    let [amounts, balanced, prices] = lists;
    Case { call: Call::Correction { amounts, balanced, prices }, expected: Some(expected) }
}

// ---------------------------------------------------------------------------------------------------------------
// Preview

/// The record that is one more.
#[derive(Clone, Copy, Debug, PartialEq, Eq)]
enum More {
    /// The last of a chain of the measure that is settled, or of its plant.
    OwnQuarter,
    OwnBefore,
    OwnPoint,
    /// A measure of its plant, or a plant; sometimes this one is settled.
    NewMeasure,
    NewPlant,
    /// Under another plant or measure.
    Elsewhere,
}

use More::*;

#[rustfmt::skip]
const MORE: &[More] = &[
    OwnQuarter, OwnQuarter, OwnQuarter, OwnQuarter, OwnQuarter, OwnQuarter, OwnQuarter, OwnBefore, OwnBefore, OwnBefore,
    OwnPoint, OwnPoint, NewMeasure, NewMeasure, NewPlant, Elsewhere, Elsewhere, Elsewhere,
];

/// A record of this kind with any fields, its links zero.
fn any_record(rng: &mut Rng, kind: u8) -> Vec<u8> {
    let mut record = rng.bytes(RECORD);
    record[0] = kind;
    record[4..if matches!(kind, PLANT | MEASURE) { 16 } else { 8 }].fill(0);
    record
}

/// Puts records that nothing names behind the used ones until there are so many of these.
fn pad(rng: &mut Rng, filed: &mut Filed, used: u64) {
    let unused = filed.bytes.split_off(filed.used as usize * RECORD);
    while filed.used < used {
        let kind = 1 + rng.below(5) as u8;
        let record = any_record(rng, kind);
        filed.bytes.extend(record);
        filed.used += 1;
    }
    filed.bytes.extend(unused);
    filed.set_used(filed.used as u32);
}

/// Puts old bytes where the next record goes.
fn old_bytes(rng: &mut Rng, filed: &mut Filed, record: &[u8]) {
    let (used, start) = (filed.used, filed.used as usize * RECORD);
    if used == filed.all() {
        return;
    }
    let old = match rng.below(12) {
        0..=3 => return,
        4 | 5 => vec![0; RECORD],
        6 => vec![rng.pick(&[1, 9, 255]); RECORD],
        7 if record.len() == RECORD => record.to_vec(),
        8 => {
            let number = rng.word() % used;
            crate::archive::record(&filed.bytes, number).to_vec()
        }
        _ => rng.bytes(RECORD),
    };
    filed.bytes[start..start + RECORD].copy_from_slice(&old);
    if rng.chance(30) {
        // A record that was there before, of a known kind and with links.
        *filed.byte(used, 0) = 1 + rng.below(5) as u8;
        for at in [NEXT, FIRST, SECOND] {
            let to = rng.pick(&[0, 1, used as u32, used as u32 + 1]);
            filed.set_link(used, at, to);
        }
    }
}

/// Sets a link that named nothing to U, where the next record goes: often one that settle follows, and the right one
/// for a record of this kind.
fn stale_link(rng: &mut Rng, filed: &mut Filed, plant: usize, measure: usize, kind: u8) {
    let far = u64::MAX;
    let chains = [Plants, Measures, Curve, Chain::Before, Quarters];
    let own = chains.map(|chain| chain_fields(filed, chain, plant, measure, far, far));
    let mut free: Vec<Field> = own.iter().filter_map(|fields| fields.last().copied()).collect();
    match rng.below(10) {
        0..=3 => free = all_fields(filed),
        4..=7 => free.retain(|field| field.kind == kind),
        _ => {}
    }
    free.retain(|field| filed.link(field.holder, field.at) == 0);
    if !free.is_empty() {
        let field = rng.pick(&free);
        let used = filed.used as u32;
        filed.set_link(field.holder, field.at, used);
    }
}

/// A preview on plausible records at random, or on any bytes.
fn wild_preview(rng: &mut Rng) -> Case {
    let mut archive = if rng.chance(80) { soup(rng) } else { noise(rng) };
    if rng.chance(70) {
        let more = RECORD * (1 + rng.below(3));
        let noise = rng.bytes(more);
        archive.extend(noise);
    }
    let kind = 1 + rng.below(5) as u8;
    let above = if kind <= MEASURE { PLANT } else { MEASURE };
    let all = (archive.len() / RECORD) as u64;
    let owners: Vec<u64> = (1..all).filter(|&number| record(&archive, number)[0] == above).collect();
    let owner = match owners[..] {
        _ if kind == PLANT => 0,
        [] => rng.below(4) as u64,
        _ => rng.pick(&owners),
    };
    let record = any_record(rng, kind);
    let (p, k) = (rng.below(4) as u64, rng.below(4) as u64);
    let places = rng.below(8);
    let (list, result) = list_and_result(rng, places, &[]);
    Case { call: Call::Preview { archive, owner, record, p, k, list, result }, expected: None }
}

/// A preview at the limits of the chains: 2,976 quarters, 96 before-quarters.
fn long_preview(rng: &mut Rng) -> Case {
    let quarter = |rng: &mut Rng| Quarter {
        measured: rng.range(0, 900_000) as i32,
        limit: rng.range(0, 900_000) as i32,
        planned: rng.range(0, 2_000_000) as i32,
        ..Quarter::default()
    };
    let of_quarters = rng.chance(40);
    let (before, quarters) = if of_quarters { (1, rng.range(2_974, 2_976)) } else { (rng.range(94, 96), 3) };
    let marked = Before { mark: 1, measured: rng.range(0, 2_000_000) as i32, weather: 0 };
    let quarters: Vec<Quarter> = (0..quarters).map(|_| quarter(rng)).collect();
    let before = vec![marked; before as usize];
    let measure = Measure { direction: 2, execution: rng.range(1, 3) as u8, first: 0, before, quarters };
    let plant = Plant { technology: 3, variant: 2, nominal: 2_000_000, curve: Vec::new(), measures: vec![measure] };
    let (before, count) = (plant.measures[0].before.len(), plant.measures[0].quarters.len());
    let mut filed = file(&[plant], &Layout { spare: 1, noise: rng.chance(50), ..Layout::PLAIN }, rng);
    let record = if of_quarters {
        let quarter = quarter(rng);
        quarter_record(&quarter, rng, true)
    } else {
        before_record(&marked, rng, true)
    };
    old_bytes(rng, &mut filed, &record);
    let owner = filed.plants[0].measures[0].number;
    let many = if of_quarters { count == 2_976 } else { before == 96 };
    let (list, result) = list_and_result(rng, count + usize::from(of_quarters), &[]);
    let call = Call::Preview { archive: filed.bytes, owner, record: record.to_vec(), p: 1, k: 1, list, result };
    Case { call, expected: Some(if many { 8 } else { 0 }) }
}

/// A preview in an archive of as many records as there can be; the chain of quarters is too long for settle if they
/// fill it.
fn longest_preview(rng: &mut Rng) -> Case {
    let mut filed = longest(rng);
    let fits = filed.used < filed.all();
    if !fits && rng.chance(50) {
        // The last quarter is taken off.
        let used = filed.used - 1;
        let last = filed.plants[0].measures[0].quarters.len() - 2;
        let holder = filed.plants[0].measures[0].quarters[last];
        filed.set_link(holder, NEXT, 0);
        filed.set_used(used as u32);
        filed.used = used;
    }
    let owner = filed.plants[0].measures[0].number;
    let record = quarter_record(&Quarter { measured: 3, planned: 8, ..Quarter::default() }, rng, true).to_vec();
    let (list, result) = list_and_result(rng, 41, &[]);
    let expected = match filed.used < filed.all() {
        false => 16,
        true if fits => 0,
        true => 8,
    };
    let call = Call::Preview { archive: filed.bytes, owner, record, p: 1, k: 1, list, result };
    Case { call, expected: Some(expected) }
}

fn preview_case(rng: &mut Rng) -> Case {
    let mode = rng.below(1_000);
    match mode {
        0..=39 => return wild_preview(rng),
        40..=49 => return long_preview(rng),
        50 | 51 => return longest_preview(rng),
        _ => {}
    }

    // What append and settle would meet.
    let filings: Vec<Filing> = match rng.below(100) {
        0..=66 => vec![],
        67..=91 => vec![rng.pick(&FILINGS)],
        _ => vec![rng.pick(&FILINGS), rng.pick(&FILINGS)],
    };
    let count = rng.pick(&[0, 0, 0, 0, 0, 1, 1, 1, 1, 2]);
    let side = if count > 0 && rng.chance(35) { SIDES[0] } else { rng.pick(&SIDES) };
    let pairing = Pairing::of(side.0, side.1).unwrap_or(Pairing::OtherSpitz);
    let mut faults = choose_faults(rng, pairing, count);
    if faults.contains(&ManyQuarters) && rng.chance(80) {
        faults = vec![List];
    }
    if faults.is_empty() && rng.chance(20) {
        faults = vec![rng.pick(&[Late, List, QuarterField])];
    }
    let dirty = rng.chance(60);
    let mut plant = make_plant(rng, pairing, side, dirty, &faults);
    let mut measure = make_measure(rng, &plant, pairing, side.2, dirty, &faults, Size::Any);
    if faults.is_empty() && rng.chance(10) {
        // Without the record there may be no quarter.
        measure.quarters.truncate(1);
    }
    if pairing == Pairing::SolarSpitz && faults.is_empty() && rng.chance(20) {
        // B is 0 without the last before-quarter.
        measure.before.iter_mut().for_each(|one| one.weather = 0);
        let last = measure.before.last_mut();
        last.into_iter().for_each(|one| (one.mark, one.measured, one.weather) = (1, 300_000, 500));
    }
    if faults == [Late] && measure.quarters.len() > 1 && rng.chance(60) {
        // Only the last quarter is past the calendar's end.
        measure.first = (LAST.0 + 2 - measure.quarters.len() as u64) as u32;
    }
    let count = measure.quarters.len();

    // The record is taken off the sheet before that is filed.
    let noise = rng.chance(70);
    let mut more = rng.pick(MORE);
    if filings.contains(&Filing::RecordLinks) {
        more = rng.pick(&[NewMeasure, NewPlant]);
    }
    let off = match more {
        OwnQuarter => measure.quarters.pop().map(|quarter| quarter_record(&quarter, rng, noise)),
        OwnBefore => measure.before.pop().map(|before| before_record(&before, rng, noise)),
        OwnPoint => plant.curve.pop().map(|point| point_record(&point, rng, noise)),
        NewMeasure => {
            let other = Measure { before: vec![], quarters: vec![], ..measure.clone() };
            Some(measure_record(&other, rng, noise))
        }
        NewPlant => Some(plant_record(&plant, rng, noise)),
        Elsewhere => None,
    };
    let at_measure = rng.pick(&[0, 0, 0, 1, 2]);
    for at in 0..at_measure + 1 + rng.below(2) {
        let next = if at == at_measure {
            measure.clone()
        } else {
            let direction = rng.range(0, 3) as u8;
            make_measure(rng, &plant, pairing, direction, dirty, &[], Size::Small)
        };
        plant.measures.push(next);
    }
    let at_plant = rng.pick(&[0, 0, 0, 1, 2]);
    let mut plants = Vec::new();
    for at in 0..at_plant + 1 + rng.below(2) {
        plants.push(if at == at_plant { plant.clone() } else { company(rng, dirty) });
    }
    let mut layout = layout(rng);
    layout.spare = if filings.contains(&Filing::Full) { 0 } else { layout.spare.max(1) };
    let mut filed = file(&plants, &layout, rng);
    if rng.below(25) == 0 {
        let used = rng.pick(&[255, 255, 255, 256, 256, 257, 511, 512]);
        pad(rng, &mut filed, used);
    }

    // The owner and its chain.
    let own = &filed.plants[at_plant];
    let inner = &own.measures[at_measure];
    let mut others = Vec::new();
    for plant in &filed.plants {
        let numbers: Vec<u64> = plant.measures.iter().map(|measure| measure.number).collect();
        if plant.number != own.number {
            others.push(fields(plant.number, FIRST, POINT, &plant.curve));
            others.push(fields(plant.number, SECOND, MEASURE, &numbers));
        }
        for measure in plant.measures.iter().filter(|measure| measure.number != inner.number) {
            others.push(fields(measure.number, FIRST, BEFORE, &measure.before));
            others.push(fields(measure.number, SECOND, QUARTER, &measure.quarters));
        }
    }
    let plant_numbers: Vec<u64> = filed.plants.iter().map(|plant| plant.number).collect();
    let measure_numbers: Vec<u64> = own.measures.iter().map(|measure| measure.number).collect();
    let (mut record, chain) = match (more, off) {
        (OwnQuarter, Some(record)) => (record.to_vec(), fields(inner.number, SECOND, QUARTER, &inner.quarters)),
        (OwnBefore, Some(record)) => (record.to_vec(), fields(inner.number, FIRST, BEFORE, &inner.before)),
        (OwnPoint, Some(record)) => (record.to_vec(), fields(own.number, FIRST, POINT, &own.curve)),
        (NewMeasure, Some(record)) => (record.to_vec(), fields(own.number, SECOND, MEASURE, &measure_numbers)),
        (NewPlant, Some(record)) => (record.to_vec(), fields(0, FIRST, PLANT, &plant_numbers)),
        _ if others.is_empty() => {
            more = NewPlant;
            (any_record(rng, PLANT), fields(0, FIRST, PLANT, &plant_numbers))
        }
        _ => {
            more = Elsewhere;
            let chain = others.swap_remove(rng.below(others.len()));
            let record = match chain[0].kind {
                QUARTER => {
                    let one = quarter(rng, &plant, pairing, 1, measure.first, 0, dirty);
                    quarter_record(&one, rng, noise).to_vec()
                }
                BEFORE => {
                    let weather = if side.0 == 1 { speed(rng, &plant.curve) } else { irradiance(rng) };
                    let one = Before { mark: rng.below(2) as u8, measured: power(rng, plant.nominal), weather };
                    before_record(&one, rng, noise).to_vec()
                }
                kind => any_record(rng, kind),
            };
            (record, chain)
        }
    };
    let (owner, kind) = (chain[0].owner, record[0]);

    // The places.
    let (mut p, mut k) = (at_plant as u64 + 1, at_measure as u64 + 1);
    let (plant_count, measure_count) = (plant_numbers.len() as u64, measure_numbers.len() as u64);
    let new_settled = matches!(more, NewMeasure | NewPlant) && rng.chance(50);
    if new_settled && more == NewMeasure {
        k = measure_count + 1;
    } else if new_settled {
        p = plant_count + 1;
    }
    if faults.contains(&NoPlant) {
        p = missing_place(rng, plant_count);
    }
    if faults.contains(&NoMeasure) {
        k = missing_place(rng, measure_count);
    }
    let broken = faults.iter().any(|fault| matches!(fault, Length | Text | Used | Link(_) | Kind(_)));
    let mut expected = match (&filings[..], &faults[..]) {
        ([], []) if new_settled && kind == PLANT => Some(5),
        ([], []) if new_settled => Some(if uses_before(pairing) { 11 } else { 8 }),
        ([], []) => Some(0),
        ([], _) if broken || new_settled || (more == NewPlant || more == NewMeasure) => None,
        ([], [fault]) => Some(fault.number()),
        ([], [other, Late] | [Late, other]) => Some(if other.number() == 13 { 18 } else { other.number() }),
        ([Filing::Head], _) => Some(1),
        ([filing], _) if !broken => Some(filing.number()),
        _ => None,
    };

    // Links that this pairing doesn't need hold any four bytes, where append doesn't follow them either.
    if dirty && rng.chance(30) && matches!(more, OwnQuarter | Elsewhere) {
        let (own, inner) = (own.number, inner.number);
        if pairing != Pairing::WindSpitz {
            let noise = any(rng) as u32;
            filed.set_link(own, FIRST, noise);
        }
        if !uses_before(pairing) {
            let noise = any(rng) as u32;
            filed.set_link(inner, FIRST, noise);
        }
    }
    for &fault in &faults {
        match fault {
            Link(chain) => {
                let fields = chain_fields(&filed, chain, at_plant, at_measure, p, k);
                break_link(rng, &mut filed, &fields);
            }
            Kind(chain) => {
                let fields = chain_fields(&filed, chain, at_plant, at_measure, p, k);
                break_kind(rng, &mut filed, &fields);
            }
            _ => {}
        }
    }
    if filings.contains(&Filing::Link) {
        break_link(rng, &mut filed, &chain);
    }
    if filings.contains(&Filing::Kind) && !break_kind(rng, &mut filed, &chain) {
        expected = None;
    }
    if rng.chance(if more == Elsewhere { 40 } else { 12 }) {
        stale_link(rng, &mut filed, at_plant, at_measure, kind);
        expected = None;
    }
    let call_owner = wrong_owner(rng, &mut filed, kind, owner, &filings);
    if !filings.contains(&Filing::OwnerUnused) {
        old_bytes(rng, &mut filed, &record);
    }
    wrong_record(rng, &mut record, &filings);
    if rng.below(12) == 0 {
        (p, k) = (rng.below(4) as u64, rng.below(4) as u64);
        expected = expected.filter(|_| filings.len() == 1);
    }
    match mode {
        950..=974 => {
            mutate(rng, &mut filed.bytes);
            expected = None;
        }
        975..=989 => {
            share(rng, &mut filed);
            expected = None;
        }
        _ => {}
    }
    let head = faults.iter().copied().find(|fault| matches!(fault, Length | Text | Used));
    let filed_head = filings.contains(&Filing::Head).then(|| rng.pick(&[Length, Text, Used]));
    if let Some(fault) = head.or(filed_head) {
        break_head(rng, &mut filed, fault);
    }
    let (list, result) = list_and_result(rng, count, &faults);
    Case { call: Call::Preview { archive: filed.bytes, owner: call_owner, record, p, k, list, result }, expected }
}

// ---------------------------------------------------------------------------------------------------------------
// Inputs of the program

/// Plants that share measures that share quarters: few records, many lines.
fn lattice(rng: &mut Rng) -> Vec<u8> {
    let (plants, measures, quarters) = match rng.below(10) {
        0 => (40, 45, 48),
        1..=3 => (12, 20, 30),
        _ => (1 + rng.below(6), 1 + rng.below(6), 1 + rng.below(40)),
    };
    let planned = rng.range(0, 9) as i32;
    shared(plants, measures, quarters, planned, rng)
}

/// So many plants, all with the same so many measures, all with the same so many quarters.
pub fn shared(plants: usize, measures: usize, quarters: usize, planned: i32, rng: &mut Rng) -> Vec<u8> {
    let quarter = Quarter { month: 6, time: 40, planned, ..Quarter::default() };
    let own = Measure { direction: 2, execution: 2, first: 0, before: Vec::new(), quarters: Vec::new() };
    let plant = Plant { technology: 3, variant: 1, nominal: 100_000, curve: Vec::new(), measures: Vec::new() };
    let mut sheet = vec![plant; plants];
    sheet[plants - 1].measures = vec![own; measures];
    sheet[plants - 1].measures[measures - 1].quarters = vec![quarter; quarters];
    let mut filed = file(&sheet, &Layout::PLAIN, rng);
    let last = filed.plants[plants - 1].measures.clone();
    let first_quarter = last[measures - 1].quarters[0];
    for at in 0..plants {
        let number = filed.plants[at].number;
        filed.set_link(number, SECOND, last[0].number as u32);
    }
    for measure in &last {
        filed.set_link(measure.number, SECOND, first_quarter as u32);
    }
    filed.bytes
}

/// Input number `index` of a seed for the program.
pub fn input(seed: u64, index: u64) -> Vec<u8> {
    let mut rng = Rng::new(seed ^ 0x5072_6f67_7261_6d00, index);
    let rng = &mut rng;
    let mode = rng.below(100);
    match mode {
        0 | 1 => return noise(rng),
        2..=5 => return soup(rng),
        6 | 7 => return lattice(rng),
        8 => {
            // Fresh archives.
            let mut archive = vec![0; RECORD * (1 + rng.below(20))];
            crate::fresh(&mut archive);
            return archive;
        }
        _ => {}
    }
    let dirty = rng.chance(60);
    let mut plants = Vec::new();
    for _ in 0..rng.pick(&[0, 1, 1, 2, 2, 3, 4, 5]) {
        let side = rng.pick(&SIDES);
        let pairing = Pairing::of(side.0, side.1).unwrap_or(Pairing::OtherSpitz);
        let some = |rng: &mut Rng, percent| {
            let count = usize::from(rng.chance(percent));
            choose_faults(rng, pairing, count)
        };
        let mut faults = some(rng, 10);
        if rng.chance(15) {
            let fault = rng.pick(&[Technology, Variant, Nominal, CurveField, FewPoints, NotRising, ZeroB]);
            faults.push(fault);
        }
        let mut plant = make_plant(rng, pairing, side, dirty, &faults);
        for _ in 0..rng.pick(&[0, 1, 1, 2, 3, 4]) {
            let mut faults = some(rng, 40);
            faults.retain(|&fault| fault != ManyQuarters);
            let direction = if rng.chance(10) { 1 } else { side.2 };
            let measure = make_measure(rng, &plant, pairing, direction, dirty, &faults, Size::Small);
            plant.measures.push(measure);
        }
        plants.push(plant);
    }
    if rng.chance(2) {
        // A measure of 1,500 quarters or more, as many as the input's limit allows.
        if let Some(measure) = plants.iter_mut().flat_map(|plant| &mut plant.measures).next() {
            let (nonavailable, adjusted) = rng.pick(&[(0, 0), (i32::MAX, 50), (60, i32::MAX)]);
            let (measured, limit, weather, planned) = (11, 5, 30, 77);
            let one = Quarter { month: 7, time: 40, measured, limit, weather, planned, nonavailable, adjusted };
            measure.quarters = vec![one; rng.range(1_500, 1_700) as usize];
        }
    }
    let mut layout = layout(rng);
    layout.gaps = layout.gaps.min(8);
    let mut filed = file(&plants, &layout, rng);

    if (60..85).contains(&mode) {
        // A wrong link or kind somewhere, so that 2 or 3 ends the program.
        let all = all_fields(&filed);
        let weights: Vec<Field> = all.iter().copied().filter(|field| field.holder != 0 || rng.chance(20)).collect();
        if !weights.is_empty() {
            let field = rng.pick(&weights);
            if rng.chance(50) {
                break_link(rng, &mut filed, &[field]);
            } else {
                break_kind(rng, &mut filed, &[field]);
            }
        }
    }
    match mode {
        85..=88 => {
            for _ in 0..1 + rng.below(4) {
                share(rng, &mut filed);
            }
        }
        89..=92 => mutate(rng, &mut filed.bytes),
        93 | 94 => {
            let fault = rng.pick(&[Length, Text, Used]);
            break_head(rng, &mut filed, fault);
            filed.bytes.truncate(70_000);
        }
        95 | 96 => filed.bytes.resize(65_536, 0),
        97 => filed.bytes.resize(rng.range(65_537, 65_567) as usize, 0),
        98 => {
            let length = rng.pick(&[65_568, 65_600, 65_569, 100_000, 98_304]);
            filed.bytes.resize(length, 0);
        }
        _ => {}
    }
    filed.bytes
}
