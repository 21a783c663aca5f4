//! Document 01's own figures and examples, request 1's dates, request 2's taking back, request 3's readings, request
//! 5's correction, request 6's preview, `fast` and the slips against the plain modules, and read-back.

use crate::archive::{link, record, used, FIRST, NEXT, RECORD, SECOND};
use crate::builder::*;
use crate::calendar::{days_of_month, first_day, next_month, Date, Day, QuarterHour, LAST};
use crate::generate::{self, Call};
use crate::rng::Rng;
use crate::settle::{curve_power, factor};
use crate::sha256::sha256;
use crate::slips::{self, Of, Slip, FURTHER, SLIPS};
use crate::{
    append, audit, correction, delivery_day, fast, fresh, host_correction, host_delivery_day, host_preview,
    host_settle, preview, program, settle, show, take_back,
};
use crate::{filing, Answer};

fn quiet() -> Rng {
    Rng::new(0, 0)
}

fn archive(plants: &[Plant]) -> Filed {
    file(plants, &Layout::PLAIN, &mut quiet())
}

fn before(measured: i32, weather: i32) -> Before {
    Before { mark: 1, measured, weather }
}

fn quarter(measured: i32) -> Quarter {
    Quarter { month: 7, time: 40, measured, limit: measured, ..Quarter::default() }
}

fn point(speed: i32, power: i32) -> Point {
    Point { speed, power }
}

fn measure(direction: u8, execution: u8, before: Vec<Before>, quarters: Vec<Quarter>) -> Measure {
    Measure { direction, execution, first: 0, before, quarters }
}

fn plant(technology: u8, variant: u8, nominal: i32, curve: Vec<Point>, measures: Vec<Measure>) -> Plant {
    Plant { technology, variant, nominal, curve, measures }
}

/// Amounts of the only measure of the only plant, or the refusal; the same in both implementations.
fn amounts(plant: Plant) -> Result<Vec<i64>, u32> {
    let filed = archive(&[plant]);
    let mut list = [77; 40];
    let answer = settle(&filed.bytes, 1, 1, &mut list);
    let mut other = [77; 40];
    assert_eq!(answer, fast::settle(&filed.bytes, 1, 1, &mut other));
    assert_eq!(list, other);
    if answer.number != 0 {
        assert_eq!((answer, list), (Answer::refused(answer.number), [77; 40]));
        return Err(answer.number);
    }
    let count = answer.count as usize;
    assert!(list[count..].iter().all(|&place| place == 77));
    assert_eq!(answer.total, list[..count].iter().sum::<i64>());
    Ok(list[..count].to_vec())
}

fn wind(nominal: i32, measured: i32, t: i32, l: i32) -> Plant {
    let curve = vec![point(50, 1_000_000), point(80, 1_500_000), point(100, 2_000_000)];
    let speed = curve.iter().find(|point| point.power == t).map_or(0, |point| point.speed);
    let quarters = vec![Quarter { weather: speed, ..quarter(l) }];
    plant(1, 1, nominal, curve, vec![measure(2, 2, vec![before(measured, 50); 4], quarters)])
}

fn solar_pauschal(month: u8, time: u8) -> Plant {
    let quarters = vec![Quarter { month, time, ..quarter(0) }];
    plant(2, 2, 1_000_000, vec![], vec![measure(2, 2, vec![], quarters)])
}

#[test]
fn figure_a() {
    assert_eq!(amounts(case_a()), Ok(vec![74_999, 75_000, 75_000]));
}

#[test]
fn figure_b() {
    assert_eq!(amounts(wind(2_000_000, 900_000, 1_500_000, 350_000)), Ok(vec![250_000]));
}

#[test]
fn figure_c() {
    assert_eq!(amounts(wind(2_000_000, 1_200_000, 2_000_000, 0)), Ok(vec![500_000]));
}

#[test]
fn figure_d() {
    // Reference 1,000,000 less L 600,000, a quarter of it.
    let quarters = vec![Quarter { limit: 600_000, ..quarter(400_000) }];
    let sheet = plant(3, 2, 1_000_000, vec![], vec![measure(2, 1, vec![before(1_000_000, 0)], quarters)]);
    assert_eq!(amounts(sheet), Ok(vec![100_000]));
}

#[test]
fn figure_e() {
    let quarters = vec![Quarter { limit: 600_000, ..quarter(700_000) }];
    let sheet = plant(3, 2, 1_000_000, vec![], vec![measure(1, 1, vec![before(500_000, 0)], quarters)]);
    assert_eq!(amounts(sheet), Ok(vec![-25_000]));
}

#[test]
fn figure_f() {
    let curve = [(30, 0), (40, 100_001)];
    let powers = [35, 40, 29, 41].map(|speed| curve_power(&curve, speed));
    assert_eq!(powers, [50_000, 100_001, 0, 0]);
    // Decision 27: rounded down on a falling piece too.
    assert_eq!(curve_power(&[(30, 100_001), (40, 0)], 35), 50_000);
}

#[test]
fn figure_g() {
    let quarters = vec![Quarter { weather: 800, ..quarter(80_000) }];
    let sheet = plant(2, 1, 1_000_000, vec![], vec![measure(2, 2, vec![before(300_000, 500); 3], quarters)]);
    assert_eq!(amounts(sheet), Ok(vec![100_000]));
}

#[test]
fn figure_h() {
    assert_eq!(amounts(solar_pauschal(7, 35)), Ok(vec![61_400]));
    assert_eq!(amounts(solar_pauschal(7, 36)), Ok(vec![154_725]));
}

#[test]
fn figure_i() {
    assert_eq!(amounts(solar_pauschal(11, 66)), Ok(vec![69_900]));
    assert_eq!(amounts(solar_pauschal(11, 67)), Ok(vec![0]));
}

#[test]
fn figure_j() {
    assert_eq!(amounts(wind(2_000_000, 200_000, 1_000_000, 0)), Ok(vec![50_000]));
    assert_eq!(amounts(wind(2_000_000, 199_999, 1_000_000, 0)), Err(11));
}

#[test]
fn figure_k() {
    let quarters = vec![quarter(-20_000)];
    let sheet = plant(3, 2, 1_000_000, vec![], vec![measure(2, 2, vec![before(100_000, 0)], quarters)]);
    assert_eq!(amounts(sheet), Ok(vec![30_000]));
}

#[test]
fn factors_by_hour() {
    let of = |month: u8| (0..96).map(|time| factor(month, time)).sum::<i128>();
    assert_eq!(of(3), 28 * 2_456 + 24 * 6_189);
    assert_eq!(of(10), of(3));
    assert_eq!(of(2), 15 * 2_796 + 16 * 5_030);
    assert_eq!(of(11), of(2));
}

/// The 17 examples of "Refused sheets".
#[test]
fn table() {
    let good = archive(&[case_a()]);
    let mut list = [5; 3];
    let call = |archive: &[u8], p, k| {
        let mut list = [5; 3];
        let answer = settle(archive, p, k, &mut list);
        assert_eq!((answer, list), (Answer::refused(answer.number), [5; 3]));
        answer.number
    };

    // 1: 33 bytes.
    assert_eq!(call(&good.bytes[..33], 1, 1), 1);
    assert_eq!(audit(&good.bytes[..33]), 1);
    assert_eq!(fresh(&mut [0; 33]), 1);
    assert_eq!(append(&mut good.bytes[..33].to_vec(), 0, &[1; 32]), 1);
    // 2: record 5 names 5.
    let mut wrong = good.clone();
    wrong.set_link(5, NEXT, 5);
    assert_eq!((wrong.kind(5), call(&wrong.bytes, 1, 1)), (5, 2));
    assert_eq!(audit(&wrong.bytes), 2);
    // 3: quarters lead to kind 4.
    let mut wrong = good.clone();
    *wrong.byte(5, 0) = 4;
    assert_eq!(call(&wrong.bytes, 1, 1), 3);
    assert_eq!(audit(&wrong.bytes), 3);
    // 4: p = 0.
    assert_eq!(call(&good.bytes, 0, 1), 4);
    // 5: k = 2 of one.
    assert_eq!(call(&good.bytes, 1, 2), 5);
    // 6: Pn = 99,999.
    assert_eq!(amounts(Plant { nominal: 99_999, ..case_a() }), Err(6));
    // 7: direction 3.
    let mut wrong = case_a();
    wrong.measures[0].direction = 3;
    assert_eq!(amounts(wrong), Err(7));
    // 8: no quarter.
    let mut wrong = case_a();
    wrong.measures[0].quarters.clear();
    assert_eq!(amounts(wrong), Err(8));
    // 9: month 13, in solar Pauschal only (decision 40).
    assert_eq!(amounts(solar_pauschal(13, 40)), Err(9));
    let mut fine = case_a();
    fine.measures[0].quarters[0].month = 13;
    assert!(amounts(fine).is_ok());
    // 10: 30, 30.
    let mut wrong = wind(2_000_000, 900_000, 1_500_000, 0);
    wrong.curve = vec![point(30, 0), point(30, 5)];
    assert_eq!(amounts(wrong), Err(10));
    // 11: three of four.
    let mut wrong = wind(2_000_000, 900_000, 1_500_000, 0);
    wrong.measures[0].before[2].mark = 0;
    assert_eq!(amounts(wrong), Err(11));
    // 12: calm, four times.
    let mut wrong = wind(2_000_000, 900_000, 1_500_000, 0);
    wrong.measures[0].before.iter_mut().for_each(|one| one.weather = 0);
    assert_eq!(amounts(wrong), Err(12));
    // 13: 2 places for 3.
    assert_eq!(settle(&good.bytes, 1, 1, &mut list[..2]), Answer::refused(13));
    assert_eq!(list, [5; 3]);

    // 14: kind 9.
    let mut room = file(&[case_a()], &Layout { spare: 1, ..Layout::PLAIN }, &mut quiet());
    let untouched = room.bytes.clone();
    let new = |kind: u8| {
        let mut bytes = [0; RECORD];
        bytes[0] = kind;
        bytes
    };
    assert_eq!(append(&mut room.bytes, 2, &new(9)), 14);
    // 15: quarter under a plant.
    assert_eq!(append(&mut room.bytes, 1, &new(5)), 15);
    assert_eq!(room.bytes, untouched);
    // 16: 1 record, U = 1.
    let mut one = [9; RECORD];
    assert_eq!(fresh(&mut one), 0);
    assert_eq!(append(&mut one, 0, &new(1)), 16);
    // 17: orphan 4.
    assert_eq!(audit(&good.bytes), 0);
    let mut wrong = good.clone();
    wrong.set_link(2, SECOND, 5);
    assert_eq!((wrong.kind(4), audit(&wrong.bytes)), (5, 17));
}

fn date(year: u64, month: u8, day: u8) -> Date {
    Date { year, month, day }
}

/// The last quarter of a month.
fn month_end(year: u64, month: u8) -> u64 {
    let (year, month) = next_month(year, month);
    first_day(year, month).midnight().0 - 1
}

#[test]
fn calendar() {
    let october = QuarterHour(937_921);
    assert_eq!((october.day().date(), october.time()), (date(2026, 10, 1), 0));
    assert_eq!((LAST.day().date(), LAST.time()), (date(2099, 12, 31), 95));
    assert_eq!((Day(1).date(), Day(1).weekday()), (date(2000, 1, 1), 6));
    assert_eq!(Day(36_556).date(), date(2100, 1, 31));
    // 29 February stands in 2000 and 2028, not in 2027 and 2100.
    assert_eq!(Day(60).date(), date(2000, 2, 29));
    let february = [2027, 2028, 2100].map(|year| Day(first_day(year, 2).0 + 28).date());
    assert_eq!(february, [date(2027, 3, 1), date(2028, 2, 29), date(2100, 3, 1)]);
    // Day by day: the next day is in the same month or the first of the next one.
    let mut before = date(1999, 12, 31);
    for number in 1..=36_890 {
        let today = Day(number).date();
        let end = u64::from(before.day) == days_of_month(before.year, before.month);
        let (year, month) = next_month(before.year, before.month);
        assert_eq!(today, if end { date(year, month, 1) } else { Date { day: before.day + 1, ..before } });
        assert_eq!(first_day(today.year, today.month).0 + u64::from(today.day) - 1, number);
        before = today;
    }
}

/// The delivery day, the same in all implementations.
fn due(quarter: u64, holidays: &[u32]) -> Result<u64, u32> {
    let found = delivery_day(quarter, holidays);
    assert_eq!(found, fast::delivery_day(quarter, holidays), "{quarter} {holidays:?}");
    let (mut day, mut other) = (77, 77);
    let number = host_delivery_day(quarter, holidays, &mut day);
    assert_eq!((number, day), (found.err().unwrap_or(0), found.unwrap_or(77)));
    assert_eq!((slips::delivery_day(Slip::None, quarter, holidays, &mut other), other), (number, day));
    found
}

#[test]
fn delivery_days() {
    assert_eq!(due(937_921, &[]), Ok(9_806));
    assert_eq!(due(937_921, &[9_806]), Ok(9_807));
    assert_eq!(due(LAST.0, &[]), Ok(36_531));
    assert_eq!(month_end(2027, 12), 981_792);
    assert_eq!(due(981_792, &[]), Ok(10_233));
    // The quarter before it is still in December, the one behind it in January 2028.
    assert_eq!(due(981_791, &[]), Ok(10_233));
    assert_eq!(Day(due(981_793, &[]).unwrap()).date(), date(2028, 2, 4));
    // November 2026: all days but three working days, but four, and all.
    let november: Vec<u32> = (9_802..9_832).collect();
    assert_eq!(due(937_921, &november[..25]), Ok(0));
    assert_eq!(due(937_921, &november[..24]), Ok(9_831));
    assert_eq!(due(937_921, &november), Ok(0));
    // Any order, repeats, weekends, other months and numbers of no day.
    assert_eq!(due(937_921, &[u32::MAX, 9_806, 9_802, 9_801, 0, 9_806, 9_832, 36_557]), Ok(9_807));
    for quarter in [0, LAST.0 + 1, 1 << 32, (1 << 32) + 1, 1 << 63, u64::MAX] {
        assert_eq!(due(quarter, &[]), Err(18));
    }
}

/// All months, without holidays, with the first day and with the first ten days listed.
#[test]
fn delivery_days_of_all_months() {
    for year in 2000..2100 {
        for month in 1..=12 {
            let (next_year, next) = next_month(year, month);
            let first = first_day(next_year, next).0 as u32;
            let days: Vec<u32> = (first..first + 10).collect();
            for quarter in [first_day(year, month).midnight().0, month_end(year, month)] {
                for holidays in [&[], &days[..1], &days] {
                    let found = Day(due(quarter, holidays).unwrap());
                    assert_eq!((found.date().year, found.date().month), (next_year, next));
                    assert!(found.weekday() <= 5 && !holidays.contains(&(found.0 as u32)));
                }
            }
        }
    }
}

/// Solar Pauschal from a quarter on, with Pn 1,000,000 and L 0: all amounts, the same in both implementations, whatever
/// month and time the quarters themselves have.
fn dated_solar(first: u64, count: usize) -> Vec<i64> {
    let run = |month, time| {
        let quarters = vec![Quarter { month, time, ..quarter(0) }; count];
        let own = Measure { first: first as u32, ..measure(2, 2, vec![], quarters) };
        let filed = archive(&[plant(2, 2, 1_000_000, vec![], vec![own])]);
        let (mut list, mut other) = (vec![0; count], vec![0; count]);
        let answer = settle(&filed.bytes, 1, 1, &mut list);
        assert_eq!((answer.number, answer.total), (0, list.iter().sum::<i64>()));
        assert_eq!(answer, fast::settle(&filed.bytes, 1, 1, &mut other));
        assert_eq!(list, other);
        list
    };
    let found = run(7, 40);
    for (month, time) in [(13, 40), (0, 0), (7, 96), (255, 255)] {
        assert_eq!(found, run(month, time));
    }
    found
}

/// A quarter of a day.
fn at(year: u64, month: u8, day: u64, time: u64) -> u64 {
    first_day(year, month).midnight().0 + 96 * (day - 1) + time
}

/// A day's total of solar Pauschal in summer and in winter.
const SUMMER: i64 = 25 * (28 * 2_456 + 24 * 6_189);
const WINTER: i64 = 25 * (15 * 2_796 + 16 * 5_030);

#[test]
fn dated_measures() {
    let by_day = |first, days: usize| -> Vec<i64> {
        dated_solar(first, 96 * days).chunks(96).map(|day| day.iter().sum()).collect()
    };
    // 1 October 2026 from midnight on, as in figure h.
    let day = dated_solar(937_921, 96);
    assert_eq!((day[23], day[24], day[35], day[36]), (0, 61_400, 61_400, 154_725));
    // From noon to noon over 31 October, and the first quarters beside midnight.
    assert_eq!(by_day(at(2026, 10, 30, 0), 4), [SUMMER, SUMMER, WINTER, WINTER]);
    let noon = dated_solar(at(2026, 10, 31, 48), 96);
    assert_eq!((noon[0], noon[47], noon[48], noon[95]), (154_725, 0, 0, 125_750));
    // The same edge in figure i: quarter 66 gives 69,900, 67 gives 0.
    let evening = dated_solar(at(2026, 11, 1, 66), 2);
    assert_eq!(evening, [69_900, 0]);
    // Leap days are winter: 29 February in 2000 and 2028, none in 2027.
    assert_eq!(by_day(at(2000, 2, 28, 0), 3), [WINTER, WINTER, SUMMER]);
    assert_eq!(by_day(at(2028, 2, 28, 0), 3), [WINTER, WINTER, SUMMER]);
    assert_eq!(by_day(at(2027, 2, 28, 0), 3), [WINTER, SUMMER, SUMMER]);
    // Over a year's end, and 31 days up to the last quarter.
    assert_eq!(by_day(at(2027, 12, 31, 0), 2), [WINTER, WINTER]);
    assert_eq!(by_day(LAST.0 - 2_975, 31), [WINTER; 31]);
    assert_eq!(by_day(1, 31), [WINTER; 31]);
    assert_eq!(by_day(at(2026, 3, 1, 0), 31), [SUMMER; 31]);
}

/// From noon to noon over every month's end.
#[test]
fn dated_over_all_months() {
    let noon = |month: u8| if (3..=10).contains(&month) { 154_725 } else { 125_750 };
    for year in 2000..2100 {
        for month in 1..=if year == 2099 { 11 } else { 12 } {
            let found = dated_solar(month_end(year, month) - 47, 96);
            assert_eq!((found[0], found[95]), (noon(month), noon(next_month(year, month).1)));
        }
    }
}

/// A measure of two quarters in each pairing, undated.
fn six() -> [Plant; 6] {
    let windy = wind(2_000_000, 900_000, 1_500_000, 350_000);
    let quarters = vec![Quarter { weather: 800, ..quarter(80_000) }];
    let sunny = plant(2, 1, 1_000_000, vec![], vec![measure(2, 2, vec![before(300_000, 500); 3], quarters)]);
    let other = |variant| Plant { variant, ..case_a() };
    let all = [windy.clone(), Plant { variant: 2, ..windy }, sunny, solar_pauschal(7, 40), other(1), other(2)];
    all.map(|mut plant| {
        let quarters = &mut plant.measures[0].quarters;
        *quarters = vec![quarters[0]; 2];
        plant
    })
}

/// 18 in every technology and variant, behind 9 and before 13.
#[test]
fn late_dates() {
    for right in six() {
        let dated = |first: u32| {
            let mut plant = right.clone();
            plant.measures[0].first = first;
            plant
        };
        let last = LAST.0 as u32;
        assert!(amounts(dated(0)).is_ok());
        for first in [1, 937_921, last - 1] {
            assert!(amounts(dated(first)).is_ok());
        }
        for first in [last, last + 1, 1 << 31, u32::MAX - 1, u32::MAX] {
            assert_eq!(amounts(dated(first)), Err(18));
            // 9 and 8 stand before it.
            let mut wrong = dated(first);
            wrong.measures[0].quarters[1].measured = 1_000_000_001;
            assert_eq!(amounts(wrong), Err(9));
            let mut wrong = dated(first);
            wrong.measures[0].quarters.clear();
            assert_eq!(amounts(wrong), Err(8));
            // 13 stands behind it: a short list, a result part of 23 bytes.
            let filed = archive(&[dated(first)]);
            for (places, result) in [(1, 24), (2, 23), (0, 0)] {
                let (mut list, mut lent) = (vec![5; 8 * places], vec![5; result]);
                assert_eq!(host_settle(&filed.bytes, 1, 1, &mut list, &mut lent), 18);
                assert_eq!(fast::host_settle(&filed.bytes, 1, 1, &mut list, &mut lent), 18);
                assert_eq!(slips::host_settle(Slip::None, &filed.bytes, 1, 1, &mut list, &mut lent), 18);
                assert!(list.iter().chain(&lent).all(|&byte| byte == 5));
            }
            // Append and audit don't look at it.
            assert_eq!(audit(&filed.bytes), 0);
            assert!(printed(&filed.bytes).starts_with("E 1 1 18\n"));
        }
        // A dated measure's own 13.
        let filed = archive(&[dated(937_921)]);
        assert_eq!(settle(&filed.bytes, 1, 1, &mut [0]).number, 13);
    }
}

/// A reading of request 3 that isn't there.
const NONE: i32 = i32::MAX;
/// Readings out of range: beside its ends, beside none, and the lowest.
const WIDE: [i32; 4] = [1_000_000_001, -1_000_000_001, i32::MAX - 1, i32::MIN];

/// Pauschal with reference 800,000 and Pn 1,000,000, tolerated and negative, from a quarter on.
fn pauschal(technology: u8, first: u32, quarters: Vec<Quarter>) -> Plant {
    let own = Measure { first, ..measure(2, 2, vec![before(800_000, 0)], quarters) };
    plant(technology, 2, 1_000_000, vec![], vec![own])
}

/// A quarter with its readings.
fn reading(measured: i32, nonavailable: i32, adjusted: i32) -> Quarter {
    Quarter { nonavailable, adjusted, ..quarter(measured) }
}

/// The amount of one quarter of wind Pauschal from 1 October 2026 on.
fn wind_in_october(measured: i32, nonavailable: i32, adjusted: i32) -> Result<i64, u32> {
    amounts(pauschal(1, 937_921, vec![reading(measured, nonavailable, adjusted)])).map(|list| list[0])
}

#[test]
fn october_wind() {
    // No reading: 500,000 / 4.
    assert_eq!(wind_in_october(300_000, NONE, NONE), Ok(125_000));
    // One of them, both, and the reference each the smallest once.
    assert_eq!(wind_in_october(300_000, 600_000, NONE), Ok(75_000));
    assert_eq!(wind_in_october(300_000, NONE, 500_000), Ok(50_000));
    assert_eq!(wind_in_october(300_000, 500_000, 600_000), Ok(50_000));
    assert_eq!(wind_in_october(300_000, 600_000, 500_000), Ok(50_000));
    assert_eq!(wind_in_october(300_000, 850_000, 900_000), Ok(125_000));
    assert_eq!(wind_in_october(300_000, 299_999, NONE), Ok(0));
    // 0 is a power; T may be below 0 and isn't raised.
    assert_eq!(wind_in_october(-200_000, 0, NONE), Ok(50_000));
    assert_eq!(wind_in_october(-200_000, NONE, -100_000), Ok(25_000));
    assert_eq!(wind_in_october(-200_000, -1, -200_000), Ok(0));
    assert_eq!(wind_in_october(-1_000_000_000, -1_000_000_000, 1_000_000_000), Ok(0));
    assert_eq!(wind_in_october(-1_000_000_000, 1_000_000_000, -999_999_996), Ok(1));
    // No cap at Pn: reference 1,500,000 and readings above 1,000,000.
    for (nonavailable, adjusted, amount) in
        [(NONE, NONE, 300_000), (1_200_000, NONE, 225_000), (1_300_000, 1_100_000, 200_000)]
    {
        let mut sheet = pauschal(1, 937_921, vec![reading(300_000, nonavailable, adjusted)]);
        sheet.measures[0].before[0].measured = 1_500_000;
        assert_eq!(amounts(sheet), Ok(vec![amount]));
    }
    // Case a with a reading of 799,999 in its second quarter: 74,999.75, 149,999.25 and 224,998.75 in all.
    let own = |measured, nonavailable| reading(measured, nonavailable, NONE);
    let quarters = vec![own(500_001, NONE), own(500_001, 799_999), own(500_002, NONE)];
    for technology in [1, 3] {
        assert_eq!(amounts(pauschal(technology, 937_921, quarters.clone())), Ok(vec![74_999, 75_000, 74_999]));
    }
}

#[test]
fn october_other() {
    let one = |direction, execution, reference, own: Quarter| {
        let mut sheet = pauschal(3, 937_921, vec![own]);
        sheet.measures[0] = Measure { direction, execution, ..sheet.measures[0].clone() };
        sheet.measures[0].before[0].measured = reference;
        amounts(sheet).map(|list| list[0])
    };
    // Whatever stands in bytes 28-31.
    for adjusted in [NONE, 0, 450_000, -1_000_000_000, WIDE[0], WIDE[1], WIDE[2], WIDE[3]] {
        // Negative: L is the larger of measured power and limit in execution 1, else the measured power.
        let negative = |execution, nonavailable| {
            one(2, execution, 800_000, Quarter { limit: 400_000, ..reading(300_000, nonavailable, adjusted) })
        };
        for (nonavailable, requested, else_amount) in
            [(NONE, 100_000, 125_000), (600_000, 50_000, 75_000), (800_001, 100_000, 125_000), (350_000, 0, 12_500)]
        {
            assert_eq!(negative(1, nonavailable), Ok(requested));
            assert_eq!(negative(2, nonavailable), Ok(else_amount));
            assert_eq!(negative(3, nonavailable), Ok(else_amount));
        }
        // Figure e, where L is 600,000, and the same with L 700,000.
        let positive = |execution, nonavailable| {
            one(1, execution, 500_000, Quarter { limit: 600_000, ..reading(700_000, nonavailable, adjusted) })
        };
        for (nonavailable, requested, else_amount) in [
            (NONE, -25_000, -50_000),
            (560_000, -15_000, -15_000),
            (650_000, -25_000, -37_500),
            (700_001, -25_000, -50_000),
            (500_000, 0, 0),
            (400_000, 0, 0),
        ] {
            assert_eq!(positive(1, nonavailable), Ok(requested));
            assert_eq!(positive(2, nonavailable), Ok(else_amount));
            assert_eq!(positive(3, nonavailable), Ok(else_amount));
        }
        // Below 0: reference -100,000, L 50,000 without the reading of -60,000.
        assert_eq!(one(1, 2, -100_000, reading(50_000, NONE, adjusted)), Ok(-37_500));
        assert_eq!(one(1, 2, -100_000, reading(50_000, -60_000, adjusted)), Ok(-10_000));
        assert_eq!(one(2, 2, 100_000, reading(-60_000, -20_000, adjusted)), Ok(10_000));
    }
}

/// The measure's first quarter decides for all its quarters.
#[test]
fn october_edges() {
    let all = |technology, first, count| {
        amounts(pauschal(technology, first, vec![reading(300_000, 500_000, NONE); count])).unwrap()
    };
    for technology in [1, 3] {
        for (first, amount) in [(0, 125_000), (1, 125_000), (937_919, 125_000), (937_920, 125_000)] {
            assert_eq!(all(technology, first, 1), [amount]);
            // Running past the date too.
            assert_eq!(all(technology, first, 20), [amount; 20]);
        }
        for first in [937_921, 937_922, LAST.0 as u32 - 19] {
            assert_eq!(all(technology, first, 20), [50_000; 20]);
        }
        assert_eq!(all(technology, LAST.0 as u32, 1), [50_000]);
    }
    // Spitz and solar keep their rules.
    for right in [0, 2, 3, 4].map(|at| six()[at].clone()) {
        let dated = |own: Quarter| {
            let mut plant = right.clone();
            plant.measures[0].first = 937_921 + 40;
            for quarter in &mut plant.measures[0].quarters {
                let Quarter { nonavailable, adjusted, .. } = own;
                *quarter = Quarter { planned: 900_000, nonavailable, adjusted, ..*quarter };
            }
            amounts(plant)
        };
        let found = dated(reading(0, NONE, NONE));
        assert!(found.as_ref().unwrap().iter().all(|&amount| amount > 0));
        for (nonavailable, adjusted) in [(0, 0), (-5, WIDE[0]), (WIDE[1], NONE), (WIDE[2], WIDE[3])] {
            assert_eq!(dated(reading(0, nonavailable, adjusted)), found);
        }
    }
}

/// 9 for readings out of range, whether or not they are the smallest, in its old place.
#[test]
fn october_refusals() {
    let with = |technology, direction, execution, first, last: Quarter| {
        let mut sheet = pauschal(technology, first, vec![reading(300_000, NONE, NONE), last]);
        sheet.measures[0] = Measure { direction, execution, ..sheet.measures[0].clone() };
        amounts(sheet)
    };
    let last = LAST.0 as u32;
    for wide in WIDE {
        let (first, second) = (reading(300_000, wide, NONE), reading(300_000, NONE, wide));
        for execution in 1..=3 {
            for date in [937_921, 937_922, last - 1] {
                assert_eq!(with(1, 2, execution, date, first), Err(9));
                assert_eq!(with(1, 2, execution, date, second), Err(9));
                for direction in [1, 2] {
                    assert_eq!(with(3, direction, execution, date, first), Err(9));
                    assert!(with(3, direction, execution, date, second).is_ok());
                }
            }
            // Undated and older measures don't read them.
            for date in [0, 1, 937_920] {
                for (technology, direction) in [(1, 2), (3, 1), (3, 2)] {
                    for own in [first, second] {
                        let found = with(technology, direction, execution, date, own);
                        assert_eq!(found, with(technology, direction, execution, date, reading(300_000, 5, 5)));
                    }
                }
            }
            // 9 stands before 18, in a late first quarter too; the market adjustment of other plants doesn't.
            for date in [last, last + 1, 1 << 31, u32::MAX] {
                assert_eq!(with(1, 2, execution, date, first), Err(9));
                assert_eq!(with(1, 2, execution, date, second), Err(9));
                assert_eq!(with(3, 1, execution, date, first), Err(9));
                assert_eq!(with(3, 2, execution, date, second), Err(18));
                assert_eq!(with(1, 2, execution, date, reading(300_000, NONE, NONE)), Err(18));
            }
        }
    }
    // The ends of the range.
    for edge in [-1_000_000_000, 1_000_000_000] {
        for (technology, direction) in [(1, 2), (3, 1), (3, 2)] {
            assert!(with(technology, direction, 1, 937_921, reading(300_000, edge, edge)).is_ok());
        }
    }
    // 8 stands before it, 13 behind; the program goes on.
    let mut wrong = pauschal(1, 937_921, vec![reading(0, WIDE[0], 0); 2_977]);
    let mut list = vec![0; 2_977];
    assert_eq!(settle(&archive(&[wrong.clone()]).bytes, 1, 1, &mut list).number, 8);
    wrong.measures[0].quarters.truncate(1);
    wrong.measures.push(pauschal(1, 937_921, vec![reading(300_000, 600_000, NONE)]).measures[0].clone());
    let filed = archive(&[wrong]);
    assert_eq!(settle(&filed.bytes, 1, 1, &mut []).number, 9);
    assert_eq!(printed(&filed.bytes), "E 1 1 9\nM 1 2 1 75000 5\nQ 1 75000\n");
}

/// One quarter of each kind over small powers, from the sentence of request 3.
#[test]
fn october_grid() {
    let readings = [NONE, -5, -1, 0, 3, 9];
    for (reference, measured) in [(-4, -9), (-4, 2), (0, -3), (6, 1), (6, 9), (9, -2)] {
        for nonavailable in readings {
            for adjusted in readings {
                let smallest = |power: i32, count| {
                    let there = [nonavailable, adjusted].into_iter().take(count).filter(|&one| one != NONE);
                    there.fold(power, i32::min)
                };
                let one = |technology, direction| {
                    let mut sheet = pauschal(technology, 937_921, vec![reading(measured, nonavailable, adjusted)]);
                    sheet.measures[0].direction = direction;
                    sheet.measures[0].before[0].measured = reference;
                    amounts(sheet).unwrap()[0]
                };
                let whole = |difference: i32| i64::from(difference.max(0) / 4);
                assert_eq!(one(1, 2), whole(smallest(reference, 2) - measured));
                assert_eq!(one(3, 2), whole(smallest(reference, 1) - measured));
                assert_eq!(one(3, 1), -whole(smallest(measured, 1) - reference));
            }
        }
    }
}

/// Taking back, the same in all implementations; a refusal changes nothing, and else only the record, the link and U.
fn taken_back(archive: &mut Vec<u8>) -> u32 {
    let before = archive.clone();
    let (mut other, mut third) = (before.clone(), before.clone());
    let number = take_back(archive);
    assert_eq!(number, fast::take_back(&mut other));
    assert_eq!(number, slips::take_back(Slip::None, &mut third));
    assert!(*archive == other && *archive == third);
    if number != 0 {
        assert!(*archive == before);
        return number;
    }
    let last = used(&before).unwrap() - 1;
    let names = filing::names(&before, last + 1, last);
    assert_eq!((names.len(), used(archive)), (1, Ok(last)));
    let mut expected = before;
    expected[last as usize * RECORD..][..RECORD].fill(0);
    expected[names[0].0 as usize * RECORD + names[0].1..][..4].fill(0);
    expected[4..8].copy_from_slice(&(last as u32).to_le_bytes());
    assert!(*archive == expected);
    0
}

/// Case a: 1 the plant, 2 the measure, 3 the before-quarter, 4 to 6 the quarters.
#[test]
fn take_back_examples() {
    let good = file(&[case_a()], &Layout { spare: 1, ..Layout::PLAIN }, &mut quiet());
    assert_eq!((good.used, audit(&good.bytes)), (7, 0));
    // What is wanted of case a with some links, and with kinds of some records, set to other values.
    let call = |links: &[(u64, usize, u32)], kinds: &[(u64, u8)]| {
        let mut filed = good.clone();
        links.iter().for_each(|&(number, at, to)| filed.set_link(number, at, to));
        kinds.iter().for_each(|&(number, kind)| *filed.byte(number, 0) = kind);
        taken_back(&mut filed.bytes)
    };
    assert_eq!(call(&[], &[]), 0);
    // 1, and 1 before 19.
    for length in [0, 31, 33, 7 * RECORD - 1] {
        assert_eq!(taken_back(&mut good.bytes[..length].to_vec()), 1);
    }
    assert_eq!(call(&[(0, 4, 0)], &[]), 1);
    assert_eq!(call(&[(0, 4, 9)], &[]), 1);
    assert_eq!(call(&[(0, 4, 1)], &[(0, b'B')]), 1);
    // 2.6: U is 1, whatever the head's link; zero names nothing.
    assert_eq!(call(&[(0, 4, 1)], &[]), 19);
    assert_eq!(call(&[(0, 4, 1), (0, FIRST, 0)], &[]), 19);
    // U is 2: the head's link alone counts.
    assert_eq!(call(&[(0, 4, 2)], &[]), 0);
    // Named by none, by two.
    assert_eq!(call(&[(5, NEXT, 0)], &[]), 19);
    assert_eq!(call(&[(4, NEXT, 6)], &[]), 19);
    assert_eq!(call(&[(0, FIRST, 6)], &[]), 19);
    // 2.1: by value alone: a link for another kind, of a record on no chain; not of an unknown kind, not in a field,
    // not in an unused record.
    for (number, at) in [(0, FIRST), (1, NEXT), (1, FIRST), (1, SECOND), (2, NEXT), (2, FIRST), (2, SECOND), (3, NEXT)]
    {
        assert_eq!(call(&[(5, NEXT, 0), (number, at, 6)], &[]), 0);
    }
    assert_eq!(call(&[(4, NEXT, 0)], &[]), 0);
    assert_eq!(call(&[], &[(5, 6)]), 19);
    assert_eq!(call(&[(4, NEXT, 6)], &[(4, 0)]), 0);
    assert_eq!(call(&[(3, 8, 6), (4, 12, 6), (1, 16, 6), (0, SECOND, 6), (7, NEXT, 6)], &[(7, 5)]), 0);
    assert_eq!(call(&[(4, NEXT, 65_542), (1, NEXT, 6 + (1 << 24))], &[]), 0);
    // 2.2: its own links.
    assert_eq!(call(&[(5, NEXT, 0), (6, NEXT, 6)], &[]), 0);
    assert_eq!(call(&[(6, NEXT, 6)], &[]), 19);
    for at in [NEXT, FIRST, SECOND] {
        for kind in [1, 3] {
            assert_eq!(call(&[(5, NEXT, 0), (6, FIRST, 0), (6, SECOND, 0), (6, at, 6)], &[(6, kind)]), 0);
        }
    }
    assert_eq!(call(&[(5, NEXT, 0), (6, FIRST, 6), (6, SECOND, 6)], &[(6, 3)]), 19);
    // 2.3: its own kind; own links of an unknown kind don't count.
    for kind in [0, 6, 255] {
        assert_eq!(call(&[(6, NEXT, 6), (6, FIRST, 6)], &[(6, kind)]), 0);
    }
    // 2.4: its other links.
    assert_eq!(call(&[(6, NEXT, 4)], &[]), 0);
    assert_eq!(call(&[(6, NEXT, 7), (6, FIRST, 1), (6, SECOND, u32::MAX)], &[(6, 3)]), 0);
}

/// Records filed and taken back in turns, a few more filed than taken: each taking back gives the archive before the
/// filing that it undoes, byte for byte, and every archive on the way is sound. At the end all are taken back.
#[test]
fn filed_and_taken_back() {
    for seed in 0..60 {
        let mut rng = Rng::new(21, seed);
        let mut archive = rng.bytes(RECORD * 40);
        assert_eq!(fresh(&mut archive), 0);
        let mut earlier = vec![archive.clone()];
        for _ in 0..400 {
            if rng.chance(45) {
                let number = taken_back(&mut archive);
                if earlier.len() == 1 {
                    assert_eq!(number, 19);
                } else {
                    earlier.pop();
                    assert_eq!(number, 0);
                }
                assert!(archive == earlier[earlier.len() - 1]);
            } else {
                let kind = 1 + rng.below(5) as u8;
                let mut new = rng.bytes(RECORD);
                new[0] = kind;
                new[4..if kind == 1 || kind == 3 { 16 } else { 8 }].fill(0);
                let owner = if kind == 1 { 0 } else { rng.word() % used(&archive).unwrap() };
                if append(&mut archive, owner, &new) == 0 {
                    earlier.push(archive.clone());
                }
            }
            assert_eq!(audit(&archive), 0);
        }
        while earlier.len() > 1 {
            assert!(archive == earlier.pop().unwrap());
            assert_eq!(taken_back(&mut archive), 0);
        }
        let mut new = vec![7; RECORD * 40];
        assert_eq!(fresh(&mut new), 0);
        assert!(archive == new);
        assert_eq!(taken_back(&mut archive), 19);
    }
}

/// Request 2's sentence over generated archives and records: if audit finds the earlier archive sound and the place is
/// all zero. With other bytes at the place these are zero afterwards, and nothing else differs.
#[test]
fn append_then_take_back() {
    let (mut zero, mut old, mut unsound) = (0, 0, 0);
    for index in 0..40_000 {
        if let Call::Append { archive, owner, record } = generate::call(8, index).call {
            let mut later = archive.clone();
            if append(&mut later, owner, &record) != 0 {
                continue;
            }
            if audit(&archive) != 0 {
                unsound += u32::from(taken_back(&mut later) == 19);
                continue;
            }
            assert_eq!(taken_back(&mut later), 0);
            let place = used(&archive).unwrap() as usize * RECORD;
            let mut expected = archive.clone();
            expected[place..place + RECORD].fill(0);
            *(if expected == archive { &mut zero } else { &mut old }) += 1;
            assert!(later == expected);
        }
    }
    assert!(zero > 50 && old > 50 && unsound > 5, "{zero} {old} {unsound}");
}

/// A sound archive stays sound down to its head.
#[test]
fn sound_stays_sound() {
    let mut rounds = 0;
    for index in 0..6_000 {
        if let Call::Audit { archive } | Call::TakeBack { archive } = generate::call(4, index).call {
            let mut archive = archive;
            if archive.len() > RECORD * 300 || audit(&archive) != 0 {
                continue;
            }
            for left in (1..used(&archive).unwrap()).rev() {
                assert_eq!((taken_back(&mut archive), audit(&archive)), (0, 0));
                assert_eq!(used(&archive), Ok(left));
                rounds += 1;
            }
            assert_eq!(taken_back(&mut archive), 19);
        }
    }
    assert!(rounds > 3_000, "{rounds}");
}

/// The correction, the same in all implementations; a refusal leaves the lent cents and remainder.
fn corrected(amounts: &[i64], balanced: &[i64], prices: &[i64]) -> Result<(i64, u64), u32> {
    let found = correction(amounts, balanced, prices);
    let run = |call: &dyn Fn(&mut i64, &mut u64) -> u32| {
        let (mut cents, mut remainder) = (-77, 1_000_077);
        (call(&mut cents, &mut remainder), cents, remainder)
    };
    let (cents, remainder) = found.unwrap_or((-77, 1_000_077));
    let right = (found.err().unwrap_or(0), cents, remainder);
    let (host, quick, slip) = (
        run(&|cents, remainder| host_correction(amounts, balanced, prices, cents, remainder)),
        run(&|cents, remainder| fast::correction(amounts, balanced, prices, cents, remainder)),
        run(&|cents, remainder| slips::correction(Slip::None, amounts, balanced, prices, cents, remainder)),
    );
    let lengths = [amounts, balanced, prices].map(<[i64]>::len);
    assert_eq!((host, quick, slip), (right, right, right), "{lengths:?}");
    found
}

/// The most of an amount or balanced energy, and of a price.
const ENERGY: i64 = 1_000_000_000;
const PRICE: i64 = 1_000_000;

#[test]
fn correction_figures() {
    // The request's own: -1 Wh at 1 cent, as a list of one; 5.3: three of them.
    assert_eq!(corrected(&[-1], &[0], &[1]), Ok((-1, 999_999)));
    assert_eq!(corrected(&[0], &[1], &[1]), Ok((-1, 999_999)));
    assert_eq!(corrected(&[0], &[-1], &[-1]), Ok((-1, 999_999)));
    assert_eq!(corrected(&[-1; 3], &[0; 3], &[1; 3]), Ok((-1, 999_997)));
    // 5.1: three empty lists.
    assert_eq!(corrected(&[], &[], &[]), Ok((0, 0)));
    // 250 kWh above 100 kWh at 8,512 cents per MWh: 1,276.8 cents; the same below.
    assert_eq!(corrected(&[250_000], &[100_000], &[8_512]), Ok((1_276, 800_000)));
    assert_eq!(corrected(&[100_000], &[250_000], &[8_512]), Ok((-1_277, 200_000)));
    assert_eq!(corrected(&[250_000], &[100_000], &[-8_512]), Ok((-1_277, 200_000)));
    assert_eq!(corrected(&[100_000], &[250_000], &[-8_512]), Ok((1_276, 800_000)));
    // Both together take each other off, in either order.
    assert_eq!(corrected(&[250_000, 100_000], &[100_000, 250_000], &[8_512; 2]), Ok((0, 0)));
    assert_eq!(corrected(&[250_000; 2], &[100_000; 2], &[-8_512, 8_512]), Ok((0, 0)));
    // Sums at whole cents and beside them.
    for (sum, cents, remainder) in [
        (0, 0, 0),
        (1, 0, 1),
        (499_999, 0, 499_999),
        (500_000, 0, 500_000),
        (999_999, 0, 999_999),
        (1_000_000, 1, 0),
        (1_000_001, 1, 1),
        (-1, -1, 999_999),
        (-500_000, -1, 500_000),
        (-999_999, -1, 1),
        (-1_000_000, -1, 0),
        (-1_000_001, -2, 999_999),
        (-2_000_000, -2, 0),
    ] {
        assert_eq!(corrected(&[sum], &[0], &[1]), Ok((cents, remainder)));
        assert_eq!(corrected(&[0], &[sum], &[-1]), Ok((cents, remainder)));
        assert_eq!(corrected(&[7, sum + 5], &[7, 5], &[-3, 1]), Ok((cents, remainder)));
        // In 20 parts: the quarters' own cents don't matter.
        let mut amounts = [-1_000_003; 20];
        amounts[11] = sum + 19 * 1_000_003;
        assert_eq!(corrected(&amounts, &[0; 20], &[1; 20]), Ok((cents, remainder)));
    }
}

/// Both ends of every range, one past them, and the ends of 64 bits; at the first, a middle and the last of 20 places.
#[test]
fn correction_ranges() {
    let far = [i64::MIN, i64::MIN + 1, i64::MAX - 1, i64::MAX, 1 << 32, -(1 << 32), (1 << 32) + 5, i64::MIN + 5];
    for (list, most, number) in [(0, ENERGY, 20), (1, ENERGY, 20), (2, PRICE, 21)] {
        for count in [1, 20] {
            for place in [0, count / 2, count - 1] {
                let with = |value: i64| {
                    let mut lists = [vec![3; count], vec![5; count], vec![7; count]];
                    lists[list][place] = value;
                    corrected(&lists[0], &lists[1], &lists[2])
                };
                for value in [-most, 1 - most, -1, 0, 1, most - 1, most] {
                    let change = match list {
                        0 => (value - 3) * 7,
                        1 => (5 - value) * 7,
                        _ => -2 * (value - 7),
                    };
                    let sum = -14 * count as i64 + change;
                    let split = (sum.div_euclid(1_000_000), sum.rem_euclid(1_000_000) as u64);
                    assert_eq!(with(value), Ok(split));
                }
                for value in [most + 1, -most - 1].iter().chain(&far) {
                    assert_eq!(with(*value), Err(number), "{list} {value}");
                }
            }
        }
    }
    // A gap may be twice as far, and a fine energy is no price.
    assert_eq!(corrected(&[ENERGY], &[-ENERGY], &[PRICE]), Ok((2_000_000_000, 0)));
    assert_eq!(corrected(&[-ENERGY], &[ENERGY], &[PRICE]), Ok((-2_000_000_000, 0)));
    assert_eq!(corrected(&[ENERGY], &[ENERGY], &[ENERGY]), Err(21));
}

/// 22, 20, 21, each over the whole lists.
#[test]
fn correction_order() {
    let far = ENERGY + 1;
    // A bad price before, beside and behind a bad amount or balanced energy.
    for (first, second) in [(0, 8), (4, 4), (8, 0)] {
        let list = |place: usize, value| {
            let mut list = [0; 9];
            list[place] = value;
            list
        };
        let fine = [0; 9];
        assert_eq!(corrected(&list(second, far), &fine, &list(first, PRICE + 1)), Err(20));
        assert_eq!(corrected(&fine, &list(second, -far), &list(first, -PRICE - 1)), Err(20));
        assert_eq!(corrected(&fine, &fine, &list(first, PRICE + 1)), Err(21));
    }
    // 2,976 quarters are taken, 2,977 are 20, also with a bad price.
    let (most, more) = (vec![-1; 2_976], vec![-1; 2_977]);
    assert_eq!(corrected(&most[1..], &vec![0; 2_975], &vec![1; 2_975]), Ok((-1, 997_025)));
    assert_eq!(corrected(&most, &vec![0; 2_976], &vec![1; 2_976]), Ok((-1, 997_024)));
    assert_eq!(corrected(&more, &more, &more), Err(20));
    assert_eq!(corrected(&more, &more, &vec![i64::MIN; 2_977]), Err(20));
    assert_eq!(corrected(&vec![0; 5_000], &vec![0; 5_000], &vec![0; 5_000]), Err(20));
    // Unequal lengths in every pairing, beside nothing, 20 for a number, 20 for the count, and 21.
    for [amounts, balanced, prices] in
        [[1, 0, 0], [0, 1, 0], [0, 0, 1], [1, 1, 0], [1, 0, 1], [0, 1, 1], [0, 1, 2], [2, 1, 0], [0, 2, 5]]
    {
        for count in [0, 1, 20, 2_976, 2_977] {
            let lists = |energy: i64, price: i64| {
                let list = |more: usize, value: i64| vec![value; count + more];
                corrected(&list(amounts, energy), &list(balanced, 0), &list(prices, price))
            };
            for (energy, price) in [(0, 0), (far, 0), (i64::MIN, 0), (0, PRICE + 1), (far, i64::MAX)] {
                assert_eq!(lists(energy, price), Err(22));
            }
        }
    }
    assert_eq!(corrected(&[far], &[], &[]), Err(22));
    assert_eq!(corrected(&[], &[far], &[]), Err(22));
    assert_eq!(corrected(&[], &[], &[PRICE + 1]), Err(22));
}

/// The largest sums stay below 2^63, and doubles don't hold those beside them.
#[test]
fn correction_largest() {
    let all = |amount: i64, price: i64| corrected(&vec![amount; 2_976], &vec![-amount; 2_976], &vec![price; 2_976]);
    let most = 5_952_000_000_000;
    assert_eq!(all(ENERGY, PRICE), Ok((most, 0)));
    assert_eq!(all(-ENERGY, -PRICE), Ok((most, 0)));
    assert_eq!(all(ENERGY, -PRICE), Ok((-most, 0)));
    assert_eq!(all(-ENERGY, PRICE), Ok((-most, 0)));
    // One Wh less in one of the quarters: a million parts, which is a cent; one price less: 2,000 cents.
    let mut amounts = vec![ENERGY; 2_976];
    amounts[1_500] -= 1;
    assert_eq!(corrected(&amounts, &vec![-ENERGY; 2_976], &vec![PRICE; 2_976]), Ok((most - 1, 0)));
    let mut prices = vec![PRICE; 2_976];
    prices[2_975] -= 1;
    assert_eq!(corrected(&amounts, &vec![-ENERGY; 2_976], &prices), Ok((most - 2_001, 0)));
    prices[1_500] -= 1;
    assert_eq!(corrected(&amounts, &vec![-ENERGY; 2_976], &prices), Ok((most - 4_001, 1)));
}

/// Numbers on both sides of what `fast` takes for ordinary, in lists of many lengths.
#[test]
fn correction_fast() {
    let (energy, price) = (1 << 29, 1 << 19);
    let energies = [-energy - 1, -energy, 1 - energy, -1, 0, 1, energy - 1, energy, energy + 1, ENERGY, -ENERGY];
    let prices = [-price - 1, -price, 1 - price, 0, 1, price - 1, price, price + 1, PRICE, -PRICE];
    for count in (0..70).chain([95, 96, 97, 2_975, 2_976]) {
        for &amount in &energies {
            for &balanced in &energies {
                for &price in prices.iter().filter(|_| count < 40) {
                    let sum = i128::from(amount - balanced) * i128::from(price) * count as i128;
                    let split = (sum.div_euclid(1_000_000) as i64, sum.rem_euclid(1_000_000) as u64);
                    let (amounts, balanced) = (vec![amount; count], vec![balanced; count]);
                    assert_eq!(corrected(&amounts, &balanced, &vec![price; count]), Ok(split));
                }
            }
        }
        // One number that isn't ordinary, or out of range, at each end.
        for place in [0, count / 2, count.saturating_sub(1)].into_iter().filter(|_| count > 0) {
            for value in [energy, -energy, energy + 1, ENERGY, ENERGY + 1, i64::MIN, i64::MAX] {
                for list in 0..3 {
                    let mut lists = [vec![-9; count], vec![4; count], vec![11; count]];
                    lists[list][place] = value;
                    let number = corrected(&lists[0], &lists[1], &lists[2]).err().unwrap_or(0);
                    let right = match list {
                        2 => 21,
                        _ if (-ENERGY..=ENERGY).contains(&value) => 0,
                        _ => 20,
                    };
                    assert_eq!(number, right);
                }
            }
        }
    }
}

/// What settle gives goes in as it is; 5.4: beyond 1,000,000,000 it is 20.
#[test]
fn settled_and_corrected() {
    let filed = archive(&[case_a()]);
    let mut list = [0; 3];
    assert_eq!(settle(&filed.bytes, 1, 1, &mut list).number, 0);
    // 224,999 Wh at 10,000 cents per MWh.
    assert_eq!(corrected(&list, &[0; 3], &[10_000; 3]), Ok((2_249, 990_000)));
    let most = 1_000_000_000;
    let quarters = vec![Quarter { weather: 2_000, ..quarter(-most) }];
    let filed = archive(&[plant(2, 1, most, vec![], vec![measure(2, 2, vec![before(most, 1)], quarters)])]);
    assert_eq!(settle(&filed.bytes, 1, 1, &mut list).number, 0);
    assert!(list[0] > ENERGY);
    assert_eq!(corrected(&list[..1], &[0], &[0]), Err(20));
}

/// A list of six places and a few bytes more, and a result part, as they are lent to a preview.
const LENT: ([u8; 53], [u8; 24]) = ([0xee; 53], [0xdd; 24]);

/// A call on archive, list and result part.
type LentCall<'a> = &'a dyn Fn(&mut [u8], &mut [u8], &mut [u8]) -> u32;

/// A preview on bytes, the same in all implementations: number, list and result part. The archive stays, and on a
/// refusal list and result part too.
fn previewed(
    archive: &[u8],
    owner: u64,
    new: &[u8],
    (p, k): (u64, u64),
    list: &[u8],
    result: &[u8],
) -> (u32, Vec<u8>, Vec<u8>) {
    let run = |call: LentCall| {
        let (mut lent, mut list, mut result) = (archive.to_vec(), list.to_vec(), result.to_vec());
        let number = call(&mut lent, &mut list, &mut result);
        assert!(lent == archive, "the archive stays");
        (number, list, result)
    };
    let plain = run(&|archive, list, result| host_preview(archive, owner, new, p, k, list, result));
    assert_eq!(plain, run(&|archive, list, result| fast::host_preview(archive, owner, new, p, k, list, result)));
    let slip = |archive: &mut [u8], list: &mut [u8], result: &mut [u8]| {
        slips::preview(Slip::None, archive, owner, new, p, k, list, result)
    };
    assert_eq!(plain, run(&slip));
    if plain.0 != 0 {
        assert_eq!((&plain.1[..], &plain.2[..]), (list, result));
    }

    // Append and then settle on a copy.
    let mut copy = archive.to_vec();
    let number = append(&mut copy, owner, new);
    let settled = run(&|_, list, result| match number {
        0 => host_settle(&copy, p, k, list, result),
        _ => number,
    });
    assert_eq!(plain, settled);

    // The calls on numbers say the same.
    if result.len() == 24 {
        let numbers = |list: &[u8]| -> Vec<i64> {
            list.chunks_exact(8).map(|place| i64::from_le_bytes(place.try_into().unwrap())).collect()
        };
        let (mut own, mut other, mut lent) = (numbers(list), numbers(list), archive.to_vec());
        let answer = preview(archive, owner, new, p, k, &mut own);
        assert_eq!(answer, fast::preview(&mut lent, owner, new, p, k, &mut other));
        assert!(lent == archive && own == other && own == numbers(&plain.1));
        let parts = [answer.count, answer.total as u64, answer.links].map(u64::to_le_bytes).concat();
        match answer.number {
            0 => assert_eq!(plain.2, parts),
            number => assert_eq!((answer, plain.0), (Answer::refused(number), number)),
        }
    }
    plain
}

/// The same with the usual list and result part: amounts, total and links, or the refusal.
fn ahead(archive: &[u8], owner: u64, new: &[u8], places: (u64, u64)) -> Result<(Vec<i64>, i64, u64), u32> {
    let (number, list, result) = previewed(archive, owner, new, places, &LENT.0, &LENT.1);
    if number != 0 {
        return Err(number);
    }
    let value = |bytes: &[u8]| i64::from_le_bytes(bytes.try_into().unwrap());
    let count = value(&result[..8]) as usize;
    assert!(list[8 * count..].iter().all(|&byte| byte == 0xee), "later places and ragged bytes stay");
    let amounts = list.chunks_exact(8).take(count).map(value).collect();
    Ok((amounts, value(&result[8..16]), value(&result[16..]) as u64))
}

/// Case a but for its last quarter, with two unused records of old bytes: 1 the plant, 2 the measure, 3 the
/// before-quarter, 4 and 5 the quarters.
fn two_of_three() -> (Filed, [u8; RECORD]) {
    let mut sheet = case_a();
    let last = sheet.measures[0].quarters.pop().unwrap();
    let filed = file(&[sheet], &Layout { spare: 2, noise: true, ..Layout::PLAIN }, &mut quiet());
    assert!(filed.used == 6 && record(&filed.bytes, 6) != [0; RECORD]);
    (filed, quarter_record(&last, &mut quiet(), true))
}

#[test]
fn preview_examples() {
    let (filed, last) = two_of_three();
    let a = (vec![74_999, 75_000, 75_000], 224_999, 6);
    let filed_so_far = (vec![74_999, 75_000], 149_999, 5);
    assert_eq!(ahead(&filed.bytes, 2, &last, (1, 1)), Ok(a.clone()));
    // Without it, and with it filed.
    let mut list = [0; 3];
    assert_eq!(settle(&filed.bytes, 1, 1, &mut list), Answer { number: 0, count: 2, total: 149_999, links: 5 });
    let mut archive = filed.bytes.clone();
    assert_eq!(append(&mut archive, 2, &last), 0);
    assert_eq!(settle(&archive, 1, 1, &mut list), Answer { number: 0, count: 3, total: 224_999, links: 6 });

    // A full archive, though the record would settle.
    assert_eq!(ahead(&filed.bytes[..6 * RECORD], 2, &last, (1, 1)), Err(16));
    // Every kind, for this measure or another one.
    let rng = &mut quiet();
    let marked = before_record(&before(900_000, 0), rng, true);
    assert_eq!(ahead(&filed.bytes, 2, &marked, (1, 1)), Ok((vec![74_999, 75_000], 149_999, 6)));
    let new_point = point_record(&point(30, 5), rng, true);
    assert_eq!(ahead(&filed.bytes, 1, &new_point, (1, 1)), Ok(filed_so_far.clone()));
    let new_measure = measure_record(&case_a().measures[0], rng, true);
    assert_eq!(ahead(&filed.bytes, 1, &new_measure, (1, 1)), Ok(filed_so_far.clone()));
    assert_eq!(ahead(&filed.bytes, 1, &new_measure, (1, 2)), Err(11));
    assert_eq!(ahead(&filed.bytes, 1, &new_measure, (1, 3)), Err(5));
    let new_plant = plant_record(&case_a(), rng, true);
    assert_eq!(ahead(&filed.bytes, 0, &new_plant, (1, 1)), Ok(filed_so_far.clone()));
    assert_eq!(ahead(&filed.bytes, 0, &new_plant, (2, 1)), Err(5));
    assert_eq!(ahead(&filed.bytes, 0, &new_plant, (3, 1)), Err(4));
    // Places that aren't the owner's.
    for (p, k, number) in [(0, 1, 4), (1, 0, 5), (2, 1, 4), (1, 2, 5), (1 << 32 | 1, 1, 4), (1, 1 << 32 | 1, 5)] {
        assert_eq!(ahead(&filed.bytes, 2, &last, (p, k)), Err(number));
    }
    let mut two = filed.clone();
    two.bytes.splice(6 * RECORD..7 * RECORD, new_measure);
    two.set_link(2, NEXT, 6);
    two.set_used(7);
    assert_eq!(ahead(&two.bytes, 6, &last, (1, 1)), Ok(filed_so_far));
    assert_eq!(ahead(&two.bytes, 2, &last, (1, 1)), Ok(a));
    assert_eq!(ahead(&two.bytes, 6, &last, (1, 2)), Err(11));

    // What doesn't settle yet: no quarter, three of four before-quarters, one curve point.
    let mut bare = case_a();
    let quarters = std::mem::take(&mut bare.measures[0].quarters);
    let none = file(&[bare], &Layout { spare: 1, ..Layout::PLAIN }, &mut quiet());
    assert_eq!(settle(&none.bytes, 1, 1, &mut list).number, 8);
    let first = quarter_record(&quarters[0], rng, true);
    assert_eq!(ahead(&none.bytes, 2, &first, (1, 1)), Ok((vec![74_999], 74_999, 4)));
    let mut three = wind(2_000_000, 900_000, 1_500_000, 350_000);
    let fourth = before_record(&three.measures[0].before.pop().unwrap(), rng, true);
    let three = file(&[three], &Layout { spare: 1, ..Layout::PLAIN }, &mut quiet());
    let owner = three.plants[0].measures[0].number;
    assert_eq!(settle(&three.bytes, 1, 1, &mut list).number, 11);
    assert_eq!(ahead(&three.bytes, owner, &fourth, (1, 1)), Ok((vec![250_000], 250_000, 10)));
    let mut one = wind(2_000_000, 900_000, 1_000_000, 350_000);
    one.curve.truncate(1);
    let one = file(&[one], &Layout { spare: 1, ..Layout::PLAIN }, &mut quiet());
    assert_eq!(settle(&one.bytes, 1, 1, &mut list).number, 10);
    let second = point_record(&point(80, 0), rng, true);
    assert_eq!(ahead(&one.bytes, 1, &second, (1, 1)), Ok((vec![137_500], 137_500, 9)));
}

/// Refusals of settle after an append that isn't refused.
#[test]
fn preview_refused_by_settle() {
    let (filed, last) = two_of_three();
    let rng = &mut quiet();
    let wide = quarter_record(&quarter(1_000_000_001), rng, true);
    assert_eq!(ahead(&filed.bytes, 2, &wide, (1, 1)), Err(9));
    let unmarked = before_record(&Before { mark: 2, measured: 0, weather: 0 }, rng, true);
    assert_eq!(ahead(&filed.bytes, 2, &unmarked, (1, 1)), Err(9));
    for (at, value, number) in [(16, 99_999, 6), (1, 0, 6)] {
        let mut wrong = filed.clone();
        wrong.set_link(1, at, value);
        assert_eq!(ahead(&wrong.bytes, 2, &last, (1, 1)), Err(number));
    }
    let mut wrong = filed.clone();
    *wrong.byte(2, 1) = 3;
    assert_eq!(ahead(&wrong.bytes, 2, &last, (1, 1)), Err(7));

    // 18 for the one quarter more, before 13.
    let mut late = filed.clone();
    late.set_link(2, 16, LAST.0 as u32 - 1);
    *late.byte(1, 2) = 1;
    assert_eq!(settle(&late.bytes, 1, 1, &mut [0; 2]).number, 0);
    assert_eq!(ahead(&late.bytes, 2, &last, (1, 1)), Err(18));
    assert_eq!(previewed(&late.bytes, 2, &last, (1, 1), &[], &LENT.1).0, 18);

    // 13: the list has room for what is filed so far only; the result part has another length.
    for (places, number) in [(0, 13), (2, 13), (3, 0), (4, 0)] {
        for ragged in [0, 7] {
            let list = &LENT.0[..8 * places + ragged];
            assert_eq!(previewed(&filed.bytes, 2, &last, (1, 1), list, &LENT.1).0, number);
        }
    }
    for length in [0, 8, 23, 25, 48] {
        assert_eq!(previewed(&filed.bytes, 2, &last, (1, 1), &LENT.0, &vec![5; length]).0, 13);
        // In 13's place: append's refusals and settle's others come first.
        assert_eq!(previewed(&filed.bytes, 1, &last, (1, 1), &LENT.0, &vec![5; length]).0, 15);
        assert_eq!(previewed(&filed.bytes, 2, &wide, (1, 1), &LENT.0, &vec![5; length]).0, 9);
        assert_eq!(previewed(&filed.bytes, 2, &last, (2, 1), &LENT.0, &vec![5; length]).0, 4);
    }

    // 8 for a 2,977th quarter and a 97th before-quarter.
    let many = plant(3, 1, 1_000_000, vec![], vec![measure(2, 2, vec![], vec![quarter(0); 2_976])]);
    let many = file(&[many], &Layout { spare: 1, noise: true, ..Layout::PLAIN }, &mut quiet());
    let room = vec![1; 8 * 2_977];
    assert_eq!(previewed(&many.bytes, 2, &last, (1, 1), &room, &LENT.1).0, 8);
    let mut less = many.clone();
    less.set_link(2_977, NEXT, 0);
    less.set_used(2_978);
    assert_eq!(previewed(&less.bytes, 2, &last, (1, 1), &room, &LENT.1).0, 0);
    let mut day = case_a();
    day.measures[0].before = vec![before(800_000, 0); 96];
    let day = file(&[day], &Layout { spare: 1, noise: true, ..Layout::PLAIN }, &mut quiet());
    let one_more = before_record(&before(800_000, 0), rng, true);
    assert_eq!(ahead(&day.bytes, 2, &one_more, (1, 1)), Err(8));
}

/// Append's refusals, each before what settle would refuse, with and without the record.
#[test]
fn preview_refused_by_append() {
    let (filed, last) = two_of_three();
    let changed = |change: &dyn Fn(&mut Vec<u8>)| {
        let mut bytes = filed.bytes.clone();
        change(&mut bytes);
        bytes
    };
    let set = |number: usize, at: usize, to: u32| {
        changed(&|bytes| bytes[32 * number + at..32 * number + at + 4].copy_from_slice(&to.to_le_bytes()))
    };
    let record = |at: usize, byte: u8| {
        let mut new = last.to_vec();
        new[at] = byte;
        new
    };
    let measure_with_link = {
        let mut new = vec![0; RECORD];
        (new[0], new[15]) = (3, 1);
        new
    };
    let cases: [(u32, Vec<u8>, u64, Vec<u8>); 16] = [
        (1, filed.bytes[..33].to_vec(), 2, last.to_vec()),
        (1, vec![], 2, last.to_vec()),
        (1, set(0, 0, 0), 2, last.to_vec()),
        (1, set(0, 4, 9), 2, last.to_vec()),
        (14, filed.bytes.clone(), 2, last[..31].to_vec()),
        (14, filed.bytes.clone(), 2, [&last[..], &[0]].concat()),
        (14, filed.bytes.clone(), 2, record(0, 9)),
        (14, filed.bytes.clone(), 2, record(4, 1)),
        (14, filed.bytes.clone(), 1, measure_with_link),
        (15, filed.bytes.clone(), 6, last.to_vec()),
        (15, filed.bytes.clone(), 1, last.to_vec()),
        (15, filed.bytes.clone(), (1 << 32) + 2, last.to_vec()),
        (2, set(5, NEXT, 5), 2, last.to_vec()),
        (2, set(5, NEXT, 6), 2, last.to_vec()),
        (3, changed(&|bytes| bytes[4 * RECORD] = 4), 2, last.to_vec()),
        (16, filed.bytes[..6 * RECORD].to_vec(), 2, last.to_vec()),
    ];
    for (number, archive, owner, new) in &cases {
        // Settle would give 0, 4, 5, 13 for the list and 13 for the result part.
        for places in [(1, 1), (0, 1), (7, 1), (1, 0), (1, 7)] {
            assert_eq!(previewed(archive, *owner, new, places, &LENT.0, &LENT.1).0, *number);
        }
        assert_eq!(previewed(archive, *owner, new, (1, 1), &[], &LENT.1).0, *number);
        assert_eq!(previewed(archive, *owner, new, (1, 1), &LENT.0, &[]).0, *number);
        // 6, and 7.
        if archive.len() > 3 * RECORD {
            for at in [RECORD + 1, 2 * RECORD + 1] {
                let mut archive = archive.clone();
                archive[at] = 77;
                assert_eq!(previewed(&archive, *owner, new, (1, 1), &LENT.0, &LENT.1).0, *number);
            }
        }
    }
    // Both of append's: the order is its own.
    assert_eq!(previewed(&filed.bytes[..6 * RECORD], 9, &record(0, 0), (0, 0), &[], &[]).0, 14);
    assert_eq!(previewed(&filed.bytes[..6 * RECORD], 9, &last, (0, 0), &[], &[]).0, 15);
}

/// Archives that audit refuses, and whatever stands at place U.
#[test]
fn preview_unsound() {
    let (filed, last) = two_of_three();
    let with_last = Ok((vec![74_999, 75_000, 75_000], 224_999, 6));
    for old in [vec![0; RECORD], vec![9; RECORD], vec![255; RECORD], last.to_vec(), filed.bytes[..RECORD].to_vec()] {
        let mut archive = filed.bytes.clone();
        archive[6 * RECORD..7 * RECORD].copy_from_slice(&old);
        assert_eq!(ahead(&archive, 2, &last, (1, 1)), with_last);
    }
    // A link that is U already: not of a chain that is followed; then of chains that settle can follow only with the
    // record.
    for (number, at) in [(1, NEXT), (1, FIRST), (2, NEXT), (3, NEXT)] {
        let mut stale = filed.clone();
        stale.set_link(number, at, 6);
        let mut later = stale.bytes.clone();
        assert_eq!((audit(&stale.bytes), append(&mut later, 2, &last), take_back(&mut later)), (2, 0, 19));
        let found = ahead(&stale.bytes, 2, &last, (1, 1));
        assert_eq!(found, if number == 3 { Err(3) } else { with_last.clone() });
    }
    let mut shared = filed.clone();
    shared.set_link(5, NEXT, 6);
    let new_measure = measure_record(&case_a().measures[0], &mut quiet(), true);
    shared.bytes[7 * RECORD..].copy_from_slice(&new_measure);
    assert_eq!(settle(&shared.bytes, 1, 1, &mut [0; 3]).number, 2);
    assert_eq!(ahead(&shared.bytes, 2, &last, (1, 1)), Err(2));
    // The measure as record 6, so that U is 7: the old quarters' last link names the quarter that is filed under it.
    shared.bytes.extend([7; RECORD]);
    shared.bytes[6 * RECORD..7 * RECORD].copy_from_slice(&new_measure);
    shared.set_used(7);
    shared.set_link(5, NEXT, 7);
    assert_eq!(settle(&shared.bytes, 1, 1, &mut [0; 3]).number, 2);
    assert_eq!(ahead(&shared.bytes, 6, &last, (1, 1)), with_last);
    // An orphan as owner, an unknown kind, a quarter that no link names.
    for (number, at, to) in [(1, SECOND, 0), (3, 0, 9), (4, NEXT, 0)] {
        let mut wrong = filed.clone();
        wrong.set_link(number, at, to);
        assert_ne!(audit(&wrong.bytes), 0);
        let found = ahead(&wrong.bytes, 2, &last, (1, 1));
        match number {
            1 => assert_eq!(found, Err(5)),
            3 => assert_eq!(found, Err(3)),
            _ => assert_eq!(found, Ok((vec![74_999, 75_000], 149_999, 5))),
        }
    }
}

/// What the program prints; the same in both implementations.
fn printed(input: &[u8]) -> String {
    let (mut out, mut other) = (Vec::new(), Vec::new());
    program(input, &mut out).unwrap();
    fast::program(input, &mut other).unwrap();
    assert!(out == other);
    String::from_utf8(out).unwrap()
}

#[test]
fn printed_example() {
    let filed = archive(&[case_a()]);
    assert_eq!(printed(&filed.bytes), "M 1 1 3 224999 6\nQ 1 74999\nQ 2 75000\nQ 3 75000\n");
}

#[test]
fn program_edges() {
    assert_eq!(printed(&[]), "E 0 0 1\n");
    let mut new = [1; 96];
    fresh(&mut new);
    assert_eq!(printed(&new), "");
    let mut long = archive(&[case_a()]).bytes;
    long.resize(65_536, 0);
    assert!(printed(&long).starts_with("M 1 1 3"));
    long.resize(65_568, 0);
    assert_eq!(printed(&long), "E 0 0 1\n");
    // 2 on a second plant's way: the place looked for, and 1 (decision 76).
    let mut filed = archive(&[case_a(), case_a()]);
    let first = filed.plants[0].number;
    filed.set_link(first, NEXT, first as u32);
    assert!(printed(&filed.bytes).ends_with("Q 3 75000\nE 2 1 2\n"));
}

/// Document 01's bounds: the largest totals, exact in 64 bits.
#[test]
fn largest() {
    let most = 1_000_000_000;
    let mut sunny = vec![before(most, 0); 96];
    sunny[40].weather = 1;
    let quarters = vec![Quarter { weather: 2_000, ..quarter(-most) }; 2_976];
    let filed = archive(&[plant(2, 1, most, vec![], vec![measure(2, 2, sunny, quarters)])]);
    let mut list = vec![0; 2_976];
    let answer = settle(&filed.bytes, 1, 1, &mut list);
    assert_eq!((answer.number, answer.total), (0, 142_848_744_000_000_000));
    assert_eq!(answer.links, 1 + 1 + 96 + 2_976);
    assert_eq!(answer, fast::settle(&filed.bytes, 1, 1, &mut list));

    let windy = vec![before(most, 10); 4];
    let quarters = vec![Quarter { weather: 10, ..quarter(-most) }; 2_976];
    let curve = vec![point(0, 0), point(10, most)];
    let filed = archive(&[plant(1, 1, most, curve, vec![measure(2, 2, windy, quarters)])]);
    let answer = settle(&filed.bytes, 1, 1, &mut list);
    assert_eq!((answer.number, answer.total, answer.links), (0, 1_488_000_000_000, 2 + 2 + 4 + 2_976));
    assert_eq!(answer, fast::settle(&filed.bytes, 1, 1, &mut list));
}

/// Digests given with the standard.
#[test]
fn digests() {
    let empty = "e3b0c44298fc1c149afbf4c8996fb92427ae41e4649b934ca495991b7852b855";
    let letters = "ba7816bf8f01cfea414140de5dae2223b00361a396177a9cb410ff61f20015ad";
    let two_blocks = "248d6a61d20638b8e5c026930c3e6039a33ce45964ff2167f6ecedd419db06c1";
    assert_eq!(sha256(b""), empty);
    assert_eq!(sha256(b"abc"), letters);
    assert_eq!(sha256(b"abcdbcdecdefdefgefghfghighijhijkijkljklmklmnlmnomnopnopq"), two_blocks);
}

/// One generated call on plain, `fast` and the module of slips without a slip.
fn agree(seed: u64, index: u64) {
    let case = generate::call(seed, index);
    let number = match case.call {
        Call::Settle { archive, p, k, list, result } => {
            let run = |call: &dyn Fn(&mut [u8], &mut [u8]) -> u32| {
                let (mut list, mut result) = (list.clone(), result.clone());
                (call(&mut list, &mut result), list, result)
            };
            let plain = run(&|list, result| host_settle(&archive, p, k, list, result));
            assert_eq!(plain, run(&|list, result| fast::host_settle(&archive, p, k, list, result)), "{index}");
            assert_eq!(plain, run(&|list, result| slips::host_settle(Slip::None, &archive, p, k, list, result)));
            // The call on numbers says the same.
            if result.len() == 24 {
                let mut numbers: Vec<i64> =
                    list.chunks_exact(8).map(|place| i64::from_le_bytes(place.try_into().unwrap())).collect();
                let mut others = numbers.clone();
                let answer = settle(&archive, p, k, &mut numbers);
                assert_eq!(answer, fast::settle(&archive, p, k, &mut others));
                assert_eq!(numbers, others);
                let later: Vec<i64> =
                    plain.1.chunks_exact(8).map(|place| i64::from_le_bytes(place.try_into().unwrap())).collect();
                assert_eq!((answer.number, numbers), (plain.0, later));
                if answer.number == 0 {
                    let parts = [answer.count, answer.total as u64, answer.links].map(u64::to_le_bytes);
                    assert_eq!(plain.2, parts.concat());
                } else {
                    assert_eq!(answer, Answer::refused(answer.number));
                    assert_eq!((&plain.1, &plain.2), (&list, &result));
                }
            }
            Some(plain.0)
        }
        Call::Append { archive, owner, record } => {
            let (mut plain, mut other, mut third) = (archive.clone(), archive.clone(), archive.clone());
            let number = append(&mut plain, owner, &record);
            assert_eq!(number, fast::append(&mut other, owner, &record), "{index}");
            assert_eq!(number, slips::append(Slip::None, &mut third, owner, &record));
            assert!(plain == other && plain == third);
            assert!(number == 0 || plain == archive);
            Some(number)
        }
        Call::Audit { archive } => {
            let number = audit(&archive);
            assert_eq!(number, fast::audit(&archive), "{index}");
            assert_eq!(number, slips::audit(Slip::None, &archive));
            Some(number)
        }
        Call::Show { archive, number } => {
            let shown = show(&archive, number);
            let place = slips::show_place(Slip::None, &archive, number);
            let start = place as usize;
            let end = if place < archive.len() as u64 { start + RECORD } else { start };
            assert_eq!(shown, &archive[start..end]);
            None
        }
        Call::Fresh { mut archive } => Some(fresh(&mut archive)),
        Call::DeliveryDay { quarter, holidays } => Some(due(quarter, &holidays).err().unwrap_or(0)),
        Call::TakeBack { mut archive } => Some(taken_back(&mut archive)),
        Call::Correction { amounts, balanced, prices } => {
            Some(corrected(&amounts, &balanced, &prices).err().unwrap_or(0))
        }
        Call::Preview { archive, owner, record, p, k, list, result } => {
            Some(previewed(&archive, owner, &record, (p, k), &list, &result).0)
        }
    };
    if case.expected.is_some() {
        assert_eq!(case.expected, number, "made for this number: {index}");
    }
}

#[test]
fn fast_agrees() {
    for index in 0..12_000 {
        agree(2, index);
    }
}

/// Further previews: those among the calls above are few.
#[test]
fn fast_previews() {
    let (mut good, mut by_append, mut by_settle) = (0, 0, 0);
    for index in 0..8_000 {
        let case = generate::preview(6, index);
        if let Call::Preview { archive, owner, record, p, k, list, result } = case.call {
            let (number, ..) = previewed(&archive, owner, &record, (p, k), &list, &result);
            assert_eq!(case.expected.unwrap_or(number), number, "made for this number: {index}");
            match append(&mut archive.clone(), owner, &record) {
                0 if number == 0 => good += 1,
                0 => by_settle += 1,
                _ => by_append += 1,
            }
        }
    }
    assert!(good > 1_500 && by_append > 1_500 && by_settle > 1_500, "{good} {by_append} {by_settle}");
}

/// Every slip shows somewhere in a few thousand calls of its kind, of taking back and the correction the further ones
/// too.
#[test]
fn slips_show() {
    let further = FURTHER.iter().filter(|&&(_, of, _, _)| matches!(of, Of::TakeBack | Of::Correction));
    let mut open: Vec<(Slip, Of)> = SLIPS.iter().chain(further).map(|&(slip, of, _, _)| (slip, of)).collect();
    for index in 0..60_000 {
        if index < 4_000 {
            let input = generate::input(3, index);
            let right = printed(&input).into_bytes();
            open.retain(|&(slip, of)| of != Of::Program || slips::program(slip, &input) == right);
        }
        match generate::call(3, index).call {
            Call::Settle { archive, p, k, list, result } => {
                let run = |slip| {
                    let (mut list, mut result) = (list.clone(), result.clone());
                    (slips::host_settle(slip, &archive, p, k, &mut list, &mut result), list, result)
                };
                let right = run(Slip::None);
                open.retain(|&(slip, of)| of != Of::Settle || run(slip) == right);
            }
            Call::Append { archive, owner, record } => {
                let run = |slip| {
                    let mut archive = archive.clone();
                    (slips::append(slip, &mut archive, owner, &record), archive)
                };
                let right = run(Slip::None);
                open.retain(|&(slip, of)| of != Of::Append || run(slip) == right);
            }
            Call::Audit { archive } => {
                let right = audit(&archive);
                open.retain(|&(slip, of)| of != Of::Audit || slips::audit(slip, &archive) == right);
            }
            Call::Show { archive, number } => {
                let run = |slip| slips::show_place(slip, &archive, number);
                open.retain(|&(slip, of)| of != Of::Show || run(slip) == run(Slip::None));
            }
            Call::Fresh { archive } => {
                let run = |slip| slips::fresh(slip, &mut archive.clone());
                open.retain(|&(slip, of)| of != Of::Fresh || run(slip) == run(Slip::None));
            }
            Call::DeliveryDay { quarter, holidays } => {
                let run = |slip| {
                    let mut day = 77;
                    (slips::delivery_day(slip, quarter, &holidays, &mut day), day)
                };
                open.retain(|&(slip, of)| of != Of::DeliveryDay || run(slip) == run(Slip::None));
            }
            Call::TakeBack { archive } => {
                let run = |slip| {
                    let mut archive = archive.clone();
                    (slips::take_back(slip, &mut archive), archive)
                };
                let right = run(Slip::None);
                open.retain(|&(slip, of)| of != Of::TakeBack || run(slip) == right);
            }
            Call::Correction { amounts, balanced, prices } => {
                let run = |slip| {
                    let (mut cents, mut remainder) = (-77, 1_000_077);
                    let number = slips::correction(slip, &amounts, &balanced, &prices, &mut cents, &mut remainder);
                    (number, cents, remainder)
                };
                let right = run(Slip::None);
                open.retain(|&(slip, of)| of != Of::Correction || run(slip) == right);
            }
            Call::Preview { archive, owner, record, p, k, list, result } => {
                let run = |slip| {
                    let (mut archive, mut list, mut result) = (archive.clone(), list.clone(), result.clone());
                    let number = slips::preview(slip, &mut archive, owner, &record, p, k, &mut list, &mut result);
                    (number, archive, list, result)
                };
                let right = run(Slip::None);
                open.retain(|&(slip, of)| of != Of::Preview || run(slip) == right);
            }
        }
    }
    assert!(open.is_empty(), "never seen: {open:?}");
}

/// Follows a chain and gives its records' bytes with the links taken out.
fn chain_bytes(archive: &[u8], owner: u64, at: usize) -> Vec<Vec<u8>> {
    let mut found = Vec::new();
    let mut next = link(record(archive, owner), at);
    while next != 0 {
        let shown = show(archive, next);
        let mut bytes = shown.to_vec();
        bytes[4..8].fill(0);
        if bytes[0] == 1 || bytes[0] == 3 {
            bytes[8..16].fill(0);
        }
        found.push(bytes);
        next = link(shown, NEXT);
    }
    found
}

/// Records filed one by one, chains mixed, come back along their chains; the archive stays sound and settles.
#[test]
fn read_back() {
    for seed in 0..200 {
        let mut rng = Rng::new(9, seed);
        let mut archive = rng.bytes(RECORD * 200);
        assert_eq!(fresh(&mut archive), 0);
        // Chains filed so far: owner, first link, records.
        let mut chains: Vec<(u64, usize, Vec<Vec<u8>>)> = vec![(0, FIRST, vec![])];
        while used(&archive) != Ok(200) {
            let at = rng.below(chains.len());
            let (owner, first) = (chains[at].0, chains[at].1);
            let owner_kind = if owner == 0 { 0 } else { record(&archive, owner)[0] };
            let kind = match (owner_kind, first) {
                (0, _) => 1,
                (1, FIRST) => 2,
                (1, _) => 3,
                (_, FIRST) => 4,
                _ => 5,
            };
            let mut new = rng.bytes(RECORD);
            new[0] = kind;
            new[4..8].fill(0);
            if kind == 1 || kind == 3 {
                new[8..16].fill(0);
            }
            let number = used(&archive).unwrap();
            let before = archive.clone();
            assert_eq!(append(&mut archive, owner, &new), 0);
            assert_eq!(show(&archive, number), &new[..]);
            assert!(show(&before, number).is_empty());
            // U, the link and the record are all that changes.
            let last = match chains[at].2.len() {
                0 => (owner, first),
                _ => {
                    let mut holder = link(record(&before, owner), first);
                    while link(record(&before, holder), NEXT) != 0 {
                        holder = link(record(&before, holder), NEXT);
                    }
                    (holder, NEXT)
                }
            };
            let mut expected = before;
            expected[number as usize * RECORD..][..RECORD].copy_from_slice(&new);
            expected[last.0 as usize * RECORD + last.1..][..4].copy_from_slice(&(number as u32).to_le_bytes());
            expected[4..8].copy_from_slice(&(number as u32 + 1).to_le_bytes());
            assert!(archive == expected);
            chains[at].2.push(new);
            if kind == 1 || kind == 3 {
                chains.push((number, FIRST, vec![]));
                chains.push((number, SECOND, vec![]));
            }
        }
        assert_eq!(
            append(&mut archive, 0, &{
                let mut new = [0; RECORD];
                new[0] = 1;
                new
            }),
            16
        );
        for (owner, first, records) in &chains {
            assert_eq!(&chain_bytes(&archive, *owner, *first), records);
        }
        assert_eq!(audit(&archive), 0);
    }
}

/// A sheet filed record by record settles like the same sheet laid out at once.
#[test]
fn filed_sheet_settles() {
    let mut rng = quiet();
    let sheet = wind(2_000_000, 900_000, 1_500_000, 350_001);
    let mut archive = vec![0; RECORD * 12];
    fresh(&mut archive);
    assert_eq!(append(&mut archive, 0, &plant_record(&sheet, &mut rng, true)), 0);
    assert_eq!(append(&mut archive, 1, &measure_record(&sheet.measures[0], &mut rng, true)), 0);
    for at in 0..4 {
        assert_eq!(append(&mut archive, 2, &before_record(&sheet.measures[0].before[at], &mut rng, true)), 0);
        if at < 3 {
            assert_eq!(append(&mut archive, 1, &point_record(&sheet.curve[at], &mut rng, true)), 0);
        }
    }
    assert_eq!(append(&mut archive, 2, &quarter_record(&sheet.measures[0].quarters[0], &mut rng, true)), 0);
    let mut list = [0; 1];
    let answer = settle(&archive, 1, 1, &mut list);
    assert_eq!((answer, list), (Answer { number: 0, count: 1, total: 249_999, links: 10 }, [249_999]));
    assert_eq!(audit(&archive), 0);
}
