//! Request 1's calendar: days and quarters numbered from 1 January 2000, and the delivery day. Dates are found by
//! walking the years and months.

use crate::archive::Refusal;

/// Number of a day: 1 is 1 January 2000, a Saturday.
#[derive(Clone, Copy, Debug, PartialEq, Eq, PartialOrd, Ord)]
pub struct Day(pub u64);

/// Number of a quarter: 1 is 1 January 2000, 00:00 UTC+1.
#[derive(Clone, Copy, Debug, PartialEq, Eq, PartialOrd, Ord)]
pub struct QuarterHour(pub u64);

#[derive(Clone, Copy, Debug, PartialEq, Eq)]
pub struct Date {
    pub year: u64,
    pub month: u8,
    pub day: u8,
}

/// The last allowed quarter: 31 December 2099, 23:45.
pub const LAST: QuarterHour = QuarterHour(3_506_400);
/// Quarters of a day.
pub const OF_A_DAY: u64 = 96;

const FIRST_YEAR: u64 = 2000;

/// The Gregorian rule.
fn leap(year: u64) -> bool {
    year % 400 == 0 || (year % 4 == 0 && year % 100 != 0)
}

pub fn days_of_month(year: u64, month: u8) -> u64 {
    match month {
        4 | 6 | 9 | 11 => 30,
        2 if leap(year) => 29,
        2 => 28,
        _ => 31,
    }
}

fn days_of_year(year: u64) -> u64 {
    (1..=12).map(|month| days_of_month(year, month)).sum()
}

/// The first day of a month from January 2000 on.
pub fn first_day(year: u64, month: u8) -> Day {
    let years: u64 = (FIRST_YEAR..year).map(days_of_year).sum();
    let months: u64 = (1..month).map(|month| days_of_month(year, month)).sum();
    Day(1 + years + months)
}

/// Year and month after a month.
pub fn next_month(year: u64, month: u8) -> (u64, u8) {
    match month {
        12 => (year + 1, 1),
        _ => (year, month + 1),
    }
}

impl Day {
    pub fn date(self) -> Date {
        let (mut year, mut month, mut day) = (FIRST_YEAR, 1, self.0);
        while day > days_of_year(year) {
            day -= days_of_year(year);
            year += 1;
        }
        while day > days_of_month(year, month) {
            day -= days_of_month(year, month);
            month += 1;
        }
        Date { year, month, day: day as u8 }
    }

    /// 1 is Monday, 7 is Sunday; day 1 is a 6.
    pub fn weekday(self) -> u8 {
        ((self.0 - 1 + 5) % 7 + 1) as u8
    }

    /// Its first quarter.
    pub fn midnight(self) -> QuarterHour {
        QuarterHour(OF_A_DAY * (self.0 - 1) + 1)
    }
}

impl QuarterHour {
    pub fn day(self) -> Day {
        Day((self.0 - 1) / OF_A_DAY + 1)
    }

    pub fn month(self) -> u8 {
        self.day().date().month
    }

    /// Quarter of the day, 0 to 95.
    pub fn time(self) -> u8 {
        ((self.0 - 1) % OF_A_DAY) as u8
    }
}

/// The days of the month after a quarter's.
pub fn next_days(quarter: QuarterHour) -> impl Iterator<Item = Day> {
    let date = quarter.day().date();
    let (year, month) = next_month(date.year, date.month);
    let first = first_day(year, month).0;
    (first..first + days_of_month(year, month)).map(Day)
}

/// The fourth working day of the month after a quarter's, 0 if the holidays leave fewer.
pub fn delivery_day(quarter: u64, holidays: &[u32]) -> Result<u64, Refusal> {
    if quarter == 0 || quarter > LAST.0 {
        return Err(18);
    }
    let listed = |day: Day| holidays.iter().any(|&holiday| u64::from(holiday) == day.0);
    let mut working = next_days(QuarterHour(quarter)).filter(|&day| day.weekday() <= 5 && !listed(day));
    Ok(working.nth(3).map_or(0, |day| day.0))
}

/// The same as the host calls it: a refusal leaves the lent day.
pub fn host_delivery_day(quarter: u64, holidays: &[u32], day: &mut u64) -> Refusal {
    match delivery_day(quarter, holidays) {
        Ok(found) => {
            *day = found;
            0
        }
        Err(number) => number,
    }
}
