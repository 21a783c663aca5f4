//! Prints the calendar for `tests/dates.py`, which holds it to Python's.
//!
//! For every day from 1 January 2000 to 31 December 2100 a line `DAY YEAR MONTH DAY WEEKDAY`, 1 being Monday. Then, for
//! every month from January 2000 to December 2099, lines `D QUARTER DELIVERYDAY HOLIDAYS..`: its first and last quarter
//! without holidays; then its first quarter with the first day of the next month, with the first ten, with all but the
//! last three working days, and with all but the last four.

use reference::calendar::{first_day, next_days, next_month, Day, QuarterHour};
use std::io::{self, BufWriter, Write};

fn delivery(out: &mut impl Write, quarter: QuarterHour, holidays: &[Day]) -> io::Result<()> {
    let list: Vec<u32> = holidays.iter().map(|day| day.0 as u32).collect();
    let day = reference::delivery_day(quarter.0, &list).expect("a quarter of the calendar");
    write!(out, "D {} {day}", quarter.0)?;
    for holiday in list {
        write!(out, " {holiday}")?;
    }
    writeln!(out)
}

/// All days of a month but its last `left` working ones.
fn but(days: &[Day], left: usize) -> Vec<Day> {
    let working: Vec<Day> = days.iter().copied().filter(|day| day.weekday() <= 5).collect();
    let kept = &working[working.len() - left..];
    days.iter().copied().filter(|day| !kept.contains(day)).collect()
}

fn main() -> io::Result<()> {
    let mut out = BufWriter::new(io::stdout().lock());
    for day in (1..first_day(2101, 1).0).map(Day) {
        let date = day.date();
        writeln!(out, "{} {} {} {} {}", day.0, date.year, date.month, date.day, day.weekday())?;
    }
    for year in 2000..2100 {
        for month in 1..=12 {
            let first = first_day(year, month).midnight();
            let (next_year, next) = next_month(year, month);
            let last = QuarterHour(first_day(next_year, next).midnight().0 - 1);
            let days: Vec<Day> = next_days(first).collect();
            delivery(&mut out, first, &[])?;
            delivery(&mut out, last, &[])?;
            delivery(&mut out, first, &days[..1])?;
            delivery(&mut out, first, &days[..10])?;
            delivery(&mut out, first, &but(&days, 3))?;
            delivery(&mut out, first, &but(&days, 4))?;
        }
    }
    out.flush()
}
