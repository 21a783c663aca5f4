//! Runs generated calls on the reference alone and counts what they reach.
//!
//! Arguments: seed (1), count of calls (200000). Inputs for the program are a twentieth of that on top.
//! Exit status 1 if a refusal number, a pairing, a situation or a slip was never reached, or a call made with one fault
//! got another number.

use reference::archive::{field, link, place, record, used, ADJUSTED, FIRST, NEXT, NONAVAILABLE, SECOND};
use reference::calendar::{next_days, Date, Day, QuarterHour, LAST};
use reference::correction::MOST_QUARTERS;
use reference::filing::names;
use reference::generate::{self, Call, BOUNDED, NUMBERS, SETTLED};
use reference::settle::{
    before_quarters, first_quarter, quarters, reading_places, terms, Pairing, NONE, OCTOBER, POWER,
};
use reference::slips::{self, Of, Slip, SLIPS};
use std::collections::BTreeMap;
use std::env;
use std::process::ExitCode;

#[derive(Default)]
struct Tally {
    numbers: BTreeMap<(&'static str, u32), u64>,
    settled: BTreeMap<(Pairing, u8, u8), u64>,
    dated: BTreeMap<Pairing, u64>,
    late: BTreeMap<Pairing, u64>,
    beside: BTreeMap<u32, u64>,
    october: BTreeMap<(String, usize), u64>,
    priced: BTreeMap<(String, usize), u64>,
    sizes: BTreeMap<&'static str, u64>,
    slips: Vec<u64>,
    unexpected: u64,
    endless: u64,
}

impl Tally {
    fn number(&mut self, call: &'static str, number: u32) {
        *self.numbers.entry((call, number)).or_default() += 1;
    }

    fn size(&mut self, what: &'static str, reached: bool) {
        *self.sizes.entry(what).or_default() += u64::from(reached);
    }

    fn october(&mut self, what: String, kind: usize, reached: bool) {
        *self.october.entry((what, kind)).or_default() += u64::from(reached);
    }

    fn priced(&mut self, what: &str, list: usize, reached: bool) {
        *self.priced.entry((what.to_string(), list)).or_default() += u64::from(reached);
    }

    /// Counts every slip of a call that gives another outcome than the right reading.
    fn slips<T: PartialEq>(&mut self, of: Of, right: T, wrong: impl Fn(Slip) -> T) {
        if wrong(Slip::None) != right {
            self.unexpected += 1;
        }
        for (at, &(slip, own, _, _)) in SLIPS.iter().enumerate() {
            if own == of && wrong(slip) != right {
                self.slips[at] += 1;
            }
        }
    }
}

/// What the lent day of a delivery day holds before the call, and the lent cents and remainder of a correction.
const KEPT: u64 = 77;
const KEPT_CENTS: (i64, u64) = (-77, 1_000_077);

/// A dated measure that settled.
fn dated(tally: &mut Tally, pairing: Pairing, first: u64, count: u64) {
    *tally.dated.entry(pairing).or_default() += 1;
    let last = first + count - 1;
    tally.size("dated measures that end with quarter 3,506,400", last == LAST.0);
    if pairing != Pairing::SolarPauschal {
        return;
    }
    let date = |number| QuarterHour(number).day().date();
    let (from, to): (Date, Date) = (date(first), date(last));
    let summer = |date: Date| (3..=10).contains(&date.month);
    let leap_day =
        (first..=last).step_by(96).chain([last]).any(|number| (date(number).month, date(number).day) == (2, 29));
    tally.size("dated solar Pauschal over midnight", from != to);
    tally.size("dated solar Pauschal over a month's end", (from.year, from.month) != (to.year, to.month));
    tally.size("dated solar Pauschal from summer to winter", summer(from) && !summer(to));
    tally.size("dated solar Pauschal from winter to summer", !summer(from) && summer(to));
    tally.size("dated solar Pauschal over a year's end", from.year != to.year);
    tally.size("dated solar Pauschal on 29 February", leap_day);
}

/// A measure refused with 18.
fn late(tally: &mut Tally, pairing: Pairing, first: u64, places: usize, result: usize) {
    *tally.late.entry(pairing).or_default() += 1;
    tally.size("18 for 3,506,401", first == LAST.0 + 1);
    tally.size("18 for the last quarter only", first <= LAST.0);
    tally.size("18 for a date from 2^31 on", first >= 1 << 31);
    tally.size("18 for the largest date", first == u64::from(u32::MAX));
    tally.size("18 with a list of no place", places == 0);
    tally.size("18 with a result part not of 24 bytes", result != 24);
}

/// Readings at the ends of the range and beside 0; out of range, beside its ends, beside none, and the lowest.
const EDGES: [i128; 5] = [-1_000_000_000, -1, 0, 1, 1_000_000_000];
const WIDE: [i128; 4] = [-1_000_000_001, 1_000_000_001, NONE - 1, -NONE - 1];

/// A measure on either side of October 2026 that settled, was refused with 9 or with 18.
fn by_date(tally: &mut Tally, archive: &[u8], p: u64, k: u64, number: u32) -> Option<()> {
    let ((pairing, direction, execution), first) = (terms(archive, p, k)?, first_quarter(archive, p, k)?);
    let quarters = quarters(archive, p, k)?;
    let wide = |quarter: &&[u8], at: usize| {
        let power = field(quarter, at);
        power != NONE && !POWER.contains(&power)
    };
    let any_wide = |at: usize| quarters.iter().any(|quarter| wide(quarter, at));
    let kind = match BOUNDED.iter().position(|&bounded| bounded == (pairing, direction)) {
        Some(kind) => kind,
        None => {
            let unread = number == 0 && first >= OCTOBER && any_wide(NONAVAILABLE) && any_wide(ADJUSTED);
            for (other, what) in [
                (Pairing::WindSpitz, "readings out of range from October 2026 on in wind Spitz"),
                (Pairing::SolarSpitz, "readings out of range from October 2026 on in solar Spitz"),
                (Pairing::SolarPauschal, "readings out of range from October 2026 on in solar Pauschal"),
                (Pairing::OtherSpitz, "readings out of range from October 2026 on in other Spitz"),
            ] {
                tally.size(what, unread && pairing == other);
            }
            return Some(());
        }
    };
    let places = reading_places(pairing, first);
    let names = [(NONAVAILABLE, "nonavailability"), (ADJUSTED, "market adjustment")];
    let mut count = |what: String, reached: bool| tally.october(what, kind, reached);
    if number == 0 {
        for edge in [OCTOBER - 1, OCTOBER, OCTOBER + 1] {
            count(format!("settled from {edge} on"), first == edge);
        }
        let last = first + quarters.len() as u64 - 1;
        count("settled from before 937,921 past it".into(), (1..OCTOBER).contains(&first) && last >= OCTOBER);
        for own in 1..=3 {
            count(format!("settled since October 2026 in execution {own}"), !places.is_empty() && execution == own);
        }
        for (at, name) in names {
            let unread = !places.contains(&at) && any_wide(at);
            count(format!("{name} out of range, undated"), unread && first == 0);
            count(format!("{name} out of range, older"), unread && (1..OCTOBER).contains(&first));
            // Wind reads both since then.
            if kind > 0 && at == ADJUSTED {
                count(format!("{name} out of range and not read"), unread && first >= OCTOBER);
            }
        }
        let before = before_quarters(archive, p, k)?;
        let carried = before.iter().find(|one| one[1] == 1).map_or(0, |one| field(one, 8));
        for quarter in quarters.iter().filter(|_| !places.is_empty()) {
            let (measured, limit) = (field(quarter, 8), field(quarter, 12));
            let compared = match (direction, execution) {
                (2, _) => carried,
                (_, 1) => measured.min(limit),
                _ => measured,
            };
            let there: Vec<i128> = places.iter().map(|&at| field(quarter, at)).filter(|&one| one != NONE).collect();
            count("no reading there".into(), there.is_empty());
            count("every reading there".into(), there.len() == places.len());
            let above = there.iter().all(|&one| one > compared);
            count("readings there, none the smallest".into(), !there.is_empty() && above);
            for &at in places {
                let name = names[usize::from(at == ADJUSTED)].1;
                let own = field(quarter, at);
                let alone = own != NONE && own < compared && there.iter().filter(|&&one| one <= own).count() == 1;
                count(format!("{name} the smallest"), alone);
                count(format!("{name} the smallest and below 0"), alone && own < 0);
                count(format!("{name} alone there"), own != NONE && there.len() == 1);
                for edge in EDGES {
                    count(format!("{name} of {edge}"), own == edge);
                }
            }
        }
    }
    for &at in places {
        let name = names[usize::from(at == ADJUSTED)].1;
        for value in WIDE {
            let found = quarters.iter().any(|quarter| field(quarter, at) == value);
            count(format!("9 with {name} of {value}"), number == 9 && found);
        }
        let refused = number == 9 && any_wide(at);
        for own in 1..=3 {
            count(format!("9 with {name} out of range in execution {own}"), refused && execution == own);
        }
        count(format!("9 with {name} out of range, first quarter past 3,506,400"), refused && first > LAST.0);
    }
    count("18 with readings in range".into(), number == 18 && !places.iter().any(|&at| any_wide(at)));
    Some(())
}

/// A quarter of the calendar and its list.
fn delivered(tally: &mut Tally, quarter: u64, holidays: &[u32], day: u64) {
    let works = |day: &Day| day.weekday() <= 5;
    let days: Vec<Day> = next_days(QuarterHour(quarter)).collect();
    let listed = |day: &Day| holidays.iter().any(|&holiday| u64::from(holiday) == day.0);
    let left = days.iter().filter(|&day| works(day) && !listed(day)).count();
    let date = QuarterHour(quarter).day().date();
    let mut unlike = holidays.to_vec();
    unlike.sort_unstable();
    unlike.dedup();
    tally.size("delivery days of 0", day == 0);
    tally.size("delivery days in January 2100", day > LAST.0 / 96);
    tally.size("delivery days with an empty list", holidays.is_empty());
    tally.size("delivery days with 3 working days left", left == 3);
    tally.size("delivery days with 4 working days left", left == 4);
    tally.size("delivery days with 5 working days left", left == 5);
    tally.size("delivery days with all days listed", days.iter().all(listed));
    tally.size("delivery days with repeats in the list", unlike.len() < holidays.len());
    tally.size("delivery days with a list out of order", holidays.windows(2).any(|pair| pair[0] > pair[1]));
    tally.size("delivery days with a weekend listed", days.iter().any(|day| listed(day) && !works(day)));
    tally.size(
        "delivery days with 0 or the largest number listed",
        listed(&Day(0)) || listed(&Day(u64::from(u32::MAX))),
    );
    tally.size("delivery days of a quarter in December", date.month == 12);
    tally.size("delivery days of the last quarter of a month", quarter % 96 == 0 && days[0].0 == quarter / 96 + 1);
    tally.size("delivery days of quarter 3,506,400", quarter == LAST.0);
}

/// A last record of each kind, the first of its chain or behind others.
const TAKEN: [[&str; 2]; 5] = [
    ["taken back: the first plant", "taken back: a plant behind others"],
    ["taken back: a plant's first curve point", "taken back: a curve point behind others"],
    ["taken back: a plant's first measure", "taken back: a measure behind others"],
    ["taken back: a measure's first before-quarter", "taken back: a before-quarter behind others"],
    ["taken back: a measure's first quarter", "taken back: a quarter behind others"],
];

/// An archive that isn't refused with 1, asked for its last record.
fn asked_back(tally: &mut Tally, archive: &[u8], used: u64, number: u32) {
    let all = archive.len() as u64 / 32;
    let head = record(archive, 0);
    tally.size("U = 1 with the head's link 0", used == 1 && link(head, FIRST) == 0);
    tally.size("U = 1 with the head's link not 0", used == 1 && link(head, FIRST) != 0);
    tally.size("U = 1 in an archive of zeros", used == 1 && archive[8..].iter().all(|&byte| byte == 0));
    if used == 1 {
        return;
    }
    let last = used - 1;
    let taken = number == 0;
    let own = record(archive, last);
    let kind_of = |number: u64| record(archive, number)[0];
    let known = |number: u64| (1..=5).contains(&kind_of(number));
    let names = names(archive, used, last);
    let at_last = names.iter().filter(|name| name.0 == last).count();
    let sound = reference::audit(archive) == 0;

    for (kind, [first, behind]) in (1..).zip(TAKEN) {
        let fits = sound && kind_of(last) == kind;
        tally.size(first, fits && names[0].1 != NEXT);
        tally.size(behind, fits && names[0].1 == NEXT);
    }
    let unused = |empty: bool| used < all && archive[32 * used as usize..].iter().all(|&byte| byte == 0) == empty;
    tally.size("taken back in a sound archive before zeros", sound && unused(true));
    tally.size("taken back in a sound archive before old bytes", sound && unused(false));
    tally.size("taken back in a sound archive that is full", sound && used == all);
    tally.size("taken back in an archive that audit refuses", taken && !sound);
    tally.size("taken back from 65,535 records", taken && used == 65_535);
    tally.size("taken back from 256 records", taken && used == 256);

    tally.size("last record named by none", names.is_empty());
    tally.size("last record named by two links of one record", names.len() == 2 && names[0].0 == names[1].0);
    tally.size("last record named by links of two records", names.len() == 2 && names[0].0 != names[1].0);
    tally.size("last record named by the head and another", names.len() > 1 && names[0].0 == 0);
    tally.size("last record named by more than two links", names.len() > 2);
    for (at, what) in [
        (NEXT, "last record named by its own bytes 4-7 alone"),
        (FIRST, "last record named by its own bytes 8-11 alone"),
        (SECOND, "last record named by its own bytes 12-15 alone"),
    ] {
        tally.size(what, names[..] == [(last, at)]);
    }
    tally.size("last record named by itself and another", at_last > 0 && at_last < names.len());
    tally.size("last record named by itself twice", at_last > 1 && at_last == names.len());

    let holds = |number: u64, at: &[usize]| at.iter().any(|&at| link(record(archive, number), at) == last);
    let links = [NEXT, FIRST, SECOND];
    let unknown = (1..last).any(|number| !known(number) && holds(number, &links));
    tally.size("last record named by an unknown kind only", names.is_empty() && unknown);
    tally.size("last record named by an unknown kind and a link", taken && unknown);
    let right = match names[..] {
        [(0, _)] => 1,
        [(holder, NEXT)] => kind_of(holder),
        [(holder, FIRST)] => kind_of(holder) + 1,
        [(holder, _)] => kind_of(holder) + 2,
        _ => 0,
    };
    tally.size("last record named by a link for another kind", taken && right != kind_of(last) && known(last));
    tally.size("last record of unknown kind", taken && !known(last));
    tally.size("last record of kind 0", taken && own[0] == 0);
    tally.size("last record of kind 6", taken && own[0] == 6);
    tally.size("last record of unknown kind with its own number", taken && !known(last) && holds(last, &links));
    let own_links = if matches!(own[0], 1 | 3) { &links[..] } else { &links[..1] };
    let others = own_links.iter().any(|&at| ![0, last].contains(&link(own, at)));
    tally.size("last record that names others", taken && known(last) && others);
    for (kind, what) in [
        (2, "its number in bytes 8-15 of a curve point"),
        (4, "its number in bytes 8-15 of a before-quarter"),
        (5, "its number in bytes 8-15 of a quarter"),
    ] {
        tally.size(what, taken && (1..used).any(|number| kind_of(number) == kind && holds(number, &links[1..])));
    }
    tally.size("its number in bytes 16-31", taken && (0..used).any(|number| holds(number, &[16, 20, 24, 28])));
    tally.size("its number in the head's bytes 12-15", taken && holds(0, &[12]));
    tally.size("its number in an unused record's links", taken && (used..all).any(|number| holds(number, &links)));
    let low = |bits: u32| {
        let like = |to: u64| to != last && to % (1 << bits) == last;
        (1..used).any(|number| known(number) && like(link(record(archive, number), NEXT)))
    };
    tally.size("its number in the low 16 bits of a link", taken && low(16));
    tally.size("its number in the low 24 bits of a link", taken && low(24));
}

/// The end of each list's range.
const ENDS: [i64; 3] = [1_000_000_000, 1_000_000_000, 1_000_000];

/// A correction with this number, and the lists' numbers at and beside the ends of their ranges.
fn corrected(tally: &mut Tally, lists: [&[i64]; 3], number: u32, cents: (i64, u64)) {
    let [amounts, balanced, prices] = lists;
    let wide = [0, 1, 2].map(|list| {
        let end = ENDS[list];
        lists[list].iter().position(|one| !(-end..=end).contains(one))
    });
    for (list, numbers) in lists.into_iter().enumerate() {
        let end = ENDS[list];
        let holds = |value: i64| numbers.contains(&value);
        let mut count = |what: &str, reached: bool| tally.priced(what, list, reached);
        count("taken: low end", number == 0 && holds(-end));
        count("taken: one above the low end", number == 0 && holds(1 - end));
        count("taken: one below the high end", number == 0 && holds(end - 1));
        count("taken: high end", number == 0 && holds(end));
        count("taken: -1", number == 0 && holds(-1));
        count("taken: 0", number == 0 && holds(0));
        // Refused for this list alone.
        let alone = (0..3).all(|other| wide[other].is_some() == (other == list)) && amounts.len() <= MOST_QUARTERS;
        let refused = alone && number == if list == 2 { 21 } else { 20 };
        count("alone out of range: one below the low end", refused && holds(-end - 1));
        count("alone out of range: one above the high end", refused && holds(end + 1));
        count("alone out of range: the least of 64 bits", refused && holds(i64::MIN));
        count("alone out of range: the most of 64 bits", refused && holds(i64::MAX));
        let in_range = |value: i64| (-end..=end).contains(&value);
        let bad = wide[list].map_or(0, |place| numbers[place]);
        count("alone out of range: allowed in its low 32 bits", refused && in_range(i64::from(bad as i32)));
        count(
            "alone out of range: allowed but for 2^32",
            refused && [1 << 32, -1 << 32].iter().any(|&more| in_range(bad.wrapping_add(more))),
        );
        count("alone out of range: allowed but for 2^63", refused && in_range(bad ^ i64::MIN));
        count(
            "alone out of range, at the first of several places",
            refused && numbers.len() > 1 && wide[list] == Some(0),
        );
        let last = numbers.len().saturating_sub(1);
        count("alone out of range, at the last of several places", refused && last > 0 && wide[list] == Some(last));
        // Beside another refusal.
        count("out of range beside 22", number == 22 && wide[list].is_some());
        let many = number == 20 && amounts.len() > MOST_QUARTERS;
        count("out of range beside more than 2,976 quarters", many && wide[list].is_some());
        let shorter = numbers.len() < lists.iter().map(|list| list.len()).max().unwrap_or(0);
        let others: Vec<usize> = (0..3).filter(|&other| other != list).map(|other| lists[other].len()).collect();
        count("22 for this list alone, shorter", number == 22 && shorter && others[0] == others[1]);
        count("22 for this list alone, longer", number == 22 && !shorter && others[0] == others[1]);
        count("22 with this list empty", number == 22 && numbers.is_empty());
        count("22 with more than 2,976 in this list", number == 22 && numbers.len() > MOST_QUARTERS);
    }
    let [amount, balance, price] = wide;
    let energy = amount.into_iter().chain(balance).min();
    let both = number == 20 && amounts.len() <= MOST_QUARTERS && price.is_some() && energy.is_some();
    tally.size("corrections with 20 and a bad price at an earlier place", both && price < energy);
    tally.size("corrections with 20 and a bad price at the same place", both && price == energy);
    tally.size("corrections with 20 and a bad price at a later place", both && price > energy);
    tally.size(
        "corrections with 20 for 2,977 quarters alone",
        number == 20 && amounts.len() == 2_977 && wide == [None; 3],
    );
    if number != 0 {
        return;
    }
    for (count, what) in [
        (0, "corrections of no quarter"),
        (1, "corrections of one quarter"),
        (96, "corrections of 96 quarters"),
        (2_975, "corrections of 2,975 quarters"),
        (2_976, "corrections of 2,976 quarters"),
    ] {
        tally.size(what, amounts.len() == count);
    }
    for (remainder, what) in [
        (0, ["corrections below 0 with remainder 0", "corrections above 0 with remainder 0"]),
        (1, ["corrections below 0 with remainder 1", "corrections above 0 with remainder 1"]),
        (500_000, ["corrections below 0 with remainder 500,000", "corrections above 0 with remainder 500,000"]),
        (999_999, ["corrections below 0 with remainder 999,999", "corrections above 0 with remainder 999,999"]),
    ] {
        let reached = cents.1 == remainder && cents != (0, 0);
        tally.size(what[0], reached && cents.0 < 0);
        tally.size(what[1], reached && cents.0 >= 0);
    }
    for (whole, what) in [
        ((0, 0), "corrections of 0"),
        ((0, 1), "corrections of 0 and 1"),
        ((0, 999_999), "corrections of 0 and 999,999"),
        ((1, 0), "corrections of 1 and 0"),
        ((-1, 999_999), "corrections of -1 and 999,999"),
        ((-1, 1), "corrections of -1 and 1"),
        ((-1, 0), "corrections of -1 and 0"),
        ((-2, 999_999), "corrections of -2 and 999,999"),
        ((5_952_000_000_000, 0), "corrections of the largest sum"),
        ((-5_952_000_000_000, 0), "corrections of the least sum"),
    ] {
        tally.size(what, cents == whole && !amounts.is_empty());
    }
    let gap = |place: usize| amounts[place] - balanced[place];
    let signs = |gap_sign: i64, price_sign: i64| {
        (0..amounts.len()).any(|place| gap(place).signum() == gap_sign && prices[place].signum() == price_sign)
    };
    tally.size("corrections with a gap below 0 and a price below 0", signs(-1, -1));
    tally.size("corrections with a gap below 0 and a price above 0", signs(-1, 1));
    tally.size("corrections with a gap above 0 and a price below 0", signs(1, -1));
    tally.size("corrections with a gap above 0 and a price above 0", signs(1, 1));
    tally.size("corrections with a gap of 2,000,000,000", (0..amounts.len()).any(|place| gap(place) == 2 * ENDS[0]));
    tally.size("corrections with a gap of -2,000,000,000", (0..amounts.len()).any(|place| gap(place) == -2 * ENDS[0]));
    tally.size("corrections beyond 2^53 millionths of a cent", cents.0.unsigned_abs() > 9_007_199_254);
}

/// What is seen ahead: a record of each kind, for the measure that is settled or for another.
const AHEAD: [[&str; 2]; 5] = [
    ["previewed: a plant", "previewed: a plant that is settled, refused with 5"],
    ["previewed: a curve point of the plant", "previewed: a curve point of another plant"],
    ["previewed: a measure of the plant", "previewed: a measure of another plant"],
    ["previewed: a before-quarter of the measure", "previewed: a before-quarter of another measure"],
    ["previewed: a quarter of the measure", "previewed: a quarter of another measure"],
];

/// A preview with this number: append's refusals beside settle's, what the record changes, what stands at its place.
fn ahead(
    tally: &mut Tally,
    archive: &[u8],
    owner: u64,
    new: &[u8],
    (p, k): (u64, u64),
    lent: (&[u8], usize),
    number: u32,
) {
    let (list, result) = lent;
    let settle = |archive: &[u8]| reference::host_settle(archive, p, k, &mut list.to_vec(), &mut [0; 24]);
    let mut later = archive.to_vec();
    let by_append = reference::append(&mut later, owner, new);
    let without = settle(archive);
    let good = number == 0;
    tally.size("previews with an owner beyond 32 bits", owner >> 32 != 0);
    tally.size("previews with places beyond 32 bits", p >> 32 != 0 || k >> 32 != 0);
    if by_append != 0 {
        tally.number("preview, by append", number);
        tally.size("append's refusals where settle would give 0", without == 0);
        for (other, what) in [
            (2, "append's refusals before settle's 2"),
            (3, "append's refusals before settle's 3"),
            (4, "append's refusals before 4"),
            (5, "append's refusals before 5"),
            (6, "append's refusals before 6"),
            (7, "append's refusals before 7"),
            (8, "append's refusals before 8"),
            (9, "append's refusals before 9"),
            (10, "append's refusals before 10"),
            (11, "append's refusals before 11"),
            (12, "append's refusals before 12"),
            (13, "append's refusals before 13 for the list"),
            (18, "append's refusals before 18"),
        ] {
            tally.size(what, by_append != 1 && without == other);
        }
        tally.size("append's refusals before 13 for the result part", by_append != 1 && without == 0 && result != 24);
        tally.size("16 where the measure would settle", number == 16 && without == 0);
        tally.size("16 in an archive of 65,535 records", number == 16 && archive.len() == 65_535 * 32);
        return;
    }
    tally.number("preview, by settle", number);
    let (used, all) = (link(archive, 4), archive.len() as u64 / 32);
    let found = place(&later, used + 1, 0, FIRST, 1, p, 4)
        .map(|plant| (plant, place(&later, used + 1, plant, SECOND, 3, k, 5).ok()))
        .ok();
    let whose = match new[0] {
        1 => found.map_or(false, |(plant, _)| plant == used),
        2 | 3 => found.map_or(false, |(plant, _)| plant != owner),
        _ => found.map_or(false, |(_, measure)| measure.map_or(false, |measure| measure != owner)),
    };
    let what = AHEAD[usize::from(new[0]) - 1];
    tally.size(what[0], good && !whose);
    tally.size(what[1], whose && if new[0] == 1 { number == 5 } else { good });
    let new_measure = found.map_or(false, |(_, measure)| measure == Some(used));
    tally.size("previewed: a measure that is settled, refused with 8 or 11", new_measure && matches!(number, 8 | 11));

    // What the record changes.
    for (before, what) in [
        (8, "previewed: a first quarter"),
        (10, "previewed: a second curve point"),
        (11, "previewed: the before-quarter that was missing"),
        (12, "previewed: a before-quarter with which B is above 0"),
        (2, "previewed: a record that a stale link on the way names"),
    ] {
        tally.size(what, good && without == before);
    }
    for (after, what) in [
        (8, "8 for the record"),
        (9, "9 for the record"),
        (10, "10 for the record"),
        (13, "13 for the record, where the list is long enough without it"),
        (18, "18 for the record"),
    ] {
        tally.size(what, number == after && without == 0 && (after != 13 || settle(&later) == 13));
    }
    tally.size("3 for the record, at a stale link", number == 3 && without == 2);
    let quarters = quarters(&later, p, k).map_or(0, |quarters| quarters.len());
    let before = before_quarters(&later, p, k).map_or(0, |before| before.len());
    tally.size("8 for a 2,977th quarter", number == 8 && without == 0 && quarters == 2_977);
    tally.size("previewed: a 2,976th quarter", good && quarters == 2_976 && new[0] == 5 && !whose);
    tally.size("8 for a 97th before-quarter", number == 8 && without == 0 && before == 97);
    tally.size("previewed: a 96th before-quarter", good && before == 96 && new[0] == 4 && !whose);
    tally.size("13 for the result part in a preview", number == 13 && result != 24 && settle(&later) == 0);

    // What stands at the place, and what names it.
    let old = record(archive, used).iter().any(|&byte| byte != 0);
    let sound = reference::audit(archive) == 0;
    let stale = !names(archive, used, used).is_empty();
    for (reached, what) in [
        (good, ["previewed with zeros at the place", "previewed with old bytes at the place"]),
        (!good, ["refused by settle with zeros at the place", "refused by settle with old bytes at the place"]),
    ] {
        tally.size(what[0], reached && !old);
        tally.size(what[1], reached && old);
    }
    tally.size("previewed in an archive that audit refuses", good && !sound);
    tally.size("refused by settle in an archive that audit refuses", !good && !sound);
    tally.size("previewed with a stale link that is U", good && stale);
    tally.size("refused by settle with a stale link that is U", !good && stale);
    tally.size("previewed at the last place", good && used + 1 == all);
    tally.size("previewed as record 255", used == 255);
    tally.size("previewed as record 256", used == 256);
    tally.size("previewed as the 65,535th record", used == 65_534);
}

fn one_call(tally: &mut Tally, seed: u64, index: u64) {
    let case = generate::call(seed, index);
    let number = match case.call {
        Call::Settle { archive, p, k, list, result } => {
            let (mut later, mut lent) = (list.clone(), result.clone());
            let number = reference::host_settle(&archive, p, k, &mut later, &mut lent);
            tally.number("settle", number);
            if number == 0 {
                let count = u64::from_le_bytes(lent[0..8].try_into().unwrap()) as usize;
                let links = u64::from_le_bytes(lent[16..24].try_into().unwrap());
                let total = i64::from_le_bytes(lent[8..16].try_into().unwrap());
                if let (Some(terms), Some(first)) = (terms(&archive, p, k), first_quarter(&archive, p, k)) {
                    *tally.settled.entry(terms).or_default() += 1;
                    if first != 0 {
                        dated(tally, terms.0, first, count as u64);
                    }
                }
                tally.size("settled measures of 2,976 quarters", count == 2_976);
                tally.size("settled with a list as long as the quarters", list.len() / 8 == count);
                tally.size("settled with a longer list", list.len() / 8 > count);
                tally.size("settled with a ragged list", list.len() % 8 != 0);
                tally.size("settled with amounts that aren't zero", total != 0);
                tally.size("settled over more than 100 links", links > 100);
                tally.size("settled total beyond 10^15 Wh", total.unsigned_abs() > 1_000_000_000_000_000);
            }
            if let (Some(terms), Some(first)) = (terms(&archive, p, k), first_quarter(&archive, p, k)) {
                if number == 18 {
                    late(tally, terms.0, first, list.len() / 8, result.len());
                }
                if first > LAST.0 {
                    *tally.beside.entry(number).or_default() += 1;
                }
            }
            if matches!(number, 0 | 9 | 18) {
                by_date(tally, &archive, p, k, number);
            }
            tally.size("places beyond 32 bits", p >> 32 != 0 || k >> 32 != 0);
            tally.size("result parts of 0 bytes", result.is_empty());
            tally.size("result parts of 23 bytes", result.len() == 23);
            tally.size("result parts of 25 bytes", result.len() == 25);
            tally.size("settle on 65,535 records", archive.len() == 65_535 * 32);
            if archive.len() >= 32 && used(&archive).is_ok() && number == 8 {
                tally.size("refused with 8 in an archive of over 2,976 records", archive.len() / 32 > 2_976);
            }
            let right = (number, later, lent);
            tally.slips(Of::Settle, right, |slip| {
                let (mut later, mut lent) = (list.clone(), result.clone());
                let number = slips::host_settle(slip, &archive, p, k, &mut later, &mut lent);
                (number, later, lent)
            });
            let mut circle = (list, result);
            let owner = slips::host_settle(Slip::OwnerNumber, &archive, p, k, &mut circle.0, &mut circle.1);
            tally.endless += u64::from(owner == slips::ENDLESS);
            Some(number)
        }
        Call::Append { archive, owner, record } => {
            let mut later = archive.clone();
            let number = reference::append(&mut later, owner, &record);
            tally.number("append", number);
            tally.size("owners beyond 32 bits", owner >> 32 != 0);
            tally.slips(Of::Append, (number, later), |slip| {
                let mut later = archive.clone();
                (slips::append(slip, &mut later, owner, &record), later)
            });
            Some(number)
        }
        Call::Audit { archive } => {
            let number = reference::audit(&archive);
            tally.number("audit", number);
            tally.size("sound archives of more than one record", number == 0 && field(&archive, 4) > 1);
            tally.slips(Of::Audit, number, |slip| slips::audit(slip, &archive));
            Some(number)
        }
        Call::Show { archive, number } => {
            let shown = reference::show(&archive, number);
            let place = if shown.is_empty() { archive.len() as u64 } else { 32 * number };
            let how = match (shown.is_empty(), used(&archive).is_ok()) {
                (false, _) => "shown records",
                (true, false) => "empty part on 1",
                (true, true) => "empty part for a number of U or more",
            };
            tally.size(how, true);
            tally.slips(Of::Show, place, |slip| slips::show_place(slip, &archive, number));
            None
        }
        Call::Fresh { archive } => {
            let mut later = archive.clone();
            let number = reference::fresh(&mut later);
            tally.number("fresh", number);
            tally.slips(Of::Fresh, (number, later), |slip| {
                let mut later = archive.clone();
                (slips::fresh(slip, &mut later), later)
            });
            Some(number)
        }
        Call::TakeBack { archive } => {
            let mut later = archive.clone();
            let number = reference::take_back(&mut later);
            tally.number("take back", number);
            if let Ok(used) = used(&archive) {
                asked_back(tally, &archive, used, number);
            }
            tally.slips(Of::TakeBack, (number, later), |slip| {
                let mut later = archive.clone();
                (slips::take_back(slip, &mut later), later)
            });
            Some(number)
        }
        Call::DeliveryDay { quarter, holidays } => {
            let mut day = KEPT;
            let number = reference::host_delivery_day(quarter, &holidays, &mut day);
            tally.number("delivery day", number);
            if number == 0 {
                delivered(tally, quarter, &holidays, day);
            }
            tally.size("delivery day asked for quarter 0", quarter == 0);
            tally.size("delivery day asked for quarter 3,506,401", quarter == LAST.0 + 1);
            tally.size("delivery day asked for a quarter beyond 32 bits", quarter >> 32 != 0);
            tally.slips(Of::DeliveryDay, (number, day), |slip| {
                let mut day = KEPT;
                (slips::delivery_day(slip, quarter, &holidays, &mut day), day)
            });
            Some(number)
        }
        Call::Correction { amounts, balanced, prices } => {
            let (mut cents, mut remainder) = KEPT_CENTS;
            let number = reference::host_correction(&amounts, &balanced, &prices, &mut cents, &mut remainder);
            tally.number("correction", number);
            corrected(tally, [&amounts, &balanced, &prices], number, (cents, remainder));
            tally.slips(Of::Correction, (number, cents, remainder), |slip| {
                let (mut cents, mut remainder) = KEPT_CENTS;
                let number = slips::correction(slip, &amounts, &balanced, &prices, &mut cents, &mut remainder);
                (number, cents, remainder)
            });
            Some(number)
        }
        Call::Preview { archive, owner, record, p, k, list, result } => {
            let (mut later_list, mut later_result) = (list.clone(), result.clone());
            let number = reference::host_preview(&archive, owner, &record, p, k, &mut later_list, &mut later_result);
            tally.number("preview", number);
            ahead(tally, &archive, owner, &record, (p, k), (&list, result.len()), number);
            tally.slips(Of::Preview, (number, archive.clone(), later_list, later_result), |slip| {
                let (mut archive, mut list, mut result) = (archive.clone(), list.clone(), result.clone());
                let number = slips::preview(slip, &mut archive, owner, &record, p, k, &mut list, &mut result);
                (number, archive, list, result)
            });
            Some(number)
        }
    };
    if case.expected.is_some() && case.expected != number {
        tally.unexpected += 1;
        println!("call {index}: made for {:?}, got {number:?}", case.expected);
    }
}

fn one_input(tally: &mut Tally, seed: u64, index: u64) {
    let input = generate::input(seed, index);
    let mut out = Vec::new();
    reference::program(&input, &mut out).expect("a vector takes every line");
    tally.size("inputs that print nothing", out.is_empty());
    tally.size("inputs longer than 65,536 bytes", input.len() > 65_536);
    tally.size("inputs of 65,536 bytes", input.len() == 65_536);
    tally.size(
        "inputs with more lines than records",
        out.iter().filter(|&&byte| byte == b'\n').count() > input.len() / 32,
    );
    for line in String::from_utf8_lossy(&out).lines() {
        let words: Vec<&str> = line.split(' ').collect();
        match words[0] {
            "M" => tally.number("program", 0),
            "E" => tally.number("program", words[3].parse().unwrap_or(u32::MAX)),
            _ => {}
        }
    }
    tally.slips(Of::Program, out, |slip| slips::program(slip, &input));
}

/// A row of three counts for each situation.
fn three(counts: &BTreeMap<(String, usize), u64>, calls: u64, missed: &mut Vec<String>) {
    let mut rows: BTreeMap<&str, [Option<u64>; 3]> = BTreeMap::new();
    for ((what, kind), &times) in counts {
        rows.entry(what).or_default()[*kind] = Some(times);
    }
    for (what, times) in &rows {
        let shown: Vec<String> = times.iter().map(|one| one.map_or("-".into(), |times| times.to_string())).collect();
        println!("  {what}: {}", shown.join(", "));
        if times.contains(&Some(0)) && calls >= 100_000 {
            missed.push(format!("never for one of the three: {what}"));
        }
    }
}

fn main() -> ExitCode {
    let mut arguments = env::args().skip(1).map(|word| word.parse::<u64>().expect("seed and count are numbers"));
    let seed = arguments.next().unwrap_or(1);
    let count = arguments.next().unwrap_or(200_000);
    let mut tally = Tally { slips: vec![0; SLIPS.len()], ..Tally::default() };
    for index in 0..count {
        one_call(&mut tally, seed, index);
    }
    for index in 0..count / 20 {
        one_input(&mut tally, seed, index);
    }

    let mut missed = Vec::new();
    println!("Seed {seed}, {count} calls and {} inputs for the program.", count / 20);
    let mut wanted = NUMBERS.to_vec();
    wanted.push(("preview, by append", &[1, 2, 3, 14, 15, 16]));
    wanted.push(("preview, by settle", &[0, 2, 3, 4, 5, 6, 7, 8, 9, 10, 11, 12, 13, 18]));
    wanted.push(("program", &[0, 1, 2, 3, 6, 7, 8, 9, 10, 11, 12, 18]));
    println!("\nNumbers (program: M lines as 0, E lines by number)");
    for &(call, numbers) in &wanted {
        print!("  {call}:");
        for &number in numbers {
            let times = tally.numbers.get(&(call, number)).copied().unwrap_or(0);
            print!(" {number}={times}");
            if times == 0 {
                missed.push(format!("{call} never gave {number}"));
            }
        }
        println!();
    }
    for (call, number) in tally.numbers.keys() {
        if !wanted.iter().any(|(own, numbers)| own == call && numbers.contains(number)) {
            missed.push(format!("{call} gave {number}"));
        }
    }

    println!("\nSettled, by pairing and direction: executions 1, 2, 3");
    for (pairing, direction) in SETTLED {
        let name = if direction == 1 { "positive" } else { "negative" };
        let times: Vec<u64> = (1..=3)
            .map(|execution| tally.settled.get(&(pairing, direction, execution)).copied().unwrap_or(0))
            .collect();
        println!("  {pairing:?} {name}: {times:?}");
        if times.contains(&0) {
            missed.push(format!("{pairing:?} {name} never settled in some execution"));
        }
    }

    println!("\nDated, by pairing: settled, refused with 18");
    for (pairing, _) in SETTLED.into_iter().filter(|&(_, direction)| direction == 2) {
        let times = [&tally.dated, &tally.late].map(|map| map.get(&pairing).copied().unwrap_or(0));
        println!("  {pairing:?}: {times:?}");
        if times.contains(&0) {
            missed.push(format!("{pairing:?} never settled dated, or never refused with 18"));
        }
    }

    print!("\nA first quarter past 3,506,400, by the number given:");
    for number in [2, 3, 6, 7, 8, 9, 10, 11, 12, 18] {
        let times = tally.beside.get(&number).copied().unwrap_or(0);
        print!(" {number}={times}");
        if times == 0 {
            missed.push(format!("no late date beside {number}"));
        }
    }
    println!();

    println!("\nReadings of October 2026: wind, other negative, other positive (- where it can't be)");
    three(&tally.october, count, &mut missed);

    println!("\nNumbers of a correction: amounts, balanced energies, prices");
    three(&tally.priced, count, &mut missed);

    println!("\nOther situations");
    for (what, times) in &tally.sizes {
        println!("  {times:>7}  {what}");
        if *times == 0 && count >= 100_000 {
            missed.push(format!("never: {what}"));
        }
    }

    println!("\nCalls in which a wrong reading would show (by decision; ! as marked there)");
    for (&(slip, of, point, what), &times) in SLIPS.iter().zip(&tally.slips) {
        println!("  {times:>7}  {point:<13} {of:?}: {what}");
        if times == 0 {
            missed.push(format!("slip never seen: {slip:?}"));
        }
    }
    println!("  {:>7}  6! Settle: of these, walks that would never end", tally.endless);

    if tally.unexpected > 0 {
        missed.push(format!("{} calls with another number than they were made for", tally.unexpected));
    }
    for line in &missed {
        println!("MISSED: {line}");
    }
    if missed.is_empty() {
        ExitCode::SUCCESS
    } else {
        ExitCode::FAILURE
    }
}
