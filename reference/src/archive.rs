//! Document 01, "The archive": records of 32 bytes, their numbers and links.

/// A row of the table "Refused sheets".
pub type Refusal = u32;

/// Bytes of a record.
pub const RECORD: usize = 32;
/// The most records an archive may have.
pub const MOST_RECORDS: usize = 65_535;

pub const PLANT: u8 = 1;
pub const POINT: u8 = 2;
pub const MEASURE: u8 = 3;
pub const BEFORE: u8 = 4;
pub const QUARTER: u8 = 5;

/// Place of the link to the next record of the same chain.
pub const NEXT: usize = 4;
/// Place of the first link in head, plant (curve) and measure (before-quarters).
pub const FIRST: usize = 8;
/// Place of the second first link in plant (measures) and measure (quarters).
pub const SECOND: usize = 12;
/// Place of a measure's first quarter as a number of the calendar.
pub const DATE: usize = 16;
/// Places of a quarter's power while not available and power after market adjustment.
pub const NONAVAILABLE: usize = 24;
pub const ADJUSTED: usize = 28;

/// The 32 bytes of record `number`.
pub fn record(archive: &[u8], number: u64) -> &[u8] {
    let start = number as usize * RECORD;
    &archive[start..start + RECORD]
}

/// A link (or U, or a measure's date): unsigned 32 bits, little-endian.
pub fn link(record: &[u8], at: usize) -> u64 {
    u64::from(u32::from_le_bytes([record[at], record[at + 1], record[at + 2], record[at + 3]]))
}

/// Any other four-byte field: signed 32 bits, little-endian.
pub fn field(record: &[u8], at: usize) -> i128 {
    i128::from(i32::from_le_bytes([record[at], record[at + 1], record[at + 2], record[at + 3]]))
}

/// Refusal 1 for the length: 32 × 1..65,535.
pub fn length(archive: &[u8]) -> Result<(), Refusal> {
    let whole = archive.len() % RECORD == 0;
    let records = archive.len() / RECORD;
    if whole && (1..=MOST_RECORDS).contains(&records) {
        Ok(())
    } else {
        Err(1)
    }
}

/// U of a head that is not refused; refusal 1 for length, text or U.
pub fn used(archive: &[u8]) -> Result<u64, Refusal> {
    length(archive)?;
    let head = record(archive, 0);
    if &head[0..4] != b"AARB" {
        return Err(1);
    }
    let used = link(head, 4);
    let all = (archive.len() / RECORD) as u64;
    if used < 1 || used > all {
        return Err(1);
    }
    Ok(used)
}

/// Tests one link that is not zero: 2 against its holder and U, then 3 for the kind at it.
pub fn follow(archive: &[u8], used: u64, holder: u64, link: u64, kind: u8) -> Result<(), Refusal> {
    if link <= holder || link >= used {
        return Err(2);
    }
    if record(archive, link)[0] != kind {
        return Err(3);
    }
    Ok(())
}

/// The numbers of a whole chain, from its owner's link at byte `at` to the zero link.
pub fn chain(archive: &[u8], used: u64, owner: u64, at: usize, kind: u8) -> Result<Vec<u64>, Refusal> {
    let mut numbers = Vec::new();
    let mut holder = owner;
    let mut next = link(record(archive, owner), at);
    while next != 0 {
        follow(archive, used, holder, next, kind)?;
        numbers.push(next);
        holder = next;
        next = link(record(archive, holder), NEXT);
    }
    Ok(numbers)
}

/// The record at a place counted from 1 along a chain, following exactly so many links; `missing` if there is none.
pub fn place(
    archive: &[u8],
    used: u64,
    owner: u64,
    at: usize,
    kind: u8,
    place: u64,
    missing: Refusal,
) -> Result<u64, Refusal> {
    if place == 0 {
        return Err(missing);
    }
    let mut holder = owner;
    let mut next = link(record(archive, owner), at);
    let mut reached = 0;
    loop {
        if next == 0 {
            return Err(missing);
        }
        follow(archive, used, holder, next, kind)?;
        reached += 1;
        if reached == place {
            return Ok(next);
        }
        holder = next;
        next = link(record(archive, holder), NEXT);
    }
}
