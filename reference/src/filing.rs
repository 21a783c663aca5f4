//! Document 01, "Calls on the archive": fresh, append and show; request 2: taking the last record back.

use crate::archive::*;

/// Fresh: AARB, U = 1 and zeros; 1 for the length.
pub fn fresh(archive: &mut [u8]) -> Refusal {
    if let Err(number) = length(archive) {
        return number;
    }
    archive.fill(0);
    archive[0..4].copy_from_slice(b"AARB");
    archive[4..8].copy_from_slice(&1u32.to_le_bytes());
    0
}

/// Append: the record goes to number U, the last link of its chain points to it, U grows by 1.
pub fn append(archive: &mut [u8], owner: u64, new: &[u8]) -> Refusal {
    match append_place(archive, owner, new) {
        Err(number) => number,
        Ok((used, holder, at)) => {
            let place = used as usize * RECORD;
            archive[place..place + RECORD].copy_from_slice(new);
            let last_link = holder as usize * RECORD + at;
            archive[last_link..last_link + 4].copy_from_slice(&(used as u32).to_le_bytes());
            archive[4..8].copy_from_slice(&(used as u32 + 1).to_le_bytes());
            0
        }
    }
}

/// Append's tests in their order 1, 14, 15, 2, 3, 16: gives U and where the chain's last link stands.
fn append_place(archive: &[u8], owner: u64, new: &[u8]) -> Result<(u64, u64, usize), Refusal> {
    let used = used(archive)?;

    // 14: not 32 bytes, kind, bytes 4-7, bytes 8-15 in kinds 1 and 3.
    if new.len() != RECORD {
        return Err(14);
    }
    let kind = new[0];
    if !(1..=5).contains(&kind) {
        return Err(14);
    }
    if new[4..8] != [0; 4] {
        return Err(14);
    }
    if (kind == PLANT || kind == MEASURE) && new[8..16] != [0; 8] {
        return Err(14);
    }

    // 15: the head for kind 1, a plant for 2 and 3, a measure for 4 and 5.
    if owner >= used {
        return Err(15);
    }
    let right = match kind {
        PLANT => owner == 0,
        POINT | MEASURE => owner != 0 && record(archive, owner)[0] == PLANT,
        _ => owner != 0 && record(archive, owner)[0] == MEASURE,
    };
    if !right {
        return Err(15);
    }

    // 2 and 3 along the chain that the record joins.
    let first = match kind {
        PLANT | POINT | BEFORE => FIRST,
        _ => SECOND,
    };
    let numbers = chain(archive, used, owner, first, kind)?;

    // 16: U equals all records.
    if used as usize == archive.len() / RECORD {
        return Err(16);
    }
    Ok(match numbers.last() {
        None => (used, owner, first),
        Some(&last) => (used, last, NEXT),
    })
}

/// Taking back: record U - 1 is cleared, the one link that named it is zeroed, U is lowered by 1.
pub fn take_back(archive: &mut [u8]) -> Refusal {
    match named_last(archive) {
        Err(number) => number,
        Ok((last, holder, at)) => {
            let link = holder as usize * RECORD + at;
            archive[link..link + 4].fill(0);
            let place = last as usize * RECORD;
            archive[place..place + RECORD].fill(0);
            // U - 1 is the last record's number.
            archive[4..8].copy_from_slice(&(last as u32).to_le_bytes());
            0
        }
    }
}

/// The tests of taking back, 1 and then 19: gives the last record's number and where the one link that names it stands.
fn named_last(archive: &[u8]) -> Result<(u64, u64, usize), Refusal> {
    let used = used(archive)?;
    // 19: U is 1.
    if used == 1 {
        return Err(19);
    }
    // 19: the last record isn't named by precisely one link.
    let last = used - 1;
    match names(archive, used, last)[..] {
        [(holder, at)] => Ok((last, holder, at)),
        _ => Err(19),
    }
}

/// Every link of the head or of a used record of known kind that has a record's number as its value: holder and place.
/// Whether the link is allowed doesn't matter, and the record's own links are among them.
pub fn names(archive: &[u8], used: u64, wanted: u64) -> Vec<(u64, usize)> {
    let mut names = Vec::new();
    for number in 0..used {
        for &at in links_of(archive, number) {
            if link(record(archive, number), at) == wanted {
                names.push((number, at));
            }
        }
    }
    names
}

/// Where a record's links stand; unknown kinds have none.
fn links_of(archive: &[u8], number: u64) -> &'static [usize] {
    if number == 0 {
        return &[FIRST];
    }
    match record(archive, number)[0] {
        PLANT | MEASURE => &[NEXT, FIRST, SECOND],
        POINT | BEFORE | QUARTER => &[NEXT],
        _ => &[],
    }
}

/// Show: the record's bytes as part of the archive; empty on 1 or for a number of U or more.
pub fn show(archive: &[u8], number: u64) -> &[u8] {
    match used(archive) {
        Ok(used) if number < used => record(archive, number),
        _ => &[],
    }
}
