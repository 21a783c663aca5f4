//! Request 6, the preview: what settle would give with one more record filed. Both calls are made on a copy, so that
//! the archive is only read.

use crate::archive::Refusal;
use crate::filing::append;
use crate::settle::{host_settle, settle, Answer};

/// The archive after the append, as a copy of its own; append's refusals.
fn with_record(archive: &[u8], owner: u64, new: &[u8]) -> Result<Vec<u8>, Refusal> {
    let mut copy = archive.to_vec();
    match append(&mut copy, owner, new) {
        0 => Ok(copy),
        number => Err(number),
    }
}

/// Preview on a list of numbers: append's refusals first, then answer, list and refusal of settle on the copy.
pub fn preview(archive: &[u8], owner: u64, new: &[u8], p: u64, k: u64, list: &mut [i64]) -> Answer {
    match with_record(archive, owner, new) {
        Ok(copy) => settle(&copy, p, k, list),
        Err(number) => Answer::refused(number),
    }
}

/// Preview as the host calls it: list and results as bytes.
pub fn host_preview(
    archive: &[u8],
    owner: u64,
    new: &[u8],
    p: u64,
    k: u64,
    list: &mut [u8],
    result: &mut [u8],
) -> Refusal {
    match with_record(archive, owner, new) {
        Ok(copy) => host_settle(&copy, p, k, list, result),
        Err(number) => number,
    }
}
