//! Document 01, "Calls on the archive": audit.

use crate::archive::*;

/// Audit: 1; the head's link; each record by number, kind, then links in byte order; then 17.
pub fn audit(archive: &[u8]) -> Refusal {
    match audited(archive) {
        Ok(()) => 0,
        Err(number) => number,
    }
}

fn audited(archive: &[u8]) -> Result<(), Refusal> {
    let used = used(archive)?;
    let mut named = vec![0u32; used as usize];
    one_link(archive, used, 0, FIRST, PLANT, &mut named)?;
    for number in 1..used {
        let kind = record(archive, number)[0];
        if !(1..=5).contains(&kind) {
            return Err(3);
        }
        one_link(archive, used, number, NEXT, kind, &mut named)?;
        if kind == PLANT {
            one_link(archive, used, number, FIRST, POINT, &mut named)?;
            one_link(archive, used, number, SECOND, MEASURE, &mut named)?;
        }
        if kind == MEASURE {
            one_link(archive, used, number, FIRST, BEFORE, &mut named)?;
            one_link(archive, used, number, SECOND, QUARTER, &mut named)?;
        }
    }
    // Each record but the head is named by precisely one link.
    if named[1..].iter().any(|&links| links != 1) {
        return Err(17);
    }
    Ok(())
}

/// Zero names nothing; any other link is tested and counted.
fn one_link(archive: &[u8], used: u64, holder: u64, at: usize, kind: u8, named: &mut [u32]) -> Result<(), Refusal> {
    let to = link(record(archive, holder), at);
    if to != 0 {
        follow(archive, used, holder, to, kind)?;
        named[to as usize] += 1;
    }
    Ok(())
}
