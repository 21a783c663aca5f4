//! The linked library's C interface, called on slices.

mod c {
    extern "C" {
        pub fn settle(
            archive: *const u8,
            archive_length: usize,
            p: u64,
            k: u64,
            list: *mut u8,
            list_length: usize,
            result: *mut u8,
            result_length: usize,
        ) -> u32;
        pub fn sandegmur_fresh(archive: *mut u8, archive_length: usize) -> u32;
        pub fn sandegmur_append(
            archive: *mut u8,
            archive_length: usize,
            owner: u64,
            record: *const u8,
            record_length: usize,
        ) -> u32;
        pub fn sandegmur_audit(archive: *const u8, archive_length: usize) -> u32;
        pub fn sandegmur_show(archive: *const u8, archive_length: usize, number: u64) -> u64;
        pub fn sandegmur_delivery_day(quarter: u64, holidays: *const u32, holiday_count: usize, day: *mut u64) -> u32;
        pub fn sandegmur_take_back(archive: *mut u8, archive_length: usize) -> u32;
        pub fn sandegmur_correction(
            amounts: *const i64,
            amount_count: usize,
            balanced: *const i64,
            balanced_count: usize,
            prices: *const i64,
            price_count: usize,
            cents: *mut i64,
            remainder: *mut u64,
        ) -> u32;
        pub fn sandegmur_preview(
            archive: *mut u8,
            archive_length: usize,
            owner: u64,
            record: *const u8,
            record_length: usize,
            p: u64,
            k: u64,
            list: *mut u8,
            list_length: usize,
            result: *mut u8,
            result_length: usize,
        ) -> u32;
    }
}

// Safety, of all nine: pointer and length of every part come from one live slice, and the parts don't overlap.

pub fn settle(archive: &[u8], p: u64, k: u64, list: &mut [u8], result: &mut [u8]) -> u32 {
    unsafe {
        c::settle(
            archive.as_ptr(),
            archive.len(),
            p,
            k,
            list.as_mut_ptr(),
            list.len(),
            result.as_mut_ptr(),
            result.len(),
        )
    }
}

#[allow(dead_code)]
pub fn fresh(archive: &mut [u8]) -> u32 {
    unsafe { c::sandegmur_fresh(archive.as_mut_ptr(), archive.len()) }
}

pub fn append(archive: &mut [u8], owner: u64, record: &[u8]) -> u32 {
    unsafe { c::sandegmur_append(archive.as_mut_ptr(), archive.len(), owner, record.as_ptr(), record.len()) }
}

pub fn audit(archive: &[u8]) -> u32 {
    unsafe { c::sandegmur_audit(archive.as_ptr(), archive.len()) }
}

/// Place of the part in the archive; the archive's length for the empty part.
#[allow(dead_code)]
pub fn show(archive: &[u8], number: u64) -> u64 {
    unsafe { c::sandegmur_show(archive.as_ptr(), archive.len(), number) }
}

#[allow(dead_code)]
pub fn delivery_day(quarter: u64, holidays: &[u32], day: &mut u64) -> u32 {
    unsafe { c::sandegmur_delivery_day(quarter, holidays.as_ptr(), holidays.len(), day) }
}

pub fn take_back(archive: &mut [u8]) -> u32 {
    unsafe { c::sandegmur_take_back(archive.as_mut_ptr(), archive.len()) }
}

pub fn correction(amounts: &[i64], balanced: &[i64], prices: &[i64], cents: &mut i64, remainder: &mut u64) -> u32 {
    unsafe {
        c::sandegmur_correction(
            amounts.as_ptr(),
            amounts.len(),
            balanced.as_ptr(),
            balanced.len(),
            prices.as_ptr(),
            prices.len(),
            cents,
            remainder,
        )
    }
}

pub fn preview(
    archive: &mut [u8],
    owner: u64,
    record: &[u8],
    p: u64,
    k: u64,
    list: &mut [u8],
    result: &mut [u8],
) -> u32 {
    unsafe {
        c::sandegmur_preview(
            archive.as_mut_ptr(),
            archive.len(),
            owner,
            record.as_ptr(),
            record.len(),
            p,
            k,
            list.as_mut_ptr(),
            list.len(),
            result.as_mut_ptr(),
            result.len(),
        )
    }
}
