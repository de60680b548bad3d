//! The proved calls, by the C interface of `include/bootswap.h`. A slice is passed as a pointer and a length.

use std::ffi::c_char;

/// The length of a description in bytes. Its first eight bytes are the length of the image.
const DESCRIPTION: usize = 464;

/// The number of a call that is done.
const DONE: u32 = 0;

/// The number of a text that is no table.
const NO_TABLE: u32 = 24;

/// The length of a sector of the flash in bytes.
const SECTOR_SIZE: u32 = 131_072;

/// The number of sectors of the slot, enough for an image of 1 MiB.
const SLOT_SECTORS: u32 = 9;

/// The length of the flash in bytes: two slots with a trailer each, scratch, and three sectors of the log.
const FLASH_LENGTH: usize = 24 * SECTOR_SIZE as usize;

/// What a refusal adds to the number of its check.
const REFUSED: u64 = 1 << 63;

/// The length of the buffer of a report, which is enough for each, in bytes.
pub const REPORT: usize = 2048;

/// `struct bootswap_setup`.
#[repr(C)]
struct Setup {
    sector_size: u32,
    images: u32,
    sectors: [u32; 8],
    trial_boots: u32,
    identifiers: [u8; 32],
}

/// `struct bootswap_description`, of which the length is read alone.
#[repr(C, align(8))]
struct Description {
    length: u64,
    others: [u8; DESCRIPTION - 8],
}

#[link(name = "bootswap", kind = "static")]
unsafe extern "C" {
    fn bootswap_describe(bytes: *const u8, length: usize, description: *mut Description) -> u32;
    fn bootswap_digest(bytes: *const u8, length: usize, digest: *mut [u8; 32]);
    fn bootswap_choose(
        table: *const c_char,
        table_length: usize,
        report: *mut c_char,
        report_capacity: usize,
        length: *mut u64,
    ) -> u32;
    fn bootswap_check(
        table: *const c_char,
        table_length: usize,
        report: *const c_char,
        report_length: usize,
        line: *mut u64,
    ) -> u32;
    fn bootswap_slot(
        setup: *const Setup,
        flash: *const u8,
        flash_length: usize,
        image: u8,
        side: u8,
        description: *mut Description,
    ) -> u32;
}

/// The length of the intact image that the bytes are, or 2^63 plus the number of the first check that fails.
pub fn describe(bytes: &[u8]) -> u64 {
    // SAFETY: the pointers are those of a slice, which is only read, and of a complete struct.
    described(|description| unsafe { bootswap_describe(bytes.as_ptr(), bytes.len(), description) })
}

/// A flash of one image whose primary slot begins with some bytes, and is erased after them.
pub struct Slot(Vec<u8>);

impl Slot {
    pub fn with(bytes: &[u8]) -> Slot {
        let mut flash = bytes.to_vec();
        flash.resize(FLASH_LENGTH, 0xff);
        Slot(flash)
    }

    /// The length of the image at the front of the slot, or 2^63 plus the number of the first check that fails.
    pub fn describe(&self) -> u64 {
        let mut sectors = [0; 8];
        sectors[0] = SLOT_SECTORS;
        let (sector_size, images, trial_boots) = (SECTOR_SIZE, 1, 1);
        let setup = Setup {
            sector_size,
            images,
            sectors,
            trial_boots,
            identifiers: [0; 32],
        };
        let (flash, length) = (self.0.as_ptr(), self.0.len());
        // SAFETY: as in `describe`.
        described(|description| unsafe { bootswap_slot(&setup, flash, length, 0, 0, description) })
    }
}

/// The result of a call that describes an image.
fn described(call: impl FnOnce(*mut Description) -> u32) -> u64 {
    let mut description = Description {
        length: 0,
        others: [0; DESCRIPTION - 8],
    };
    match call(&mut description) {
        DONE => description.length,
        fault => REFUSED + u64::from(fault),
    }
}

/// The first eight bytes of the SHA-256 of the bytes, as a number.
pub fn digest(bytes: &[u8]) -> u64 {
    let mut digest = [0; 32];
    // SAFETY: as in `describe`.
    unsafe { bootswap_digest(bytes.as_ptr(), bytes.len(), &mut digest) };
    u64::from_be_bytes(digest[..8].try_into().expect("eight bytes"))
}

/// Writes the report on a table to the front of a buffer, and returns its length in bytes. Else returns 2^63 for a text that
/// isn't a table, or 2^63 + 1 for running images that don't fit each other.
pub fn report(table: &[u8], report: &mut [u8; REPORT]) -> Result<usize, u64> {
    let (from, to) = (table.as_ptr().cast(), report.as_mut_ptr().cast());
    let mut length = 0;
    // SAFETY: as in `describe`, for a buffer of this length.
    match unsafe { bootswap_choose(from, table.len(), to, REPORT, &mut length) } {
        DONE => Ok(length as usize),
        NO_TABLE => Err(REFUSED),
        _ => Err(REFUSED + 1),
    }
}

/// The taken requests of that report in the lowest eight bits and the number of refusals above them, or the number of the
/// fault.
pub fn choose(table: &[u8]) -> u64 {
    let mut text = [0; REPORT];
    let length = match report(table, &mut text) {
        Ok(length) => length,
        Err(fault) => return fault,
    };
    let text = std::str::from_utf8(&text[..length]).expect("a report is ASCII");
    text.lines()
        .fold(0, |sum, line| match line.split_once(' ') {
            Some(("take", taken)) => sum | 1 << (taken.as_bytes()[0] - b'0'),
            Some(("refuse", _)) => sum + 256,
            _ => sum,
        })
}

/// Whether the report is right for the table. Both are texts.
pub fn check(table: &[u8], report: &[u8]) -> bool {
    let (one, other) = (table.as_ptr().cast(), report.as_ptr().cast());
    let mut line = 0;
    // SAFETY: as in `describe`, for two slices.
    unsafe { bootswap_check(one, table.len(), other, report.len(), &mut line) == DONE }
}
