//! The calls of the library, over slices. All `unsafe` code of the crate is here.
//!
//! Each call is safe for any bytes: it's proved that the library returns, reads no more than the
//! structs and slices that it gets, and writes no more than those that it gets as `*mut`. Rust's
//! borrows ensure what C asks of a caller besides: that pointers are valid and nothing overlaps.

use crate::image::NotMade;
use crate::numbers::{ImageFault, Status};
use crate::sys;
use crate::text::TextError;
use core::mem::MaybeUninit;

/// What the calls of a device get.
pub(crate) struct Call<'c> {
    pub setup: &'c sys::Setup,
    pub flash: &'c [u8],
    pub saved: &'c mut sys::SavedState,
    pub journal: &'c mut [u8],
    pub result: &'c mut sys::CallResult,
}

/// Makes a call with a journal: the first five arguments are those of all of them.
macro_rules! journal_call {
    ($call:ident, $it:ident $(, $more:expr)*) => {
        // SAFETY: the pointers are those of references and slices, with the lengths of these.
        unsafe {
            sys::$call(
                $it.setup,
                $it.flash.as_ptr(),
                $it.flash.len(),
                $it.saved,
                $it.journal.as_mut_ptr(),
                $it.journal.len(),
                $($more,)*
                $it.result,
            )
        }
    };
}

impl Call<'_> {
    pub fn provision(&mut self) -> u32 {
        // SAFETY: as in `journal_call`.
        unsafe {
            sys::bootswap_journal_provision(
                self.setup,
                self.flash.as_ptr(),
                self.flash.len(),
                self.journal.as_mut_ptr(),
                self.journal.len(),
                self.result,
            )
        }
    }

    pub fn boot(&mut self) -> u32 {
        journal_call!(bootswap_journal_boot, self)
    }

    pub fn boot_with_texts(&mut self, table: &mut [u8], report: &mut [u8]) -> u32 {
        journal_call!(
            bootswap_journal_boot_with_texts,
            self,
            table.as_mut_ptr(),
            table.len(),
            report.as_mut_ptr(),
            report.len()
        )
    }

    pub fn accept(&mut self, manifest: &sys::Manifest) -> u32 {
        journal_call!(bootswap_journal_accept, self, manifest)
    }

    pub fn piece(&mut self, image: u8, bytes: &[u8]) -> u32 {
        journal_call!(bootswap_journal_piece, self, image, bytes.as_ptr(), bytes.len())
    }

    pub fn finish(&mut self, image: u8) -> u32 {
        journal_call!(bootswap_journal_finish, self, image)
    }

    pub fn withdraw(&mut self, image: u8) -> u32 {
        journal_call!(bootswap_journal_withdraw, self, image)
    }

    pub fn confirm(&mut self, image: u8) -> u32 {
        journal_call!(bootswap_journal_confirm, self, image)
    }
}

/// Resets a device: all uploads are closed, and it isn't booted.
pub(crate) fn reset(saved: &mut sys::SavedState) {
    // SAFETY: it is a complete struct.
    unsafe { sys::bootswap_reset(saved) }
}

/// Reads the state in the log of a flash.
pub(crate) fn state(setup: &sys::Setup, flash: &[u8], state: &mut sys::State) -> u32 {
    // SAFETY: the pointers are those of references and a slice, with the length of this.
    unsafe { sys::bootswap_state(setup, flash.as_ptr(), flash.len(), state) }
}

/// Describes the image at the front of a slot.
pub(crate) fn slot(
    setup: &sys::Setup,
    flash: &[u8],
    image: u8,
    side: u8,
) -> Result<sys::Description, u32> {
    let mut description = sys::Description::ZERO;
    // SAFETY: as in `state`.
    match unsafe {
        sys::bootswap_slot(setup, flash.as_ptr(), flash.len(), image, side, &mut description)
    } {
        0 => Ok(description),
        number => Err(number),
    }
}

/// Describes the image that the bytes are.
pub(crate) fn describe(bytes: &[u8]) -> Result<sys::Description, ImageFault> {
    let mut description = sys::Description::ZERO;
    // SAFETY: as in `state`.
    let number = unsafe { sys::bootswap_describe(bytes.as_ptr(), bytes.len(), &mut description) };
    match ImageFault::from_number(number) {
        None => Ok(description),
        Some(fault) => Err(fault),
    }
}

/// Returns the SHA-256 of bytes.
pub(crate) fn digest(bytes: &[u8]) -> [u8; 32] {
    let mut made = sys::Sha256 { bytes: [0; 32] };
    // SAFETY: as in `state`.
    unsafe { sys::bootswap_digest(bytes.as_ptr(), bytes.len(), &mut made) };
    made.bytes
}

/// Makes an image at the front of a buffer, and returns its length.
pub(crate) fn make_image(
    parts: &sys::ImageParts,
    body: &[u8],
    image: &mut [u8],
) -> Result<usize, NotMade> {
    let mut length = 0;
    // SAFETY: as in `state`.
    let status = unsafe {
        sys::bootswap_make_image(
            parts,
            body.as_ptr(),
            body.len(),
            image.as_mut_ptr(),
            image.len(),
            &mut length,
        )
    };
    match Status::from_number(status) {
        Some(Status::Done) => Ok(length as usize),
        Some(Status::TooSmall) => Err(NotMade::TooSmall(length)),
        _ => Err(NotMade::BadImage),
    }
}

/// Chooses by a table, and returns the length of the report.
pub(crate) fn choose(table: &[u8], report: &mut [u8]) -> Result<usize, TextError> {
    let mut length = 0;
    // SAFETY: as in `state`.
    let status = unsafe {
        sys::bootswap_choose(
            table.as_ptr(),
            table.len(),
            report.as_mut_ptr(),
            report.len(),
            &mut length,
        )
    };
    match status {
        0 => Ok(length as usize),
        _ => Err(TextError::from_numbers(status, length)),
    }
}

/// Checks a report by a table.
pub(crate) fn check(table: &[u8], report: &[u8]) -> Result<(), TextError> {
    let mut line = 0;
    // SAFETY: as in `state`.
    let status = unsafe {
        sys::bootswap_check(table.as_ptr(), table.len(), report.as_ptr(), report.len(), &mut line)
    };
    match status {
        0 => Ok(()),
        _ => Err(TextError::from_numbers(status, line)),
    }
}

/// Chooses by a table, which is read to the workspace, and returns the length of the report.
pub(crate) fn choose_in(
    workspace: &mut MaybeUninit<sys::Workspace>,
    table: &[u8],
    report: &mut [u8],
) -> Result<usize, TextError> {
    let mut length = 0;
    // SAFETY: as in `state`. The workspace may hold anything, and keeps nothing that is read.
    let status = unsafe {
        sys::bootswap_choose_in(
            workspace.as_mut_ptr(),
            table.as_ptr(),
            table.len(),
            report.as_mut_ptr(),
            report.len(),
            &mut length,
        )
    };
    match status {
        0 => Ok(length as usize),
        _ => Err(TextError::from_numbers(status, length)),
    }
}

/// Checks a report by a table, which is read to the workspace.
pub(crate) fn check_in(
    workspace: &mut MaybeUninit<sys::Workspace>,
    table: &[u8],
    report: &[u8],
) -> Result<(), TextError> {
    let mut line = 0;
    // SAFETY: as in `choose_in`.
    let status = unsafe {
        sys::bootswap_check_in(
            workspace.as_mut_ptr(),
            table.as_ptr(),
            table.len(),
            report.as_ptr(),
            report.len(),
            &mut line,
        )
    };
    match status {
        0 => Ok(()),
        _ => Err(TextError::from_numbers(status, line)),
    }
}
