//! Tables and reports as texts. `docs/FORMATS.md` of the repository describes both.

use core::fmt;

use crate::library;
use crate::numbers::Status;
use crate::sys;
use core::mem::MaybeUninit;

/// The most bytes of the text of a table. A buffer of this length is always large enough.
pub const MAX_TABLE_LENGTH: usize = 20480;
/// The most bytes of the text of a report. A buffer of this length is always large enough.
pub const MAX_REPORT_LENGTH: usize = 2048;

/// Why [`choose`] or [`check`] has another answer.
#[derive(Clone, Copy, Debug, PartialEq, Eq)]
#[non_exhaustive]
pub enum TextError {
    /// The text is no table: the number of its first bad line, counted from 1.
    NoTable(u64),
    /// The text is no report: the number of its first bad line.
    NoReport(u64),
    /// The running images of the table don't fit each other.
    InvalidSet,
    /// The report isn't right for the table.
    Wrong,
    /// The buffer is too small for the report.
    TooSmall,
    /// The library returned a number that this crate doesn't know: it is of another version.
    Unknown(u32),
}

impl TextError {
    /// The error of what a call returned, and of the number beside it.
    pub(crate) fn from_numbers(status: u32, value: u64) -> Self {
        match Status::from_number(status) {
            Some(Status::NoTable) => Self::NoTable(value),
            Some(Status::NoReport) => Self::NoReport(value),
            Some(Status::InvalidSet) => Self::InvalidSet,
            Some(Status::Wrong) => Self::Wrong,
            Some(Status::TooSmall) => Self::TooSmall,
            _ => Self::Unknown(status),
        }
    }
}

impl fmt::Display for TextError {
    fn fmt(&self, to: &mut fmt::Formatter<'_>) -> fmt::Result {
        match self {
            Self::NoTable(line) => write!(to, "no table: line {}", line),
            Self::NoReport(line) => write!(to, "no report: line {}", line),
            Self::InvalidSet => to.write_str("the running images don't fit each other"),
            Self::Wrong => to.write_str("the report isn't right for the table"),
            Self::TooSmall => to.write_str("the buffer is too small for the report"),
            Self::Unknown(number) => write!(to, "an unknown number: {}", number),
        }
    }
}

/// Chooses among the requests of a table, and returns the report, which is written to the front of
/// a buffer. One of [`MAX_REPORT_LENGTH`] bytes is always large enough.
///
/// # Errors
/// [`TextError::NoTable`], [`TextError::InvalidSet`] and [`TextError::TooSmall`].
///
/// ```
/// // A test of version 2.0.0 of image 0 is requested, which needs that version of image 1.
/// let table = "image 0 1.0.0+0 0 0
/// request 2.0.0+0 0
/// needs 1 2.0.0+0
/// image 1 1.0.0+0 0 0
/// ";
/// let mut buffer = [0; bootswap::MAX_REPORT_LENGTH];
/// let report = bootswap::choose(table, &mut buffer)?;
/// assert_eq!(bootswap::check(table, report), Ok(()));
/// assert_eq!(
///     bootswap::check(table, "take 0 2.0.0+0\nrun 1 1.0.0+0\n"),
///     Err(bootswap::TextError::Wrong)
/// );
/// # Ok::<(), bootswap::TextError>(())
/// ```
pub fn choose<'r>(table: &str, report: &'r mut [u8]) -> Result<&'r str, TextError> {
    let length = library::choose(table.as_bytes(), report)?;
    Ok(text_of(report, length))
}

/// Checks whether a report is right for a table: no other set of its requests may be taken.
///
/// The checker shares no code with [`choose`], which has an example of both.
///
/// # Errors
/// [`TextError::NoTable`], [`TextError::NoReport`] and [`TextError::InvalidSet`], and
/// [`TextError::Wrong`] if the report isn't right.
pub fn check(table: &str, report: &str) -> Result<(), TextError> {
    library::check(table.as_bytes(), report.as_bytes())
}

/// Memory of 7304 bytes for the table of a choice or of a check, which takes most of the stack of
/// [`choose`] and [`check`]. What it holds has no meaning.
pub struct Workspace(MaybeUninit<sys::Workspace>);

impl Workspace {
    /// Memory that holds nothing yet.
    pub const fn new() -> Self {
        Self(MaybeUninit::uninit())
    }
}

impl fmt::Debug for Workspace {
    fn fmt(&self, to: &mut fmt::Formatter<'_>) -> fmt::Result {
        to.debug_struct("Workspace").finish_non_exhaustive()
    }
}

impl Default for Workspace {
    fn default() -> Self {
        Self::new()
    }
}

/// Chooses as [`choose`] does, with the table in a workspace: it takes less than 2 kB of stack.
///
/// # Errors
/// As [`choose`].
///
/// ```
/// let mut workspace = bootswap::Workspace::new();
/// let mut buffer = [0; bootswap::MAX_REPORT_LENGTH];
/// let table = "image 0 1.0.0+0 0 0\nrequest 2.0.0+0 0\n";
/// let report = bootswap::choose_in(&mut workspace, table, &mut buffer)?;
/// assert_eq!(report, "take 0 2.0.0+0\n");
/// assert_eq!(bootswap::check_in(&mut workspace, table, report), Ok(()));
/// # Ok::<(), bootswap::TextError>(())
/// ```
pub fn choose_in<'r>(
    workspace: &mut Workspace,
    table: &str,
    report: &'r mut [u8],
) -> Result<&'r str, TextError> {
    let length = library::choose_in(&mut workspace.0, table.as_bytes(), report)?;
    Ok(text_of(report, length))
}

/// Checks as [`check`] does, with the table in a workspace: it takes less than 2 kB of stack.
///
/// # Errors
/// As [`check`].
pub fn check_in(workspace: &mut Workspace, table: &str, report: &str) -> Result<(), TextError> {
    library::check_in(&mut workspace.0, table.as_bytes(), report.as_bytes())
}

/// Returns the text at the front of a buffer. The library writes ASCII, so it is always one.
pub(crate) fn text_of(buffer: &[u8], length: usize) -> &str {
    core::str::from_utf8(buffer.get(..length).unwrap_or_default()).unwrap_or_default()
}
