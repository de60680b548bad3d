//! What calls take and return.

use core::fmt;

use crate::numbers::{Fault, Phase, Reason, Status};
use crate::sys;
use crate::{Dependency, Version};

/// Why a call of a device failed. `E` is the error of the flash.
#[derive(Clone, Copy, Debug, PartialEq, Eq)]
#[non_exhaustive]
pub enum Error<E> {
    /// The call is refused. The device stays booted if it was.
    Refused(Fault),
    /// A function of the flash failed. The device isn't booted, and is [`Closed`](Self::Closed)
    /// until [`Device::reopen`](crate::Device::reopen).
    Flash(E),
    /// A function of the flash failed in an earlier call, so the flash isn't what the library
    /// counted on. No call was made.
    Closed,
    /// The journal is shorter than the call's bound in [`journal`](crate::journal). Nothing
    /// changed, unless it was a boot: then the device isn't booted.
    JournalTooSmall,
    /// The sizes of the flash don't fit the setup: [`NorFlash`](crate::NorFlash) says what they
    /// have to be, and the memory that the library reads is longer than the flash. No call was
    /// made.
    Sizes,
    /// No call was made, and nothing changed, for this reason.
    NotMade(Status),
    /// The library returned a number that this crate doesn't know: it is of another version.
    Unknown(u32),
}

impl<E> Error<E> {
    /// Returns the number that the call in C returns, a `bootswap_status` or
    /// `bootswap_device_status`.
    pub const fn number(&self) -> u32 {
        match self {
            Self::Refused(_) => Status::Refused.number(),
            Self::Flash(_) | Self::Closed => 32,
            Self::JournalTooSmall => 33,
            Self::Sizes => Status::NoFlash.number(),
            Self::NotMade(status) => status.number(),
            Self::Unknown(number) => *number,
        }
    }
}

impl<E: fmt::Debug> fmt::Display for Error<E> {
    fn fmt(&self, to: &mut fmt::Formatter<'_>) -> fmt::Result {
        match self {
            Self::Refused(fault) => write!(to, "refused: {}", fault),
            Self::Flash(error) => write!(to, "the flash failed: {:?}", error),
            Self::Closed => to.write_str("the flash failed before: the device has to be reopened"),
            Self::JournalTooSmall => to.write_str("the journal is too small"),
            Self::Sizes => to.write_str("the sizes of the flash don't fit the setup"),
            Self::NotMade(status) => write!(to, "no call was made: {}", status),
            Self::Unknown(number) => write!(to, "an unknown number: {}", number),
        }
    }
}

/// A set of images.
///
/// ```
/// # use bootswap::Images;
/// let set = Images::from_bits(0b101);
/// assert!(set.contains(2) && !set.contains(1));
/// assert_eq!(set.iter().collect::<Vec<_>>(), [0, 2]);
/// assert_eq!(set.to_string(), "0 2");
/// ```
#[derive(Clone, Copy, Debug, Default, PartialEq, Eq, Hash)]
pub struct Images(u32);

impl Images {
    /// The set whose bit i is 1 if it has image i.
    pub const fn from_bits(bits: u32) -> Self {
        Self(bits)
    }

    /// Returns the set as a number: bit i is 1 if it has image i.
    pub const fn bits(self) -> u32 {
        self.0
    }

    /// Returns whether the set has no image.
    pub const fn is_empty(self) -> bool {
        self.0 == 0
    }

    /// Returns whether the set has an image.
    pub const fn contains(self, image: u8) -> bool {
        image < 32 && self.0 >> image & 1 == 1
    }

    /// Returns the numbers of the images, the lowest first.
    pub fn iter(self) -> impl Iterator<Item = u8> {
        (0..32).filter(move |image| self.contains(*image))
    }
}

impl fmt::Display for Images {
    fn fmt(&self, to: &mut fmt::Formatter<'_>) -> fmt::Result {
        for (i, image) in self.iter().enumerate() {
            let space = if i == 0 { "" } else { " " };
            write!(to, "{}{}", space, image)?;
        }
        Ok(())
    }
}

impl Version {
    /// The version `major.minor.revision`, of build 0.
    pub const fn new(major: u8, minor: u8, revision: u16) -> Self {
        Self { major, minor, revision, build: 0 }
    }
}

impl fmt::Display for Version {
    fn fmt(&self, to: &mut fmt::Formatter<'_>) -> fmt::Result {
        write!(to, "{}.{}.{}+{}", self.major, self.minor, self.revision, self.build)
    }
}

impl sys::Refusal {
    /// Returns the image whose request is refused.
    pub const fn image(&self) -> u8 {
        self.image as u8
    }

    /// Returns why. It is `None` only of a library of another version.
    pub const fn reason(&self) -> Option<Reason> {
        Reason::from_number(self.reason)
    }

    /// Returns what the image needs, and isn't there: one dependency for
    /// [`Reason::NoSuchImage`], of which only the number of the needed image counts, and for
    /// [`Reason::Needs`]; up to 4 for [`Reason::NeedsOne`]; else none.
    pub fn dependencies(&self) -> &[Dependency] {
        first(&self.dependencies, self.count)
    }
}

/// Returns the first rows of a table, all if there are fewer.
pub(crate) fn first<T>(rows: &[T], count: u32) -> &[T] {
    rows.get(..count as usize).unwrap_or(rows)
}

/// What a boot decided. A loader starts images after each.
#[derive(Clone, Copy, Debug, PartialEq, Eq)]
pub enum Decision {
    /// The same images run as before.
    Plain,
    /// The new images of this set run, on trial: they revert unless the application confirms them.
    Trial(Images),
    /// The new images of this set run, permanently.
    Permanent(Images),
    /// The images of a set on trial run again.
    TrialAgain {
        /// The set.
        set: Images,
        /// The number of boots that are left to it to be confirmed.
        left: u32,
    },
}

/// The result of a boot that answered. Start the images.
#[derive(Clone, Copy, Debug)]
pub struct Boot {
    pub(crate) result: sys::CallResult,
    pub(crate) is_trial_again: bool,
    pub(crate) reverted: Images,
}

impl Boot {
    /// Returns what runs now.
    pub const fn decision(&self) -> Decision {
        let set = Images(self.result.set);
        if self.is_trial_again {
            Decision::TrialAgain { set, left: self.result.left }
        } else if set.is_empty() {
            Decision::Plain
        } else if self.result.permanent != 0 {
            Decision::Permanent(set)
        } else {
            Decision::Trial(set)
        }
    }

    /// Returns the images that this boot reverted before it decided: they weren't confirmed, and
    /// their old ones run again.
    pub const fn reverted(&self) -> Images {
        self.reverted
    }

    /// Returns the running version of each image. There are none after
    /// [`Decision::TrialAgain`].
    pub fn versions(&self) -> &[Version] {
        first(&self.result.versions, self.result.images)
    }

    /// Returns the requests that weren't taken, in the order of the report. There are none after
    /// [`Decision::TrialAgain`].
    pub fn refusals(&self) -> &[sys::Refusal] {
        first(&self.result.refused, self.result.refusals)
    }

    /// Returns the number of writes of the flash that the boot took, in all its attempts.
    pub const fn writes(&self) -> u64 {
        self.result.writes
    }
}

/// The texts of a boot, for a log or a server: the table of what was requested, and the report of
/// what was decided. `docs/FORMATS.md` of the repository describes both.
#[derive(Clone, Copy, Debug, PartialEq, Eq)]
pub struct Texts<'t> {
    /// The table. Empty if the buffer is too small, and after [`Decision::TrialAgain`].
    pub table: &'t str,
    /// The report, as the table.
    pub report: &'t str,
}

/// How an image is requested.
#[derive(Clone, Copy, Debug, PartialEq, Eq, Hash)]
pub enum Request {
    /// For a trial: it reverts unless it is confirmed.
    Test,
    /// Permanently, without a trial.
    Permanent,
}

/// An image that may be uploaded: a component of a manifest.
#[derive(Clone, Copy, Debug, PartialEq, Eq)]
pub struct Component {
    /// The number of the image.
    pub image: u8,
    /// The length of the file in bytes.
    pub size: u32,
    /// The SHA-256 of the file, as [`digest`](crate::digest) returns it.
    pub digest: [u8; 32],
    /// How it is requested once the upload is finished.
    pub request: Request,
    /// If there is one: the file is only for a device whose running image has this digest, as
    /// [`Description::digest`](crate::Description::digest) returns it.
    pub precursor: Option<[u8; 32]>,
}

impl Component {
    /// The component of a file, for a device with any running image.
    pub fn of(image: u8, file: &[u8], request: Request) -> Self {
        let size = u32::try_from(file.len()).unwrap_or(u32::MAX);
        Self { image, size, digest: crate::digest(file), request, precursor: None }
    }

    /// Returns the component as C has it.
    pub(crate) fn to_sys(self) -> sys::Component {
        sys::Component {
            size: self.size,
            image: self.image,
            is_permanent: u8::from(self.request == Request::Permanent),
            has_precursor: u8::from(self.precursor.is_some()),
            unused: 0,
            digest: self.digest,
            precursor: self.precursor.unwrap_or_default(),
        }
    }
}

/// The state of a device that persists across its boots, as the log of its flash has it.
#[derive(Clone, Copy, Debug, PartialEq, Eq)]
pub struct State {
    /// The phase of an upgrade.
    pub phase: Phase,
    /// The images of the upgrade.
    pub set: Images,
    /// Whether the set stays without a trial.
    pub is_permanent: bool,
    /// In a trial, the number of further boots that it lasts, 0 to 6.
    pub left: u32,
    /// The sequence number of the last accepted manifest. The next may have the same.
    pub sequence: u32,
    /// The lowest security counter that each image may have.
    pub floors: [u32; sys::MAX_IMAGES],
}
