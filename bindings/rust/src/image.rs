//! Images: what is read of one, and how one is made.

use core::fmt;

use crate::numbers::{ImageFault, Status};
use crate::sys;
use crate::values::first;
use crate::{Dependency, Version};

/// The description of an image.
#[derive(Clone, Copy, Debug, PartialEq, Eq)]
pub struct Description(pub(crate) sys::Description);

impl sys::Group {
    /// Returns the dependencies, 1 to 4.
    pub fn alternatives(&self) -> &[Dependency] {
        first(&self.alternatives, self.count)
    }
}

impl Description {
    /// Returns the length in bytes, from the header to the end of the unprotected area.
    pub const fn length(&self) -> u64 {
        self.0.length
    }

    /// Returns the version, `ih_ver`.
    pub const fn version(&self) -> Version {
        self.0.version
    }

    /// Returns the security counter, 0 if it has none.
    pub const fn counter(&self) -> u32 {
        self.0.counter
    }

    /// Returns the flags, `ih_flags`.
    pub const fn flags(&self) -> u32 {
        self.0.flags
    }

    /// Returns what the image needs, in the order of its entries.
    pub fn dependencies(&self) -> &[Dependency] {
        first(&self.0.dependencies, self.0.dependencies_count)
    }

    /// Returns the groups of which it needs one dependency each, in the order of its entries.
    pub fn groups(&self) -> &[sys::Group] {
        first(&self.0.groups, self.0.groups_count)
    }

    /// Returns the SHA-256 of its header, body and protected area.
    pub const fn digest(&self) -> &[u8; 32] {
        &self.0.digest
    }
}

/// Describes the image that the bytes are.
///
/// # Errors
/// The first check that fails.
///
/// ```
/// use bootswap::{describe, make_image, ImageFault, ImageParts, Version};
///
/// let mut buffer = [0; 200];
/// let parts = ImageParts { version: Version::new(1, 2, 3), ..ImageParts::default() };
/// let length = make_image(&parts, b"a body", &mut buffer)?;
/// let description = describe(&buffer[..length]).unwrap();
/// assert_eq!(description.version(), parts.version);
/// assert_eq!(describe(&buffer[..length - 1]), Err(ImageFault::Truncated));
/// # Ok::<(), bootswap::NotMade>(())
/// ```
pub fn describe(bytes: &[u8]) -> Result<Description, ImageFault> {
    crate::library::describe(bytes).map(Description)
}

/// Returns the SHA-256 of bytes (FIPS 180-4).
///
/// ```
/// assert_eq!(bootswap::digest(b"abc")[..4], [0xba, 0x78, 0x16, 0xbf]);
/// ```
pub fn digest(bytes: &[u8]) -> [u8; 32] {
    crate::library::digest(bytes)
}

/// Why there is no description of the image of a slot.
#[derive(Clone, Copy, Debug, PartialEq, Eq)]
#[non_exhaustive]
pub enum SlotError {
    /// The slot begins with no intact image: the first check that fails.
    Image(ImageFault),
    /// There is no such slot: [`Status::NoImage`], or what is wrong with the setup or the flash.
    NotMade(Status),
    /// The library returned a number that this crate doesn't know: it is of another version.
    Unknown(u32),
}

impl fmt::Display for SlotError {
    fn fmt(&self, to: &mut fmt::Formatter<'_>) -> fmt::Result {
        match self {
            Self::Image(fault) => write!(to, "no intact image: {}", fault),
            Self::NotMade(status) => write!(to, "no call was made: {}", status),
            Self::Unknown(number) => write!(to, "an unknown number: {}", number),
        }
    }
}

/// One of the two slots of an image.
#[derive(Clone, Copy, Debug, PartialEq, Eq, Hash)]
pub enum Side {
    /// The slot of the running image.
    Primary = 0,
    /// The slot of uploads, and of the old image during a trial.
    Secondary = 1,
}

/// The values of an image that is made, besides its body. By default it has a header of 32 bytes
/// and version 0.0.0.
#[derive(Clone, Copy, Debug, PartialEq, Eq)]
pub struct ImageParts<'p> {
    /// `ih_ver`.
    pub version: Version,
    /// `ih_hdr_size`: the length of the header in bytes, with the zero bytes after its fields, at
    /// least 32. 512 suits the vector table of a Cortex-M.
    pub header_size: u16,
    /// `ih_load_addr`.
    pub load_address: u32,
    /// `ih_flags`: of 0x1, 0x10 and 0x100.
    pub flags: u32,
    /// The security counter, if it has one.
    pub counter: Option<u32>,
    /// What it needs, at most 16.
    pub dependencies: &'p [Dependency],
    /// Groups of 1 to 4 dependencies, of which it needs one each, at most 4.
    pub groups: &'p [&'p [Dependency]],
}

impl Default for ImageParts<'_> {
    fn default() -> Self {
        Self {
            version: Version::default(),
            header_size: 32,
            load_address: 0,
            flags: 0,
            counter: None,
            dependencies: &[],
            groups: &[],
        }
    }
}

/// Why an image isn't made. The buffer is unchanged.
#[derive(Clone, Copy, Debug, PartialEq, Eq)]
pub enum NotMade {
    /// No image has these values, for example if a needed image has a number above 255.
    BadImage,
    /// The buffer is too small for an image of this length in bytes.
    TooSmall(u64),
}

impl fmt::Display for NotMade {
    fn fmt(&self, to: &mut fmt::Formatter<'_>) -> fmt::Result {
        match self {
            Self::BadImage => to.write_str("no image has these values"),
            Self::TooSmall(length) => write!(to, "the image has {} bytes", length),
        }
    }
}

/// Makes an image of a body at the front of a buffer, and returns its length in bytes, with the
/// bytes that `bootswap make-image` writes. The bytes after it stay as they were.
///
/// An image has 40 bytes more than its header and body, and at most 476 more if it has a security
/// counter, dependencies or groups.
///
/// # Errors
/// [`NotMade`]: the buffer is unchanged.
///
/// ```
/// use bootswap::{describe, make_image, Dependency, ImageParts, NotMade, Version};
///
/// // Version 2.0.0, which needs that version of image 1.
/// let needs = [Dependency { image: 1, minimum: Version::new(2, 0, 0) }];
/// let version = Version::new(2, 0, 0);
/// let parts = ImageParts { version, dependencies: &needs, ..ImageParts::default() };
/// let mut buffer = [0; 200];
/// let length = make_image(&parts, b"a body", &mut buffer)?;
/// assert_eq!(describe(&buffer[..length]).unwrap().dependencies(), needs);
/// assert_eq!(make_image(&parts, b"a body", &mut [0; 8]), Err(NotMade::TooSmall(length as u64)));
/// # Ok::<(), NotMade>(())
/// ```
pub fn make_image(parts: &ImageParts<'_>, body: &[u8], image: &mut [u8]) -> Result<usize, NotMade> {
    crate::library::make_image(&parts.to_sys().ok_or(NotMade::BadImage)?, body, image)
}

impl ImageParts<'_> {
    /// Returns the parts as C has them, or `None` if there are more than C has place for.
    fn to_sys(self) -> Option<sys::ImageParts> {
        let mut dependencies = [Dependency::default(); sys::MAX_DEPENDENCIES];
        dependencies.get_mut(..self.dependencies.len())?.copy_from_slice(self.dependencies);
        let no_group = sys::Group { count: 0, alternatives: Default::default() };
        let mut groups = [no_group; sys::MAX_GROUPS];
        for (to, from) in groups.get_mut(..self.groups.len())?.iter_mut().zip(self.groups) {
            to.alternatives.get_mut(..from.len())?.copy_from_slice(from);
            to.count = from.len() as u32;
        }
        Some(sys::ImageParts {
            load_address: self.load_address,
            header_size: self.header_size,
            has_counter: u8::from(self.counter.is_some()),
            unused: 0,
            flags: self.flags,
            version: self.version,
            counter: self.counter.unwrap_or(0),
            dependencies_count: self.dependencies.len() as u32,
            groups_count: self.groups.len() as u32,
            dependencies,
            groups,
        })
    }
}
